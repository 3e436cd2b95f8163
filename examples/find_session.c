/*
 * Finds a session in a trail: the records in which a subject or process token has it, with their event, time and user, and below
 * each its paths and texts.
 *
 *    find_session SESSION < TRAIL
 *
 * Exit status 0 where the trail was read to its end; 1 where it was refused or is still being written, which is said; 2 for wrong
 * usage, or where something cannot be read or written.
 */
#include <errno.h>
#include <inttypes.h>
#include <stdio.h>
#include <stdlib.h>
#include <string.h>

#include "bsm.h"

/* A trail comes from elsewhere: what is not printable is escaped, so that it cannot steer a terminal. */
static void print_text(const uint8_t *text, size_t length)
{
    putchar('\t');
    for (size_t i = 0; i < length; i++)
        if (text[i] >= ' ' && text[i] <= '~' && text[i] != '\\')
            putchar(text[i]);
        else
            printf("\\x%02x", text[i]);
    putchar('\n');
}

static int is_party(const bsm_token *t)
{
    switch (t->token) {
    case BSM_ID_SUBJECT32:
    case BSM_ID_SUBJECT64:
    case BSM_ID_SUBJECT32_EX:
    case BSM_ID_SUBJECT64_EX:
    case BSM_ID_PROCESS32:
    case BSM_ID_PROCESS64:
    case BSM_ID_PROCESS32_EX:
    case BSM_ID_PROCESS64_EX:
        return 1;
    default:
        return 0;
    }
}

/* The body's first subject or process token of the session; its kind is BSM_NO_TOKEN where there is none. */
static bsm_token find_party(const uint8_t *body, size_t length, uint64_t session)
{
    bsm_token t;
    for (size_t place = 0; (t = bsm_token_at(body, length, place)).kind == BSM_TOKEN; place += t.size)
        if (is_party(&t) && t.values[BSM_PARTY_SESSION] == session)
            break;
    return t;
}

static void print_texts(const uint8_t *body, size_t length)
{
    bsm_token t;
    for (size_t place = 0; (t = bsm_token_at(body, length, place)).kind == BSM_TOKEN; place += t.size)
        if (t.token == BSM_ID_PATH || t.token == BSM_ID_TEXT)
            print_text(body + t.start, t.length);
}

static void print_record(const uint8_t *trail, size_t place, const bsm_item *record, uint64_t session)
{
    const uint8_t *body = trail + record->start;
    bsm_token party = find_party(body, record->length, session);
    if (party.kind != BSM_TOKEN)
        return;
    printf("%zu\tevent %" PRIu64 "\t%" PRIu64 ".%09" PRIu64 "\tuser %" PRIu64 "\n", place, record->event, record->seconds,
        record->fraction, party.values[BSM_PARTY_AUDIT]);
    print_texts(body, record->length);
}

/* All of standard input; nothing where memory or a read fails. */
static uint8_t *read_all(size_t *length)
{
    uint8_t *bytes = NULL;
    size_t room = 0;
    *length = 0;
    do {
        room = room ? 2 * room : 65536;
        uint8_t *larger = realloc(bytes, room);
        if (!larger) {
            free(bytes);
            return NULL;
        }
        bytes = larger;
        *length += fread(bytes + *length, 1, room - *length, stdin);
    } while (*length == room);
    if (ferror(stdin)) {
        free(bytes);
        return NULL;
    }
    return bytes;
}

/* Prints the records of the session, and answers the end or the refusal at which the reading stopped. */
static bsm_item find(const uint8_t *trail, size_t length, uint64_t session)
{
    bsm_step s = {.place = 0};
    for (;;) {
        size_t place = s.place;
        s = bsm_next(trail, length, place, s.records, s.files);
        if (s.item.kind == BSM_RECORD)
            print_record(trail, place, &s.item, session);
        else if (s.item.kind != BSM_FILE)
            return s.item;
    }
}

/* A session's number; 0 is answered where the word is none. */
static int read_session(const char *word, uint64_t *session)
{
    char *end;
    *session = strtoull(word, &end, 10);
    return *word >= '0' && *word <= '9' && *end == 0 && *session <= UINT32_MAX;
}

static int failed(void)
{
    fprintf(stderr, "find_session: %s\n", strerror(errno));
    return 2;
}

int main(int count, char **words)
{
    uint64_t session;
    if (count != 2 || !read_session(words[1], &session)) {
        fprintf(stderr, "usage: find_session SESSION < TRAIL\n");
        return 2;
    }
    size_t length;
    uint8_t *trail = read_all(&length);
    if (!trail)
        return failed();
    bsm_item stop = find(trail, length, session);
    free(trail);
    if (fflush(stdout) || ferror(stdout))
        return failed();
    if (stop.kind == BSM_END)
        return 0;
    fprintf(stderr, "find_session: refusal %" PRIu64 ", place %" PRIu64 ", need %" PRIu64 "%s\n", stop.number, stop.place,
        stop.need, stop.number == BSM_REFUSAL_SHORT ? ": still being written" : "");
    return 1;
}
