/* Uses the library from C: writes every kind of token, a file token and records, reads them from both ends, finds them by their
   numbers, lists them, and tries texts and types that are spoilt, records of two subjects, versions and addresses of all sizes,
   destinations and tables that are too small and buffers that are not there. What it expects is computed from what it wrote. Exit
   status 0 where every assertion holds. */
#undef NDEBUG
#include <assert.h>
#include <stddef.h>
#include <stdio.h>
#include <string.h>

#include "bsm.h"

#define REST(buffer, used) (buffer) + (used), sizeof(buffer) - (used)
#define TEXT(s) (const uint8_t *)(s), sizeof(s) - 1
#define VALUES(...) (const uint64_t[10]){__VA_ARGS__}

/* Bytes of the headers, of the trailer and of an address's type, and where the type stands in a header. */
enum { HEADER32 = 18, HEADER64 = 26, TRAILER = 7, TYPE = 4, TYPE_AT = 10 };
enum { LEAST32 = HEADER32 + TRAILER, LEAST64 = HEADER64 + TRAILER };

/* Addresses; the second has bytes of a trailer. */
static const uint8_t ipv4[] = {192, 0, 2, 7};
static const uint8_t ipv6[] = {0x20, 1, 0x0D, 0xB8, 0x13, 0xB1, 5, 0, 0, 0, 0x19, 0, 0, 0, 0, 7};

/* A bsm_item is sixteen numbers; those of the address stand between the part and the refusal. */
_Static_assert(sizeof(bsm_item) == 16 * sizeof(uint64_t), "sixteen numbers");
_Static_assert(offsetof(bsm_item, address_start) == offsetof(bsm_item, length) + 8, "behind the part");
_Static_assert(offsetof(bsm_item, address_length) == offsetof(bsm_item, address_start) + 8, "start and length");
_Static_assert(offsetof(bsm_item, number) == offsetof(bsm_item, address_length) + 8, "before the refusal");
_Static_assert(offsetof(bsm_step, place) == sizeof(bsm_item) && offsetof(bsm_before, place) == sizeof(bsm_item), "behind the item");
_Static_assert(offsetof(bsm_found, place) == sizeof(bsm_item), "behind the item");
_Static_assert(offsetof(bsm_filled, count) == sizeof(bsm_outcome) && sizeof(bsm_filled) == 7 * sizeof(uint64_t), "behind the run");

/* A token of each kind, the expanded ones with either address. They are no record's body: they have SUBJECTS subjects. */
enum { EVERY = 30, SUBJECTS = 6, PROCESSES = 6 };
static uint8_t every[1024];
static size_t every_size;
static bsm_part subjects[SUBJECTS], processes[PROCESSES];

/* The body of the records: all of these but for the subjects, of which it has one. */
static uint8_t body[1024];
static size_t body_size, tokens;

static uint8_t trail[4096];
static size_t trail_size, record_place, second_place;

static int refused(bsm_written w, uint64_t number, uint64_t place)
{
    return w.written == 0 && w.number == number && w.place == place && w.need == 0;
}

static int accepted(bsm_written w, size_t size)
{
    return w.written == size && w.number == 0 && w.place == 0 && w.need == 0;
}

/* w wrote the token with this number behind all others: `fixed` bytes, then `length` of its tail, then `behind` (a text's zero). */
static void token(bsm_written w, uint64_t number, size_t fixed, size_t length, size_t behind, uint64_t count,
    const uint64_t *values)
{
    assert(accepted(w, fixed + length + behind));
    bsm_token t = bsm_token_at(every, every_size + w.written, every_size);
    assert(t.kind == BSM_TOKEN && t.token == number && t.size == w.written && t.count == count);
    assert(t.start == every_size + fixed && t.length == length);
    for (size_t i = 0; i < 10; i++)
        assert(t.values[i] == values[i]);
    assert(t.number == 0 && t.place == 0 && t.need == 0);
    every_size += w.written;
}

static void write_texts(void)
{
    const uint32_t groups[] = {10, 20, UINT32_MAX};
    token(bsm_write_path(REST(every, every_size), TEXT("/etc/passwd")), BSM_ID_PATH, 3, 11, 1, 12, VALUES(0));
    token(bsm_write_text(REST(every, every_size), TEXT("")), BSM_ID_TEXT, 3, 0, 1, 1, VALUES(0));
    token(bsm_write_opaque(REST(every, every_size), TEXT("\0\1\2")), BSM_ID_OPAQUE, 3, 3, 0, 3, VALUES(0));
    token(bsm_write_arg32(REST(every, every_size), 1, 700, TEXT("fd")), BSM_ID_ARG32, 8, 2, 1, 3,
        VALUES([BSM_ARG_ARGUMENT] = 1, [BSM_ARG_VALUE] = 700));
    token(bsm_write_arg64(REST(every, every_size), 2, UINT64_MAX, TEXT("length")), BSM_ID_ARG64, 12, 6, 1, 7,
        VALUES([BSM_ARG_ARGUMENT] = 2, [BSM_ARG_VALUE] = UINT64_MAX));
    token(bsm_write_newgroups(REST(every, every_size), groups, 3), BSM_ID_NEWGROUPS, 3, sizeof groups, 0, 3, VALUES(0));
    token(bsm_write_exec_args(REST(every, every_size), 2, TEXT("ls\0-l\0")), BSM_ID_EXEC_ARGS, 5, 6, 0, 2, VALUES(0));
    token(bsm_write_exec_env(REST(every, every_size), 0, TEXT("")), BSM_ID_EXEC_ENV, 5, 0, 0, 0, VALUES(0));
}

static void write_values(void)
{
    token(bsm_write_return32(REST(every, every_size), 255, 5), BSM_ID_RETURN32, 6, 0, 0, 0,
        VALUES([BSM_RETURN_ERROR] = 255, [BSM_RETURN_VALUE] = 5));
    token(bsm_write_return64(REST(every, every_size), 0, UINT64_MAX), BSM_ID_RETURN64, 10, 0, 0, 0,
        VALUES([BSM_RETURN_ERROR] = 0, [BSM_RETURN_VALUE] = UINT64_MAX));
    token(bsm_write_in_addr(REST(every, every_size), 0x7F000001), BSM_ID_IN_ADDR, 5, 0, 0, 0,
        VALUES([BSM_IN_ADDR_ADDRESS] = 0x7F000001));
    token(bsm_write_ip(REST(every, every_size), 69, 1, 60000, 2, 3, 64, 6, 65535, 4, UINT32_MAX), BSM_ID_IP, 21, 0, 0, 0,
        VALUES([BSM_IP_VERSION] = 69, [BSM_IP_SERVICE] = 1, [BSM_IP_LENGTH] = 60000, [BSM_IP_ID] = 2, [BSM_IP_OFFSET] = 3,
            [BSM_IP_TTL] = 64, [BSM_IP_PROTOCOL] = 6, [BSM_IP_CHECKSUM] = 65535, [BSM_IP_SOURCE] = 4,
            [BSM_IP_DESTINATION] = UINT32_MAX));
    token(bsm_write_iport(REST(every, every_size), 8080), BSM_ID_IPORT, 3, 0, 0, 0, VALUES([BSM_IPORT_PORT] = 8080));
    token(bsm_write_seq(REST(every, every_size), 9), BSM_ID_SEQ, 5, 0, 0, 0, VALUES([BSM_SEQ_SEQUENCE] = 9));
    token(bsm_write_ipc_perm(REST(every, every_size), 1, 2, 3, 4, 5, 6, 7), BSM_ID_IPC_PERM, 29, 0, 0, 0,
        VALUES([BSM_IPC_USER] = 1, [BSM_IPC_GROUP] = 2, [BSM_IPC_CREATOR_USER] = 3, [BSM_IPC_CREATOR_GROUP] = 4,
            [BSM_IPC_MODE] = 5, [BSM_IPC_SEQUENCE] = 6, [BSM_IPC_KEY] = 7));
    token(bsm_write_exit(REST(every, every_size), 3, 4), BSM_ID_EXIT, 9, 0, 0, 0,
        VALUES([BSM_EXIT_STATUS] = 3, [BSM_EXIT_VALUE] = 4));
}

#define PARTY(port, address)                                                                                                       \
    VALUES([BSM_PARTY_AUDIT] = 1, [BSM_PARTY_EFFECTIVE_USER] = 2, [BSM_PARTY_EFFECTIVE_GROUP] = 3, [BSM_PARTY_REAL_USER] = 4,      \
        [BSM_PARTY_REAL_GROUP] = 5, [BSM_PARTY_PROCESS] = 6, [BSM_PARTY_SESSION] = 7, [BSM_PARTY_PORT] = port,                     \
        [BSM_PARTY_ADDRESS] = address)

static void write_parties(void)
{
    const uint64_t wide = (uint64_t)1 << 40;
    token(bsm_write_subject32(REST(every, every_size), 1, 2, 3, 4, 5, 6, 7, 8, 9), BSM_ID_SUBJECT32, 37, 0, 0, 0, PARTY(8, 9));
    token(bsm_write_process32(REST(every, every_size), 1, 2, 3, 4, 5, 6, 7, 8, 9), BSM_ID_PROCESS32, 37, 0, 0, 0, PARTY(8, 9));
    token(bsm_write_subject64(REST(every, every_size), 1, 2, 3, 4, 5, 6, 7, wide, 9), BSM_ID_SUBJECT64, 41, 0, 0, 0, PARTY(wide, 9));
    token(bsm_write_process64(REST(every, every_size), 1, 2, 3, 4, 5, 6, 7, wide, 9), BSM_ID_PROCESS64, 41, 0, 0, 0, PARTY(wide, 9));
}

/* The expanded tokens: the address is their tail, its length their type. */
static void write_expanded(const uint8_t *address, size_t n)
{
    const uint64_t wide = (uint64_t)1 << 40;
    const size_t first = every_size;
    token(bsm_write_subject32_ex(REST(every, every_size), 1, 2, 3, 4, 5, 6, 7, 8, address, n), BSM_ID_SUBJECT32_EX, 37, n, 0, n,
        PARTY(8, 0));
    token(bsm_write_process32_ex(REST(every, every_size), 1, 2, 3, 4, 5, 6, 7, 8, address, n), BSM_ID_PROCESS32_EX, 37, n, 0, n,
        PARTY(8, 0));
    token(bsm_write_subject64_ex(REST(every, every_size), 1, 2, 3, 4, 5, 6, 7, wide, address, n), BSM_ID_SUBJECT64_EX, 41, n, 0, n,
        PARTY(wide, 0));
    token(bsm_write_process64_ex(REST(every, every_size), 1, 2, 3, 4, 5, 6, 7, wide, address, n), BSM_ID_PROCESS64_EX, 41, n, 0, n,
        PARTY(wide, 0));
    token(bsm_write_in_addr_ex(REST(every, every_size), address, n), BSM_ID_IN_ADDR_EX, 5, n, 0, n, VALUES(0));
    bsm_token t;
    for (size_t place = first; place < every_size; place += t.size) {
        t = bsm_token_at(every, every_size, place);
        assert(memcmp(every + t.start, address, n) == 0 && t.start + t.length == place + t.size);
        assert(memcmp(every + t.start - TYPE, (const uint8_t[]){0, 0, 0, (uint8_t)n}, TYPE) == 0);
    }
}

static int is_subject(uint64_t number)
{
    return number == BSM_ID_SUBJECT32 || number == BSM_ID_SUBJECT64 || number == BSM_ID_SUBJECT32_EX || number == BSM_ID_SUBJECT64_EX;
}

static int is_process(uint64_t number)
{
    return number == BSM_ID_PROCESS32 || number == BSM_ID_PROCESS64 || number == BSM_ID_PROCESS32_EX || number == BSM_ID_PROCESS64_EX;
}

/* Where the subjects and the processes stand; all tokens are good, but no body has them all. */
static void find_parties(void)
{
    size_t all = 0, subject = 0, process = 0;
    bsm_token t;
    for (size_t place = 0; (t = bsm_token_at(every, every_size, place)).kind == BSM_TOKEN; place += t.size, all++) {
        if (is_subject(t.token))
            subjects[subject++] = (bsm_part){place, t.size};
        if (is_process(t.token))
            processes[process++] = (bsm_part){place, t.size};
    }
    assert(t.kind == BSM_NO_TOKEN && all == EVERY && subject == SUBJECTS && process == PROCESSES);
    assert(refused(bsm_walk_body(every, every_size), 14, subjects[1].start));
}

/* Makes the body with this one of the subjects. */
static void take_subject(size_t kept)
{
    body_size = tokens = 0;
    bsm_token t;
    for (size_t place = 0; (t = bsm_token_at(every, every_size, place)).kind == BSM_TOKEN; place += t.size) {
        if (is_subject(t.token) && place != subjects[kept].start)
            continue;
        memcpy(body + body_size, every + place, t.size);
        body_size += t.size;
        tokens++;
    }
    assert(tokens == EVERY - SUBJECTS + 1);
}

/* The body as a whole, the strings of its first two tokens, its end, and places that are refused. */
static void read_body(void)
{
    assert(accepted(bsm_walk_body(body, body_size), tokens));
    bsm_part path = bsm_text_at(body, body_size, 0);
    assert(path.start == 3 && path.length == 11 && memcmp(body + path.start, "/etc/passwd", 11) == 0);
    bsm_part empty = bsm_text_at(body, body_size, 15);
    assert(empty.start == 18 && empty.length == 0);
    bsm_part opaque = bsm_text_at(body, body_size, 19);
    assert(opaque.start == 0 && opaque.length == 0);

    bsm_token end = bsm_token_at(body, body_size, body_size), beyond = bsm_token_at(body, body_size, body_size + 1);
    assert(end.kind == BSM_NO_TOKEN && end.number == 0 && end.size == 0);
    assert(beyond.kind == BSM_TOKEN_REFUSED && beyond.number == 2 && beyond.place == body_size + 1 && beyond.need == 0);
    assert(refused(bsm_walk_body(body, 14), 7, 0));
    assert(refused(bsm_walk_body(body + 1, body_size - 1), 6, 0));
}

/* A file token, and the body in a record of each kind. */
static void write_trail(void)
{
    assert(accepted(bsm_write_file(REST(trail, 0), 5, 999999, TEXT("20240131")), 11 + 8 + 1));
    record_place = 20;
    bsm_written first = bsm_write_record32(REST(trail, record_place), 11, 72, 1, 1000, 2000, body, body_size);
    assert(accepted(first, HEADER32 + body_size + TRAILER));
    second_place = record_place + first.written;
    bsm_written second = bsm_write_record64(REST(trail, second_place), 11, 73, 0, (uint64_t)1 << 33, 999999999, body, 0);
    assert(accepted(second, LEAST64));
    trail_size = second_place + second.written;

    assert(trail[0] == BSM_ID_FILE && trail[record_place] == BSM_ID_HEADER32 && trail[second_place] == BSM_ID_HEADER64);
    assert(trail[trail_size - TRAILER] == BSM_ID_TRAILER);
    assert(memcmp(trail + record_place + HEADER32, body, body_size) == 0);
    assert(memcmp(trail + second_place - TRAILER, "\x13\xB1\x05\0\0", 5) == 0);
}

static int same_part(bsm_part p, uint64_t start, uint64_t length)
{
    return p.start == start && p.length == length;
}

static void read_items(void)
{
    bsm_item f = bsm_item_at(trail, trail_size, 0);
    assert(f.kind == BSM_FILE && f.size == 20 && f.header == 0 && f.seconds == 5 && f.fraction == 999999 && f.tokens == 0);
    assert(same_part(bsm_name_at(trail, trail_size, 0), 11, 8) && memcmp(trail + 11, "20240131", 9) == 0);
    assert(same_part(bsm_body_at(trail, trail_size, 0), 0, 0));

    bsm_item r = bsm_item_at(trail, trail_size, record_place);
    assert(r.kind == BSM_RECORD && r.size == LEAST32 + body_size && r.header == BSM_ID_HEADER32 && r.version == 11 && r.event == 72);
    assert(r.modifier == 1 && r.seconds == 1000 && r.fraction == 2000 && r.tokens == tokens && r.number == 0);
    assert(same_part(bsm_body_at(trail, trail_size, record_place), record_place + HEADER32, body_size));
    assert(same_part(bsm_name_at(trail, trail_size, record_place), 0, 0));
    assert(r.address_start == 0 && r.address_length == 0 && f.address_start == 0 && f.address_length == 0);
    for (size_t place = 0; place <= trail_size + 1; place++)
        assert(same_part(bsm_address_at(trail, trail_size, place), 0, 0));

    bsm_item w = bsm_item_at(trail, trail_size, second_place);
    assert(w.kind == BSM_RECORD && w.size == LEAST64 && w.header == BSM_ID_HEADER64 && w.seconds == (uint64_t)1 << 33 && w.tokens == 0);
    assert(same_part(bsm_body_at(trail, trail_size, second_place), second_place + HEADER64, 0));

    assert(bsm_item_at(trail, trail_size, trail_size).kind == BSM_END);
    bsm_item cut = bsm_item_at(trail, trail_size - 1, second_place);
    assert(cut.kind == BSM_REFUSED && cut.number == 1 && cut.place == second_place && cut.need == LEAST64 && cut.size == 0);
    bsm_item beyond = bsm_item_at(trail, trail_size, SIZE_MAX);
    assert(beyond.kind == BSM_REFUSED && beyond.number == 2 && beyond.place == SIZE_MAX && beyond.need == 0);
}

/* Steps and the run agree; a run goes on where one on a shorter trail has stopped. */
static void read_trail(void)
{
    bsm_step s = {.place = 0};
    size_t seen = 0;
    while ((s = bsm_next(trail, trail_size, s.place, s.records, s.files)).item.kind != BSM_END)
        assert(s.item.kind != BSM_REFUSED && ++seen <= 3);
    bsm_outcome all = bsm_run(trail, trail_size, 0, 0, 0);
    assert(all.place == trail_size && all.records == 2 && all.files == 1 && all.number == 0 && all.at == 0 && all.need == 0);
    assert(seen == 3 && s.place == all.place && s.records == all.records && s.files == all.files);

    bsm_outcome part = bsm_run(trail, second_place - 1, 0, 0, 0);
    assert(part.place == record_place && part.records == 0 && part.files == 1);
    assert(part.number == 1 && part.at == record_place && part.need == LEAST32 + body_size);
    bsm_outcome rest = bsm_run(trail, trail_size, part.place, part.records, part.files);
    assert(memcmp(&rest, &all, sizeof all) == 0);

    bsm_outcome high = bsm_run(trail, trail_size, 1, 1, 1);
    assert(high.place == 1 && high.records == 1 && high.files == 1 && high.number == 2 && high.at == 1 && high.need == 0);
}

/* b led to this place, and is what reading forward from there answers. */
static int record_at(bsm_before b, const uint8_t *t, size_t n, size_t place)
{
    bsm_item r = bsm_item_at(t, n, place);
    return r.kind == BSM_RECORD && b.place == place && memcmp(&b.item, &r, sizeof r) == 0;
}

static int boundary(bsm_before b, size_t place, uint64_t need)
{
    const bsm_item none = {.kind = BSM_BOUNDARY, .need = need};
    return b.place == place && memcmp(&b.item, &none, sizeof none) == 0;
}

/* From the end, newest first: both records, then the file token's end. No other place is a record's end. */
static void read_back(void)
{
    bsm_before b = bsm_record_before(trail, trail_size, trail_size);
    assert(record_at(b, trail, trail_size, second_place) && b.item.event == 73);
    b = bsm_record_before(trail, trail_size, b.place);
    assert(record_at(b, trail, trail_size, record_place) && b.item.event == 72 && b.item.tokens == tokens);
    assert(boundary(bsm_record_before(trail, trail_size, b.place), record_place, 0));
    for (size_t place = 0; place < trail_size; place++)
        if (place != second_place)
            assert(boundary(bsm_record_before(trail, trail_size, place), place, place < 7 ? 7 : 0));
    bsm_before beyond = bsm_record_before(trail, trail_size, SIZE_MAX);
    assert(beyond.item.kind == BSM_REFUSED && beyond.item.number == 2 && beyond.item.place == SIZE_MAX && beyond.place == SIZE_MAX);

    /* Only the end of the trail: what is missing in front is told, and bytes behind the place do not count. */
    const uint8_t *t = trail + record_place;
    const size_t n = trail_size - record_place, middle = second_place - record_place;
    assert(record_at(bsm_record_before(t, n, middle), t, n, 0) && boundary(bsm_record_before(t, n, 0), 0, 7));
    for (size_t gone = 1; gone < middle - TRAILER; gone++)
        assert(boundary(bsm_record_before(t + gone, n - gone, middle - gone), middle - gone, middle));
}

/* A trail of many records of several sizes and headers, record r with event r, with file tokens before, between and behind them. */
enum { MANY = 300, ENTRIES = (MANY + BSM_RECORDS_PER_ENTRY - 1) / BSM_RECORDS_PER_ENTRY };
static uint8_t many[MANY * 64];
static size_t many_size, places[MANY];

static void write_file_token(void)
{
    bsm_written w = bsm_write_file(REST(many, many_size), 5, 7, TEXT("20240131"));
    assert(accepted(w, 20));
    many_size += w.written;
}

static bsm_written write_record(uint16_t r, const uint8_t *b, size_t n)
{
    if (r % 5 == 4)
        return bsm_write_record32_ex(REST(many, many_size), 11, r, 0, 1, 2, ipv6, sizeof ipv6, b, n);
    return (r % 3 ? bsm_write_record32 : bsm_write_record64)(REST(many, many_size), 11, r, 0, 1, 2, b, n);
}

/* Writes it; the place of each record is the one that a step finds. */
static void write_many(void)
{
    for (uint16_t r = 0; r < MANY; r++) {
        uint8_t b[32];
        const size_t n = bsm_write_opaque(REST(b, 0), ipv6, r % 17).written;
        if (r % 32 == 0 || r % 50 == 17)
            write_file_token();
        bsm_written w = write_record(r, b, n);
        assert(w.number == 0);
        many_size += w.written;
    }
    write_file_token();

    bsm_step s = {.place = 0};
    for (size_t at = 0; (s = bsm_next(many, many_size, at, s.records, s.files)).item.kind != BSM_END; at = s.place) {
        assert(s.item.kind != BSM_REFUSED);
        if (s.item.kind == BSM_RECORD) {
            assert(s.item.event == s.records - 1);
            places[s.records - 1] = at;
        }
    }
    assert(s.place == many_size && s.records == MANY && s.files > MANY / BSM_RECORDS_PER_ENTRY);
}

static uint64_t entries_of(uint64_t n)
{
    return n / BSM_RECORDS_PER_ENTRY + (n % BSM_RECORDS_PER_ENTRY != 0);
}

static bsm_filled fill(size_t length, bsm_outcome from, uint64_t *table, size_t entries)
{
    return bsm_fill_index(many, length, from.place, from.records, from.files, table, entries);
}

/* f is the run over so many bytes, and the table has its entries and no other. */
static void filled(bsm_filled f, size_t length, const uint64_t *table, size_t entries)
{
    bsm_outcome run = bsm_run(many, length, 0, 0, 0);
    assert(memcmp(&f.run, &run, sizeof run) == 0 && f.count == entries_of(run.records) && f.count <= entries);
    for (size_t k = 0; k < entries; k++)
        assert(table[k] == (k < f.count ? places[k * BSM_RECORDS_PER_ENTRY] : UINT64_MAX));
}

/* Number 10 or 2: table and state are as they were. */
static void unfilled(bsm_filled f, bsm_outcome from, uint64_t number, uint64_t at, const uint64_t *table, size_t entries)
{
    assert(f.run.place == from.place && f.run.records == from.records && f.run.files == from.files);
    assert(f.run.number == number && f.run.at == at && f.run.need == 0);
    for (size_t k = 0; k < entries; k++)
        assert(table[k] == UINT64_MAX);
}

/* Tables of each length, from a fresh state and from one between: too small a one is told how many entries it must have. */
static void fill_tables(void)
{
    const bsm_outcome fresh = {.place = 0}, between = bsm_run(many, places[100], 0, 0, 0);
    assert(between.number == 0 && between.records == 100);
    uint64_t table[ENTRIES + 3];
    for (size_t entries = 0; entries <= ENTRIES + 3; entries++) {
        memset(table, 0xFF, sizeof table);
        bsm_filled f = fill(many_size, between, table, entries);
        assert(f.count == ENTRIES);
        if (entries >= ENTRIES) {
            /* Only the records that it reads itself are entered. */
            assert(f.run.number == 0 && f.run.place == many_size && f.run.records == MANY);
            for (size_t k = 0; k < entries; k++)
                assert(table[k] == (k < 2 || k >= ENTRIES ? UINT64_MAX : places[k * BSM_RECORDS_PER_ENTRY]));
            memset(table, 0xFF, sizeof table);
            filled(fill(many_size, fresh, table, entries), many_size, table, entries);
            continue;
        }
        unfilled(f, between, BSM_REFUSAL_NO_ROOM, 0, table, ENTRIES + 3);
        f = fill(many_size, fresh, table, entries);
        assert(f.count == ENTRIES);
        unfilled(f, fresh, BSM_REFUSAL_NO_ROOM, 0, table, ENTRIES + 3);
    }
}

/* A place beyond, and totals above the place: 2 comes before 10. */
static void fill_from_nowhere(void)
{
    const bsm_outcome beyond = {.place = many_size + 1, .records = 129}, high = {.place = 65, .records = 65, .files = 1};
    uint64_t table[3];
    memset(table, 0xFF, sizeof table);
    for (size_t entries = 0; entries <= 3; entries++) {
        bsm_filled f = fill(many_size, beyond, table, entries), g = fill(many_size, high, table, entries);
        assert(f.count == 3 && g.count == 2);
        unfilled(f, beyond, BSM_REFUSAL_PLACE, many_size + 1, table, 3);
        unfilled(g, high, BSM_REFUSAL_PLACE, 65, table, 3);
    }
}

/* The trail comes in pieces of this size; a table that is too small is exchanged for one of the count that it was told. */
static void fill_pieces(size_t piece)
{
    uint64_t tables[2][ENTRIES];
    memset(tables, 0xFF, sizeof tables);
    uint64_t *table = tables[0], *other = tables[1];
    bsm_filled f = {.count = 0};
    size_t entries = 0, moves = 0;
    for (size_t length = 0;; length = many_size - length < piece ? many_size : length + piece) {
        const size_t known = f.count;
        f = fill(length, f.run, table, entries);
        if (f.run.number == BSM_REFUSAL_NO_ROOM) {
            assert(f.count > entries && f.count == entries_of(bsm_run(many, length, 0, 0, 0).records));
            memset(other, 0xFF, sizeof tables[0]);
            memcpy(other, table, known * sizeof *table);
            uint64_t *old = table;
            table = other;
            other = old;
            entries = f.count;
            moves++;
            f = fill(length, f.run, table, entries);
        }
        filled(f, length, table, entries);
        if (length == many_size)
            break;
    }
    assert(f.run.number == 0 && f.count == ENTRIES && moves > 0 && moves <= ENTRIES);
}

/* Two fills, with the first one's end at each place of the trail. */
static void fill_at_each_cut(void)
{
    const bsm_outcome fresh = {.place = 0};
    size_t shorts = 0;
    for (size_t cut = 0; cut <= many_size; cut++) {
        uint64_t table[ENTRIES + 1];
        memset(table, 0xFF, sizeof table);
        bsm_filled f = fill(cut, fresh, table, ENTRIES + 1);
        filled(f, cut, table, ENTRIES + 1);
        shorts += f.run.number == BSM_REFUSAL_SHORT;
        filled(fill(many_size, f.run, table, ENTRIES + 1), many_size, table, ENTRIES + 1);
    }
    assert(shorts > many_size / 2);
}

/* f is record r, with all its fields. */
static int is_record(bsm_found f, size_t length, size_t r)
{
    const bsm_item item = bsm_item_at(many, length, places[r]);
    return item.kind == BSM_RECORD && item.event == r && f.place == places[r] && memcmp(&f.item, &item, sizeof item) == 0;
}

/* There is no record, for this reason. */
static int is_none(bsm_found f, uint64_t number, uint64_t place, uint64_t need)
{
    const bsm_item none = {.kind = number ? BSM_REFUSED : BSM_END, .number = number, .place = place, .need = need};
    return f.place == 0 && memcmp(&f.item, &none, sizeof none) == 0;
}

/* Every record of so many bytes, and some past the last, by a table that they filled and each count up to one beyond its length. */
static void find_each(size_t length, uint64_t number, uint64_t place, uint64_t need)
{
    uint64_t table[ENTRIES];
    const bsm_outcome fresh = {.place = 0};
    bsm_filled f = fill(length, fresh, table, ENTRIES);
    assert(f.run.number == number && f.run.at == place && f.run.need == need);
    for (size_t count = 0; count <= f.count + 1; count++) {
        const size_t entries = count > f.count ? f.count : ENTRIES, given = count > f.count ? SIZE_MAX : count;
        for (size_t n = 0; n < f.run.records; n++)
            assert(is_record(bsm_find_record(many, length, table, entries, given, n), length, n));
        for (size_t past = 0; past < 2 * BSM_RECORDS_PER_ENTRY; past++)
            assert(is_none(bsm_find_record(many, length, table, entries, given, f.run.records + past), number, place, need));
        assert(is_none(bsm_find_record(many, length, table, entries, given, SIZE_MAX), number, place, need));
    }
}

/* Whole, cut inside a record and inside a file token, and damaged. A table filled from a beginning of the trail serves as well. */
static void find_records(void)
{
    find_each(many_size, 0, 0, 0);
    find_each(places[200] + 8, BSM_REFUSAL_SHORT, places[200], bsm_item_at(many, many_size, places[200]).size);
    find_each(many_size - 1, BSM_REFUSAL_SHORT, many_size - 20, 20);
    find_each(0, 0, 0, 0);

    uint64_t table[ENTRIES];
    bsm_filled f = bsm_fill_index(many, places[70] + 1, 0, 0, 0, table, ENTRIES);
    assert(f.count == 2 && f.run.records == 70);
    for (size_t n = 0; n < MANY; n++)
        assert(is_record(bsm_find_record(many, many_size, table, ENTRIES, f.count, n), many_size, n));

    many[places[130]] = 0xFF;
    find_each(many_size, BSM_REFUSAL_NOT_AN_ITEM, places[130], 0);
    many[places[130]] = BSM_ID_HEADER32;
    assert(bsm_run(many, many_size, 0, 0, 0).number == 0);
}

/* Entries that no fill has made: what stands from there on is the answer, and 2 beyond the trail. */
static void find_by_wild_entries(void)
{
    for (size_t place = 0; place < many_size + 3; place++) {
        const uint64_t table[] = {place, UINT64_MAX};
        bsm_found f = bsm_find_record(many, many_size, table, 2, 1, 0);
        bsm_step s = {.place = place};
        while ((s = bsm_next(many, many_size, s.place, 0, 0)).item.kind == BSM_FILE)
            ;
        assert(memcmp(&f.item, &s.item, sizeof f.item) == 0);
        assert(f.place == (s.item.kind == BSM_RECORD ? s.place - s.item.size : 0));
    }
    const uint64_t table[] = {places[10], many_size + 1, UINT64_MAX};
    assert(is_record(bsm_find_record(many, many_size, table, 3, SIZE_MAX, 5), many_size, 15));
    assert(is_record(bsm_find_record(many, many_size, table, 1, SIZE_MAX, 200), many_size, 210));
    assert(is_none(bsm_find_record(many, many_size, table, 3, SIZE_MAX, 127), BSM_REFUSAL_PLACE, many_size + 1, 0));
    assert(is_none(bsm_find_record(many, many_size, table, 3, 3, SIZE_MAX), BSM_REFUSAL_PLACE, UINT64_MAX, 0));
    assert(is_record(bsm_find_record(many, many_size, table, 3, 0, MANY - 1), many_size, MANY - 1));
}

static void index_trail(void)
{
    write_many();
    fill_tables();
    fill_from_nowhere();
    for (size_t piece = 1; piece < many_size; piece = 2 * piece + 1)
        fill_pieces(piece);
    fill_at_each_cut();
    find_records();
    find_by_wild_entries();
}

/* The listing as one text, line by line, and in parts of any room that holds the longest line. */
static void list_trail(void)
{
    char expected[256];
    size_t n = (size_t)snprintf(expected, sizeof expected,
        "bsmlist\t1\nF\t0\t20\t5\t999999\nR\t%zu\t%zu\t72\t1\t1000\t2000\t%zu\nR\t%zu\t%d\t73\t0\t8589934592\t999999999\t0\nE\t2\t1\n",
        record_place, LEAST32 + body_size, tokens, second_place, LEAST64);
    uint8_t lines[256];
    size_t at = bsm_first_line(REST(lines, 0)).written;
    for (size_t place = 0; place < trail_size; place += bsm_item_at(trail, trail_size, place).size)
        at += bsm_item_line(REST(lines, at), trail, trail_size, place).written;
    at += bsm_last_line(REST(lines, at), trail, trail_size, 0, 0, 0).written;
    assert(at == n && memcmp(lines, expected, n) == 0);

    for (size_t room = 45; room <= n; room++) {
        bsm_listing l = {.stage = BSM_LIST_FIRST};
        size_t joined = 0;
        do {
            l = bsm_list(lines, room, trail, trail_size, l.stage, l.place, l.records, l.files);
            assert(0 < l.written && l.written <= room && memcmp(lines, expected + joined, l.written) == 0);
            joined += l.written;
        } while (l.stage != BSM_LIST_DONE);
        assert(joined == n);
    }
    assert(bsm_list(lines, sizeof lines, trail, trail_size, 7, 0, 0, 0).stage == BSM_LIST_DONE);
}

static int listed(bsm_listing l, uint64_t stage, uint64_t place, uint64_t records, uint64_t files, uint64_t written)
{
    return l.stage == stage && l.place == place && l.records == records && l.files == files && l.written == written;
}

/* Room for no line: nothing is written, and the same stage and state come back. */
static void list_no_line(void)
{
    uint8_t out[BSM_LINE_MAX], before[sizeof out];
    memset(out, 0xA5, sizeof out);
    memcpy(before, out, sizeof out);
    size_t line = bsm_item_line(REST(out, 0), trail, trail_size, record_place).written;
    size_t last = bsm_last_line(REST(out, 0), trail, trail_size, 0, 0, 0).written;
    memset(out, 0xA5, sizeof out);
    for (size_t room = 0; room < 10; room++) /* the first line has 10 bytes; a state given with it counts for nothing */
        assert(listed(bsm_list(out, room, trail, trail_size, BSM_LIST_FIRST, 7, 8, 9), BSM_LIST_FIRST, 0, 0, 0, 0));
    for (size_t room = 0; room < line; room++)
        assert(listed(bsm_list(out, room, trail, trail_size, BSM_LIST_AT, record_place, 0, 1), BSM_LIST_AT, record_place, 0, 1, 0));
    for (size_t room = 0; room < last; room++)
        assert(listed(bsm_list(out, room, trail, trail_size, BSM_LIST_AT, trail_size, 2, 1), BSM_LIST_AT, trail_size, 2, 1, 0));
    assert(memcmp(out, before, sizeof out) == 0);
    assert(listed(bsm_list(out, last, trail, trail_size, BSM_LIST_AT, trail_size, 2, 1), BSM_LIST_DONE, 0, 0, 0, last));
}

/* Places where no item stands: nothing is written, and the answer is the same with room and without. */
static void line_of_no_item(void)
{
    uint8_t out[BSM_LINE_MAX], before[sizeof out];
    memset(out, 0xA5, sizeof out);
    memcpy(before, out, sizeof out);
    for (size_t room = 0; room <= sizeof out; room += sizeof out) {
        assert(accepted(bsm_item_line(out, room, trail, trail_size, trail_size), 0));
        bsm_written cut = bsm_item_line(out, room, trail, second_place + 4, second_place);
        assert(cut.written == 0 && cut.number == 1 && cut.place == second_place && cut.need == 5);
        assert(refused(bsm_item_line(out, room, trail, trail_size, trail_size + 1), 2, trail_size + 1));
        assert(refused(bsm_item_line(out, room, trail, trail_size, 1), 3, 1));
    }
    assert(memcmp(out, before, sizeof out) == 0);
    assert(refused(bsm_item_line(out, 10, trail, trail_size, record_place), 10, 0));
}

/* Spoils a byte of the item at a place of a good trail: the item reader, a step and the run refuse it with this number and place. */
static void refuses(uint8_t *t, size_t n, size_t item, size_t at, uint8_t byte, uint64_t number, uint64_t place)
{
    const uint8_t old = t[at];
    t[at] = byte;
    const bsm_item i = bsm_item_at(t, n, item), none = {.kind = BSM_REFUSED, .number = number, .place = place};
    assert(memcmp(&i, &none, sizeof i) == 0);
    bsm_step s = bsm_next(t, n, item, 0, 0);
    assert(s.item.number == number && s.item.place == place && s.place == item);
    bsm_outcome o = bsm_run(t, n, 0, 0, 0);
    assert(o.number == number && o.at == place && o.place == item && o.need == 0);
    t[at] = old;
    assert(bsm_run(t, n, 0, 0, 0).number == 0);
}

/* The same of a text, whose byte is named. */
static void names_byte(uint8_t *t, size_t n, size_t item, size_t at, uint8_t byte, uint64_t place)
{
    refuses(t, n, item, at, byte, BSM_REFUSAL_BAD_TEXT, place);
}

/* Each byte of a file name, and its length. */
static void spoil_name(void)
{
    uint8_t t[64];
    const size_t item = bsm_write_record32(REST(t, 0), 11, 72, 0, 1, 2, NULL, 0).written;
    const size_t n = item + bsm_write_file(REST(t, item), 5, 7, TEXT("20240131")).written, last = n - 1;
    for (size_t at = item + 11; at < last; at++)
        names_byte(t, n, item, at, 0, at);
    names_byte(t, n, item, last, 'x', last);
    names_byte(t, n, item, item + 10, 0, item + 9); /* the length's second byte: it is 0 then */
    names_byte(t, n, item, item + 9, 4, item + 9);  /* its first: 1033 */
}

/* Each byte of a text behind another token: in the record, in the body, and in the body that a record's writer is given. */
static void spoil_text(void)
{
    uint8_t b[32], t[64], d[64];
    size_t n = bsm_write_iport(REST(b, 0), 22).written;
    const size_t token = n, text = n + 3;
    n += bsm_write_text(REST(b, n), TEXT("charter 4711")).written;
    const size_t item = bsm_write_file(REST(t, 0), 5, 7, TEXT("a")).written, start = item + HEADER32, last = n - 1;
    const size_t size = item + bsm_write_record32(REST(t, item), 11, 72, 0, 1, 2, b, n).written;
    for (size_t at = text; at <= last; at++) {
        const uint8_t old = b[at];
        b[at] = at == last ? 'x' : 0;
        names_byte(t, size, item, start + at, b[at], start + at);
        bsm_token k = bsm_token_at(b, n, token);
        assert(k.kind == BSM_TOKEN_REFUSED && k.number == BSM_REFUSAL_BAD_TEXT && k.place == at && k.need == 0);
        assert(refused(bsm_walk_body(b, n), 8, at) && refused(bsm_walk_body(b + token, n - token), 8, at - token));
        assert(refused(bsm_write_record32(REST(d, 0), 0, 0, 0, 0, 0, b, n), 8, at));
        assert(refused(bsm_write_record64(REST(d, 0), 0, 0, 0, 0, 0, b, n), 8, at));
        b[at] = old;
    }
}

/* Texts with several faults, and with length 0. */
static void spoil_texts(void)
{
    assert(refused(bsm_walk_body(TEXT("\x28\0\5a\0b\0c")), 8, 4));
    assert(refused(bsm_walk_body(TEXT("\x28\0\4abcd\x28\0\2\0\0")), 8, 6));
    assert(refused(bsm_walk_body(TEXT("\x23\0\0")), 8, 1));
    assert(refused(bsm_walk_body(TEXT("\x2c\0\0\x28\0\0\x2c\0\0")), 8, 4));
    assert(refused(bsm_walk_body(TEXT("\x2d\1\0\0\0\2\0\0")), 8, 6));
    assert(refused(bsm_walk_body(TEXT("\x71\1\0\0\0\0\0\0\0\2\0\0")), 8, 10));
}

/* A zero byte at each place of a text to be written; names too long and bytes that are not strings have place 0. */
static void spoil_given(void)
{
    uint8_t d[64], name[1024];
    memset(name, 'n', sizeof name);
    for (size_t at = 0; at < 20; at++) {
        name[at] = 0;
        assert(refused(bsm_write_path(REST(d, 0), name, 20), 8, at) && refused(bsm_write_text(REST(d, 0), name, 20), 8, at));
        assert(refused(bsm_write_arg32(REST(d, 0), 1, 2, name, 20), 8, at));
        assert(refused(bsm_write_arg64(REST(d, 0), 1, 2, name, 20), 8, at));
        assert(refused(bsm_write_file(REST(d, 0), 5, 7, name, 20), 8, at));
        assert(refused(bsm_write_file(REST(d, 0), 5, 7, name, 1023), 8, at));
        assert(refused(bsm_write_file(REST(d, 0), 5, 7, name, 1024), 8, 0));
        name[at] = 'n';
    }
    assert(refused(bsm_write_file(REST(d, 0), 5, 7, name, 1024), 8, 0));
    assert(refused(bsm_write_exec_args(REST(d, 0), 2, TEXT("a\0b")), 8, 0));
    assert(refused(bsm_write_exec_env(REST(d, 0), 1, TEXT("a\0b\0")), 8, 0));
}

/* Refused writers change no byte, others none beyond their count. */
static void guard_bytes(void)
{
    uint8_t d[64], before[64];
    memset(d, 0xA5, sizeof d);
    memcpy(before, d, sizeof d);
    assert(refused(bsm_write_path(d + 8, 8, TEXT("/tmp/")), 10, 0));
    assert(refused(bsm_write_path(d + 8, 56, TEXT("/t\0p")), 8, 2));
    assert(refused(bsm_write_file(d + 8, 56, 0, 1000000, TEXT("name")), 9, 0));
    assert(refused(bsm_write_record32(d + 8, LEAST32 - 1, 0, 0, 0, 0, 0, body, 0), 10, 0));
    assert(refused(bsm_write_record32(d + 8, 56, 0, 0, 0, (uint64_t)1 << 32, 0, body, 0), 11, 0));
    assert(refused(bsm_write_record64(d + 8, LEAST64 - 1, 0, 0, 0, 0, 0, body, 0), 10, 0));
    assert(refused(bsm_write_record64(d + 8, 56, 0, 0, 0, 0, 0, body, 18), 7, 15));
    assert(refused(bsm_write_in_addr_ex(d + 8, 8, ipv4, 4), 10, 0) && refused(bsm_write_in_addr_ex(d + 8, 56, ipv6, 15), 13, 0));
    assert(refused(bsm_write_record32_ex(d + 8, LEAST32 + 7, 0, 0, 0, 0, 0, ipv4, 4, body, 0), 10, 0));
    assert(refused(bsm_write_record64_ex(d + 8, 56, 0, 0, 0, 0, 0, ipv6, 5, body, 0), 13, 0));
    assert(refused(bsm_first_line(d + 8, 9), 10, 0));
    assert(memcmp(d, before, sizeof d) == 0);

    assert(accepted(bsm_write_path(d + 8, 9, TEXT("/tmp/")), 9));
    assert(memcmp(d + 8, "\x23\0\6/tmp/\0", 9) == 0);
    assert(memcmp(d, before, 8) == 0 && memcmp(d + 17, before + 17, sizeof d - 17) == 0);
}

typedef bsm_written record_writer(uint8_t *, size_t, uint16_t, uint16_t, uint16_t, uint64_t, uint64_t, const uint8_t *, size_t);
typedef bsm_written record_ex_writer(uint8_t *, size_t, uint16_t, uint16_t, uint16_t, uint64_t, uint64_t, const uint8_t *, size_t,
    const uint8_t *, size_t);

/* The writers of expanded records with an address of their own. */
static bsm_written write_ex32(uint8_t *dst, size_t room, uint16_t version, uint16_t event, uint16_t modifier, uint64_t seconds,
    uint64_t nanoseconds, const uint8_t *b, size_t n)
{
    return bsm_write_record32_ex(dst, room, version, event, modifier, seconds, nanoseconds, ipv6, sizeof ipv6, b, n);
}

static bsm_written write_ex64(uint8_t *dst, size_t room, uint16_t version, uint16_t event, uint16_t modifier, uint64_t seconds,
    uint64_t nanoseconds, const uint8_t *b, size_t n)
{
    return bsm_write_record64_ex(dst, room, version, event, modifier, seconds, nanoseconds, ipv4, sizeof ipv4, b, n);
}

/* A record with an address between two others: every field of it, where address and body stand, and a step back to it. */
static void read_expanded(record_ex_writer *write, uint64_t header, size_t least, const uint8_t *address, size_t n)
{
    uint8_t t[2048];
    const size_t item = bsm_write_record32(REST(t, 0), 11, 72, 0, 1, 2, NULL, 0).written, head = least - TRAILER + TYPE + n;
    bsm_written w = write(REST(t, item), 255, 0x0203, 0x0405, UINT32_MAX, 999999999, address, n, body, body_size);
    assert(accepted(w, head + body_size + TRAILER) && memcmp(t + item + head, body, body_size) == 0);
    assert(memcmp(t + item + TYPE_AT + TYPE, address, n) == 0);
    const size_t end = item + w.written, size = end + bsm_write_file(REST(t, end), 5, 7, TEXT("a")).written;

    const bsm_item expected = {.kind = BSM_RECORD, .size = w.written, .header = header, .version = 255, .event = 0x0203,
        .modifier = 0x0405, .seconds = UINT32_MAX, .fraction = 999999999, .tokens = tokens, .start = item + head,
        .length = body_size, .address_start = item + TYPE_AT + TYPE, .address_length = n};
    bsm_item r = bsm_item_at(t, size, item);
    bsm_step s = bsm_next(t, size, item, 1, 0);
    assert(memcmp(&r, &expected, sizeof r) == 0 && memcmp(&s.item, &expected, sizeof r) == 0);
    assert(s.place == end && s.records == 2 && s.files == 0);
    assert(same_part(bsm_address_at(t, size, item), expected.address_start, n));
    assert(same_part(bsm_body_at(t, size, item), expected.start, body_size));
    assert(same_part(bsm_address_at(t, size, 0), 0, 0) && same_part(bsm_address_at(t, size, end), 0, 0));
    assert(same_part(bsm_address_at(t, end - 1, item), 0, 0));
    assert(record_at(bsm_record_before(t, size, end), t, size, item));

    for (unsigned type = 0; type < 256; type++)
        if (type != 4 && type != 16)
            refuses(t, size, item, item + TYPE_AT + 3, (uint8_t)type, BSM_REFUSAL_ADDRESS_TYPE, item);
    for (size_t at = TYPE_AT; at < TYPE_AT + 3; at++)
        refuses(t, size, item, item + at, 1, BSM_REFUSAL_ADDRESS_TYPE, item);
}

/* The smallest record with an address of four bytes: with type 16 its count is too small, but only then. */
static void least_expanded(record_ex_writer *write, size_t least)
{
    uint8_t t[128];
    const size_t item = bsm_write_file(REST(t, 0), 5, 7, TEXT("a")).written;
    const size_t n = item + write(REST(t, item), 11, 72, 0, 1, 2, ipv4, sizeof ipv4, NULL, 0).written;
    assert(n == item + least + TYPE + sizeof ipv4);
    refuses(t, n, item, item + TYPE_AT + 3, 16, BSM_REFUSAL_RECORD_LENGTH, item);
    refuses(t, n, item, item + TYPE_AT + 3, 6, BSM_REFUSAL_ADDRESS_TYPE, item);
    refuses(t, n, item, n - TRAILER, 0, BSM_REFUSAL_TRAILER, item);
    refuses(t, n, item, item + 4, (uint8_t)(least + TYPE + sizeof ipv4 - 1), BSM_REFUSAL_RECORD_LENGTH, item);
}

/* Another type in each expanded token of the body, which is 13 at the token in whatever reads it; and 7 up to the address's end.
   Answers how many such tokens there are. */
static size_t types_of_tokens(void)
{
    uint8_t b[1024], d[2048];
    memcpy(b, body, body_size);
    bsm_token t;
    size_t expanded = 0;
    for (size_t place = 0; (t = bsm_token_at(b, body_size, place)).kind == BSM_TOKEN; place += t.size) {
        if (t.token < BSM_ID_SUBJECT32_EX)
            continue;
        uint8_t *type = b + t.start - 1;
        for (unsigned other = 0; other < 256; other++) {
            *type = (uint8_t)other;
            if (other == 4 || other == 16)
                continue;
            bsm_token k = bsm_token_at(b, body_size, place);
            assert(k.kind == BSM_TOKEN_REFUSED && k.number == BSM_REFUSAL_ADDRESS_TYPE && k.place == place && k.need == 0);
            assert(refused(bsm_walk_body(b, body_size), 13, place) && refused(bsm_walk_body(b, t.start), 13, place));
            assert(refused(bsm_write_record32(REST(d, 0), 0, 0, 0, 0, 0, b, body_size), 13, place));
            assert(refused(write_ex64(REST(d, 0), 0, 0, 0, 0, 0, b, body_size), 13, place));
        }
        *type = (uint8_t)t.length;
        for (size_t end = place + 1; end < place + t.size; end++)
            assert(refused(bsm_walk_body(b, end), 7, place));
        expanded++;
    }
    return expanded;
}

/* Addresses of every length: 13 before all else, and nothing is written; 4 and 16 are taken. */
static void lengths_of_addresses(void)
{
    static const uint8_t address[64], large[65535];
    uint8_t d[128], before[sizeof d];
    memset(d, 0xA5, sizeof d);
    memcpy(before, d, sizeof d);
    for (size_t n = 0; n <= sizeof address; n++) {
        if (n == 4 || n == 16)
            continue;
        for (size_t room = 0; room <= sizeof d; room += sizeof d) {
            assert(refused(bsm_write_subject32_ex(d, room, 1, 2, 3, 4, 5, 6, 7, 8, address, n), 13, 0));
            assert(refused(bsm_write_process32_ex(d, room, 1, 2, 3, 4, 5, 6, 7, 8, address, n), 13, 0));
            assert(refused(bsm_write_subject64_ex(d, room, 1, 2, 3, 4, 5, 6, 7, 8, address, n), 13, 0));
            assert(refused(bsm_write_process64_ex(d, room, 1, 2, 3, 4, 5, 6, 7, 8, address, n), 13, 0));
            assert(refused(bsm_write_in_addr_ex(d, room, address, n), 13, 0));
            assert(refused(bsm_write_record32_ex(d, room, 11, 1, 2, 3, 4, address, n, NULL, 0), 13, 0));
            assert(refused(bsm_write_record64_ex(d, room, 11, 1, 2, 3, 4, address, n, NULL, 0), 13, 0));
            assert(refused(bsm_write_record32_ex(d, room, 256, 1, 2, UINT64_MAX, 4, address, n, large, sizeof large), 13, 0));
            assert(refused(bsm_write_record64_ex(d, room, 256, 1, 2, 3, UINT64_MAX, address, n, TEXT("\0")), 13, 0));
        }
    }
    assert(memcmp(d, before, sizeof d) == 0);
    assert(accepted(bsm_write_in_addr_ex(d, 9, ipv4, 4), 9) && memcmp(d, "\x7E\0\0\0\4\xC0\0\2\7", 9) == 0);
    assert(accepted(bsm_write_in_addr_ex(d, 21, ipv6, 16), 21) && memcmp(d + 4, "\x10\x20", 2) == 0 && d[20] == 7);
    assert(memcmp(d + 21, before + 21, sizeof d - 21) == 0);
}

/* Each version that fits one byte is written and read back; one over 255 is 11 and changes no byte. */
static void write_versions(record_writer *write, size_t least)
{
    uint8_t d[LEAST64 + TYPE + sizeof ipv6], before[sizeof d];
    memset(before, 0xA5, sizeof before);
    for (uint32_t version = 0; version <= UINT16_MAX; version++) {
        memcpy(d, before, sizeof d);
        bsm_written w = write(d, sizeof d, (uint16_t)version, 0x0203, 0x0405, 6, 7, NULL, 0);
        bsm_item r = bsm_item_at(d, least, 0);
        if (version > 255)
            assert(refused(w, 11, 0) && memcmp(d, before, sizeof d) == 0);
        else
            assert(accepted(w, least) && d[5] == version && r.kind == BSM_RECORD && r.version == version && r.event == 0x0203
                && r.modifier == 0x0405 && r.seconds == 6 && r.fraction == 7 && r.size == least);
    }
}

/* A version that is too large is told after 4 and before 9, the body's refusals and 10. */
static void order_of_versions(record_writer *write)
{
    static const uint8_t large[65535];
    uint8_t d[64], before[sizeof d];
    memset(d, 0xA5, sizeof d);
    memcpy(before, d, sizeof d);
    for (uint32_t version = 256; version <= UINT16_MAX; version += UINT16_MAX - 256) {
        assert(refused(write(d, sizeof d, (uint16_t)version, 0, 0, 0, 1000000000, large, sizeof large), 4, 0));
        assert(refused(write(d, sizeof d, (uint16_t)version, 0, 0, 0, 1000000000, NULL, 0), 11, 0));
        assert(refused(write(d, sizeof d, (uint16_t)version, 0, 0, 0, UINT64_MAX, TEXT("\0")), 11, 0));
        assert(refused(write(d, sizeof d, (uint16_t)version, 0, 0, UINT64_MAX, 0, TEXT("\x2c\0")), 11, 0));
        assert(refused(write(d, sizeof d, (uint16_t)version, 0, 0, 0, 0, TEXT("\x28\0\1a")), 11, 0));
        assert(refused(write(NULL, 0, (uint16_t)version, 0, 0, 0, 0, NULL, 0), 11, 0));
    }
    assert(refused(write(d, sizeof d, 255, 0, 0, 0, 1000000000, NULL, 0), 9, 0));
    assert(refused(write(NULL, 0, 255, 0, 0, 0, 0, NULL, 0), 10, 0));
    assert(memcmp(d, before, sizeof d) == 0);
}

/* The writers of records with each header. */
static record_writer *const writers[] = {bsm_write_record32, bsm_write_record64, write_ex32, write_ex64};
enum { WRITERS = sizeof writers / sizeof *writers };

/* Adds a token of those that were written behind n bytes, and answers how many there are then. */
static size_t add(uint8_t *b, size_t n, bsm_part token)
{
    memcpy(b + n, every + token.start, token.length);
    return n + token.length;
}

/* No walk, and no writer with room or without, takes the body; nothing is written. */
static void refuses_body(const uint8_t *b, size_t n, uint64_t number, uint64_t place)
{
    uint8_t d[512], before[sizeof d];
    memset(d, 0xA5, sizeof d);
    memcpy(before, d, sizeof d);
    assert(refused(bsm_walk_body(b, n), number, place));
    for (size_t w = 0; w < WRITERS; w++)
        for (size_t room = 0; room <= sizeof d; room += sizeof d)
            assert(refused(writers[w](d, room, 11, 72, 0, 1, 2, b, n), number, place));
    assert(memcmp(d, before, sizeof d) == 0);
}

/* The process token that has the layout of a subject. */
static uint8_t process_like(uint8_t subject)
{
    switch (subject) {
    case BSM_ID_SUBJECT32:
        return BSM_ID_PROCESS32;
    case BSM_ID_SUBJECT64:
        return BSM_ID_PROCESS64;
    case BSM_ID_SUBJECT32_EX:
        return BSM_ID_PROCESS32_EX;
    default:
        assert(subject == BSM_ID_SUBJECT64_EX);
        return BSM_ID_PROCESS64_EX;
    }
}

/* A body whose process at a place becomes a second subject, in a record between a file token and another record. */
static void read_second_subject(record_writer *write, const uint8_t *b, size_t n, size_t at, uint8_t subject)
{
    uint8_t t[512];
    const size_t item = bsm_write_file(REST(t, 0), 5, 7, TEXT("a")).written;
    const size_t end = item + write(REST(t, item), 11, 72, 0, 1, 2, b, n).written;
    const size_t size = end + bsm_write_record32(REST(t, end), 11, 73, 0, 1, 2, NULL, 0).written;
    const size_t place = bsm_body_at(t, size, item).start + at;
    assert(end > item && t[place] == process_like(subject) && record_at(bsm_record_before(t, size, end), t, size, item));
    refuses(t, end, item, place, subject, BSM_REFUSAL_SECOND_SUBJECT, place);
    refuses(t, size, item, place, subject, BSM_REFUSAL_SECOND_SUBJECT, place);

    /* Short until the record is whole, and refused ever after. */
    t[place] = subject;
    for (size_t length = 0; length <= size; length++) {
        const bsm_outcome o = bsm_run(t, length, 0, 0, 0);
        if (length < end)
            assert(o.number == (length == 0 || length == item ? 0 : BSM_REFUSAL_SHORT) && o.records == 0);
        else
            assert(o.number == 14 && o.at == place && o.need == 0 && o.place == item && o.records == 0 && o.files == 1);
    }

    /* From the end, by its number, and in the listing. */
    assert(record_at(bsm_record_before(t, size, size), t, size, end) && boundary(bsm_record_before(t, size, end), end, 0));
    uint64_t table[] = {UINT64_MAX};
    bsm_filled f = bsm_fill_index(t, size, 0, 0, 0, table, 1);
    assert(f.count == 0 && f.run.number == 14 && f.run.at == place && f.run.place == item && table[0] == UINT64_MAX);
    assert(is_none(bsm_find_record(t, size, table, 1, f.count, 0), 14, place, 0));
    uint8_t line[BSM_LINE_MAX];
    char last[BSM_LINE_MAX];
    const size_t written = (size_t)snprintf(last, sizeof last, "X\t14\t%zu\t0\n", place);
    assert(refused(bsm_item_line(REST(line, 0), t, size, item), 14, place));
    assert(accepted(bsm_last_line(REST(line, 0), t, size, 0, 0, 0), written) && memcmp(line, last, written) == 0);
}

/* Two subjects with other tokens around them: 14 at the second, after its own 7 and 13, before what stands behind it. */
static void two_subjects(bsm_part first, bsm_part second)
{
    uint8_t b[256];
    size_t n = bsm_write_iport(REST(b, 0), 22).written;
    n = add(b, n, first);
    const size_t at = add(b, n, processes[0]), end = add(b, at, second), behind = add(b, end, first);
    n = behind + bsm_write_text(REST(b, behind), TEXT("4711")).written;
    const uint8_t subject = b[at];
    assert(is_subject(subject));

    /* The second, whatever comes behind it: another subject, a token that is none, or nothing. */
    refuses_body(b, n, BSM_REFUSAL_SECOND_SUBJECT, at);
    refuses_body(b, behind, BSM_REFUSAL_SECOND_SUBJECT, at);
    refuses_body(b, end, BSM_REFUSAL_SECOND_SUBJECT, at);
    b[end] = 0;
    refuses_body(b, n, BSM_REFUSAL_SECOND_SUBJECT, at);
    refuses_body(b, end + 1, BSM_REFUSAL_SECOND_SUBJECT, at);
    assert(accepted(bsm_walk_body(b, at), 3));

    /* What refuses it by itself, or a token before it, is told first. */
    for (size_t cut = at + 1; cut < end; cut++)
        refuses_body(b, cut, BSM_REFUSAL_PAST_END, at);
    const bsm_token alone = bsm_token_at(b, n, at);
    assert(alone.kind == BSM_TOKEN && alone.token == subject && alone.size == end - at && alone.number == 0);
    if (alone.length) {
        uint8_t *type = b + alone.start - 1;
        *type = 6;
        const bsm_token spoilt = bsm_token_at(b, n, at);
        assert(spoilt.kind == BSM_TOKEN_REFUSED && spoilt.number == BSM_REFUSAL_ADDRESS_TYPE && spoilt.place == at);
        refuses_body(b, n, BSM_REFUSAL_ADDRESS_TYPE, at);
        *type = (uint8_t)alone.length;
    }
    b[0] = 0;
    refuses_body(b, n, BSM_REFUSAL_NOT_A_BODY_TOKEN, 0);
    b[0] = BSM_ID_IPORT;

    /* With a process in its place, and no third, the body is good. */
    b[at] = process_like(subject);
    n = end + bsm_write_text(REST(b, end), TEXT("4711")).written;
    assert(accepted(bsm_walk_body(b, n), 5));
    for (size_t w = 0; w < WRITERS; w++)
        read_second_subject(writers[w], b, n, at, subject);
}

/* A subject at each place among processes of all kinds. */
static void subject_among_processes(bsm_part subject)
{
    for (size_t before = 0; before <= PROCESSES; before++) {
        uint8_t b[512], t[1024];
        size_t n = 0;
        for (size_t p = 0; p <= PROCESSES; p++) {
            if (p == before)
                n = add(b, n, subject);
            if (p < PROCESSES)
                n = add(b, n, processes[p]);
        }
        assert(accepted(bsm_walk_body(b, n), PROCESSES + 1));
        for (size_t w = 0; w < WRITERS; w++) {
            const bsm_written r = writers[w](REST(t, 0), 11, 72, 0, 1, 2, b, n);
            const bsm_item i = bsm_item_at(t, r.written, 0);
            assert(r.number == 0 && i.kind == BSM_RECORD && i.tokens == PROCESSES + 1 && memcmp(t + i.start, b, n) == 0);
        }
    }
}

/* Every ordered pair of subjects: four kinds, the expanded ones with either address. Of a record to be written, the header's refusals
   come first. */
static void second_subjects(void)
{
    for (size_t w = 0; w < WRITERS; w++) {
        assert(refused(writers[w](NULL, 0, 256, 0, 0, 0, 0, every, every_size), BSM_REFUSAL_TOO_LARGE, 0));
        assert(refused(writers[w](NULL, 0, 255, 0, 0, 0, 1000000000, every, every_size), BSM_REFUSAL_TIME_RANGE, 0));
        assert(refused(writers[w](NULL, 0, 255, 0, 0, 0, 0, every, every_size), BSM_REFUSAL_SECOND_SUBJECT, subjects[1].start));
    }
    for (size_t first = 0; first < SUBJECTS; first++) {
        for (size_t second = 0; second < SUBJECTS; second++)
            two_subjects(subjects[first], subjects[second]);
        subject_among_processes(subjects[first]);
    }
}

/* Each refusal, by its name. */
static void name_refusals(void)
{
    uint8_t d[64] = {0};
    const size_t room = sizeof d, n = bsm_write_record32(d, room, 11, 72, 0, 1, 2, NULL, 0).written;
    assert(bsm_item_at(d, n - 1, 0).number == BSM_REFUSAL_SHORT);
    assert(bsm_item_at(d, n, n + 1).number == BSM_REFUSAL_PLACE);
    assert(bsm_item_at(d, n, 1).number == BSM_REFUSAL_NOT_AN_ITEM);
    d[4]++; /* the count's last byte */
    assert(bsm_item_at(d, n + 1, 0).number == BSM_REFUSAL_TRAILER);
    d[1]++; /* and its first */
    assert(bsm_item_at(d, n, 0).number == BSM_REFUSAL_RECORD_LENGTH);
    assert(bsm_walk_body(TEXT("\0")).number == BSM_REFUSAL_NOT_A_BODY_TOKEN);
    assert(bsm_walk_body(TEXT("\x2c\0")).number == BSM_REFUSAL_PAST_END);
    assert(bsm_walk_body(TEXT("\x28\0\1a")).number == BSM_REFUSAL_BAD_TEXT);
    assert(bsm_write_record32(d, room, 0, 0, 0, 0, 1000000000, NULL, 0).number == BSM_REFUSAL_TIME_RANGE);
    assert(bsm_write_seq(d, 4, 1).number == BSM_REFUSAL_NO_ROOM);
    assert(bsm_write_record32(d, room, 0, 0, 0, (uint64_t)1 << 32, 0, NULL, 0).number == BSM_REFUSAL_TOO_LARGE);
    assert(bsm_write_record64(d, room, 256, 0, 0, 0, 0, NULL, 0).number == BSM_REFUSAL_TOO_LARGE);
    assert(bsm_write_in_addr_ex(d, room, ipv6, 6).number == BSM_REFUSAL_ADDRESS_TYPE);
    assert(bsm_walk_body(TEXT("\x7e\0\0\0\6")).number == BSM_REFUSAL_ADDRESS_TYPE);
    assert(bsm_walk_body(every, every_size).number == BSM_REFUSAL_SECOND_SUBJECT);
}

/* A null pointer with length 0 stands for nothing, in every parameter of every function. */
#define NOTHING NULL, 0

static void read_nothing(void)
{
    assert(bsm_item_at(NOTHING, 0).kind == BSM_END);
    assert(boundary(bsm_record_before(NOTHING, 0), 0, 7) && bsm_record_before(NOTHING, 1).item.number == 2);
    bsm_item beyond = bsm_item_at(NOTHING, 1);
    assert(beyond.kind == BSM_REFUSED && beyond.number == 2 && beyond.place == 1 && beyond.need == 0);
    bsm_step s = bsm_next(NOTHING, 0, 0, 0), high = bsm_next(NOTHING, 0, 1, 0);
    assert(s.item.kind == BSM_END && s.place == 0 && s.records == 0 && s.files == 0);
    assert(high.item.kind == BSM_REFUSED && high.item.number == 2 && high.records == 1);
    bsm_outcome o = bsm_run(NOTHING, 0, 0, 0), far = bsm_run(NOTHING, 5, 0, 0);
    assert(o.place == 0 && o.records == 0 && o.files == 0 && o.number == 0);
    assert(far.place == 5 && far.number == 2 && far.at == 5);

    assert(bsm_token_at(NOTHING, 0).kind == BSM_NO_TOKEN);
    bsm_token t = bsm_token_at(NOTHING, 1);
    assert(t.kind == BSM_TOKEN_REFUSED && t.number == 2 && t.place == 1);
    assert(accepted(bsm_walk_body(NOTHING), 0));
    for (size_t place = 0; place < 2; place++) {
        assert(same_part(bsm_body_at(NOTHING, place), 0, 0));
        assert(same_part(bsm_name_at(NOTHING, place), 0, 0));
        assert(same_part(bsm_address_at(NOTHING, place), 0, 0));
        assert(same_part(bsm_text_at(NOTHING, place), 0, 0));
    }
}

/* Every writer without a destination, with all it needs and, where it takes a buffer, with none. */
static void write_into_nothing(void)
{
    const uint32_t group = 1;
    assert(refused(bsm_write_path(NOTHING, TEXT("/")), 10, 0) && refused(bsm_write_path(NOTHING, NOTHING), 10, 0));
    assert(refused(bsm_write_text(NOTHING, TEXT("t")), 10, 0) && refused(bsm_write_text(NOTHING, NOTHING), 10, 0));
    assert(refused(bsm_write_opaque(NOTHING, TEXT("o")), 10, 0) && refused(bsm_write_opaque(NOTHING, NOTHING), 10, 0));
    assert(refused(bsm_write_subject32(NOTHING, 1, 2, 3, 4, 5, 6, 7, 8, 9), 10, 0));
    assert(refused(bsm_write_process32(NOTHING, 1, 2, 3, 4, 5, 6, 7, 8, 9), 10, 0));
    assert(refused(bsm_write_subject64(NOTHING, 1, 2, 3, 4, 5, 6, 7, 8, 9), 10, 0));
    assert(refused(bsm_write_process64(NOTHING, 1, 2, 3, 4, 5, 6, 7, 8, 9), 10, 0));
    assert(refused(bsm_write_subject32_ex(NOTHING, 1, 2, 3, 4, 5, 6, 7, 8, ipv4, 4), 10, 0));
    assert(refused(bsm_write_process32_ex(NOTHING, 1, 2, 3, 4, 5, 6, 7, 8, ipv6, 16), 10, 0));
    assert(refused(bsm_write_subject64_ex(NOTHING, 1, 2, 3, 4, 5, 6, 7, 8, ipv4, 4), 10, 0));
    assert(refused(bsm_write_process64_ex(NOTHING, 1, 2, 3, 4, 5, 6, 7, 8, ipv6, 16), 10, 0));
    assert(refused(bsm_write_in_addr_ex(NOTHING, ipv4, 4), 10, 0) && refused(bsm_write_in_addr_ex(NOTHING, NOTHING), 13, 0));
    assert(refused(bsm_write_return32(NOTHING, 1, 2), 10, 0));
    assert(refused(bsm_write_return64(NOTHING, 1, 2), 10, 0));
    assert(refused(bsm_write_in_addr(NOTHING, 1), 10, 0));
    assert(refused(bsm_write_ip(NOTHING, 1, 2, 3, 4, 5, 6, 7, 8, 9, 10), 10, 0));
    assert(refused(bsm_write_iport(NOTHING, 1), 10, 0));
    assert(refused(bsm_write_arg32(NOTHING, 1, 2, TEXT("a")), 10, 0) && refused(bsm_write_arg32(NOTHING, 1, 2, NOTHING), 10, 0));
    assert(refused(bsm_write_arg64(NOTHING, 1, 2, TEXT("a")), 10, 0) && refused(bsm_write_arg64(NOTHING, 1, 2, NOTHING), 10, 0));
    assert(refused(bsm_write_seq(NOTHING, 1), 10, 0));
    assert(refused(bsm_write_ipc_perm(NOTHING, 1, 2, 3, 4, 5, 6, 7), 10, 0));
    assert(refused(bsm_write_newgroups(NOTHING, &group, 1), 10, 0) && refused(bsm_write_newgroups(NOTHING, NOTHING), 10, 0));
    assert(refused(bsm_write_exec_args(NOTHING, 1, TEXT("a\0")), 10, 0) && refused(bsm_write_exec_args(NOTHING, 0, NOTHING), 10, 0));
    assert(refused(bsm_write_exec_env(NOTHING, 1, TEXT("a\0")), 10, 0) && refused(bsm_write_exec_env(NOTHING, 0, NOTHING), 10, 0));
    assert(refused(bsm_write_exit(NOTHING, 1, 2), 10, 0));
    assert(refused(bsm_write_file(NOTHING, 1, 2, TEXT("f")), 10, 0) && refused(bsm_write_file(NOTHING, 1, 2, NOTHING), 10, 0));
    assert(refused(bsm_write_record32(NOTHING, 1, 2, 3, 4, 5, body, body_size), 10, 0));
    assert(refused(bsm_write_record64(NOTHING, 1, 2, 3, 4, 5, body, body_size), 10, 0));
    assert(refused(bsm_write_record32(NOTHING, 1, 2, 3, 4, 5, NOTHING), 10, 0));
    assert(refused(bsm_write_record64(NOTHING, 1, 2, 3, 4, 5, NOTHING), 10, 0));
    assert(refused(write_ex32(NOTHING, 1, 2, 3, 4, 5, body, body_size), 10, 0));
    assert(refused(write_ex64(NOTHING, 1, 2, 3, 4, 5, body, body_size), 10, 0));
    assert(refused(write_ex32(NOTHING, 1, 2, 3, 4, 5, NOTHING), 10, 0) && refused(write_ex64(NOTHING, 1, 2, 3, 4, 5, NOTHING), 10, 0));
    /* A refusal that comes before 10 is still the answer. */
    assert(refused(bsm_write_text(NOTHING, TEXT("\0")), 8, 0) && refused(bsm_write_file(NOTHING, 1, 1000000, NOTHING), 9, 0));
}

/* Every writer that takes a buffer, with none; no bytes are no address. */
static void write_nothing(void)
{
    uint8_t d[64];
    const size_t n = sizeof d;
    assert(accepted(bsm_write_path(d, n, NOTHING), 4) && memcmp(d, "\x23\0\1\0", 4) == 0);
    assert(accepted(bsm_write_text(d, n, NOTHING), 4) && memcmp(d, "\x28\0\1\0", 4) == 0);
    assert(accepted(bsm_write_opaque(d, n, NOTHING), 3) && memcmp(d, "\x29\0\0", 3) == 0);
    assert(accepted(bsm_write_arg32(d, n, 1, 2, NOTHING), 9) && memcmp(d, "\x2D\1\0\0\0\2\0\1\0", 9) == 0);
    assert(accepted(bsm_write_arg64(d, n, 1, 2, NOTHING), 13) && memcmp(d, "\x71\1\0\0\0\0\0\0\0\2\0\1\0", 13) == 0);
    assert(accepted(bsm_write_newgroups(d, n, NOTHING), 3) && memcmp(d, "\x3B\0\0", 3) == 0);
    assert(accepted(bsm_write_exec_args(d, n, 0, NOTHING), 5) && memcmp(d, "\x3C\0\0\0\0", 5) == 0);
    assert(accepted(bsm_write_exec_env(d, n, 0, NOTHING), 5) && memcmp(d, "\x3D\0\0\0\0", 5) == 0);
    assert(refused(bsm_write_exec_args(d, n, 1, NOTHING), 8, 0) && refused(bsm_write_exec_env(d, n, 1, NOTHING), 8, 0));
    assert(accepted(bsm_write_file(d, n, 1, 2, NOTHING), 12) && memcmp(d + 9, "\0\1\0", 3) == 0);
    assert(accepted(bsm_write_record32(d, n, 1, 2, 3, 4, 5, NOTHING), LEAST32) && bsm_item_at(d, LEAST32, 0).kind == BSM_RECORD);
    assert(accepted(bsm_write_record64(d, n, 1, 2, 3, 4, 5, NOTHING), LEAST64) && bsm_item_at(d, LEAST64, 0).kind == BSM_RECORD);
    assert(accepted(write_ex32(d, n, 1, 2, 3, 4, 5, NOTHING), LEAST32 + TYPE + 16) && bsm_item_at(d, n, 0).kind == BSM_RECORD);
    assert(accepted(write_ex64(d, n, 1, 2, 3, 4, 5, NOTHING), LEAST64 + TYPE + 4) && bsm_item_at(d, n, 0).kind == BSM_RECORD);
    assert(refused(bsm_write_subject32_ex(d, n, 1, 2, 3, 4, 5, 6, 7, 8, NOTHING), 13, 0));
    assert(refused(bsm_write_process32_ex(d, n, 1, 2, 3, 4, 5, 6, 7, 8, NOTHING), 13, 0));
    assert(refused(bsm_write_subject64_ex(d, n, 1, 2, 3, 4, 5, 6, 7, 8, NOTHING), 13, 0));
    assert(refused(bsm_write_process64_ex(d, n, 1, 2, 3, 4, 5, 6, 7, 8, NOTHING), 13, 0));
    assert(refused(bsm_write_in_addr_ex(d, n, NOTHING), 13, 0));
    assert(refused(bsm_write_record32_ex(d, n, 1, 2, 3, 4, 5, NOTHING, NOTHING), 13, 0));
    assert(refused(bsm_write_record64_ex(d, n, 1, 2, 3, 4, 5, NOTHING, NOTHING), 13, 0));
    assert(refused(bsm_write_record32_ex(d, n, 1, 2, 3, 4, 5, NOTHING, TEXT("\0")), 13, 0));
    assert(refused(bsm_write_record64_ex(d, n, 1, 2, 3, 4, 5, NOTHING, TEXT("\0")), 13, 0));
}

static void list_nothing(void)
{
    uint8_t d[BSM_LINE_MAX];
    const size_t n = sizeof d;
    assert(refused(bsm_first_line(NOTHING), 10, 0));
    assert(accepted(bsm_item_line(NOTHING, NOTHING, 0), 0) && refused(bsm_item_line(NOTHING, NOTHING, 1), 2, 1));
    assert(accepted(bsm_item_line(d, n, NOTHING, 0), 0) && refused(bsm_item_line(d, n, NOTHING, 1), 2, 1));
    assert(refused(bsm_item_line(NOTHING, trail, trail_size, 0), 10, 0));
    assert(refused(bsm_last_line(NOTHING, NOTHING, 0, 0, 0), 10, 0));
    assert(refused(bsm_last_line(NOTHING, trail, trail_size, 0, 0, 0), 10, 0));
    assert(accepted(bsm_last_line(d, n, NOTHING, 0, 0, 0), 6) && memcmp(d, "E\t0\t0\n", 6) == 0);
    assert(accepted(bsm_last_line(d, n, NOTHING, 3, 0, 0), 8) && memcmp(d, "X\t2\t3\t0\n", 8) == 0);

    assert(listed(bsm_list(NOTHING, NOTHING, BSM_LIST_FIRST, 0, 0, 0), BSM_LIST_FIRST, 0, 0, 0, 0));
    assert(listed(bsm_list(NOTHING, NOTHING, BSM_LIST_AT, 0, 0, 0), BSM_LIST_AT, 0, 0, 0, 0));
    assert(listed(bsm_list(NOTHING, NOTHING, BSM_LIST_DONE, 0, 0, 0), BSM_LIST_DONE, 0, 0, 0, 0));
    assert(listed(bsm_list(NOTHING, trail, trail_size, BSM_LIST_AT, 20, 0, 1), BSM_LIST_AT, 20, 0, 1, 0));
    assert(listed(bsm_list(d, n, NOTHING, BSM_LIST_FIRST, 0, 0, 0), BSM_LIST_DONE, 0, 0, 0, 16));
    assert(memcmp(d, "bsmlist\t1\nE\t0\t0\n", 16) == 0);
}

/* No trail, no table, and neither. */
static void index_nothing(void)
{
    const bsm_outcome fresh = {.place = 0};
    uint64_t table[] = {UINT64_MAX};
    bsm_filled f = bsm_fill_index(NOTHING, 0, 0, 0, NOTHING), g = bsm_fill_index(NOTHING, 0, 0, 0, table, 1);
    assert(f.count == 0 && g.count == 0);
    unfilled(f, fresh, 0, 0, NOTHING);
    unfilled(g, fresh, 0, 0, table, 1);
    bsm_filled small = bsm_fill_index(many, many_size, 0, 0, 0, NOTHING), high = bsm_fill_index(NOTHING, 0, 1, 0, NOTHING);
    assert(small.count == ENTRIES && small.run.number == BSM_REFUSAL_NO_ROOM && small.run.place == 0 && small.run.at == 0);
    assert(high.count == 1 && high.run.number == BSM_REFUSAL_PLACE && high.run.records == 1);

    assert(is_none(bsm_find_record(NOTHING, NOTHING, 0, 0), 0, 0, 0));
    assert(is_none(bsm_find_record(NOTHING, NOTHING, SIZE_MAX, SIZE_MAX), 0, 0, 0));
    assert(is_none(bsm_find_record(NOTHING, table, 1, 1, 0), BSM_REFUSAL_PLACE, UINT64_MAX, 0));
    assert(is_record(bsm_find_record(many, many_size, NOTHING, 7, MANY - 1), many_size, MANY - 1));
}

int main(void)
{
    write_texts();
    write_values();
    write_parties();
    write_expanded(ipv4, sizeof ipv4);
    write_expanded(ipv6, sizeof ipv6);
    find_parties();
    size_t expanded = 0;
    for (size_t kept = 0; kept < SUBJECTS; kept++) {
        take_subject(kept);
        read_body();
        write_trail();
        read_items();
        read_trail();
        read_back();
        list_trail();
        expanded += types_of_tokens();
    }
    assert(expanded == SUBJECTS * 6 + 4); /* four subjects are expanded, and six other tokens */
    index_trail();
    list_no_line();
    line_of_no_item();
    spoil_name();
    spoil_text();
    spoil_texts();
    spoil_given();
    guard_bytes();
    read_expanded(bsm_write_record32_ex, BSM_ID_HEADER32_EX, LEAST32, ipv4, sizeof ipv4);
    read_expanded(bsm_write_record32_ex, BSM_ID_HEADER32_EX, LEAST32, ipv6, sizeof ipv6);
    read_expanded(bsm_write_record64_ex, BSM_ID_HEADER64_EX, LEAST64, ipv4, sizeof ipv4);
    read_expanded(bsm_write_record64_ex, BSM_ID_HEADER64_EX, LEAST64, ipv6, sizeof ipv6);
    least_expanded(bsm_write_record32_ex, LEAST32);
    least_expanded(bsm_write_record64_ex, LEAST64);
    lengths_of_addresses();
    write_versions(bsm_write_record32, LEAST32);
    write_versions(bsm_write_record64, LEAST64);
    write_versions(write_ex32, LEAST32 + TYPE + sizeof ipv6);
    write_versions(write_ex64, LEAST64 + TYPE + sizeof ipv4);
    order_of_versions(bsm_write_record32);
    order_of_versions(bsm_write_record64);
    order_of_versions(write_ex32);
    order_of_versions(write_ex64);
    second_subjects();
    name_refusals();
    read_nothing();
    write_into_nothing();
    write_nothing();
    list_nothing();
    index_nothing();
    puts("bsm from C: ok");
    return 0;
}
