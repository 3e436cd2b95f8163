/*
 * Reading, writing and listing BSM audit trails: the C face of the proved library.
 *
 * Every function answers for any input: any bytes, any place, any state, any destination, any table. A pointer must be aligned for
 * its type and point to as many readable (dst, out, and a table to be filled: writable) elements as the length behind it says; what
 * is writable must not overlap another buffer of the same call. Where that length is 0, nothing is read or written through the
 * pointer, and it may be null. Nothing is kept between calls. A refusal has the numbers of the build specification (paper 01),
 * named below. Where a `number` field is 0, nothing was refused. What is refused is not written, not even in part.
 */
#ifndef BSM_H
#define BSM_H

#include <stddef.h>
#include <stdint.h>

#ifdef __cplusplus
extern "C" {
#endif

/* Refusals. The place that comes with one is the item's start for 1, 3, 4, 5 and 9, the token's for 6, 7 and 14, the asked place
   for 2, or the one that a table's entry has. For 13 it is the start of what has the address: the item's for a header, the token's
   for a token. For 8 it is the byte that spoils the text: the first zero byte that is not the last of the bytes that the length
   counts, or else the last of them, which is not zero; where the length is 0, or a file name's over 1024, the first byte of the
   length. Places count from the start of the trail or body given. A writer gives place 0, but for a text or name with a zero byte
   (8, with its place in what was given, unless a name is too long) and for a record's body, which it refuses as bsm_walk_body
   does. */
enum {
    BSM_REFUSAL_SHORT = 1,            /* `need` bytes must stand from the item's start on */
    BSM_REFUSAL_PLACE = 2,            /* place beyond the buffer, or totals above the place */
    BSM_REFUSAL_NOT_AN_ITEM = 3,      /* the first byte is no item's */
    BSM_REFUSAL_RECORD_LENGTH = 4,    /* a record's length is out of bounds */
    BSM_REFUSAL_TRAILER = 5,          /* no trailer with the record's length */
    BSM_REFUSAL_NOT_A_BODY_TOKEN = 6, /* not a body token's number */
    BSM_REFUSAL_PAST_END = 7,         /* a token runs past its body's end */
    BSM_REFUSAL_BAD_TEXT = 8,         /* a bad text, or too long a file name: the byte that spoils it */
    BSM_REFUSAL_TIME_RANGE = 9,       /* microseconds or nanoseconds out of range */
    BSM_REFUSAL_NO_ROOM = 10,         /* the destination, or the table to be filled, is too small */
    BSM_REFUSAL_TOO_LARGE = 11,       /* a value is too large for its field; a record's version is one byte */
    BSM_REFUSAL_ADDRESS_TYPE = 13,    /* an address's type is neither 4 nor 16; a writer: an address of another length */
    BSM_REFUSAL_SECOND_SUBJECT = 14   /* a subject token behind another one in the same record, of whatever kinds they are */
};

/* Token numbers. */
enum {
    BSM_ID_FILE = 0x11,
    BSM_ID_TRAILER = 0x13,
    BSM_ID_HEADER32 = 0x14,
    BSM_ID_HEADER32_EX = 0x15,
    BSM_ID_PATH = 0x23,
    BSM_ID_SUBJECT32 = 0x24,
    BSM_ID_PROCESS32 = 0x26,
    BSM_ID_RETURN32 = 0x27,
    BSM_ID_TEXT = 0x28,
    BSM_ID_OPAQUE = 0x29,
    BSM_ID_IN_ADDR = 0x2A,
    BSM_ID_IP = 0x2B,
    BSM_ID_IPORT = 0x2C,
    BSM_ID_ARG32 = 0x2D,
    BSM_ID_SEQ = 0x2F,
    BSM_ID_IPC_PERM = 0x32,
    BSM_ID_NEWGROUPS = 0x3B,
    BSM_ID_EXEC_ARGS = 0x3C,
    BSM_ID_EXEC_ENV = 0x3D,
    BSM_ID_EXIT = 0x52,
    BSM_ID_ARG64 = 0x71,
    BSM_ID_RETURN64 = 0x72,
    BSM_ID_HEADER64 = 0x74,
    BSM_ID_SUBJECT64 = 0x75,
    BSM_ID_PROCESS64 = 0x77,
    BSM_ID_HEADER64_EX = 0x79,
    BSM_ID_SUBJECT32_EX = 0x7A,
    BSM_ID_PROCESS32_EX = 0x7B,
    BSM_ID_SUBJECT64_EX = 0x7C,
    BSM_ID_PROCESS64_EX = 0x7D,
    BSM_ID_IN_ADDR_EX = 0x7E
};

/* ---- reading items */

enum { BSM_END = 0, BSM_FILE = 1, BSM_RECORD = 2, BSM_REFUSED = 3, BSM_BOUNDARY = 4 };

/* The answer at a place of a trail. Fields that the kind does not have are 0. */
typedef struct {
    uint64_t kind;      /* BSM_END, BSM_FILE, BSM_RECORD or BSM_REFUSED; BSM_BOUNDARY only from bsm_record_before */
    uint64_t size;      /* bytes of the item */
    uint64_t header;    /* record: BSM_ID_HEADER32, BSM_ID_HEADER32_EX, BSM_ID_HEADER64 or BSM_ID_HEADER64_EX */
    uint64_t version;   /* record: at most 255 */
    uint64_t event;     /* record */
    uint64_t modifier;  /* record */
    uint64_t seconds;   /* file and record */
    uint64_t fraction;  /* file: microseconds; record: nanoseconds */
    uint64_t tokens;    /* record: number of body tokens */
    uint64_t start;     /* where the body of a record, or the name of a file token, starts in the trail */
    uint64_t length;    /* and how many bytes it has, a name without its zero byte */
    uint64_t address_start;  /* record with an expanded header: where its address starts in the trail */
    uint64_t address_length; /* and how many bytes it has, 4 or 16 */
    uint64_t number;    /* refused: number, place, need */
    uint64_t place;
    uint64_t need;
} bsm_item;

bsm_item bsm_item_at(const uint8_t *trail, size_t length, size_t place);

/* A part of a buffer: start and length. */
typedef struct {
    uint64_t start;
    uint64_t length;
} bsm_part;

/* Where the body of the record at a place, or the name of the file token there without its zero byte, stands in the trail;
   0 and 0 where no such item stands there. */
bsm_part bsm_body_at(const uint8_t *trail, size_t length, size_t place);
bsm_part bsm_name_at(const uint8_t *trail, size_t length, size_t place);

/* Where the address of the record at a place stands in the trail, 4 or 16 bytes; 0 and 0 where no record with an expanded header
   stands there. */
bsm_part bsm_address_at(const uint8_t *trail, size_t length, size_t place);

/* One step from a reading state, which is a place and the totals of records and file tokens: the answer at the state (2 where the
   totals add up to more than the place), and the state after it. Only an item moves the state. */
typedef struct {
    bsm_item item;
    uint64_t place;
    uint64_t records;
    uint64_t files;
} bsm_step;

bsm_step bsm_next(const uint8_t *trail, size_t length, size_t place, size_t records, size_t files);

/* What a run from a state hands back: the state at which it stopped, and the refusal, or number 0 at the end. */
typedef struct {
    uint64_t place;
    uint64_t records;
    uint64_t files;
    uint64_t number;
    uint64_t at;        /* the place that the refusal reports */
    uint64_t need;
} bsm_outcome;

bsm_outcome bsm_run(const uint8_t *trail, size_t length, size_t place, size_t records, size_t files);

/* ---- reading records from the end of a trail */

/* The record that ends at a place. `item` is it, as bsm_item_at answers at its start (BSM_RECORD); or BSM_BOUNDARY where no record
   ends at the place; or BSM_REFUSED with 2 where the place lies beyond the trail. `place` is where the step led: the record's start,
   from where the next step goes back, otherwise the place asked. Bytes behind the place do not count.
   The `need` of a boundary (in `item`) is 0 where nothing in front of the trail could change the answer. Otherwise, should the
   trail be the end of a longer one, it is how many bytes must stand before the place for another answer, 65535 at most.
   From the end of a trail that bsm_run reads to its end, the steps go through the records behind its last file token, newest first,
   to the end of that token, where the need is 0, or to place 0. */
typedef struct {
    bsm_item item;
    uint64_t place;
} bsm_before;

bsm_before bsm_record_before(const uint8_t *trail, size_t length, size_t place);

/* ---- an index of places: entry k of a table is the place of record 64 k, and records are numbered from 0 */

enum { BSM_RECORDS_PER_ENTRY = 64 };

/* What a fill came to. */
typedef struct {
    bsm_outcome run;    /* as bsm_run answers, or number 10 with the state as it was given */
    uint64_t count;     /* entries that the run's total of records takes: the total over 64, rounded up */
} bsm_filled;

/* Runs from a state, and enters the places of those records it reads whose number is a multiple of 64. A record's number is the
   total of records before it, which the state has. All other entries stay as they are: those of records before the state must be
   there already. Where the run is refused with 2, or else the table has fewer entries than `count` (10, place 0, need 0), nothing
   is entered and the state is the one given. With 10, `count` is how many entries a table must have.
   When the trail has grown, fill again from the state of the last answer, whatever it was: that answers what a fill of the whole
   trail from a fresh state does, the count too, and unless it is 10, state and entries are the same. Keep between two fills the
   table, the state, and the count of the last fill that was not 10: so many entries are filled. A longer table may take the table's
   place once these are copied into it. */
bsm_filled bsm_fill_index(const uint8_t *trail, size_t length, size_t place, size_t records, size_t files, uint64_t *table,
    size_t entries);

/* A record by its number. */
typedef struct {
    bsm_item item;      /* BSM_RECORD, as bsm_item_at answers at the record's place; or BSM_END or BSM_REFUSED */
    uint64_t place;     /* the record's place; 0 where there is none */
} bsm_found;

/* Record n, counted on from the nearest filled entry at or before it, or from place 0 where none is filled. `count` is how many
   entries are filled; one above `entries` means `entries`. Past the last record that is accepted, the answer is the end or the
   refusal of the run; where the entry lies beyond the trail, it is 2 with the entry for its place.
   If the table was filled as above, with that count, from bytes that the trail begins with, the answer is the one that counting
   from place 0 gives. With other entries there is an answer too: what stands from the entry's place on. */
bsm_found bsm_find_record(const uint8_t *trail, size_t length, const uint64_t *table, size_t entries, size_t count, size_t n);

/* ---- reading body tokens; places are counted from the body's start */

enum { BSM_NO_TOKEN = 0, BSM_TOKEN = 1, BSM_TOKEN_REFUSED = 3 };

/* The answer at a place of a body. Fields that the kind or the token does not have are 0, but for `start`: in a token that has
   nothing behind its fixed part it is the place where the token ends. */
typedef struct {
    uint64_t kind;      /* BSM_NO_TOKEN at the end, BSM_TOKEN, or BSM_TOKEN_REFUSED */
    uint64_t token;     /* the token's number, BSM_ID_.. */
    uint64_t start;     /* where its text, bytes, groups, strings or, in an expanded token, address start */
    uint64_t length;    /* and how many bytes they are, a text without its zero byte, an address 4 or 16 */
    uint64_t size;      /* bytes of the whole token */
    uint64_t count;     /* its length, number, count or type field */
    uint64_t values[10]; /* its other fields, in the order of the layout, then zeros */
    uint64_t number;    /* refused: number, place, need */
    uint64_t place;
    uint64_t need;
} bsm_token;

/* Where the fields of a token stand in `values`: subject and process tokens, return32 and return64, arg32 and arg64, ip, ipc_perm,
   exit, and those with one field. The expanded subjects and processes have theirs up to the port there, and 0 for the address, which
   is at `start`; in_addr_ex has none. */
enum {
    BSM_PARTY_AUDIT,
    BSM_PARTY_EFFECTIVE_USER,
    BSM_PARTY_EFFECTIVE_GROUP,
    BSM_PARTY_REAL_USER,
    BSM_PARTY_REAL_GROUP,
    BSM_PARTY_PROCESS,
    BSM_PARTY_SESSION,
    BSM_PARTY_PORT,
    BSM_PARTY_ADDRESS
};
enum { BSM_RETURN_ERROR, BSM_RETURN_VALUE };
enum { BSM_ARG_ARGUMENT, BSM_ARG_VALUE };
enum {
    BSM_IP_VERSION,
    BSM_IP_SERVICE,
    BSM_IP_LENGTH,
    BSM_IP_ID,
    BSM_IP_OFFSET,
    BSM_IP_TTL,
    BSM_IP_PROTOCOL,
    BSM_IP_CHECKSUM,
    BSM_IP_SOURCE,
    BSM_IP_DESTINATION
};
enum {
    BSM_IPC_USER,
    BSM_IPC_GROUP,
    BSM_IPC_CREATOR_USER,
    BSM_IPC_CREATOR_GROUP,
    BSM_IPC_MODE,
    BSM_IPC_SEQUENCE,
    BSM_IPC_KEY
};
enum { BSM_EXIT_STATUS, BSM_EXIT_VALUE };
enum { BSM_IN_ADDR_ADDRESS = 0 };
enum { BSM_IPORT_PORT = 0 };
enum { BSM_SEQ_SEQUENCE = 0 };

/* The token at a place. What stands before it in the body does not count, so that 14 is never the answer. */
bsm_token bsm_token_at(const uint8_t *body, size_t length, size_t place);

/* Where the string of the path or text token at a place stands in the body, without its zero byte; 0 and 0 for anything else. */
bsm_part bsm_text_at(const uint8_t *body, size_t length, size_t place);

/* What a writer answers, and the walk of a body. */
typedef struct {
    uint64_t written;   /* bytes written, or tokens counted; 0 on a refusal */
    uint64_t number;    /* 0, or the refusal: number, place, need */
    uint64_t place;
    uint64_t need;
} bsm_written;

/* How many tokens a body has, or the first refusal, with places counted from the body's start. A body has one subject token at most:
   the next one is 14, unless it is refused by itself. Process tokens may be as many as fit. */
bsm_written bsm_walk_body(const uint8_t *body, size_t length);

/* ---- writing: each writes at the start of dst, and answers how many bytes. Texts, names and paths are given without their zero
   byte, strings of exec tokens each with its own. Bytes that are not as many strings as `count` says are 8 with place 0. A record's
   version over 255 is 11, for every header; its times over 32 bits are 11 for a header32 and a header32_ex. The address of an expanded
   header or token is given as bytes, and their number is written as its type; another number than 4 or 16 is 13 with place 0, which is
   told before all else. */

bsm_written bsm_write_path(uint8_t *dst, size_t room, const uint8_t *text, size_t length);
bsm_written bsm_write_text(uint8_t *dst, size_t room, const uint8_t *text, size_t length);
bsm_written bsm_write_opaque(uint8_t *dst, size_t room, const uint8_t *bytes, size_t length);
bsm_written bsm_write_subject32(uint8_t *dst, size_t room, uint32_t audit, uint32_t effective_user, uint32_t effective_group,
    uint32_t real_user, uint32_t real_group, uint32_t process, uint32_t session, uint32_t port, uint32_t address);
bsm_written bsm_write_process32(uint8_t *dst, size_t room, uint32_t audit, uint32_t effective_user, uint32_t effective_group,
    uint32_t real_user, uint32_t real_group, uint32_t process, uint32_t session, uint32_t port, uint32_t address);
bsm_written bsm_write_subject64(uint8_t *dst, size_t room, uint32_t audit, uint32_t effective_user, uint32_t effective_group,
    uint32_t real_user, uint32_t real_group, uint32_t process, uint32_t session, uint64_t port, uint32_t address);
bsm_written bsm_write_process64(uint8_t *dst, size_t room, uint32_t audit, uint32_t effective_user, uint32_t effective_group,
    uint32_t real_user, uint32_t real_group, uint32_t process, uint32_t session, uint64_t port, uint32_t address);
bsm_written bsm_write_subject32_ex(uint8_t *dst, size_t room, uint32_t audit, uint32_t effective_user, uint32_t effective_group,
    uint32_t real_user, uint32_t real_group, uint32_t process, uint32_t session, uint32_t port, const uint8_t *address, size_t length);
bsm_written bsm_write_process32_ex(uint8_t *dst, size_t room, uint32_t audit, uint32_t effective_user, uint32_t effective_group,
    uint32_t real_user, uint32_t real_group, uint32_t process, uint32_t session, uint32_t port, const uint8_t *address, size_t length);
bsm_written bsm_write_subject64_ex(uint8_t *dst, size_t room, uint32_t audit, uint32_t effective_user, uint32_t effective_group,
    uint32_t real_user, uint32_t real_group, uint32_t process, uint32_t session, uint64_t port, const uint8_t *address, size_t length);
bsm_written bsm_write_process64_ex(uint8_t *dst, size_t room, uint32_t audit, uint32_t effective_user, uint32_t effective_group,
    uint32_t real_user, uint32_t real_group, uint32_t process, uint32_t session, uint64_t port, const uint8_t *address, size_t length);
bsm_written bsm_write_return32(uint8_t *dst, size_t room, uint8_t error, uint32_t value);
bsm_written bsm_write_return64(uint8_t *dst, size_t room, uint8_t error, uint64_t value);
bsm_written bsm_write_in_addr(uint8_t *dst, size_t room, uint32_t address);
bsm_written bsm_write_in_addr_ex(uint8_t *dst, size_t room, const uint8_t *address, size_t length);
bsm_written bsm_write_ip(uint8_t *dst, size_t room, uint8_t version, uint8_t service, uint16_t length, uint16_t id, uint16_t offset,
    uint8_t ttl, uint8_t protocol, uint16_t checksum, uint32_t source, uint32_t destination);
bsm_written bsm_write_iport(uint8_t *dst, size_t room, uint16_t port);
bsm_written bsm_write_arg32(uint8_t *dst, size_t room, uint8_t argument, uint32_t value, const uint8_t *text, size_t length);
bsm_written bsm_write_arg64(uint8_t *dst, size_t room, uint8_t argument, uint64_t value, const uint8_t *text, size_t length);
bsm_written bsm_write_seq(uint8_t *dst, size_t room, uint32_t sequence);
bsm_written bsm_write_ipc_perm(uint8_t *dst, size_t room, uint32_t user, uint32_t group, uint32_t creator_user,
    uint32_t creator_group, uint32_t mode, uint32_t sequence, uint32_t key);
bsm_written bsm_write_newgroups(uint8_t *dst, size_t room, const uint32_t *groups, size_t count);
bsm_written bsm_write_exec_args(uint8_t *dst, size_t room, uint32_t count, const uint8_t *strings, size_t length);
bsm_written bsm_write_exec_env(uint8_t *dst, size_t room, uint32_t count, const uint8_t *strings, size_t length);
bsm_written bsm_write_exit(uint8_t *dst, size_t room, uint32_t status, uint32_t value);
bsm_written bsm_write_file(uint8_t *dst, size_t room, uint32_t seconds, uint32_t microseconds, const uint8_t *name, size_t length);
bsm_written bsm_write_record32(uint8_t *dst, size_t room, uint16_t version, uint16_t event, uint16_t modifier, uint64_t seconds,
    uint64_t nanoseconds, const uint8_t *body, size_t length);
bsm_written bsm_write_record64(uint8_t *dst, size_t room, uint16_t version, uint16_t event, uint16_t modifier, uint64_t seconds,
    uint64_t nanoseconds, const uint8_t *body, size_t length);
bsm_written bsm_write_record32_ex(uint8_t *dst, size_t room, uint16_t version, uint16_t event, uint16_t modifier, uint64_t seconds,
    uint64_t nanoseconds, const uint8_t *address, size_t address_length, const uint8_t *body, size_t length);
bsm_written bsm_write_record64_ex(uint8_t *dst, size_t room, uint16_t version, uint16_t event, uint16_t modifier, uint64_t seconds,
    uint64_t nanoseconds, const uint8_t *address, size_t address_length, const uint8_t *body, size_t length);

/* ---- listing */

/* Room that suffices for any line of a listing, its line feed included. */
#define BSM_LINE_MAX 149

/* The first line. */
bsm_written bsm_first_line(uint8_t *dst, size_t room);

/* The line of the item at a place of a trail. Where no item stands there nothing is written, whatever the room: the answer is the
   refusal that bsm_item_at gives there, or, where the trail ends there, number 0 with 0 bytes written. */
bsm_written bsm_item_line(uint8_t *dst, size_t room, const uint8_t *trail, size_t length, size_t place);

/* The last line of the run from a state. */
bsm_written bsm_last_line(uint8_t *dst, size_t room, const uint8_t *trail, size_t length, size_t place, size_t records, size_t files);

enum { BSM_LIST_FIRST = 0, BSM_LIST_AT = 1, BSM_LIST_DONE = 2 };

/* As many whole lines of the listing as fit into out, from a stage on: BSM_LIST_FIRST, or BSM_LIST_AT with a state, as the call
   before handed them back (any other stage counts as BSM_LIST_DONE: nothing is left). BSM_LIST_FIRST starts from a fresh state,
   whatever is given for one. Joined, the outputs up to BSM_LIST_DONE are the listing. Where not even the next line fits, nothing is
   written, and the same stage and state are handed back; that cannot happen with room for BSM_LINE_MAX bytes or more. */
typedef struct {
    uint64_t stage;     /* which line comes next */
    uint64_t place;     /* BSM_LIST_AT: its state; otherwise 0 */
    uint64_t records;
    uint64_t files;
    uint64_t written;   /* bytes of lines at the start of out */
} bsm_listing;

bsm_listing bsm_list(uint8_t *out, size_t room, const uint8_t *trail, size_t length, uint64_t stage, size_t place, size_t records,
    size_t files);

#ifdef __cplusplus
}
#endif

#endif
