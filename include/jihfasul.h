/*
 * Jihfasul: the proved core of a SEC node (SECoP 1.0), as C sees it.
 *
 * Link libjihfasul.a, which `./install PREFIX` puts beside this header (x86-64, System V calling convention, no other library needed
 * but memcpy and its like). The library holds nothing between calls, allocates nothing and calls nothing: a host lends each call
 * the table, the values area and an outbox, perhaps an index beside the table, hands in the state by value and keeps the one that is
 * answered.
 *
 * Table, values area, outbox, lines and values follow docs/RULES.md, whose numbers are cited below; docs/LIBRARY.md tells how to link and what to lend.
 * Time is whole milliseconds, at most JIHFASUL_MAX_TIME; it may go back.
 *
 * The areas that are lent to one call must not overlap. A pointer may be anything where its length is 0. A thread that makes calls
 * has JIHFASUL_STACK bytes of its stack free.
 */
#ifndef JIHFASUL_H
#define JIHFASUL_H

#include <stddef.h>
#include <stdint.h>

#ifdef __cplusplus
extern "C" {
#endif

/*
 * Which rules of docs/RULES.md speak of what is declared here:
 *
 *   the table lent to each call        T-1 to T-37
 *   texts of values                    V-1 to V-24
 *   a client's lines and the replies   L-1 to L-30
 *   limits, docs/LIMITS.md too         T-1, T-12, V-22, L-2, C-2, C-10, C-15, C-26, I-1, I-7
 *   enum jihfasul_error                L-28
 *   enum jihfasul_number               C-10 to C-12, C-29, I-8
 *   struct jihfasul_state              C-17 to C-19, L-29, L-30
 *   struct jihfasul_done               C-1, C-12 to C-14, I-6
 *   struct jihfasul_listed             C-27, C-28
 *   struct jihfasul_reading_row        C-26
 *   struct jihfasul_shown              C-9, C-16
 *   struct jihfasul_record             C-20 to C-24
 *   an index beside the table          I-1 to I-8
 *   jihfasul_start                     C-3
 *   jihfasul_index                     I-4
 *   jihfasul_open, jihfasul_close      C-4, C-5
 *   jihfasul_piece                     C-6, C-15, L-21, L-22
 *   jihfasul_reading                   C-7, C-15
 *   jihfasul_unreadable                C-8, L-28
 *   jihfasul_readings                  C-26 to C-32
 *   jihfasul_value                     C-9
 *   jihfasul_version, .._state_layout  C-25
 *   calls one after another            H-1 to H-13
 */

/*
 * Which header this is: 10000 for 1.0.0, 10203 for 1.2.3. And how its struct jihfasul_state lies in bytes: a number to keep beside a state that is stored,
 * which can be handed to any library that answers the same. jihfasul_version and jihfasul_state_layout answer what the linked library has.
 */
#define JIHFASUL_VERSION 10000
#define JIHFASUL_STATE_LAYOUT 1

/* Limits. */
#define JIHFASUL_CLIENTS 8                /* clients are numbered 0 to 7 */
#define JIHFASUL_PARAMETERS 64            /* at most; numbered from 0 in table order over parameters only */
#define JIHFASUL_LINE 1024                /* bytes of a line before its line feed */
#define JIHFASUL_STORED 256               /* bytes of a stored value, and of each parameter's place in the values area */
#define JIHFASUL_MIN_VALUES 16384         /* bytes of a values area, at least */
#define JIHFASUL_MIN_OUTBOX 32768         /* bytes of an outbox, at least */
#define JIHFASUL_MAX_TABLE 16384          /* bytes of a table, at most */
#define JIHFASUL_INDEX 128                /* bytes of an index; of a longer one the first so many count */
#define JIHFASUL_MAX_READINGS 9           /* readings of a list */
#define JIHFASUL_MAX_STEPS 192            /* steps of a search, at most; 64 for a name that is there and an index filled from the table */
#define JIHFASUL_MAX_TIME 9999999999999u  /* milliseconds */
#define JIHFASUL_STACK 65536              /* bytes of stack, at most, that a call takes with the state handed in and the answer */

/* Why a parameter can't be read, as its driver reports it. */
enum jihfasul_error {
    JIHFASUL_HARDWARE_ERROR = 1,
    JIHFASUL_COMMUNICATION_FAILED = 2,
    JIHFASUL_READ_FAILED = 3,
    JIHFASUL_OUT_OF_RANGE = 4
};

/*
 * Numbers that a call answers with. Where several apply, it is the first in the order of judging: 1 to 8, then 18, then 17, then 9 to 16.
 * Every call judges what it is lent, the table included.
 * A refusal (any number but 0) uses no bytes and writes none; the state that it answers is the one handed in (for a start: no
 * client open and every number 0), and values area and outbox are as they were. A list that has taken readings before it stopped is no
 * refusal of these: what they did stands, and its number is that of the reading after them.
 */
enum jihfasul_number {
    JIHFASUL_ACCEPTED = 0,
    JIHFASUL_BAD_LAYOUT = 1,        /* the table has over 16,384 bytes, or can't be read as records */
    JIHFASUL_BAD_COUNTS = 2,        /* it has no or more than 16 modules, or more than 64 accessibles */
    JIHFASUL_BAD_NAMES = 3,         /* a name in it is bad or repeated, or a text is bad, or an `ED` record doesn't begin `ISSE,SECoP,` */
    JIHFASUL_BAD_DATAINFO = 4,      /* a datainfo in it breaks its own rules */
    JIHFASUL_BAD_INITIAL = 5,       /* an initial value isn't in stored form, is over 256 bytes, or doesn't fit its datainfo */
    JIHFASUL_LONG_REPORT = 6,       /* its structure report would be over 32,000 bytes */
    JIHFASUL_SMALL_OUTBOX = 7,      /* the outbox is under 32,768 bytes (piece, reading, unreadable, readings) */
    JIHFASUL_SMALL_VALUES = 8,      /* the values area is under 16,384 bytes */
    JIHFASUL_UNFIT_STATE = 9,       /* the state can't stand over this table and this values area: see struct jihfasul_state */
    JIHFASUL_LATE_TIME = 10,        /* the time is above its limit */
    JIHFASUL_NO_SUCH_CLIENT = 11,   /* the client's number is above 7 */
    JIHFASUL_NOT_OPEN = 12,         /* the client isn't open (piece, close) */
    JIHFASUL_ALREADY_OPEN = 13,     /* the client is open (open) */
    JIHFASUL_NO_SUCH_PARAMETER = 14,/* no parameter has this number (reading, unreadable, readings, value) */
    JIHFASUL_BAD_READING = 15,      /* the value rules refuse the reading's value, or its text runs out of the list's buffer */
    JIHFASUL_UNKNOWN_ERROR = 16,    /* no error has this number (unreadable) */
    JIHFASUL_LONG_LIST = 17,        /* a list has more than nine readings */
    JIHFASUL_SHORT_INDEX = 18       /* the index has 1 to 127 bytes, or is to be filled and has under 128 */
};

/*
 * Of each of the eight clients: whether it is open, and whether it is inside an overlong line (0: no, anything else: yes); a bit
 * for each module whose updates it has active, the lowest for the first module; the length of its unfinished line; and the lines,
 * 1,024 bytes for each client, of which the first `length` count.
 */
struct jihfasul_clients {
    uint8_t open[JIHFASUL_CLIENTS];
    uint8_t overlong[JIHFASUL_CLIENTS];
    uint16_t active[JIHFASUL_CLIENTS];
    uint16_t length[JIHFASUL_CLIENTS];
    uint8_t lines[JIHFASUL_CLIENTS * JIHFASUL_LINE];
};

/*
 * Of each parameter: the length of its stored value, 0 if it was never set; the error that stands in the value's place, 0 if there is none;
 * and the time of the value or of the error. Places past the last parameter don't count.
 */
struct jihfasul_settings {
    uint16_t length[JIHFASUL_PARAMETERS];
    uint8_t error[JIHFASUL_PARAMETERS];
    uint64_t time[JIHFASUL_PARAMETERS];
};

/*
 * Of one client, since its open: the lines that it completed, the errors replied to it (each reply that begins error_), and the updates sent to
 * it (error_update too). Each stops at 4,294,967,295. An open sets them to 0, a close keeps them. A client asks for its own by the line _count.
 */
struct jihfasul_counts {
    uint32_t lines;
    uint32_t errors;
    uint32_t updates;
};

/*
 * What the host keeps between calls, besides the values area. It may be stored and restored byte for byte. It is unfit (number 9)
 * over a table and a values area if
 * - of a parameter: its length is above 256, or isn't 0 and its bytes in the values area are no stored form that fits (also while it is in
 *   error), or its error is above 4, or its time is above the limit;
 * - of a line: it has more than 1,024 bytes or a line feed, or bytes though it is marked overlong;
 * - of a client: it has a module active that the table doesn't have, or is closed and has anything at all.
 * Any counts are fit, a closed client's too.
 */
struct jihfasul_state {
    struct jihfasul_clients clients;
    struct jihfasul_settings settings;
    struct jihfasul_counts counts[JIHFASUL_CLIENTS];
};

/*
 * What a call answers: its number, how many of a piece's bytes it used, how many bytes of the outbox it wrote, how many steps the search
 * for a line's accessible took (index bytes looked at and accessibles walked; 0 where none is sought), and the next state.
 */
struct jihfasul_done {
    uint8_t number;
    size_t used;
    size_t written;
    size_t steps;
    struct jihfasul_state state;
};

/* A reading of a list: the parameter's number, the time, and where its text lies in the buffer that is lent beside the list. */
struct jihfasul_reading_row {
    uint64_t parameter;
    uint64_t time;
    uint64_t offset;
    uint64_t length;
};

/*
 * What a list answers: 0, or the number of the first reading that is refused, or that of the whole list; how many readings were taken, which is
 * all before that one; how many bytes of the outbox they wrote; the steps of a search, which are 0, since a list seeks nothing; and the next state.
 */
struct jihfasul_listed {
    uint8_t number;
    size_t taken;
    size_t written;
    size_t steps;
    struct jihfasul_state state;
};

/*
 * Where the value that a parameter shows lies: in the table if `stored` is 0 (its initial value, it was never set), in the values area
 * if it is 1; from which byte on and how many; and its time. If the parameter can't be read, `error` says why (otherwise it is 0), with
 * its time, and there is no value: `stored`, `from` and `size` are 0. After a refusal only the number counts.
 */
struct jihfasul_shown {
    uint8_t number;
    uint8_t stored;
    uint8_t error;
    size_t from;
    size_t size;
    uint64_t time;
};

/* Starts: no client is open, and each parameter shows its initial value with this time. Numbers 0 to 6, 8, 10. */
struct jihfasul_done jihfasul_start(
    const uint8_t *table, size_t table_length,
    const uint8_t *values, size_t values_length,
    uint64_t time);

/*
 * Fills the first 128 bytes of an index from a table; bytes past them stay. Answers a number: 0 to 6, 18; a refused filling writes nothing.
 * To be filled once, and again whenever the table is another.
 *
 * Each call below but jihfasul_value, jihfasul_version and jihfasul_state_layout may be lent an index beside its table, or none, with 0 bytes; one of
 * 1 to 127 bytes is refused. Whatever an index holds, it changes nothing but the steps: one that isn't this table's makes no wrong answer, only a longer
 * search.
 */
uint8_t jihfasul_index(
    const uint8_t *table, size_t table_length,
    uint8_t *index, size_t index_length);

/* Opens a client, with an empty line, nothing active and no counts. Numbers 0 to 6, 8 to 11, 13, 18. */
struct jihfasul_done jihfasul_open(
    const uint8_t *table, size_t table_length,
    const uint8_t *values, size_t values_length,
    struct jihfasul_state state, uint64_t client, uint64_t time,
    const uint8_t *index, size_t index_length);

/* Closes a client and forgets its line and what it had active; its counts stay. Numbers 0 to 6, 8 to 12, 18. */
struct jihfasul_done jihfasul_close(
    const uint8_t *table, size_t table_length,
    const uint8_t *values, size_t values_length,
    struct jihfasul_state state, uint64_t client, uint64_t time,
    const uint8_t *index, size_t index_length);

/*
 * Takes a client's bytes: those through the first line feed, or all where there is none. `used` says how many; offer the rest again. A line
 * that its line feed ends is carried out at this call's time, and what is to be sent lies in the outbox's first `written` bytes, at
 * most 32,019. A change that is carried out writes the stored form (without spaces outside strings, an enum's members by their numbers,
 * a struct with optional members whole and in table order)
 * at the front of its parameter's place in the values area, and no other byte. A change of a parameter `target` in a module whose parameter
 * `status` admits `[300,"target changed"]` writes that too, at the front of the status's place, and the status's updates come before the
 * target's. Only a piece that ends a line seeks an accessible and answers steps. Numbers 0 to 12, 18.
 */
struct jihfasul_done jihfasul_piece(
    const uint8_t *table, size_t table_length,
    uint8_t *values, size_t values_length,
    uint8_t *outbox, size_t outbox_length,
    struct jihfasul_state state, uint64_t client, uint64_t time,
    const uint8_t *bytes, size_t bytes_length,
    const uint8_t *index, size_t index_length);

/*
 * Takes a driver's value for a parameter, as JSON text, stores it in place of a value or an error and writes the updates. Numbers 0 to 10, 14, 15,
 * 18.
 */
struct jihfasul_done jihfasul_reading(
    const uint8_t *table, size_t table_length,
    uint8_t *values, size_t values_length,
    uint8_t *outbox, size_t outbox_length,
    struct jihfasul_state state, uint64_t parameter, uint64_t time,
    const uint8_t *bytes, size_t bytes_length,
    const uint8_t *index, size_t index_length);

/*
 * Takes a driver's report that a parameter can't be read: an error (enum jihfasul_error) stands in the value's place until the next value
 * is stored, by a reading or by a change. Writes the updates, which are `error_update` lines; a `read` is answered with `error_read`. The
 * values area isn't written. Numbers 0 to 10, 14, 16, 18.
 */
struct jihfasul_done jihfasul_unreadable(
    const uint8_t *table, size_t table_length,
    const uint8_t *values, size_t values_length,
    uint8_t *outbox, size_t outbox_length,
    struct jihfasul_state state, uint64_t parameter, uint64_t time,
    uint64_t error,
    const uint8_t *index, size_t index_length);

/*
 * Takes a list of at most nine readings, in order, as so many single calls would; their updates lie in the outbox one after another. At the first
 * reading that is refused (10, 14, 15) the call stops: those before it stand, and what they wrote counts. A text that runs out of its buffer is
 * refused by 15. Refused as a whole, with nothing taken: 1 to 9, 17, 18; an empty list is judged on these too.
 */
struct jihfasul_listed jihfasul_readings(
    const uint8_t *table, size_t table_length,
    uint8_t *values, size_t values_length,
    uint8_t *outbox, size_t outbox_length,
    struct jihfasul_state state,
    const struct jihfasul_reading_row *rows, size_t rows_count,
    const uint8_t *texts, size_t texts_length,
    const uint8_t *index, size_t index_length);

/* The value that a parameter shows, or why it can't be read; nothing is copied. Numbers 0 to 6, 8, 9, 14. */
struct jihfasul_shown jihfasul_value(
    const uint8_t *table, size_t table_length,
    const uint8_t *values, size_t values_length,
    struct jihfasul_state state, uint64_t parameter);

/* The library's version, and the version of its state's layout; they are those of a header that fits it. Neither is lent anything. */
uint32_t jihfasul_version(void);
uint32_t jihfasul_state_layout(void);

/*
 * A record of the outbox: two bytes mark, a byte client, two bytes length (big-endian), body.
 * "RP" the final reply and "UP" an update: the body is a line with its line feed, for that client.
 * "DR" an order to set a parameter: a byte with the parameter's number, then the stored form.
 * "DC" an order to carry out a command: a byte with the command's number, counted over commands, then the argument's stored form, or
 * nothing where no argument is declared. The client of an order is the one that asked for it.
 */
struct jihfasul_record {
    char mark[2];
    uint8_t client;
    size_t length;
    const uint8_t *body;
};

/* Reads the record that begins at `at` and answers where the next one begins; 0 if there is none (after the last one, `at` is `written`). */
static inline size_t jihfasul_next_record(const uint8_t *outbox, size_t written, size_t at, struct jihfasul_record *record)
{
    if (at > written || written - at < 5)
        return 0;
    record->mark[0] = (char)outbox[at];
    record->mark[1] = (char)outbox[at + 1];
    record->client = outbox[at + 2];
    record->length = (size_t)outbox[at + 3] << 8 | outbox[at + 4];
    record->body = outbox + at + 5;
    return written - at - 5 < record->length ? 0 : at + 5 + record->length;
}

#ifdef __cplusplus
}
#endif

#endif
