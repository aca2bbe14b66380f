/*
 * Prints where the header's structs have their fields, then what a few calls answer, field by field. bindings/rust/examples/layout.rs prints the
 * same as Rust sees it. tests/layout.expected has what both are to print, but for the digests of whole states: no other program has
 * made these, so they are only compared between the two.
 */
#include "jihfasul.h"

#include <stdio.h>
#include <string.h>

#define FIELD(type, field) printf("%s %s at %d\n", #type, #field, (int)offsetof(struct jihfasul_##type, field))
#define SIZE(type) printf("%s of %d bytes\n", #type, (int)sizeof(struct jihfasul_##type))

/* One module with two parameters, both bool: "p", true, and "q", false. */
static const char TABLE[] = "ND\1e\1dMO\1m\1dPA\1p\1d\0\3\0\4truePA\1q\1d\0\3\0\5falseEN";
static const uint8_t *const table = (const uint8_t *)TABLE;
static const size_t table_length = sizeof TABLE - 1;

static uint8_t values[JIHFASUL_MIN_VALUES];
static uint8_t outbox[JIHFASUL_MIN_OUTBOX];
static uint8_t beside[JIHFASUL_INDEX]; /* the index */
static size_t lent;                    /* how many bytes of it calls are lent */
static struct jihfasul_state state;

static void print_layout(void)
{
    printf("version %d, of the library %u\n", JIHFASUL_VERSION, (unsigned)jihfasul_version());
    printf("layout %d, of the library %u\n", JIHFASUL_STATE_LAYOUT, (unsigned)jihfasul_state_layout());
    printf("stack of %d bytes\n", JIHFASUL_STACK);
    SIZE(state);
    FIELD(state, clients);
    FIELD(state, clients.open);
    FIELD(state, clients.overlong);
    FIELD(state, clients.active);
    FIELD(state, clients.length);
    FIELD(state, clients.lines);
    FIELD(state, settings);
    FIELD(state, settings.length);
    FIELD(state, settings.error);
    FIELD(state, settings.time);
    FIELD(state, counts);
    SIZE(counts);
    FIELD(counts, lines);
    FIELD(counts, errors);
    FIELD(counts, updates);
    SIZE(done);
    FIELD(done, number);
    FIELD(done, used);
    FIELD(done, written);
    FIELD(done, steps);
    FIELD(done, state);
    SIZE(reading_row);
    FIELD(reading_row, parameter);
    FIELD(reading_row, time);
    FIELD(reading_row, offset);
    FIELD(reading_row, length);
    SIZE(listed);
    FIELD(listed, number);
    FIELD(listed, taken);
    FIELD(listed, written);
    FIELD(listed, steps);
    FIELD(listed, state);
    SIZE(shown);
    FIELD(shown, number);
    FIELD(shown, stored);
    FIELD(shown, error);
    FIELD(shown, from);
    FIELD(shown, size);
    FIELD(shown, time);
}

/* The 32-bit FNV-1a hash of the state's bytes. */
static uint32_t digest(void)
{
    const uint8_t *bytes = (const uint8_t *)&state;
    uint32_t hash = 2166136261u;
    for (size_t i = 0; i < sizeof state; i++)
        hash = (hash ^ bytes[i]) * 16777619u;
    return hash;
}

static void keep(struct jihfasul_done done)
{
    state = done.state;
    printf("number %d, used %d, written %d, steps %d\n", done.number, (int)done.used, (int)done.written, (int)done.steps);
    printf("digest %u\n", (unsigned)digest());
}

static void piece(uint64_t client, const char *text)
{
    keep(jihfasul_piece(table, table_length, values, sizeof values, outbox, sizeof outbox, state, client, 600, (const uint8_t *)text, strlen(text),
        beside, lent));
}

static void list(const struct jihfasul_reading_row *rows, size_t count)
{
    static const char texts[] = "truefalse";
    struct jihfasul_listed listed = jihfasul_readings(table, table_length, values, sizeof values, outbox, sizeof outbox, state, rows, count,
        (const uint8_t *)texts, sizeof texts - 1, beside, lent);
    state = listed.state;
    printf("number %d, taken %d, written %d, steps %d\n", listed.number, (int)listed.taken, (int)listed.written, (int)listed.steps);
    printf("digest %u\n", (unsigned)digest());
}

static void value(uint64_t parameter)
{
    struct jihfasul_shown shown = jihfasul_value(table, table_length, values, sizeof values, state, parameter);
    printf("number %d\n", shown.number);
    if (shown.number == JIHFASUL_ACCEPTED)
        printf("stored %d, error %d, from %d, size %d, time %d\n", shown.stored, shown.error, (int)shown.from, (int)shown.size, (int)shown.time);
}

static void print_state(void)
{
    const struct jihfasul_clients *clients = &state.clients;
    for (int c = 0; c < JIHFASUL_CLIENTS; c++)
        printf("client %d: open %d, overlong %d, active %d, line \"%.*s\"\n", c, clients->open[c] != 0, clients->overlong[c] != 0,
            clients->active[c], (int)clients->length[c], (const char *)clients->lines + JIHFASUL_LINE * c);
    for (int p = 0; p < 2; p++)
        printf("parameter %d: length %d, error %d, time %d\n", p, state.settings.length[p], state.settings.error[p], (int)state.settings.time[p]);
    for (int c = 0; c < JIHFASUL_CLIENTS; c++)
        printf("counts %d: lines %u, errors %u, updates %u\n", c, (unsigned)state.counts[c].lines, (unsigned)state.counts[c].errors,
            (unsigned)state.counts[c].updates);
}

int main(void)
{
    char overlong[1026];
    memset(overlong, 'x', sizeof overlong - 1);
    overlong[sizeof overlong - 1] = 0;
    print_layout();
    keep(jihfasul_start(table, table_length, values, sizeof values, 5));
    keep(jihfasul_open(table, table_length, values, sizeof values, state, 3, 500, beside, lent));
    keep(jihfasul_open(table, table_length, values, sizeof values, state, 6, 500, beside, lent));
    keep(jihfasul_open(table, table_length, values, sizeof values, state, 7, 500, beside, lent));
    piece(3, "activate\nabc");
    piece(3, "abc");
    piece(6, overlong);
    piece(7, "x\n");
    piece(7, "_count\n");
    keep(jihfasul_reading(table, table_length, values, sizeof values, outbox, sizeof outbox, state, 1, 777, (const uint8_t *)"true", 4, beside, lent));
    keep(jihfasul_reading(table, table_length, values, sizeof values, outbox, sizeof outbox, state, 1, 778, (const uint8_t *)"1", 1, beside, lent));
    keep(jihfasul_close(table, table_length, values, sizeof values, state, 7, 800, beside, lent));
    print_state();
    value(0);
    value(1);
    value(2);
    keep(jihfasul_unreadable(table, table_length, values, sizeof values, outbox, sizeof outbox, state, 0, 901, JIHFASUL_READ_FAILED, beside, lent));
    keep(jihfasul_unreadable(table, table_length, values, sizeof values, outbox, sizeof outbox, state, 0, 902, 259, beside, lent));
    print_state();
    value(0);
    piece(3, "\n");
    piece(3, "read m:q\n");
    printf("index %d\n", jihfasul_index(table, table_length, beside, sizeof beside - 1));
    printf("index %d\n", jihfasul_index(table, table_length, beside, sizeof beside));
    lent = sizeof beside;
    piece(3, "read m:q\n");
    lent = 1;
    piece(3, "read m:q\n");
    static const struct jihfasul_reading_row rows[10] = {{1, 950, 0, 4}, {0, 951, 4, 5}, {2, 952, 0, 4}};
    list(rows, 2);
    lent = 0;
    list(rows, 10);
    list(rows, 3);
    list(rows, 0);
    value(0);
    value(1);
    return 0;
}
