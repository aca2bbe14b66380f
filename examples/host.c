/*
 * A host in C, without sockets: where it would write to one, or hand an order to a driver, it prints. It makes the calls of rule L-21's
 * example and a few more. examples/host.expected has what it prints, docs/LIBRARY.md why.
 *
 *     cc $(pkg-config --cflags jihfasul) examples/host.c $(pkg-config --libs jihfasul) -o host && ./host
 */
#include "jihfasul.h"

#include <stdio.h>
#include <string.h>

/* One module "t1": two parameters, "value" (read only) and "target", doubles from 0 to 300, and a command "stop". */
#define TO_300 "\1" "\0\0\0\0\0\0\0\0" "\0" "\0\0\0\0\0\0\1\54" "\0"
static const char TABLE[] =
    "ND" "\4" "demo" "\11" "one stage"
    "MO" "\2" "t1" "\5" "stage"
    "PA" "\5" "value" "\7" "reading" "\1" TO_300 "\0\1" "0"
    "PA" "\6" "target" "\6" "wanted" "\0" TO_300 "\0\2" "10"
    "CM" "\4" "stop" "\4" "stop" "\0"
    "EN";
static const uint8_t *const table = (const uint8_t *)TABLE;
static const size_t table_length = sizeof TABLE - 1;

/* What a host keeps: the values area, the state, and an outbox that is read before the next call. */
static uint8_t values[JIHFASUL_MIN_VALUES];
static uint8_t outbox[JIHFASUL_MIN_OUTBOX];
static uint8_t beside[JIHFASUL_INDEX]; /* an index of the table; a host that lends none passes 0 bytes */
static struct jihfasul_state state;

/* Hands the records on: lines to the clients' sockets, orders to the drivers. */
static void hand_on(size_t written)
{
    struct jihfasul_record r;
    size_t at = 0, next;
    while ((next = jihfasul_next_record(outbox, written, at, &r)) != 0) {
        if (r.mark[0] == 'D')
            printf("  driver: %s %d \"%.*s\", asked for by client %d\n", r.mark[1] == 'R' ? "set parameter" : "carry out command",
                r.body[0], (int)(r.length - 1), (const char *)r.body + 1, r.client);
        else
            printf("  client %d: %.*s", r.client, (int)r.length, (const char *)r.body);
        at = next;
    }
}

/* Keeps what a call answers and hands on what it wrote; a refusal has altered nothing. */
static void keep(const char *call, const struct jihfasul_done *done)
{
    printf("%s: number %d, used %d\n", call, done->number, (int)done->used);
    state = done->state;
    hand_on(done->written);
}

/* Feeds bytes as they came from a client's socket: each call uses them up to a line feed, and the rest is offered again. */
static void receive(uint64_t client, uint64_t time, const char *text)
{
    size_t length = strlen(text);
    while (length > 0) {
        struct jihfasul_done done = jihfasul_piece(table, table_length, values, sizeof values, outbox, sizeof outbox,
            state, client, time, (const uint8_t *)text, length, beside, sizeof beside);
        keep("piece", &done);
        if (done.number != JIHFASUL_ACCEPTED)
            return;
        text += done.used;
        length -= done.used;
    }
}

/* Feeds a value that a driver has read. */
static void read_driver(uint64_t parameter, uint64_t time, const char *text)
{
    struct jihfasul_done done = jihfasul_reading(table, table_length, values, sizeof values, outbox, sizeof outbox,
        state, parameter, time, (const uint8_t *)text, strlen(text), beside, sizeof beside);
    keep("reading", &done);
}

/* Feeds what a scanner has read at once: the rows say where each text lies in the buffer. Those before the first refused one are taken. */
static void read_scanner(const struct jihfasul_reading_row *rows, size_t count, const char *texts)
{
    struct jihfasul_listed listed = jihfasul_readings(table, table_length, values, sizeof values, outbox, sizeof outbox,
        state, rows, count, (const uint8_t *)texts, strlen(texts), beside, sizeof beside);
    printf("readings: number %d, taken %d\n", listed.number, (int)listed.taken);
    state = listed.state;
    hand_on(listed.written);
}

/* Feeds a driver's report that it can't read a parameter. */
static void fail_driver(uint64_t parameter, uint64_t time, enum jihfasul_error error)
{
    struct jihfasul_done done = jihfasul_unreadable(table, table_length, values, sizeof values, outbox, sizeof outbox,
        state, parameter, time, error, beside, sizeof beside);
    keep("unreadable", &done);
}

static void open_client(uint64_t client, uint64_t time)
{
    struct jihfasul_done done = jihfasul_open(table, table_length, values, sizeof values, state, client, time,
        beside, sizeof beside);
    keep("open", &done);
}

static void close_client(uint64_t client, uint64_t time)
{
    struct jihfasul_done done = jihfasul_close(table, table_length, values, sizeof values, state, client, time,
        beside, sizeof beside);
    keep("close", &done);
}

/* The host's own look at a parameter. */
static void show(uint64_t parameter)
{
    struct jihfasul_shown shown = jihfasul_value(table, table_length, values, sizeof values, state, parameter);
    const uint8_t *area = shown.stored ? values : table;
    printf("value: number %d\n", shown.number);
    if (shown.number == JIHFASUL_ACCEPTED && shown.error)
        printf("  parameter %d: %d (error) at %d ms\n", (int)parameter, shown.error, (int)shown.time);
    else if (shown.number == JIHFASUL_ACCEPTED)
        printf("  parameter %d: %.*s (%s) at %d ms\n", (int)parameter, (int)shown.size, (const char *)area + shown.from,
            shown.stored ? "set" : "initial", (int)shown.time);
}

int main(void)
{
    struct jihfasul_done done = jihfasul_start(table, table_length, values, sizeof values, 5);
    keep("start", &done);
    printf("index: number %d, used 0\n", jihfasul_index(table, table_length, beside, sizeof beside)); /* once for this table */
    open_client(2, 1000);
    open_client(5, 1000);
    open_client(5, 1000); /* refused: it is open */
    receive(2, 1100, "*IDN?\nacti"); /* a line and the beginning of another */
    receive(2, 1200, "vate t1\r\n");
    receive(5, 1300, "activate\n");
    receive(2, 1500, "change t1:target 12\n");
    receive(2, 1600, "change t1:target 301\nchange t1:value 1\ndo t1:stop\n");
    show(0); /* never set */
    read_driver(0, 2000, " 4.5 ");
    read_driver(0, 2100, "warm"); /* refused: no JSON */
    close_client(5, 2200);
    receive(2, 2300, "change t1:target 2e2\nread t1:target\nping\n");
    show(1);
    show(2); /* refused: there are two parameters */
    fail_driver(0, 2400, JIHFASUL_COMMUNICATION_FAILED);
    receive(2, 2500, "read t1:value\n");
    show(0); /* in error */
    read_driver(0, 2600, "4.6");
    show(0);
    static const struct jihfasul_reading_row rows[] = {{0, 2700, 0, 3}, {1, 2701, 3, 3}, {0, 2702, 6, 4}};
    read_scanner(rows, 3, "4.7150warm"); /* stops at the third: no JSON */
    return 0;
}
