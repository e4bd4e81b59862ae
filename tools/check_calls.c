/*
 * Holds the static library to an independent program, item by item from standard input. First there stands an image of
 * fresh tables with priority t + 1 for task t (12,800 bytes). An item is an image of the tables (12,800 bytes), a call
 * record (136), the answer that the call must give (16) and the image that it must leave (12,800).
 *
 * Each call is made by message_manager_call, by message_manager_replay as a log of one record and, where the record is
 * well formed, by the directive's own function; then with buffers of wrong lengths. The item's tables are also made
 * fresh, and are lent so that they must not be. Each time all that was lent is compared byte by byte. Before the items,
 * numbers are tried that no call record has room for. A line is printed for each difference: the item's number, a tab,
 * what differs.
 */
#include "message_manager.h"

#include <stdarg.h>
#include <stdio.h>
#include <stdlib.h>
#include <string.h>

enum {
    QUEUES_AT = 0,
    POOL_AT = QUEUES_AT + MESSAGE_MANAGER_QUEUES_SIZE,
    TASKS_AT = POOL_AT + MESSAGE_MANAGER_POOL_SIZE,
    IMAGE_SIZE = TASKS_AT + MESSAGE_MANAGER_TASKS_SIZE
};

static struct {
    uint8_t image[IMAGE_SIZE], record[MESSAGE_MANAGER_RECORD_SIZE];
    uint8_t answer[MESSAGE_MANAGER_ANSWER_SIZE], after[IMAGE_SIZE];
} item;
static unsigned long number; /* of the item */
static uint8_t fresh[IMAGE_SIZE], priorities[MESSAGE_MANAGER_TASK_COUNT];

/* ---- The buffers lent to a call, each with a byte to spare, so that it can be lent too long */

enum { QUEUES, POOL, TASKS, RECORD, PRIORITIES, ANSWER, BUFFERS };
static const char *const buffer_names[BUFFERS] = { "queues", "pool", "tasks", "record", "priorities", "answer" };
static const size_t right_sizes[BUFFERS] = {
    MESSAGE_MANAGER_QUEUES_SIZE, MESSAGE_MANAGER_POOL_SIZE, MESSAGE_MANAGER_TASKS_SIZE, MESSAGE_MANAGER_RECORD_SIZE,
    MESSAGE_MANAGER_TASK_COUNT, MESSAGE_MANAGER_ANSWER_SIZE
};
static uint8_t bytes[BUFFERS][MESSAGE_MANAGER_POOL_SIZE + 1];
static size_t sizes[BUFFERS];

#define LENT(b) bytes[b], sizes[b]
#define TABLES LENT(QUEUES), LENT(POOL), LENT(TASKS)

#define SPARE 0xa5
static uint8_t untouched[MESSAGE_MANAGER_ANSWER_SIZE]; /* an answer buffer that nobody has written: SPARE throughout */

/* What the buffers hold, given an image of the tables and an answer. */
static const uint8_t *contents(int b, const uint8_t *image, const uint8_t *answer)
{
    switch (b) {
    case QUEUES: return image + QUEUES_AT;
    case POOL: return image + POOL_AT;
    case TASKS: return image + TASKS_AT;
    case RECORD: return item.record;
    case PRIORITIES: return priorities;
    default: return answer;
    }
}

static void load(void)
{
    int b;
    for (b = 0; b < BUFFERS; b++) {
        memcpy(bytes[b], contents(b, item.image, untouched), right_sizes[b]);
        bytes[b][right_sizes[b]] = SPARE;
    }
}

/* ---- Ways to make the call of the item's record */

typedef uint32_t way(void);

static uint32_t by_record(void)
{
    return message_manager_call(TABLES, LENT(RECORD), LENT(ANSWER));
}

static uint32_t by_log(void)
{
    return message_manager_replay(TABLES, LENT(RECORD), LENT(ANSWER));
}

static const char *const directive_names[] = {
    "", "message_queue_create", "message_queue_ident", "message_queue_delete", "message_queue_send",
    "message_queue_urgent", "message_queue_broadcast", "message_queue_receive", "message_queue_get_number_pending",
    "message_queue_flush", "message_clock_tick"
};

static uint32_t by_directive(void)
{
    const uint8_t *r = item.record, *message = bytes[RECORD] + 16;
    const uint32_t caller = r[1], option = r[2], size = r[3], limit = r[12], max_size = r[13];
    const uint32_t id = message_manager_read_u32(r + 4), ticks = message_manager_read_u32(r + 8);
    switch (r[0]) {
    case 1: return message_queue_create(TABLES, caller, id, limit, max_size, option, LENT(ANSWER));
    case 2: return message_queue_ident(TABLES, caller, id, ticks, LENT(ANSWER));
    case 3: return message_queue_delete(TABLES, caller, id, LENT(ANSWER));
    case 4: return message_queue_send(TABLES, caller, id, message, size, LENT(ANSWER));
    case 5: return message_queue_urgent(TABLES, caller, id, message, size, LENT(ANSWER));
    case 6: return message_queue_broadcast(TABLES, caller, id, message, size, LENT(ANSWER));
    case 7: return message_queue_receive(TABLES, caller, id, option, ticks, LENT(ANSWER));
    case 8: return message_queue_get_number_pending(TABLES, caller, id, LENT(ANSWER));
    case 9: return message_queue_flush(TABLES, caller, id, LENT(ANSWER));
    case 10: return message_clock_tick(TABLES, LENT(ANSWER));
    default: fprintf(stderr, "item %lu: no operation %u\n", number, r[0]); exit(2);
    }
}

/* ---- Fresh tables, which are no call */

static uint32_t by_priorities(void)
{
    return message_manager_fresh_tables(TABLES, LENT(PRIORITIES));
}

/* ---- Comparing */

static void report(const char *name, const char *format, ...)
{
    va_list arguments;
    int b;
    printf("%lu\t%s", number, name);
    for (b = 0; b < BUFFERS; b++)
        if (sizes[b] != right_sizes[b])
            printf(", %s of %zu bytes", buffer_names[b], sizes[b]);
    va_start(arguments, format);
    vprintf(format, arguments);
    va_end(arguments);
    printf("\n");
}

/* The first byte of a buffer that is not as wanted; the one to spare must stay. */
static void compare(const char *name, int b, const uint8_t *wanted)
{
    size_t i = 0;
    if (memcmp(bytes[b], wanted, right_sizes[b]) != 0) {
        while (bytes[b][i] == wanted[i])
            i++;
        report(name, ": %s byte %zu is %u, not %u", buffer_names[b], i, bytes[b][i], wanted[i]);
    }
    if (bytes[b][right_sizes[b]] != SPARE)
        report(name, ": the byte behind %s is written", buffer_names[b]);
}

/* Makes the call with buffer b lent at this size, and the others at theirs. */
static void try_size(const char *name, way *call, int b, size_t size,
                     uint32_t status, const uint8_t *answer, const uint8_t *image)
{
    uint32_t returned;
    int c;
    load();
    memcpy(sizes, right_sizes, sizeof sizes);
    sizes[b] = size;
    returned = call();
    if (returned != status)
        report(name, ": returned %u, not %u", returned, status);
    for (c = 0; c < BUFFERS; c++)
        compare(name, c, contents(c, image, answer));
}

/* ---- Trials */

static void try_right(const char *name, way *call, uint32_t status)
{
    try_size(name, call, ANSWER, MESSAGE_MANAGER_ANSWER_SIZE, status, item.answer, item.after);
}

/* BAD_SHAPE, answered with this first byte of the record. */
static void try_refused(const char *name, way *call, int b, size_t size, uint8_t first)
{
    const uint8_t answer[MESSAGE_MANAGER_ANSWER_SIZE] = { MESSAGE_QUEUE_BAD_SHAPE, first };
    try_size(name, call, b, size, MESSAGE_QUEUE_BAD_SHAPE, answer, item.image);
}

/* BAD_SHAPE, and nothing is written. */
static void try_unanswered(const char *name, way *call, int b, size_t size)
{
    try_size(name, call, b, size, MESSAGE_QUEUE_BAD_SHAPE, untouched, item.image);
}

static void try_wrong_sizes(const char *name, way *call)
{
    int b;
    try_unanswered(name, call, ANSWER, 0);
    try_unanswered(name, call, ANSWER, 15);
    try_unanswered(name, call, ANSWER, 17);
    for (b = QUEUES; b <= TASKS; b++) {
        try_refused(name, call, b, right_sizes[b] - 1, item.record[0]);
        try_refused(name, call, b, right_sizes[b] + 1, item.record[0]);
    }
}

static void check_record(void)
{
    const char *name = "message_manager_call";
    try_right(name, by_record, item.answer[0]);
    try_wrong_sizes(name, by_record);
    try_refused(name, by_record, RECORD, 0, 0);
    try_refused(name, by_record, RECORD, 1, item.record[0]);
    try_refused(name, by_record, RECORD, 135, item.record[0]);
    try_refused(name, by_record, RECORD, 137, item.record[0]);
}

/* The answers may have more room than the log needs. */
static void check_log(void)
{
    const char *name = "message_manager_replay";
    try_right(name, by_log, MESSAGE_QUEUE_SUCCESSFUL);
    try_size(name, by_log, ANSWER, 17, MESSAGE_QUEUE_SUCCESSFUL, item.answer, item.after);
    try_size(name, by_log, RECORD, 0, MESSAGE_QUEUE_SUCCESSFUL, untouched, item.image);
    try_unanswered(name, by_log, ANSWER, 15);
}

/* Of an image, whose tables have the right lengths, only a malformed record is BAD_SHAPE. */
static void check_directive(void)
{
    if (item.answer[0] != MESSAGE_QUEUE_BAD_SHAPE) {
        const char *name = item.record[0] <= 10 ? directive_names[item.record[0]] : "";
        try_right(name, by_directive, item.answer[0]);
        try_wrong_sizes(name, by_directive);
    }
}

/* A table or the priorities of a wrong length, or a priority of 0, a task's in turn, leave the tables as they are. */
static void check_fresh(void)
{
    const char *name = "message_manager_fresh_tables";
    const size_t task = number % MESSAGE_MANAGER_TASK_COUNT;
    int b;
    try_size(name, by_priorities, PRIORITIES, MESSAGE_MANAGER_TASK_COUNT, MESSAGE_QUEUE_SUCCESSFUL, untouched, fresh);
    for (b = QUEUES; b <= TASKS; b++) {
        try_unanswered(name, by_priorities, b, right_sizes[b] - 1);
        try_unanswered(name, by_priorities, b, right_sizes[b] + 1);
    }
    try_unanswered(name, by_priorities, PRIORITIES, 0);
    try_unanswered(name, by_priorities, PRIORITIES, 31);
    try_unanswered(name, by_priorities, PRIORITIES, 33);
    priorities[task] = 0;
    try_unanswered(name, by_priorities, PRIORITIES, MESSAGE_MANAGER_TASK_COUNT);
    priorities[task] = task + 1;
}

/* Numbers that a call record has no room for are not cut to a byte: on fresh tables in which task 0 has made one queue. */
static void check_numbers(void)
{
    static const uint8_t message[257];
    uint8_t *const answer = bytes[ANSWER];
    const size_t size = MESSAGE_MANAGER_ANSWER_SIZE;
    uint32_t id;
    load();
    memcpy(sizes, right_sizes, sizeof sizes);
    message_manager_fresh_tables(TABLES, LENT(PRIORITIES));
    message_queue_create(TABLES, 0, 5, 2, 8, 0, answer, size);
    id = message_manager_value(answer);
#define WANT(status, name, ...) \
    do { \
        const uint32_t returned = message_queue_##name(TABLES, __VA_ARGS__, answer, size); \
        if (returned != MESSAGE_QUEUE_##status) \
            report(#name, ": a number above 255: returned %u, not %u", returned, (unsigned)MESSAGE_QUEUE_##status); \
    } while (0)
    WANT(BAD_CALLER, create, 256, 5, 2, 8, 0);
    WANT(INVALID_OPTION, create, 0, 5, 2, 8, 256);
    WANT(INVALID_NUMBER, create, 0, 5, 257, 8, 0);
    WANT(INVALID_SIZE, create, 0, 5, 2, 257, 0);
    WANT(INVALID_NODE, ident, 0, 5, 256);
    WANT(INVALID_OPTION, receive, 0, id, 257, 0);
    WANT(INVALID_SIZE, send, 0, id, message, 257);
#undef WANT
}

int main(void)
{
    size_t got, task;
    memset(untouched, SPARE, sizeof untouched);
    for (task = 0; task < MESSAGE_MANAGER_TASK_COUNT; task++)
        priorities[task] = task + 1;
    if (fread(fresh, 1, sizeof fresh, stdin) != sizeof fresh) {
        fprintf(stderr, "no image of fresh tables\n");
        return 2;
    }
    check_numbers();
    while ((got = fread(&item, 1, sizeof item, stdin)) == sizeof item) {
        check_record();
        check_log();
        check_directive();
        check_fresh();
        number++;
    }
    if (got != 0 || ferror(stdin)) {
        fprintf(stderr, "item %lu: %zu bytes\n", number, got);
        return 2;
    }
    return 0;
}
