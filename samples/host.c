/*
 * A small host in C: it owns the tables, makes the calls of its tasks and lets those go on that a call wakes. Tasks 0
 * and 1 are the host's own, in share 0; task 8 is a guest plugin, in share 1. host.rs is the same in Rust, and host.out
 * is what both print.
 */
#include "message_manager.h"

#include <stdarg.h>
#include <stdio.h>
#include <string.h>

/* One behind the other, as in an image. */
struct tables {
    uint8_t queues[MESSAGE_MANAGER_QUEUES_SIZE];
    uint8_t pool[MESSAGE_MANAGER_POOL_SIZE];
    uint8_t tasks[MESSAGE_MANAGER_TASKS_SIZE];
};

static struct tables tables;
static uint8_t answer[MESSAGE_MANAGER_ANSWER_SIZE];

/* Tables and answer as each function takes them. */
#define TABLES tables.queues, sizeof tables.queues, tables.pool, sizeof tables.pool, tables.tasks, sizeof tables.tasks
#define ANSWER answer, sizeof answer

/* ---- In words */

static const char *status_name(uint32_t status)
{
    static const char *const names[] = {
        "SUCCESSFUL", "INVALID_NAME", "INVALID_ID", "INVALID_SIZE", "INVALID_NUMBER", "TOO_MANY", "UNSATISFIED",
        "TIMEOUT", "OBJECT_WAS_DELETED", "INVALID_NODE", "CORRUPT", "BAD_CALLER", "ILLEGAL_ON_REMOTE_OBJECT",
        "NO_BUFFER", "WAITING", "INVALID_OPTION", "BAD_SHAPE"
    };
    return status < sizeof names / sizeof names[0] ? names[status] : "no such status";
}

/* A call, at the left of its line. */
static void show_call(const char *format, ...)
{
    va_list arguments;
    int width;
    va_start(arguments, format);
    width = vprintf(format, arguments);
    va_end(arguments);
    printf("%*s", 52 - width, "");
}

/* How the last receive of a task ended, with the message that it got, which may be empty. */
static void show_received(uint32_t task)
{
    const uint32_t status = message_manager_task_status(tables.tasks, task);
    printf("    task %u goes on: %s", task, status_name(status));
    if (status == MESSAGE_QUEUE_SUCCESSFUL)
        printf(", \"%.*s\"", (int)message_manager_task_length(tables.tasks, task),
               (const char *)message_manager_task_message(tables.tasks, task));
    printf("\n");
}

/* The answer ends the line of its call; a line for each task that it wakes follows. */
static void show_answer(void)
{
    uint32_t task, woken = message_manager_woken(answer);
    printf("-> %s, value %u%s", status_name(answer[0]), message_manager_value(answer), woken ? ", wakes" : "");
    for (task = 0; task < MESSAGE_MANAGER_TASK_COUNT; task++)
        if (woken >> task & 1)
            printf(" %u", task);
    printf("\n");
    for (task = 0; task < MESSAGE_MANAGER_TASK_COUNT; task++)
        if (woken >> task & 1)
            show_received(task);
}

/* What a record of a table is. */
static const char *record_name(uint8_t table)
{
    return table == MESSAGE_MANAGER_QUEUES ? "queue" : table == MESSAGE_MANAGER_POOL ? "buffer" : "task";
}

/* What has changed in the tables since before: a line for each record. */
static void show_changes(const struct tables *before)
{
    static struct message_manager_difference list[MESSAGE_MANAGER_IMAGE_RECORD_COUNT];
    const struct message_manager_result compared = message_manager_compare(
        (const uint8_t *)before, sizeof *before, (const uint8_t *)&tables, sizeof tables,
        list, MESSAGE_MANAGER_IMAGE_RECORD_COUNT);
    uint32_t i;
    for (i = 0; i < compared.value; i++)
        printf("    %s %u: first change at byte %u, bytes changed: %u\n", record_name(list[i].table), list[i].number,
               list[i].place, list[i].count);
    if (compared.status != MESSAGE_QUEUE_SUCCESSFUL)
        printf("    not compared: %s\n", status_name(compared.status));
    else if (compared.value == 0)
        printf("    no table byte changed\n");
}

/* ---- The calls of a task: the host knows which task runs, and passes its number */

/* Four letters as a number, as in rtems_build_name. */
static uint32_t build_name(const char *letters)
{
    return (uint32_t)letters[0] << 24 | (uint32_t)letters[1] << 16 | (uint32_t)letters[2] << 8 | (uint32_t)letters[3];
}

/* The id of the new queue. */
static uint32_t create(uint32_t caller, const char *name, uint32_t limit, uint32_t max_size, uint32_t attributes)
{
    const char *reach = attributes & MESSAGE_QUEUE_OPEN ? "OPEN" : "closed";
    show_call("task %u: create %s, limit %u, max_size %u, %s", caller, name, limit, max_size, reach);
    message_queue_create(TABLES, caller, build_name(name), limit, max_size, attributes, ANSWER);
    show_answer();
    return message_manager_value(answer);
}

static void ident(uint32_t caller, const char *name, uint32_t share)
{
    show_call("task %u: ident %s in share %u", caller, name, share);
    message_queue_ident(TABLES, caller, build_name(name), share, ANSWER);
    show_answer();
}

static void delete_queue(uint32_t caller, uint32_t id)
{
    show_call("task %u: delete %u", caller, id);
    message_queue_delete(TABLES, caller, id, ANSWER);
    show_answer();
}

static void send(uint32_t caller, uint32_t id, const char *text)
{
    show_call("task %u: send to %u \"%s\"", caller, id, text);
    message_queue_send(TABLES, caller, id, (const uint8_t *)text, strlen(text), ANSWER);
    show_answer();
}

static void urgent(uint32_t caller, uint32_t id, const char *text)
{
    show_call("task %u: urgent to %u \"%s\"", caller, id, text);
    message_queue_urgent(TABLES, caller, id, (const uint8_t *)text, strlen(text), ANSWER);
    show_answer();
}

static void broadcast(uint32_t caller, uint32_t id, const char *text)
{
    show_call("task %u: broadcast to %u \"%s\"", caller, id, text);
    message_queue_broadcast(TABLES, caller, id, (const uint8_t *)text, strlen(text), ANSWER);
    show_answer();
}

/* A task that waits is not run again until a mask wakes it; one that need not wait goes on at once. */
static void receive(uint32_t caller, uint32_t id, uint32_t option, uint32_t ticks)
{
    const char *name = option == MESSAGE_QUEUE_WAIT ? "WAIT" : "NO_WAIT";
    show_call("task %u: receive from %u, %s, ticks %u", caller, id, name, ticks);
    message_queue_receive(TABLES, caller, id, option, ticks, ANSWER);
    show_answer();
    if (answer[0] == MESSAGE_QUEUE_SUCCESSFUL)
        show_received(caller);
}

static void get_number_pending(uint32_t caller, uint32_t id)
{
    show_call("task %u: get number pending of %u", caller, id);
    message_queue_get_number_pending(TABLES, caller, id, ANSWER);
    show_answer();
}

static void flush(uint32_t caller, uint32_t id)
{
    show_call("task %u: flush %u", caller, id);
    message_queue_flush(TABLES, caller, id, ANSWER);
    show_answer();
}

static void tick(void)
{
    show_call("tick");
    message_clock_tick(TABLES, ANSWER);
    show_answer();
}

/* ---- The story */

/* The status; task t has priority t + 1. */
static uint32_t make_fresh_tables(void)
{
    uint8_t priorities[MESSAGE_MANAGER_TASK_COUNT];
    uint8_t task;
    for (task = 0; task < MESSAGE_MANAGER_TASK_COUNT; task++)
        priorities[task] = task + 1;
    return message_manager_fresh_tables(TABLES, priorities, sizeof priorities);
}

/* A message that is too long, and a closed queue of another share: the tables stay as they are. */
static void try_refused_sends(uint32_t guest, uint32_t levels, uint32_t limits)
{
    struct tables before = tables;
    send(guest, levels, "level 40 on all 22");
    send(guest, limits, "level 40");
    show_changes(&before);
}

int main(void)
{
    const uint32_t host = 0, other = 1, guest = 8;
    uint32_t levels, limits;
    struct tables before;
    if (make_fresh_tables() != MESSAGE_QUEUE_SUCCESSFUL)
        return 1;

    levels = create(host, "LEVL", 4, 16, MESSAGE_QUEUE_OPEN);
    limits = create(host, "LIMT", 2, 8, 0);

    ident(guest, "LIMT", 0);
    ident(guest, "LEVL", 0);
    send(guest, levels, "level 40");
    try_refused_sends(guest, levels, limits);
    before = tables;
    urgent(guest, levels, "stop");
    show_changes(&before);

    get_number_pending(host, levels);
    receive(host, levels, MESSAGE_QUEUE_NO_WAIT, 0);
    flush(host, levels);

    receive(host, levels, MESSAGE_QUEUE_WAIT, 0);
    send(guest, levels, "level 41");

    /* a heartbeat: an empty message */
    send(guest, levels, "");
    get_number_pending(host, levels);
    receive(host, levels, MESSAGE_QUEUE_NO_WAIT, 0);

    receive(host, levels, MESSAGE_QUEUE_WAIT, 0);
    receive(other, levels, MESSAGE_QUEUE_WAIT, 5);
    broadcast(guest, levels, "off");

    receive(other, levels, MESSAGE_QUEUE_WAIT, 2);
    tick();
    tick();

    receive(other, limits, MESSAGE_QUEUE_WAIT, 0);
    delete_queue(host, limits);
    return 0;
}
