/*
 * The message queue manager, for programs in C and C++: 32 tasks in four shares talk through 16 queues.
 * The names are those of the RTEMS Classic API.
 *
 * Link with crates/message_manager/out/libmessage_manager.a, for x86-64-v2 and above, which `rt lib` in
 * crates/message_manager writes. The library allocates nothing, keeps no state and no pointer, and calls nothing back:
 * all that it knows stands in what the host lends to each call, three tables or two images of them.
 *
 *
 * TABLES
 *
 *   queues   16 records of  16 bytes, one for each queue slot
 *   pool     64 records of 128 bytes, one for each message buffer
 *   tasks    32 records of 136 bytes, one for each task
 *
 * Share p (0 to 3) owns the slots 4p to 4p+3, the buffers 16p to 16p+15 and the tasks 8p to 8p+7.
 *
 * Fresh tables are zero but for byte 3 of each task's record, its priority: 1 (the most urgent) to 255. Tables that are
 * zero throughout are not sound. message_manager_fresh_tables makes fresh ones.
 *
 *
 * WHAT THE HOST OWES
 *
 * A buffer is lent as a pointer and its length in bytes, a list as a pointer and its length in entries. The library
 * cannot test the following, so the host sees to it:
 *
 *   - No pointer is NULL, even where the length is 0, as for an empty message, and all the bytes lent are there.
 *   - The buffers of a call do not overlap, but for two that are both const. What is lent as const is not written.
 *   - Nobody else reads or writes them during the call: one call at a time over the same tables.
 *   - Between calls the host reads the tables as it likes and writes nothing there. No task can reach them.
 *   - `caller` is the number of the task that makes the call, 0 to 31. It comes from the dispatcher and is trusted; no
 *     task can choose it.
 *
 *
 * ANSWERS
 *
 * A function that is lent an answer buffer returns its status and writes an answer record of 16 bytes:
 *
 *   0      status, the number returned
 *   1      operation: 1 create, 2 ident, 3 delete, 4 send, 5 urgent, 6 broadcast, 7 receive, 8 get number pending,
 *          9 flush, 10 tick
 *   2-3    zero
 *   4-7    value, little-endian: 0 unless the function names one
 *   8-11   woken mask, little-endian: bit t is set if the call made the waiting task t ready
 *   12-15  zero
 *
 * Every status but SUCCESSFUL and WAITING is a refusal: no byte of the tables has changed, value and mask are 0. Below,
 * statuses are named without MESSAGE_QUEUE_, each function's in the order in which it tests them. Numbers are 32 bits
 * wide, and none is cut. A function that is lent an answer buffer begins with the common tests:
 *
 *   BAD_SHAPE   the answer buffer has another length than 16 (then not even the answer is written), or a table is
 *               shorter or longer than it must be
 *   CORRUPT     the tables are not sound: somebody else has written there
 *   BAD_CALLER  the caller is above 31, or it is waiting
 *
 *
 * IDS
 *
 * An id stands for one queue and is never issued twice. It is usable for a caller if that queue still exists and is of
 * the caller's share or OPEN. A closed queue of another share and a missing one look the same: INVALID_ID.
 *
 *
 * MESSAGES RECEIVED
 *
 * A message is delivered into the record of the task that receives it: when receive returns SUCCESSFUL, into the
 * caller's; where it returned WAITING, into that of the waiting task, by the later call whose mask wakes it. In the
 * record of task t, which starts at byte 136 * t of the tasks, the host then finds:
 *
 *   4      how the receive ended: SUCCESSFUL with a message, TIMEOUT or OBJECT_WAS_DELETED without
 *   5      length of the message, 0 for an empty one; 0 without one. Byte 4 tells which.
 *   16..   the message. The bytes behind its length are left over from earlier ones.
 *
 * A refused receive, UNSATISFIED too, writes nothing there.
 */
#ifndef MESSAGE_MANAGER_H
#define MESSAGE_MANAGER_H

#include <stddef.h>
#include <stdint.h>

#ifdef __cplusplus
extern "C" {
#endif

/* Lengths in bytes. */
#define MESSAGE_MANAGER_QUEUES_SIZE 256
#define MESSAGE_MANAGER_POOL_SIZE 8192
#define MESSAGE_MANAGER_TASKS_SIZE 4352
#define MESSAGE_MANAGER_ANSWER_SIZE 16
#define MESSAGE_MANAGER_RECORD_SIZE 136 /* a call record of a log */
#define MESSAGE_MANAGER_IMAGE_SIZE 12800 /* an image: queues, pool and tasks, one behind the other */

#define MESSAGE_MANAGER_TASK_COUNT 32
#define MESSAGE_MANAGER_TASK_RECORD_SIZE 136
#define MESSAGE_MANAGER_IMAGE_RECORD_COUNT 112 /* records of the three tables */

enum message_queue_status {
    MESSAGE_QUEUE_SUCCESSFUL = 0,                /* done */
    MESSAGE_QUEUE_INVALID_NAME = 1,              /* name 0, or not found */
    MESSAGE_QUEUE_INVALID_ID = 2,                /* id not usable */
    MESSAGE_QUEUE_INVALID_SIZE = 3,              /* size of a message, or max_size, out of its range */
    MESSAGE_QUEUE_INVALID_NUMBER = 4,            /* limit not 1 to 16 */
    MESSAGE_QUEUE_TOO_MANY = 5,                  /* no slot, or queue full */
    MESSAGE_QUEUE_UNSATISFIED = 6,               /* the share's buffers are reserved, or no message is there */
    MESSAGE_QUEUE_TIMEOUT = 7,                   /* only in a task's record */
    MESSAGE_QUEUE_OBJECT_WAS_DELETED = 8,        /* only in a task's record */
    MESSAGE_QUEUE_INVALID_NODE = 9,              /* share above 3 */
    MESSAGE_QUEUE_CORRUPT = 10,                  /* tables not sound */
    MESSAGE_QUEUE_BAD_CALLER = 11,               /* caller above 31, or waiting */
    MESSAGE_QUEUE_ILLEGAL_ON_REMOTE_OBJECT = 12, /* delete or flush by another share */
    MESSAGE_QUEUE_NO_BUFFER = 13,                /* the queue has room, its share has no free buffer */
    MESSAGE_QUEUE_WAITING = 14,                  /* the caller now waits; not a refusal */
    MESSAGE_QUEUE_INVALID_OPTION = 15,           /* unknown attribute or option */
    MESSAGE_QUEUE_BAD_SHAPE = 16                 /* a buffer of wrong length, a list without room, a malformed call record, a priority 0 */
};

/* Attributes of a queue; both may be given, added. */
#define MESSAGE_QUEUE_PRIORITY 1 /* tasks wait by priority, the smallest number first; else in order of arrival */
#define MESSAGE_QUEUE_OPEN 2     /* tasks of other shares may use the queue, but not delete or flush it */

/* Options of receive. */
#define MESSAGE_QUEUE_WAIT 0
#define MESSAGE_QUEUE_NO_WAIT 1

/*
 * Makes the tables fresh, whatever they hold. The host does so before the first call. No answer record is written.
 *
 * Done over tables in use, it forgets every queue, message and wait, wakes nobody, and ids are issued anew from the
 * first: the host then sees to it that no task keeps an old id or waits for a mask.
 *
 *   priorities, priorities_size  32 bytes, the priority of task t at byte t: 1 to 255
 *
 * Returns BAD_SHAPE and has done nothing where a table is shorter or longer than it must be, `priorities` has another
 * length than 32, or a priority is 0; else SUCCESSFUL.
 */
uint32_t message_manager_fresh_tables(
    uint8_t *queues, size_t queues_size, uint8_t *pool, size_t pool_size, uint8_t *tasks, size_t tasks_size,
    const uint8_t *priorities, size_t priorities_size);

/*
 * Creates a queue in the caller's share, at its lowest free slot.
 *
 *   name        1 or more; names may repeat
 *   limit       1 to 16: how many messages it can hold. A share has 16 buffers for the limits of all its queues.
 *   max_size    1 to 120: how many bytes a message may have at most
 *   attributes  0 to 3: MESSAGE_QUEUE_PRIORITY, MESSAGE_QUEUE_OPEN
 *
 * Value: the id. Wakes nobody. Status: first the common tests, then
 *   INVALID_NAME    name 0
 *   INVALID_OPTION  attributes above 3
 *   INVALID_NUMBER  limit not 1 to 16
 *   INVALID_SIZE    max_size not 1 to 120
 *   TOO_MANY        no slot is free; one that has issued 65,535 ids is spent for good
 *   UNSATISFIED     the limits of the share's queues and this one pass 16
 *   SUCCESSFUL
 */
uint32_t message_queue_create(
    uint8_t *queues, size_t queues_size, const uint8_t *pool, size_t pool_size, const uint8_t *tasks, size_t tasks_size,
    uint32_t caller, uint32_t name, uint32_t limit, uint32_t max_size, uint32_t attributes,
    uint8_t *answer, size_t answer_size);

/*
 * Looks up a name among the queues of a share; in a share that is not the caller's, among its OPEN ones. Where several
 * have the name, the lowest slot is taken.
 *
 *   name   1 or more
 *   share  0 to 3
 *
 * Value: the id. Wakes nobody. Status: first the common tests, then
 *   INVALID_NAME  name 0
 *   INVALID_NODE  share above 3
 *   INVALID_NAME  not found
 *   SUCCESSFUL
 */
uint32_t message_queue_ident(
    const uint8_t *queues, size_t queues_size, const uint8_t *pool, size_t pool_size,
    const uint8_t *tasks, size_t tasks_size,
    uint32_t caller, uint32_t name, uint32_t share,
    uint8_t *answer, size_t answer_size);

/*
 * Deletes a queue of the caller's share, with the messages that it holds.
 *
 * Value: 0. Wakes every task that waits in it, with OBJECT_WAS_DELETED. Status: first the common tests, then
 *   INVALID_ID                id not usable
 *   ILLEGAL_ON_REMOTE_OBJECT  the queue is another share's
 *   SUCCESSFUL
 */
uint32_t message_queue_delete(
    uint8_t *queues, size_t queues_size, uint8_t *pool, size_t pool_size, uint8_t *tasks, size_t tasks_size,
    uint32_t caller, uint32_t id,
    uint8_t *answer, size_t answer_size);

/*
 * Sends a message. The first task that waits in the queue gets it at once; where none waits, it is queued at the rear.
 *
 *   message, message_size  the bytes: 0 to the queue's max_size. They are copied. A message may be empty.
 *
 * Value: 0. Wakes the task that got the message, with SUCCESSFUL. Status: first the common tests, then
 *   INVALID_ID    id not usable
 *   INVALID_SIZE  message_size above max_size
 *   TOO_MANY      nobody waits and the queue is full
 *   NO_BUFFER     nobody waits and the queue's share has no free buffer
 *   SUCCESSFUL
 */
uint32_t message_queue_send(
    uint8_t *queues, size_t queues_size, uint8_t *pool, size_t pool_size, uint8_t *tasks, size_t tasks_size,
    uint32_t caller, uint32_t id, const uint8_t *message, size_t message_size,
    uint8_t *answer, size_t answer_size);

/*
 * Sends a message that is queued at the front, to be received next. All else is as in message_queue_send; the order of
 * the tasks that wait does not change.
 */
uint32_t message_queue_urgent(
    uint8_t *queues, size_t queues_size, uint8_t *pool, size_t pool_size, uint8_t *tasks, size_t tasks_size,
    uint32_t caller, uint32_t id, const uint8_t *message, size_t message_size,
    uint8_t *answer, size_t answer_size);

/*
 * Sends a message to every task that waits in the queue. Nothing is queued: where none waits, nothing happens.
 *
 *   message, message_size  the bytes: 0 to the queue's max_size. They are copied. A message may be empty.
 *
 * Value: how many tasks got it. Wakes them all, with SUCCESSFUL. Status: first the common tests, then
 *   INVALID_ID    id not usable
 *   INVALID_SIZE  message_size above max_size
 *   SUCCESSFUL
 */
uint32_t message_queue_broadcast(
    uint8_t *queues, size_t queues_size, const uint8_t *pool, size_t pool_size, uint8_t *tasks, size_t tasks_size,
    uint32_t caller, uint32_t id, const uint8_t *message, size_t message_size,
    uint8_t *answer, size_t answer_size);

/*
 * Receives the first message of the queue into the caller's record, or waits for one: behind the others, with
 * MESSAGE_QUEUE_PRIORITY behind those of equal or smaller priority number. The host runs no waiting task until a mask
 * wakes it.
 *
 *   option  MESSAGE_QUEUE_WAIT or MESSAGE_QUEUE_NO_WAIT
 *   ticks   how many ticks to wait, 0 for ever; not looked at with MESSAGE_QUEUE_NO_WAIT
 *
 * Value: the length of the message received, 0 for an empty one; 0 with WAITING. Wakes nobody. Status: first the
 * common tests, then
 *   INVALID_ID      id not usable
 *   INVALID_OPTION  option above 1
 *   SUCCESSFUL      the message is in the caller's record
 *   UNSATISFIED     no message, and the option is MESSAGE_QUEUE_NO_WAIT
 *   WAITING         no message, and the caller now waits
 */
uint32_t message_queue_receive(
    uint8_t *queues, size_t queues_size, uint8_t *pool, size_t pool_size, uint8_t *tasks, size_t tasks_size,
    uint32_t caller, uint32_t id, uint32_t option, uint32_t ticks,
    uint8_t *answer, size_t answer_size);

/*
 * Counts the messages that the queue holds.
 *
 * Value: how many. Wakes nobody. Status: first the common tests, then
 *   INVALID_ID  id not usable
 *   SUCCESSFUL
 */
uint32_t message_queue_get_number_pending(
    const uint8_t *queues, size_t queues_size, const uint8_t *pool, size_t pool_size,
    const uint8_t *tasks, size_t tasks_size,
    uint32_t caller, uint32_t id,
    uint8_t *answer, size_t answer_size);

/*
 * Removes all messages from a queue of the caller's share.
 *
 * Value: how many. Wakes nobody. Status: first the common tests, then
 *   INVALID_ID                id not usable
 *   ILLEGAL_ON_REMOTE_OBJECT  the queue is another share's
 *   SUCCESSFUL
 */
uint32_t message_queue_flush(
    uint8_t *queues, size_t queues_size, uint8_t *pool, size_t pool_size, const uint8_t *tasks, size_t tasks_size,
    uint32_t caller, uint32_t id,
    uint8_t *answer, size_t answer_size);

/*
 * A clock tick: each task that waits for some ticks has one less to wait. A tick is the host's and has no caller.
 *
 * Value: how many waits have ended. Wakes those tasks, with TIMEOUT. Status: first the common tests without BAD_CALLER,
 * then SUCCESSFUL.
 */
uint32_t message_clock_tick(
    uint8_t *queues, size_t queues_size, const uint8_t *pool, size_t pool_size, uint8_t *tasks, size_t tasks_size,
    uint8_t *answer, size_t answer_size);

/*
 * Makes the call that a call record describes. Its caller stands in the record, so records from a task are not to be
 * passed on as they are. A record has 136 bytes, its numbers little-endian:
 *
 *   0       operation, 1 to 10 as in an answer
 *   1       caller                                    all but tick
 *   2       attributes or option                      create, receive
 *   3       size of the message, 0 to 120             send, urgent, broadcast
 *   4-7     name or id                                all but tick
 *   8-11    ticks or share                            receive, ident
 *   12      limit                                     create
 *   13      max_size                                  create
 *   14-15   zero
 *   16-135  the message, then zeros                   send, urgent, broadcast
 *
 * Where an operation does not use a field, it is zero. A record that breaks these rules or has another length is
 * malformed.
 *
 * Value and mask: those of the call. The answer's byte 1 is the record's byte 0, or 0 if it has no bytes.
 * Status: BAD_SHAPE for a malformed record, whatever the tables; else that of the call.
 */
uint32_t message_manager_call(
    uint8_t *queues, size_t queues_size, uint8_t *pool, size_t pool_size, uint8_t *tasks, size_t tasks_size,
    const uint8_t *record, size_t record_size,
    uint8_t *answer, size_t answer_size);

/*
 * Makes the calls of a log, one call record after the other. What is left at its end, fewer than 136 bytes, counts as a
 * malformed record. The answer records go to the front of `answers`, in order, and what is behind them stays.
 *
 *   answers, answers_size  room for an answer of 16 bytes to each record
 *
 * All answers and tables are as if message_manager_call had been called for each record, but the tables are searched
 * once and not at each call, so a log takes less time.
 *
 * Returns BAD_SHAPE and has done nothing where `answers` has no room; else SUCCESSFUL, whatever the answers say.
 */
uint32_t message_manager_replay(
    uint8_t *queues, size_t queues_size, uint8_t *pool, size_t pool_size, uint8_t *tasks, size_t tasks_size,
    const uint8_t *log, size_t log_size,
    uint8_t *answers, size_t answers_size);

/* What a function without an answer buffer hands back, where it has a value: not the answer record above. */
struct message_manager_result {
    uint32_t status;
    uint32_t value; /* 0 unless the function names one */
    uint32_t woken; /* woken mask: 0 */
};

/* The tables of an image, by their numbers. */
enum message_manager_table {
    MESSAGE_MANAGER_QUEUES = 0,
    MESSAGE_MANAGER_POOL = 1,
    MESSAGE_MANAGER_TASKS = 2
};

/* A record in which two images differ. */
struct message_manager_difference {
    uint8_t table;  /* enum message_manager_table */
    uint8_t number; /* of the record in its table */
    uint8_t place;  /* the first byte in it that differs */
    uint8_t count;  /* how many bytes in it differ */
};

/*
 * Lists the records in which two images differ: queues, then pool, then tasks, each table from its first record on. An
 * image is the three tables one behind the other; it need not be sound.
 *
 *   list, room  room for MESSAGE_MANAGER_IMAGE_RECORD_COUNT entries or more. Those past the value stay as they were.
 *
 * Value: how many records differ. Status:
 *   BAD_SHAPE   an image has another size than MESSAGE_MANAGER_IMAGE_SIZE, or the list has less room, however many
 *               records differ: no entry has been written
 *   SUCCESSFUL
 */
struct message_manager_result message_manager_compare(
    const uint8_t *one, size_t one_size, const uint8_t *two, size_t two_size,
    struct message_manager_difference *list, size_t room);

/* A little-endian number. */
static inline uint32_t message_manager_read_u32(const uint8_t *bytes)
{
    return bytes[0] | (uint32_t)bytes[1] << 8 | (uint32_t)bytes[2] << 16 | (uint32_t)bytes[3] << 24;
}

/* The value of an answer record. */
static inline uint32_t message_manager_value(const uint8_t *answer)
{
    return message_manager_read_u32(answer + 4);
}

/* The woken mask of an answer record. */
static inline uint32_t message_manager_woken(const uint8_t *answer)
{
    return message_manager_read_u32(answer + 8);
}

/* The record of a task, 0 to 31: its status at byte 4, the length of its message at 5, the message from 16. */
static inline const uint8_t *message_manager_task_record(const uint8_t *tasks, uint32_t task)
{
    return tasks + (size_t)MESSAGE_MANAGER_TASK_RECORD_SIZE * task;
}

/*
 * How the last receive of a task that was not refused ended: SUCCESSFUL with a message, empty or not, TIMEOUT or
 * OBJECT_WAS_DELETED without; WAITING while it waits. To be read when receive has returned SUCCESSFUL to the task, or
 * when a mask has its bit: a refused receive, UNSATISFIED too, leaves it as it was, and before the first receive it is
 * SUCCESSFUL.
 */
static inline uint32_t message_manager_task_status(const uint8_t *tasks, uint32_t task)
{
    return message_manager_task_record(tasks, task)[4];
}

/* The length of the message that a task has received. */
static inline size_t message_manager_task_length(const uint8_t *tasks, uint32_t task)
{
    return message_manager_task_record(tasks, task)[5];
}

/* The message that a task has received. */
static inline const uint8_t *message_manager_task_message(const uint8_t *tasks, uint32_t task)
{
    return message_manager_task_record(tasks, task) + 16;
}

#ifdef __cplusplus
}
#endif

#endif
