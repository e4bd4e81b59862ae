"""The cases of crates/replay_cases/data, by name: R, Q, M, T and X, and images that keep or break each rule of "Sound tables".

A case is an image of the tables to start from, calls each with the answer that documents 01 and 02 give it, and bytes expected in the
tables afterwards. `tools/stored_logs` holds the outside program to them and stores its answers and tables.
"""
from collections import namedtuple

CREATE, IDENT, DELETE, SEND, URGENT, BROADCAST, RECEIVE, PENDING, FLUSH, TICK = range(1, 11)

# events: pairs of a call record and the answer expected, which is status, value and mask, or SOUND for status 0 with any value and mask;
# excerpts: bytes expected after the calls
Case = namedtuple("Case", "name start events excerpts")
SOUND = None


# ---- Calls, by a task

def record(operation, caller=0, option=0, id_or_name=0, ticks=0, limit=0, max_size=0, message=b""):
    """A call record: document 01, "The call log"."""
    head = bytes([operation, caller, option, len(message)]) + id_or_name.to_bytes(4, "little") + ticks.to_bytes(4, "little")
    return head + bytes([limit, max_size, 0, 0]) + bytes(message).ljust(120, b"\0")


def create_named(task, name, limit, max_size, attributes):
    return record(CREATE, task, attributes, name, limit=limit, max_size=max_size)


def create(task, limit, max_size, attributes):
    """Under the name "Q" in ASCII."""
    return create_named(task, 81, limit, max_size, attributes)


def ident(task, name, share):
    return record(IDENT, task, 0, name, share)


def delete(task, queue):
    return record(DELETE, task, 0, queue)


def send(task, queue, message):
    return record(SEND, task, 0, queue, message=message)


def urgent(task, queue, message):
    return record(URGENT, task, 0, queue, message=message)


def broadcast(task, queue, message):
    return record(BROADCAST, task, 0, queue, message=message)


def receive(task, queue, option, ticks):
    return record(RECEIVE, task, option, queue, ticks)


def wait(task, queue, ticks):
    """For as many ticks; 0 is forever."""
    return receive(task, queue, 0, ticks)


def poll(task, queue):
    return receive(task, queue, 1, 0)


def pending(task, queue):
    return record(PENDING, task, 0, queue)


def flush(task, queue):
    return record(FLUSH, task, 0, queue)


def tick():
    return record(TICK)


A, B, C, D, AB, EMPTY = b"A", b"B", b"C", b"D", b"AB", b""


# ---- Answers

def answer(status, number, mask):
    return (status, number, mask)


def value(number):
    return (0, number, 0)


def wakes(mask):
    return (0, 0, mask)


def refused(status):
    return (status, 0, 0)


done, waits = (0, 0, 0), (14, 0, 0)


# ---- Bytes of a record, as a place in the image and what stands there: document 01, "Tables"

def queue(slot, place, content):
    return 16 * slot + place, bytes(content)


def buffer(number, place, content):
    return 256 + 128 * number + place, bytes(content)


def task(number, place, content):
    return 8448 + 136 * number + place, bytes(content)


def zeros(count):
    return bytes(count)


def numbers(first, count):
    return bytes(range(first, first + count))


def written(image, *excerpts):
    image = bytearray(image)
    for place, content in excerpts:
        image[place:place + len(content)] = content
    return bytes(image)


# ---- Tables to start from

def with_priorities(priorities):
    return written(bytes(12800), *[task(t, 3, [p]) for t, p in enumerate(priorities)])


FRESH = with_priorities(range(1, 33))
NINES = with_priorities([9] * 32)

# A sound image with a bit of everything. A queue record's bytes are its live byte, attributes, limit, max size, generation, pending,
# waiters and name; a buffer's its queue, rank, length and, from 8 on, data; a task's its state, queue, rank, priority, status, length
# and, from 8 on, ticks.
BASE = written(
    NINES,
    # slot 0 holds three messages, whose ranks are not in the order of their buffers
    queue(0, 0, [1, 0, 4, 10, 1, 0, 3, 0, 65]),
    buffer(0, 0, [1, 1, 1, *zeros(5), 1]),
    buffer(1, 0, [1, 2, 10, *zeros(5), *numbers(11, 10)]),
    buffer(5, 0, [1, 0, 2, *zeros(5), 21, 22]),
    # slot 1 is PRIORITY; tasks 2, 6, 4 and 3 wait, of priorities 3, 5, 5 and 7
    queue(1, 0, [1, 1, 9, 120, 2, 0, 0, 4, 66]),
    task(2, 0, [1, 2, 0, 3, 14, 0, 0, 0, 1]),
    task(6, 0, [1, 2, 1, 5, 14, 0, 0, 0, 2]),
    task(4, 0, [1, 2, 2, 5, 14, 0, 0, 0, 1]),
    task(3, 0, [1, 2, 3, 7, 14, 0]),
    # slots 2 and 3 are free, and slot 3 is spent
    queue(2, 4, [7, 0]),
    queue(3, 4, [255, 255]),
    # slot 4 is OPEN and of the last generation; tasks 9 and 0 wait, the less urgent first
    queue(4, 0, [1, 2, 16, 7, 255, 255, 0, 2, 67]),
    task(9, 0, [1, 5, 0, 20, 14, 0, 0, 0, 255, 255, 255, 255]),
    task(0, 0, [1, 5, 1, 10, 14, 0, 0, 0, 1]),
    # slot 8 is empty, slot 9 full
    queue(8, 0, [1, 0, 2, 5, 0, 1, 0, 0, 68]),
    queue(9, 0, [1, 3, 1, 1, 1, 0, 1, 0, 0, 0, 0, 128]),
    buffer(47, 0, [10, 0, 1, *zeros(5), 255]),
    # slot 12 holds a message of 120 bytes
    queue(12, 0, [1, 3, 16, 120, 1, 0, 1, 0, 69]),
    buffer(63, 0, [13, 0, 120, *zeros(5), *numbers(1, 120)]),
    # ready tasks that timed out, that lost their queue, and that received 120 bytes
    task(5, 3, [255, 7]),
    task(8, 3, [1, 8, 6, *zeros(10), *numbers(1, 120)]),
    task(31, 5, [120, *zeros(10), *numbers(1, 120)]),
)

# all 32 tasks wait in one OPEN queue, for one tick
ALL_WAIT = written(
    NINES,
    queue(0, 0, [1, 2, 1, 1, 1, 0, 0, 32, 81]),
    *[task(t, 0, [1, 1, t, 9, 14, 0, 0, 0, 1]) for t in range(32)],
)


# ---- R: every refusal next to its neighbours. Where a call is refused, the tests of its directive that come later hold too, if they can.

def refusal_cases():
    # R1 create: 11, 1, 15, 4, 3, 5, then 6 where a slot is free; the limits reach 16 and may not pass it.
    yield Case(
        "R1", FRESH,
        [(create(0, 4, 8, 0), value(16)), (create(0, 4, 8, 0), value(17)), (create(0, 4, 8, 0), value(18)), (create(0, 4, 8, 0), value(19)),
         (create_named(32, 0, 0, 0, 4), refused(11)), (create_named(0, 0, 0, 0, 4), refused(1)), (create(0, 0, 0, 4), refused(15)),
         (create(0, 0, 0, 3), refused(4)), (create(0, 17, 121, 3), refused(4)), (create(0, 1, 0, 3), refused(3)),
         (create(0, 16, 121, 3), refused(3)), (create(0, 16, 120, 3), refused(5)), (delete(0, 19), done),
         (create(0, 5, 120, 3), refused(6)), (create(0, 4, 120, 3), value(35))],
        [queue(3, 0, [1, 3, 4, 120, 2, 0, 0, 0, 81, *zeros(7)])],
    )
    # R2 ident: 11, 1 for name 0, 9, 1 where there is no such queue.
    yield Case(
        "R2", FRESH,
        [(create(0, 2, 8, 0), value(16)), (ident(32, 0, 4), refused(11)), (ident(0, 0, 4), refused(1)), (ident(0, 82, 4), refused(9)),
         (ident(0, 81, 4), refused(9)), (ident(0, 82, 0), refused(1)), (ident(0, 81, 3), refused(1)), (ident(0, 81, 0), value(16))],
        [],
    )
    # R3 delete and flush: 11, 2, 12.
    yield Case(
        "R3", FRESH,
        [(create(0, 2, 8, 2), value(16)), (send(0, 16, A), done), (delete(32, 32), refused(11)), (delete(8, 32), refused(2)),
         (delete(8, 16), refused(12)), (flush(32, 32), refused(11)), (flush(8, 32), refused(2)), (flush(8, 16), refused(12)),
         (pending(0, 16), value(1))],
        [],
    )
    # R4 send and urgent: 11, 2, 3, 5. Broadcast: 11, 2, 3. An empty message passes test 3.
    yield Case(
        "R4", FRESH,
        [(create(0, 1, 1, 0), value(16)), (send(0, 16, A), done), (send(32, 32, AB), refused(11)), (send(0, 32, AB), refused(2)),
         (send(0, 16, AB), refused(3)), (send(0, 16, EMPTY), refused(5)), (send(0, 16, B), refused(5)), (urgent(32, 32, AB), refused(11)),
         (urgent(0, 32, AB), refused(2)), (urgent(0, 16, AB), refused(3)), (urgent(0, 16, EMPTY), refused(5)),
         (urgent(0, 16, B), refused(5)), (broadcast(32, 32, AB), refused(11)), (broadcast(0, 32, AB), refused(2)),
         (broadcast(0, 16, AB), refused(3)), (broadcast(0, 16, EMPTY), value(0)), (broadcast(0, 16, B), value(0)), (poll(1, 16), value(1))],
        [task(1, 16, A)],
    )
    # R5 receive: 11, 2, 15, 6; 15 with a message pending, which stays. Pending: 11, 2.
    yield Case(
        "R5", FRESH,
        [(create(0, 2, 8, 0), value(16)), (receive(32, 32, 2, 0), refused(11)), (receive(0, 32, 2, 0), refused(2)),
         (receive(0, 16, 2, 0), refused(15)), (receive(0, 32, 1, 0), refused(2)), (receive(0, 16, 1, 5), refused(6)),
         (send(0, 16, A), done), (receive(0, 16, 2, 0), refused(15)), (pending(32, 32), refused(11)), (pending(0, 32), refused(2)),
         (pending(0, 16), value(1))],
        [],
    )
    # R6 a waiting caller: 11, whatever it asks, and it goes on waiting.
    yield Case(
        "R6", FRESH,
        [(create(0, 2, 8, 0), value(16)), (wait(1, 16, 0), waits), (create_named(1, 0, 2, 8, 0), refused(11)),
         (ident(1, 0, 0), refused(11)), (delete(1, 32), refused(11)), (send(1, 32, A), refused(11)), (urgent(1, 32, A), refused(11)),
         (broadcast(1, 32, A), refused(11)), (poll(1, 32), refused(11)), (pending(1, 32), refused(11)), (flush(1, 32), refused(11)),
         (broadcast(1, 16, A), refused(11))],
        [task(1, 0, [1, 1, 0, 2, 14, 0])],
    )
    # R7 numbers of four bytes are not cut to one, and a byte is taken whole.
    yield Case(
        "R7", FRESH,
        [(create(255, 2, 8, 0), refused(11)), (create(0, 2, 8, 255), refused(15)), (create(0, 255, 8, 0), refused(4)),
         (create(0, 2, 255, 0), refused(3)), (create(0, 2, 8, 0), value(16)), (ident(0, 81, 256), refused(9)),
         (ident(0, 81, 4294967040), refused(9)), (ident(0, 337, 0), refused(1)), (receive(0, 16, 255, 0), refused(15)),
         (pending(0, 272), refused(2)), (send(0, 16, [1] * 120), refused(3))],
        [],
    )
    # R8 the size is tested before anything is copied: a waiter keeps waiting.
    yield Case(
        "R8", FRESH,
        [(create(0, 2, 1, 0), value(16)), (wait(1, 16, 0), waits), (send(0, 16, AB), refused(3)), (urgent(0, 16, AB), refused(3)),
         (broadcast(0, 16, AB), refused(3))],
        [task(1, 0, [1, 1, 0, 2, 14, *zeros(131)]), queue(0, 6, [0, 1]), buffer(0, 0, zeros(128))],
    )
    # R9 a poll that gives 6 writes nothing: status 7 stays in the task.
    yield Case(
        "R9", FRESH,
        [(create(0, 2, 8, 0), value(16)), (wait(1, 16, 1), waits), (tick(), answer(0, 1, 2)), (poll(1, 16), refused(6))],
        [task(1, 0, [0, 0, 0, 2, 7, 0])],
    )


# ---- Q: queues, ids and shares

def queue_cases():
    # Q1 fresh tables: the first and the last record of each.
    yield Case(
        "Q1", FRESH,
        [],
        [queue(0, 0, zeros(16)), queue(15, 0, zeros(16)), buffer(0, 0, zeros(128)), buffer(63, 0, zeros(128)),
         task(0, 0, [0, 0, 0, 1, *zeros(132)]), task(31, 0, [0, 0, 0, 32, *zeros(132)])],
    )
    # Q2 every byte of a queue record, with messages and with waiters.
    yield Case(
        "Q2", FRESH,
        [(create_named(8, 1145258561, 5, 77, 3), value(20)), (create_named(8, 2147483648, 6, 120, 0), value(21)), (send(8, 20, A), done),
         (send(8, 20, B), done), (wait(9, 21, 0), waits), (wait(10, 21, 0), waits), (wait(11, 21, 0), waits)],
        [queue(4, 0, [1, 3, 5, 77, 1, 0, 2, 0, 65, 66, 67, 68, *zeros(4)]),
         queue(5, 0, [1, 0, 6, 120, 1, 0, 0, 3, 0, 0, 0, 128, *zeros(4)])],
    )
    # Q3 an id is of its generation, all of it: no other id of the slot will do, nor the id of a queue that is gone.
    yield Case(
        "Q3", FRESH,
        [(create(0, 2, 8, 0), value(16)), (pending(0, 0), refused(2)), (pending(0, 17), refused(2)), (pending(0, 32), refused(2)),
         (pending(0, 4112), refused(2)), (pending(0, 1048592), refused(2)), (pending(0, 16), value(0)), (delete(0, 16), done),
         (pending(0, 16), refused(2)), (delete(0, 16), refused(2)), (create(0, 2, 8, 0), value(32)), (delete(0, 32), done),
         (create(0, 2, 8, 0), value(48)), (pending(0, 32), refused(2)), (pending(0, 1048624), refused(2)), (pending(0, 48), value(0))],
        [],
    )
    # Q4 create takes the lowest free slot.
    yield Case(
        "Q4", FRESH,
        [(create(0, 2, 8, 0), value(16)), (create(0, 2, 8, 0), value(17)), (create(0, 2, 8, 0), value(18)), (delete(0, 17), done),
         (create(0, 2, 8, 0), value(33)), (create(0, 2, 8, 0), value(19))],
        [],
    )
    # Q5 the first and the last task of each share create in their share, and each share has limits of its own.
    yield Case(
        "Q5", FRESH,
        [(create(0, 8, 8, 0), value(16)), (create(7, 8, 8, 0), value(17)), (create(8, 8, 8, 0), value(20)),
         (create(15, 8, 8, 0), value(21)), (create(16, 8, 8, 0), value(24)), (create(23, 8, 8, 0), value(25)),
         (create(24, 8, 8, 0), value(28)), (create(31, 8, 8, 0), value(29)), (create(31, 1, 8, 0), refused(6))],
        [],
    )
    # Q6 ident: the lowest live slot of the name, in a foreign share only OPEN ones; the value is the id.
    yield Case(
        "Q6", FRESH,
        [(create_named(0, 80, 2, 8, 2), value(16)), (create(0, 2, 8, 0), value(17)), (create(0, 2, 8, 2), value(18)),
         (create(0, 2, 8, 2), value(19)), (ident(0, 81, 0), value(17)), (ident(8, 81, 0), value(18)), (ident(8, 81, 1), refused(1)),
         (ident(8, 80, 0), value(16)), (delete(0, 17), done), (ident(0, 81, 0), value(18)), (create(0, 2, 8, 0), value(33)),
         (ident(0, 81, 0), value(33)), (delete(0, 18), done), (delete(0, 19), done), (ident(8, 81, 0), refused(1))],
        [],
    )
    # Q7 a closed foreign queue, 16, and a missing one, 17, look the same.
    yield Case(
        "Q7", FRESH,
        [(create(0, 2, 8, 0), value(16)), (delete(8, 16), refused(2)), (send(8, 16, A), refused(2)), (urgent(8, 16, A), refused(2)),
         (broadcast(8, 16, A), refused(2)), (poll(8, 16), refused(2)), (pending(8, 16), refused(2)), (flush(8, 16), refused(2)),
         (delete(8, 17), refused(2)), (send(8, 17, A), refused(2)), (urgent(8, 17, A), refused(2)), (broadcast(8, 17, A), refused(2)),
         (poll(8, 17), refused(2)), (pending(8, 17), refused(2)), (flush(8, 17), refused(2))],
        [],
    )
    # Q8 a foreign task uses an OPEN queue; the message is in a buffer of the owner's share.
    yield Case(
        "Q8", FRESH,
        [(create(8, 4, 8, 2), value(20)), (send(0, 20, A), done), (urgent(24, 20, B), done), (pending(16, 20), value(2)),
         (broadcast(0, 20, C), value(0)), (poll(31, 20), value(1))],
        [buffer(16, 0, [5, 0, 1, *zeros(5), *A]), buffer(17, 0, zeros(128)), buffer(0, 0, zeros(128)), buffer(48, 0, zeros(128)),
         task(31, 16, B)],
    )
    # Q9 delete: the waiters, foreign ones too, are ready with status 8; another queue's waiter waits on; the record is zero but for its generation.
    yield Case(
        "Q9", FRESH,
        [(create(0, 2, 8, 2), value(16)), (create(0, 2, 8, 0), value(17)), (wait(9, 16, 5), waits), (wait(1, 16, 0), waits),
         (wait(2, 17, 0), waits), (delete(0, 16), wakes(514))],
        [task(9, 0, [0, 0, 0, 10, 8, *zeros(7)]), task(1, 0, [0, 0, 0, 2, 8, *zeros(7)]), task(2, 0, [1, 2, 0, 3, 14, 0]),
         queue(0, 0, [0, 0, 0, 0, 1, *zeros(11)]), queue(1, 6, [0, 1])],
    )


# ---- M: messages

def message_cases():
    # M1 sixteen messages are held, in all of the share's buffers: of the first share, and of the last.
    yield Case(
        "M1", FRESH,
        [(create(0, 16, 8, 0), value(16)), *[(send(0, 16, A), done)] * 15, (send(0, 16, B), done), (send(0, 16, C), refused(5)),
         (pending(0, 16), value(16))],
        [buffer(15, 0, [1, 15, 1, *zeros(5), *B]), buffer(16, 0, zeros(128)), queue(0, 6, [16, 0])],
    )
    yield Case(
        "M1 in the last share", FRESH,
        [(create(31, 16, 8, 0), value(28)), (send(31, 28, A), done), *[(send(31, 28, B), done)] * 14, (send(31, 28, C), done),
         (send(31, 28, D), refused(5)), (pending(31, 28), value(16))],
        [buffer(47, 0, zeros(128)), buffer(48, 0, [13, 0, 1, *zeros(5), *A]), buffer(63, 0, [13, 15, 1, *zeros(5), *C]),
         queue(12, 6, [16, 0])],
    )
    # M2 a message goes into the lowest free buffer, which need not be the rear's; a receive zeroes the whole buffer and those behind move up.
    yield Case(
        "M2", FRESH,
        [(create(0, 4, 8, 0), value(16)), (send(0, 16, A), done), (send(0, 16, B), done), (send(0, 16, C), done), (poll(1, 16), value(1)),
         (send(0, 16, D), done), (poll(2, 16), value(1))],
        [buffer(0, 0, [1, 1, 1, *zeros(5), *D]), buffer(1, 0, zeros(128)), buffer(2, 0, [1, 0, 1, *zeros(5), *C]), task(1, 16, A),
         task(2, 16, B)],
    )
    # M3 two queues of a share: the ranks are each queue's own.
    yield Case(
        "M3", FRESH,
        [(create(0, 4, 8, 0), value(16)), (create(0, 4, 8, 0), value(17)), (send(0, 16, A), done), (send(0, 17, B), done),
         (urgent(0, 16, C), done), (send(0, 17, D), done), (poll(1, 17), value(1))],
        [buffer(0, 0, [1, 1, 1]), buffer(2, 0, [1, 0, 1]), buffer(3, 0, [2, 0, 1]), task(1, 16, B)],
    )
    # M4 a message's length counts its zeros; it is received at once where the caller would have waited.
    yield Case(
        "M4", FRESH,
        [(create(0, 4, 8, 0), value(16)), (send(0, 16, [1, 0, 255, 0]), done), (wait(1, 16, 5), value(4))],
        [task(1, 0, [0, 0, 0, 2, 0, 4, *zeros(10), 1, 0, 255, 0])],
    )
    # M5 received bytes beyond the length stay: after messages of 120, 4, 3, 2 and 1 bytes, by receive and to a waiter.
    yield Case(
        "M5", FRESH,
        [(create(0, 2, 120, 0), value(16)), (send(0, 16, numbers(1, 120)), done), (poll(1, 16), value(120)),
         (send(0, 16, [201, 202, 203, 204]), done), (poll(1, 16), value(4)), (wait(1, 16, 0), waits),
         (send(0, 16, [211, 212, 213]), wakes(2)), (wait(1, 16, 0), waits), (urgent(0, 16, [221, 222]), wakes(2)), (wait(1, 16, 0), waits),
         (broadcast(0, 16, [231]), answer(0, 1, 2))],
        [task(1, 0, [0, 0, 0, 2, 0, 1, *zeros(10), 231, 222, 213, 204, *numbers(5, 116)])],
    )
    # M6 a wait sets the length to 0 and leaves the receive buffer, through a timeout and a delete.
    yield Case(
        "M6", FRESH,
        [(create(0, 2, 8, 0), value(16)), (send(0, 16, AB), done), (poll(1, 16), value(2)), (wait(1, 16, 1), waits),
         (tick(), answer(0, 1, 2)), (wait(1, 16, 0), waits), (delete(0, 16), wakes(2))],
        [task(1, 0, [0, 0, 0, 2, 8, *zeros(11), *AB, *zeros(118)])],
    )
    # M7 flush and delete zero the buffers of their queue and no others.
    yield Case(
        "M7", FRESH,
        [(create(0, 2, 8, 0), value(16)), (create(0, 2, 8, 0), value(17)), (create(0, 2, 8, 0), value(18)), (send(0, 16, A), done),
         (send(0, 17, B), done), (send(0, 18, C), done), (flush(0, 16), value(1)), (delete(0, 17), done), (pending(0, 16), value(0))],
        [buffer(0, 0, zeros(128)), buffer(1, 0, zeros(128)), buffer(2, 0, [3, 0, 1, *zeros(5), *C]), queue(0, 6, zeros(2))],
    )
    # M8 broadcast to a queue with messages changes nothing; so does flush of a queue with waiters.
    yield Case(
        "M8", FRESH,
        [(create(0, 2, 8, 0), value(16)), (create(0, 2, 8, 0), value(17)), (send(0, 16, A), done), (broadcast(0, 16, B), value(0)),
         (wait(1, 17, 0), waits), (flush(0, 17), value(0)), (poll(2, 16), value(1))],
        [task(1, 0, [1, 2, 0, 2, 14, 0]), task(2, 16, A)],
    )
    # M9 empty messages keep their place in the line, each in a buffer of its own; received, they leave all 120 bytes of the receive buffer
    # as they were, and the lower of their two buffers is used next.
    yield Case(
        "M9", FRESH,
        [(create(0, 4, 120, 0), value(16)), (send(0, 16, numbers(1, 120)), done), (poll(1, 16), value(120)), (send(0, 16, EMPTY), done),
         (send(0, 16, A), done), (urgent(0, 16, EMPTY), done), (send(0, 16, B), done), (send(0, 16, EMPTY), refused(5)),
         (pending(0, 16), value(4)), (poll(1, 16), value(0)), (wait(1, 16, 5), value(0)), (pending(0, 16), value(2)),
         (send(0, 16, EMPTY), done)],
        [task(1, 0, [0, 0, 0, 2, *zeros(12), *numbers(1, 120)]), buffer(0, 0, [1, 2, *zeros(126)]), buffer(1, 0, [1, 0, 1, *zeros(5), *A]),
         buffer(2, 0, zeros(128)), buffer(3, 0, [1, 1, 1, *zeros(5), *B]), queue(0, 6, [3, 0])],
    )
    # M10 empty messages are counted and removed as others are: by flush, and by delete.
    yield Case(
        "M10", FRESH,
        [(create(0, 2, 1, 0), value(16)), (create(0, 2, 1, 0), value(17)), (send(0, 16, EMPTY), done), (send(0, 17, EMPTY), done),
         (send(0, 16, EMPTY), done), (flush(0, 16), value(2)), (pending(0, 17), value(1)), (delete(0, 17), done), (send(0, 16, EMPTY), done)],
        [buffer(0, 0, [1, *zeros(127)]), buffer(1, 0, zeros(128)), buffer(2, 0, zeros(128)), queue(0, 6, [1, 0])],
    )
    # M11 empty messages to an OPEN queue, from a foreign task: one goes to a foreign waiter, the next into a buffer of the owner's share.
    yield Case(
        "M11", FRESH,
        [(create(8, 2, 8, 3), value(20)), (wait(31, 20, 7), waits), (urgent(0, 20, EMPTY), wakes(1 << 31)), (urgent(0, 20, EMPTY), done),
         (pending(24, 20), value(1))],
        [task(31, 0, [0, 0, 0, 32, *zeros(132)]), buffer(16, 0, [5, *zeros(127)]), buffer(0, 0, zeros(128)), queue(4, 6, [1, 0])],
    )


# ---- T: waiters and ticks

def waiter_cases():
    # T1 waits of 1, 2 and 0 ticks: three ticks wake one, one and none.
    yield Case(
        "T1", FRESH,
        [(create(0, 2, 8, 0), value(16)), (wait(1, 16, 1), waits), (wait(2, 16, 2), waits), (wait(3, 16, 0), waits),
         (tick(), answer(0, 1, 2)), (tick(), answer(0, 1, 4)), (tick(), done)],
        [task(1, 4, [7]), task(2, 4, [7]), task(3, 0, [1, 1, 0, 4, 14, *zeros(7)])],
    )
    # T2 all whose last tick it is leave together, wherever they stand and in whatever queue; the others keep their order.
    yield Case(
        "T2", FRESH,
        [(create(0, 2, 8, 0), value(16)), (create(8, 2, 8, 0), value(20)), (wait(4, 16, 1), waits), (wait(2, 16, 1), waits),
         (wait(5, 16, 0), waits), (wait(3, 16, 2), waits), (wait(1, 16, 1), waits), (wait(8, 20, 1), waits), (tick(), answer(0, 4, 278))],
        [task(1, 0, [0, 0, 0, 2, 7, *zeros(7)]), task(2, 0, [0, 0, 0, 3, 7, *zeros(7)]), task(4, 0, [0, 0, 0, 5, 7, *zeros(7)]),
         task(8, 0, [0, 0, 0, 9, 7, *zeros(7)]), task(5, 0, [1, 1, 0, 6, 14, *zeros(7)]),
         task(3, 0, [1, 1, 1, 4, 14, 0, 0, 0, 1, *zeros(3)]), queue(0, 6, [0, 2]), queue(4, 6, zeros(2))],
    )
    # T3 the ticks left have 32 bits.
    yield Case(
        "T3", FRESH,
        [(create(0, 2, 8, 0), value(16)), (wait(1, 16, 4294967295), waits), (wait(2, 16, 65536), waits), (tick(), done)],
        [task(1, 8, [254, 255, 255, 255]), task(2, 8, [255, 255, 0, 0])],
    )
    # T4 send and urgent wake the first waiter and leave the others in their order.
    yield Case(
        "T4", FRESH,
        [(create(0, 2, 8, 0), value(16)), (wait(3, 16, 0), waits), (wait(1, 16, 0), waits), (wait(4, 16, 0), waits),
         (wait(2, 16, 0), waits), (urgent(0, 16, A), wakes(8)), (send(0, 16, B), wakes(2))],
        [task(3, 16, A), task(1, 16, B), task(4, 0, [1, 1, 0, 5, 14, 0]), task(2, 0, [1, 1, 1, 3, 14, 0]), queue(0, 6, [0, 2])],
    )
    # T5 equal priorities: a newcomer stands behind those of its number.
    yield Case(
        "T5", NINES,
        [(create(0, 2, 8, 1), value(16)), (wait(3, 16, 0), waits), (wait(1, 16, 0), waits), (wait(2, 16, 0), waits),
         (send(0, 16, A), wakes(8)), (send(0, 16, B), wakes(2)), (send(0, 16, C), wakes(4))],
        [],
    )
    # T6 some equal, one foreign: behind all of equal or smaller number.
    yield Case(
        "T6", with_priorities([5, 3, 5, 3, 1, 9, 9, 9, 3, *[9] * 23]),
        [(create(0, 2, 8, 3), value(16)), (wait(0, 16, 0), waits), (wait(1, 16, 0), waits), (wait(2, 16, 0), waits),
         (wait(3, 16, 0), waits), (wait(4, 16, 0), waits), (wait(8, 16, 0), waits)],
        [task(4, 2, [0, 1]), task(1, 2, [1, 3]), task(3, 2, [2, 3]), task(8, 2, [3, 3]), task(0, 2, [4, 5]), task(2, 2, [5, 5])],
    )


# ---- X: calls on images that no short run reaches

def image_cases():
    # X1 10 goes before 11 and before every refusal of a directive, and is all that a tick can be refused with.
    unsound = written(NINES, task(31, 3, [0]))
    for call in (create_named(32, 0, 0, 0, 4), ident(32, 0, 4), delete(32, 0), send(32, 0, A), urgent(32, 0, A), broadcast(32, 0, A),
                 poll(32, 0), pending(32, 0), flush(32, 0), tick()):
        yield Case(f"X1 operation {call[0]}", unsound, [(call, refused(10))], [task(31, 0, zeros(136))])
    # X2 a free slot at generation 65,535 is spent for good.
    yield Case(
        "X2", BASE,
        [(create(1, 1, 8, 0), value(130)), (create(1, 1, 8, 0), refused(5)), (delete(1, 130), done), (create(1, 1, 8, 0), value(146))],
        [queue(3, 0, [0, 0, 0, 0, 255, 255, *zeros(10)])],
    )
    yield Case(
        "X2 at the last generation",
        written(NINES, queue(0, 4, [254, 255]), queue(1, 4, [255, 255]), queue(2, 4, [255, 255]), queue(3, 4, [255, 255])),
        [(create(0, 1, 8, 0), value(1048560)), (delete(0, 1048560), done), (create(0, 1, 8, 0), refused(5))],
        [queue(0, 0, [0, 0, 0, 0, 255, 255, *zeros(10)])],
    )
    # X3 both bytes of a generation count, and more than they hold is no generation.
    yield Case(
        "X3", BASE,
        [(pending(8, 1048564), value(0)), (pending(8, 2097140), refused(2)), (pending(8, 4084), refused(2)), (pending(16, 4104), value(0)),
         (pending(16, 8), refused(2)), (ident(16, 67, 1), value(1048564))],
        [],
    )
    yield Case("X3 from 255 to 256", written(NINES, queue(0, 4, [255, 0])), [(create(0, 1, 8, 0), value(4096))], [queue(0, 4, [0, 1])])
    # X4 a tick: tasks 0, 2 and 4 leave their queues, and those behind move up.
    yield Case(
        "X4", BASE, [(tick(), answer(0, 3, 21))],
        [task(2, 0, [0, 0, 0, 3, 7, *zeros(7)]), task(4, 0, [0, 0, 0, 5, 7, *zeros(7)]), task(0, 0, [0, 0, 0, 10, 7, *zeros(7)]),
         task(6, 0, [1, 2, 0, 5, 14, 0, 0, 0, 1]), task(3, 0, [1, 2, 1, 7, 14, 0, 0, 0, 0]),
         task(9, 0, [1, 5, 0, 20, 14, 0, 0, 0, 254, 255, 255, 255]), queue(1, 7, [2]), queue(4, 7, [1])],
    )
    # X5 a mask of all 32 tasks.
    yield Case("X5", ALL_WAIT, [(tick(), answer(0, 32, 4294967295))], [queue(0, 6, zeros(2)), task(31, 0, [0, 0, 0, 9, 7, *zeros(7)])])
    # X6 messages by rank, whatever buffers they are in; the receive buffer of task 8, of 120 bytes, stays beyond the length 1.
    yield Case(
        "X6", BASE,
        [(poll(1, 16), value(2)), (poll(8, 16), refused(2)), (poll(31, 28), value(120)), (poll(7, 16), value(1)), (poll(8, 25), value(1))],
        [task(1, 16, [21, 22]), task(7, 16, [1]), task(8, 4, [0, 1, *zeros(10), 255, *numbers(2, 119)]), buffer(1, 0, [1, 0, 10]),
         buffer(5, 0, zeros(128)), buffer(47, 0, zeros(128)), buffer(63, 0, zeros(128))],
    )
    # X7 an empty message in a buffer that is zero but for its owner byte; the receive buffer of task 8, of 120 bytes, stays whole.
    yield Case(
        "X7", written(BASE, buffer(47, 2, zeros(7))),
        [(pending(8, 25), value(1)), (send(16, 25, EMPTY), refused(5)), (poll(8, 25), value(0)), (pending(8, 25), value(0))],
        [task(8, 0, [0, 0, 0, 1, *zeros(12), *numbers(1, 120)]), buffer(47, 0, zeros(128))],
    )


# ---- Images that differ from BASE in a few bytes and keep every rule of "Sound tables", or break one (alone, where that can be: what
# names no live queue breaks the rules on that queue too). On each image a tick is called: an unsound one is refused with 10 and stays.

def sound(name, *excerpts):
    return Case(name, written(BASE, *excerpts), [(tick(), SOUND)], [])


def broken(name, *excerpts):
    return Case(name, written(BASE, *excerpts), [(tick(), refused(10))], [])


def task_7_waits_in(slot):
    """A task of the share of slots 0 to 3, which waits at rank 0."""
    return task(7, 0, [1, slot + 1, 0, 9, 14])


def buffer_3_of(slot, rank=0):
    """A buffer of the same share, with a message of one byte."""
    return buffer(3, 0, [slot + 1, rank, 1])


def queue_rules():
    # "A queue's live byte [is] 0 or 1."
    for slot, kind in (2, "free"), (8, "live"):
        for live in 2, 3, 255:
            yield broken(f"{kind} queue: live {live}", queue(slot, 0, [live]))
    # "A free queue record is zero but for its generation."
    for place in 1, 2, 3, 6, 7, *range(8, 16):
        yield broken(f"free queue: byte {place}", queue(2, place, [1]))
    for generation in 0, 1, 255, 256, 65535:
        yield sound(f"free queue: generation {generation}", queue(2, 4, generation.to_bytes(2, "little")))
    # "A live one has attributes 0 to 3,"
    for attributes in 0, 1, 2, 3:
        yield sound(f"attributes {attributes}", queue(8, 1, [attributes]))
    for attributes in 4, 7, 255:
        yield broken(f"attributes {attributes}", queue(8, 1, [attributes]))
    # "limit 1 to 16," The other limit of the share is 1, and there is no other in the share of slot 12. 17 breaks the rule on sums too.
    yield broken("limit 0", queue(8, 2, [0]))
    yield sound("limit 1", queue(8, 2, [1]))
    yield sound("limit 16", queue(12, 2, [16]))
    yield broken("limit 17", queue(12, 2, [17]))
    # "max size 1 to 120,"
    for size in 1, 120:
        yield sound(f"max size {size}", queue(8, 3, [size]))
    for size in 0, 121, 255:
        yield broken(f"max size {size}", queue(8, 3, [size]))
    # "generation at least 1,"
    yield broken("generation 0", queue(8, 4, [0, 0]))
    for generation in 1, 255, 256, 65535:
        yield sound(f"generation {generation}", queue(8, 4, generation.to_bytes(2, "little")))
    # "name not 0,"
    yield broken("name 0", queue(8, 8, zeros(4)))
    for place in range(8, 12):
        yield sound(f"name with byte {place} alone", queue(8, 8, zeros(4)), queue(8, place, [1]))
    # "bytes 12-15 zero,"
    for place in range(12, 16):
        yield broken(f"live queue: byte {place}", queue(8, place, [1]))
    # "pending at most the limit,"
    yield sound("3 pending, limit 3", queue(0, 2, [3]))
    yield broken("3 pending, limit 2", queue(0, 2, [2]))
    # "and pending or waiters 0."
    yield broken("3 pending, 1 waiter", queue(0, 7, [1]), task_7_waits_in(0))


def limit_rules():
    # "In each share the limits of live queues sum to at most 16." Slot 1 has limit 9, slot 12 limit 16.
    yield sound("limits 7 and 9", queue(0, 2, [7]))
    yield broken("limits 8 and 9", queue(0, 2, [8]))
    second = queue(13, 0, [1, 0, 1, 1, 1, 0, 0, 0, 81])
    yield sound("limits 15 and 1", second, queue(12, 2, [15]))
    yield broken("limits 16 and 1", second)


def buffer_rules():
    # "A free buffer is all zero."
    for place in *range(1, 10), 67, 126, 127:
        yield broken(f"free buffer: byte {place}", buffer(3, place, [1]))
    yield broken("free buffer 62: byte 127", buffer(62, 127, [1]))
    # "A used one belongs to a live queue of its own share,"
    yield sound("buffer 3 of slot 0", buffer_3_of(0, 3), queue(0, 6, [4]))
    yield broken("buffer 3 of a free slot", buffer_3_of(2))
    yield broken("buffer 3 of slot 16", buffer_3_of(16))
    yield broken("buffer 3 of slot 254", buffer_3_of(254))
    yield broken("buffer 3 of another share", buffer_3_of(8), queue(8, 6, [1]))
    # Document 02, [1]: "a used buffer's length is 0 to the max size". The images that are broken here break another rule.
    yield sound("length 0", buffer(0, 2, zeros(7)))
    yield sound("length 0, only the owner not 0", buffer(47, 2, zeros(7)))
    yield sound("length 0, three messages", buffer(0, 2, zeros(7)), buffer(1, 2, zeros(16)), buffer(5, 2, zeros(8)))
    yield broken("length 0, a free slot", buffer(3, 0, [3]))
    yield broken("length 0, slot 16", buffer(3, 0, [17]))
    yield broken("length 0, another share", buffer(3, 0, [9]), queue(8, 6, [1]))
    yield broken("length 0, not counted", buffer(3, 0, [1, 3]))
    yield broken("length 0, two at rank 0", buffer(0, 1, zeros(8)))
    for place in range(3, 8):
        yield broken(f"length 0: byte {place}", buffer(0, 2, zeros(7)), buffer(0, place, [1]))
    for place in 8, 9, 16, 126, 127:
        yield broken(f"length 0: byte {place} after it", buffer(0, 2, zeros(7)), buffer(0, place, [1]))
    # Buffer 1 has length 10.
    yield sound("length of max size", queue(0, 3, [10]))
    yield broken("length above max size", queue(0, 3, [9]))
    yield broken("length 121", buffer(63, 2, [121]))
    # "bytes 3-7 zero,"
    for place in range(3, 8):
        yield broken(f"used buffer: byte {place}", buffer(0, place, [1]))
    # "and zeros after its message."
    yield sound("a message of two bytes", buffer(0, 2, [2]), buffer(0, 9, [1]))
    for place in 9, 10, 16, 126, 127:
        yield broken(f"byte {place} after the message", buffer(0, place, [1]))


def rank_rules():
    # "For each live queue, its buffers carry the ranks 0 to pending-1, each exactly once." Buffers 5, 0 and 1 have ranks 0, 1 and 2.
    yield sound("messages in another order", buffer(5, 1, [1]), buffer(0, 1, [2]), buffer(1, 1, [0]))
    yield broken("two messages at rank 0", buffer(0, 1, [0]))
    yield broken("messages at 0, 1 and 3", buffer(1, 1, [3]))
    yield broken("a message at rank 255", buffer(1, 1, [255]))
    yield broken("pending 2 of 3", queue(0, 6, [2]))
    yield broken("pending 4 of 3", queue(0, 6, [4]))
    # "Its waiting tasks carry 0 to waiters-1 likewise." Tasks 2, 6, 4 and 3 have ranks 0 to 3.
    yield sound("waiters in another order", task(6, 2, [2]), task(4, 2, [1]))
    yield broken("two waiters at rank 2", task(6, 2, [2]))
    yield broken("a waiter at rank 4 of 4", task(3, 2, [4]))
    yield broken("a waiter at rank 255", task(3, 2, [255]))
    yield broken("waiters 3 of 4", queue(1, 7, [3]))
    yield broken("waiters 5 of 4", queue(1, 7, [5]))
    yield broken("waiters 1 of none", queue(8, 7, [1]))
    yield broken("waiters 33 of none", queue(8, 7, [33]))
    yield broken("waiters 0 of 1", task_7_waits_in(0))
    # "With PRIORITY, priorities never fall as ranks rise." Those of tasks 2, 6, 4 and 3 are 3, 5, 5 and 7; of 9 and 0, 20 and 10.
    yield sound("priorities 5, 5, 5, 7", task(2, 3, [5]))
    yield broken("priorities 6, 5, 5, 7", task(2, 3, [6]))
    yield sound("priorities 3, 5, 5, 5", task(3, 3, [5]))
    yield broken("priorities 3, 5, 5, 4", task(3, 3, [4]))
    yield broken("priorities 3, 5, 4, 7", task(4, 3, [4]))
    yield broken("priorities 20, 10", queue(4, 1, [3]))
    yield sound("priorities 20, 20", queue(4, 1, [3]), task(0, 3, [20]))
    yield sound("priorities 20, 10, no PRIORITY", queue(4, 1, [2]))


def task_rules():
    # "[A] task's state [is] 0 or 1."
    for number, kind in (30, "ready"), (2, "waiting"):
        for state in 2, 255:
            yield broken(f"{kind} task: state {state}", task(number, 0, [state]))
    # "A task's priority is at least 1;"
    for number, kind in (30, "ready"), (2, "waiting"):
        yield broken(f"{kind} task: priority 0", task(number, 3, [0]))
        yield sound(f"{kind} task: priority 1", task(number, 3, [1]))
    yield sound("ready task: priority 255", task(30, 3, [255]))
    # "bytes 6-7 and 12-15 are zero."
    for number, kind in (30, "ready"), (2, "waiting"):
        for place in 6, 7, 12, 13, 14, 15:
            yield broken(f"{kind} task: byte {place}", task(number, place, [1]))
    # "A ready task has queue, rank and ticks 0,"
    for place in 1, 2, 8, 9, 10, 11:
        yield broken(f"ready task: byte {place}", task(30, place, [1]))
    yield broken("ready task: queue 255", task(30, 1, [255]))
    # "status 0, 7 or 8,"
    for status in *range(17), 255:
        kept = status in (0, 7, 8)
        yield (sound if kept else broken)(f"ready task: status {status}", task(30, 4, [status]))
    # "length at most 120."
    yield sound("ready task: length 120", task(30, 5, [120]))
    yield broken("ready task: length 121", task(30, 5, [121]))
    yield broken("ready task: length 255", task(30, 5, [255]))
    # Nothing is said of the receive buffer, nor of a waiting task's ticks.
    for place in 16, 135:
        yield sound(f"ready task: byte {place}", task(30, place, [255]))
        yield sound(f"waiting task: byte {place}", task(2, place, [255]))
    yield sound("waiting task: all ticks", task(2, 8, [255] * 4))
    # "A waiting one names a live queue of its own share or an OPEN one,"
    yield sound("task 7 waits in slot 8, OPEN", task_7_waits_in(8), queue(8, 7, [1]), queue(8, 1, [2]))
    yield broken("task 7 waits in slot 8, closed", task_7_waits_in(8), queue(8, 7, [1]))
    yield broken("task 7 waits in slot 8, PRIORITY", task_7_waits_in(8), queue(8, 7, [1]), queue(8, 1, [1]))
    yield broken("two wait in slot 4, closed", queue(4, 1, [0]))
    yield broken("task 7 waits nowhere", task_7_waits_in(-1))
    yield broken("task 7 waits in a free slot", task_7_waits_in(2))
    yield broken("task 7 waits in slot 16", task_7_waits_in(16))
    yield broken("task 7 waits in slot 254", task_7_waits_in(254))
    # "with status 14"
    for status in *range(17), 255:
        yield (sound if status == 14 else broken)(f"waiting task: status {status}", task(2, 4, [status]))
    # "and length 0."
    for length in 1, 120, 255:
        yield broken(f"waiting task: length {length}", task(2, 5, [length]))


def rule_cases():
    yield sound("the image itself")
    yield Case("fresh tables", NINES, [(tick(), done)], [])
    yield Case("all 32 tasks wait", ALL_WAIT, [(tick(), SOUND)], [])
    for rules in queue_rules, limit_rules, buffer_rules, rank_rules, task_rules:
        yield from rules()


# by file: the tables that its cases' changes are counted from, and the cases
FILES = {
    "R": (FRESH, refusal_cases),
    "Q": (FRESH, queue_cases),
    "M": (FRESH, message_cases),
    "T": (FRESH, waiter_cases),
    "X": (BASE, image_cases),
    "sound_tables": (BASE, rule_cases),
}
