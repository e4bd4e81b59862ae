"""The records of document 01 (tables, call records, answer records) by their fields; calls, answers and places of an image in words."""
import struct
from collections import namedtuple

RECORD, ANSWER = 136, 16  # sizes of a call record and of an answer record

STATUS = [
    "SUCCESSFUL", "INVALID_NAME", "INVALID_ID", "INVALID_SIZE", "INVALID_NUMBER", "TOO_MANY", "UNSATISFIED", "TIMEOUT",
    "OBJECT_WAS_DELETED", "INVALID_NODE", "CORRUPT", "BAD_CALLER", "ILLEGAL_ON_REMOTE_OBJECT", "NO_BUFFER", "WAITING",
    "INVALID_OPTION", "BAD_SHAPE",
]
OPERATIONS = dict(enumerate("create ident delete send urgent broadcast receive pending flush tick".split(), 1))


class Layout:
    """The fields of a record in order: numbers of 1, 2 or 4 bytes (B, H, I), little-endian, and strings of n bytes (ns)."""

    def __init__(self, form, names):
        self.form, self.record = struct.Struct("<" + form), namedtuple("Record", names)

    def one(self, data):
        return self.record._make(self.form.unpack(data))

    def all(self, table):
        """The records of a table, as far as they are whole."""
        width = self.form.size
        return [self.one(table[i:i + width]) for i in range(0, len(table) - width + 1, width)]


CALL = Layout("4B 2I 2B 2s 120s", "operation caller option size id ticks limit max_size zeros message")
REPLY = Layout("2B 2s 2I 4s", "status first_byte zeros value mask last_zeros")
QUEUE = Layout("4B H 2B I 4s", "live attributes limit max_size generation pending waiters name zeros")
BUFFER = Layout("3B 5s 120s", "owner rank length zeros data")
TASK = Layout("6B 2s I 4s 120s", "state queue rank priority status length zeros ticks last_zeros data")

# the tables of an image in order: how many records, their fields, and what one is called
TABLES = [(16, QUEUE, "queue"), (64, BUFFER, "buffer"), (32, TASK, "task")]
QUEUES_SIZE, POOL_SIZE, TASKS_SIZE = (count * layout.form.size for count, layout, _ in TABLES)
IMAGE = QUEUES_SIZE + POOL_SIZE + TASKS_SIZE


def status_name(status):
    return STATUS[status] if status < len(STATUS) else "no such status"


def tasks_of(mask):
    return [str(t) for t in range(32) if mask >> t & 1]


def call_in_words(record):
    """A call record as document 01 lays it out. A malformed one is told by its fields too."""
    if len(record) < RECORD:
        return f"a short last part of {len(record)} bytes: {record[:16].hex(' ')}"
    call = CALL.one(record)
    operation = OPERATIONS.get(call.operation)
    if operation is None:
        return f"operation {call.operation}, which there is not: {record[:16].hex(' ')}"
    if operation == "tick":
        return "tick"
    message = f"id {call.id}, size {call.size}, message {call.message[:call.size].hex(' ')}"
    arguments = {
        "create": f"name {call.id}, limit {call.limit}, max size {call.max_size}, attributes {call.option}",
        "ident": f"name {call.id}, share {call.ticks}",
        "send": message,
        "urgent": message,
        "broadcast": message,
        "receive": f"id {call.id}, option {call.option}, ticks {call.ticks}",
    }.get(operation, f"id {call.id}")
    return f"task {call.caller}: {operation} {arguments}"


def answer_in_words(answer):
    if len(answer) < ANSWER:
        return "nothing" if not answer else f"{len(answer)} bytes: {answer.hex(' ')}"
    a = REPLY.one(answer)
    woken, rest = tasks_of(a.mask), a.zeros + a.last_zeros
    text = f"{a.status} {status_name(a.status)}, value {a.value}, " + (f"wakes {' '.join(woken)}" if woken else "wakes none")
    return text + f", first byte {a.first_byte}" + (f", reserved bytes {rest.hex(' ')}" if any(rest) else "")


def image_records():
    """The records of an image in order: table (0 queues, 1 pool, 2 tasks), number in it, where it starts, how many bytes it has."""
    start = 0
    for table, (count, layout, _) in enumerate(TABLES):
        for number in range(count):
            yield table, number, start, layout.form.size
            start += layout.form.size


def place_in_words(place):
    """The record and the byte in it that a byte of an image is."""
    for table, number, start, width in image_records():
        if place < start + width:
            return f"{TABLES[table][2]} {number}, byte {place - start}"
    return f"byte {place - IMAGE} past the image"
