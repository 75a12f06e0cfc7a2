"""The bytes of messages between nodes, of journals' records and of routers' replies, from their readable forms.

An encoder that is apart from the program's: docs/formats/NODES.md, JOURNAL-RECORDS.md and BSON.md say what it writes.
`bytes_of` reads one of these forms, whose words in capitals stand for what is written there:

    NODE to NODE TIME MESSAGE           a message between nodes, whole: `r0 to s1 1.2 Nudge`
    batch | NODE to NODE TIME MESSAGE   a batch of them, each behind a stroke
    Boot N, Ceiling TIME, ..            a record
    reply CONNECTION to REQUEST DOCUMENT, and `at TIME` behind it for the times at a document's end
    older reply CONNECTION FRONT DOCUMENT, with the bytes in front of the document as digits

A time is SECONDS.COUNT, a transaction `tag ROUTER.BOOT.SERIAL`, and a session `client:DIGITS` or `own:ROUTER.BOOT.CONNECTION`.
Documents and values are written as crates/bson_text prints them: `2L` is an int64, `d:1` a date, `t:1.2` a timestamp, `b0:ff` a
binary and `o:00..` an object id.
"""
import json
import re
import struct

OP_MSG = 2013
CAUSES = ("WriteConflict", "Expired", "ClientAbort", "Unavailable", "Faulted", "Statement", "Replaced", "Volume", "ClockEnd",
          "PreparedStands", "TooManySessions", "Voted", "Memory", "SnapshotTooOld")
ERRORS = ("duplicate", "not-number", "overflow", "immutable", "too-large")
COMPARISONS = ("eq", "ne", "gt", "gte", "lt", "lte")
JOINS = ("and", "or", "nor")
CHANGES = ("set", "unset", "inc")
FLAGS = ("false", "true")


class Fault(Exception):
    """What is wrong with a readable form, in words."""


class Form:
    """A readable form that is taken from the front."""

    def __init__(self, text):
        self.text, self.at = text, 0

    def take(self, pattern, wanted):
        found = re.compile(pattern).match(self.text, self.at)
        if found is None:
            raise Fault(f"{wanted} is wanted at `{self.text[self.at:self.at + 40]}`")
        self.at = found.end()
        return found

    def has(self, piece):
        """Takes the piece, where it stands next."""
        found = self.text.startswith(piece, self.at)
        self.at += len(piece) if found else 0
        return found

    def expect(self, piece):
        if not self.has(piece):
            raise Fault(f"`{piece}` is wanted at `{self.text[self.at:self.at + 40]}`")

    def one_of(self, words, wanted):
        """The place of the word that stands next."""
        return words.index(self.take("|".join(sorted(words, key=len, reverse=True)), wanted)[0])

    def number(self, form, name=""):
        """The bytes of a number behind its name."""
        self.expect(f" {name} " if name else " ")
        return pack(form, int(self.take(r"-?\d+", f"the number {name}")[0]))

    def flag(self, name):
        self.expect(f" {name} ")
        return pack("B", self.one_of(FLAGS, name))


def pack(form, *values):
    try:
        return struct.pack("<" + form, *values)
    except struct.error as e:
        raise Fault(f"{values}: {e}") from None


# Documents


def text_bytes(text):
    found = text.encode("utf-8")
    return pack("I", len(found)) + found


def element(kind, name, data):
    return bytes([kind]) + name.encode("utf-8") + b"\0" + data


def document_of(elements):
    found = b"".join(elements)
    return pack("i", len(found) + 5) + found + b"\0"


def quoted(f):
    return json.loads(f.take(r'"(?:[^"\\]|\\.)*"', "a text in double quotes")[0])


def pieces(f, closing, piece):
    """What stands between commas, up to the closing sign."""
    found = []
    while not f.has(closing):
        if found:
            f.expect(", ")
        found.append(piece(len(found)))
    return found


def document(f):
    def field(_place):
        name = quoted(f)
        f.expect(": ")
        kind, data = value(f)
        return element(kind, name, data)

    f.expect("{")
    return document_of(pieces(f, "}", field))


def items(f):
    def item(place):
        kind, data = value(f)
        return element(kind, str(place), data)

    f.expect("[")
    return document_of(pieces(f, "]", item))


def time_of(text):
    seconds, count = text.split(".")
    return pack("II", int(count), int(seconds))


def binary_of(subtype, digits):
    data = bytes.fromhex(digits)
    return pack("iB", len(data), int(subtype)) + data


def text_value(text):
    data = text.encode("utf-8")
    return pack("i", len(data) + 1) + data + b"\0"


WORDS = {"null": (0x0A, b""), "false": (0x08, b"\0"), "true": (0x08, b"\1")}


def value(f):
    """The kind of the value that stands next, and its bytes."""
    front = f.text[f.at:f.at + 1]
    if front == '"':
        return 0x02, text_value(quoted(f))
    if front == "{":
        return 0x03, document(f)
    if front == "[":
        return 0x04, items(f)
    found = f.take(r"null|true|false|o:[0-9a-f]{24}|b\d+:[0-9a-f]*|d:-?\d+|t:\d+\.\d+|-?\d+L?", "a value")[0]
    if found in WORDS:
        return WORDS[found]
    kind, _, rest = found.partition(":")
    if kind == "o":
        return 0x07, bytes.fromhex(rest)
    if kind == "d":
        return 0x09, pack("q", int(rest))
    if kind == "t":
        return 0x11, time_of(rest)
    if kind.startswith("b"):
        return 0x05, binary_of(kind[1:], rest)
    return (0x12, pack("q", int(found[:-1]))) if found.endswith("L") else (0x10, pack("i", int(found)))


def lone_value(f):
    kind, data = value(f)
    return document_of([element(kind, "", data)])


def id_document(f):
    """`{_id: id}` of `number N`, `text WORD`, `binary SUBTYPE:DIGITS`, `oid DIGITS`, `bool FLAG` or `date N`, behind a space."""
    f.expect(" ")
    kind = f.take("number|text|binary|oid|bool|date", "an id")[0]
    f.expect(" ")
    word = f.take(r"[^ ;]*", "an id")[0]
    made = {"number": lambda: (0x12, pack("q", int(word))), "text": lambda: (0x02, text_value(word)),
            "binary": lambda: (0x05, binary_of(*word.split(":"))), "oid": lambda: (0x07, bytes.fromhex(word)),
            "bool": lambda: (0x08, pack("B", FLAGS.index(word))), "date": lambda: (0x09, pack("q", int(word)))}[kind]
    found, data = made()
    return document_of([element(found, "_id", data)])


# What messages and records have in common


def time(f, name=""):
    f.expect(f" {name} " if name else " ")
    return time_of(f.take(r"\d+\.\d+", "a time")[0])


def tag(f):
    found = f.take(r" tag (\d+)\.(\d+)\.(\d+)", "a tag")
    return pack("HIQ", *map(int, found.groups()))


def session(f):
    f.expect(" session ")
    if f.has("client:"):
        return b"\0" + bytes.fromhex(f.take("[0-9a-f]{32}", "16 bytes")[0])
    found = f.take(r"own:(\d+)\.(\d+)\.(\d+)", "a session")
    return b"\1" + pack("HII", *map(int, found.groups())) + bytes(6)


def named(f):
    return tag(f) + session(f) + f.number("q", "number")


def decision(f):
    if f.has(" commit"):
        return b"\1" + time(f) + bytes(3)
    f.expect(" abort")
    return b"\2" + bytes(8) + f.number("H", "shard") + f.number("B", "code")


def parts(f):
    f.expect(" parts")
    found = []
    while f.has(" "):
        shard, boot = f.take(r"(\d+)@(\d+)", "a participant").groups()
        found.append(pack("HI", int(shard), int(boot)))
    return pack("H", len(found)) + b"".join(found)


# Operations


def namespace(f):
    f.expect(" ")
    return f.take(r"[^ ;]+", "a namespace")[0]


def filter_(f):
    """A filter behind a space."""
    f.expect(" ")
    for number, join in enumerate(JOINS, 1):
        if f.has(join + "("):
            found = []
            while not f.has(" )"):
                found.append(filter_(f))
            return pack("BI", number, len(found)) + b"".join(found)
    name = text_bytes(f.take(r"[^ ]*", "a name")[0])
    f.expect(" ")
    for number, word in ((5, "in("), (6, "nin(")):
        if f.has(word):
            found = []
            while not f.has(" )"):
                f.expect(" ")
                found.append(lone_value(f))
            return pack("B", number) + name + pack("I", len(found)) + b"".join(found)
    if f.has("exists"):
        f.expect(" ")
        return b"\7" + name + pack("B", f.one_of(FLAGS, "a flag"))
    comparison = f.one_of(COMPARISONS, "a comparison") + 1
    f.expect(" ")
    return b"\4" + name + pack("B", comparison) + lone_value(f)


def where(f):
    f.expect(" where")
    return filter_(f)


def update(f):
    f.expect(" do")
    if f.has(" replace "):
        return b"\1" + document(f)
    found = []
    while not f.text.startswith(" many ", f.at):
        f.expect(" ")
        kind = f.one_of(CHANGES, "a change") + 1
        name = text_bytes(f.take(r" ([^ ]*) ", "a name")[1])
        found.append(pack("B", kind) + name + lone_value(f))
    return b"\2" + pack("I", len(found)) + b"".join(found)


def insert_item(f):
    f.expect(" ")
    return document(f)


def update_item(f):
    return where(f) + update(f) + f.flag("many")


def delete_item(f):
    return where(f) + f.flag("many")


OPERATIONS = {"insert": (1, insert_item), "find": (2, None), "update": (3, update_item), "delete": (4, delete_item)}


def operation(f):
    f.expect(" ")
    number, item = OPERATIONS[f.take("insert|find|update|delete", "an operation")[0]]
    front = pack("B", number) + text_bytes(namespace(f))
    if item is None:
        return front + where(f) + f.flag("down") + f.number("Q", "limit")
    found = []
    while f.has(";"):
        found.append(f.number("I") + item(f))
    return front + pack("I", len(found)) + b"".join(found)


# What shards answer


def conflict(f):
    found = id_document(f)
    if f.text.startswith(" tag ", f.at):
        return found + b"\1" + tag(f)
    return found + b"\2" + time(f, "at")


def statement_error(f):
    f.expect(" ")
    what = f.one_of(ERRORS, "an error") + 1
    return f.number("I", "at") + id_document(f) + pack("B", what)


CAUSE_FIELDS = {
    "WriteConflict": conflict,
    "Expired": lambda f: f.number("I", "begun") + f.number("I", "now"),
    "ClientAbort": lambda f: f.number("B", "why"),
    "Unavailable": lambda f: f.number("I", "carried") + f.number("I", "have"),
    "Faulted": lambda f: f.number("Q", "faults"),
    "Statement": statement_error,
    "Replaced": lambda f: f.number("q", "number") + tag(f),
    "Volume": lambda f: f.number("Q", "bytes"),
    "ClockEnd": lambda f: time(f, "last"),
    "PreparedStands": tag,
    "TooManySessions": lambda f: b"",
    "Voted": lambda f: f.number("H", "shard") + f.number("B", "code"),
    "Memory": lambda f: b"",
    "SnapshotTooOld": lambda f: time(f, "at") + time(f, "floor"),
}


def cause(f):
    f.expect(" cause ")
    number = f.one_of(CAUSES, "a cause")
    return pack("B", number + 1) + CAUSE_FIELDS[CAUSES[number]](f)


def reply(f):
    if f.has(" count"):
        return b"\1" + f.number("Q") + f.number("Q", "modified")
    f.expect(" rows")
    found = []
    while f.text.startswith(" {", f.at):
        f.expect(" ")
        found.append(document(f))
    cut = b"\1" + id_document(f) if f.has(" cut") else b"\0"
    return b"\2" + pack("I", len(found)) + b"".join(found) + cut


def told(f):
    if f.has(" committed"):
        return b"\1" + time(f)
    if f.has(" released"):
        return b"\2"
    if f.has(" aborted"):
        return b"\3" + cause(f)
    if f.has(" too-old"):
        return b"\4" + f.number("q")
    f.expect(" no-trace")
    return b"\5"


# Messages


def is_cause(f):
    return f.text.startswith(" cause ", f.at)


def statement(f):
    return named(f) + f.number("I", "k") + time(f, "read") + f.number("I", "boot") + operation(f)


def answer(f):
    front = tag(f) + f.number("I", "k") + f.number("H", "shard") + f.number("I", "boot") + time(f, "read")
    return front + (b"\0" + cause(f) if is_cause(f) else b"\1" + reply(f) + f.flag("wrote"))


def begun(f):
    return named(f) + f.number("I", "boot")


def outcome(f):
    return tag(f) + f.number("H", "shard") + f.number("I", "boot") + told(f)


def abort(f):
    return named(f) + f.number("B", "why")


def commit_two(f):
    return begun(f) + parts(f)


def prepare(f):
    return begun(f) + f.number("H", "coordinator")


def vote(f):
    return tag(f) + f.number("H", "shard") + (b"\0" + cause(f) if is_cause(f) else b"\1" + time(f, "at"))


def decide(f):
    return named(f) + decision(f)


def acked(f):
    return tag(f) + f.number("H", "shard")


MESSAGES = {"Statement": (1, statement), "Answer": (2, answer), "Commit": (3, begun), "Outcome": (4, outcome), "Abort": (5, abort),
            "CommitTwo": (6, commit_two), "Prepare": (7, prepare), "Vote": (8, vote), "Decide": (9, decide), "Acked": (10, acked),
            "Recover": (11, begun), "Nudge": (12, lambda f: b"")}


def node(f):
    kind, number = f.take(r"([sr])(\d+)", "a node").groups()
    return pack("BH", kind == "r", int(number))


def envelope(f):
    """The number of an envelope's kind, and its bytes."""
    source = node(f)
    f.expect(" to ")
    front = source + node(f) + time(f)
    f.expect(" ")
    name = f.take("[A-Za-z]+", "a message")[0]
    if name not in MESSAGES:
        raise Fault(f"{name} is no message")
    kind, fields = MESSAGES[name]
    return kind, front + fields(f)


def batch(f):
    found = []
    while f.has(" | "):
        kind, data = envelope(f)
        found.append(pack("IB", len(data), kind) + data)
    return pack("I", len(found)) + b"".join(found)


def op_msg(body, response_to=0):
    """The bytes of an OP_MSG message with this document."""
    rest = bytes(5) + body
    return pack("iiii", 16 + len(rest), 0, response_to, OP_MSG) + rest


def frame(kind, data):
    """The message between nodes with these bytes as `b`."""
    fields = [element(0x10, "mtx", pack("i", kind)), element(0x02, "$db", text_value("mtx")),
              element(0x05, "b", pack("iB", len(data), 0) + data)]
    return op_msg(document_of(fields))


# Records


def write(f):
    if f.has(" put"):
        name = namespace(f).encode("utf-8")
        f.expect(" ")
        return pack("H", len(name)) + name + b"\1" + document(f)
    f.expect(" delete")
    name = namespace(f).encode("utf-8")
    return pack("H", len(name)) + name + b"\0" + id_document(f)


def writes(f):
    found = []
    while f.has(";"):
        found.append(write(f))
    return pack("I", len(found)) + b"".join(found)


def commit_record(f):
    return named(f) + time(f, "read") + time(f, "at") + writes(f)


def prepared_record(f):
    return begun(f) + time(f, "read") + time(f, "at") + f.number("H", "coordinator") + writes(f)


RECORDS = {"Boot": (1, lambda f: f.number("I")), "Ceiling": (2, time), "Commit": (3, commit_record), "Prepared": (4, prepared_record),
           "Decided": (5, lambda f: named(f) + decision(f) + bytes(12)), "CoordStart": (6, lambda f: named(f) + parts(f)),
           "CoordDecision": (7, lambda f: tag(f) + decision(f)), "CoordEnd": (8, tag), "Floor": (9, time)}


def record(f):
    name = f.take("[A-Za-z]+", "a record")[0]
    if name not in RECORDS:
        raise Fault(f"{name} is no record")
    number, fields = RECORDS[name]
    return pack("B", number) + fields(f)


# Replies of routers


def timed(f):
    """A document with the times at its end, where `at TIME` stands behind it."""
    f.expect(" ")
    found = document(f)
    if not f.has(" at"):
        return found
    at = time(f)
    signature = document_of([element(0x05, "hash", binary_of("0", "00" * 20)), element(0x12, "keyId", pack("q", 0))])
    cluster = document_of([element(0x11, "clusterTime", at), element(0x03, "signature", signature)])
    return document_of([found[4:-1], element(0x11, "operationTime", at), element(0x03, "$clusterTime", cluster)])


def client_reply(f):
    request = f.take(r"reply \d+ to (-?\d+)", "a reply")[1]
    return op_msg(timed(f), int(request))


def older_reply(f):
    front = f.take(r"older reply \d+ ([0-9a-f]{72})", "an older reply")[1]
    return bytes.fromhex(front) + timed(f)


def any_form(f):
    if re.match(r"[sr]\d", f.text):
        return frame(*envelope(f))
    if f.has("batch"):
        return frame(0, batch(f))
    if f.text.startswith("reply "):
        return client_reply(f)
    return older_reply(f) if f.text.startswith("older ") else record(f)


def bytes_of(text):
    """The bytes of what a readable form says."""
    f = Form(text)
    try:
        found = any_form(f)
    except (ValueError, RecursionError) as e:
        raise Fault(f"{e}") from None
    if f.at < len(text):
        raise Fault(f"nothing more is wanted at `{text[f.at:f.at + 40]}`")
    return found
