"""The readable forms of an independent model's messages and records, as node_bytes.py reads them.

Each text is held against the model's own bytes too, so that the two encoders, which know nothing of one another, agree on it.
"""
import node_bytes

ERRORS = {"Duplicate": "duplicate", "NotNumber": "not-number", "Overflow": "overflow", "Immutable": "immutable",
          "TooLarge": "too-large"}
CAUSES = {"Expired": " begun %d now %d", "ClientAbort": " why %d", "Unavailable": " carried %d have %d", "Faulted": " faults %d",
          "Volume": " bytes %d", "TooManySessions": "", "Voted": " shard %d code %d", "Memory": ""}


def time_text(at):
    return f"{at >> 32}.{at & 0xFFFFFFFF}"


def tag_text(tag):
    return "tag %d.%d.%d" % tuple(tag)


def flag_text(flag):
    return "true" if flag else "false"


def session_text(lsid):
    return "client:" + lsid[1].hex() if lsid[0] == "client" else "own:%d.%d.%d" % lsid[1:]


def named_text(m):
    return f"{tag_text(m.tag)} session {session_text(m.lsid)} number {m.number}"


def decision_text(decision):
    return "commit " + time_text(decision[1]) if decision[0] == "commit" else "abort shard %d code %d" % decision[1:]


def parts_text(parts):
    return "parts" + "".join(" %d@%d" % part for part in parts)


class Disagreement(Exception):
    """The model spells a message or a record in other bytes than node_bytes does."""


class Texts:
    """The readable forms, with the model's modules."""

    def __init__(self, bson, frames, records, wire):
        self.bson, self.frames, self.records, self.wire = bson, frames, records, wire

    def id_text(self, i):
        kind, *f = self.bson.id_value(i)
        if kind == "bin":
            return f"binary {f[0]}:{f[1].hex()}"
        return {"int": "number %s", "long": "number %s", "text": "text %s", "oid": "oid %s", "bool": "bool %s", "date": "date %s"}[
            kind] % (f[0].hex() if kind == "oid" else flag_text(f[0]) if kind == "bool" else f[0])

    # Operations

    def filter_text(self, f):
        kind = f[0]
        if kind in ("and", "or", "nor"):
            return f" {kind}(" + "".join(map(self.filter_text, f[1])) + " )"
        if kind == "test":
            return f" {f[1]} {f[2]} {self.bson.show(f[3])}"
        if kind in ("in", "nin"):
            return f" {f[1]} {kind}(" + "".join(" " + self.bson.show(value) for value in f[2]) + " )"
        return f" {f[1]} exists {flag_text(f[2])}"

    def update_text(self, u):
        if u[0] == "replace":
            return " replace " + self.bson.show(u[1])
        return "".join(f" {kind} {name} {self.bson.show(value)}" for kind, name, value in u[1])

    def operation_text(self, op):
        kind = type(op).__name__.lower()
        if kind == "insert":
            return f"insert {op.ns}" + "".join(f"; {i} {self.bson.show(doc)}" for i, doc in op.items)
        if kind == "find":
            return f"find {op.ns} where{self.filter_text(op.filter)} down {flag_text(op.down)} limit {op.limit}"
        items = []
        for item in op.items:
            done = f" do{self.update_text(item[2])}" if kind == "update" else ""
            items.append(f"; {item[0]} where{self.filter_text(item[1])}{done} many {flag_text(item[-1])}")
        return f"{kind} {op.ns}" + "".join(items)

    # What shards answer

    def cause_text(self, cause):
        return f"cause {cause[0]}" + self.cause_fields(*cause)

    def cause_fields(self, name, *f):
        if name == "WriteConflict":
            by = tag_text(f[1][1]) if f[1][0] == "tag" else "at " + time_text(f[1][1])
            return f" {self.id_text(f[0])} {by}"
        if name == "Statement":
            return f" {ERRORS[f[0].what]} at {f[0].index} {self.id_text(f[0].id)}"
        if name == "Replaced":
            return f" number {f[0]} {tag_text(f[1])}"
        if name == "PreparedStands":
            return " " + tag_text(f[0])
        if name == "ClockEnd":
            return " last " + time_text(f[0])
        if name == "SnapshotTooOld":
            return f" at {time_text(f[0])} floor {time_text(f[1])}"
        return CAUSES[name] % f

    def result_text(self, result):
        if result[0] == "refused":
            return self.cause_text(result[1])
        reply, wrote = result[1], f" wrote {flag_text(result[2])}"
        if reply[0] == "count":
            return "count %d modified %d" % reply[1:] + wrote
        cut = "" if reply[2] is None else " cut " + self.id_text(reply[2])
        return "rows" + "".join(" " + self.bson.show(doc) for doc in reply[1]) + cut + wrote

    def told_text(self, told):
        if told[0] == "committed":
            return "committed " + time_text(told[1])
        if told[0] == "aborted":
            return "aborted " + self.cause_text(told[1])
        return {"tooold": "too-old %d", "released": "released", "notrace": "no-trace"}[told[0]] % told[1:]

    # Messages and records

    def message_text(self, m):
        kind = type(m).__name__
        if kind == "Nudge":
            return kind
        if kind == "Answer":
            return (f"{kind} {tag_text(m.tag)} k {m.k} shard {m.shard} boot {m.boot} read {time_text(m.read_at)} "
                    + self.result_text(m.result))
        if kind == "Outcome":
            return f"{kind} {tag_text(m.tag)} shard {m.shard} boot {m.boot} {self.told_text(m.told)}"
        if kind == "Vote":
            vote = "at " + time_text(m.vote[1]) if m.vote[0] == "at" else self.cause_text(m.vote[1])
            return f"{kind} {tag_text(m.tag)} shard {m.shard} {vote}"
        if kind == "Acked":
            return f"{kind} {tag_text(m.tag)} shard {m.shard}"
        return f"{kind} {named_text(m)} " + self.order_text(kind, m)

    def order_text(self, kind, m):
        """What an order to a shard says behind its transaction."""
        if kind == "Statement":
            return f"k {m.k} read {time_text(m.read_at)} boot {m.boot} " + self.operation_text(m.op)
        if kind == "Abort":
            return f"why {m.why}"
        if kind == "Decide":
            return decision_text(m.decision)
        more = {"CommitTwo": lambda: " " + parts_text(m.parts), "Prepare": lambda: f" coordinator {m.coordinator}"}
        return f"boot {m.boot}" + more.get(kind, str)()

    def envelope(self, e):
        """The readable form of a message between nodes, and its bytes."""
        text = "%s%d to %s%d" % (*e.src, *e.dst) + f" {time_text(e.time)} {self.message_text(e.msg)}"
        return held(text, self.frames.write_frame(self.wire.to_frame(e)))

    def envelope_of(self, data):
        """The message of these bytes."""
        return self.wire.from_frame(self.frames.read_frame(data))

    def write_text(self, w):
        return f"; delete {w.ns} {self.id_text(w.id)}" if w.doc is None else f"; put {w.ns} {self.bson.show(w.doc)}"

    def record_text(self, r):
        kind = type(r).__name__.removesuffix("Rec")
        if kind == "Boot":
            return f"{kind} {r.boot}"
        if kind in ("Ceiling", "Floor"):
            return f"{kind} {time_text(r[0])}"
        if kind == "CoordEnd":
            return f"{kind} {tag_text(r.tag)}"
        if kind == "CoordDecision":
            return f"{kind} {tag_text(r.tag)} {decision_text(r.decision)}"
        front = f"{kind} {named_text(r)} "
        if kind == "Decided":
            return front + decision_text(r.decision)
        if kind == "CoordStart":
            return front + parts_text(r.parts)
        boot, coordinator = (f"boot {r.boot} ", f" coordinator {r.coordinator}") if kind == "Prepared" else ("", "")
        times = f"read {time_text(r.read_at)} at {time_text(r.at)}"
        return front + boot + times + coordinator + "".join(map(self.write_text, r.writes))

    def record(self, r):
        """The readable form of a record, and its bytes."""
        return held(self.record_text(r), self.records.encode(r))


def held(text, wanted):
    """The text and the bytes that node_bytes has for it, where they are those that are wanted."""
    found = node_bytes.bytes_of(text)
    if found != wanted:
        raise Disagreement(f"{text}\n    {found.hex()}\n    and the model's {wanted.hex()}")
    return text, found
