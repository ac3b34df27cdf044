"""Saved trails as bytes: how many entries of each kind one has, and trails that are made here."""
import collections
import struct

# An entry: its kind, the bytes of its name, how it ends where it is an end, and all its bytes.
Entry = collections.namedtuple("Entry", "kind name how bytes")
TAGS = {1: "start", 2: "request", 3: "gone", 4: "grant", 5: "refusal", 6: "ready", 7: "end", 8: "unable", 9: "mark"}


class Steps:
    """Steps over the parts of a trail, by their lengths alone."""

    def __init__(self, saved):
        self.saved, self.at = saved, 0
        self.is_first_format = saved[5] == 1

    def take(self, count):
        self.at += count
        return int.from_bytes(self.saved[self.at - count : self.at], "big")

    def name(self):
        """The bytes of a name behind their number, 8 for the top and 4 for each further one."""
        size = 4 + 4 * self.take(1)
        self.at += size
        return self.saved[self.at - size : self.at]

    def config(self):
        votes = self.take(1)
        self.at += votes + 4

    def value(self):
        """A number, or from the second format on what the byte before it tells: a number or a text with its length."""
        is_text = not self.is_first_format and self.take(1) == 1
        length = self.take(2) if is_text else 8
        self.at += length

    def tuple(self):
        self.at += 8
        self.value()
        self.at += 8
        self.config()

    def kind(self):
        kind = self.take(1)
        self.at += {0: 5, 1: 1, 2: 1, 3: 1, 4: 0}[kind]
        if kind == 2:
            self.value()
        if kind == 3:
            self.config()

    def operation(self):
        operation = self.take(1)
        self.at += {0: 0, 1: 8, 2: 8}[operation]
        if operation == 1:
            self.value()
        if operation == 2:
            self.config()

    def end(self):
        if self.take(1) == 0:
            answer = self.take(1)
            self.at += {0: 0, 1: 0, 2: 8, 3: 0}[answer]
            if answer == 1:
                self.value()
            if answer == 3:
                self.tuple()
            return "commit"
        cause = self.take(1)
        self.at += {1: 1, 2: 19}.get(cause, 0)
        if cause in (0, 1, 4, 6):
            self.name()
        return "abort"

    def entry(self):
        begin = self.at
        self.at += 4
        tag = TAGS[self.take(1)]
        self.at += tag == "grant"
        name, how = self.name(), None
        if tag == "start":
            self.kind()
        elif tag == "request":
            self.at += 2
            self.operation()
        elif tag == "grant":
            self.at += 2
            self.tuple()
        elif tag == "refusal":
            self.at += 2
            self.name()
        elif tag == "end":
            how = self.end()
        elif tag in ("gone", "unable", "mark"):
            self.at += 1
        return Entry(tag, name, how, self.saved[begin : self.at])


def head(saved):
    """Steps that stand behind the base of a trail, before the number of its entries."""
    steps = Steps(saved)
    steps.at = 4 + steps.take(4)
    copies, records = steps.take(1), steps.take(1)
    for _ in range(copies * records):
        steps.tuple()
    return steps


def entries(saved):
    """The entries of a trail that is one."""
    steps = head(saved)
    found = [steps.entry() for _ in range(steps.take(8))]
    assert steps.at == len(saved)
    return found


# TRAILS THAT ARE SPOILT, AND TRAILS THAT ARE MADE


def with_entries(saved, parts):
    """A trail with these entries in place of its own."""
    return saved[: head(saved).at] + struct.pack(">Q", len(parts)) + b"".join(part.bytes for part in parts)


def spoilt(saved, random):
    """A trail with an entry or a transaction left out, an entry twice or too early, or one changed in a byte."""
    parts = entries(saved)
    place = random.randrange(len(parts))
    picked = parts[place]
    way = random.choice(("out", "below", "twice", "early", "byte", "byte"))
    if way == "out":
        parts.pop(place)
    elif way == "below":
        parts = [part for part in parts if not part.name.startswith(picked.name)]
    elif way == "twice":
        parts.insert(random.randrange(place, len(parts)) + 1, picked)
    elif way == "early":
        parts.insert(random.randrange(place + 1), parts.pop(place))
    else:
        changed = bytearray(picked.bytes)
        changed[random.randrange(3, len(changed))] = random.choice((0, 1, 2, 3, 4, 18, random.randrange(256)))
        parts[place] = picked._replace(bytes=bytes(changed))
    return with_entries(saved, parts)


def shortened(saved):
    """Trails in each of which a manager was aborted without its last access."""
    parts = entries(saved)
    for end in parts:
        below = [part.name for part in parts if part.name.startswith(end.name) and len(part.name) == len(end.name) + 4]
        if end.how == "abort" and below and len(end.name) > 8:
            kept = [part for part in parts if part.name != below[-1]]
            yield with_entries(saved, kept)


CONFIG = bytes((1, 1)) + struct.pack(">HH", 1, 1)
# Texts of each kind of byte, short and long.
TEXTS = [b"", b'a"b\\c', bytes(range(32)), b"\x7f\xc3\xa9\xf0\x9f\x98\x80", b"\xff\xc3 <b>&", b"x" * 1024]


def number(value):
    return struct.pack(">BQ", 0, value)


def text(value):
    return struct.pack(">BH", 1, len(value)) + value


def number_or_text(count):
    """A text for an even number, and an odd one as it is."""
    return number(count) if count % 2 else text(TEXTS[count // 2 % len(TEXTS)])


def tuple_of(version, value):
    return struct.pack(">Q", version) + value + struct.pack(">Q", 0) + CONFIG


def name_of(top, *rest):
    return struct.pack(">BQ", 1 + len(rest), (1 << 32) + top) + b"".join(struct.pack(">I", number) for number in rest)


def made(count, sessions=4, value_of=number):
    """A legal trail of at least so many entries over a copy: sessions in turn, whose tops each read a record and set it.
    A record's first value is that of 0, and each further one that of the next number."""
    holds = [0] * sessions
    versions = [0] * sessions
    labels = b"".join(b"\x02r%d" % record + value_of(0) + CONFIG for record in range(sessions))
    body = bytes((1, 2, 0, 1, sessions)) + labels
    base = bytes((1, sessions)) + tuple_of(0, value_of(0)) * sessions
    written, top = [], 0

    def put(seat, tag, *parts):
        written.append(struct.pack(">IB", seat, tag) + b"".join(parts))

    def access(seat, record, name, operation):
        version, value = versions[record], value_of(holds[record])
        told = tuple_of(version, value)
        ask = b"\0" if operation == 0 else b"\1" + struct.pack(">Q", version) + value
        put(seat, 1, name, b"\4")
        put(seat, 2, name, bytes((0, record)), ask)
        put(2, 4, b"\0", name, bytes((record, operation)), told)
        put(seat, 7, name, b"\0\3", told)

    while len(written) < count:
        top += 1
        record = top % sessions
        seat = 18 + record
        put(seat, 1, name_of(top), bytes((0, record)), struct.pack(">I", 0))
        put(seat, 1, name_of(top, 1), bytes((1, record)))
        access(seat, record, name_of(top, 1, 1), 0)
        put(seat, 7, name_of(top, 1), b"\0\1", value_of(holds[record]))
        put(seat, 1, name_of(top, 2), bytes((2, record)), value_of(holds[record] + 1))
        access(seat, record, name_of(top, 2, 1), 0)
        holds[record] += 1
        versions[record] += 1
        access(seat, record, name_of(top, 2, 2), 1)
        put(seat, 7, name_of(top, 2), b"\0\0")
        put(seat, 6, name_of(top))
        put(1, 7, name_of(top), b"\0\0")
    return struct.pack(">I", len(body)) + body + base + struct.pack(">Q", len(written)) + b"".join(written)
