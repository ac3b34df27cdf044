"""Reads a script in the order in which qc checks it (docs/FORMATS.md, "Order of checks"), and tells of a text that is
no script what refuses it and where. That it refuses what qc does, and for the same, is tried by .ci/places."""
from json_text import NotJson, Reader, line_and_column

MOST_BYTES = 1 << 20
MOST_TEXT = 1024
ESCAPED = {byte: f"\\u{byte:04x}" for byte in range(32)} | {ord(sign): f"\\{sign}" for sign in '"\\'}
LETTERS = set("0123456789ABCDEFGHIJKLMNOPQRSTUVWXYZabcdefghijklmnopqrstuvwxyz")
BAD_CONFIG = {
    1: "there are no votes",
    2: "the votes have a total of 0",
    3: "read is 0, or above the total of the votes",
    4: "write is 0, or above the total of the votes",
    5: "read and write do not pass the total of the votes together, so that a read may miss a write",
}


class Refused(Exception):
    """Why a text is no script, in qc's words; and the place and the way to it, and what is wrong, for a reader."""

    def __init__(self, line, at, path, words):
        super().__init__(line)
        self.line, self.at, self.path, self.words = line, at, path, words


class Spot:
    """A value and the way to it, as sessions[0].tops[2]."""

    def __init__(self, value, path=""):
        self.value, self.path = value, path

    def refuse(self, line, words, at=None):
        raise Refused(line, self.value.at if at is None else at, self.path or "the script", words)

    def member(self, name):
        """The member of a name, which is there."""
        return Spot(self.value.content[name], f"{self.path}.{name}".lstrip("."))

    def has(self, name):
        return name in self.value.content

    def items(self):
        return [Spot(item, f"{self.path}[{at}]") for at, item in enumerate(self.value.content)]

    def check_object(self, word, needed, others=()):
        if self.value.kind != "object":
            self.refuse(f"shape {word}", "an object is wanted")
        for name, at in sorted(self.value.names.items(), key=lambda it: it[1]):
            if name not in needed and name not in others:
                self.refuse(f"shape {word}", f"there is no member {shown(name)}; there are {listed([*needed, *others])}", at)
        for name in needed:
            if not self.has(name):
                self.refuse(f"shape {word}", f"the member {shown(name)} is missing")

    def number(self, word):
        number = self.value.number()
        if number is None:
            self.refuse(f"shape {word}", "a whole number is wanted, in digits alone and below 2^64")
        return number

    def datum(self, word):
        """A record's value: a number, or the bytes of a text, which may be too long."""
        if self.value.kind == "text":
            return self.value.content.encode()
        number = self.value.number()
        if number is None:
            self.refuse(f"shape {word}", "a text is wanted, or a whole number in digits alone and below 2^64")
        return number

    def check_length(self, word, datum):
        if isinstance(datum, bytes):
            self.within(word, 0, MOST_TEXT, len(datum), "the length of the text in bytes")

    def within(self, word, low, high, number, what="the number"):
        if not low <= number <= high:
            self.refuse(f"limit {word} {number}", f"{what} is {number}, and {low} to {high} are allowed")

    def limited(self, word, low, high):
        number = self.number(word)
        self.within(word, low, high, number)
        return number

    def list(self, word):
        if self.value.kind != "list":
            self.refuse(f"shape {word}", "a list is wanted")
        return self.items()

    def text(self, word):
        if self.value.kind != "text":
            self.refuse(f"shape {word}", "a text is wanted")
        return self.value.content


def quoted(datum):
    """A record's value as a report has it. What is no UTF-8 stands in it as single surrogates."""
    if isinstance(datum, int):
        return str(datum)
    return f'"{datum.decode("utf-8", "surrogateescape").translate(ESCAPED)}"'


def shown(name):
    return '"' + name[:40].encode("ascii", "backslashreplace").decode() + '"'


def listed(names):
    return ", ".join(map(shown, names))


def default(object, name, read, otherwise):
    """What is read of a member, or what counts where it is left out."""
    return read(object.member(name)) if object.has(name) else otherwise


class Script:
    """A script as far as others speak of it: its copies and records, and how many sessions it has."""

    def __init__(self, spot):
        spot.check_object("script", ["copies", "records", "sessions"], ["patience"])
        self.copies = spot.member("copies").limited("copies", 1, 16)
        default(spot, "patience", lambda it: it.limited("patience", 1, 64), 4)
        self.read_records(spot.member("records"))
        self.read_sessions(spot.member("sessions"))

    def read_records(self, spot):
        self.records = {}
        rows = spot.list("records")
        spot.within("records", 1, 64, len(rows), "the number of records")
        for row in rows:
            row.check_object("record", ["name", "start", "config"])
            name = self.new_name(row.member("name"))
            start = row.member("start").datum("start")
            row.member("start").check_length("start", start)
            self.records[name] = start, self.config(row.member("config"))

    def new_name(self, spot):
        name = spot.text("name")
        if not set(name) <= LETTERS:
            spot.refuse("shape name", "a name has ASCII letters and digits alone")
        spot.within("name", 1, 16, len(name), "the length of the name")
        if name in self.records:
            first = [*self.records].index(name)
            spot.refuse(f"twice {name}", f"records[{first}] has this name already")
        return name

    def config(self, spot):
        spot.check_object("config", ["votes", "read", "write"])
        list = spot.member("votes")
        items = list.list("votes")
        if len(items) != self.copies:
            words = f"there are {len(items)} votes, and the script has {self.copies} copies"
            list.refuse(f"limit votes {len(items)}", words)
        votes = [item.limited("votes", 0, 255) for item in items]
        read, write = spot.member("read").number("read"), spot.member("write").number("write")
        code = bad_config(sum(votes), read, write)
        if code:
            words = f"votes {votes}, read {read}, write {write}: {BAD_CONFIG[code]}"
            spot.refuse(f"config {code}", words)
        return votes, read, write

    def read_sessions(self, spot):
        rows = spot.list("sessions")
        spot.within("sessions", 1, 16, len(rows), "the number of sessions")
        self.sessions = len(rows)
        for row in rows:
            row.check_object("session", ["tops"], ["net"])
            default(row, "net", self.check_net, None)
            for top in row.member("tops").list("tops"):
                self.check_body(top, 1, 1)

    def check_net(self, spot):
        spot.check_object("net", [], ["fates", "hold"])
        default(spot, "fates", self.check_fates, None)
        default(spot, "hold", lambda it: it.limited("hold", 1, 64), 1)

    def check_fates(self, spot):
        fates = spot.text("fates")
        for at, letter in enumerate(fates):
            if letter not in "darht":
                spot.refuse("shape fates", f"letter {at + 1}, {shown(letter)}, is none of d, a, r, h and t")
        spot.within("fates", 0, 64, len(fates), "the number of letters")

    def check_body(self, spot, depth, around):
        """Of a body of this depth, where the tries of those around it have this product."""
        spot.check_object("body", ["steps"], ["tries", "must"])
        if depth > 16:
            spot.refuse("limit body 17", "bodies nest deeper than 16 levels")
        tries = default(spot, "tries", lambda it: it.limited("tries", 1, 16), 1)
        if around * tries > 256:
            words = f"with the tries of the bodies around it the product is {around * tries}, and 256 are allowed"
            spot.member("tries").refuse(f"limit tries {around * tries}", words)
        if spot.has("must") and spot.member("must").value.kind not in ("true", "false"):
            spot.member("must").refuse("shape must", "true or false is wanted")
        for step in spot.member("steps").list("steps"):
            self.check_step(step, depth, around * tries)

    def check_step(self, spot, depth, around):
        parts = spot.list("step")
        word = parts[0].value.content if parts and parts[0].value.kind == "text" else None
        if word not in STEPS:
            (parts or [spot])[0].refuse("shape step", f"a step begins with one of {listed(STEPS)}")
        wanted, check = STEPS[word]
        if len(parts) != wanted:
            spot.refuse("shape step", f"a step {shown(word)} has {wanted} elements")
        check(self, parts, depth, around)

    def name_of(self, spot):
        name = spot.text("step")
        if not set(name) <= LETTERS or not 1 <= len(name) <= 16:
            spot.refuse("shape step", "a record's name is wanted, of 1 to 16 ASCII letters and digits")
        return name

    def known(self, spot, name):
        if name not in self.records:
            spot.refuse(f"unknown {name}", f"there is no record of this name; there are {listed([*self.records][:8])}")

    def check_read(self, parts, depth, around):
        self.known(parts[1], self.name_of(parts[1]))

    def check_set(self, parts, depth, around):
        name, value = self.name_of(parts[1]), parts[2].datum("step")
        self.known(parts[1], name)
        parts[2].check_length("value", value)

    def check_amount(self, parts, depth, around):
        name = self.name_of(parts[1])
        parts[2].number("step")
        self.known(parts[1], name)

    def check_reconf(self, parts, depth, around):
        name = self.name_of(parts[1])
        if parts[2].value.kind != "object":
            parts[2].refuse("shape step", "a configuration is wanted")
        self.known(parts[1], name)
        self.config(parts[2])

    def check_child(self, parts, depth, around):
        if parts[1].value.kind != "object":
            parts[1].refuse("shape step", "a body is wanted")
        self.check_body(parts[1], depth + 1, around)

    def check_par(self, parts, depth, around):
        bodies = parts[1].list("step")
        parts[1].within("branches", 1, 8, len(bodies), "the number of bodies")
        for body in bodies:
            self.check_body(body, depth + 1, around)

    def check_abort(self, parts, depth, around):
        check_below(parts[1], "levels", depth, "the body's depth")

    def check_crash(self, parts, depth, around):
        check_below(parts[1], "copy", self.copies, "the number of copies")

    def check_kill(self, parts, depth, around):
        check_below(parts[1], "session", self.sessions, "the number of sessions")


def check_below(spot, word, bound, what):
    number = spot.number("step")
    if number >= bound:
        spot.refuse(f"limit {word} {number}", f"the number is {number}, and must be below {bound}, {what}")


def bad_config(total, read, write):
    """The code of what is wrong with a configuration, or nothing. A script has a copy, and so a vote."""
    if total == 0:
        return 2
    if not 1 <= read <= total:
        return 3
    if not 1 <= write <= total:
        return 4
    return 5 if read + write <= total else None


# How many elements a step has, its word among them, and what looks at them.
STEPS = {
    "read": (2, Script.check_read),
    "set": (3, Script.check_set),
    "add": (3, Script.check_amount),
    "sub": (3, Script.check_amount),
    "need": (3, Script.check_amount),
    "reconf": (3, Script.check_reconf),
    "child": (2, Script.check_child),
    "par": (2, Script.check_par),
    "abort": (2, Script.check_abort),
    "crash": (2, Script.check_crash),
    "kill": (2, Script.check_kill),
}


def read_script(bytes):
    """The script, and its text; else Refused."""
    if len(bytes) > MOST_BYTES:
        raise Refused("too long", None, "the script", f"it has more than {MOST_BYTES} bytes")
    text = bytes.decode("utf-8", "surrogateescape")
    try:
        return Script(Spot(Reader(text).whole()))
    except NotJson as fault:
        raise Refused("not json", fault.at, "", fault.why) from None


def place_of(bytes, refused):
    """Where a refusal is, in a line of words."""
    parts = [refused.path] * bool(refused.path)
    if refused.at is not None:
        line, column = line_and_column(bytes.decode("utf-8", "surrogateescape"), refused.at)
        parts = [f"line {line}, column {column}", *parts]
    return f"{', '.join(parts)}: {refused.words}"
