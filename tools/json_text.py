"""Reads JSON as qc's reader does, and keeps of each value where it stands."""
import re

MOST_LEVELS = 127
SPACE = re.compile(r"[ \t\n\r]*")
NUMBER = re.compile(r"-?(?:0|[1-9][0-9]*)(?:\.[0-9]+)?(?:[eE][+-]?[0-9]+)?")
PLAIN = re.compile(r'[^"\\\x00-\x1f\udc80-\udcff]*')
ESCAPES = {'"': '"', "\\": "\\", "/": "/", "b": "\b", "f": "\f", "n": "\n", "r": "\r", "t": "\t"}
WORDS = ("true", "false", "null")


class NotJson(Exception):
    """A text that is no JSON: at which character, and why."""

    def __init__(self, at, why):
        super().__init__(why)
        self.at, self.why = at, why


class Value:
    """A value of the kind object, list, text, number, true, false or null, and the character that it begins at.

    An object has its members by their names, the last of each name, and the place of each name. A number has its
    text, since a script's are told by their digits."""

    def __init__(self, kind, at, content=None, names=None):
        self.kind, self.at, self.content, self.names = kind, at, content, names

    def number(self):
        """The number, where it is whole, has digits alone and is below 2^64."""
        is_whole = self.kind == "number" and self.content.isdigit() and len(self.content) <= 20
        return int(self.content) if is_whole and int(self.content) < 1 << 64 else None


class Reader:
    """Goes through a text, whose bytes that are no UTF-8 stand in it as single surrogates."""

    def __init__(self, text):
        self.text, self.at = text, 0

    def whole(self):
        """The value that the whole text is."""
        value = self.value(0)
        if self.next():
            self.fail("the value has ended, and more stands behind it")
        return value

    def fail(self, why, at=None):
        at = self.at if at is None else at
        if "\udc80" <= self.text[at : at + 1] <= "\udcff":
            why = "the bytes are no UTF-8"
        raise NotJson(at, why if at < len(self.text) else "the text ends too early")

    def next(self):
        """The next character that is no space, or nothing at the end."""
        self.at = SPACE.match(self.text, self.at).end()
        return self.text[self.at : self.at + 1]

    def value(self, levels):
        first = self.next()
        if first in ("{", "["):
            if levels == MOST_LEVELS:
                self.fail(f"lists and objects nest deeper than {MOST_LEVELS} levels")
            return self.object(levels + 1) if first == "{" else self.list(levels + 1)
        if first == '"':
            return Value("text", self.at, self.string())
        if first == "-" or first.isdigit():
            return self.number()
        for word in WORDS:
            if self.text.startswith(word, self.at):
                self.at += len(word)
                return Value(word, self.at - len(word))
        return self.fail("a value is wanted")

    def object(self, levels):
        start, members, names = self.at, {}, {}
        self.at += 1
        while self.next() != "}" or members:
            if self.next() != '"':
                self.fail("a member's name in double quotes is wanted")
            at, name = self.at, self.string()
            if self.next() != ":":
                self.fail("a colon is wanted")
            self.at += 1
            members[name], names[name] = self.value(levels), at
            if self.goes_on("}"):
                continue
            break
        self.at += 1
        return Value("object", start, members, names)

    def list(self, levels):
        start, items = self.at, []
        self.at += 1
        while self.next() != "]" or items:
            items.append(self.value(levels))
            if not self.goes_on("]"):
                break
        self.at += 1
        return Value("list", start, items)

    def goes_on(self, end):
        """Whether a comma stands here, which is passed, and not the end."""
        following = self.next()
        if following not in (",", end) or not following:
            self.fail(f"a comma or {end} is wanted")
        self.at += following == ","
        return following == ","

    def number(self):
        start, found = self.at, NUMBER.match(self.text, self.at)
        if not found or self.text[found.end() : found.end() + 1].isdigit():
            self.fail("a number has no such form")
        self.at = found.end()
        if self.text[self.at : self.at + 1] in (".", "e", "E"):
            self.fail("digits are wanted", self.at + 1)
        if abs(float(found[0])) == float("inf"):
            self.fail("the number is too large", start)
        return Value("number", start, found[0])

    def string(self):
        parts = []
        self.at += 1
        while True:
            plain = PLAIN.match(self.text, self.at)
            parts.append(plain[0])
            self.at = plain.end()
            following = self.text[self.at : self.at + 1]
            if following == '"':
                self.at += 1
                return "".join(parts)
            if following != "\\":
                self.fail("a text ends with a double quote, and has no control characters")
            parts.append(self.escape())

    def escape(self):
        letter = self.text[self.at + 1 : self.at + 2]
        if letter in ESCAPES and letter:
            self.at += 2
            return ESCAPES[letter]
        if letter != "u":
            self.fail("there is no such escape", self.at + 1)
        code = self.hex(self.at)
        if 0xD800 <= code < 0xDC00 and self.text[self.at + 6 : self.at + 8] == "\\u":
            low = self.hex(self.at + 6)
            if 0xDC00 <= low < 0xE000:
                self.at += 12
                return chr(0x10000 + ((code - 0xD800) << 10) + (low - 0xDC00))
        if 0xD800 <= code < 0xE000:
            self.fail("half of a pair of escapes stands alone")
        self.at += 6
        return chr(code)

    def hex(self, at):
        """The number of an escape by four digits."""
        digits = self.text[at + 2 : at + 6]
        if not re.fullmatch(r"[0-9a-fA-F]{4}", digits):
            self.fail("four hexadecimal digits are wanted", at + 2)
        return int(digits, 16)


def line_and_column(text, at):
    """Where a character stands, both counted from 1."""
    return text.count("\n", 0, at) + 1, at - text.rfind("\n", 0, at)
