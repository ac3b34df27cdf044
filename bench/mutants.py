"""Scripts that are drawn, and changes of their texts: what bench/hostile hands to the program. All is drawn from the
generator that is handed in, so that it can be drawn again."""
import glob
import importlib.machinery
import importlib.util
import json
import os

from runs import HOME
from script_text import MOST_BYTES

NAMES = ["x", "y", "r10", "Z9", "account1", "a" * 16]
AMOUNTS = [0, 1, 5, 2**64 - 1]
# Texts of each kind of byte, and some that look like numbers or lines.
VALUES = [*AMOUNTS, "", "0", "hi", "a b", 'say "hi"', "\\u0041\\", "\0\t\n\x1f\x7f\x85", "\xe9\u2028\U0001f600", "\nfinal x 1"]
LONGEST = ["x" * 1024, "\xe9" * 512, "\0" * 1024]
LEAVES = ["read", "set", "add", "sub", "need", "reconf", "abort", "crash", "kill"]
MOST_DEPTH = 4

# SCRIPTS THAT ARE DRAWN


def drawn_config(random, copies):
    votes = [random.randrange(3) for _ in range(copies)]
    votes[random.randrange(copies)] += 1
    total = sum(votes)
    write = random.randint(1, total)
    return {"votes": votes, "read": random.randint(total + 1 - write, total), "write": write}


def drawn_datum(random):
    return random.choice(LONGEST if random.random() < 0.05 else VALUES)


def drawn_table(random, most_copies):
    """The copies and records of a script."""
    copies = random.randint(1, most_copies)
    names = random.sample(NAMES, random.randint(1, 3))
    records = [{"name": it, "start": drawn_datum(random), "config": drawn_config(random, copies)} for it in names]
    return {"copies": copies, "records": records}


def drawn_step(random, table, sessions, depth):
    word = random.choice(LEAVES + ["child", "par"] * (depth < MOST_DEPTH))
    name = random.choice(table["records"])["name"]
    if word in ("child", "par"):
        bodies = [drawn_body(random, table, sessions, depth + 1) for _ in range(random.randint(1, 3))]
        return [word, bodies if word == "par" else bodies[0]]
    if word == "reconf":
        return [word, name, drawn_config(random, table["copies"])]
    if word in ("abort", "crash", "kill"):
        return [word, random.randrange({"abort": depth, "crash": table["copies"], "kill": sessions}[word])]
    if word == "set":
        return [word, name, drawn_datum(random)]
    return [word, name] + [random.choice(AMOUNTS)] * (word != "read")


def drawn_body(random, table, sessions, depth=1):
    body = {"steps": [drawn_step(random, table, sessions, depth) for _ in range(random.randrange(4))]}
    if random.random() < 0.3:
        body["tries"] = random.randint(1, 3)
    if random.random() < 0.2:
        body["must"] = random.random() < 0.7
    return body


def drawn_sessions(random, table):
    count = random.randint(1, 3)
    sessions = [{"tops": [drawn_body(random, table, count) for _ in range(random.randrange(4))]} for _ in range(count)]
    for session in sessions:
        if random.random() < 0.5:
            fates = "".join(random.choice("dddarht") for _ in range(random.randrange(9)))
            session["net"] = {"fates": fates, "hold": random.randint(1, 3)}
    return sessions


def drawn_script(random, table):
    return dict(table, sessions=drawn_sessions(random, table))


def reading_of(table):
    """The script of a run over this table that reads each record, once in a top of its own."""
    return dict(table, sessions=[{"tops": [{"steps": [["read", record["name"]]]} for record in table["records"]]}])


def without_tops(table):
    return dict(table, sessions=[{"tops": []}])


# CHANGES OF BYTES

BYTES = [*b'\0\t\n "\\{}[]:,-+.09eEuxdn\x7f\x80\xc0\xed\xf0\xff']


def with_byte_changed(random, text):
    at = random.randrange(len(text))
    way = random.choice(("changed", "dropped", "doubled", "exchanged"))
    if way == "changed":
        byte = random.choice(BYTES) if random.random() < 0.7 else random.randrange(256)
        return text[:at] + bytes([byte]) + text[at + 1 :]
    if way == "dropped":
        return text[:at] + text[at + 1 :]
    if way == "doubled":
        return text[: at + 1] + text[at:]
    changed, other = bytearray(text), random.randrange(len(text))
    changed[at], changed[other] = changed[other], changed[at]
    return bytes(changed)


# CHANGES OF MEMBERS


class Members(list):
    """An object as names and values, so that a name may stand there twice."""


class Spelled(str):
    """What stands in the text as it is."""


def dump(value):
    if isinstance(value, Spelled):
        return str(value)
    if isinstance(value, Members):
        return "{" + ",".join(f"{dump(name)}:{dump(item)}" for name, item in value) + "}"
    if isinstance(value, list):
        return "[" + ",".join(map(dump, value)) + "]"
    return json.dumps(value)


NUMBERS = [0, 1, 4, 15, 16, 17, 63, 64, 65, 255, 256, 257, 2**32, 2**63, 2**64 - 1, 2**64, 10**19, 10**20, -1, -(2**64)]
SPELLED = """-0 1.0 1.5 1e0 1E3 1e400 -1e400 1e-400 0.1e1 18446744073709551615.0 1.8446744073709551615e19 01 00 +1
1. .5 - 0x10 NaN Infinity tru nulL 'x' "\\ud800" "\\udc00" "\\ud800\\ud800" "\\udc00\\ud800" "\\ud83d\\ude00" "\\u0000"
"\\u0078" "\\x" "\\u12" "\\ud800\\u0078" "x\\/y" "x\\u0020" "\x7f" "\xe9" "x" x // /**/""".split()
TEXTS = ["", "x" * 16, "x" * 17, "\xe9" * 8, "a b", "d" * 64, "d" * 65, "d" * 64 + "x", "ddx", "read", "par", "0", "\t"]
TEXTS += [*LONGEST, "x" * 1025, "x" + "\xe9" * 512]
OTHERS = [None, True, False, Members(), [], [[]], [Members()], [1] * 64, [1] * 65, ["x", "x"]]
LEVELS = [8, 16, 17, 60, 100, 120, 126, 127, 128, 129, 1000, 20000]
MEMBERS = """copies patience records sessions name start config votes read write net tops fates hold tries must
steps""".split()
STEP_WORDS = [*LEAVES, "child", "par", "reads", "Read", ""]


def nested(random):
    """A value that is deep."""
    levels = random.choice(LEVELS)
    begin, end = random.choice((("[", "]"), ('{"a":', "}"), ('{"steps":[["child",', "]]}"), ('[{"steps":', "}]")))
    return Spelled(begin * levels + random.choice(("", "0", "[]", "{}")) + end * levels)


def drawn_value(random, instead):
    """A value to stand in place of another, often of the same kind."""
    kind = random.randrange(8)
    if isinstance(instead, (int, str)) and random.random() < 0.5:
        kind = 0 if isinstance(instead, int) else 3
    if kind == 7:
        return nested(random)
    if kind == 6:
        return Spelled("1" + "0" * random.choice((19, 20, 300, 400, 5000)))
    return random.choice((NUMBERS, NUMBERS, [Spelled(text) for text in SPELLED], TEXTS, OTHERS, STEP_WORDS)[kind])


def places_in(value):
    """The lists and objects of a tree, each with the place of each of its parts."""
    for at, part in enumerate(value if isinstance(value, list) else []):
        yield value, at
        yield from places_in(part[1] if isinstance(value, Members) else part)


def renamed(random, name):
    escaped = Spelled(f'"\\u{ord(name[0]):04x}{name[1:]}"')
    return random.choice((random.choice(MEMBERS), name.upper(), name + "s", name[:-1], "", escaped))


def change_part(random, tree):
    """Drops, doubles, exchanges, renames or replaces a part of a script that is a tree."""
    holder, at = random.choice([*places_in(tree)] or [(tree, 0)])
    if not holder:
        return
    way = random.choice(("drop", "double", "exchange", "rename", "replace", "replace", "replace"))
    part = holder[at]
    is_member = isinstance(holder, Members)
    if way == "drop":
        holder.pop(at)
    elif way == "double":
        same = is_member and random.random() < 0.5
        holder.insert(random.randrange(len(holder) + 1), (part[0], drawn_value(random, part[1])) if same else part)
    elif way == "exchange":
        other = random.randrange(len(holder))
        holder[at], holder[other] = holder[other], part
    elif way == "rename" and is_member and isinstance(part[0], str) and part[0].isalpha():
        holder[at] = renamed(random, part[0]), part[1]
    else:
        holder[at] = (part[0], drawn_value(random, part[1])) if is_member else drawn_value(random, part)


# TEXTS


def places_module():
    """.ci/places, which plants mistakes in a script. It goes to the repository's folder, so that is left again."""
    here = os.getcwd()
    loader = importlib.machinery.SourceFileLoader("places", os.path.join(HOME, ".ci", "places"))
    module = importlib.util.module_from_spec(importlib.util.spec_from_loader("places", loader))
    loader.exec_module(module)
    os.chdir(here)
    return module


class Texts:
    """Texts of scripts, changed or not."""

    KINDS = {"unchanged": 3, "bytes": 8, "members": 10, "cut": 2, "planted": 3}

    def __init__(self):
        paths = sorted(glob.glob(os.path.join(HOME, "examples", "**", "*.json"), recursive=True))
        self.examples = [open(path, "rb").read() for path in paths if os.sep + "refused" + os.sep not in path]
        self.places = places_module()
        self.mistakes = self.places.mistakes()

    def valid(self, random):
        if random.random() < 0.3:
            return random.choice(self.examples)
        script = drawn_script(random, drawn_table(random, 4))
        if random.random() < 0.2:
            script["patience"] = random.randint(1, 8)
        return json.dumps(script, indent=random.choice((None, None, 1))).encode()

    def planted(self, random):
        script = self.places.base()
        for mistake in random.sample(self.mistakes, random.randint(1, 2)):
            try:
                script = mistake.made(script)
            except (IndexError, KeyError, TypeError, AttributeError):
                # The first mistake took away where the second was to stand.
                break
        return json.dumps(script).encode()

    def draw(self, random):
        """The kind of change, and the text."""
        kind = random.choices([*self.KINDS], [*self.KINDS.values()])[0]
        text = self.planted(random) if kind == "planted" else self.valid(random)
        if kind == "cut":
            text = text[: random.randrange(len(text))]
        tree = json.loads(text, object_pairs_hook=Members) if kind == "members" else None
        for _ in range(random.randint(1, 3)):
            if kind == "bytes" and text:
                text = with_byte_changed(random, text)
            elif tree:
                change_part(random, tree)
        return kind, text if tree is None else dump(tree).encode("utf-8", "surrogatepass")


# TEXTS OF THE LARGEST SIZE

WHOLE = (
    '{"copies":1,"records":[{"name":"x","start":0,"config":{"votes":[1],"read":1,"write":1}}],'
    '"sessions":[{"net":{"fates":"d"},"tops":[{"steps":[["read","x"]]}]}]}'
)
# What gives way to something large: a record's name, its start, a step and a body.
SPOTS = ['"x"', "0", '["read","x"]', '{"steps":[["read","x"]]}']
MANY = 100_000


def repeated(begin, middle, end, room):
    """A value that is nested as deep as there is room."""
    levels = (room - len(middle)) // (len(begin) + len(end))
    return begin * levels + middle + end * levels


LARGE = {
    "brackets that open": lambda room: "[" * room,
    "lists in lists": lambda room: repeated("[", "", "]", room),
    "objects in objects": lambda room: repeated('{"a":', "0", "}", room),
    "bodies in bodies": lambda room: repeated('{"steps":[["child",', '{"steps":[]}', "]]}", room),
    "one text": lambda room: '"' + "x" * (room - 2) + '"',
    "one text of escapes": lambda room: '"' + "\\u0078" * ((room - 2) // 6) + '"',
    "one text of pairs of escapes": lambda room: '"' + "\\ud83d\\ude00" * ((room - 2) // 12) + '"',
    "one number": lambda room: "1" * room,
    "one fraction": lambda room: "0." + "1" * (room - 2),
    "many numbers": lambda room: "[" + "1," * (MANY - 1) + "1]",
    "many texts": lambda room: "[" + '"x",' * (MANY - 1) + '"x"]',
    "many bodies": lambda room: "[" + '{"s":1},' * (MANY - 1) + "{}]",
    "many members": lambda room: "{" + ",".join(f'"{member:x}":1' for member in range(MANY)) + "}",
    "many members of one name": lambda room: "{" + '"name":1,' * (MANY - 1) + '"name":1}',
}


def large_texts():
    """What is large, alone and inside of a script, with what it is."""
    for what, made in LARGE.items():
        yield what, made(MOST_BYTES).encode()
        for spot in SPOTS:
            head, _, tail = WHOLE.partition(spot)
            yield f"{what} for {spot}", (head + made(MOST_BYTES - len(head) - len(tail)) + tail).encode()


def odd_texts():
    """Texts of the longest length and beyond, without and with odd bytes. bench/largest runs the most steps."""
    whole = WHOLE.encode()
    for more in (0, 1, MOST_BYTES):
        yield f"{more} bytes more than the longest", whole.ljust(MOST_BYTES + more)
        yield f"{more} bytes more than the longest, behind spaces", whole.rjust(MOST_BYTES + more)
    for byte in (b"\0", b"\xff", b"\x80", b" ", b"\n", b'"', b"\\", b"-", b"9"):
        yield f"{byte} alone", byte
        yield f"{byte} to the whole length", byte * MOST_BYTES
        yield f"{byte} behind a script", whole + byte
        yield f"{byte} in a name", whole.replace(b'"x"', b'"' + byte + b'"', 1)
        yield f"{byte} in a start", whole.replace(b"0", b'"' + byte + b'"', 1)
    odd = [b"", b"\xef\xbb\xbf" + whole, WHOLE.encode("utf-16"), b"\xc0\x80", b"\xed\xa0\x80", b"\xf4\x90\x80\x80"]
    odd += [b"\xe2\x82", rb"\ud800", rb"\udc00", rb"\udc00\ud800", rb"\ud800\ud800", rb"\ud800x", rb"\ud83d\ude00"]
    odd += [rb"\u0000", rb"\uD80", rb"\u"]
    for bytes in odd:
        yield f"{bytes[:12]} alone", bytes
        yield f"{bytes[:12]} as a name", whole.replace(b'"x"', b'"' + bytes[:20] + b'"', 1)
        yield f"{bytes[:12]} as a start", whole.replace(b"0", b'"' + bytes[:20] + b'"', 1)
        yield f"{bytes[:12]} as a member", whole.replace(b'"copies"', b'"' + bytes[:20] + b'"', 1)


def giants():
    yield from large_texts()
    yield from odd_texts()
