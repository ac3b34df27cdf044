"""What stands in a folder, what a run that is refused, or that folds, leaves of it, and changes of one, which are drawn
from the generator that is handed in: what bench/hostile spoils and holds."""
import os
import shutil
import stat

from runs import AS_NOBODY, NOBODY, SPARE, USED, base_in, fold_in, folded_in, number_in, records_in

LAST_SPARE = 33
EPOCH = b"\x02"

# WHAT STANDS IN A FOLDER


def bytes_of(path):
    """The bytes of a file, also of one that may not be read."""
    mode = stat.S_IMODE(os.lstat(path).st_mode)
    is_forbidden = not os.access(path, os.R_OK)
    if is_forbidden:
        os.chmod(path, 0o600)
    with open(path, "rb") as file:
        content = file.read()
    if is_forbidden:
        os.chmod(path, mode)
    return content


def entry_of(path):
    """A name's kind and permissions, and the number of the file, the target of the link or the names in the folder."""
    about = os.lstat(path)
    if stat.S_ISLNK(about.st_mode):
        return about.st_mode, os.readlink(path)
    if stat.S_ISDIR(about.st_mode):
        return about.st_mode, tuple(sorted(os.listdir(path)))
    return about.st_mode, about.st_ino


def file_of(path):
    """The number of the file that a name leads to: None where it leads to none, and False where nobody can tell."""
    try:
        about = os.stat(path)
    except FileNotFoundError:
        return None
    except OSError:
        return False
    return about.st_ino if stat.S_ISREG(about.st_mode) else None


class Folder:
    """What stands in a folder: by its names, by the numbers of its files, and of each disk the number of its file."""

    def __init__(self, path):
        self.names = {name: entry_of(os.path.join(path, name)) for name in sorted(os.listdir(path))}
        plain = {name: entry[1] for name, entry in self.names.items() if stat.S_ISREG(entry[0])}
        self.contents = {file: bytes_of(os.path.join(path, name)) for name, file in plain.items()}
        self.files = {disk: file_of(os.path.join(path, str(disk))) for disk in range(LAST_SPARE + 1)}

    def write_to(self, path):
        """Writes the plain files and the links to another folder, for who looks at it later."""
        os.mkdir(path)
        for name, (mode, what) in self.names.items():
            if stat.S_ISREG(mode):
                with open(os.path.join(path, name), "wb") as file:
                    file.write(self.contents[what])
            elif stat.S_ISLNK(mode):
                os.symlink(what, os.path.join(path, name))


def difference(before, after, wanted):
    """How a folder differs from what is wanted, the names from before and new files, or nothing."""
    for name, entry in before.names.items():
        if after.names.get(name) != entry:
            return f"{name} was {entry}, and is {after.names.get(name)}"
    new = {name: after.contents.get(entry[1]) for name, entry in after.names.items() if name not in before.names}
    if new != wanted.made():
        return f"the new files are {new}, and wanted was {wanted.made()}"
    for name, (mode, what) in before.names.items():
        if stat.S_ISREG(mode) and after.contents[what] != wanted.contents[what]:
            return f"{name} has {after.contents[what].hex()}, and wanted was {wanted.contents[what].hex()}"
    return None


# WHAT A REFUSED RUN LEAVES


def spelled(value):
    """The bytes of a value."""
    if isinstance(value, int):
        return b"\0" + value.to_bytes(8, "big")
    return b"\1" + len(value).to_bytes(2, "big") + value


def made_body(script, disk):
    """The body of the record that says how a disk was made for a script's table."""
    body = b"\1\2" + bytes([disk, script.copies, len(script.records)])
    for name, (start, (votes, read, write)) in script.records.items():
        body += bytes([len(name)]) + name.encode() + spelled(start) + bytes([len(votes), *votes])
        body += read.to_bytes(2, "big") + write.to_bytes(2, "big")
    return body


def with_record(image, body):
    """An image behind an append of this body: what stood there before stays where nothing is written."""
    place = sum(5 + len(other) for other in records_in(image))
    return image[:place] + b"\1" + len(body).to_bytes(4, "big") + body + b"\0" + image[place + 6 + len(body) :]


def last_epoch_in(image):
    """The last epoch that a ledger's journal tells."""
    told = [number_in(body[1:5]) for body in records_in(image) if body.startswith(EPOCH)]
    return told[-1] if told else folded_in(image)


class Left:
    """What a run leaves of a folder that it refuses, held to what stood there before and to the table of its script."""

    def __init__(self, before, script):
        self.names, self.contents, self.files = before.names, dict(before.contents), dict(before.files)
        self.script, self.new = script, {}

    def made(self):
        return {name: self.contents[name] for name in self.new}

    def image(self, disk):
        return self.contents[self.files[disk]]

    def is_blank(self, first):
        """Whether no file has bytes from a disk on, or None where one that nobody can look at comes first."""
        for disk in range(first, LAST_SPARE + 1):
            if self.files[disk] is False:
                return None
            if self.contents.get(self.files[disk]):
                return False
        return True

    def obtain(self, first):
        """Makes the files of a row that are missing, and the mark where spares are found with bytes."""
        blank = self.is_blank(first)
        if first == SPARE and blank is False and USED not in self.names:
            self.make_mark()
        for disk in range(first, first + self.script.copies + 1):
            if blank and str(disk) not in self.names:
                self.new[str(disk)] = first
                self.files[disk], self.contents[str(disk)] = str(disk), b""

    def make_mark(self):
        """Makes the mark. A link to it that led to nowhere leads to it from then on."""
        self.new[USED], self.contents[USED] = None, b""
        for disk, file in self.files.items():
            if file is None and self.leads_to_mark(str(disk)):
                self.files[disk] = USED

    def leads_to_mark(self, name):
        is_link = stat.S_ISLNK(self.names.get(name, (0,))[0])
        return name == USED or is_link and self.leads_to_mark(self.names[name][1])

    def take_back(self):
        """Those that were made go again where the row has no bytes."""
        rows = {first for first in (0, SPARE) if self.is_blank(first)}
        self.new = {name: first for name, first in self.new.items() if first not in rows}

    def make_ready(self, disk):
        if len(self.image(disk)) <= 1:
            self.contents[self.files[disk]] = b"\0"

    def append(self, disk, body):
        self.contents[self.files[disk]] = with_record(self.image(disk), body)

    def mount(self, pair):
        """A pair that is mounted: of the ledger it logs the next epoch."""
        self.make_ready(pair)
        self.make_ready(pair + SPARE)
        active = max((pair, pair + SPARE), key=lambda disk: fold_in(self.image(disk)))
        epoch = last_epoch_in(self.image(active)) + 1
        if not list(records_in(self.image(active))):
            self.append(active, made_body(self.script, active))
        if pair == 0:
            self.append(active, EPOCH + epoch.to_bytes(4, "big"))

    def refuse(self, status, disk, fault):
        """Behind a disk that was not obtained, or an image that was refused."""
        self.obtain(0)
        if status == 7 or disk >= SPARE:
            self.obtain(SPARE)
        if status == 7:
            self.refuse_image(disk % SPARE, disk < SPARE and fault.startswith("broken"))
        self.take_back()

    def refuse_image(self, pair, is_own_broken):
        """The pairs before it were mounted."""
        for other in range(pair):
            self.mount(other)
        # Where the pair's own disk is broken the spare is not looked at.
        if not is_own_broken:
            self.make_ready(pair)
            self.make_ready(pair + SPARE)


# WHAT A RUN THAT ENDED HAS FOLDED


def value_at(body, place):
    """The value that stands at a place, a number or the bytes of a text, and the place behind it."""
    if body[place] == 0:
        return number_in(body[place + 1 : place + 9]), place + 9
    end = place + 3 + number_in(body[place + 1 : place + 3])
    return body[place + 3 : end], end


def tuples_in(image, records):
    """What the base of a copy's journal has of each record: version, value, generation and configuration."""
    base, at, tuples = base_in(image), 13, []
    for _ in range(records):
        value, behind = value_at(base, at + 8)
        end = behind + 13 + base[behind + 8]
        tuples.append((number_in(base[at : at + 8]), value, number_in(base[behind : behind + 8]), base[behind + 8 : end]))
        at = end
    return tuples


def config_of(record):
    """A record's first configuration, as it is spelled."""
    config = record["config"]
    votes = bytes([len(config["votes"]), *config["votes"]])
    return votes + config["read"].to_bytes(2, "big") + config["write"].to_bytes(2, "big")


class Held:
    """What the copies of a folder hold of a record, behind a run that folded each pair."""

    def __init__(self, record, tuples):
        self.tuples = tuples
        self.first = config_of(record)
        self.newest = max(tuples, key=lambda it: it[0])
        # The values of the greatest version, of which the first copy's counts.
        self.values = [it[1] for it in tuples if it[0] == self.newest[0]]

    def value(self):
        return self.values[0]

    def is_one(self):
        return len(set(self.values)) == 1

    def must_be_read(self):
        """Whether each read finds this value: a write quorum of the one configuration has it."""
        generation, config = self.newest[2:]
        if any(it[2:] != (generation, config) for it in self.tuples) or generation == 0 and config != self.first:
            return False
        votes, write = config[1:-4], number_in(config[-2:])
        held = sum(vote for vote, it in zip(votes, self.tuples) if it[0] == self.newest[0])
        return self.is_one() and held >= write


# CHANGES


def put(path, content):
    with open(path, "wb") as file:
        file.write(content)


def clear(path):
    if os.path.isdir(path) and not os.path.islink(path):
        shutil.rmtree(path)
    elif os.path.lexists(path):
        os.remove(path)


def is_plain(path):
    return os.path.isfile(path) and not os.path.islink(path)


class Spoiler:
    """Changes of a folder of a store, and the folder of another one."""

    def __init__(self, random, path, copies, other):
        self.random, self.path, self.other = random, path, other
        self.disks = [first + disk for first in (0, SPARE) for disk in range(copies + 1)]

    def way(self, name):
        return os.path.join(self.path, str(name))

    def any_disk(self):
        return self.way(self.random.choice(self.disks))

    def plain(self):
        """A file that is a disk, and its bytes; nothing where none is."""
        found = [way for way in map(self.way, self.disks) if is_plain(way)]
        way = self.random.choice(found) if found else None
        return (way, bytes_of(way)) if way else (None, b"")

    def change_bytes(self, image):
        image = bytearray(image)
        for _ in range(self.random.choice((1, 1, 1, 2, 8))):
            if image:
                byte = self.random.choice((0, 1, 2, 4, 255, self.random.randrange(256)))
                image[self.random.randrange(len(image))] = byte
        return bytes(image)

    def cut(self, image):
        return image[: self.random.randrange(len(image) + 1)]

    def lengthen(self, image):
        count = self.random.choice((1, 5, 100, 5000, 1 << 20))
        others = [body for body in records_in(self.plain()[1])]
        record = self.random.choice(others) if others else b""
        more = (b"\0" * count, b"\1" * count, self.random.randbytes(count), image, with_record(b"\0", record))
        return image + self.random.choice(more)

    def change_records(self, image):
        """A record dropped, doubled, exchanged, brought from elsewhere or changed in a byte, and all spelled anew."""
        bodies, others = list(records_in(image)), list(records_in(self.plain()[1]))
        at = self.random.randrange(len(bodies) + 1)
        way = self.random.choice(("drop", "double", "exchange", "bring", "change", "change"))
        if way == "bring" and others:
            bodies.insert(at, self.random.choice(others))
        elif bodies:
            at, to = min(at, len(bodies) - 1), self.random.randrange(len(bodies))
            picked = bodies.pop(at)
            if way == "change":
                bodies.insert(at, self.change_bytes(picked))
            elif way != "drop":
                bodies[to:to] = [picked] * (2 if way == "double" else 1)
        return b"".join(b"\1" + len(body).to_bytes(4, "big") + body for body in bodies) + b"\0"

    def of_other(self, image):
        """The bytes of another file of this folder."""
        return self.plain()[1]

    def of_other_store(self, image):
        return self.random.choice([content for content in self.other.contents.values() if content] or [b""])

    def change_content(self, changed):
        way, image = self.plain()
        if way and os.access(way, os.W_OK):
            put(way, changed(image))

    def exchange(self):
        one, other, between = self.any_disk(), self.any_disk(), self.way("between")
        if os.path.lexists(one) and os.path.lexists(other) and one != other:
            os.rename(one, between)
            os.rename(other, one)
            os.rename(between, other)

    def replace(self, made):
        """Puts something else in a disk's place."""
        way = self.any_disk()
        clear(way)
        made(way)

    def link_hard(self, way):
        other, _ = self.plain()
        if other and other != way:
            os.link(other, way)

    def link(self, way):
        target = self.random.choice([str(disk) for disk in self.disks] + [USED])
        os.symlink(target, way)

    def add_file(self):
        """Puts bytes in the place of a disk that the store has not."""
        others = [disk for disk in range(LAST_SPARE + 1) if disk not in self.disks]
        put(self.way(self.random.choice(others)), self.plain()[1])

    def forbid(self):
        way, _ = self.plain()
        if way:
            os.chmod(way, self.random.choice((0, 0o200, 0o400)))

    def put_mark(self, made):
        clear(self.way(USED))
        if made:
            os.mkdir(self.way(USED))

    def changes(self):
        """The kinds of change, and what each does."""
        content = {"bytes changed": self.change_bytes, "cut": self.cut, "made longer": self.lengthen}
        content |= {"records changed": self.change_records, "another's bytes": self.of_other}
        content |= {"another store's bytes": self.of_other_store, "emptied": lambda image: b""}
        content |= {"one byte left": lambda image: image[:1]}
        others = {"a folder": os.mkdir, "a pipe": os.mkfifo, "removed": lambda way: None, "a hard link": self.link_hard}
        others |= {"a link": self.link, "a link to nowhere": lambda way: os.symlink("nowhere", way)}
        others |= {"a link to itself": lambda way: os.symlink(os.path.basename(way), way)}
        found = {name: lambda it=it: self.change_content(it) for name, it in content.items()}
        found |= {name: lambda it=it: self.replace(it) for name, it in others.items()}
        found |= {"exchanged": self.exchange, "forbidden": self.forbid, "a disk too many": self.add_file}
        return found | {"no mark": lambda: self.put_mark(False), "a folder as mark": lambda: self.put_mark(True)}

    def spoil(self):
        """Makes a change that is drawn, and tells its kind."""
        changes = self.changes()
        # Most of what is no plain file is refused at once, whatever else was changed.
        often = {"bytes changed": 8, "records changed": 12, "cut": 3, "made longer": 3, "another's bytes": 3}
        kind = self.random.choices([*changes], [often.get(name, 1) for name in changes])[0]
        changes[kind]()
        return kind


def give_away(path):
    """Gives a folder and all in it to whom permissions stop, where this is root."""
    for name in [".", *os.listdir(path)] if AS_NOBODY else []:
        os.chown(os.path.join(path, name), NOBODY, NOBODY, follow_symlinks=False)
