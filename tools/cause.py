#!/usr/bin/env python3
"""Says why a run over the disks in a folder ended with status 6 or 7, as far as a look at the folder tells:
python3 tools/cause.py STATUS FOLDER < SCRIPT. Where the input is no script it goes by the folder alone."""
import fcntl
import os
import stat
import sys

sys.dont_write_bytecode = True
sys.path.insert(0, os.path.dirname(os.path.abspath(__file__)))
from script_text import MOST_BYTES, Refused, quoted, read_script

MOST_COPIES = 16
# What a disk's number and that of its spare differ by: so many disks may have spares.
SPARE = MOST_COPIES + 1
# A file that says that spares of the folder had bytes once.
USED = "spares"
GATES = (b"\x00", b"\x01")
# How a record begins that says how a disk was made, in either format.
MADE = (b"\x01\x01", b"\x01\x02")
BASE = b"\x04"
KINDS = {stat.S_IFDIR: "a folder", stat.S_IFIFO: "a pipe", stat.S_IFSOCK: "a socket"}


class Table:
    """The copies and records that a script has, or that a disk was made for: by each name its start and configuration."""

    def __init__(self, copies, records):
        self.copies, self.records = copies, records

    def difference(self, other):
        """How the table of a disk differs from a script's, or nothing."""
        if self.copies != other.copies:
            return f"it was made for {self.copies} copies, and the script has {other.copies}"
        if len(self.records) != len(other.records):
            return f"it was made for {len(self.records)} records, and the script has {len(other.records)}"
        for at, (made, asked) in enumerate(zip(self.records.items(), other.records.items())):
            for what, there, here in zip(("the name", "the start", "the configuration"), *map(parts, (made, asked))):
                if there != here:
                    return f"record {at} was made with {what} {there}, and the script has {here}"
        return None


def parts(record):
    name, (start, (votes, read, write)) = record
    return name, quoted(start), f"votes {votes}, read {read}, write {write}"


def size_of(path):
    """How many bytes a plain file has, at the end of links too; of anything else none."""
    try:
        found = os.stat(path)
    except OSError:
        return 0
    return found.st_size if stat.S_ISREG(found.st_mode) else 0


def front_on(path):
    """The first two records of a disk, or those that stand there. What is no plain file is not opened: that might wait."""
    front = []
    if not size_of(path):
        return front
    try:
        with open(path, "rb") as file:
            while len(front) < 2 and file.read(1) == b"\x01":
                length = int.from_bytes(file.read(4), "big")
                body = file.read(min(length, MOST_BYTES))
                if len(body) != length:
                    break
                front.append(body)
    except OSError:
        pass
    return front


def table_on(path):
    """The table that a disk was made for, or nothing where its first record does not tell."""
    front = front_on(path)
    if not front or not front[0].startswith(MADE):
        return None
    try:
        return table_in(front[0])
    except (IndexError, UnicodeDecodeError):
        return None


def fold_on(path):
    """The number of a disk's base, 0 where it has none."""
    front = front_on(path)
    return int.from_bytes(front[1][1:9], "big") if len(front) == 2 and front[1].startswith(BASE) else 0


def active_in(folder, disk):
    """The number of the disk that is read of a disk and its spare: of that whose base has the greater number, else its own."""
    return max((disk, disk + SPARE), key=lambda number: fold_on(os.path.join(folder, str(number))))


def value_in(body, at):
    """The value that stands at a place, and the place behind it: in the second format 00 and a number, or 01 and a text."""
    if body[1] == 1:
        return int.from_bytes(body[at : at + 8], "big"), at + 8
    if body[at] == 0:
        return int.from_bytes(body[at + 1 : at + 9], "big"), at + 9
    end = at + 3 + int.from_bytes(body[at + 1 : at + 3], "big")
    return body[at + 3 : end], end


def table_in(body):
    copies, count, at, records = body[3], body[4], 5, {}
    for _ in range(count):
        name = body[at + 1 : at + 1 + body[at]].decode("ascii")
        start, at = value_in(body, at + 1 + body[at])
        voters = body[at]
        at += 1 + voters
        votes, read, write = [*body[at - voters : at]], body[at : at + 2], body[at + 2 : at + 4]
        records[name] = start, (votes, int.from_bytes(read, "big"), int.from_bytes(write, "big"))
        at += 4
    return Table(copies, records)


def table_asked():
    """The table of the script that is the input, or nothing."""
    try:
        script = read_script(sys.stdin.buffer.read(MOST_BYTES + 1))
    except Refused:
        return None
    return Table(script.copies, script.records)


def fault_of_folder(folder):
    if not os.path.lexists(folder):
        return f"there is no folder {folder}: make it first"
    if not os.path.isdir(folder):
        return f"{folder} is no folder"
    if not os.access(folder, os.R_OK | os.X_OK):
        return f"there is no permission to read the folder {folder}"
    return None


def fault_of_file(path):
    """What is wrong with a disk that has a name in the folder."""
    if os.path.islink(path) and not os.path.exists(path):
        return f"{path} is a link to nowhere"
    mode = os.stat(path).st_mode
    if not stat.S_ISREG(mode):
        return f"{path} is {KINDS.get(stat.S_IFMT(mode), 'a device')}, and no file"
    if not os.access(path, os.R_OK | os.W_OK):
        return f"there is no permission to read and write {path}"
    with open(path, "rb") as file:
        try:
            fcntl.flock(file, fcntl.LOCK_EX | fcntl.LOCK_NB)
        except OSError:
            return f"another run holds {path}"
        if file.read(1) not in (b"", *GATES):
            return f"{path} is no disk of qc, and was left as it is: a disk's first byte is 00 or 01"
    return None


def fault_of_missing(path, beside, made, asked):
    """What is wrong where a file is missing that other files of the store say was there."""
    if made and asked and asked.copies > made.copies:
        return f"there is no {path}: the store was made for {made.copies} copies, and the script has {asked.copies}"
    return f"there is no {path}, and {beside}: it was lost (docs/FORMATS.md, \"Words\")"


def row_in(folder, first):
    return [os.path.join(folder, str(number)) for number in range(first, first + SPARE)]


def kept_beside(folder, first):
    """What says of the files of a row that none is new, or nothing: of spares the mark does, and spares do of the disks."""
    if any(map(size_of, row_in(folder, first))):
        return "other spares of the store have bytes" if first else "other disks of the store have bytes"
    if first and os.path.lexists(os.path.join(folder, USED)):
        return f"the file {USED} says that the store's spares had bytes"
    if not first and any(map(size_of, row_in(folder, SPARE))):
        return "spares of the store have bytes"
    return None


def fault_of_row(folder, first, made, asked):
    """The first disk with a fault, of those from a number on, and the fault."""
    paths = row_in(folder, first)
    table = asked or made
    beside = kept_beside(folder, first)
    mark = os.path.join(folder, USED)
    if first and beside and not os.path.lexists(mark) and not os.access(folder, os.W_OK):
        return first, f"there is no permission to make {mark}"
    for number, path in enumerate(paths[: table.copies + 1] if table else paths, first):
        fault = None
        if os.path.lexists(path):
            fault = fault_of_file(path)
        elif beside and (table or number == first):
            fault = fault_of_missing(path, beside, made, asked)
        elif not os.access(folder, os.W_OK):
            fault = f"there is no permission to make {path}"
        if fault:
            return number, fault
    return None


def fault_of_store(folder, asked):
    """The first disk with a fault, as they are obtained, the spares behind all others, and the fault."""
    made = table_on(os.path.join(folder, str(active_in(folder, 0))))
    return fault_of_row(folder, 0, made, asked) or fault_of_row(folder, SPARE, made, asked)


def tell_fault(folder):
    fault = fault_of_folder(folder)
    if fault:
        return fault
    found = fault_of_store(folder, table_asked())
    if found:
        return f"disk {found[0]}: {found[1]}"
    if not os.statvfs(folder).f_bavail:
        return f"there is no room left where {folder} is"
    return f"a look at {folder} does not tell why; another run may have held it"


def tell_table(folder):
    """How the first disk that is read and whose table is another differs from the script, or what the store was made for."""
    asked = table_asked()
    for disk in range(SPARE):
        number = active_in(folder, disk)
        made = table_on(os.path.join(folder, str(number)))
        if made and not asked:
            names = ", ".join(made.records)
            return f"where its table is refused: the store was made for {made.copies} copies and the records {names}"
        difference = made and made.difference(asked)
        if difference:
            return f"disk {number}: {difference}"
    return None


def main():
    status, folder = sys.argv[1:3]
    said = tell_fault(folder) if status == "6" else tell_table(folder)
    if said:
        print(f"qc: {said}", file=sys.stderr)


if __name__ == "__main__":
    main()
