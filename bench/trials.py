"""Trials of runs over one copy and one record x: what each must write and end with, and how many failed."""
import contextlib
import os
import shutil
import sys
import tempfile

from runs import end_by_signals, find_program, run, script_of

SETTING = script_of([[["set", "x", 7]]])
READING = script_of([[["read", "x"]]])
NO_TOPS = script_of([])
# The lengths of the records in their journals, each with its gate and length.
MADE = 27
EPOCH = 10
TOP = 18
GRANT = 56


def disk_fault(disk):
    return 6, f"qc: disk {disk} fault\n"


def bad_image(disk, fault):
    return 7, f"qc: image: disk {disk} {fault}\n"


def read_of(value, epoch):
    """What a run that reads x writes."""
    top = f"{epoch}/1"
    lines = [f"read {top}.1 x {value}", f"commit {top}", f"final x {value}", "tops 1 committed 1 aborted 0 doubt 0"]
    return 0, "".join(f"{line}\n" for line in lines)


def final_of(value):
    """What a run without tops writes."""
    return 0, f"final x {value}\ntops 0 committed 0 aborted 0 doubt 0\n"


def tops_of(done, aborted, doubt):
    return f"tops {done + aborted + doubt} committed {done} aborted {aborted} doubt {doubt}\n"


class Trials:
    """What is tried in a room of its own, of one program, and how much of it failed."""

    def __init__(self, name, program, room):
        self.name = name
        self.program = program
        self.room = room
        self.tried = 0
        self.failures = 0

    def folder(self):
        return tempfile.mkdtemp(dir=self.room)

    def made(self):
        """A folder over which a run has set x to 7."""
        folder = self.folder()
        run(self.program, folder, SETTING)
        return folder

    def expect(self, what, got, wanted):
        self.tried += 1
        if got != wanted:
            self.failures += 1
            print(f"{self.name}: {what}: got {got}, and wanted was {wanted}")

    def expect_run(self, what, folder, script, wanted, **options):
        self.expect(what, run(self.program, folder, script, **options), wanted)


@contextlib.contextmanager
def trials_of(name):
    """The trials of a script, which ends with status 0 where none failed."""
    end_by_signals()
    with tempfile.TemporaryDirectory() as room:
        os.chmod(room, 0o755)
        # A copy, since nobody may be without a way to the program itself.
        program = shutil.copy(find_program(), os.path.join(room, "qc"))
        os.chmod(program, 0o755)
        trials = Trials(name, program, room)
        yield trials
    print(f"{name}: {trials.tried} tried, {trials.failures} failed")
    sys.exit(1 if trials.failures else 0)
