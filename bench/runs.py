"""What the scripts on runs over real disks share: the program, scripts, runs over a folder, disks, and a journal's records."""
import json
import os
import resource
import signal
import subprocess
import sys

HOME = os.path.abspath(os.path.join(os.path.dirname(os.path.abspath(__file__)), ".."))
PROVED = os.path.join(HOME, "crates/qc_prog/out/qc_prog")
OPEN = 1
# What the number of a disk and that of its spare differ by.
SPARE = 17
# The mark of a folder in which a run found spares with bytes.
USED = "spares"
NOBODY = 65534
# How a program is started whom permissions stop, which they do not where this is root.
AS_NOBODY = {"user": NOBODY, "group": NOBODY, "extra_groups": []} if os.geteuid() == 0 else {}
# The first byte of a base's body.
BASE = b"\x04"


def end_by_signals():
    """Has the signals that end a script clean up as its end does."""
    for number in (signal.SIGHUP, signal.SIGTERM):
        signal.signal(number, lambda *_: sys.exit(1))


def find_program():
    """The program that QC names, else the proved one, which ./qc builds where it is not of these sources."""
    if "QC" in os.environ:
        program = os.path.abspath(os.environ["QC"])
    else:
        program = PROVED
        # An empty script is refused, which says that the program is built.
        subprocess.run([os.path.join(HOME, "qc"), "run"], stdin=subprocess.DEVNULL, stdout=sys.stderr, check=False)
    if not os.access(program, os.X_OK):
        sys.exit(f"{os.path.basename(sys.argv[0])}: there is no program {program}")
    return program


def script_of(tops, copies=1, records=("x",), fates=""):
    """A script of tops with these steps, over records that start at 0, a vote at each copy, and majorities."""
    write = copies // 2 + 1
    config = {"votes": [1] * copies, "read": copies + 1 - write, "write": write}
    table = [{"name": name, "start": 0, "config": config} for name in records]
    sessions = [{"net": {"fates": fates}, "tops": [{"steps": steps} for steps in tops]}]
    return json.dumps({"copies": copies, "records": table, "sessions": sessions}, separators=(",", ":"))


def words(program, folder):
    return [program, "run", "--dir", folder]


def run(program, folder, script, **options):
    """The status and the output of a run over a folder, in which bytes that are no UTF-8 are single surrogates."""
    ran = subprocess.run(words(program, folder), input=script.encode(), stdout=subprocess.PIPE, check=False, **options)
    return ran.returncode, ran.stdout.decode("utf-8", "surrogateescape")


def short_files(most, is_killed=False):
    """How a run is started whose files may not grow beyond a length, and that is told so, or killed by a signal."""

    def hold():
        resource.setrlimit(resource.RLIMIT_FSIZE, (most, most))
        resource.setrlimit(resource.RLIMIT_CORE, (0, 0))

    # The signal for a file that is too long is ignored here, and stays so where it is not restored.
    return {"preexec_fn": hold, "restore_signals": is_killed}


def image_of(folder, disk):
    """The bytes of a disk's file, and none where it was not made yet."""
    path = os.path.join(folder, str(disk))
    if not os.path.exists(path):
        return b""
    with open(path, "rb") as file:
        return file.read()


def images_of(folder, copies=1):
    """The bytes of each disk of a store and of each spare, by its number."""
    return {number: image_of(folder, number) for first in (0, SPARE) for number in range(first, first + copies + 1)}


def put_image(folder, disk, image):
    with open(os.path.join(folder, str(disk)), "wb") as file:
        file.write(image)


def number_in(field):
    return int.from_bytes(field, "big")


def records_in(image):
    """The bodies of the records that stand in a journal: those behind open gates, before the first closed one."""
    place = 0
    while place < len(image) and image[place] == OPEN:
        end = place + 5 + number_in(image[place + 1 : place + 5])
        yield image[place + 5 : end]
        place = end


def base_in(image):
    """The body of a journal's base, and none where it has none."""
    second = b"".join(list(records_in(image))[1:2])
    return second if second.startswith(BASE) else b""


def fold_in(image):
    """The number of a journal's base, 0 where it has none."""
    return number_in(base_in(image)[1:9])


def folded_in(image):
    """The epoch of the run that made a journal's base, 0 where it has none."""
    return number_in(base_in(image)[9:13])


def active_disk(folder, disk):
    """A disk or its spare, by its number: that whose base has the greater number, else the disk itself."""
    return max((disk, disk + SPARE), key=lambda number: fold_in(image_of(folder, number)))


def other_disk(folder, disk):
    """The one of a disk and its spare that is not active, into which the next run folds."""
    return 2 * disk + SPARE - active_disk(folder, disk)


def active_image(folder, disk):
    return image_of(folder, active_disk(folder, disk))
