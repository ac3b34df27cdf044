"""The forms of what a run writes, by its status, as docs/FORMATS.md has them, and what is read from a report."""
import re

from script_text import Refused, read_script

USAGE = "usage: qc run [--dir PATH] [--serial] [--trail] | qc gen N | qc audit\n"
NUMBER = r"(?:0|[1-9][0-9]{0,19})"
NAME = r"[1-9][0-9]*/[1-9][0-9]*(?:\.[1-9][0-9]*)*"
RECORD = r"[0-9A-Za-z]{1,16}"
VALUE = rf"""(?:{NUMBER}|"(?:[^"\\\x00-\x1f]|\\["\\]|\\u00[01][0-9a-f])*")"""
COPY = r"(?:[0-9]|1[0-5])"
MEMBER = (
    "script|copies|patience|records|record|name|start|config|votes|read|write|sessions|session|net|fates|hold|tops|"
    "body|tries|must|steps|step|value|levels|copy|branches"
)
REFUSAL = rf"not json|too long|shape (?:{MEMBER})|limit (?:{MEMBER}) {NUMBER}|config [1-5]|(?:unknown|twice) {RECORD}"
IMAGE = rf"broken at {NUMBER}|record {NUMBER} grammar|full at {NUMBER}|table|epoch {NUMBER}"
CAUSE = rf"asked {NAME}|conflict|noquorum|last|orphan {NAME}|killed|child {NAME}"
MISSING = rf"{COPY}:(?:lost|late|down|full|strange)"
NOQUORUM = rf"(?:collect|values|configs) replied (?:-|{COPY}(?:,{COPY})*) missing (?:-|{MISSING}(?:,{MISSING})*)"
ENTRIES = [
    rf"(?:read|set) {NAME} {RECORD} {VALUE}",
    rf"reconf {NAME} {RECORD} {NUMBER}",
    rf"commit {NAME}",
    rf"abort {NAME} (?:{CAUSE})",
    rf"conflict {NAME} {RECORD} copy {COPY} holder {NAME}",
    rf"noquorum {NAME} {RECORD} {NOQUORUM}",
    rf"last {NAME} {RECORD}",
    rf"orphan {NAME} {RECORD} {NAME}",
]
FINALS = rf"(?:final {RECORD} {VALUE}\n)+"
TOPS = r"tops ([0-9]+) committed ([0-9]+) aborted ([0-9]+) doubt ([0-9]+)\n"
SUMMARY = re.compile(FINALS + TOPS)
REPORT = re.compile(rf"(?:(?:{'|'.join(ENTRIES)})\n)*((?:doubt {NAME}\n)*){FINALS}{TOPS}")
# What is written where a run ends with a status, but for reports.
LINES = {
    2: re.compile(re.escape(USAGE)),
    3: re.compile(rf"qc: script: (?:{REFUSAL})\n"),
    4: re.compile(r"qc: read fault\n"),
    6: re.compile(r"qc: disk (?:[0-9]|[12][0-9]|3[0-3]) fault\n"),
    7: re.compile(rf"qc: image: disk (?:[0-9]|[12][0-9]|3[0-3]) (?:{IMAGE})\n"),
    9: re.compile(""),
    10: re.compile(r"qc: trail: malformed\n"),
    14: re.compile(r"qc: room\n"),
}


def fault_of_report(status, text):
    """What is wrong with a report, or nothing."""
    found = REPORT.fullmatch(text)
    if not found:
        return "the report has another form"
    doubts = found[1].count("\n")
    tops, *ended = map(int, found.groups()[1:])
    if tops != sum(ended) or ended[-1] != doubts:
        return "its tops do not add up"
    if (status == 8) != (doubts > 0):
        return f"{doubts} tops are in doubt"
    return None


def fault_of_output(status, output, form):
    """What is wrong with the output of a run that ended with a status and writes this form, or nothing."""
    if status in (0, 8) and form == "trail":
        return None
    text = output.decode("utf-8", "replace")
    if status in LINES:
        return None if LINES[status].fullmatch(text) else "it is not the line of its status"
    if status not in (0, 8):
        return "there is no such status"
    if form == "summary":
        return None if SUMMARY.fullmatch(text) else "the summary has another form"
    return fault_of_report(status, text)


def refusal_of(text):
    """What a text is refused for, or the script that it is."""
    try:
        return None, read_script(text)
    except Refused as refused:
        return f"qc: script: {refused.line}\n".encode(), None


def fault_in(output):
    """The disk that a run was refused for, and the fault of its image."""
    words = output.decode().split("disk ")[1].split(maxsplit=1)
    return int(words[0]), words[1].rstrip("\n")


ESCAPE = re.compile(r'\\(?:(["\\])|u00(..))')
FINAL = re.compile(rf"final ({RECORD}) ({VALUE})")
READ = re.compile(rf"read {NAME} ({RECORD}) ({VALUE})")


def value_of(told):
    """What a report tells as a value: a number, or the bytes of a text."""
    if told.isdigit():
        return int(told)
    text = ESCAPE.sub(lambda found: found[1] or chr(int(found[2], 16)), told[1:-1])
    return text.encode("utf-8", "surrogateescape")


def values_in(output, form):
    """The values that the lines of a form tell, by the records' names."""
    found = map(form.fullmatch, output.decode("utf-8", "surrogateescape").split("\n"))
    return {line[1]: value_of(line[2]) for line in found if line}


def finals_in(output):
    return values_in(output, FINAL)


def reads_in(output):
    return values_in(output, READ)
