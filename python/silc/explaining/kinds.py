"""Files in the place of others: what kind a file looks like."""
import re

from silc.explaining.command import Case
from silc.explaining.outputs import COMMANDS, FORMS, command_of
from silc.explaining.refusals import COMMANDS_PAGE
from silc.explaining.report import Report, listed

KINDS = {"SRC": "a source", "DP": "a datapath file", "MIC": "a microcode file", "SAMPLES": "a sample file"}
MAGIC = b"SILM"
HEAD = 4096
ROW = re.compile(rb"-?\d+(,-?\d+)*\r?")
KEY = re.compile(rb"\s*(\[\[(unit|bus)\]\]|(period|word|hold|name|kind|files|latency|from|to)\s*=)")
WORD = re.compile(rb"\s*(/\*|(func|const|var|begin)\b)")


def kind_of(data: bytes) -> str | None:
    """What kind of file the bytes look like, or nothing."""
    if data.startswith(MAGIC):
        return "MIC"
    lines = [line for line in data[:HEAD].split(b"\n") if line.strip() and not line.lstrip().startswith(b"#")]
    if any(map(WORD.match, lines)):
        return "SRC"
    if any(map(KEY.match, lines)):
        return "DP"
    return "SAMPLES" if lines and all(map(ROW.fullmatch, lines[:-1] or lines)) else None


def other_kind(case: Case, what: str) -> Report | None:
    """The report where a file looks like one of another kind."""
    with open(case.files[what], "rb") as file:
        found = kind_of(file.read(HEAD))
    if found is None or found == what:
        return None
    name, command = case.files[what], command_of(case.words)
    order = f"silc {command} {' '.join(FORMS[command])}"
    there = [other for other in case.files if other not in (what, "OUT") and looks_like(case.files[other], what)]
    cure = f"write the files in this order: `{order}`."
    if there:
        words = dict(case.files)
        words[what], words[there[0]] = words[there[0]], words[what]
        cure = f"change their order: `silc {command} {' '.join(words[word] for word in FORMS[command])}`."
    elif found not in FORMS[command]:
        takers = [other for other, wanted in COMMANDS.items() if found in wanted]
        cure = f"give {KINDS[what]} there; {KINDS[found]} is for {listed([f'`silc {taker}`' for taker in takers])}."
    return Report(f"{name} looks like {KINDS[found]}, and stands in the place of {KINDS[what]}", cure, COMMANDS_PAGE) \
        .note(f"The words of `{command}` are `{order}`.")


def looks_like(name: str, what: str) -> bool:
    try:
        with open(name, "rb") as file:
            return kind_of(file.read(HEAD)) == what
    except OSError:
        return False
