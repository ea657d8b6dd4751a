"""Commands whose OUT is one of their inputs by another name, or a log of their own, as `./silc` refuses them."""
import os
import sys
from collections.abc import Sequence
from contextlib import suppress

from silc.programs import PLACE, SILC

COMMANDS = {"compile": ("SRC", "DP", "OUT"), "schedule": ("SRC", "DP"), "sim": ("MIC", "SAMPLES", "OUT"),
            "eval": ("SRC", "SAMPLES", "OUT"), "run": ("SRC", "DP", "SAMPLES", "OUT"), "list": ("MIC",),
            "demo": ("K", "N"), "stages": ("SRC", "DP", "S"), "pipe": ("SRC", "DP", "S", "SAMPLES", "OUT"),
            "frame": ("SRC", "DP", "M", "DOWN", "UP", "OUT"), "net": ("NET", "SAMPLES", "OUT")}
# The commands of a program of its own, and all that are explained.
OF_PLACE, OF_STAGES = "place", "place pipe"
FORMS = COMMANDS | {OF_PLACE: ("SRC", "DP", "PLAN", "OUT"),
                    OF_STAGES: ("SRC", "DP", "PLAN", "S", "SAMPLES", "OUT")}
# The words that name files which are read.
INPUTS = ("SRC", "DP", "PLAN", "MIC", "NET", "SAMPLES")
BAD_WORDS = 2


def command_of(words: Sequence[str]) -> str:
    """The name of a command. Four words behind `place` are files, also where the first of them is `pipe`."""
    is_of_stages = list(words[:2]) == OF_STAGES.split() and len(words) != 1 + len(FORMS[OF_PLACE])
    return OF_STAGES if is_of_stages else words[0]


def begin_of(words: Sequence[str]) -> int:
    """Which of the words is the first behind the name of the command."""
    return len(command_of(words).split())


def named(words: Sequence[str]) -> dict[str, str] | None:
    """The words of a command by what they are, or nothing where the words are no command."""
    wanted = FORMS.get(command_of(words)) if words else None
    rest = words[begin_of(words):] if wanted else []
    return dict(zip(wanted, rest)) if wanted and len(wanted) == len(rest) else None


def program_of(words: Sequence[str]) -> str:
    """The program that does a command."""
    return PLACE.place() if words[:1] == [OF_PLACE] else SILC.place()


def called(words: Sequence[str]) -> list[str]:
    """The words that run the program of a command."""
    return [program_of(words), *(words[1:] if words[:1] == [OF_PLACE] else words)]


def same_input(files: dict[str, str]) -> str | None:
    """The input that OUT is by another name, where OUT is a file: a terminal or a socket may be both."""
    out = files.get("OUT")
    if out is None or not os.path.isfile(out):
        return None
    for what, name in files.items():
        if what in INPUTS and name != out and os.path.exists(name) and os.path.samefile(name, out):
            return name
    return None


def own_stream(out: str | None) -> bool:
    """Whether OUT is a file that a standard stream of this process writes to, but by the name by which the program goes
    on in it: it would be opened anew, and emptied."""
    if out is None or out == "/dev/stdout" or not os.path.isfile(out):
        return False
    for number in (1, 2):
        with suppress(OSError):
            if os.path.samestat(os.stat(out), os.fstat(number)):
                return True
    return False


def guarded(words: Sequence[str]) -> tuple[int, str] | None:
    """The status and the line for a command that would write over an input of its own, or a log; nothing for any
    other."""
    files = named(words) or {}
    name, out = same_input(files), files.get("OUT")
    if name is not None:
        line = f"silc: {out} is the input {name} by another name\n"
    elif own_stream(out):
        line = f"silc: {out} would be opened anew, and the file behind it emptied; name another file, or /dev/stdout\n"
    else:
        return None
    sys.stderr.write(line)
    sys.stderr.flush()
    return BAD_WORDS, line
