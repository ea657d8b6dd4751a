"""Why words are no command."""
import difflib
import os
import re
from collections.abc import Sequence

from silc.explaining.command import Case
from silc.explaining.outputs import COMMANDS, FORMS, INPUTS, begin_of, command_of, named, same_input
from silc.explaining.refusals import COMMANDS_PAGE
from silc.explaining.report import Report, counted, listed

SECTIONS, SAMPLES, STAGES, PHASES, LAST_WORD = 32, 100_000, 4, 8, 15
NUMBER = re.compile("0|[1-9][0-9]*")
HELP = ("-h", "-?", "/?", "help", "usage", "--usage")


def usage(command: str) -> str:
    return f"silc {command} {' '.join(FORMS[command])}"


def report_of(case: Case) -> Report | None:
    words = case.words
    command = command_of(words)
    strange = next((number for number, word in enumerate(words) if not is_utf8(word)), None)
    if strange is not None:
        return no_utf8(words, strange)
    if command not in FORMS:
        near = ["--help"] if command in HELP else difflib.get_close_matches(command.lower(), COMMANDS, 1, 0.5)
        report = Report(f"`{command}` is no command", f"write `{near[0]}`." if near else "write one of these commands.",
                        COMMANDS_PAGE,
                        about="silc")
        return report.note(
            f"The commands are {listed([f'`{name}`' for name in COMMANDS])}; `silc --help` shows their words.")
    files = named(words)
    if files is None:
        wanted, found = FORMS[command], words[begin_of(words):]
        return Report(f"`{command}` has {counted(len(wanted), 'word')} after it, and here "
                      f"{counted(len(found), 'is', 'are')}", f"write `{usage(command)}`.", COMMANDS_PAGE, about="silc")
    if command == "demo":
        return bad_number(files)
    if "S" in files and files["S"] not in map(str, range(1, STAGES + 1)):
        return Report(f"S is one digit from 1 to {STAGES}, and here {files['S']}",
                      f"write a number of stages from 1 to {STAGES}.", COMMANDS_PAGE, about="silc")
    wrong = bad_frames(files) if command == "frame" else None
    if wrong:
        return wrong
    other = next((what for what in files if what in INPUTS and files[what] == files.get("OUT")), None)
    if other:
        return Report(f"OUT is {files['OUT']}, which is {other} too, and would be written over",
                      "give OUT another name.", COMMANDS_PAGE,
                      about="silc")
    name = same_input(files)
    return Report(f"OUT is {files['OUT']}, and this is the file {name}, which would be written over",
                  "give OUT another name.", COMMANDS_PAGE, about="silc") if name else None


def is_utf8(word: str) -> bool:
    """Whether the bytes of a word are UTF-8: Python keeps others as halves of pairs."""
    return not any("\udc80" <= char <= "\udcff" for char in word)


def no_utf8(words: Sequence[str], number: int) -> Report:
    """The report on a word with bytes that are no UTF-8."""
    word, files = words[number], named(words) or {}
    what = next((what for place, what in enumerate(files, begin_of(words)) if place == number), "a word")
    first = next(place for place, char in enumerate(word) if "\udc80" <= char <= "\udcff")
    byte = len(os.fsencode(word[:first]))
    report = Report(f"{what} is no UTF-8: byte {byte} of it is 0x{os.fsencode(word[first])[0]:02x}",
                    "write a word in UTF-8.", COMMANDS_PAGE, about=shown(word))
    folder, last = os.path.split(word)
    if what == "OUT":
        report.cure = "give OUT a name in UTF-8."
    elif not is_utf8(folder):
        report.cure = "give its folder a name in UTF-8, or run the command in that folder."
    elif what in files:
        plain = "".join(char if is_utf8(char) else "_" for char in last)
        report.cure = f"give the file a name in UTF-8, as by `mv {quoted(word)} {os.path.join(folder, plain)}`."
    return report


def shown(word: str) -> str:
    """A word with the bytes that are no UTF-8 as `\\xff`."""
    return os.fsencode(word).decode(errors="backslashreplace")


def quoted(word: str) -> str:
    """A word as the shell bash takes it."""
    return "$'" + shown(word.replace("\\", r"\\").replace("'", r"\'")) + "'"


def bad_number(files: dict[str, str]) -> Report | None:
    for what, most in (("K", SECTIONS), ("N", SAMPLES)):
        if not files[what].isdecimal() or not 1 <= int(files[what]) <= most:
            return Report(f"{what} is 1 to {most}, and here {files[what]}", f"write a number from 1 to {most}.",
                          COMMANDS_PAGE, about="silc")
    return None


def bad_frames(files: dict[str, str]) -> Report | None:
    """The report on how often a program runs in a frame, or on a list of its slow words."""
    if files["M"] not in map(str, range(1, PHASES + 1)):
        return Report(f"M is one digit from 1 to {PHASES}, and here {files['M']}",
                      f"write a number of samples from 1 to {PHASES}.", COMMANDS_PAGE, about="silc")
    return next(filter(None, (bad_list(what, files[what]) for what in ("DOWN", "UP"))), None)


def bad_list(what: str, words: str) -> Report | None:
    """The report on a list of slow words that is none."""
    fault = None if words == "-" else fault_of(words.split(","))
    if fault is None:
        return None
    numbers = sorted({int(number) for number in re.findall(r"\d+", words, re.A) if int(number) <= LAST_WORD})
    right = f"`{','.join(map(str, numbers))}`" if numbers else "`-` where no word is slow"
    return Report(f"{what} is `{words}`, and {fault}", f"write {right}.", COMMANDS_PAGE, about="silc") \
        .note("A list of slow words is `-` for none, or their numbers from 0 with one comma between two, as `0,2,3`.")


def fault_of(parts: list[str]) -> str | None:
    """What is wrong with the parts of a list of slow words; nothing where it is one."""
    for before, part in zip([None, *parts], parts):
        if not part:
            return "a number is missing"
        if not NUMBER.fullmatch(part):
            return f"`{part}` begins with a zero" if re.fullmatch("0[0-9]+", part) else f"`{part}` is no number"
        if int(part) > LAST_WORD:
            return f"words have numbers from 0 to {LAST_WORD}"
        if before is not None and int(before) >= int(part):
            return f"{part} comes after {before}, where the numbers have to rise"
    return None
