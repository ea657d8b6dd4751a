"""The explanation of a refused command."""
from __future__ import annotations

import subprocess
import sys
from collections.abc import Sequence
from pathlib import Path
from typing import TYPE_CHECKING

from silc.explaining.outputs import named
from silc.explaining.refusals import Refusal, refusal_of
from silc.explaining.report import Report, edit_line, lines_of
from silc.explaining.text import Text
from silc.programs import SHOW
from silc.sure import sure

if TYPE_CHECKING:
    from silc.linking.words import Given

SECONDS = 60
# Recursion goes as deep as an expression may be nested, a few calls for each operator.
DEPTH = 20_000
BUILD = "`tools/build silc_show` builds the program that tells the place"


class Case:
    """A refused command: its words by what they are, its refusal, the programs, and the datapath file that a user
    names."""

    def __init__(self, words: Sequence[str], status: int, said: str, silc: str | Path, datapath: str | None = None,
                 is_quiet: bool = False) -> None:
        self.words, self.status, self.silc, self.datapath, self.is_quiet = words, status, silc, datapath, is_quiet
        self.files = named(words) or {}
        found = next(filter(None, map(refusal_of, said.splitlines())), None)
        self.known: Refusal | None = found[0] if found else None
        self.values: dict[str, str] = found[1] if found else {}
        self.said = said

    @property
    def refusal(self) -> Refusal:
        """What is known of the refusal, where something is."""
        return sure(self.known)

    def text(self, what: str) -> Text:
        """The file that a word names. What a pipe has given is gone."""
        file = Path(self.files[what])
        if not file.is_file():
            raise OSError(f"{file} can't be read again")
        return Text(self.files[what], file.read_bytes())

    def say(self, text: str) -> None:
        """Says how far a long search is, but to a program."""
        if not self.is_quiet:
            say(text)

    def has_show(self) -> bool:
        return SHOW.is_there()

    def show(self, *words: str | Path) -> str | None:
        """What `silc_show` prints, or nothing where it is not built or can't."""
        if not self.has_show():
            return None
        done = subprocess.run([SHOW.place(), *words], stdin=subprocess.DEVNULL, capture_output=True, timeout=SECONDS)
        return done.stdout.decode(errors="replace") if done.returncode == 0 else None

    def plan(self, datapath: str | Path) -> tuple[int, str]:
        """The exit status of `silc schedule` for the source on another datapath, and what it says."""
        done = subprocess.run([self.silc, "schedule", self.files["SRC"], datapath], stdin=subprocess.DEVNULL,
                              capture_output=True, timeout=SECONDS)
        return done.returncode, (done.stdout if done.returncode == 0 else done.stderr).decode(errors="replace")


def say(text: str) -> None:
    print(f"explain: {text}", file=sys.stderr, flush=True)


def report_of(case: Case) -> Report | None:
    """The report of a refused command."""
    if case.words[0] == "net" and case.status in range(4, 10):
        from silc.explaining.of_net import processor_case
        refused = processor_case(case)
        return report_of(refused) if refused else None
    if case.status == 2:
        from silc.explaining.of_words import report_of as of
    elif case.status in (1, 3):
        from silc.explaining.of_files import report_of as of
    elif case.status == 4:
        return of_source(case)
    elif case.status == 5:
        from silc.explaining.of_datapath import report_of as of
    elif case.status == 15:
        from silc.explaining.of_frames import report_of as of
    elif case.status in (6, 7, 8, 9) and case.words[0] == "frame":
        from silc.explaining.of_frames import plan_report_of as of
    elif case.status in (6, 7, 8, 9):
        from silc.explaining.of_plan import report_of as of
    elif case.status == 16 and "S" in case.files:
        from silc.explaining.of_stages import report_of as of
    elif case.status == 16:
        from silc.explaining.of_places import report_of as of
    elif case.status in (10, 12):
        from silc.explaining.of_microcode import report_of as of
    elif case.status == 11:
        from silc.explaining.of_samples import report_of as of
    elif case.status == 14:
        from silc.explaining.of_net import report_of as of
    else:
        return None
    return of(case)


def of_source(case: Case) -> Report:
    from silc.explaining import of_source as source
    from silc.explaining.kinds import other_kind
    text = case.text("SRC")
    other = other_kind(case, "SRC")
    if other:
        return other
    answer = case.show("graph", case.files["SRC"])
    report = source.report_of(text, answer) if answer else source.report_found(text, case.refusal, case.values)
    if report is None:
        report = without_place(case, text)
    return report


def without_place(case: Case, text: Text) -> Report:
    """What can be said of a refused source without `silc_show`: its line, and what the text means."""
    line = case.values.get("l")
    report = case.refusal.report(text.line_span(int(line)) if line else None, text.name)
    return report if case.has_show() else report.note(f"{BUILD}.")


def explain(command: Given, status: int, said: str, silc: str | Path, datapath: str | None = None,
            is_edited: bool = False) -> None:
    """Says more of a refused command, on standard error."""
    sys.setrecursionlimit(DEPTH)
    case = Case(command.judged(status), status, said, silc, datapath)
    try:
        report = command.report(status, report_of(case))
    except Exception as fault:
        # Whatever is wrong here, the command was refused, and what the refusal means is known.
        say(f"the place is not known: {fault!r}")
        report = None
    if report is None and case.known:
        report = case.refusal.report(about="silc")
    if report:
        print("\n".join([*lines_of(report), *(map(edit_line, report.edits) if is_edited else ())]), file=sys.stderr,
              flush=True)
