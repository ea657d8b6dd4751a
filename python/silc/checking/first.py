"""The first fault of a source, as `silc` tells it, with the words of `explain` where its place is known."""
import os
import re
import subprocess
import tempfile
from dataclasses import dataclass
from pathlib import Path

from silc.explaining import of_source
from silc.explaining.command import SECONDS
from silc.explaining.found import fault_in
from silc.explaining.program import Source
from silc.explaining.refusals import refusal_of
from silc.explaining.report import Report
from silc.explaining.text import Text

from silc.checking.findings import FIRST_COLUMNS, Finding, finding_of
from silc.programs import SHOW, SILC, is_program

# The status of `silc` for a source with a fault.
BAD_SOURCE = 4
LINE = re.compile(r"line (\d+): (.*)")


class Unchecked(Exception):
    """Why a source could not be checked."""


@dataclass(frozen=True)
class Fault:
    """The first fault of a source: the line of silc, the kind and place where they are known, and the report."""
    said: str
    kind: str | None = None
    place: int | None = None
    report: Report | None = None

    def finding(self) -> Finding:
        if self.report:
            return finding_of(self.report)
        placed = LINE.fullmatch(self.said)
        line, text = (int(placed[1]), placed[2]) if placed else (1, self.said)
        return Finding(line, *FIRST_COLUMNS, text)


def ran(program: str, *words: str, room: Path) -> subprocess.CompletedProcess:
    return subprocess.run([program, *words], cwd=room, stdin=subprocess.DEVNULL, capture_output=True, text=True,
                          errors="replace", timeout=SECONDS)


def first_fault(text: Text) -> Fault | None:
    """The first fault of a source, or nothing."""
    silc = os.path.realpath(SILC.place())
    if not is_program(silc):
        raise Unchecked(f"there is no program {silc}; `./silc build` builds it")
    with tempfile.TemporaryDirectory(prefix="silc-check-") as folder:
        room = Path(folder)
        (room / "source").write_bytes(text.data)
        (room / "samples").touch()
        done = ran(silc, "eval", "source", "samples", "rows", room=room)
        if done.returncode == 0:
            return None
        said = done.stderr.strip()
        if done.returncode != BAD_SOURCE:
            raise Unchecked(said or f"{silc} ended with {done.returncode}")
        shown = ran(SHOW.found(), "graph", "source", room=room) if SHOW.is_there() else None
    answer = shown.stdout if shown is not None and shown.returncode == 0 else None
    return placed_fault(text, said.removeprefix("silc: "), answer, shown is not None)


def placed_fault(text: Text, said: str, answer: str | None, has_show: bool) -> Fault:
    """The fault at its place, by what `silc_show` answers, or by the line of silc where it is not there."""
    if answer:
        found = of_source.FAULT.fullmatch(answer)
        number = found and (found[2] or found[3])
        return Fault(said, found[1] if found else None, int(number) if number else None,
                     of_source.report_of(text, answer))
    refusal = refusal_of(said)
    if has_show or not refusal:
        return Fault(said)
    fault = None if refusal[0].text == "source too long" else fault_in(Source(text), *refusal)
    kind, place = fault or (None, None)
    return Fault(said, kind, place, of_source.report_found(text, *refusal))
