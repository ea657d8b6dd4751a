"""What the built programs say of a source: its plan over a datapath, and of a datapath file its fault."""
import re
import subprocess
import tempfile
from collections.abc import Callable
from pathlib import Path
from typing import TypeVar

from silc.checking.findings import Finding, finding_of
from silc.explaining import of_datapath
from silc.explaining.command import Case
from silc.linking.told import Told
from silc.programs import SHOW, SILC

Made = TypeVar("Made")

NODE = re.compile(r"\bnode (\d+)")
SECONDS, BAD_DATAPATH = 30, 5
# A comment that names the datapath file of a source: /* datapath: one_multiplier.toml */
DATAPATH = re.compile(r"/\*\s*datapath:\s*(\S+)\s*\*/")
# The tables of a datapath file.
TABLES = re.compile(r"^[ \t]*\[\[[ \t]*(unit|bus)[ \t]*\]\]", re.M)
SOURCE, FILE = "source.sil", "datapath.toml"
# A source that each datapath is asked about, of which nothing else is to be known than that its file is right.
ANY_SOURCE = "func main(x : fix<8,0>) y : fix<8,0> = begin y = x; end;\n"


def ran(*words: str | Path, room: Path) -> subprocess.CompletedProcess:
    return subprocess.run(words, cwd=room, stdin=subprocess.DEVNULL, capture_output=True, text=True, timeout=SECONDS)


def in_room(text: str, run: Callable[[Path], Made]) -> Made:
    with tempfile.TemporaryDirectory(prefix="silc-lsp-") as folder:
        Path(folder, SOURCE).write_text(text, newline="")
        return run(Path(folder))


def datapath_of(text: str, setting: str | None, folder: Path) -> Path | None:
    """The datapath file that a comment of the source names, or the setting."""
    named = DATAPATH.search(text)
    name = named[1] if named else setting
    return (folder / name).resolve() if name and (folder / name).is_file() else None


def is_datapath(text: str) -> bool:
    """Whether a text in TOML is likely a datapath."""
    return bool(TABLES.search(text))


def plan_of(text: str, datapath: Path, content: str, told: Told | None = None) -> str:
    """What is to be said of the plan of a source, or of one as it is linked, over a datapath file with some content."""
    def plan(room: Path) -> str:
        (room / FILE).write_text(content, newline="")
        done = ran(SILC.place(), "schedule", SOURCE, FILE, room=room)
        if done.returncode == 0:
            period, nodes = re.match(r"period (\d+) unroll \d+ nodes (\d+)", done.stdout).groups()
            return f"over {datapath.name}: a period of {period} cycles, {nodes} nodes"
        said = done.stderr.strip().removeprefix("silc: ")
        return f"over {datapath.name}: {said}{equation_of(text, said, room, told)}"
    return in_room(told.text.data.decode(errors="replace") if told else text, plan)


def equation_of(text: str, said: str, room: Path, told: Told | None) -> str:
    """The line of the node that a refusal names, where `silc_show origins` says it."""
    node = NODE.search(said)
    if not node or not SHOW.is_there():
        return ""
    done = ran(SHOW.place(), "origins", SOURCE, FILE, room=room)
    found = re.search(rf"^node {node[1]} .*?\bline (\d+) element \d+ (\S+)", done.stdout, re.M)
    lines = text.splitlines()
    if not found or told is None and not 1 <= int(found[1]) <= len(lines):
        return ""
    line = told.line_span(int(found[1])).shown if told else lines[int(found[1]) - 1]
    return f", which is of {found[2]}: {line.strip()}"


def datapath_fault(text: str) -> Finding | None:
    """The fault of a datapath file, or nothing."""
    def fault(room: Path) -> Finding | None:
        (room / FILE).write_text(text, newline="")
        done = ran(SILC.place(), "schedule", SOURCE, FILE, room=room)
        if done.returncode != BAD_DATAPATH:
            return None
        case = Case(["schedule", str(room / SOURCE), str(room / FILE)], done.returncode, done.stderr, SILC.place())
        report = of_datapath.report_of(case)
        return finding_of(report) if report.span else Finding(1, 1, 2, report.short, cure=report.cure)
    return in_room(ANY_SOURCE, fault)
