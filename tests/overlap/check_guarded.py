#!/usr/bin/env python3
"""Whether `silc_show guarded` prints the guarded images of the examples as guard.py has them by docs/MACHINE.md, and
whether `silc_show trace` of a source over stages has the example's rows, so many rows late as it should.

usage: tests/overlap/check_guarded.py [--silc PROGRAM] [--show PROGRAM]

guard.py makes each of what `silc stages` prints. An example without a plan over S stages of its datapath is left out of
that S, and so are those with initial values, which the text of a plan does not have. A trace is of the first rows.
"""
import os
import re
import subprocess
import sys
import tempfile
import tomllib
from concurrent.futures import ThreadPoolExecutor
from pathlib import Path

from check_examples import late
from guard import Guard

ROOT = Path(__file__).resolve().parent.parent.parent
PROGRAMS = {"--silc": Path(os.environ.get("SILC", ROOT / "crates" / "silc_main" / "out" / "silc_main")),
            "--show": Path(os.environ.get("SILC_SHOW", ROOT / "crates" / "silc_show" / "out" / "silc_show"))}
STAGES, NO_PLAN, SECONDS = range(1, 5), range(6, 10), 120
ROWS, ROW = 12, "  row "
INITIAL_VALUE, INPUTS = "@@", re.compile(r"^inputs ?(.*)$", re.MULTILINE)
# A check that tries less than this has lost its examples.
LEAST_TRIED = 15


def said(program: Path, *words: object) -> tuple[int, str]:
    done = subprocess.run([program, *map(str, words)], stdin=subprocess.DEVNULL, capture_output=True, text=True,
                          timeout=SECONDS)
    return done.returncode, done.stdout


def traced(show: Path, source: Path, datapath: Path, stages: int) -> str:
    """The rows of a trace over the first rows of the example."""
    with tempfile.TemporaryDirectory(prefix="silc-trace-") as folder:
        samples = Path(folder) / "samples.txt"
        rows = (source.parent / "samples.txt").read_text().splitlines(keepends=True)
        samples.write_text("".join(rows[:ROWS]))
        _, text = said(show, "trace", source, datapath, stages, samples)
    return "".join(f"{line.removeprefix(ROW)}\n" for line in text.splitlines() if line.startswith(ROW))


def fault(programs: dict[str, Path], source: Path, datapath: Path, stages: int) -> str | None:
    """Nothing where the image is right, a fault, or '' where there is no plan."""
    status, plan = said(programs["--silc"], "stages", source, datapath, stages)
    if status in NO_PLAN:
        return ""
    _, text = said(programs["--show"], "guarded", source, datapath, stages)
    widths = INPUTS.search(text)
    if status or not widths:
        return f"{datapath}: no guarded image over {stages} stages"
    wanted = Guard(plan, tomllib.loads(datapath.read_text()), widths[1].split()).text()
    if text != wanted:
        return f"{datapath}: another guarded image over {stages} stages"
    first = (source.parent / "expected.txt").read_text().splitlines(keepends=True)[:ROWS]
    if traced(programs["--show"], source, datapath, stages) != late("".join(first), stages - 1):
        return f"{datapath}: a trace with other rows over {stages} stages"
    return None


def main(words: list[str]) -> int:
    programs = dict(PROGRAMS)
    while len(words) > 1 and words[0] in programs:
        programs[words[0]] = Path(words[1]).resolve()
        words = words[2:]
    if words:
        print(__doc__, file=sys.stderr)
        return 2
    sources = [file for file in sorted((ROOT / "examples").glob("*/*.sil"))
               if INITIAL_VALUE not in file.read_text() and not (file.parent / "net.toml").exists()]
    tried = [(source, datapath, stages) for source in sources for datapath in sorted(source.parent.glob("*.toml"))
             for stages in STAGES]
    with ThreadPoolExecutor(os.cpu_count()) as pool:
        ends = list(pool.map(lambda one: fault(programs, *one), tried))
    right = sum(end is None for end in ends)
    faults = [end for end in ends if end]
    faults += [] if right >= LEAST_TRIED else [f"{right} images are too few"]
    for one in faults:
        print(one)
    print(f"overlap: {right} guarded images of the examples, {len(faults)} faults")
    return 1 if faults else 0


if __name__ == "__main__":
    sys.exit(main(sys.argv[1:]))
