#!/usr/bin/env python3
"""Whether `pipe` puts the rows of each example as its page has them, as many rows late as it should.

usage: tests/overlap/check_examples.py [--silc PROGRAM]

The rows that are expected are those that the examples' own scripts compute, with S - 1 rows of zeros before them. An
example without a plan over S stages of its datapath is left out of that S. It runs the built `silc`, or the one that
`SILC` names.
"""
import os
import subprocess
import sys
import tempfile
from concurrent.futures import ThreadPoolExecutor
from pathlib import Path

ROOT = Path(__file__).resolve().parent.parent.parent
EXAMPLES = ROOT / "examples"
SILC = Path(os.environ.get("SILC", ROOT / "crates" / "silc_main" / "out" / "silc_main"))
STAGES, NO_PLAN, SECONDS = range(1, 5), range(6, 10), 120
# A check that tries less than this has lost its examples.
LEAST_TRIED = 20


def done(silc: Path, *words: object) -> subprocess.CompletedProcess[bytes]:
    return subprocess.run([silc, *map(str, words)], stdin=subprocess.DEVNULL, capture_output=True, timeout=SECONDS)


def late(text: str, rows: int) -> str:
    """The rows of a run that come so many rows late, with zeros before them."""
    lines = text.splitlines()
    zeros = ",".join("0" for _ in lines[0].split(","))
    return "".join(f"{line}\n" for line in [*[zeros] * rows, *lines][:len(lines)])


def piped(silc: Path, example: Path, datapath: Path, stages: int) -> str | None:
    """Nothing where the rows are right, a fault, or '' where there is no plan."""
    with tempfile.TemporaryDirectory(prefix="silc-pipe-") as folder:
        out = Path(folder) / "rows.txt"
        ended = done(silc, "pipe", example / f"{example.name}.sil", datapath, stages, example / "samples.txt", out)
        if ended.returncode in NO_PLAN:
            return "" if not out.exists() else f"{datapath}: OUT is written over {stages} stages without a plan"
        if ended.returncode or out.read_text() != late((example / "expected.txt").read_text(), stages - 1):
            return f"{datapath}: other rows over {stages} stages, or status {ended.returncode}"
    return None


def main(words: list[str]) -> int:
    if words and (len(words) != 2 or words[0] != "--silc"):
        print(__doc__, file=sys.stderr)
        return 2
    silc = (Path(words[1]) if words else SILC).resolve()
    tried = [(example, datapath, stages) for example in sorted(EXAMPLES.iterdir())
             if (example / f"{example.name}.sil").is_file()
             for datapath in sorted(example.glob("*.toml")) for stages in STAGES]
    with ThreadPoolExecutor(os.cpu_count()) as pool:
        ends = list(pool.map(lambda one: piped(silc, *one), tried))
    right = sum(end is None for end in ends)
    faults = [end for end in ends if end]
    faults += [] if right >= LEAST_TRIED else [f"{right} streams are too few"]
    for fault in faults:
        print(fault)
    print(f"overlap: {right} streams of the examples, {len(faults)} faults")
    return 1 if faults else 0


if __name__ == "__main__":
    sys.exit(main(sys.argv[1:]))
