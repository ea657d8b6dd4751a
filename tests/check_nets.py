#!/usr/bin/env python3
"""Whether the nets of examples/ put the rows that their own scripts compute: by the equations of each processor's
program in `silc eval` and in reference.py, by the microcode of each over its datapath, and by `silc net` where the
program has it.

usage: tests/check_nets.py [--silc PROGRAM] [NAME ..]

It runs the built `silc`, or the one that `SILC` names. Without a NAME it takes all folders with a net.toml.
"""
import os
import subprocess
import sys
import tempfile
from collections.abc import Callable, Sequence
from pathlib import Path

import reference
from silc.nets import Net, NetFault, Row, solution
from silc.programs import NoProgram
from silc.refused import Refused

EXAMPLES = Path(__file__).resolve().parent.parent / "examples"
NET, SAMPLES, EXPECTED, SCRIPT = "net.toml", "samples.txt", "expected.txt", "rows.py"
SILC, PROGRAM = "SILC", "--silc"
NO_WORDS = 2


def by_equations(net: Net, rows: Sequence[Row]) -> list[Row]:
    """The rows by an evaluator in Python."""
    def stage(number: int, taken: list[Row]) -> list[Row]:
        return reference.Program(net.sources[number].text).run(taken)
    return solution(net.file, rows, stage)[-1]


def by_microcode(net: Net, rows: Sequence[Row]) -> list[Row]:
    """The rows by the microcode of each processor, a whole run after another."""
    def stage(number: int, taken: list[Row]) -> list[Row]:
        put = net.plans[number].microcode.run(taken)
        return [row if isinstance(row, tuple) else (row,) for row in put]
    return solution(net.file, rows, stage)[-1]


def by_net(folder: Path, silc: str) -> str | None:
    """The text of the rows by `silc net`, or nothing where the program has no such command."""
    with tempfile.TemporaryDirectory(prefix="silc-net-") as made:
        out = Path(made, "rows.txt")
        done = subprocess.run([silc, "net", NET, SAMPLES, out], cwd=folder, stdin=subprocess.DEVNULL,
                              capture_output=True, text=True)
        if done.returncode == NO_WORDS:
            return None
        return out.read_text() if done.returncode == 0 else f"status {done.returncode}: {done.stderr}"


def faults_of(folder: Path) -> list[str]:
    """In which ways the rows of an example are others."""
    faults = []
    if subprocess.run([folder / SCRIPT, "--check"]).returncode:
        faults.append(f"{SCRIPT} computes other rows")
    net = Net(folder / NET, folder=folder)
    rows, expected = (reference.rows_of((folder / name).read_text()) for name in (SAMPLES, EXPECTED))
    ways: list[tuple[str, Callable[[Net, Sequence[Row]], list[Row]]]] = [
        ("silc eval", Net.evaluate), ("reference.py", by_equations), ("microcode", by_microcode)]
    for what, way in ways:
        if way(net, rows) != expected:
            faults.append(f"other rows by {what}")
    put = by_net(folder, net.sources[0].silc)
    if put is None:
        print(f"{folder.name}: this silc has no command net, which is left out")
    elif put != (folder / EXPECTED).read_text():
        faults.append(f"other rows by silc net: {put[:200]}")
    return faults


def main(words: list[str]) -> int:
    if words[:1] == [PROGRAM] and len(words) > 1:
        os.environ[SILC] = os.path.abspath(words[1])
        words = words[2:]
    if any(word.startswith("-") for word in words):
        print(__doc__, file=sys.stderr)
        return 2
    sys.setrecursionlimit(100_000)
    failed = 0
    for name in words or sorted(file.parent.name for file in EXAMPLES.glob(f"*/{NET}")):
        try:
            faults = faults_of(EXAMPLES / name)
        except (NetFault, NoProgram, Refused) as why:
            faults = [str(why)]
        failed += bool(faults)
        for fault in faults:
            print(f"{name}: {fault}")
    return 1 if failed else 0


if __name__ == "__main__":
    sys.exit(main(sys.argv[1:]))
