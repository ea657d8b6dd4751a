#!/usr/bin/env python3
"""Proves rows of the core of examples/increment by Yosys, for any words and any waits, and refutes changed cores.

usage: tests/hardware/prove_increment.py [ROWS]

ROWS is 2 where it is not given, or 1. In as many clocks after a reset as so many rows need, and a few more for waits,
no row that is put is another than increment_proof.v says, whatever state the reset finds. So many rows can be put in
that time, and cores with a wrong line are refuted. The last line is 'N passed, M failed, K skipped'; the exit status is
77 where there is no Yosys.
"""
import subprocess
import sys
import tempfile
import time
from collections.abc import Iterator
from pathlib import Path

from bench import ROOT, Fault, is_there, made

HERE = Path(__file__).resolve().parent
MICROCODE, DATAPATH = ROOT / "tests" / "increment" / "add-8-1.mic", ROOT / "examples" / "increment" / "plain.toml"
# How many clocks are looked at for so many rows.
CLOCKS = {1: 25, 2: 45}
ROWS, MOST_SECONDS = 2, 3600
SKIPPED = 77
PREPARE = ("read_verilog -defer silc_parts.v; read_verilog increment.v increment_proof.v; "
           "chparam -set ROWS {rows} increment_proof; prep -top increment_proof -flatten; memory_map; opt -full")
# Wrong lines by their files, and how many rows show them.
WRONG = [
    ("increment.v", "l_0 <= word_outp;", "l_0 <= word_outp ^ {8{word_outp == 8'd77}};", 1),
    ("silc_parts.v", "{left, 1'b1} + {right, subtracts};", "{left, 1'b1} + {right, 1'b1};", 1),
    ("silc_parts.v", "else if (out_ready) full <= 1'b0;", "else if (out_ready) full <= full;", 1),
    ("silc_parts.v", "assign put_row = due && (!full || out_ready);", "assign put_row = due;", 2),
    ("silc_parts.v", "(!held || (run && last));", "1'b1;", 2),
]


def made_in(folder: Path) -> None:
    why = made(MICROCODE, folder, "--name", "increment", "--datapath", DATAPATH)
    if why:
        raise Fault(why)
    (folder / "increment_proof.v").write_text((HERE / "increment_proof.v").read_text())


def asked(folder: Path, what: str, rows: int) -> bool:
    """Whether Yosys proves that an output of increment_proof.v is 0 in so many clocks, or refutes it."""
    done = subprocess.run(["yosys", "-p", f"{PREPARE.format(rows=rows)}; sat -seq {CLOCKS[rows]} -prove {what}"],
                          cwd=folder, stdin=subprocess.DEVNULL, capture_output=True, text=True, timeout=MOST_SECONDS)
    if "SAT proof finished - no model found: SUCCESS!" in done.stdout:
        return True
    if "SAT proof finished - model found: FAIL!" in done.stdout:
        return False
    raise Fault(f"Yosys says {(done.stdout + done.stderr)[-300:]}")


def checks(rows: int) -> Iterator[tuple[str, tuple[str, str, str] | None, str, bool]]:
    """Each check by its name: the line that is changed, what is asked to be 0, and whether it is."""
    yield f"no wrong row among {rows}", None, "wrong 0", True
    # Were `rows` never so many, the proof would say nothing of them.
    yield f"{rows} rows can be put", None, "all_put 0", False
    for file, old, new, least in WRONG:
        if least == rows:
            yield f"refuted: {new}", (file, old, new), "wrong 0", False


def check(folder: Path, line: tuple[str, str, str] | None, what: str, is_true: bool, rows: int) -> None:
    made_in(folder)
    if line:
        file, old, new = line
        text = (folder / file).read_text()
        if text.count(old) != 1:
            raise Fault(f"{file} has no such line")
        (folder / file).write_text(text.replace(old, new))
    if asked(folder, what, rows) != is_true:
        raise Fault("it is refuted" if is_true else "it is proved")


def main(words: list[str]) -> int:
    rows = int(words[0]) if words and words[0] in map(str, CLOCKS) else ROWS
    if len(words) > 1 or words and words != [str(rows)]:
        print(__doc__, file=sys.stderr)
        return 2
    if not is_there("yosys"):
        print("skipped: there is no yosys; apt-get install yosys\n0 passed, 0 failed, 1 skipped")
        return SKIPPED
    passed = failed = 0
    for name, *one in checks(rows):
        started = time.monotonic()
        with tempfile.TemporaryDirectory(prefix="silc-core-") as folder:
            try:
                check(Path(folder), *one, rows)
                passed += 1
                print(f"prove_increment: {name}, {time.monotonic() - started:.0f} s", file=sys.stderr, flush=True)
            except (Fault, subprocess.TimeoutExpired) as why:
                failed += 1
                print(f"{name}: {why}", flush=True)
    print(f"{passed} passed, {failed} failed, 0 skipped")
    return 1 if failed else 0


if __name__ == "__main__":
    sys.exit(main(sys.argv[1:]))
