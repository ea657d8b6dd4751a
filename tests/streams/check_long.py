#!/usr/bin/env python3
"""Whether a stream of 5 GB, which lies on no disk, is refused where its first 2^32 bytes are read, and its rows are
answered.

usage: tests/streams/check_long.py [--silc PROGRAM] [sim|eval|run ..]     by default sim alone

It gives rows through a pipe and reads those that come back, and says after each 256 MB how far it is. It takes some
minutes a command, so it is run by hand and no part of tests/all. Rows are of eight bytes, so that 2^32 stands between
two of them.
"""
import os
import subprocess
import sys
import tempfile
import time
from collections.abc import Iterator
from contextlib import suppress
from pathlib import Path
from threading import Thread
from typing import IO

ROOT = Path(__file__).resolve().parent.parent.parent
SILC = ROOT / "crates" / "silc_main" / "out" / "silc_main"
EXAMPLE = ROOT / "examples" / "increment"
COMMANDS = {
    "sim": ("sim", ROOT / "tests" / "increment" / "add-8-1.mic"),
    "eval": ("eval", EXAMPLE / "increment.sil"),
    "run": ("run", EXAMPLE / "increment.sil", EXAMPLE / "plain.toml"),
}
# A row has leading zeros, and gives one of three bytes.
ROW, ANSWER = b"0000041\n", b"42\n"
END, GIVEN = 1 << 32, 5_000_000_000
PIECE = 1 << 20
STEP = 1 << 28
MOST_MEMORY = 8 << 20
TOO_LONG, LINE = 11, b"silc: samples too long\n"


def give(stream: IO[bytes], told: list[int]) -> None:
    """Gives rows until all are given, or nobody reads them any more."""
    with suppress(BrokenPipeError), stream:
        rows = ROW * (PIECE // len(ROW))
        while told[0] < GIVEN:
            stream.write(rows)
            told[0] += len(rows)


def answers(process: subprocess.Popen[bytes], told: list[int], name: str) -> tuple[int, int]:
    """How many bytes come back, all of them of the right rows, and the most memory that the program was seen to
    take."""
    count, peak, began, next_step = 0, 0, time.monotonic(), STEP
    cycle = ANSWER * (PIECE + 1)
    while piece := os.read(process.stdout.fileno(), PIECE):
        at = count % len(ANSWER)
        if piece != cycle[at : at + len(piece)]:
            sys.exit(f"{name}: a row of those after byte {count} of OUT is not {ANSWER!r}")
        count += len(piece)
        if told[0] >= next_step:
            next_step += STEP
            with suppress(OSError, StopIteration):
                status = Path(f"/proc/{process.pid}/status").read_text().splitlines()
                peak = max(peak, next(int(line.split()[1]) * 1024 for line in status if line.startswith("VmHWM")))
            print(
                f"{name}: {told[0] / 1e6:6.0f} of {END / 1e6:.0f} MB, {time.monotonic() - began:4.0f} s, {peak >> 10} "
                f"KiB", flush=True)
    return count, peak


def faults_of(silc: Path, name: str) -> Iterator[str]:
    words = [silc, *COMMANDS[name], "/dev/stdin", "/dev/stdout"]
    told = [0]
    with tempfile.TemporaryFile() as said, subprocess.Popen(words, stdin=subprocess.PIPE, stdout=subprocess.PIPE,
                                                            stderr=said, bufsize=0) as process:
        giver = Thread(target=give, args=(process.stdin, told))
        process.stdin = None
        giver.start()
        count, peak = answers(process, told, name)
        code = process.wait()
        giver.join()
        said.seek(0)
        line = said.read()
    rows = END // len(ROW)
    if (code, line) != (TOO_LONG, LINE):
        yield f"it ended with {code} and {line!r}"
    if count != rows * len(ANSWER):
        yield f"{count} bytes came out, and {rows} rows have {rows * len(ANSWER)}"
    if peak > MOST_MEMORY:
        yield f"it took {peak} bytes of memory"


def main(words: list[str]) -> int:
    silc = SILC
    if words[:1] == ["--silc"] and len(words) > 1:
        silc, words = Path(words[1]).resolve(), words[2:]
    if not set(words) <= COMMANDS.keys():
        print(__doc__, file=sys.stderr)
        return 2
    passed = failed = 0
    for name in words or ["sim"]:
        faults = list(faults_of(silc, name))
        for fault in faults:
            print(f"{name}: {fault}", flush=True)
        passed, failed = passed + (not faults), failed + bool(faults)
    print(f"{passed} passed, {failed} failed")
    return 1 if failed else 0


if __name__ == "__main__":
    sys.exit(main(sys.argv[1:]))
