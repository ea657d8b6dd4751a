#!/usr/bin/env python3
"""Whether the microcode of `frame` puts the rows that an evaluator in Python has, on random programs with random
frames, and whether with one sample in a frame its bytes are those of `compile`.

usage: tests/frame/check_frames.py [--silc PROGRAM]

The evaluator is tests/reference.py, which runs the program at the fast rate and knows nothing of unfolding. What has no
frames by its rows is told from the words of the program; what has no plan is left out. It runs the built `silc`, or the
one that `SILC` names.
"""
import os
import random
import subprocess
import sys
import tempfile
from collections import Counter
from concurrent.futures import ThreadPoolExecutor
from pathlib import Path

import reference
from silc import programs
from silc.fuzzing import samples, sources

ROOT = Path(__file__).resolve().parent.parent.parent
SILC = Path(programs.SILC.place())
WIDTHS, PROGRAMS, ROWS, SECONDS = (8, 16, 32, 40), 48, 10, 120
HEAD = "period = 32\nword = 16\nhold = 0\n"
ROOMY = (ROOT / "tests" / "overlap" / "filter.toml").read_text().replace("cells = 256", "cells = 65536")
MOST_WORDS, MOST_PHASES = 16, 8
LOOP, NO_PLAN, NO_FRAMES = 4, range(6, 10), 15
MANY, LARGE = "silc: frame has too many words\n", "silc: frame too large\n"
# A check that compares less than this has lost its programs.
LEAST_COMPARED = 20


def some_of(dice: random.Random, count: int) -> list[int]:
    return [number for number in range(count) if dice.random() < 0.5]


def listed(words: list[int]) -> str:
    return ",".join(map(str, words)) or "-"


def most_phases(count: int, slow: list[int]) -> int:
    """How many samples a frame may have for its row on one side."""
    return min(MOST_PHASES, (MOST_WORDS - len(slow)) // (count - len(slow))) if count > len(slow) else MOST_PHASES


def row_of(words: list, phases: int, slow: list[int]) -> list:
    """What stands in a row of frames for each word."""
    return [word for number, word in enumerate(words) for _ in range(1 if number in slow else phases)]


class Made:
    """A random program with random frames."""

    def __init__(self, seed: int) -> None:
        dice = random.Random(f"frames {seed}")
        made = sources.Program(dice, WIDTHS[seed % len(WIDTHS)]).source()
        self.seed, self.text, self.program = seed, made.text, reference.Program(made.text)
        counts = len(self.program.outputs), len(self.program.inputs)
        self.down, self.up = (some_of(dice, count) for count in counts)
        most = min(map(most_phases, counts, (self.down, self.up)))
        self.phases = dice.randint(min(2, most), min(MOST_PHASES, most + (dice.random() < 0.1)))
        self.frames = [tuple(row) for row in samples.rows_of(dice, row_of(made.inputs, self.phases, self.up), ROWS)]
        self.path = ROOMY.replace(HEAD, f"period = 4096\nword = 40\nhold = {dice.choice((0, 0, 1, 2, 3))}\n")
        self.has_room = all(len(row_of(list(range(count)), self.phases, slow)) <= MOST_WORDS
                            for count, slow in zip(counts, (self.down, self.up)))

    def expected(self) -> "str | None":
        """The rows of frames, or nothing where the program has a loop without a delay."""
        rows = reference.run_frames(self.program, self.frames, self.phases, self.down, self.up)
        return None if isinstance(rows, reference.Element) else reference.text_of(rows)

    def rates(self) -> list[str]:
        return [str(self.phases), listed(self.down), listed(self.up)]


class Room:
    """A folder with the files of a program, in which commands run."""

    def __init__(self, folder: str, silc: Path, made: Made) -> None:
        self.folder, self.silc = Path(folder), silc
        for name, text in (("SRC", made.text), ("DP", made.path), ("FRAMES", reference.text_of(made.frames))):
            (self.folder / name).write_text(text)

    def run(self, *words: str) -> subprocess.CompletedProcess[str]:
        return subprocess.run([self.silc, *words], cwd=self.folder, stdin=subprocess.DEVNULL, capture_output=True,
                              text=True, timeout=SECONDS)

    def bytes_of(self, *words: str) -> "bytes | None":
        """The microcode that a command makes."""
        out = self.folder / "OUT"
        out.unlink(missing_ok=True)
        return out.read_bytes() if self.run(*words, "OUT").returncode == 0 else None


def judged(room: Room, made: Made) -> tuple[str, str]:
    """What came of a program, and what is wrong there, or ''."""
    if room.bytes_of("frame", "SRC", "DP", "1", "-", "-") != room.bytes_of("compile", "SRC", "DP"):
        return "compared", "one sample in a frame is no `compile`"
    expected, ended = made.expected(), room.run("frame", "SRC", "DP", *made.rates(), "MIC")
    if expected is None or not made.has_room:
        code, said = (LOOP, ended.stderr) if expected is None else (NO_FRAMES, MANY)
        return "refused", "" if (ended.returncode, ended.stderr) == (code,
                                                                     said) else f"{ended.returncode}: {ended.stderr}"
    if ended.returncode in NO_PLAN or ended.stderr == LARGE:
        return "without a plan", ""
    run = room.run("sim", "MIC", "FRAMES", "ROWS") if ended.returncode == 0 else ended
    if run.returncode:
        return "compared", f"{run.returncode}: {run.stderr}"
    return "compared", "" if (room.folder / "ROWS").read_text() == expected else "other rows"


def tried(silc: Path, seed: int) -> tuple[str, str]:
    made = Made(seed)
    with tempfile.TemporaryDirectory(prefix="silc-frames-") as folder:
        end, fault = judged(Room(folder, silc, made), made)
    return end, fault and f"program {seed}, {' '.join(made.rates())}: {fault}\n{made.text}"


def main(words: list[str]) -> int:
    if words and (len(words) != 2 or words[0] != "--silc"):
        print(__doc__, file=sys.stderr)
        return 2
    silc = (Path(words[1]) if words else SILC).resolve()
    with ThreadPoolExecutor(os.cpu_count()) as pool:
        ends = list(pool.map(lambda seed: tried(silc, seed), range(PROGRAMS)))
    counts, faults = Counter(end for end, _ in ends), [fault for _, fault in ends if fault]
    if counts["compared"] < LEAST_COMPARED:
        faults.append(f"only {counts['compared']} programs are compared")
    for fault in faults:
        print(fault)
    print(f"frames: {', '.join(f'{count} {end}' for end, count in sorted(counts.items()))}, {len(faults)} faults")
    return 1 if faults else 0


if __name__ == "__main__":
    sys.exit(main(sys.argv[1:]))
