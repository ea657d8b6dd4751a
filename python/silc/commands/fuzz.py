"""Makes random sources, datapaths, microcode and samples, whole and damaged, and checks on the built programs what has
to hold whatever they are. Nothing here knows what the right rows or bytes are: answers are compared with one another,
and the place of a fault in microcode with that of another reader.

usage: tools/fuzz KIND SEED COUNT [--case N] [--jobs N] [--all-or-none]

KIND is sources, datapaths, microcode, samples, damaged (microcode of both versions with other bytes or bits) or all,
which takes them in turn. SEED is a number or any word. The same KIND, SEED and number of a case make the same files;
COUNT cases are made from number 0 on, or from N. What has to hold:

- each command ends by one of its codes, within 10 seconds of processor, 1 GiB and 2 MiB of stack, and with one line;
- a refusal with code 10 or below makes no file, and leaves an OUT that is there as it was; no input is written;
- after codes 11 and 12 OUT holds exactly the rows before the fault. By --all-or-none these make no file either, as in a
  program that reads all samples first;
- `run` and `sim` of what `compile` wrote end as `eval` does, with the same rows; `compile`, `schedule` and `run` refuse
  alike;
- `list` of the microcode is the listing of the plan that `schedule` prints;
- a source and its canonical text compile to the same bytes, and this text is its own;
- `compile` writes version 2 of the microcode file;
- `list` refuses damaged microcode as python/silc/micro_file does, whose places are of the file; what it takes it lists
  by its fields, and microcode in the other version is listed and run in the same way;
- whole samples of a program that puts each word as it is come back; an image made without a conflict meets none, and
  its listing is that of its fields.

It says how far it is. A case in which something does not hold is told with its files, which stay in a folder, and with
the words that make it again. The last line is 'N passed, M failed'; the exit status is 1 where one failed, and 70 where
a program is not built. It builds nothing: it runs the programs that are built, or those that `SILC` and `SILC_SHOW`
name.
"""
import argparse
import os
import shutil
import sys
import tempfile
import time
from argparse import Namespace
from collections import Counter
from concurrent.futures import ProcessPoolExecutor
from pathlib import Path
from typing import TypeAlias

from silc.fuzzing.cases import ALL, KINDS, Case
from silc.fuzzing.running import Broken, Programs, Room
from silc.programs import SHOW, SILC

# How many commands ended with which code.
Ends: TypeAlias = dict[tuple[str, int], int]

SECONDS_BETWEEN = 5
NOT_BUILT, FAILED = 70, 1


def say(text: object) -> None:
    print(f"fuzz: {text}", file=sys.stderr, flush=True)


def programs_of(options: Namespace) -> Programs | None:
    silc, show = (Path(program.place()).resolve() for program in (SILC, SHOW))
    for program in (silc, show):
        if not os.access(program, os.X_OK):
            say(f"there is no program {program}: tools/build {program.name} builds it")
            return None
    return Programs(silc, show, keeps_rows=not options.all_or_none)


def judged(case: Case, programs: Programs) -> tuple[Ends, str | None]:
    """How many commands of a case ended with which code, and what does not hold, where there is something."""
    folder = tempfile.mkdtemp(prefix=f"silc-fuzz-{case.kind}-{case.seed}-{case.number}-")
    room = Room(folder, programs)
    try:
        case.run(room)
    except Exception as error:
        what = str(error) if isinstance(error, Broken) else f"it can't be judged: {type(error).__name__}: {error}"
        (Path(folder) / "commands").write_text("".join(f"{line}\n" for line in room.ran))
        return room.ends, f"{case.kind}, seed {case.seed}, case {case.number}: {what}\n" \
                          f"    its files: {folder}\n    again: {case.again()}"
    shutil.rmtree(folder)
    return room.ends, None


class Progress:
    """How far a run is, on standard error."""

    def __init__(self, count: int) -> None:
        self.count, self.began = count, time.monotonic()
        self.last = self.began

    def report(self, done: int, failed: int) -> None:
        now = time.monotonic()
        if now - self.last >= SECONDS_BETWEEN:
            self.last = now
            left = (self.count - done) * (now - self.began) / done
            say(f"{done} of {self.count} cases, {failed} failed, {left:.0f} s left")


def show_ends(ends: Ends) -> None:
    """How often each command ended with each code."""
    for command in sorted({command for command, _ in ends}):
        codes = ", ".join(f"{code}: {count}" for (name, code), count in sorted(ends.items()) if name == command)
        print(f"{command:8}  {codes}")


def words_of(words: list[str]) -> argparse.Namespace:
    parser = argparse.ArgumentParser(prog="fuzz", usage=__doc__.partition("usage: ")[2].partition("\n")[0],
                                     description=__doc__, formatter_class=argparse.RawDescriptionHelpFormatter)
    parser.add_argument("kind", choices=(*KINDS, ALL))
    parser.add_argument("seed")
    parser.add_argument("count", type=int)
    parser.add_argument("--case", type=int, default=0)
    parser.add_argument("--jobs", type=int, default=os.cpu_count())
    parser.add_argument("--all-or-none", action="store_true")
    return parser.parse_args(words)


def main(words: list[str]) -> int:
    options = words_of(words)
    programs = programs_of(options)
    if not programs:
        return NOT_BUILT
    cases = [Case(options.kind, options.seed, options.case + number) for number in range(options.count)]
    ends: Counter[tuple[str, int]] = Counter()
    progress, failed = Progress(len(cases)), 0
    with ProcessPoolExecutor(options.jobs) as pool:
        answers = pool.map(judged, cases, [programs] * len(cases))
        for done, (ended, fault) in enumerate(answers, 1):
            ends.update(ended)
            failed += fault is not None
            if fault:
                print(fault, flush=True)
            progress.report(done, failed)
    show_ends(ends)
    print(f"{len(cases) - failed} passed, {failed} failed")
    return FAILED if failed else 0
