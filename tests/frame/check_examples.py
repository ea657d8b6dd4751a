#!/usr/bin/env python3
"""Whether the examples that run over frames are what their pages and docs/RATES.md say of them: the least periods of
the table there, the rows whose responses are drawn, and the rows of `decimator`, which are those of the version by
hand. And whether with one sample in a frame the microcode of each example is that of `compile`.

usage: tests/frame/check_examples.py [--silc PROGRAM]

It runs the built `silc`, or the one that `SILC` names.
"""
import os
import re
import subprocess
import sys
import tempfile
from collections.abc import Iterator
from concurrent.futures import ThreadPoolExecutor
from dataclasses import dataclass
from pathlib import Path

from silc import programs

ROOT = Path(__file__).resolve().parent.parent.parent
EXAMPLES, PAGE, PICTURES = ROOT / "examples", ROOT / "docs" / "RATES.md", ROOT / "docs" / "pictures"
SILC = Path(programs.SILC.place())
ROW = re.compile(r"^\| `(\w+)` \| `(\w+)` \| (\d) \| `([-\d,]+)` \| `([-\d,]+)` \| (\d+) \| (\d+) \|$", re.MULTILINE)
PERIOD = re.compile(r"^period *= *\d+$", re.MULTILINE)
PLANNED, NO_CYCLE, SECONDS = 0, 8, 120
# The impulses of the pictures, with the rows that are drawn at the fast rate and at the slow one.
IMPULSES = {"decimator": (30000, 128, 32), "interpolator": (32767, 64, 16), "clipper": (1024, 96, 24)}


def done(silc: Path, *words: object) -> int:
    """The exit status of a command."""
    return subprocess.run([silc, *map(str, words)], stdin=subprocess.DEVNULL, capture_output=True,
                          timeout=SECONDS).returncode


def made(silc: Path, *words: object) -> bytes | None:
    """The file that a command makes."""
    with tempfile.TemporaryDirectory(prefix="silc-frames-") as folder:
        out = Path(folder) / "OUT"
        return out.read_bytes() if done(silc, *words, out) == PLANNED else None


@dataclass(frozen=True)
class Example:
    """A row of the table: an example with a processor, its M, DOWN and UP, and the least periods at both rates."""
    name: str
    processor: str
    rates: tuple[str, str, str]
    fast: int
    slow: int

    @property
    def folder(self) -> Path:
        return EXAMPLES / self.name

    @property
    def source(self) -> Path:
        return self.folder / f"{self.name}.sil"

    def faults(self, silc: Path) -> Iterator[str]:
        """What is not as the page has it."""
        frames = self.folder / "frames"
        if tuple((frames / "rates.txt").read_text().split()) != self.rates:
            yield "frames/rates.txt has others than the page"
        file = f"{self.processor}.toml"
        yield from self.period_faults(silc, "compile", self.folder / file, self.fast)
        yield from self.period_faults(silc, "frame", frames / file, self.slow, *self.rates)
        yield from self.picture_faults(silc, frames / file)

    def period_faults(self, silc: Path, command: str, datapath: Path, least: int, *rates: str) -> Iterator[str]:
        """A schedule is the same in any period in which it ends, so the least period is the first that has room for
        it."""
        with tempfile.TemporaryDirectory(prefix="silc-periods-") as folder:
            changed = Path(folder) / datapath.name
            for period, status in ((least, PLANNED), (least - 1, NO_CYCLE)):
                changed.write_text(PERIOD.sub(f"period = {period}", datapath.read_text()))
                ended = done(silc, command, self.source, changed, *rates, Path(folder) / "OUT")
                if ended != status:
                    yield f"{command} in a period of {period} ends with {ended}"

    def picture_faults(self, silc: Path, datapath: Path) -> Iterator[str]:
        """The rows whose responses are drawn are those on an impulse."""
        word, fast, slow = IMPULSES[self.name]
        phases, _, up = self.rates
        with tempfile.TemporaryDirectory(prefix="silc-impulses-") as folder:
            impulse, microcode = Path(folder) / "impulse.txt", Path(folder) / "frames.mic"
            done(silc, "frame", self.source, datapath, *self.rates, microcode)
            for rate, text, *lead in (("fast", impulse_of(word, fast, 1), "eval", self.source),
                                      ("slow", impulse_of(word, slow, 1 if up == "0" else int(phases)), "sim",
                                       microcode)):
                impulse.write_text(text)
                if made(silc, *lead, impulse) != (PICTURES / f"{self.name}_{rate}.rows").read_bytes():
                    yield f"docs/pictures/{self.name}_{rate}.rows are other rows"


def impulse_of(word: int, count: int, columns: int) -> str:
    """So many rows, the first of which begins with a word, with zeros else."""
    zeros = ["0"] * (columns * count - 1)
    words = [str(word), *zeros]
    return "".join(",".join(words[start:start + columns]) + "\n" for start in range(0, len(words), columns))


def examples() -> list[Example]:
    return [Example(name, processor, (phases, down, up), int(fast), int(slow))
            for name, processor, phases, down, up, fast, slow in ROW.findall(PAGE.read_text())]


def decimator_faults() -> Iterator[str]:
    """The rows of the plain filter are those of the version in four phases, one row later."""
    names = "decimator/frames/expected.txt", "decimate/expected.txt"
    plain, by_hand = ((EXAMPLES / name).read_text().splitlines() for name in names)
    if plain[1:] != by_hand[:-1] or plain[0] != "0":
        yield "decimator: its rows over frames are not those of decimate, one row later"


def one_sample_fault(silc: Path, datapath: Path) -> str:
    """What is wrong where a frame has one sample, or ''."""
    source = datapath.parent / f"{datapath.parent.name}.sil"
    compiled = made(silc, "compile", source, datapath)
    same = compiled is not None and compiled == made(silc, "frame", source, datapath, "1", "-", "-")
    return "" if same else f"{datapath}: with one sample in a frame it has other microcode"


def main(words: list[str]) -> int:
    if words and (len(words) != 2 or words[0] != "--silc"):
        print(__doc__, file=sys.stderr)
        return 2
    silc = (Path(words[1]) if words else SILC).resolve()
    table = examples()
    # An example of several processors has no source of its own.
    datapaths = [file for file in sorted(EXAMPLES.glob("*/*.toml"))
                 if file.with_name(f"{file.parent.name}.sil").exists()]
    with ThreadPoolExecutor(os.cpu_count()) as pool:
        found = [f"{example.name}: {fault}" for example in table for fault in example.faults(silc)]
        found += [*decimator_faults(), *filter(None, pool.map(lambda one: one_sample_fault(silc, one), datapaths))]
    if {example.name for example in table} != {folder.parent.name for folder in EXAMPLES.glob("*/frames")}:
        found.append("docs/RATES.md has no row of each example that runs over frames, or one of another")
    for fault in found:
        print(fault)
    print(f"frames: {len(table)} examples, {len(datapaths)} processors with one sample in a frame, {len(found)} faults")
    return 1 if found else 0


if __name__ == "__main__":
    sys.exit(main(sys.argv[1:]))
