#!/usr/bin/env python3
"""What `silc_same` says of microcode beside a source.

usage: tests/same/check_same.py [--silc PROGRAM] [--changes N]

The microcode that `silc compile` makes of each example on each of its datapaths passes, in both versions of the file,
and is for that datapath; on datapaths with one number changed it is refused in a line that says which. The filter by
hand of docs/VALIDATION.md passes, and with its mistake is refused in the words of the page; the plan that `tools/plan`
finds for it becomes microcode that passes, where `silc_place` is built. Of the listings that are written by hand, each
beside its source, those of `ways` pass, and those of `refused`, which put other rows, do not.

Of the microcode of each example N files with one bit changed are tried, 20 where no number is given: one that is still
some microcode is refused in a line that says `not shown`, or puts the rows of the example on its samples. Microcode of
another example is refused, and so is a source or a file that is none, each in its line. Where `silc` or `silc_same` is
not built, it is skipped with 77. The last line is 'N passed, M failed'.
"""
import os
import random
import subprocess
import sys
import tempfile
from collections import Counter
from collections.abc import Callable, Iterator
from functools import partial
from pathlib import Path
from typing import TypeAlias

from silc import micro_file
from silc.micro_file.listing import image_of_listing

# A check, which is given a folder.
Check: TypeAlias = Callable[[Path], None]

HERE = Path(__file__).resolve().parent
ROOT = HERE.parent.parent
SILC = ROOT / "crates" / "silc_main" / "out" / "silc_main"
SAME = Path(os.environ.get("SILC_SAME") or ROOT / "crates" / "silc_same" / "out" / "silc_same")
PLACE = Path(os.environ.get("SILC_PLACE") or ROOT / "crates" / "silc_place" / "out" / "silc_place")
BY_HAND = ROOT / "docs" / "validation"
CHANGES, ROWS, SKIPPED = 20, 200, 77
# Edits of a datapath file, each with what `silc_same` says of the microcode for that file as it was.
OTHER_DATAPATHS = [
    ("period = 8", "period = 9", "a sample has 8 cycles, and 9 on the datapath"),
    ("word = 16", "word = 15", "a word of the datapath has 15 bits, and input word 0 has 16"),
    ("latency = 2", "latency = 3", "unit 2 has latency 2, and 3 on the datapath"),
    ("gap = 4", "gap = 3", "unit 3 has gap 4, and 3 on the datapath"),
    ("files = [3, 2]", "files = [3, 3]", "the register files of unit 4 have other sizes than on the datapath"),
    ('from = ["alu"]', 'from = ["fast"]', "word 3: unit 4 can't drive bus 3 on the datapath"),
    ('to = ["alu.0", "alu.1"]', 'to = ["alu.1"]', "word 4: port 4.0 can't take from bus 2 on the datapath"),
    ('to = ["fast.1", "slow.1"]', 'to = ["slow.1"]', "word 0: port 2.1 can't take from bus 0 on the datapath"),
]
# The mistake of docs/VALIDATION.md: lines of the listing, and those of the first try.
MISTAKES = [("take 4.0 bus 2 reg 2", "take 4.0 bus 2 reg 0"),
            ("issue 4 sub fmt 0 trunc 16 regs 2 0", "issue 4 sub fmt 0 trunc 16 regs 0 0")]
MISTAKEN = "not shown: cycle 7: port 0 of unit 4 alu has s[0] of this sample, where s[1] reads 7322*x of this sample"


class Wrong(Exception):
    """What is otherwise than it has to be."""


def ended(folder: Path, *words: object) -> tuple[int, str]:
    """How a program ends that prints nothing but errors, and the line of its error."""
    done = subprocess.run([*map(str, words)], cwd=folder, stdin=subprocess.DEVNULL, capture_output=True, text=True)
    if done.stdout:
        raise Wrong(f"{Path(str(words[0])).name} prints {done.stdout[:80]!r}")
    return done.returncode, done.stderr


def is_same(folder: Path, source: Path, microcode: str) -> bool:
    """Whether the microcode is shown to run the source. Where it is not, one line says so."""
    status, line = ended(folder, SAME, source, microcode)
    if status == 0 and not line:
        return True
    if status == 1 and line.startswith(f"silc_same: {microcode}: not shown: ") and line.count("\n") == 1:
        return False
    raise Wrong(f"silc_same ends with {status}: {line!r}")


def rows_of(silc: Path, folder: Path, microcode: str) -> str | None:
    """The rows that microcode puts, or nothing where it meets a conflict or takes other samples."""
    status, _ = ended(folder, silc, "sim", microcode, "samples", "rows")
    return (folder / "rows").read_text() if status == 0 else None


def first_lines(file: Path) -> str:
    return "".join(file.read_text().splitlines(keepends=True)[:ROWS])


def changed(rng: random.Random, data: bytes) -> bytes | None:
    """The bytes with one bit changed, where they are still some microcode and no other file of the same."""
    bit = rng.randrange(40, 8 * len(data))
    flipped = bytearray(data)
    flipped[bit >> 3] ^= 1 << (bit & 7)
    try:
        micro_file.image_of(bytes(flipped))
    except micro_file.BadImage:
        return None
    return bytes(flipped)


def check_changes(folder: Path, silc: Path, source: Path, changes: int, told: Counter[str]) -> None:
    """Files with one bit changed."""
    example = source.parent
    data = (folder / "packed").read_bytes()
    (folder / "samples").write_text(first_lines(example / "samples.txt"))
    rows = first_lines(example / "expected.txt")
    if rows_of(silc, folder, "packed") != rows:
        raise Wrong("the rows of its microcode are others")
    rng, tried = random.Random(f"{source.name} {len(data)}"), 0
    while tried < changes:
        other = changed(rng, data)
        if other is None:
            continue
        tried += 1
        (folder / "changed").write_bytes(other)
        if not is_same(folder, source, "changed"):
            told["refused"] += 1
            continue
        told["passed"] += 1
        if rows_of(silc, folder, "changed") != rows:
            raise Wrong(f"change {tried} passes, and puts other rows")


def check_example(folder: Path, silc: Path, source: Path, datapath: Path, changes: int, told: Counter[str]) -> None:
    """The microcode of an example in both versions, and files with one bit changed."""
    status, line = ended(folder, silc, "compile", source, datapath, "packed")
    if status:
        raise Wrong(f"it is not compiled: {line}")
    image = micro_file.image_of((folder / "packed").read_bytes())
    (folder / "bytes").write_bytes(micro_file.bytes_of(image, 1))
    for microcode in ("packed", "bytes"):
        status, line = ended(folder, SAME, source, microcode, datapath)
        if status or line:
            raise Wrong(f"{microcode}: {line}")
    if (source.parent / "samples.txt").exists():
        check_changes(folder, silc, source, changes, told)


def check_others(folder: Path, silc: Path, pairs: list[tuple[Path, Path]]) -> None:
    """The microcode of each example beside the source of the next."""
    sources = sorted({source for source, _ in pairs})
    of = dict(pairs)
    for source, other in zip(sources, sources[1:] + sources[:1]):
        ended(folder, silc, "compile", other, of[other], "other")
        if is_same(folder, source, "other"):
            raise Wrong(f"the microcode of {other.name} passes for {source.name}")


def check_listing(folder: Path, listing: Path, shown: bool) -> None:
    """Microcode that is written by hand, beside its source."""
    (folder / "listed").write_bytes(micro_file.bytes_of(image_of_listing(listing.read_text())))
    if is_same(folder, listing.with_suffix(".sil"), "listed") != shown:
        raise Wrong("it is not shown" if shown else "it passes")


def check_by_hand(folder: Path) -> None:
    """The filter by hand, on its datapath and on others, and with its mistake."""
    source, listing = BY_HAND / "peaking.sil", (BY_HAND / "peaking.listing").read_text()
    path = (BY_HAND / "two_multipliers.toml").read_text()
    (folder / "path").write_text(path)
    for version in micro_file.VERSIONS:
        (folder / "hand").write_bytes(micro_file.bytes_of(image_of_listing(listing), version))
        expect(folder, [source, "hand", "path"], 0, "")
    for old, new, line in OTHER_DATAPATHS:
        (folder / "path").write_text(path.replace(old, new, 1))
        expect(folder, [source, "hand", "path"], 1, f"silc_same: hand: not of the datapath: {line}\n")
    (folder / "path").write_text("period = 0")
    expect(folder, [source, "hand", "path"], 1, "silc_same: path: datapath top: out of range\n")
    for old, new in MISTAKES:
        if listing.count(f"\n{old}\n") != 1:
            raise Wrong(f"{old} does not stand once in the listing")
        listing = listing.replace(f"\n{old}\n", f"\n{new}\n")
    (folder / "hand").write_bytes(micro_file.bytes_of(image_of_listing(listing), 2))
    expect(folder, [source, "hand"], 1, f"silc_same: hand: {MISTAKEN}\n")


def check_plan(folder: Path) -> None:
    """The plan that a search finds for the filter by hand."""
    source, path = BY_HAND / "peaking.sil", BY_HAND / "two_multipliers.toml"
    words = [ROOT / "tools" / "plan", source, path, "--seconds", "3", "-o", "plan", "--datapath", "path"]
    found = subprocess.run(words, cwd=folder, stdin=subprocess.DEVNULL, capture_output=True, text=True)
    if found.returncode:
        raise Wrong(f"tools/plan: {found.stderr}")
    status, line = ended(folder, PLACE, source, "path", "plan", "placed")
    if status:
        raise Wrong(f"silc_place: {line}")
    expect(folder, [source, "placed", "path"], 0, "")


# y = x + 1 by a difference of -1, which puts the same rows in 8 bits, and is not seen to.
BY_DIFFERENCE = """
input 0 width 8
unit 0 in latency 1 gap 1
unit 1 rom latency 1 gap 1
unit 2 alu latency 1 gap 1 files 1 1
unit 3 out latency 1 gap 1 files 1
period 4 unroll 1 inputs 1 outputs 1 units 4 buses 1
word 0
issue 0 input 0
drive 0 0
take 2.0 bus 0 reg 0
word 1
issue 1 const -1
drive 1 0
take 2.1 bus 0 reg 0
word 2
issue 2 sub fmt 0 trunc 8 regs 0 0
drive 2 0
take 3.0 bus 0 reg 0
word 3
issue 3 output 0 regs 0
"""


def check_tool(folder: Path) -> None:
    """What `tools/compare` says of the three kinds of microcode."""
    def say(listing: str, status: int, *lines: str) -> None:
        (folder / "mic").write_bytes(micro_file.bytes_of(image_of_listing(listing), 2))
        words = [ROOT / "tools" / "compare", "src", "mic", "--rows", "20", "--seeds", "2", "--samples", "kept"]
        done = subprocess.run(words, cwd=folder, stdin=subprocess.DEVNULL, capture_output=True, text=True)
        said = done.stderr.splitlines()
        if (done.returncode, len(said), done.stdout) != (status, len(lines), "") or \
                not all(line.startswith(f"compare: mic: {start}") for line, start in zip(said, lines)):
            raise Wrong(f"tools/compare ends with {done.returncode}: {done.stderr!r}")

    (folder / "src").write_text("func main(x : fix<8,0>) y : fix<8,0> = begin y = x + 1; end;")
    by_sum = BY_DIFFERENCE.replace("const -1", "const 1").replace("sub", "add")
    say(by_sum, 0)
    say(BY_DIFFERENCE, 3, "not shown: cycle 3: ", "not shown, and no row differs on 8 streams of 20 rows")
    say(by_sum.replace("drive 1 0", "drive 0 0\ndrive 1 0"), 1, "not shown: ", "wrong: at zeros, conflict at cycle 1: ")
    say(by_sum.replace("const 1", "const 2"), 1, "not shown: ", "wrong: at zeros, row 0 is 2, and 1 by src")
    if (folder / "kept").read_text() != 20 * "0\n":
        raise Wrong("the rows that are kept are others than zeros")


def expect(folder: Path, words: list[str | Path], status: int, line: str) -> None:
    said = ended(folder, SAME, *words)
    if said != (status, line):
        raise Wrong(f"silc_same ends with {said}, and not with {(status, line)}")


def check_line(folder: Path, words: list[str], status: int, line: str) -> None:
    (folder / "good").write_text("func main(x : fix<8,0>) y : fix<8,0> = begin y = x + 1; end;")
    (folder / "bad").write_text("func main(x : fix<8,0>) y : fix<8,0> =\nbegin y = z; end;")
    (folder / "short").write_bytes(micro_file.image.MAGIC)
    said = ended(folder, SAME, *words)
    if said != (status, f"{line}\n"):
        raise Wrong(f"silc_same {' '.join(words)} ends with {said}")


def lines() -> Iterator[tuple[list[str], int, str]]:
    """Words, and how `silc_same` ends with them."""
    for count in (0, 1, 4):
        yield ["good", "short", "more", "most"][:count], 2, "usage: silc_same SRC MIC [DP]"
    yield ["bad", "short"], 1, "silc_same: bad: line 2: unknown name"
    yield ["good", "short"], 1, "silc_same: short: short at 4"
    yield ["good", "bad"], 1, "silc_same: bad: bad magic"
    yield ["absent", "short"], 1, "silc_same: absent can't be read"
    yield ["good", "absent"], 1, "silc_same: absent can't be read"
    yield ["good", "short", "absent"], 1, "silc_same: absent can't be read"


def examples() -> list[tuple[Path, Path]]:
    """The sources of examples of one program, each with each of its datapaths."""
    found = [(datapath.with_name(f"{datapath.parent.name}.sil"), datapath)
             for datapath in sorted((ROOT / "examples").glob("*/*.toml"))]
    return [(source, datapath) for source, datapath in found if source.is_file()]


def checks(silc: Path, changes: int, told: Counter[str]) -> Iterator[tuple[str, Check]]:
    """Each check by its name."""
    for words, status, line in lines():
        yield f"silc_same {' '.join(words)}", partial(check_line, words=words, status=status, line=line)
    for folder, shown in (("ways", True), ("refused", False)):
        for listing in sorted((HERE / folder).glob("*.listing")):
            yield str(listing.relative_to(HERE)), partial(check_listing, listing=listing, shown=shown)
    for source, datapath in examples():
        yield str(datapath.relative_to(ROOT)), \
            partial(check_example, silc=silc, source=source, datapath=datapath, changes=changes, told=told)
    yield "docs/validation", check_by_hand
    yield "tools/compare", check_tool
    if os.access(PLACE, os.X_OK):
        yield "a plan by search", check_plan
    yield "the microcode of other examples", partial(check_others, silc=silc, pairs=examples())


def options(words: list[str]) -> tuple[Path, int] | None:
    """The program `silc`, and how many changes of each file are tried."""
    given = dict(zip(words[::2], words[1::2]))
    changes = given.pop("--changes", str(CHANGES))
    silc = given.pop("--silc", os.environ.get("SILC") or str(SILC))
    if given or len(words) % 2 or not changes.isdecimal():
        return None
    return Path(silc).resolve(), int(changes)


def main(words: list[str]) -> int:
    asked = options(words)
    if asked is None:
        print(__doc__, file=sys.stderr)
        return 2
    silc, changes = asked
    for program in (silc, SAME):
        if not os.access(program, os.X_OK):
            print(f"check_same: skipped: there is no program {program}; `tools/build silc_main silc_same` builds it")
            return SKIPPED
    told: Counter[str] = Counter()
    passed = failed = 0
    for name, check in checks(silc, changes, told):
        with tempfile.TemporaryDirectory(prefix="silc-same-") as folder:
            try:
                check(Path(folder))
                passed += 1
            except Wrong as why:
                failed += 1
                print(f"{name}: {why}", flush=True)
    print(f"of the files with one bit changed {told['refused']} are refused, and {told['passed']} put the same rows")
    print(f"{passed} passed, {failed} failed")
    return 1 if failed or not passed else 0


if __name__ == "__main__":
    sys.exit(main(sys.argv[1:]))
