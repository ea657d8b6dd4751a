#!/usr/bin/env python3
"""Whether a listing of `tools/assemble` and the microcode that it makes of one are each other's inverse.

usage: tests/assemble/check_assemble.py [--silc PROGRAM]

It takes the microcode of all examples on each of their datapaths, the microcode files of tests/, and random images,
with structural conflicts in some. In both versions the microcode of the listing is the file that was listed, byte for
byte, and the listing of that microcode is the same text. Of the examples and of tests/ `silc list` prints the listing's
own lines, from `period` on. The most of what is counted is assembled, and one more refused. The sum of
docs/MICROCODE.md is assembled, run, and compared with rows by hand. What needs `silc`, where that is not built, is
skipped with 77. The last line is 'N passed, M failed'.
"""
import os
import random
import subprocess
import sys
import tempfile
from collections.abc import Callable, Iterator
from pathlib import Path
from typing import TypeAlias

from silc import micro_file
from silc.fuzzing.images import Image
from silc.micro_file.listing import image_of_listing, listing_of

# A check, which is given a folder.
Check: TypeAlias = Callable[[Path], None]

HERE = Path(__file__).resolve().parent
ROOT = HERE.parent.parent
TOOL, PAGE = ROOT / "tools" / "assemble", ROOT / "docs" / "MICROCODE.md"
SILC = ROOT / "crates" / "silc_main" / "out" / "silc_main"
RANDOM, SKIPPED = 120, 77
# y = y@1 + x by hand, clipped to -128 .. 127, from 5 on.
SAMPLES = [10, 20, 100, -7, -128, -127, -1, 127]
SUMS = [15, 35, 127, 120, -8, -128, -128, -1]


class Wrong(Exception):
    """What is otherwise than it has to be."""


def said(folder: Path, *words: object) -> str:
    """What a program prints, which is done without a word on standard error."""
    done = subprocess.run([*map(str, words)], cwd=folder, stdin=subprocess.DEVNULL, capture_output=True, text=True,
                          env=os.environ | {"XDG_STATE_HOME": str(folder / "states")})
    if done.returncode or done.stderr:
        raise Wrong(
            f"{Path(words[0]).name} {' '.join(map(str, words[1:]))} ended with {done.returncode}: {done.stderr}")
    return done.stdout


def check_image(data: bytes) -> None:
    """In each version the microcode of the listing is that of the image, and its listing the same text."""
    image = micro_file.image_of(data)
    text = listing_of(image)
    again = image_of_listing(text)
    if listing_of(again) != text:
        raise Wrong("the listing of what is assembled is another")
    for version in micro_file.VERSIONS:
        if micro_file.bytes_of(again, version) != micro_file.bytes_of(image, version):
            raise Wrong(f"in version {version} the microcode of the listing is another")


def check_file(silc: Path, folder: Path, file: Path) -> None:
    """The same through the tool, and `silc list` prints the end of the listing."""
    data = file.read_bytes()
    check_image(data)
    text = said(folder, TOOL, "--listing", file)
    (folder / "listing").write_text(text)
    said(folder, TOOL, "listing", "made.mic", "--version", data[4])
    if (folder / "made.mic").read_bytes() != data:
        raise Wrong("the microcode of the listing is another")
    if text[text.index("period "):] != said(folder, silc, "list", "made.mic"):
        raise Wrong("`silc list` prints other lines")


def source_beside(datapath: Path) -> Path:
    """The source of an example of one program."""
    return datapath.with_name(f"{datapath.parent.name}.sil")


def check_example(silc: Path, folder: Path, datapath: Path) -> None:
    said(folder, silc, "compile", source_beside(datapath), datapath, "example.mic")
    check_file(silc, folder, folder / "example.mic")


def check_random(seed: int) -> None:
    image = Image(random.Random(seed))
    if seed % 3 == 0:
        image.spoil()
    check_image(micro_file.bytes_of(image.finished()))


def at_bounds() -> Iterator[tuple[str, int, Callable[[int], str], str]]:
    """What is counted up to which number, a listing with so many, and what is refused of one more."""
    head, alu = "input 0 width 8\n", "unit 0 alu latency 1 gap 1 files 32 1\n"
    one, ram = "in latency 1 gap 1\n", "unit 1 ram latency 1 gap 1 files 1 1 cells 1\n"

    def whole(hardware: str, inputs: int = 1, outputs: int = 1, units: int = 1) -> str:
        return f"{hardware}period 1 unroll 1 inputs {inputs} outputs {outputs} units {units} buses 32\nword 0\n"

    def takes(count: int) -> str:
        return "".join(f"take 0.{at >> 10} bus {at >> 5 & 31} reg {at & 31}\n" for at in range(count))

    yield "inputs", 16, lambda count: whole("".join(f"input {at} width 8\n" for at in range(count)) + f"unit 0 {one}",
                                            inputs=count), \
        "17:7: there are 16 input words at most"
    yield "outputs", 16, lambda count: whole(f"{head}unit 0 {one}", outputs=count), \
        "3:36: the number of output words is 17, and may be 1 to 16"
    yield "units", 32, lambda count: whole(head + "".join(f"unit {at} {one}" for at in range(count)), units=count), \
        "34:6: there are 32 units at most"
    yield "cells", 65536, lambda count: whole(f"{head}unit 0 ram latency 1 gap 1 files 1 1 cells {count}\n"), \
        "2:44: the number of cells is 65537, and may be 1 to 65536"
    yield "addr", 65535, lambda offset: whole(f"{head}unit 0 acu latency 1 gap 1 ram 1\n{ram}", units=2) \
        + f"issue 0 addr {offset}\n", \
        "6:14: the argument of addr is 65536, and may be 0 to 65535"
    yield "takes", 1024, lambda count: whole(head + alu) + takes(count), "1029:1: a word has 1024 takes at most"


def check_bound(text_for: Callable[[int], str], most: int, fault: str) -> None:
    """The most is assembled and one more refused."""
    image = image_of_listing(text_for(most))
    for version in micro_file.VERSIONS:
        micro_file.image_of(micro_file.bytes_of(image, version))
    try:
        image_of_listing(text_for(most + 1))
    except micro_file.listing.BadListing as why:
        if str(why) != fault:
            raise Wrong(f"one more is refused as {why}") from why
        return
    raise Wrong("one more is not refused")


def check_by_hand(silc: Path, folder: Path) -> None:
    """The listing on the page is assembled and run."""
    block = PAGE.read_text().partition("## Written by hand")[2].partition("```\n")[2].partition("```")[0]
    if block != (HERE / "sum.listing").read_text():
        raise Wrong("docs/MICROCODE.md shows another listing than tests/assemble/sum.listing")
    (folder / "sum.listing").write_text(block)
    (folder / "samples").write_text("".join(f"{word}\n" for word in SAMPLES))
    for version in micro_file.VERSIONS:
        said(folder, TOOL, "sum.listing", "sum.mic", "--version", version)
        said(folder, silc, "sim", "sum.mic", "samples", "rows")
        if (folder / "rows").read_text() != "".join(f"{word}\n" for word in SUMS):
            raise Wrong("the rows are others")


def checks(silc: Path) -> Iterator[tuple[str, bool, Check]]:
    """Each check by its name, and whether it needs `silc`."""
    yield "the sum by hand", True, lambda folder: check_by_hand(silc, folder)
    for what, most, text_for, fault in at_bounds():
        yield f"the most of {what}", False, lambda _, one=(text_for, most, fault): check_bound(*one)
    for seed in range(RANDOM):
        yield f"random {seed}", False, lambda _, seed=seed: check_random(seed)
    for file in sorted((ROOT / "tests").glob("*/*.mic")):
        yield str(file.relative_to(ROOT)), True, lambda folder, file=file: check_file(silc, folder, file)
    for datapath in filter(lambda file: source_beside(file).is_file(), sorted((ROOT / "examples").glob("*/*.toml"))):
        yield str(datapath.relative_to(ROOT)), True, lambda folder, one=datapath: check_example(silc, folder, one)


def main(words: list) -> int:
    if words and (len(words) != 2 or words[0] != "--silc"):
        print(__doc__, file=sys.stderr)
        return 2
    silc = Path(words[1] if words else os.environ.get("SILC", SILC)).resolve()
    is_built = os.access(silc, os.X_OK)
    passed = failed = 0
    for name, needs_silc, check in checks(silc):
        if needs_silc and not is_built:
            continue
        with tempfile.TemporaryDirectory(prefix="silc-assemble-") as folder:
            try:
                check(Path(folder))
                passed += 1
            except (Wrong, micro_file.listing.BadListing) as why:
                failed += 1
                print(f"{name}: {why}", flush=True)
    if not is_built:
        print(f"check_assemble: skipped: there is no program {silc}; `tools/build silc_main` builds it")
    print(f"{passed} passed, {failed} failed")
    return 1 if failed or not passed else 0 if is_built else SKIPPED


if __name__ == "__main__":
    sys.exit(main(sys.argv[1:]))
