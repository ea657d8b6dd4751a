"""Makes one plain source of a source that uses blocks of a library.

usage: tools/link SRC [-o OUT [--force]] [--library FOLDER]
       tools/link --check SRC -o OUT [--library FOLDER]
       tools/link --where LINE OUT
       tools/link --test [BLOCK ..] [--library FOLDER]
       tools/link --pages [--check]

A source may begin with lines such as

    let N = 64;
    use biquad<W=24, F=23> as section;

{N} in it, outside comments, is then 64, and {N - 1} is 63; `section` is the function of the block `biquad` with words
of fix<24,23>. docs/LIBRARY.md has the blocks, and how one is written. They are files of library/, or of a FOLDER, which
comes first and may be given several times. The source is printed, or written to OUT (-o, --out). It is checked by `silc
eval`; where something is wrong, a line has the file and the place, nothing is made, and the exit status is 1.

  --check         says whether OUT is what would be made now; status 1 where it is not, with what is another
  --where LINE    says from which file and line a line of OUT, which was linked, is
  --test          tries all blocks, or those that are named: the front end takes each with its own numbers and at the
                  corners of their ranges, and `silc eval` makes the rows that stand beside it
  --pages         writes docs/LIBRARY.md and its pictures from the blocks; with --check it says whether they are as they
                  would be made
"""
import argparse
import sys
from pathlib import Path

from silc.commands import ended
from silc.designing.programs import Unrun
from silc.linking import pages
from silc.linking.blocks import Block, Library, Source
from silc.linking.checked import Unable, check, stale
from silc.linking.linker import link, place_of
from silc.linking.numbers import NoNumber
from silc.linking.places import Unlinked, file_at
from silc.linking.trying import faults_of
from silc.made_files import MadeFiles, NotMade, add_force, put_whole

STDOUT = "/dev/stdout"


class Failed(Exception):
    """What was looked at is not as it should be."""


def options_of(words: list[str]) -> argparse.Namespace:
    parser = argparse.ArgumentParser(prog="link", usage=__doc__.partition("usage: ")[2].partition("\n\n")[0],
                                     description=__doc__, formatter_class=argparse.RawDescriptionHelpFormatter,
                                     allow_abbrev=False)
    parser.add_argument("words", nargs="*", metavar="SRC")
    kinds = parser.add_mutually_exclusive_group()
    kinds.add_argument("--where", type=int, metavar="LINE")
    kinds.add_argument("--test", action="store_true")
    kinds.add_argument("--pages", action="store_true")
    parser.add_argument("--check", action="store_true")
    parser.add_argument("-o", "--out", metavar="OUT")
    parser.add_argument("--library", metavar="FOLDER", action="append", default=[])
    add_force(parser)
    options = parser.parse_args(words)
    for wrong in faults_in(options):
        parser.error(wrong)
    return options


def faults_in(options: argparse.Namespace) -> list[str]:
    """What is wrong with the words together."""
    count = len(options.words)
    many = "no SRC" if options.pages else "one SRC" if not options.test else None
    wrong = [f"it takes {many}"] if many and count != (0 if options.pages else 1) else []
    if options.check and (options.where is not None or options.test):
        wrong.append("--check goes with SRC, or with --pages")
    if options.check and not options.pages and not options.out:
        wrong.append("--check needs -o OUT, which it compares")
    if options.out and (options.where is not None or options.test or options.pages):
        wrong.append("-o goes with SRC")
    if options.force and (not options.out or options.check):
        wrong.append("--force is for a file that is written")
    return wrong


def source_of(name: str) -> Source:
    return Source(file_at(Path(name)))


def make(options: argparse.Namespace, library: Library) -> None:
    """Writes the linked source, where it is one."""
    files = MadeFiles([options.words[0]], options.force)
    files.look_at(options.out)
    linked = link(library, source_of(options.words[0]))
    files.inputs += [block.file.name for block in linked.blocks]
    check(linked)
    files.write(options.out or STDOUT, linked.text.encode("latin-1"))


def compare(options: argparse.Namespace, library: Library) -> None:
    why = stale(link(library, source_of(options.words[0])), Path(options.out).read_bytes().decode("latin-1"))
    if why:
        raise Failed(f"{options.out} is stale: {why}")


def where(options: argparse.Namespace) -> None:
    text = Path(options.words[0]).read_bytes().decode("latin-1")
    count = text.count("\n") + 1
    if not 1 <= options.where <= count:
        raise Failed(f"{options.words[0]} has no line {options.where}")
    file, line = place_of(text, options.where, "the source itself")
    print(f"{file}:{line}")


def try_blocks(options: argparse.Namespace, library: Library) -> None:
    faults = []
    names = options.words or library.names()
    for name in names:
        block = library.block(name)
        if block is None:
            raise Failed(f"there is no block {name}")
        found = list(faults_of(library, block))
        faults += found
        for fault in found:
            print(fault)
    print(f"{len(names)} blocks, {len(faults)} faults")
    if faults:
        raise Failed("a block is not as it says")


def make_pages(options: argparse.Namespace, library: Library) -> None:
    blocks: list[Block] = [block for name in library.names() if (block := library.block(name))]
    made = pages.files(library, blocks)
    others = {Path(pages.PICTURES) / name.name for name in Path(pages.PICTURES).glob("library_*.svg")} - set(made)
    if not options.check:
        for file, text in made.items():
            put_whole(file, text.encode())
        for file in sorted(others):
            print(f"{file} is of no block: remove it", file=sys.stderr)
        return
    for file, text in made.items():
        if not file.is_file() or file.read_text() != text:
            raise Failed(f"{file} is not as it would be made; `tools/link --pages` makes it")
    for file in others:
        raise Failed(f"{file} is of no block: remove it")


def run(options: argparse.Namespace) -> None:
    library = Library(options.library)
    if options.pages:
        make_pages(options, library)
    elif options.test:
        try_blocks(options, library)
    elif options.where is not None:
        where(options)
    elif options.check:
        compare(options, library)
    else:
        make(options, library)
    sys.stdout.flush()


def main(words: list[str]) -> int:
    options = options_of(words)
    return ended("link", lambda: run(options), Unlinked, Unable, Unrun, Failed, NotMade, NoNumber)
