"""Prints a microcode file for a memory from which a decoder of one's own loads it, or the map of its fields.

usage: tools/rom [--readmemh | --intel | --c [--name NAME] | --map] [--out FILE [--force]] MIC

--readmemh   the bytes for $readmemh of Verilog: two hex digits each, 16 in a line. This is what comes without an option
--intel      Intel HEX with addresses from 0 on: records of 16 bytes, and one before each 64 KiB that follow
--c          a C array of unsigned char, called NAME, or else as MIC without its ending. What no name of C has becomes
             _, and a _ is put before a digit at the beginning and before a word of C's own
--map        a line for each field: what it is, where it begins, how many bits it has, and the number that they are. A
             place is BYTE.BIT, and bit 0 is the most significant one of a byte
--out FILE   makes a file of it, whole or not at all. A FILE that is there and that no tool made is left alone but with
             --force

The bytes are those of the file, in version 1 or 2; docs/MICROCODE.md has both. A file that is no microcode is refused
with one line and status 1; --map prints the fields that come before its fault, too.
"""
import argparse
import re
import sys
from argparse import Namespace
from pathlib import Path
from typing import NamedTuple

from silc.commands import ended
from silc.made_files import MadeFiles, NotMade, add_force
from silc.micro_file import BadImage, fields_of, image_of
from silc.micro_file.bits import Field

A_LINE, A_PAGE = 16, 1 << 16
DATA, END, PAGE = 0, 1, 4
NO_LETTER = re.compile(r"[^A-Za-z0-9_]")
# The words that C and C++ keep for themselves.
RESERVED = """
    alignas alignof and and_eq asm auto bitand bitor bool break case catch char class compl const constexpr continue
    default delete do double else enum explicit export extern false float for friend goto if inline int long mutable
    namespace new noexcept not not_eq nullptr operator or or_eq private protected public register restrict return
    short signed sizeof static static_assert struct switch template this thread_local throw true try typedef typeid
    typename typeof union unsigned using virtual void volatile wchar_t while xor xor_eq
    """.split()


class Cells(NamedTuple):
    """A line of the map."""
    name: str
    place: str
    bits: str
    value: str


HEAD = Cells("field", "place", "bits", "value")


def lines_of(data: bytes) -> list[bytes]:
    return [data[at:at + A_LINE] for at in range(0, len(data), A_LINE)]


def readmemh(data: bytes) -> list[str]:
    return [line.hex(" ") for line in lines_of(data)]


def record(kind: int, address: int, data: bytes = b"") -> str:
    """A line of Intel HEX: its length, its address in the page, its kind, its bytes, and one that makes their sum 0."""
    head = bytes([len(data), *address.to_bytes(2, "big"), kind]) + data
    return ":" + (head + bytes([-sum(head) % 256])).hex().upper()


def intel(data: bytes) -> list[str]:
    records = []
    for number, line in enumerate(lines_of(data)):
        page, address = divmod(A_LINE * number, A_PAGE)
        if page and not address:
            records.append(record(PAGE, 0, page.to_bytes(2, "big")))
        records.append(record(DATA, address, line))
    return [*records, record(END, 0)]


def c_array(data: bytes, name: str) -> list[str]:
    rows = ["    " + ", ".join(f"0x{byte:02x}" for byte in line) + "," for line in lines_of(data)]
    return [f"const unsigned char {name}[{len(data)}] = {{", *rows, "};"]


def name_for(options: Namespace) -> str:
    """The name of the array: letters, digits and _, of which a digit is not the first, and no word of C's own."""
    name = NO_LETTER.sub("_", options.name or Path(options.microcode).stem)
    return f"_{name}" if name[:1].isdigit() or not name or name in RESERVED else name


def map_of(fields: list[Field], letters: str) -> list[str]:
    """The lines of the map. The magic is shown as it is written."""
    values = [letters if field.name == "the magic" else str(field.value) for field in fields]
    lines = [HEAD] + [Cells(name.removeprefix("the "), f"{bit // 8}.{bit % 8}", str(bits), value)
                      for (name, bit, bits, _), value in zip(fields, values) if bits]
    name, place, bits, value = (max(map(len, column)) for column in zip(*lines))
    return [f"{line.name:{name}}  {line.place:>{place}}  {line.bits:>{bits}}  {line.value:>{value}}" for line in lines]


def printed(options: Namespace, data: bytes) -> tuple[list[str], BadImage | None]:
    """The lines that are asked for, and the fault of bytes that are no microcode, or nothing."""
    if options.what == "map":
        fields, fault = fields_of(data)
        return map_of(fields, data[:4].decode("ascii", "replace")), fault
    try:
        image_of(data)
    except BadImage as fault:
        return [], fault
    if options.what == "c":
        return c_array(data, name_for(options)), None
    return {"readmemh": readmemh, "intel": intel}[options.what](data), None


def options_of(words: list[str]) -> argparse.Namespace:
    parser = argparse.ArgumentParser(prog="rom", usage=__doc__.partition("usage: ")[2].partition("\n")[0],
                                     description=__doc__, formatter_class=argparse.RawDescriptionHelpFormatter)
    parser.add_argument("microcode", metavar="MIC")
    kinds = parser.add_mutually_exclusive_group()
    for what in ("readmemh", "intel", "c", "map"):
        kinds.add_argument(f"--{what}", dest="what", action="store_const", const=what)
    parser.add_argument("--name", metavar="NAME")
    parser.add_argument("--out", metavar="FILE")
    add_force(parser)
    parser.set_defaults(what="readmemh")
    options = parser.parse_args(words)
    if options.name is not None and options.what != "c":
        parser.error("--name is for --c")
    if options.force and options.out is None:
        parser.error("--force is for --out")
    return options


def put(options: Namespace) -> BadImage | None:
    """Prints what is asked for, or makes a file of it where there is no fault, which is returned."""
    files = MadeFiles(inputs=[options.microcode], is_forced=options.force)
    lines, fault = printed(options, Path(options.microcode).read_bytes())
    if options.out is None or not fault:
        files.write(options.out or "/dev/stdout", "".join(f"{line}\n" for line in lines))
    return fault


def run(options: argparse.Namespace) -> int:
    fault = put(options)
    if fault:
        print(f"rom: {options.microcode}: {fault.refusal()}", file=sys.stderr)
    return 1 if fault else 0


def main(words: list[str]) -> int:
    options = options_of(words)
    return ended("rom", lambda: run(options), NotMade)
