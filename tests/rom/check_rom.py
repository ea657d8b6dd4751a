#!/usr/bin/env python3
"""Whether what tools/rom prints holds the bytes of its file, and the map of tools/rom all of its bits.

usage: tests/rom/check_rom.py

It tries the microcode files of tests/, each in both versions, and one of more than 64 KiB. The texts are read back
here, by the rules of $readmemh and Intel HEX; a C compiler reads the array, where there is one. And the bytes and bits
that docs/MICROCODE.md has of its example are those of the files in tests/increment, with which the other tests compare;
and python/silc/micro_file makes of each file that was written by hand the one in the other version. The last line is
'N passed, M failed'.
"""
import re
import shutil
import subprocess
import sys
import tempfile
from collections.abc import Iterator
from pathlib import Path

from silc import micro_file
from silc.fuzzing.microcode import crowded

HERE = Path(__file__).resolve().parent
ROOT = HERE.parent.parent
ROM, TABLES = ROOT / "tools" / "rom", ROOT / "docs" / "MICROCODE.md"
LARGE = 300_000
# Microcode that was written by hand, in version 1 and in version 2.
BY_HAND = [("increment/increment.hex", "increment/packed.hex"), ("microcode/memory.hex", "microcode/memory-packed.hex")]
DATA, END, PAGE = 0, 1, 4
MAIN = """
#include <stdio.h>
int main(void) { return fwrite(image, 1, sizeof image, stdout) != sizeof image; }
"""


class Wrong(Exception):
    """What tools/rom prints, and should not."""


def said(*words: str | Path) -> str:
    done = subprocess.run([ROM, *words], capture_output=True, text=True, check=False)
    if done.returncode or done.stderr:
        raise Wrong(f"{words} ended with {done.returncode}: {done.stderr}")
    return done.stdout


def from_readmemh(text: str) -> bytes:
    """The words of a memory of bytes, from address 0 on."""
    words = text.split()
    if any(not re.fullmatch(r"[0-9a-f]{2}", word) for word in words):
        raise Wrong("there is more than bytes of two digits")
    return bytes(int(word, 16) for word in words)


def from_intel(text: str) -> bytes:
    """The bytes by their addresses. Each record adds up to 0, and the last one ends the file."""
    data, page = {}, 0
    *records, last = [bytes.fromhex(line.removeprefix(":")) for line in text.splitlines()]
    for record in (*records, last):
        if sum(record) % 256 or record[0] != len(record) - 5:
            raise Wrong(f"a record that does not add up: {record.hex()}")
    if last[3] != END or any(record[3] not in (DATA, PAGE) for record in records):
        raise Wrong("the last record and no other ends the file")
    for record in records:
        content, address = record[4:-1], int.from_bytes(record[1:3], "big")
        if record[3] == PAGE:
            page = int.from_bytes(content, "big") << 16
        else:
            data |= {page + address + place: byte for place, byte in enumerate(content)}
    if sorted(data) != list(range(len(data))):
        raise Wrong("the addresses are not those from 0 on")
    return bytes(data[address] for address in range(len(data)))


def from_c(text: str, folder: Path) -> bytes:
    """The bytes of the array, by a C compiler where there is one, or else by its digits."""
    if not shutil.which("cc"):
        return bytes(int(digits, 16) for digits in re.findall(r"0x([0-9a-f]{2}),", text))
    (folder / "image.c").write_text(text + MAIN)
    subprocess.run(["cc", "-Wall", "-Werror", "-o", folder / "image", folder / "image.c"], check=True)
    return subprocess.run([folder / "image"], capture_output=True, check=True).stdout


def check_map(text: str, data: bytes) -> None:
    """The fields follow one another from the first bit to the last, and each has the number that its bits are."""
    bits, at = "".join(format(byte, "08b") for byte in data), 0
    for line in text.splitlines()[1:]:
        place, count, value = line.split()[-3:]
        byte, _, bit = place.partition(".")
        if at != 8 * int(byte) + int(bit):
            raise Wrong(f"at bit {at} there is {line}")
        number = int(bits[at:at + int(count)], 2)
        if value != "SILM" and int(value) % (1 << int(count)) != number:
            raise Wrong(f"the bits are {number}: {line}")
        at += int(count)
    if at != len(bits):
        raise Wrong(f"the map ends at bit {at} of {len(bits)}")


def of_hex(name: str) -> bytes:
    """The bytes of a file of hex digits in tests, where '#' begins a comment and 'XX*N' stands for N times XX."""
    data = b""
    for line in (ROOT / "tests" / name).read_text().splitlines():
        for word in line.partition("#")[0].split():
            digits, _, times = word.partition("*")
            data += bytes.fromhex(digits) * int(times or 1)
    return data


def rows_between(begin: str, end: str) -> list[list[str]]:
    """The cells of the rows of the table in docs/MICROCODE.md between two texts."""
    text = TABLES.read_text().partition(begin)[2].partition(end)[0]
    return [line.strip("| ").split(" | ") for line in text.splitlines() if re.match(r"\| \d", line)]


def check_bytes(begin: str, end: str, data: bytes) -> None:
    """Each row of a table of bytes begins where the one before ends, and has the bytes that stand there."""
    at = 0
    for place, text, *_ in rows_between(begin, end):
        if int(place) != at:
            raise Wrong(f"the row of byte {place} comes after {at} bytes")
        for digits, zeros in re.findall(r"`([0-9a-f ]+)`|(\d+) zero bytes", times_two(text)):
            piece = bytes.fromhex(digits) if digits else bytes(int(zeros))
            if data[at:at + len(piece)] != piece:
                raise Wrong(f"at byte {at} the file has not {digits or 'zeros'}")
            at += len(piece)
    if at != len(data):
        raise Wrong(f"the table ends at byte {at}")


def times_two(text: str) -> str:
    """What stands behind 'twice', twice."""
    before, twice, behind = text.partition("twice ")
    return f"{before} {behind}, {behind}" if twice else text


def check_bits(begin: str, end: str, data: bytes) -> None:
    """The rows of bits follow one another from byte 5 on, and are the bits of the file."""
    bits, at = "".join(format(byte, "08b") for byte in data), 40
    for place, text, _ in rows_between(begin, end):
        byte, _, bit = place.partition(".")
        repeated = re.search(r"(\d+) times", text)
        digits = "".join(re.findall(r"`([01]+)`", text)) * (int(repeated[1]) if repeated else 1)
        if at != 8 * int(byte) + int(bit) or bits[at:at + len(digits)] != digits:
            raise Wrong(f"the row of the bits from {place} on is at bit {at}, where others stand")
        at += len(digits)
    if at != len(bits):
        raise Wrong(f"the table ends at bit {at}")


def check_page() -> None:
    check_bytes("57 bytes in version 2", "After the version its bits", of_hex("increment/packed.hex"))
    check_bits("After the version its bits", "In version 1 it has", of_hex("increment/packed.hex"))
    check_bytes("In version 1 it has", "are these two files", of_hex("increment/increment.hex"))


def check_versions(*names: str) -> None:
    """Two files hold one image, in version 1 and 2, and each is what the image of the other is written as."""
    files = {version: of_hex(name) for version, name in zip(micro_file.VERSIONS, names)}
    for data in files.values():
        image = micro_file.image_of(data)
        if any(micro_file.bytes_of(image, version) != other for version, other in files.items()):
            raise Wrong("an image is written otherwise than by hand")


def check(data: bytes, folder: Path, is_mapped: bool = True) -> None:
    file = folder / "image.mic"
    file.write_bytes(data)
    ways = {"--readmemh": from_readmemh, "--intel": from_intel, "--c": lambda text: from_c(text, folder)}
    for option, read in ways.items():
        if read(said(option, file)) != data:
            raise Wrong(f"{option} has other bytes")
    if is_mapped:
        check_map(said("--map", file), data)


def files() -> Iterator[tuple[str, bytes, bool]]:
    """Microcode with its name, and whether its map is looked at."""
    for file in sorted((ROOT / "tests").glob("*/*.mic")):
        image = micro_file.image_of(file.read_bytes())
        for version in micro_file.VERSIONS:
            yield f"{file.relative_to(ROOT)} in version {version}", micro_file.bytes_of(image, version), True
    yield f"microcode of {LARGE} bytes", crowded(LARGE), False


def main(words: list[str]) -> int:
    if words:
        print(__doc__, file=sys.stderr)
        return 2
    passed = failed = 0
    with tempfile.TemporaryDirectory(prefix="silc-rom-") as folder:
        checks = [("docs/MICROCODE.md", check_page)]
        checks += [(f"{names}", lambda names=names: check_versions(*names)) for names in BY_HAND]
        checks += [(name, lambda one=(data, Path(folder), is_mapped): check(*one)) for name, data, is_mapped in files()]
        for name, one in checks:
            try:
                one()
                passed += 1
            except Wrong as why:
                failed += 1
                print(f"{name}: {why}", flush=True)
    print(f"{passed} passed, {failed} failed")
    return 1 if failed or not passed else 0


if __name__ == "__main__":
    sys.exit(main(sys.argv[1:]))
