"""Microcode files for measurements and tests, of units and words. python/silc/micro_file writes their bytes."""
from collections.abc import Iterable, Sequence
from typing import TypeAlias

from silc import micro_file
from silc.micro_file.image import MODES, MOST_PERIOD
from silc.micro_file.operations import FORMATTED, PORTS

# (unit, bus) pairs, and (unit, port, bus, register) quadruples.
Enable: TypeAlias = tuple[int, int]
Transfer: TypeAlias = tuple[int, int, int, int]

OLDEST, NEWEST = 1, micro_file.NEWEST
# What an image takes at most beside its words in version 1.
HEAD, LARGE_HEAD = 20000, 200000


def unit(kind: str, latency: int = 1, gap: int = 1, files: Sequence[Sequence[int]] | None = None,
         cells: Sequence[int] = (), ram: int = 0) -> micro_file.Unit:
    """A unit by what the registers of each port and the cells start with. Without files it has 16 registers a port, all
    0."""
    files = files or [[0] * 16] * PORTS[kind]
    return micro_file.Unit(kind, latency, gap, [list(file) for file in files], list(cells) if kind == "ram" else [],
                           ram if kind == "acu" else None)


def issue(number: int, operation: str, registers: Sequence[int] = (), argument: int = 0, width: int = 24,
          shift: int = 0, mode: int = 0) -> micro_file.Issue:
    """An issue; the format is that of a formatted operation, and none for the others."""
    fmt = micro_file.Format(shift, MODES[mode], width) if operation in FORMATTED else None
    return micro_file.Issue(number, operation, fmt, argument, tuple(registers))


def word(issues: Iterable[micro_file.Issue] = (), enables: Iterable[Enable] = (),
         takes: Iterable[Transfer] = ()) -> micro_file.Word:
    """A microword of issues, (unit, bus) pairs and (unit, port, bus, register) quadruples, each in rising order."""
    return micro_file.Word({one.unit: one for one in issues}, list(enables), [micro_file.Take(*take) for take in takes])


def image(period: int, unroll: int, inputs: Iterable[int], outs: int, units: Iterable[micro_file.Unit], buses: int,
          words: Iterable[micro_file.Word], version: int = OLDEST) -> bytes:
    """The bytes of an image in a version."""
    made = micro_file.Image(period, unroll, list(inputs), outs, list(units), buses, list(words))
    return micro_file.bytes_of(made, version)


def size_of(one: micro_file.Word) -> int:
    """How many bytes a word has in version 1."""
    issues = sum(13 + len(issue.registers) for issue in one.issues.values())
    return 5 + issues + 2 * len(one.enables) + 4 * len(one.takes)


def filled(room: int, units: list[micro_file.Unit], full: micro_file.Word, buses: int, version: int) -> bytes:
    """An image whose words are all the same, as many as there is room for in version 1, and at least four."""
    count = max(4, min(room // size_of(full) // 4 * 4, 4 * MOST_PERIOD))
    return image(count // 4, 4, [16], 1, units, buses, [full] * count, version)


def wide(size: int, version: int = OLDEST) -> bytes:
    """A valid image of about so many bytes in version 1: words full of enables and takes. It is for reading, not for
    running."""
    units = [unit("alu", files=[[0] * 8] * 2) for _ in range(32)]
    enables = [(number, bus) for number in range(32) for bus in range(32)]
    takes = [(number, port, bus, 0) for number in range(32) for port in range(2) for bus in range(8)]
    return filled(size - HEAD, units, word(enables=enables, takes=takes), 32, version)


def crowded(size: int, version: int = OLDEST) -> bytes:
    """A valid image of at most so many bytes in version 1: words full of issues, with no enables or takes. It is for
    reading, not for running."""
    operations = [("in", "input"), ("rom", "const"), ("alu", "add"), ("mul", "mul"), ("sel", "sel"), ("alu", "lt"),
                  ("ram", "store"), ("out", "output")] * 4
    units = [unit(kind, cells=[0] * 16) for kind, _ in operations]
    full = word([issue(number, operation, [number % 16] * PORTS[kind])
                 for number, (kind, operation) in enumerate(operations)])
    return filled(size - HEAD, units, full, 1, version)


def verbose(size: int, version: int = OLDEST) -> bytes:
    """A valid image of at most so many bytes in version 1 whose listing is as long as one can be: takes with three
    digits in each number that may have them."""
    units = [unit("alu", files=[[0] * 256] * 2) for _ in range(32)]
    takes = [(number, port, bus, register) for number in range(20, 32) for port in range(2) for bus in range(10, 32)
             for register in range(254, 256)][:1024]
    return filled(size - LARGE_HEAD, units, word(takes=takes), 32, version)


def roomy(version: int = OLDEST) -> bytes:
    """A valid image of 16 MiB in version 1 that is nearly all cells of memories, of which the last ones are not 0."""
    units = [unit("ram", files=[[0], [0]], cells=[0] * 65535 + [1]) for _ in range(32)]
    return image(1, 1, [16], 1, units, 1, [word()], version)


def busy(period: int = 256, version: int = OLDEST) -> bytes:
    """An image that runs without a conflict: eight units, of which seven drive a bus each cycle."""
    units = [unit("in"), unit("rom"), unit("alu"), unit("alu"), unit("alu"), unit("mul", latency=2),
             unit("sel"), unit("out")]
    files = [(2, 0), (2, 1), (3, 0), (3, 1), (4, 0), (4, 1), (5, 0), (5, 1), (6, 0), (6, 1), (6, 2), (7, 0)]
    words = []
    for cycle in range(period):
        reads = [cycle % 16, (cycle + 5) % 16, (cycle + 9) % 16]
        issues = [
            issue(0, "input", argument=0),
            issue(1, "const", argument=cycle * 977 - 99999),
            issue(2, ("add", "sub", "pass", "lt")[cycle % 4],
                  [reads[0], 0 if cycle % 4 == 2 else reads[1]]),
            issue(3, ("sub", "add")[cycle % 2], reads[:2]),
            issue(4, "add", reads[1:3], shift=1, mode=1),
            issue(5, "mul", reads[:2], shift=12, mode=1),
            issue(6, "sel", reads),
            issue(7, "output", [reads[0]]),
        ]
        drivers = [number for number in range(7) if cycle > 0 or number != 5]
        into = [files[(cycle + 5 * number) % len(files)] for number in drivers]
        takes = sorted((file, port, number, (cycle + number) % 16) for number, (file, port) in zip(drivers, into))
        words.append(word(issues, [(number, number) for number in drivers], takes))
    return image(period, 1, [16], 1, units, 7, words, version)
