#!/usr/bin/env python3
"""Writes the microcode files of the cases, field by field as docs/MICROCODE.md has them; no part of the compiler is
asked. Those of increment/ and place/ are of version 2, which `silc compile` writes, but for add-8-1.mic; all others are
of version 1.

usage: tests/make_microcode.py [--check]

With --check it writes nothing, and ends with 1 where a file holds other bytes.
"""
import sys
from collections.abc import Sequence
from pathlib import Path

from silc.fuzzing.microcode import NEWEST, OLDEST, image, issue, unit, word
from silc.made_files import put_whole
from silc.micro_file import Issue, Unit, Word

HERE = Path(__file__).resolve().parent
EMPTY = word()


def program(period: int, units: list[Unit], words: list[Word], inputs: Sequence[int] = (8,), outs: int = 1,
            unroll: int = 1, buses: int = 2, version: int = OLDEST) -> bytes:
    """The bytes of an image whose last words are empty."""
    return image(period, unroll, inputs, outs, units, buses, words + [EMPTY] * (period * unroll - len(words)), version)


# The programs y = x + n and y = x - n over the datapath of examples/increment


def plain_units(output_latency: int = 1) -> list[Unit]:
    return [unit("in"), unit("rom"), unit("alu", files=[[0] * 8] * 2),
            unit("out", output_latency, output_latency, files=[[0] * 2])]


def plain_words(width: int, operation: str, number: int) -> list[Word]:
    """Each value goes over bus 0 to register 0: the input, the number, their sum or difference, the output."""
    return [
        word([issue(0, "input")], [(0, 0)], [(2, 0, 0, 0)]),
        word([issue(1, "const", argument=number)], [(1, 0)], [(2, 1, 0, 0)]),
        word([issue(2, operation, [0, 0], width=width)], [(2, 0)], [(3, 0, 0, 0)]),
        word([issue(3, "output", [0])]),
    ]


def one_line(width: int, operation: str, number: int, version: int = NEWEST) -> bytes:
    return program(16, plain_units(), plain_words(width, operation, number), inputs=(width,), buses=1, version=version)


# Programs with one fault


def faulty(number: int, changed: Word, output_latency: int = 1, more_units: Sequence[Unit] = ()) -> bytes:
    """y = x + 1 with another word in the place of one."""
    words = plain_words(8, "add", 1) + [EMPTY]
    words[number] = changed
    return program(16, plain_units(output_latency) + list(more_units), words, buses=1)


def taken_twice() -> bytes:
    """y = x + 1 whose sum is taken twice: by the output and by register 1 at 2.0, which nothing reads. No fault."""
    return faulty(2, word([issue(2, "add", [0, 0], width=8)], [(2, 0)], [(2, 0, 0, 1), (3, 0, 0, 0)]))


def out_of_memory(address: int) -> bytes:
    """A load from a ram of one cell, beside the input."""
    ram = unit("ram", files=[[address], [0]], cells=[0])
    return faulty(0, word([issue(0, "input"), issue(4, "load", [0, 0])], [(0, 0)], [(2, 0, 0, 0)]), more_units=[ram])


def address_from_input() -> bytes:
    """y = cell x of a ram of two cells, which holds 10 and 20."""
    units = [unit("in"), unit("ram", files=[[0], [0]], cells=[10, 20]), unit("out", files=[[0]])]
    words = [
        word([issue(0, "input")], [(0, 0)], [(1, 0, 0, 0)]),
        word([issue(1, "load", [0, 0])], [(1, 0)], [(2, 0, 0, 0)]),
        word([issue(2, "output", [0])]),
    ]
    return program(4, units, words)


# Programs that show what happens at once


def read_and_written() -> bytes:
    """An addition reads a register in the cycle in which the input is written to it."""
    units = [unit("in"), unit("alu", files=[[3], [0]]), unit("out", files=[[0]])]
    words = [
        word([issue(0, "input"), issue(1, "pass", [0, 0], width=8)], [(0, 0), (1, 1)], [(1, 0, 0, 0), (2, 0, 1, 0)]),
        word([issue(2, "output", [0])]),
    ]
    return program(2, units, words)


def overlap() -> bytes:
    """A load of three cycles overlaps a store of two to another ram, which is read in the store's last cycle and in the
    next."""
    units = [unit("in"), unit("ram", 3, files=[[0], [0]], cells=[7, 9]),
             unit("ram", 2, files=[[0], [8]], cells=[5]), unit("out", files=[[0] * 3])]
    words = [
        word([issue(1, "load", [0, 0])]),
        word([issue(2, "store", [0, 0])]),
        word([issue(2, "load", [0, 0])], [(1, 0)], [(3, 0, 0, 0)]),
        word([issue(2, "load", [0, 0]), issue(3, "output", [0])], [(2, 1)], [(3, 0, 1, 1)]),
        word([issue(3, "output", [1], argument=1)], [(2, 1)], [(3, 0, 1, 2)]),
        word([issue(3, "output", [2], argument=2)]),
    ]
    return program(6, units, words, outs=3)


def one_latch_twice() -> bytes:
    """Two output units write one latch in one cycle, the first 4 and the second 6."""
    units = [unit("out", files=[[4]]), unit("out", files=[[6]])]
    return program(1, units, [word([issue(0, "output", [0]), issue(1, "output", [0])])])


def sliding_addresses(offset: int) -> bytes:
    """The address of an offset in a ram of three cells."""
    units = [unit("acu", ram=1), unit("ram", files=[[0], [0]], cells=[0] * 3), unit("out", files=[[0]])]
    words = [word([issue(0, "addr", argument=offset)], [(0, 0)], [(2, 0, 0, 0)]), word([issue(2, "output", [0])])]
    return program(3, units, words)


def modes() -> bytes:
    """The outputs are x / 16 in 8 bits, in each mode in turn, of a word of 40 bits."""
    units = [unit("in"), unit("alu", files=[[0], [0]]), unit("out", files=[[0]])]
    words = [word([issue(0, "input")], [(0, 0)], [(1, 0, 0, 0)])]
    for mode in range(4):
        outputs = [issue(2, "output", [0], argument=mode - 1)] if mode else []
        words.append(word([issue(1, "pass", [0, 0], width=8, shift=4, mode=mode), *outputs], [(1, 1)], [(2, 0, 1, 0)]))
    return program(6, units, [*words, word([issue(2, "output", [0], argument=3)])], inputs=(40,), outs=4)


def products() -> bytes:
    """The outputs are -x / 2^39, with the least word of 40 bits as a factor, and x * x. Both saturate in 40 bits."""
    least = -(1 << 39)
    units = [unit("in"), unit("mul", 2, files=[[0], [least, 0]]), unit("out", files=[[0]])]
    words = [
        word([issue(0, "input")], [(0, 0)], [(1, 0, 0, 0), (1, 1, 0, 1)]),
        word([issue(1, "mul", [0, 0], width=40, shift=78, mode=3)]),
        word([issue(1, "mul", [0, 1], width=40, mode=2)], [(1, 1)], [(2, 0, 1, 0)]),
        word([issue(2, "output", [0])], [(1, 1)], [(2, 0, 1, 0)]),
        word([issue(2, "output", [0], argument=1)]),
    ]
    return program(5, units, words, inputs=(40,), outs=2)


# Programs of several samples or channels


def accumulator() -> bytes:
    """y = y@1 + x, where y was 5 before the first sample: the sum stays in register 0 of the first port."""
    units = [unit("in"), unit("alu", files=[[5], [0]]), unit("out", files=[[0]])]
    words = [
        word([issue(0, "input")], [(0, 0)], [(1, 1, 0, 0)]),
        word([issue(1, "add", [0, 0], width=8)], [(1, 0)], [(1, 0, 0, 0), (2, 0, 0, 0)]),
        word([issue(2, "output", [0])]),
    ]
    return program(16, units, words)


def difference() -> bytes:
    """y = x - x@1: the words of even and odd samples keep x in two registers in turn."""
    units = [unit("in"), unit("alu", files=[[0], [0] * 2]), unit("out", files=[[0]])]
    words = []
    for own, last in ((0, 1), (1, 0)):
        words += [
            word([issue(0, "input")], [(0, 0)], [(1, 0, 0, 0)]),
            word([issue(1, "sub", [0, last], width=8)], [(1, 0)], [(2, 0, 0, 0)]),
            word([issue(1, "pass", [0, 0], width=8), issue(2, "output", [0])], [(1, 0)], [(1, 1, 0, own)]),
            EMPTY,
        ]
    return program(4, units, words, unroll=2)


def two_channels() -> bytes:
    """p = !b and q = x, of a word of 8 bits and a truth value."""
    units = [unit("in"), unit("alu", files=[[0], [0]]), unit("out", files=[[0] * 2])]
    words = [
        word([issue(0, "input", argument=1)], [(0, 0)], [(1, 0, 0, 0)]),
        word([issue(0, "input"), issue(1, "not", [0, 0])], [(0, 0), (1, 1)], [(2, 0, 1, 0)]),
        word([issue(0, "input"), issue(2, "output", [0])], [(0, 0)], [(2, 0, 0, 1)]),
        word([issue(2, "output", [1], argument=1)]),
    ]
    return program(4, units, words, inputs=(8, 0), outs=2)


def four_negations() -> bytes:
    """p = -a, q = -b, r = -c and s = -z@1 over tests/place/negations.toml, by the plan of docs/PLANNING.md, "Registers
    that are given": a and b are in register 0, and c and z in register 1."""
    units = [unit("in"), unit("alu", files=[[0] * 2, [0]]), unit("out", files=[[0]])]

    def read(number: int) -> Issue:
        return issue(0, "input", argument=number)

    def negated(register: int) -> Issue:
        return issue(1, "neg", [register, 0], width=8)

    def put(number: int) -> Issue:
        return issue(2, "output", [0], argument=number)

    to_output = (2, 0, 1, 0)
    words = [
        EMPTY,
        word([read(0)], [(0, 0)], [(1, 0, 0, 0)]),
        word([negated(1)], [(1, 1)], [to_output]),
        word([read(2), negated(0), put(3)], [(0, 0), (1, 1)], [(1, 0, 0, 1), to_output]),
        word([read(1), put(0)], [(0, 0)], [(1, 0, 0, 0)]),
        EMPTY,
        EMPTY,
        EMPTY,
        word([negated(1)], [(1, 1)], [to_output]),
        word([read(3), put(2)], [(0, 0)], [(1, 0, 0, 1)]),
        EMPTY,
        EMPTY,
        word([negated(0)], [(1, 1)], [to_output]),
        word([put(1)]),
    ]
    return program(16, units, words, inputs=(8, 8, 8, 8), outs=4, version=NEWEST)


FILES = {
    f"increment/{operation}-{width}-{number}.mic": one_line(width, operation, number)
    for width in (1, 8, 15, 16) for operation in ("add", "sub") for number in sorted({0, 2 ** (width - 1) - 1})
} | {
    "increment/add-8-1.mic": one_line(8, "add", 1, OLDEST),
    "machine/busy.mic": faulty(4, word([issue(3, "output", [0])]), 2),
    "machine/two-drivers.mic": faulty(2, word([issue(2, "add", [0, 0], width=8)], [(1, 0), (2, 0)], [(3, 0, 0, 0)])),
    "machine/file-twice.mic": faulty(0, word([issue(0, "input")], [(0, 0)], [(2, 0, 0, 0), (2, 0, 0, 1)])),
    "machine/taken-twice.mic": taken_twice(),
    "machine/no-driver.mic": faulty(0, word([issue(0, "input")], [], [(2, 0, 0, 0)])),
    "machine/no-result.mic": faulty(4, word([], [(0, 0)])),
    "machine/address-above.mic": out_of_memory(1),
    "machine/address-below.mic": out_of_memory(-1),
    "machine/address-from-input.mic": address_from_input(),
    "machine/read-and-written.mic": read_and_written(),
    "machine/overlap.mic": overlap(),
    "machine/one-latch-twice.mic": one_latch_twice(),
    "machine/sliding-addresses.mic": sliding_addresses(1),
    "machine/sliding-addresses-above.mic": sliding_addresses(4),
    "machine/sliding-addresses-far-above.mic": sliding_addresses(65533),
    "machine/modes.mic": modes(),
    "machine/products.mic": products(),
    "machine/accumulator.mic": accumulator(),
    "machine/difference.mic": difference(),
    "machine/two-channels.mic": two_channels(),
    "place/negations.mic": four_negations(),
}


def main(words: list[str]) -> int:
    if words not in ([], ["--check"]):
        print(__doc__, file=sys.stderr)
        return 2
    if not words:
        for name, data in FILES.items():
            put_whole(HERE / name, data)
        return 0
    others = [name for name, data in FILES.items() if not (HERE / name).is_file() or (HERE / name).read_bytes() != data]
    for name in others:
        print(f"tests/{name} is not what tests/make_microcode.py writes")
    return 1 if others else 0


if __name__ == "__main__":
    sys.exit(main(sys.argv[1:]))
