"""The operations of the machine: one table of them, by the kind of the unit that does them.

The order of the kinds, and that of a kind's operations, is that of docs/MICROCODE.md. Version 1 of the microcode file
numbers an operation among all of them, version 2 and the processor in Verilog among those of its unit's kind.
"""
from typing import NamedTuple


class Operation(NamedTuple):
    """Its number in version 1, how many of the first ports of its unit it reads, and what it has beside that."""
    name: str
    opcode: int
    reads: int
    is_formatted: bool = False
    is_truth: bool = False
    has_argument: bool = False
    gives: bool = True


class Kind(NamedTuple):
    """A kind of unit: how many ports it has, and its operations in the order of their numbers."""
    ports: int
    operations: tuple[Operation, ...]

    def names(self) -> tuple[str, ...]:
        return tuple(operation.name for operation in self.operations)


TABLE = {
    "in": Kind(0, (Operation("input", 0, 0, has_argument=True),)),
    "out": Kind(1, (Operation("output", 1, 1, has_argument=True, gives=False),)),
    "rom": Kind(0, (Operation("const", 2, 0, has_argument=True),)),
    "alu": Kind(2, (Operation("add", 3, 2, is_formatted=True), Operation("sub", 4, 2, is_formatted=True),
                    Operation("neg", 5, 1, is_formatted=True), Operation("pass", 6, 1, is_formatted=True),
                    Operation("lt", 7, 2, is_truth=True), Operation("le", 8, 2, is_truth=True),
                    Operation("eq", 9, 2, is_truth=True), Operation("ne", 10, 2, is_truth=True),
                    Operation("and", 11, 2, is_truth=True), Operation("or", 12, 2, is_truth=True),
                    Operation("not", 13, 1, is_truth=True))),
    "mul": Kind(2, (Operation("mul", 14, 2, is_formatted=True),)),
    "sel": Kind(3, (Operation("sel", 15, 3),)),
    "ram": Kind(2, (Operation("load", 16, 1), Operation("store", 17, 2, gives=False))),
    "acu": Kind(0, (Operation("addr", 18, 0, has_argument=True),)),
}
KINDS = tuple(TABLE)
PORTS = {name: kind.ports for name, kind in TABLE.items()}
OF_KIND = {name: kind.names() for name, kind in TABLE.items()}
KIND_OF = {operation: kind for kind, operations in OF_KIND.items() for operation in operations}
CALLED = {operation.name: operation for kind in TABLE.values() for operation in kind.operations}
OPCODE = {name: operation.opcode for name, operation in CALLED.items()}
# By their numbers in version 1.
OPERATIONS = tuple(sorted(OPCODE, key=lambda name: OPCODE[name]))

FORMATTED = tuple(name for name, operation in CALLED.items() if operation.is_formatted)
TRUTHS = tuple(name for name, operation in CALLED.items() if operation.is_truth)
WITH_ARGUMENT = tuple(name for name, operation in CALLED.items() if operation.has_argument)
WITHOUT_RESULT = tuple(name for name, operation in CALLED.items() if not operation.gives)


def reads(operation: str) -> int:
    """How many operands an operation reads: those of the first ports of its unit."""
    return CALLED[operation].reads


def number_of(operation: str) -> int:
    """The number of an operation among those of its unit's kind."""
    return OF_KIND[KIND_OF[operation]].index(operation)


def number_bits(kind: str) -> int:
    """How many bits number the operations of a kind. One that is alone needs none."""
    return (len(OF_KIND[kind]) - 1).bit_length()
