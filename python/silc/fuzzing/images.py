"""Random microcode: images of a random datapath whose words meet no conflict, and the same with one."""
from collections.abc import Iterator
from dataclasses import dataclass, field
from random import Random

from silc import micro_file
from silc.fuzzing.expressions import BOOL, MODES, Type
from silc.micro_file.image import RAW
from silc.micro_file.operations import FORMATTED, KINDS, OF_KIND, PORTS, reads


@dataclass
class Unit(micro_file.Unit):
    """A unit, and the cycles in which it is issued."""
    issued: list[int] = field(default_factory=list)


@dataclass
class Word:
    """A microword that is not finished: issues by unit, (unit, bus) pairs, (unit, port, bus, register) quadruples."""
    issues: dict[int, micro_file.Issue] = field(default_factory=dict)
    enables: set[tuple[int, int]] = field(default_factory=set)
    takes: set[tuple[int, int, int, int]] = field(default_factory=set)

    def finished(self) -> micro_file.Word:
        takes = [micro_file.Take(*take) for take in sorted(self.takes)]
        return micro_file.Word(dict(sorted(self.issues.items())), sorted(self.enables), takes)


class Image:
    def __init__(self, rng: Random) -> None:
        self.rng = rng
        self.period, self.unroll = rng.choice([1, 2, 3, 7, 16, 40]), rng.choice([1, 1, 2, 4])
        self.inputs = [rng.choice([BOOL] + [Type(width) for width in (1, 8, 16, 32, 40)])
                       for _ in range(rng.randint(1, 4))]
        self.outs = rng.randint(1, 4)
        self.units = self.random_units()
        self.buses = rng.randint(1, 5)
        self.words = [Word() for _ in range(self.period * self.unroll)]
        for cycle in range(len(self.words)):
            self.fill(cycle)

    def random_word(self) -> int:
        return self.rng.choice([0, 1, -1, self.rng.randint(-200, 200), self.rng.randint(*RAW), *RAW])

    def first_words(self, count: int) -> list[int]:
        """What so many registers or cells start with, often zeros alone."""
        return [0] * count if self.rng.random() < 0.4 else [self.random_word() for _ in range(count)]

    def random_units(self) -> list[Unit]:
        rng = self.rng
        kinds = [rng.choice(KINDS) for _ in range(rng.randint(1, 9))]
        rams = [number for number, kind in enumerate(kinds) if kind == "ram"]
        kinds = [kind if kind != "acu" or rams else "in" for kind in kinds]
        return [self.random_unit(kind, rng.choice(rams) if kind == "acu" else None) for kind in kinds]

    def random_unit(self, kind: str, ram: int | None) -> Unit:
        rng = self.rng
        latency = rng.choice([1, 1, 2, 3, 8])
        cells = self.first_words(rng.choice([1, 2, 5])) if kind == "ram" else []
        files = [self.first_words(rng.choice([1, 2, 4])) for _ in range(PORTS[kind])]
        if kind == "ram":
            files[0] = [rng.randrange(len(cells)) for _ in files[0]]
        return Unit(kind, latency, rng.randint(1, latency), files, cells, ram)

    # Words

    def fill(self, cycle: int) -> None:
        for number, unit in enumerate(self.units):
            if self.can_issue(unit, cycle) and self.rng.random() < 0.5:
                self.words[cycle].issues[number] = self.issue(number, unit)
                unit.issued.append(cycle)
        self.drive(cycle)

    def can_issue(self, unit: Unit, cycle: int) -> bool:
        """Whether the unit's gap is kept, also to its first operation in the next turn of the program."""
        if len(self.words) < unit.gap:
            return False
        return not unit.issued or (cycle - unit.issued[-1] >= unit.gap
                                   and unit.issued[0] + len(self.words) - cycle >= unit.gap)

    def issue(self, number: int, unit: Unit) -> micro_file.Issue:
        rng, operation = self.rng, self.rng.choice(OF_KIND[unit.kind])
        argument = {"input": rng.randrange(len(self.inputs)), "output": rng.randrange(self.outs),
                    "const": self.random_word(), "addr": rng.choice([0, 1, 5, 65535])}.get(operation, 0)
        form = None
        if operation in FORMATTED:
            shift, width = rng.choice([0, 0, 1, -3, 12, -40, 80]), rng.choice([1, 8, 16, 32, 40])
            form = micro_file.Format(shift, rng.choice(MODES), width)
        registers = [rng.randrange(len(file)) if port < reads(operation) else 0 for port, file in enumerate(unit.files)]
        return micro_file.Issue(number, operation, form, argument, tuple(registers))

    def results(self, cycle: int) -> Iterator[int]:
        """The units that have a result in a cycle of each turn, the first turn too."""
        for number, unit in enumerate(self.units):
            begun = cycle - unit.latency + 1
            issue = self.words[begun].issues.get(number) if begun >= 0 else None
            if issue and issue.gives():
                yield number

    def drive(self, cycle: int) -> None:
        rng, word = self.rng, self.words[cycle]
        free = list(range(self.buses))
        rng.shuffle(free)
        for driver in self.results(cycle):
            while free and rng.random() < 0.7:
                bus = free.pop()
                word.enables.add((driver, bus))
                self.take(word, driver, bus)

    def take(self, word: Word, driver: int, bus: int) -> None:
        """Files take from the bus, each from one bus at most, and addresses from an acu of their ram alone."""
        taken = {(unit, port) for unit, port, _, _ in word.takes}
        for number, unit in enumerate(self.units):
            for port, file in enumerate(unit.files):
                is_address = unit.kind == "ram" and port == 0
                by_acu = self.units[driver].kind == "acu" and self.units[driver].ram == number
                if (number, port) not in taken and (by_acu or not is_address) and self.rng.random() < 0.4:
                    word.takes.add((number, port, bus, self.rng.randrange(len(file))))

    # One conflict

    def spoil(self) -> None:
        """Changes one word, so that it most often asks for what the hardware can't do."""
        rng, word = self.rng, self.rng.choice(self.words)
        way = rng.randrange(4)
        if way == 0:
            word.enables.add((rng.randrange(len(self.units)), rng.randrange(self.buses)))
        elif way == 1:
            ports = [(number, port) for number, unit in enumerate(self.units) for port in range(len(unit.files))]
            if ports:
                number, port = rng.choice(ports)
                word.takes.add((number, port, rng.randrange(self.buses),
                                rng.randrange(len(self.units[number].files[port]))))
        elif way == 2:
            number = rng.randrange(len(self.units))
            word.issues[number] = self.issue(number, self.units[number])
        else:
            for unit in self.units:
                if unit.kind == "ram":
                    unit.files[0][0] = rng.choice([-1, len(unit.cells), RAW[0]])

    # What it is

    def finished(self) -> micro_file.Image:
        words = [word.finished() for word in self.words]
        widths = [type_.width or 0 for type_ in self.inputs]
        return micro_file.Image(self.period, self.unroll, widths, self.outs, [*self.units], self.buses, words)
