"""Images for tests of cores: random ones with a fixed seed, and directed ones for what is rare in these.

An image is a list of units and words as python/silc/fuzzing/microcode.py writes them, beside the samples to run.
Directed ones are of version 1 of the microcode file, the others of both in turn.
"""
import random
from collections.abc import Iterator, Sequence
from typing import Any, TypeAlias

from silc.fuzzing.microcode import PORTS, image, issue, unit, word
from silc.micro_file import Issue, Unit, Word, image_of

# Rows of words.
Rows: TypeAlias = list[list[int]]
# The microcode of an image, and rows to run it on.
Tried: TypeAlias = tuple[bytes, Rows]
# The same with a name before it.
Named: TypeAlias = tuple[str, bytes, Rows]

SEED = 41
OF_KIND = {"in": ["input"], "out": ["output"], "rom": ["const"], "mul": ["mul"], "sel": ["sel"],
           "ram": ["load", "store"], "acu": ["addr"], "alu": "add sub neg pass lt le eq ne and or not".split()}
READS = {"neg": 1, "pass": 1, "not": 1, "load": 1}
HALF = 1 << 39
MODES = TRUNC, ROUND, SAT, ROUND_SAT = range(4)


class Maker:
    """Makes an image without a structural hazard, and mostly without an address outside of its memory."""

    def __init__(self, seed: int) -> None:
        self.random = random.Random(seed)
        self.period, self.unroll = self.random.choice((1, 2, 3, 5, 8, 13)), self.random.choice((1, 1, 2, 4))
        self.circle = self.period * self.unroll
        self.inputs = [self.random.choice((0, 1, 8, 16, 32, 40)) for _ in range(self.random.randint(1, 3))]
        self.outs, self.buses = self.random.randint(1, 3), self.random.randint(1, 5)
        self.units = self.some_units()
        self.began = {}

    def number(self) -> int:
        """A raw word, often a small or an extreme one."""
        return self.random.choice((self.random.randint(-HALF, HALF - 1), self.random.randint(-3, 3), HALF - 1, -HALF,
                                   0))

    def some_units(self) -> list[dict[str, Any]]:
        kinds = ["in", "out", *self.random.choices(list(OF_KIND), k=self.random.randint(1, 7))]
        if "acu" in kinds and "ram" not in kinds:
            kinds.append("ram")
        self.random.shuffle(kinds)
        made = []
        for kind in kinds:
            latency = self.random.choice((1, 1, 2, 3, 5))
            made.append({"kind": kind, "latency": latency, "gap": self.random.randint(1, latency),
                         "files": [self.first_words(kind, port) for port in range(PORTS[kind])]})
        rams = [number for number, one in enumerate(made) if one["kind"] == "ram"]
        for one in made:
            if one["kind"] == "ram":
                one["cells"] = [self.number() for _ in range(self.random.choice((1, 2, 3, 7, 8, 21)))]
            if one["kind"] == "acu":
                one["ram"] = self.random.choice(rams)
        return made

    def first_words(self, kind: str, port: int) -> list[int]:
        size = self.random.choice((1, 1, 2, 3, 4, 9))
        return [0] * size if (kind, port) == ("ram",
                                              0) or self.random.random() < 0.4 else [self.number() for _ in range(size)]

    def an_issue(self, number: int) -> tuple[str, Issue]:
        one = self.units[number]
        operation = self.random.choice(OF_KIND[one["kind"]])
        count = READS.get(operation, PORTS[one["kind"]])
        registers = [self.random.randrange(len(file)) if port < count else 0 for port, file in enumerate(one["files"])]
        argument = {"input": self.random.randrange(len(self.inputs)), "output": self.random.randrange(self.outs),
                    "const": self.number(), "addr": self.random.choice((0, 1, 5, 65535))}.get(operation, 0)
        shift = self.random.choice((0, 0, 1, 7, 15, 31, 32, 40, 63, 64, 80, -1, -9, -40))
        made = issue(number, operation, registers, argument, self.random.choice((1, 2, 8, 16, 24, 32, 39, 40)), shift,
                     self.random.choice(MODES))
        return operation, made

    def may_begin(self, number: int, cycle: int) -> bool:
        """Whether the unit is free in this cycle of each circle."""
        gap, taken = self.units[number]["gap"], self.began.setdefault(number, {})
        near = {(cycle + back) % self.circle for back in range(1 - gap, gap)}
        return gap <= self.circle and not near & set(taken)

    def choose_issues(self) -> list[list[Issue]]:
        """Issues for each cycle of the circle. Nothing begins whose result would come from a circle before the
        first."""
        issues = [[] for _ in range(self.circle)]
        for cycle in range(self.circle):
            for number in range(len(self.units)):
                if self.random.random() < 0.75 and self.may_begin(number, cycle):
                    operation, made = self.an_issue(number)
                    self.began[number][cycle] = operation
                    issues[cycle].append(made)
        return issues

    def with_result(self, cycle: int) -> Iterator[int]:
        """The units that have a result in this cycle of the first circle, and so in each."""
        for number, one in enumerate(self.units):
            begin = cycle - one["latency"] + 1
            if begin >= 0 and self.began.get(number, {}).get(begin, "store") not in ("store", "output"):
                yield number

    def moves(self, cycle: int) -> tuple[list[tuple[int, int]], list[tuple[int, int, int, int]]]:
        """Enables and takes. The address of a ram is taken of its own acu alone, or now and then of anything."""
        enables, takes, driver = [], [], {}
        results = list(self.with_result(cycle))
        for bus in range(self.buses):
            if results and self.random.random() < 0.8:
                driver[bus] = self.random.choice(results)
                enables.append((driver[bus], bus))
        for number, one in enumerate(self.units):
            for port, file in enumerate(one["files"]):
                fitting = [bus for bus, by in driver.items() if self.is_fitting(number, port, by)]
                if fitting and self.random.random() < 0.7:
                    takes.append((number, port, self.random.choice(fitting), self.random.randrange(len(file))))
        return sorted(enables), sorted(takes)

    def is_fitting(self, number: int, port: int, driver: int) -> bool:
        if (self.units[number]["kind"], port) != ("ram", 0):
            return True
        return self.units[driver].get("ram") == number or self.random.random() < 0.01

    def image(self, version: int) -> bytes:
        issues = self.choose_issues()
        words = [word(issues[cycle], *self.moves(cycle)) for cycle in range(self.circle)]
        units = [unit(one["kind"], one["latency"], one["gap"], one["files"], one.get("cells", ()), one.get("ram", 0))
                 for one in self.units]
        return image(self.period, self.unroll, self.inputs, self.outs, units, self.buses, words, version)

    def samples(self, count: int = 12) -> Rows:
        return [[word_in(self.random, width) for width in self.inputs] for _ in range(count)]


def word_in(source: random.Random, width: int) -> int:
    if not width:
        return source.randint(0, 1)
    half = 1 << (width - 1)
    return source.choice((source.randint(-half, half - 1), half - 1, -half))


def random_images(count: int) -> Iterator[Named]:
    """Names, microcode and samples."""
    for number in range(count):
        maker = Maker(SEED * 1000 + number)
        yield f"random {number}", maker.image(1 + number % 2), maker.samples()


class Breaker(Maker):
    """Makes an image that now and then breaks each rule of a microprogram, often behind the first circle alone."""

    def may_begin(self, number: int, cycle: int) -> bool:
        return super().may_begin(number, cycle) or self.random.random() < 0.02

    def with_result(self, cycle: int) -> Iterator[int]:
        """With those whose result comes from a circle before, which the first one has not, and some without a
        result."""
        for number, one in enumerate(self.units):
            began = self.began.get(number, {}).get((cycle - one["latency"] + 1) % self.circle, "store")
            if began not in ("store", "output") and (cycle >= one["latency"] - 1 or self.random.random() < 0.1) or \
                    self.random.random() < 0.01:
                yield number

    def moves(self, cycle: int) -> tuple[list[tuple[int, int]], list[tuple[int, int, int, int]]]:
        enables, takes = super().moves(cycle)
        units = range(len(self.units))
        ports = [(unit, port) for unit in units for port, _ in enumerate(self.units[unit]["files"])]
        enables += [(self.random.choice(units), self.random.randrange(self.buses)) for _ in range(self.few())]
        takes += [(*self.random.choice(ports), self.random.randrange(self.buses), 0) for _ in range(self.few())]
        return sorted(set(enables)), sorted(set(takes))

    def few(self) -> int:
        """How often a rule is broken in a cycle: mostly not, or more often, so that a place has to be chosen."""
        return self.random.choices((0, 1, 6), (60, 1, 2))[0]


def broken_images(count: int) -> Iterator[Named]:
    """Names, microcode and samples of images that mostly have a structural hazard."""
    for number in range(count):
        maker = Breaker(SEED * 2000 + number)
        yield f"broken {number}", maker.image(1 + number % 2), maker.samples(16)


# Directed


EMPTY = word()
FEW, TRUTHS = [[number] for number in (0, 1, 2, 1, 3, 0, 7, -1, 5)], [[number] for number in (0, 1, 1, 0)]
RAMP = [[number] for number in (5, -7, 100, -128, 127, 0, 1, -1, 64, 33)]


def program(period: int, units: list[Unit], words: list[Word], inputs: Sequence[int] = (8,), outs: int = 1,
            unroll: int = 1, buses: int = 2) -> bytes:
    return image(period, unroll, inputs, outs, units, buses, words + [EMPTY] * (period * unroll - len(words)))


def latch_twice(first_latency: int, second_latency: int, samples: Rows = RAMP) -> Tried:
    """Two output units end on one latch at one edge, begun in different cycles where their latencies differ."""
    units = [unit("out", first_latency, files=[[4]]), unit("in"), unit("out", second_latency, files=[[6]])]
    most = max(first_latency, second_latency)
    words = [[] for _ in range(most + 1)]
    words[most - first_latency].append(issue(0, "output", [0]))
    words[most - second_latency].append(issue(2, "output", [0]))
    words[0].append(issue(1, "input"))
    made = [word(one, [(1, 0)] if cycle == 0 else [], [(2, 0, 0, 0)] if cycle == 0 else [])
            for cycle, one in enumerate(words)]
    return program(most + 1, units, made), samples


def memory_at(latency: int, distance: int, samples: Rows = RAMP) -> Tried:
    """A store, and a load of the same cell `distance` cycles later; its result goes out in a later cycle."""
    units = [unit("in"), unit("ram", latency, files=[[1], [0]], cells=[11, 22, 33]), unit("out", files=[[0]])]
    period = distance + latency + 4
    words = [[[], [], []] for _ in range(period)]
    words[0] = [[issue(0, "input")], [(0, 0)], [(1, 1, 0, 0)]]
    words[1][0].append(issue(1, "store", [0, 0]))
    words[1 + distance][0].append(issue(1, "load", [0, 0]))
    words[distance + latency][1].append((1, 1))
    words[distance + latency][2].append((2, 0, 1, 0))
    words[1 + distance + latency][0].append(issue(2, "output", [0]))
    return program(period, units, [word(*one) for one in words]), samples


def shifted(operation: str, shift: int, mode: int, width: int, first: int = 0, latency: int = 1) -> Tried:
    """One operation in one format, of the input and a first word."""
    kind = "mul" if operation == "mul" else "alu"
    units = [unit("in"), unit(kind, latency, files=[[0], [first]]), unit("out", files=[[0]])]
    words = [[[], [], []] for _ in range(latency + 3)]
    words[0] = [[issue(0, "input")], [(0, 0)], [(1, 0, 0, 0)]]
    registers = [0, 0]
    words[1][0].append(issue(1, operation, registers, 0, width, shift, mode))
    words[latency][1].append((1, 1))
    words[latency][2].append((2, 0, 1, 0))
    words[latency + 1][0].append(issue(2, "output", [0]))
    samples = [[number]
               for number in (0, 1, -1, HALF - 1, -HALF, 12345, -54321, 1 << 38, (1 << 38) - 1, -(1 << 38) - 1)]
    return program(latency + 3, units, [word(*one) for one in words], inputs=(40,)), samples


def first_everywhere() -> Tried:
    """First words in registers that nothing takes, that are taken later, in cells, of a choice and of an output."""
    units = [unit("in"), unit("sel", 2, files=[[1, 0], [-5, 9], [7]]),
             unit("ram", 2, files=[[2, 0], [-9]], cells=[5, -6, 7]),
             unit("out", files=[[-3, 4]]), unit("out", 3, files=[[1]])]
    words = [
        word([issue(0, "input"), issue(1, "sel", [0, 1, 0]), issue(2, "load", [0, 0]), issue(3, "output", [0])]),
        word([issue(4, "output", [0], 1)], [(1, 0), (2, 1)], [(1, 0, 1, 0), (3, 0, 0, 1)]),
        word([issue(2, "store", [1, 0]), issue(3, "output", [1], 2)]),
        word([issue(2, "load", [1, 0])]),
        word([], [(2, 0)], [(3, 0, 0, 0)]),
    ]
    return program(5, units, words, outs=3), RAMP


def truths(operation: str) -> Tried:
    """A truth value and a word, by one operation, and the same turned round by a selector."""
    units = [unit("in"), unit("alu", files=[[0], [0]]), unit("sel", files=[[0], [0], [0]]), unit("out", files=[[0], ])]
    words = [
        word([issue(0, "input")], [(0, 0)], [(1, 0, 0, 0), (2, 1, 0, 0)]),
        word([issue(0, "input", [], 1)], [(0, 0)], [(1, 1, 0, 0), (2, 2, 0, 0)]),
        word([issue(1, operation, [0, 0])], [(1, 1)], [(2, 0, 1, 0), (3, 0, 1, 0)]),
        word([issue(2, "sel", [0, 0, 0]), issue(3, "output", [0])], [(2, 0)], [(3, 0, 0, 0)]),
        word([issue(3, "output", [0], 1)]),
    ]
    samples = [[truth, number] for truth in (0, 1) for number in (0, 1, -1, 127, -128)]
    return program(5, units, words, inputs=(0, 8), outs=2), samples


def rings(cells: int, unroll: int) -> Tried:
    """Addresses of a circular buffer with offsets above and below its cells, stored and loaded each sample."""
    units = [unit("in"), unit("acu", 2, ram=2), unit("ram", files=[[0, 0], [0]], cells=list(range(1, cells + 1))),
             unit("out", files=[[0]])]
    words = []
    for _ in range(unroll):
        words += [
            word([issue(0, "input"), issue(1, "addr", [], 0)], [(0, 0)], [(2, 1, 0, 0)]),
            word([issue(1, "addr", [], cells + 1)], [(1, 1)], [(2, 0, 1, 0)]),
            word([issue(2, "store", [0, 0])], [(1, 1)], [(2, 0, 1, 1)]),
            word([issue(2, "load", [1, 0])], [(2, 0)], [(3, 0, 0, 0)]),
            word([issue(3, "output", [0])]),
        ]
    return program(5, units, words, unroll=unroll), RAMP + RAMP


def stray_address(cycle: int) -> Tried:
    """The input is an output and the address of a load, in this cycle of a sample of four. One is outside of the
    memory."""
    units = [unit("in"), unit("ram", files=[[0], [0]], cells=[10, 20]), unit("out", files=[[0]])]
    words = [[[], [], []] for _ in range(4)]
    words[0] = [[issue(0, "input")], [(0, 0)], [(1, 0, 0, 0), (2, 0, 0, 0)]]
    words[1][0].append(issue(2, "output", [0]))
    words[cycle][0].insert(0, issue(1, "load", [0, 0]))
    return program(4, units, [word(*one) for one in words]), [[0], [1], [0], [5], [1], [0]]


def load_and_store(first: int, cells: list[int], operation: str, inputs: Sequence[int] = (8,),
                   latency: int = 1) -> bytes:
    """The input is an output and the address of a load or a store, whose memory gives nothing; its file starts so."""
    units = [unit("in"), unit("ram", latency, files=[[first], [0]], cells=cells), unit("out", files=[[0]])]
    words = [word([issue(0, "input")], [(0, 0)], [(1, 0, 0, 0), (1, 1, 0, 0), (2, 0, 0, 0)]),
             word([issue(1, operation, [0, 0]), issue(2, "output", [0])])]
    return program(3, units, words, inputs)


def without_effect() -> Iterator[tuple[str, bytes]]:
    """Names and images in which much has no effect, or nothing is done at all, or only where an address is outside."""
    yield "nothing", program(1, [unit("in")], [EMPTY])
    yield "nothing in four cycles", program(4, [unit("in"), unit("out", files=[[0]])], [EMPTY], outs=3)
    yield "a first word", program(2, [unit("out", files=[[7, 3]])], [word([issue(0, "output", [1])])])
    for operation in ("load", "store"):
        yield f"{operation}, three cells", load_and_store(0, [1, 2, 3], operation)
        yield f"{operation}, 16 cells and a truth value", load_and_store(-1, [1] * 16, operation, (0,), 2)
        yield f"{operation}, inside", load_and_store(1, [1] * 16, operation, (0,))
        yield f"{operation}, words of 4 bits", load_and_store(0, [1] * 4, operation, (4,))
    units = [unit("rom"), unit("alu", files=[[0], [0]]), unit("out", files=[[0]]), unit("out", files=[[0]])]
    signs = [word([issue(0, "const", argument=255), issue(1, "add", [0, 0])], [(0, 0)], [(1, 0, 0, 0), (2, 0, 0, 0)]),
             word([issue(0, "const", argument=-1), issue(1, "lt", [0, 0])], [(0, 0)], [(3, 0, 0, 0)]),
             word([issue(2, "output", [0]), issue(3, "output", [0], 1)])]
    yield "a byte and a sign", program(4, units, signs, outs=2)


def directed_images() -> Iterator[Named]:
    """Names, microcode and samples."""
    made = [(f"latch twice {a} {b}", latch_twice(a, b)) for a, b in ((1, 1), (1, 3), (3, 1), (2, 2))]
    made += [(f"memory {latency} {distance}", memory_at(latency, distance)) for latency in (1, 2, 3)
             for distance in (1, 2, 3, 4)]
    made += [(f"{operation} {shift} {mode} {width}", shifted(operation, shift, mode, width, first, latency))
             for operation, shift, mode, width, first, latency in (
                 ("add", 41, TRUNC, 40, 1, 1), ("add", 41, ROUND, 40, HALF - 1, 2), ("add", 80, ROUND, 40, -HALF, 1),
                 ("sub", 80, TRUNC, 1, -HALF, 3), ("pass", 40, ROUND, 8, 0, 1), ("neg", -40, TRUNC, 40, 0, 1),
                 ("neg", 0, TRUNC, 40, 0, 2), ("mul", 80, TRUNC, 40, -HALF, 1), ("mul", 80, ROUND, 40, -HALF, 2),
                 ("mul", 79, ROUND, 1, -HALF, 3), ("mul", 39, ROUND, 40, -HALF, 5), ("mul", -40, TRUNC, 40, 3, 4),
                 ("pass", 1, ROUND, 1, 0, 1), ("add", 1, ROUND, 40, -1, 1),
                 ("add", 0, SAT, 40, 1, 1), ("sub", 0, SAT, 40, 1, 2), ("neg", 0, SAT, 40, 0, 1),
                 ("pass", -1, SAT, 40, 0, 1),
                 ("pass", -40, SAT, 40, 0, 2), ("pass", 80, ROUND_SAT, 40, 0, 1), ("pass", 0, SAT, 1, 0, 1),
                 ("pass", 1, ROUND_SAT, 1, 0, 1), ("pass", 9, ROUND_SAT, 31, 0, 1), ("pass", 32, ROUND_SAT, 8, 0, 3),
                 ("mul", 39, SAT, 40, -HALF, 1), ("mul", 39, ROUND_SAT, 40, HALF - 1, 2), ("mul", 0, SAT, 40, -3, 1),
                 ("mul", -40, SAT, 40, -1, 4), ("add", 1, ROUND_SAT, 39, HALF - 1, 1),
                 ("add", 1, ROUND_SAT, 40, HALF - 1, 1))]
    made += [("first words everywhere", first_everywhere())]
    made += [(f"truth input {operation}", truths(operation))
             for operation in ("and", "or", "not", "lt", "le", "eq", "ne")]
    made += [(f"ring of {cells}, unroll {unroll}", rings(cells, unroll))
             for cells, unroll in ((1, 1), (3, 2), (4, 4), (7, 1))]
    made += [(f"stray address {cycle}", stray_address(cycle)) for cycle in (1, 3)]
    made += [(f"idle: {name}", (microcode, FEW if image_of(microcode).inputs[0] else TRUTHS))
             for name, microcode in without_effect()]
    for name, (microcode, samples) in made:
        yield name, microcode, samples
