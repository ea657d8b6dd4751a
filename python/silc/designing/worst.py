"""The worst case of a program: between which words each element stays by any input, as long as nothing wraps.

The inputs, the errors of rounding and what is not linear are sources, whose words lie between two numbers. Each adds to
an element what the sums of its response allow (`certified`), and constants and initial values add what they do.
"""
import math
import random
from dataclasses import dataclass
from fractions import Fraction

from silc.designing.certified import Certified, System
from silc.designing.flat import Flat, flat_of
from silc.designing.impulses import Response
from silc.designing.linear import LINEAR, Check, Choice, Linear, Range, fitted, range_of, shifted
from silc.designing.loops import WORD_PLACES, Clock
from silc.designing.programs import Unrun, evaluated
from silc.designing.shapes import Shape
from silc.designing.sources import words_of_main
from silc.designing.unbounded import Passed, Run, order_of, own_run, unbounded_run
from silc.sure import sure

# How often the ranges of what is not linear are made smaller by those of what goes in.
PASSES = 4
# In which share of the time the responses to the inputs are summed, and those to the errors, of which 2^-ROUGH may be
# bounded. Nothing of them is summed where they come to such a share of what the inputs do anyway.
INPUT_SHARE, ERROR_SHARE, ROUGH, FEW = 0.5, 0.7, 7, Fraction(1, 1 << 12)
TRUTH = 0, 1
# So much time there is where none is given, and of the last bit so much is left out of the worst input.
SECONDS, LEFT_OUT = 4.0, Fraction(1, 2)
# Of an element without a bound inputs of so many samples are tried, and so many rows are compared with those of `silc
# eval`.
TRIED_LENGTH, COMPARED = 2048, 16
PASSES_RANGE, SATURATES, INSIDE, FOLLOWS = "may pass its range", "may saturate", "may overflow inside", "follows"
AT_LEAST, PASSED, UNLINEAR = "at least", "passes its range", "not linear"


def size_of(of: Range) -> Fraction:
    """The greatest magnitude in a range."""
    return Fraction(max(abs(end) for end in of))


@dataclass
class Bound:
    """Between which words an element stays, or, where that is not known, which words an input brings it to."""
    name: str
    shape: Shape
    least: int
    greatest: int
    said: str
    is_bound: bool
    is_moved: bool
    number: int
    is_linear: bool

    def share(self) -> float:
        """How much of the range may be used."""
        return max(self.greatest / max(self.shape.greatest, 1), self.least / self.shape.least)

    def is_nothing(self) -> bool:
        """Whether the element is known to be 0 always."""
        return self.is_bound and FOLLOWS not in self.said and not self.least and not self.greatest


class Reaches:
    """The linear system of a program, with the sums of its responses, and how far each of its nodes gets."""

    def __init__(self, linear: Linear, seconds: float):
        self.linear = linear
        self.certified = Certified(System(linear.terms()), seconds)
        self.ranges = {node: self.input_range(node) for node in linear.inputs}
        self.ranges |= {node: range_of(width) if (width := linear.widths[node]) else TRUTH for node in linear.choices}
        self.norms = dict(zip(self.ranges, self.certified.norms([unit(node) for node in self.ranges], INPUT_SHARE)))
        self.fixed = [(Fraction(0), Fraction(0))] * len(linear.forms)
        self.unbounded: set[int] = set()
        self.add_errors()
        self.add_offsets()
        self.unbounded |= {node for made in self.norms.values() for node, norm in made.items() if not norm.is_bound}
        self.narrow()

    def input_range(self, node: int) -> Range:
        width = self.linear.widths[node]
        return range_of(width) if width else TRUTH

    def widen(self, node: int, least: Fraction, greatest: Fraction) -> None:
        self.fixed[node] = self.fixed[node][0] + least, self.fixed[node][1] + greatest

    def add_errors(self) -> None:
        """What all errors of rounding together may come to."""
        zero = Fraction(0)
        errors = {node: (min(form.least, zero), max(form.greatest, zero)) for node, form in enumerate(self.linear.forms)
                  if form.least or form.greatest}
        few: dict[int, Fraction] = {}
        for source in self.linear.inputs:
            most = size_of(self.ranges[source]) * FEW
            for node, norm in self.norms[source].items():
                few[node] = few.get(node, zero) + norm.summed * most
        found, unbounded = self.certified.spread(errors, ERROR_SHARE, ROUGH, few)
        for node, ends in found.items():
            self.widen(node, *ends)
        self.unbounded |= unbounded

    def add_offsets(self) -> None:
        """What constants and initial values come to."""
        kicks = [(node, 0, form.constant) for node, form in enumerate(self.linear.forms) if form.constant]
        for target, terms in enumerate(self.linear.terms()):
            for node, delay, factor in terms:
                initials = self.linear.elements[node].initials if node < len(self.linear.elements) else {}
                for back, word in initials.items():
                    if back <= delay and word:
                        kicks += [(target, delay - back, factor * word), (target, delay - back + 1, -factor * word)]
        for node, offset in (self.certified.offsets(kicks) if kicks else {}).items():
            self.widen(node, offset.least, offset.greatest)
            if not offset.is_bound:
                self.unbounded.add(node)

    def narrow(self) -> None:
        """Makes the ranges of what is not linear as small as what goes in allows."""
        for _ in range(PASSES):
            before = dict(self.ranges)
            self.reaches = [self.reach(node) for node in range(len(self.linear.forms))]
            for node, choice in self.linear.choices.items():
                self.ranges[node] = self.chosen(choice)[0]
            if before == self.ranges:
                return
        self.reaches = [self.reach(node) for node in range(len(self.linear.forms))]

    def reach(self, node: int) -> Range | None:
        """The least and the greatest word of a node, or nothing where it has no bound."""
        if node in self.unbounded:
            return None
        least, greatest = self.fixed[node]
        for source, made in self.norms.items():
            if node in made:
                ends = made[node].reach(*(Fraction(end) for end in with_zero(self.ranges[source])))
                least, greatest = least + ends[0], greatest + ends[1]
        return math.ceil(least), math.floor(greatest)

    def word_range(self, node: int) -> Range:
        """What the words of a node are between, also where it wraps."""
        width, reach = self.linear.widths[node], self.reaches[self.canonical(node)]
        whole = range_of(width) if width else TRUTH
        return reach if reach and is_within(reach, whole) else whole

    def canonical(self, node: int) -> int:
        """The node that has the words of an element."""
        return self.linear.node_of[node] if node < len(self.linear.elements) else node

    def chosen(self, choice: Choice) -> tuple[Range, Range | None]:
        """The range of what is not linear, and what it would be without an end of its words."""
        operation, width = choice.operation, choice.operation.width
        if operation.name not in (*LINEAR, "sel"):
            return TRUTH, TRUTH
        parts = [(word, word) if is_constant else self.word_range(word) for is_constant, word in choice.operands]
        if operation.name == "sel":
            made = min(parts[1][0], parts[2][0]), max(parts[1][1], parts[2][1])
            return made, made
        if operation.name == "mul":
            ends = [shifted(a * b, operation) for a in parts[0] for b in parts[1]]
            free: Range | None = (min(ends), max(ends))
        else:
            free = self.reaches[self.canonical(choice.operands[0][1])]
        if "sat" in operation.mode and free:
            return (fitted(free[0], operation), fitted(free[1], operation)), free
        return free if free and is_within(free, range_of(width)) else range_of(width), free

    def passes(self, check: Check) -> bool:
        reach = self.reaches[check.node]
        return reach is None or not is_within(reach, range_of(check.width))


def unit(node: int) -> list[tuple[int, int, Fraction]]:
    return [(node, 0, Fraction(1))]


def with_zero(ends: Range) -> Range:
    return min(ends[0], 0), max(ends[1], 0)


def is_within(inner: Range, outer: Range) -> bool:
    return outer[0] <= inner[0] and inner[1] <= outer[1]


class Worst:
    """The bounds of a program, in so much time."""

    def __init__(self, flat: Flat, seconds: float):
        self.flat, self.order, self.seconds = flat, order_of(flat.elements), seconds
        bent: frozenset = frozenset()
        while True:
            self.linear = Linear(flat, self.order, bent)
            self.reaches = Reaches(self.linear, seconds / 2 if self.linear.saturating else seconds)
            passed = {name for name, check in self.linear.saturating.items() if self.reaches.passes(check)}
            if passed <= bent:
                break
            bent |= passed
        self.said = self.kinds()
        # Of a node without a bound the length of the inputs that were tried.
        self.lengths: dict[int, int] = {}

    def kinds(self) -> dict[int, str]:
        """What is to be said of nodes that may pass their ranges. What saturates may have a part that wraps."""
        made: dict[int, str] = {}
        nodes, wrapping = self.linear.node_of, set()
        for check in self.linear.checks:
            if self.reaches.passes(check):
                own = SATURATES if check.is_saturating else PASSES_RANGE
                node = nodes[check.element]
                made[node] = own if check.is_last else made.get(node, INSIDE)
                wrapping |= set() if check.is_saturating else {node}
        for node, choice in self.linear.choices.items():
            free = self.reaches.chosen(choice)[1]
            if choice.operation.name == "mul" and not (free and is_within(free, range_of(choice.operation.width))):
                own, owner = SATURATES if "sat" in choice.operation.mode else PASSES_RANGE, nodes[choice.element]
                made[owner] = own if node == choice.element else made.get(owner, INSIDE)
                wrapping |= {owner} if own is PASSES_RANGE else set()
        return made | {node: f"{SATURATES}, {INSIDE}" for node in wrapping if made[node] == SATURATES}

    def followers(self) -> set[int]:
        """The elements behind one that may wrap."""
        readers: list[list[int]] = [[] for _ in self.flat.elements]
        for number, element in enumerate(self.flat.elements):
            for read, _ in element.reads():
                readers[read].append(number)
        queue = [number for number, node in enumerate(self.linear.node_of)
                 if self.said.get(node, SATURATES) != SATURATES]
        found: set[int] = set()
        for number in queue:
            for reader in readers[number]:
                if reader not in found:
                    found.add(reader)
                    queue.append(reader)
        return found

    def bounds(self) -> list[Bound]:
        """Those of all elements but the inputs and the truth values."""
        followers, inputs = self.followers(), set(self.flat.inputs)
        tried = self.tried() if self.reaches.unbounded else {}
        return [self.bound(number, followers, tried) for number, element in enumerate(self.flat.elements)
                if element.shape and number not in inputs]

    def shown(self, number: int) -> int:
        """The node whose reach is told of an element: that of what goes in where it saturates."""
        node = self.linear.node_of[number]
        choice = self.linear.choices.get(node)
        if choice and choice.operation.name == "pass":
            return self.reaches.canonical(choice.operands[0][1])
        return node

    def bound(self, number: int, followers: set[int], tried: dict[int, Range]) -> Bound:
        element, node = self.flat.elements[number], self.shown(number)
        shape = sure(element.shape)
        reach, choice = self.reaches.reaches[node], self.linear.choices.get(node)
        if choice and choice.operation.name == "mul":
            reach = self.reaches.chosen(choice)[1]
        is_bound = reach is not None
        least, greatest = tried[number] if reach is None else reach
        said = self.said.get(self.linear.node_of[number], "")
        if not is_bound and said in (PASSES_RANGE, ""):
            said = "" if is_within((least, greatest), range_of(shape.width)) else PASSED
        said = said or (FOLLOWS if number in followers else "")
        is_linear = not any(node in self.reaches.norms[source] for source in self.linear.choices)
        marks = [AT_LEAST] * (not is_bound) + [said] * bool(said) + [UNLINEAR] * (not is_linear)
        return Bound(element.name, shape, least, greatest, ", ".join(marks), is_bound,
                     self.linear.constants[number] is None, number, is_linear)

    # Inputs

    def words_of(self, node: int, length: int) -> list[list[int]]:
        """The responses of a node to the inputs, in units of no meaning."""
        system, made = self.reaches.certified.system, []
        for source in self.linear.inputs:
            response = Response(system, [(system.rank[source], 0, Fraction(1))], WORD_PLACES)
            made.append(response.run(length, system.rank[node]))
        return made

    def rows(self, node: int, length: int, sign: int) -> list[tuple[int, ...]]:
        """The rows of samples of such a length that bring a node up most at the last of them, or down."""
        ends = [self.reaches.ranges[source] for source in self.linear.inputs]
        columns = [[0 if not word else greatest if word * sign > 0 else least for word in reversed(words)]
                   for words, (least, greatest) in zip(self.words_of(node, length), ends)]
        return list(zip(*columns))

    def input_of(self, bound: Bound) -> tuple[list[tuple[int, ...]], str]:
        """The rows of samples that bring an element nearest to its bound at the last of them, and what to say of
        them."""
        node = self.shown(bound.number)
        if not any(node in self.reaches.norms[source] for source in self.linear.inputs):
            raise ValueError(f"no input reaches {bound.name}")
        sign, said = 1 if bound.greatest >= -bound.least else -1, f"the worst input of {bound.name} has"
        if node in self.reaches.unbounded:
            length = self.lengths[node]
            return self.rows(node, length, sign), f"{said} {length} samples; a longer one may bring it further"
        certified = Certified(self.reaches.certified.system, self.seconds)
        weights = [size_of(self.reaches.ranges[source]) for source in self.linear.inputs]
        length, left = certified.length([unit(source) for source in self.linear.inputs], weights, node, LEFT_OUT)
        said += f" {length} samples"
        if left is None or left > LEFT_OUT:
            further = f"at most {math.ceil(left)} words" if left is not None else "it is not known how far"
            said += f", for which there was time; a longer one may bring it further, {further}"
        return self.rows(node, length, sign), said

    def tried(self) -> dict[int, Range]:
        """Which words elements without a bound have on inputs of some length, as long as there is time, the last
        first."""
        clock, nodes = Clock(self.seconds), {self.shown(number) for number in range(len(self.flat.elements))}
        made = {number: (0, 0) for number in range(len(self.flat.elements))}
        rank = self.reaches.certified.system.rank
        for node in sorted(nodes & self.reaches.unbounded, key=lambda node: -rank[node]):
            self.lengths[node] = 0
            for sign in (1, -1) if clock.left > 0 else ():
                run = self.run_on(node, sign)
                for number, (least, greatest) in made.items() if run else ():
                    words = sure(run).block(number)
                    made[number] = min(least, *words), max(greatest, *words)
        return made

    def run_on(self, node: int, sign: int) -> Run | None:
        """A run on the input that brings a node furthest, of as many samples as its words are not too great for."""
        saturating, length = frozenset(element for element, _ in self.linear.bent), TRIED_LENGTH
        while length:
            run = unbounded_run(self.flat.elements, saturating)
            try:
                run.over(self.rows(node, length, sign))
                self.lengths[node] = length
                return run
            except Passed:
                length //= 4
        return None


def worst_of(source: str, seconds: float) -> Worst:
    """The bounds of a source, once its elements were tried against the program."""
    dice = random.Random(0)
    inputs, _ = words_of_main(source)
    rows = [tuple(dice.randint(*(TRUTH if shape is None else (shape.least, shape.greatest))) for shape in inputs)
            for _ in range(COMPARED)]
    put, flat = evaluated(source, rows), flat_of(source)
    run = own_run(flat.elements)
    run.over(rows)
    if list(zip(*map(run.block, flat.outputs))) != put:
        raise Unrun("its words are not the rows of silc eval, which is a fault of this tool")
    return Worst(flat, seconds)


def chosen(bounds: list[Bound], name: str | None) -> Bound:
    """The bound of an element, or the tightest one of what is linear and no constant."""
    if name is None:
        fit = [bound for bound in bounds if bound.is_linear and bound.is_moved]
        if not fit:
            raise ValueError("no element is linear")
        return max(fit, key=lambda bound: bound.share())
    named = [bound for bound in bounds if bound.name == name]
    if not named:
        raise ValueError(f"there is no element {name}")
    if not named[0].is_linear:
        raise ValueError(f"{name} is behind what is not linear, so its worst input is not known")
    return named[0]
