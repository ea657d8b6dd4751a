#!/usr/bin/env python3
"""Whether the bounds of `tools/ranges --worst` are bounds: random linear programs against their worst inputs.

usage: tests/design/check_bounds.py [COUNT [SEED]]

A program has sections in four forms with poles up to 1 - 2^-20, combs, allpasses, coupled loops and taps with delays up
to 1,023, one after another or beside each other, with one input or more, that truncate, round or saturate. It is made
as a list of equations, and these are evaluated here, in whole numbers that do not wrap, and in real numbers for the
responses from which the inputs are made that bring an element furthest. No element may pass its bound on them. Where
the responses die out within the samples that are tried, it is also seen how much too great a bound is. Some programs
are compared with reference.py, so that the equations are those of the source. The words of the examples, on their
samples, are compared with their bounds too, and those of the reverberator on its worst input. It runs the built
`silc_show`, or the one that `SILC_SHOW` names.
"""
import itertools
import random
import re
import sys
import time
from collections.abc import Callable, Iterable, Iterator, Sequence
from concurrent.futures import ProcessPoolExecutor
from dataclasses import dataclass
from fractions import Fraction
from pathlib import Path
from typing import Any, TypeAlias

import reference
from silc.designing import ellipsoids
from silc.designing.ellipsoids import Ellipsoid, NoBound, States
from silc.designing.flat import flat_of
from silc.designing.loops import ONE, Sums, are_gains
from silc.designing.programs import rows_of
from silc.designing.shapes import Shape
from silc.designing.systems import System
from silc.designing.unbounded import own_run
from silc.designing.worst import Bound, Worst

# Rows of samples.
Rows: TypeAlias = Iterable[Sequence[float]]

ROOT = Path(__file__).resolve().parent.parent.parent
COUNT, SEED, SECONDS = 200, 1, 0.5
# So many samples are tried, and a response has died out where its last quarter has less than this share.
LENGTH, OVER = 8_000, 1e-4
# A bound that is certified may be so many times what is reached there.
MOST_LOOSE = 1.25
# As many rows of an example are tried, and to such a share of its bound the reverberator is to come.
EXAMPLE_ROWS, NEAR, MAY_WRAP = 300, 0.9999, re.compile("may pass|saturate|inside|follows")


@dataclass(frozen=True)
class Term:
    """A read in an equation, times a word of a shape or as it is, brought to the shape of the equation."""
    source: str
    delay: int = 0
    sign: int = 1
    word: int | None = None
    of: Shape | None = None


@dataclass(frozen=True)
class Equation:
    """A signal as the sum of terms, each cut by its mode."""
    name: str
    shape: Shape
    mode: str
    terms: tuple[Term, ...]


class Program:
    """A random program."""

    def __init__(self, dice: random.Random) -> None:
        self.dice, self.equations, self.shapes, self.constants = dice, [], {}, []
        width = dice.choice((16, 20, 24, 32))
        self.signal = Shape(40 if width == 32 else width + dice.randint(4, 8), width - 1)
        self.inputs = [f"x{number}" for number in range(dice.choice((1, 1, 1, 2, 3)))]
        self.shapes = {name: Shape(width, width - 1) for name in self.inputs}
        self.mode = dice.choice(("trunc", "round", "round", "trunc", "sat", "round,sat") if dice.random() < 0.3
                                else ("trunc", "round"))
        ends = [self.signal_of(name) for name in self.inputs]
        for _ in range(dice.randint(1, 3)):
            ends = [self.block(end) if dice.random() < 0.8 else end for end in ends]
        if len(ends) > 1 or dice.random() < 0.3:
            ends = [self.equation([Term(end, dice.choice((0, 0, dice.randint(1, 1023))), dice.choice((1, -1)))
                                   for end in ends])]
        self.output = ends[0] if ends[0] not in self.inputs else self.signal_of(ends[0])

    def equation(self, terms: Iterable[Term], name: str | None = None, shape: Shape | None = None,
                 mode: str | None = None) -> str:
        name = name or f"s{len(self.equations)}"
        shape = shape or self.signal
        self.equations.append(Equation(name, shape, mode or self.mode, tuple(terms)))
        self.shapes[name] = shape
        return name

    def named(self) -> str:
        return f"s{len(self.equations)}"

    def signal_of(self, name: str) -> str:
        return self.equation([Term(name)])

    def coefficient(self, value: float, places: int | None = None) -> dict[str, Any]:
        """A term's word and shape, near a value."""
        whole = 1 if abs(value) < 1 else 2 if abs(value) < 2 else 4
        places = places or self.dice.choice((10, 14, 15, 22))
        shape = Shape(places + whole, places)
        return {"word": max(shape.least, min(shape.greatest, shape.nearest(value))), "of": shape}

    def block(self, end: str) -> str:
        kind = self.dice.choice((self.direct, self.direct, self.transposed, self.one_pole, self.lattice, self.comb,
                                 self.allpass, self.damped, self.taps, self.coupled))
        return kind(end)

    def poles(self) -> tuple[float, float]:
        """a1, a2 of two poles, real or not."""
        radius = 1 - 2.0 ** -self.dice.choice((1, 2, 3, 4, 5, 6, 7, 8, 9, 10, 12, 15, 20))
        if self.dice.random() < 0.3:
            other = self.dice.uniform(-0.9, 0.9)
            return -(radius + other), radius * other
        turn = self.dice.uniform(0.02, 1.0)
        return -2 * radius * (1 - turn), radius * radius

    def direct(self, end: str) -> str:
        (a1, a2), own = self.poles(), self.named()
        gains = [self.dice.uniform(-0.3, 0.3) for _ in range(3)]
        return self.equation([*(Term(end, delay, 1, **self.coefficient(gain)) for delay, gain in enumerate(gains)),
                              Term(own, 1, -1, **self.coefficient(a1, 24)),
                              Term(own, 2, -1, **self.coefficient(a2, 24))])

    def transposed(self, end: str) -> str:
        (a1, a2), first = self.poles(), len(self.equations)
        y, one, two = (f"s{first + k}" for k in range(3))
        b0, b1, b2 = (self.coefficient(self.dice.uniform(-0.3, 0.3)) for _ in range(3))
        self.equation([Term(end, 0, 1, **b0), Term(one, 1)], y)
        self.equation([Term(end, 0, 1, **b1), Term(y, 0, -1, **self.coefficient(a1, 24)), Term(two, 1)], one)
        self.equation([Term(end, 0, 1, **b2), Term(y, 0, -1, **self.coefficient(a2, 24))], two)
        return y

    def one_pole(self, end: str) -> str:
        pole = self.dice.choice((1, 1, -1)) * (1 - 2.0 ** -self.dice.choice((1, 3, 5, 8, 11, 15, 20)))
        return self.equation([Term(end, 0, 1, **self.coefficient(self.dice.uniform(-0.9, 0.9))),
                              Term(self.named(), 1, 1, **self.coefficient(pole, 24))])

    def lattice(self, end: str) -> str:
        """The two-multiplier lattice with a ladder, of the second order."""
        k1, k2 = (self.coefficient(self.dice.uniform(-0.95, 0.95), 20) for _ in range(2))
        first = len(self.equations)
        f1, f0, g1, g2 = (f"s{first + k}" for k in range(4))
        self.equation([Term(end), Term(g1, 1, -1, **k2)], f1)
        self.equation([Term(f1), Term(f0, 1, -1, **k1)], f0)
        self.equation([Term(f0, 0, 1, **k1), Term(f0, 1)], g1)
        self.equation([Term(f1, 0, 1, **k2), Term(g1, 1)], g2)
        return self.equation([Term(name, 0, 1, **self.coefficient(self.dice.uniform(-0.9, 0.9)))
                              for name in (f0, g1, g2)])

    def comb(self, end: str) -> str:
        return self.equation([Term(end), Term(self.named(), self.dice.randint(1, 1023), 1,
                                              **self.coefficient(self.dice.uniform(-0.95, 0.95)))])

    def allpass(self, end: str) -> str:
        gain, delay = self.coefficient(self.dice.uniform(-0.8, 0.8)), self.dice.randint(1, 1023)
        inner = self.equation([Term(end), Term(self.named(), delay, 1, **gain)])
        return self.equation([Term(inner, delay), Term(inner, 0, -1, **gain)])

    def damped(self, end: str) -> str:
        """A comb with a filter in its loop."""
        first, delay, share = len(self.equations), self.dice.randint(2, 1023), self.dice.uniform(0.1, 0.8)
        y, low = f"s{first}", f"s{first + 1}"
        self.equation([Term(end), Term(low, delay, 1, **self.coefficient(self.dice.uniform(-0.9, 0.9)))], y)
        self.equation([Term(y, 0, 1, **self.coefficient(1 - share)), Term(low, 1, 1, **self.coefficient(share))], low)
        return y

    def taps(self, end: str) -> str:
        delays = self.dice.sample(range(1024), self.dice.randint(1, 6))
        return self.equation([Term(end, delay, 1, **self.coefficient(self.dice.uniform(-0.99, 0.99)))
                              for delay in delays])

    def coupled(self, end: str) -> str:
        """Two loops that feed each other, like the delay lines of a reverberator."""
        first, gain = len(self.equations), self.dice.uniform(0.3, 0.9)
        names, delays = (f"s{first}", f"s{first + 1}"), [self.dice.randint(1, 400) for _ in range(2)]
        turn = self.dice.uniform(0.0, 1.0)
        rows = ((turn, (1 - turn * turn)**0.5), (-((1 - turn * turn)**0.5), turn))
        for name, row in zip(names, rows):
            read = [Term(other, delay, 1, **self.coefficient(gain * share))
                    for other, delay, share in zip(names, delays, row)]
            self.equation([Term(end, self.dice.randint(0, 3)), *read], name)
        return names[1]

    # as a source

    def source(self) -> str:
        lines, tables = [], {}
        for equation in self.equations:
            terms = []
            for term in equation.terms:
                read = f"{term.source}@{term.delay}" if term.delay else term.source
                if term.word is not None:
                    table = tables.setdefault((term.word, term.of), f"c{len(tables)}")
                    read = f"{table} * {read}"
                elif self.shapes[term.source] != equation.shape:
                    read = f"{fix(equation.shape, equation.mode)}({read})"
                terms.append(f" {'+' if term.sign > 0 else '-'} {read}")
            text = "".join(terms).removeprefix(" + ")
            lines.append(f"  {equation.name} = {text.replace(' - ', '-', 1) if text.startswith(' - ') else text};\n")
        made = [f"const {name} : {fix(shape)} = {shape.text(word)};\n" for (word, shape), name in tables.items()]
        inputs = ", ".join(f"{name} : {fix(self.shapes[name])}" for name in self.inputs)
        local = "".join(f"  var {each.name} : {fix(each.shape, each.mode)};\n" for each in self.equations)
        return (f"{''.join(made)}func main({inputs}) y : {fix(self.shapes[self.output])} =\nbegin\n"
                f"{local}{''.join(lines)}"
                f"  y = {self.output};\nend;\n")

    # as functions

    def function(self, is_exact: bool) -> Callable[..., None]:
        """A function of rows that gives the words of all signals, exactly and without wraps, or without rounding
        too."""
        names = [*self.inputs, *(each.name for each in self.equations)]
        lines = [f"  {name} = made['{name}']; put_{name} = {name}.append" for name in names]
        lines += ["  for n, row in rows:", *(f"    put_{name}(row[{k}])" for k, name in enumerate(self.inputs))]
        for each in self.equations:
            text = " ".join(f"{'+' if term.sign > 0 else '-'} {self.text(term, each, is_exact)}" for term in each.terms)
            if is_exact and "sat" in each.mode:
                text = self.saturated(each)
            lines.append(f"    put_{each.name}({text})")
        names_made = {}
        exec("def run(made, rows):\n" + "\n".join(lines), names_made)
        return names_made["run"]

    def text(self, term: Term, equation: Equation, is_exact: bool) -> str:
        read = f"{term.source}[n - {term.delay}]"
        shift = self.shapes[term.source].places - equation.shape.places + (term.of.places if term.of else 0)
        if term.word is None:
            product = read
        else:
            product = f"{read} * {term.word}" if term.word >= 0 else f"{read} * ({term.word})"
        if not is_exact:
            return f"{product} * {2.0**-shift!r}"
        made = f"({product} << {-shift})"
        if shift > 0:
            made = f"({product} + {(1 << shift - 1) if 'round' in equation.mode else 0} >> {shift})"
        if "sat" in equation.mode and (term.word is not None or self.shapes[term.source] != equation.shape):
            made = clipped(made, equation.shape)
        return made

    def saturated(self, equation: Equation) -> str:
        """The sum of an equation that saturates, after each addition."""
        made = ""
        for number, term in enumerate(equation.terms):
            part = self.text(term, equation, True)
            if number:
                made = clipped(f"{made} {'+' if term.sign > 0 else '-'} {part}", equation.shape)
            else:
                made = part if term.sign > 0 else clipped(f"-{part}", equation.shape)
        return made

    def run(self, rows: Sequence[Sequence[float]], is_exact: bool) -> dict[str, list[Any]]:
        """The words of all signals over rows of samples."""
        made = {name: [0] * 1024 for name in (*self.inputs, *(each.name for each in self.equations))}
        self.function(is_exact)(made, enumerate(rows, 1024))
        return {name: words[1024:] for name, words in made.items()}


def fix(shape: Shape, mode: str = "trunc") -> str:
    return f"fix<{shape.width},{shape.places}{'' if mode == 'trunc' else ',' + mode}>"


def clipped(text: str, shape: Shape) -> str:
    return f"max({shape.least}, min({shape.greatest}, {text}))"


@dataclass
class Judged:
    """What became of a program: faults, how loose its bounds are, and how many there were."""
    faults: list[str]
    looseness: list[float]
    bounds: int = 0
    open_ones: int = 0


def judged(seed: int, number: int) -> Judged:
    """A program against the inputs that bring two of its elements furthest."""
    program = Program(random.Random(f"{seed} {number}"))
    source, made = program.source(), Judged([], [])
    bounds = {bound.name: bound for bound in Worst(flat_of(source), SECONDS).bounds()}
    made.bounds, made.open_ones = len(bounds), sum(not bound.is_bound for bound in bounds.values())
    impulses = []
    for number in range(len(program.inputs)):
        row = [0.0] * len(program.inputs)
        impulse = [*row[:number], 1.0, *row[number + 1 :]]
        impulses.append(program.run([impulse, *[row] * (LENGTH - 1)], False))
    names = [each.name for each in program.equations]
    for name in dict.fromkeys((program.output, random.Random(number).choice(names))):
        responses = [made_of[name] for made_of in impulses]
        reached = [0, 0]
        for sign in (1, -1):
            rows = worst_rows(responses, [program.shapes[each] for each in program.inputs], sign)
            words = program.run(rows, True)
            for other, bound in bounds.items():
                own = words[program.output if other == "y" else other]
                if bound.is_bound and not (bound.least <= min(own) and max(own) <= bound.greatest):
                    made.faults.append(f"{other} goes from {min(own)} to {max(own)}, and its bound is {bound.least} to "
                                       f"{bound.greatest}: {source}")
            reached = [min(reached[0], *words[name]), max(reached[1], *words[name])]
        bound = bounds[name]
        span = reached[1] - reached[0]
        if bound.is_bound and all(map(has_died_out, responses)) and "sat" not in program.mode and span > 1000:
            made.looseness.append((bound.greatest - bound.least) / span)
    return made


def worst_rows(responses: Sequence[Sequence[float]], shapes: Sequence[Shape], sign: int) -> list[tuple[int, ...]]:
    columns = [[0 if not x else shape.greatest if x * sign > 0 else shape.least for x in reversed(response)]
               for response, shape in zip(responses, shapes)]
    return list(zip(*columns))


def has_died_out(response: Sequence[float]) -> bool:
    whole = sum(map(abs, response))
    return sum(map(abs, response[-len(response) // 4 :])) <= OVER * whole


def reference_faults(seed: int, numbers: Iterable[int]) -> Iterator[str]:
    """Whether the equations say what the sources do, on samples that are so small that nothing wraps."""
    for number in numbers:
        program, dice = Program(random.Random(f"{seed} {number}")), random.Random(number)
        rows = [tuple(dice.randint(-99, 99) for _ in program.inputs) for _ in range(60)]
        wanted = reference.Program(program.source()).run(rows)
        if [words[0] for words in wanted] != program.run(rows, True)[program.output]:
            yield f"the equations are others than those of the source: {program.source()}"


def bounds_passed(name: str, source: str, bounds: dict[str, Bound], rows: Sequence[tuple[int, ...]]) -> Iterator[str]:
    """Which elements of an example pass a bound on rows of samples, where nothing wraps."""
    for element, words in words_of(source, rows).items():
        bound = bounds.get(element)
        is_claimed = bound and bound.is_bound and not MAY_WRAP.search(bound.said)
        if is_claimed and not (bound.least <= min(words) and max(words) <= bound.greatest):
            yield f"{name}: {element} goes from {min(words)} to {max(words)}, and its bound is {bound}"


def words_of(source: str, rows: Sequence[tuple[int, ...]]) -> dict[str, list[int]]:
    """The words of all elements by their names, as the program has them."""
    elements = flat_of(source).elements
    run = own_run(elements)
    run.over(rows)
    return {element.name: run.block(number) for number, element in enumerate(elements)}


def example_faults(folder: Path) -> list[str]:
    """The same of an example on its samples, and of the reverberator whether its worst input comes near to the
    bound."""
    name = folder.name
    source, rows = (folder / f"{name}.sil").read_text(), rows_of((folder / "samples.txt").read_text())[:EXAMPLE_ROWS]
    worst = Worst(flat_of(source), SECONDS)
    bounds = {bound.name: bound for bound in worst.bounds()}
    faults = list(bounds_passed(name, source, bounds, rows))
    if name == "reverb":
        rows, _ = worst.input_of(bounds["v[3]"])
        faults += bounds_passed(name, source, bounds, rows)
        words = words_of(source, rows)["v[3]"]
        if max(max(words) / bounds["v[3]"].greatest, min(words) / bounds["v[3]"].least) < NEAR:
            faults.append(f"{name}: v[3] goes from {min(words)} to {max(words)} on its worst input")
    return faults


def inequality_faults() -> Iterator[str]:
    """Whether what all bounds rest on is refused where it does not hold: of y = x + y@1 / 2 the sum is 2, and a little
    less is none; and an ellipsoid for it whose sum of squares is wrong gives no tail."""
    half, two = Sums(*(amount // 2 for amount in ONE)), Sums(*(amount * 2 for amount in ONE))
    for gain, is_bound in ((two, True), (two._replace(positive=two.positive - 1), False),
                           (two._replace(either=-1), False)):
        if are_gains({0: {0: gain}}, {0: {0: ONE}}, {0: {0: half}}) != is_bound:
            yield f"the gain {gain} is {'no bound' if is_bound else 'a bound'}"
    flying = {(0, 0): Fraction(1, 2)}
    ellipsoid = Ellipsoid(States(System([[(0, 1, Fraction(1, 2))]]), {0}, flying))
    if not 1 <= ellipsoid.tails(flying)[0]:
        yield "an ellipsoid bounds what comes after by less than it is"

    def nothing(x: ellipsoids.Matrix) -> ellipsoids.Matrix:
        return ellipsoids.each(lambda a: 0 * a, x)
    ellipsoid.summed, ellipsoid.room = nothing, nothing(ellipsoid.room)
    try:
        yield f"an ellipsoid with no sum of squares bounds what comes after by {ellipsoid.tails(flying)}"
    except NoBound:
        pass


def main(words: list[str]) -> int:
    sys.setrecursionlimit(100_000)
    count, seed = (int(words[0]) if words else COUNT), (int(words[1]) if len(words) > 1 else SEED)
    began, made = time.monotonic(), []
    faults = [*inequality_faults(), *reference_faults(seed, range(0, count, 10))]
    examples = sorted(folder for folder in (ROOT / "examples").iterdir() if (folder / f"{folder.name}.sil").is_file())
    with ProcessPoolExecutor() as pool:
        faults += itertools.chain(*pool.map(example_faults, examples))
        for number, one in enumerate(pool.map(judged, itertools.repeat(seed), range(count)), 1):
            made.append(one)
            faults += one.faults
            if number % 50 == 0:
                print(f"bounds: {number} of {count} programs, {time.monotonic() - began:.0f} s", file=sys.stderr)
    loose = [ratio for one in made for ratio in one.looseness]
    if max(loose, default=1) > MOST_LOOSE:
        faults.append(f"a bound is {max(loose)} times what is reached, where {MOST_LOOSE} may be")
    for fault in faults:
        print(fault)
    print(f"bounds: {len(examples)} examples and {count} programs, {sum(one.bounds for one in made)} elements of "
          f"these, "
          f"{sum(one.open_ones for one in made)} without a bound; {len(loose)} with a response that died out, whose "
          f"bounds "
          f"are at most {max(loose, default=1):.4f} times what is reached; {len(faults)} faults")
    return 1 if faults else 0


if __name__ == "__main__":
    sys.exit(main(sys.argv[1:]))
