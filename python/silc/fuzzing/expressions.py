"""Random expressions of the language that fit a wanted type."""
from collections.abc import Callable
from dataclasses import dataclass
from fractions import Fraction
from random import Random

# How tightly the outermost operator of a text binds.
OR, AND, COMPARISON, SUM, PRODUCT, SHIFT, UNARY, PRIMARY = range(8)
COMPARISONS = ("<", "<=", "==", "!=", ">", ">=")
MODES = ("trunc", "round", "sat", "round,sat")


@dataclass(frozen=True)
class Type:
    """A word of so many bits and places; a truth value has no width."""
    width: int | None
    places: int = 0
    mode: str = "trunc"

    @property
    def shape(self) -> tuple[int | None, int]:
        return self.width, self.places

    @property
    def greatest(self) -> int:
        return 1 if self.width is None else 2 ** (self.width - 1) - 1

    @property
    def least(self) -> int:
        return 0 if self.width is None else -2 ** (self.width - 1)

    def text(self, rng: Random) -> str:
        if self.width is None:
            return "bool"
        mode = f" , {self.mode.replace(',', ' , ')}" if self.mode != MODES[0] or rng.random() < 0.2 else ""
        return f"fix < {self.width} , {self.places}{mode} >"


BOOL = Type(None)


@dataclass(frozen=True)
class Text:
    """An expression, and how tightly its outermost operator binds."""
    text: str
    level: int = PRIMARY

    def at(self, level: int) -> str:
        return self.text if self.level >= level else f"( {self.text} )"


@dataclass(frozen=True)
class Signal:
    name: str
    dims: tuple[int, ...]
    type: Type

    def elements(self) -> int:
        count = 1
        for dim in self.dims:
            count *= dim
        return count

    def declared(self, rng: Random) -> str:
        return f"{self.declared_name()} : {self.type.text(rng)}"

    def declared_name(self) -> str:
        return " ".join([self.name, *(f"[ {dim} ]" for dim in self.dims)])


def number(rng: Random, shape: Type) -> str:
    """A number with its nearest raw word in the range of a shape."""
    least, greatest = shape.least, shape.greatest
    while True:
        raw = rng.choice([0, 1, -1, least, greatest, rng.randint(least, greatest), rng.randint(least, greatest)])
        value = Fraction(raw, 2 ** shape.places)
        places = rng.choice([0, 1, 2, 4]) if shape.places else rng.choice([0, 0, 0, 1])
        scaled = round(abs(value) * 10 ** places)
        sign = -1 if value < 0 else 1
        nearest = (Fraction(sign * scaled * 2 ** shape.places, 10 ** places) * 2 + 1) // 2
        if least <= nearest <= greatest and len(str(scaled)) < 18:
            break
    digits = str(scaled).rjust(places + 1, "0")
    text = f"{digits[:-places]}.{digits[-places:]}" if places else digits
    return f"- {text}" if sign < 0 else text


class Manifests:
    """Random manifest numbers over the indices of the loops round a place."""

    def __init__(self, rng: Random) -> None:
        self.rng = rng
        self.indices: dict[str, tuple[int, int]] = {}

    def within(self, low: int, high: int) -> str:
        """A manifest number that is from low to high in each turn."""
        rng = self.rng
        for _ in range(3 if self.indices and rng.random() < 0.8 else 0):
            name, (first, last) = rng.choice(list(self.indices.items()))
            add = rng.randint(-3, 3)
            form, ends = rng.choice([
                (f"{name} + {add}" if add >= 0 else f"{name} - {-add}", (first + add, last + add)),
                (f"{high} - {name}", (high - last, high - first)),
                (f"2 * {name} - {add}" if add >= 0 else f"2 * {name} + {-add}", (2 * first - add, 2 * last - add)),
                (name, (first, last)), (f"- ( - {name} )", (first, last)),
            ])
            if low <= min(ends) and max(ends) <= high:
                return form
        value = rng.randint(low, high)
        return str(value) if value >= 0 or rng.random() < 0.5 else f"0 - {-value}"

    def amount(self, low: int, high: int) -> str:
        """One as a delay or a shift has it: a whole number, an index, or in parentheses."""
        form = self.within(low, high)
        return form if form.isalnum() else f"( {form} )"

    def subscripts(self, dims: tuple[int, ...]) -> str:
        return "".join(f" [ {self.within(0, dim - 1)} ]" for dim in dims)


class Expressions:
    """Expressions over the signals of a function. `ready` may be read in the same sample, each of `signals` with a
    delay; `fixed` are texts of single elements that may be read, with their types."""

    def __init__(self, rng: Random, shapes: list[Type], longest_delay: int) -> None:
        self.rng, self.shapes, self.longest_delay = rng, shapes, longest_delay
        self.manifests = Manifests(rng)
        self.ready: list[Signal] = []
        self.signals: list[Signal] = []
        self.tables: list[Signal] = []
        self.fixed: list[tuple[str, Type]] = []

    def of(self, wanted: Type, depth: int) -> Text:
        """An expression that fits the wanted type."""
        return self.truth(depth) if wanted.width is None else self.word(wanted, depth)

    def reads(self, wanted: Type) -> list[str]:
        """Texts that may be read where a type is wanted, each once."""
        rng, reads = self.rng, []
        fits = [signal for signal in self.ready + self.tables if signal.type.shape == wanted.shape]
        if fits:
            signal = rng.choice(fits)
            delay = " @ 0" if signal in self.ready and rng.random() < 0.05 else ""
            reads.append(signal.name + self.manifests.subscripts(signal.dims) + delay)
        past = [signal for signal in self.signals if signal.type.shape == wanted.shape]
        if past:
            signal, delay = rng.choice(past), self.manifests.amount(1, self.longest_delay)
            reads.append(f"{signal.name}{self.manifests.subscripts(signal.dims)} @ {delay}")
        return reads + [text for text, type_ in self.fixed if type_.shape == wanted.shape]

    def cast(self, wanted: Type, depth: int) -> Text:
        source = self.rng.choice(self.shapes)
        part = self.rng.choice([lambda: self.owned(source, depth - 1), lambda: self.product(depth - 1),
                                lambda: Text(number(self.rng, wanted))])() if depth else Text(number(self.rng, wanted))
        return Text(f"{wanted.text(self.rng)} ( {part.text} )")

    def leaf(self, wanted: Type, is_owned: bool) -> Text:
        reads = self.reads(wanted)
        if reads and (is_owned or self.rng.random() < 0.8):
            return Text(self.rng.choice(reads))
        return self.cast(wanted, 0) if is_owned else Text(number(self.rng, wanted))

    def owned(self, wanted: Type, depth: int) -> Text:
        """An expression with a type of its own, which has the wanted shape."""
        if depth <= 0 or self.rng.random() < 0.2:
            return self.leaf(wanted, True)
        return self.rng.choice([self.sum_, self.sum_, self.negation, self.shift, self.cast, self.choice_of_own])(
            wanted, depth)

    def word(self, wanted: Type, depth: int) -> Text:
        if depth <= 0 or self.rng.random() < 0.15:
            return self.leaf(wanted, False)
        return self.rng.choice([self.sum_, self.sum_, self.negation, self.shift, self.cast, self.choice_of_own,
                                lambda wanted, depth: self.product(depth), lambda wanted, depth: self.product(depth)])(
            wanted, depth)

    def sum_(self, wanted: Type, depth: int) -> Text:
        left, right = self.owned(wanted, depth - 1), self.word(wanted, depth - 1)
        return Text(f"{left.at(SUM)} {self.rng.choice('+-')} {right.at(PRODUCT)}", SUM)

    def negation(self, wanted: Type, depth: int) -> Text:
        return Text(f"- {self.owned(wanted, depth - 1).at(UNARY)}", UNARY)

    def shift(self, wanted: Type, depth: int) -> Text:
        amount = self.manifests.amount(0, self.rng.choice([1, 4, 31]))
        return Text(f"{self.owned(wanted, depth - 1).at(SHIFT)} {self.rng.choice(['<<', '>>'])} {amount}", SHIFT)

    def product(self, depth: int) -> Text:
        """A product: its factors have types of their own, but for a number."""
        left_type, right_type = self.rng.choice(self.shapes), self.rng.choice(self.shapes)
        left, right = self.owned(left_type, depth - 1), self.owned(right_type, depth - 1)
        if self.rng.random() < 0.4:
            right = Text(number(self.rng, left_type), UNARY)
        elif self.rng.random() < 0.2:
            left = Text(number(self.rng, right_type), UNARY)
        return Text(f"{left.at(PRODUCT)} * {right.at(SHIFT)}", PRODUCT)

    def choice(self, branch: Callable[[], Text], depth: int) -> Text:
        conditions = [self.truth(depth - 1) for _ in range(self.rng.choice([1, 1, 2]))]
        parts = " || ".join(f"{condition.text} -> {branch().text}" for condition in conditions)
        return Text(f"if {parts} || {branch().text} fi")

    def choice_of_own(self, wanted: Type, depth: int) -> Text:
        return self.choice(lambda: self.owned(wanted, depth - 1), depth)

    def comparison(self, depth: int) -> Text:
        shape = self.rng.choice(self.shapes)
        sides = [self.owned(shape, depth - 1), self.word(shape, depth - 1)]
        if not sides[1].level == PRODUCT and self.rng.random() < 0.3:
            sides[1] = Text(number(self.rng, shape), UNARY)
        return Text(f"{sides[0].at(SUM)} {self.rng.choice(COMPARISONS)} {sides[1].at(SUM)}", COMPARISON)

    def truth(self, depth: int) -> Text:
        rng = self.rng
        if depth <= 0 or rng.random() < 0.1:
            reads = self.reads(BOOL)
            return Text(rng.choice(reads) if reads and rng.random() < 0.9 else rng.choice(["true", "false"]))
        kind = rng.choice("ccc&|!i")
        if kind == "c":
            return self.comparison(depth)
        if kind == "!":
            return Text(f"! {self.truth(depth - 1).at(UNARY)}", UNARY)
        if kind == "i":
            return self.choice(lambda: self.truth(depth - 1), depth)
        left, right = self.truth(depth - 1), self.truth(depth - 1)
        if kind == "&":
            return Text(f"{left.at(AND)} & {right.at(COMPARISON)}", AND)
        return Text(f"{left.at(OR)} | {right.at(AND)}", OR)
