"""Numbers that are written in a source before it is linked: `{W - 1}`, `{2 ** -K}`, `{P // 2 ** k % 2 for k in 0 ..
15}`.

They are exact. A number with a fraction is written with as many digits as a number of the language has at most, to the
nearest.
"""
from __future__ import annotations

import math
import re
from collections.abc import Callable, Mapping
from fractions import Fraction

TOKEN = re.compile(r"\s*(?:(?P<number>\d+(?:\.\d+)?)|(?P<name>[A-Za-z_]\w*)|(?P<sign>\*\*|//|[-+*/%(),]))", re.A)
LISTED = re.compile(r"(?P<number>.*)\bfor\s+(?P<index>[A-Za-z_]\w*)\s+in\b(?P<low>.*)\.\.(?P<high>.*)", re.S | re.A)
# The digits of a number of the language; how large an exponent and a list may be, how many bits a number may have on
# the way, and how deep parentheses may be.
MOST_DIGITS, MOST_POWER, MOST_LISTED, MOST_BITS, DEEPEST = 18, 256, 8192, 4096, 32
Numbers = Mapping[str, Fraction]


class NoNumber(ValueError):
    """Why a text is no number."""


class Sum:
    """A text as a sum of numbers, read from left to right."""

    def __init__(self, text: str, numbers: Numbers) -> None:
        self.text, self.numbers, self.at, self.depth = text, numbers, 0, 0

    def value(self) -> Fraction:
        made = self.sum()
        if self.text[self.at:].strip():
            raise NoNumber(f"`{self.text[self.at:].strip()}` is not expected there")
        return made

    def next(self, *signs: str) -> str | None:
        """The next sign, where it is one of these, and goes on behind it."""
        found = TOKEN.match(self.text, self.at)
        if not found or found["sign"] not in signs:
            return None
        self.at = found.end()
        return found["sign"]

    def expect(self, sign: str) -> None:
        if not self.next(sign):
            raise NoNumber(f"`{sign}` is missing")

    def chain(self, part: Callable[[], Fraction], *signs: str) -> Fraction:
        left = part()
        while sign := self.next(*signs):
            left = together(left, sign, part())
        return left

    def sum(self) -> Fraction:
        return self.chain(self.product, "+", "-")

    def product(self) -> Fraction:
        return self.chain(self.signed, "*", "//", "/", "%")

    def signed(self) -> Fraction:
        self.depth += 1
        if self.depth > DEEPEST:
            raise NoNumber("it is too deep")
        made = -self.signed() if self.next("-") else self.power()
        self.depth -= 1
        return made

    def power(self) -> Fraction:
        base = self.primary()
        return powered(base, self.signed()) if self.next("**") else base

    def primary(self) -> Fraction:
        if self.next("("):
            inside = self.sum()
            self.expect(")")
            return inside
        found = TOKEN.match(self.text, self.at)
        if not found or found["sign"]:
            raise NoNumber("a number is missing")
        self.at = found.end()
        if found["number"]:
            return Fraction(found["number"])
        return self.call(found["name"]) if found["name"] in CALLS and self.next("(") else self.named(found["name"])

    def named(self, name: str) -> Fraction:
        if name not in self.numbers:
            raise NoNumber(f"no number is called {name}")
        return self.numbers[name]

    def call(self, name: str) -> Fraction:
        given = [self.sum()]
        while self.next(","):
            given.append(self.sum())
        self.expect(")")
        return CALLS[name](*given)


def bits_of(number: Fraction) -> int:
    return max(number.numerator.bit_length(), number.denominator.bit_length())


def together(left: Fraction, sign: str, right: Fraction) -> Fraction:
    if sign in ("/", "//", "%") and not right:
        raise NoNumber("it divides by 0")
    return {"+": lambda: left + right, "-": lambda: left - right, "*": lambda: left * right, "/": lambda: left / right,
            "//": lambda: Fraction(left // right), "%": lambda: left % right}[sign]()


def powered(base: Fraction, power: Fraction) -> Fraction:
    if power.denominator != 1 or abs(power) > MOST_POWER or not base and power < 0 or \
            bits_of(base) * abs(power) > MOST_BITS:
        raise NoNumber(f"the power {power} is none")
    return Fraction(base ** int(power))


def bits(*given: Fraction) -> Fraction:
    """How many bits a whole number has that is not below 0: 3 for 4 to 7."""
    if len(given) != 1 or given[0].denominator != 1 or given[0] < 0:
        raise NoNumber("bits takes a whole number that is not below 0")
    return Fraction(int(given[0]).bit_length())


CALLS: dict[str, Callable[..., Fraction]] = {"min": lambda *given: min(given), "max": lambda *given: max(given),
                                             "bits": bits}


def number_of(text: str, numbers: Numbers) -> Fraction:
    """The number that a text is, where names have these numbers. Braces in it are as parentheses."""
    return Sum(text.replace("{", "(").replace("}", ")"), numbers).value()


def written(text: str, numbers: Numbers) -> str:
    """What stands in a source for a text in braces: a number, or a list of them."""
    listed = LISTED.fullmatch(text)
    if not listed:
        return shown(number_of(text, numbers))
    low, high = number_of(listed["low"], numbers), number_of(listed["high"], numbers)
    if low.denominator * high.denominator != 1 or not 0 <= high - low < MOST_LISTED:
        raise NoNumber(f"{shown(low)} .. {shown(high)} has no number, or more than {MOST_LISTED}")
    return ", ".join(shown(number_of(listed["number"], {**numbers, listed["index"]: Fraction(index)}))
                     for index in range(int(low), int(high) + 1))


def shown(number: Fraction) -> str:
    """A number as the language has it."""
    if abs(number) >= 10**MOST_DIGITS:
        raise NoNumber(f"it has more than {MOST_DIGITS} digits")
    if number.denominator == 1:
        return str(number)
    places = MOST_DIGITS - len(str(int(abs(number))))
    digits = math.floor(abs(number) * 10**places + Fraction(1, 2))
    whole, rest = divmod(digits, 10**places)
    return f"{'-' if number < 0 else ''}{whole}.{rest:0{places}d}".rstrip("0").rstrip(".")


def parts_of(text: str) -> list[str]:
    """A text in parts between the commas that are in no parentheses."""
    parts, depth = [""], 0
    for letter in text:
        depth += (letter == "(") - (letter == ")")
        if letter == "," and not depth:
            parts.append("")
        else:
            parts[-1] += letter
    return parts


class Range:
    """The numbers that a name may have: `1, 2, 4`, `4 .. 40`, `0 .. 1 step 1/8`."""

    def __init__(self, text: str, numbers: Numbers) -> None:
        self.items = [item_of(part, numbers) for part in parts_of(text)]

    def __contains__(self, number: Fraction) -> bool:
        return any(low <= number <= high and (number - low) % step == 0 for low, high, step in self.items)

    def __str__(self) -> str:
        return ", ".join(shown(low) if low == high else f"{shown(low)}..{shown(high)}" +
                         ("" if step == 1 else f" step {shown(step)}") for low, high, step in self.items)

    def count(self) -> int:
        """How many numbers it has, one that is in two of its parts for each."""
        return sum(max(0, (high - low) // step + 1) for low, high, step in self.items)

    def numbers(self) -> list[Fraction]:
        """The numbers in their order, each once."""
        return list(dict.fromkeys(low + n * step for low, high, step in self.items
                                  for n in range((high - low) // step + 1)))

    def ends(self) -> list[Fraction]:
        """The least number and the greatest."""
        lasts = [high - (high - low) % step for low, high, step in self.items if low <= high]
        firsts = [low for low, high, _ in self.items if low <= high]
        return [min(firsts), max(lasts)] if firsts else []


def item_of(text: str, numbers: Numbers) -> tuple[Fraction, Fraction, Fraction]:
    ends, _, stepped = text.partition(" step ")
    low, dots, high = ends.partition("..")
    first = number_of(low, numbers)
    step = number_of(stepped, numbers) if stepped else Fraction(1)
    if step <= 0:
        raise NoNumber(f"the range {text.strip()} has no step above 0")
    return first, number_of(high, numbers) if dots else first, step
