#!/usr/bin/env python3
"""Compares the results of the tables of word operations with those of exact arithmetic, as docs/MACHINE.md
and docs/LANGUAGE.md have them.

usage: tests/words/compute.py
"""
import sys
from fractions import Fraction
from math import floor
from pathlib import Path

HERE = Path(__file__).resolve().parent
ROUNDING, SATURATING = ("round", "round,sat"), ("sat", "round,sat")


def wrapped(number: int, width: int) -> int:
    half = 1 << (width - 1)
    return (number + half) % (1 << width) - half


def fitted(number: int, width: int, mode: str) -> int:
    least, greatest = -(1 << (width - 1)), (1 << (width - 1)) - 1
    return max(least, min(greatest, number)) if mode in SATURATING else wrapped(number, width)


def formed(number: int, shift: int, mode: str, width: int) -> int:
    if shift <= 0:
        return fitted(number << -shift, width, mode)
    half = 1 << (shift - 1) if mode in ROUNDING else 0
    return fitted((number + half) >> shift, width, mode)


def converted(number: int, fraction_bits: int, width: int, point: int, mode: str) -> int:
    exact = Fraction(number, 2**fraction_bits) * 2**point
    return fitted(floor(exact + Fraction(1, 2) if mode in ROUNDING else exact), width, mode)


def literal(sign: str, digits: int, places: int, width: int, point: int) -> int | None:
    exact = Fraction(-digits if sign == "-" else digits, 10**places)
    word = floor(exact * 2**point + Fraction(1, 2))
    return word if -(2 ** (width - 1)) <= word < 2 ** (width - 1) else None


EXACT = {"add": lambda a, b: a + b, "sub": lambda a, b: a - b, "neg": lambda a, b: -a, "pass": lambda a, b: a,
         "mul": lambda a, b: a * b}
TRUTH = {"lt": lambda a, b: a < b, "le": lambda a, b: a <= b, "eq": lambda a, b: a == b, "ne": lambda a, b: a != b,
         "and": lambda a, b: a != 0 and b != 0, "or": lambda a, b: a != 0 or b != 0, "not": lambda a, b: a == 0}


def applied(name: str, shift: int, mode: str, width: int, a: int, b: int, c: int) -> int:
    if name in EXACT:
        return formed(EXACT[name](a, b), shift, mode, width)
    if name in TRUTH:
        return int(TRUTH[name](a, b))
    return b if a else c


def value(row: str) -> int | None:
    verb, *words = row.split()
    words = [int(word) if word.lstrip("-").isdigit() else word for word in words]
    return {"wrap": wrapped, "form": formed, "conv": converted, "literal": literal, "apply": applied}[verb](*words)


def answer(row: str) -> str:
    word = value(row)
    return f"{row} fault: literal out of range\n" if word is None else f"{row} = {word}\n"


def main() -> int:
    wrong = 0
    for table in ("wrap", "form", "conv", "literal", "apply"):
        rows = (HERE / f"{table}.txt").read_text().splitlines()
        results = "".join(answer(row) for row in rows)
        if (HERE / f"{table}.out").read_text() != results:
            wrong += 1
            print(f"{table}.out has other results")
    return 1 if wrong else 0


if __name__ == "__main__":
    sys.exit(main())
