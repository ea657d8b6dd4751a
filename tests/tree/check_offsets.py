#!/usr/bin/env python3
"""Checks that what stands in a source at each byte offset of its tree begins as the line of the tree says.

usage: tests/tree/check_offsets.py
"""
import re
import sys
from pathlib import Path

HERE = Path(__file__).resolve().parent
ROLES = r"(?:word|left|right|operand|subscript|delay|amount|from|to|condition|value|otherwise|argument)"
LINE = re.compile(rf" *(?:{ROLES} (?=\w+ |\w+$))?(.+?) at (\d+)(?: : (.+))?$")


def begins(node: str, source: str) -> object:
    """Whether the source begins as the node does."""
    kind, *rest = node.split()
    if kind == "number":
        digits, places = rest[0].lstrip("-"), int(rest[2])
        sign = r"-\s*" if rest[0].startswith("-") else ""
        found = re.match(rf"{sign}0*(\d*)\.?(\d*)(?![\w.]*\d)", source)
        return found and (found[1] + found[2]).lstrip("0") == digits.lstrip("0") and len(found[2]) == places
    if kind == "whole":
        return re.match(rf"0*{rest[0]}\b", source)
    if kind in ("binary", "shift"):
        return source.startswith(rest[0])
    if kind in ("read", "index", "place", "call", "func", "const", "parameter", "result", "local"):
        return re.match(rf"{rest[0].partition('[')[0]}\b", source)
    firsts = {"negate": "-", "not": "!", "cast": "fix", "choose": "if", "loop": "(", "true": "true", "false": "false"}
    return source.startswith(firsts[kind])


def main() -> int:
    wrong = count = 0
    for tree in sorted(HERE.glob("*.tree")):
        source = tree.with_suffix(".sil").read_bytes()
        for number, line in enumerate(tree.read_text().splitlines(), 1):
            found = LINE.match(line)
            if not found:
                continue
            count += 1
            if not begins(found[1], source[int(found[2]):].decode()):
                wrong += 1
                print(f"{tree.name}, line {number}: {line.strip()}: the source has {source[int(found[2]):][:12]!r}")
    print(f"{count} offsets compared, {wrong} wrong")
    return 1 if wrong or not count else 0


sys.exit(main())
