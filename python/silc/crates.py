"""The file crates.txt of the checkout: the crates, and what each one names."""
from typing import TypeAlias

# Crates by their names, the lowest first, each with others.
Crates: TypeAlias = dict[str, list[str]]


def lines_of(text: str) -> Crates:
    """What the line of each crate names: crates of this repository, and libraries of the toolchain."""
    lines = [line.partition("#")[0].partition(":") for line in text.splitlines()]
    return {head.split()[0]: rest.split() for head, colon, rest in lines if colon and head.split()}


def dependencies(text: str) -> Crates:
    """The crates of this repository that each one names."""
    named = lines_of(text)
    return {name: [other for other in others if other in named] for name, others in named.items()}
