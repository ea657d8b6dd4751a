"""Linear systems of recurrences, their nodes in an order of evaluation, and their loops.

The word of node j at sample n is the sum of `factor` times the word of node i at sample n - `delay`, over the terms of
j, and of what is put into it there. Factors are binary fractions, as those of fixed-point words are.
"""
from collections.abc import Iterable, Iterator, Sequence
from dataclasses import dataclass
from fractions import Fraction

Term = tuple[int, int, Fraction]


class NoSystem(ValueError):
    """Why a system has no solution, or none that is told here."""


@dataclass(frozen=True)
class Edge:
    """What a node's word adds to another, `delay` samples later: `number` times it, in units of that node's
    denominator."""
    target: int
    delay: int
    number: int


class System:
    """A system, from the terms of each node as (node, delay, factor). Its nodes are kept by their rank: a node comes
    behind those that it reads without a delay, and a loop, as a strongly connected part, behind those that lead to
    it."""

    def __init__(self, terms: Sequence[Iterable[Term]]):
        merged = [merge(each) for each in terms]
        self.parts = parts_of([[node for node, _ in each] for each in merged])
        order = [node for part in self.parts for node in ordered(part, merged)]
        self.rank = {node: rank for rank, node in enumerate(order)}
        self.order = order
        self.part_of = [0] * len(order)
        for number, part in enumerate(self.parts):
            for node in part:
                self.part_of[self.rank[node]] = number
        self.shift = [places_of(merged[node].values()) for node in order]
        self.edges: list[list[Edge]] = [[] for _ in order]
        for rank, node in enumerate(order):
            for (other, delay), factor in merged[node].items():
                self.edges[self.rank[other]].append(Edge(rank, delay, int(factor * (1 << self.shift[rank]))))
        self.longest_delay = max((edge.delay for edges in self.edges for edge in edges), default=0)
        self.ranks = [sorted(self.rank[node] for node in part) for part in self.parts]
        # What a step needs: the edges without a delay and those with one, and what a word loses of its places.
        self.now = [tuple((edge.target, edge.number) for edge in edges if not edge.delay) for edges in self.edges]
        self.later = [tuple((edge.delay, edge.target, edge.number) for edge in edges if edge.delay)
                      for edges in self.edges]
        self.masks = [(1 << places) - 1 for places in self.shift]

    def __len__(self) -> int:
        return len(self.order)

    def ranks_of(self, part: int) -> list[int]:
        return self.ranks[part]

    def inner(self, part: int) -> "System":
        """The nodes of a part as a system of their own, numbered from 0 in the order of their ranks."""
        place = {rank: number for number, rank in enumerate(self.ranks[part])}
        terms: list[list[Term]] = [[] for _ in place]
        for rank, number in place.items():
            for edge in self.edges[rank]:
                if edge.target in place:
                    terms[place[edge.target]].append((number, edge.delay, self.factor(edge)))
        return System(terms)

    def factor(self, edge: Edge) -> Fraction:
        return Fraction(edge.number, 1 << self.shift[edge.target])

    def is_loop(self, part: int) -> bool:
        """Whether a part has a node that reads itself by way of some delays, and is no single node without."""
        first = self.ranks[part][0]
        return len(self.parts[part]) > 1 or any(edge.target == first for edge in self.edges[first])


def merge(terms: Iterable[Term]) -> dict[tuple[int, int], Fraction]:
    """The factor of each node and delay that is read; 0 is none."""
    made: dict[tuple[int, int], Fraction] = {}
    for node, delay, factor in terms:
        made[node, delay] = made.get((node, delay), Fraction(0)) + Fraction(factor)
    return {key: factor for key, factor in made.items() if factor}


def places_of(factors: Iterable[Fraction]) -> int:
    """So many places after the point are in all factors."""
    most = 1
    for factor in factors:
        if factor.denominator & (factor.denominator - 1):
            raise NoSystem(f"a factor has the denominator {factor.denominator}, which is no power of two")
        most = max(most, factor.denominator)
    return most.bit_length() - 1


def parts_of(reads: Sequence[Sequence[int]]) -> list[list[int]]:
    """The strongly connected parts of a graph, each behind those that its nodes read (Tarjan's way, without
    recursion)."""
    number: dict[int, int] = {}
    low: dict[int, int] = {}
    on_stack: set[int] = set()
    stack: list[int] = []
    parts: list[list[int]] = []

    def enter(node: int) -> tuple[int, Iterator[int]]:
        number[node] = low[node] = len(number)
        stack.append(node)
        on_stack.add(node)
        return node, iter(reads[node])

    def leave(node: int) -> None:
        if low[node] == number[node]:
            part = [stack.pop()]
            while part[-1] != node:
                part.append(stack.pop())
            on_stack.difference_update(part)
            parts.append(part)

    for start in range(len(reads)):
        path = [] if start in number else [enter(start)]
        while path:
            node, rest = path[-1]
            other = next(rest, None)
            if other is None:
                path.pop()
                leave(node)
                if path:
                    low[path[-1][0]] = min(low[path[-1][0]], low[node])
            elif other not in number:
                path.append(enter(other))
            elif other in on_stack:
                low[node] = min(low[node], number[other])
    return parts


def ordered(part: Sequence[int], merged: Sequence[dict[tuple[int, int], Fraction]]) -> list[int]:
    """The nodes of a part, each behind those that it reads without a delay."""
    if len(part) == 1 and (part[0], 0) not in merged[part[0]]:
        return list(part)
    inside = set(part)
    readers: dict[int, list[int]] = {node: [] for node in part}
    waits = dict.fromkeys(part, 0)
    for node in part:
        for other in {other for other, delay in merged[node] if not delay and other in inside}:
            readers[other].append(node)
            waits[node] += 1
    made = [node for node in part if not waits[node]]
    for node in made:
        for reader in readers[node]:
            waits[reader] -= 1
            if not waits[reader]:
                made.append(reader)
    if len(made) < len(part):
        raise NoSystem("nodes read one another without a delay")
    return made
