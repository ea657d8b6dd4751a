"""Certified sums of the magnitudes of responses: of each node of a linear system, to what is put into others.

    system = System([[(1, 1, Fraction(-1, 2))], [(0, 0, Fraction(3, 4)), (1, 1, Fraction(9, 16))]])
    of_input, of_error = norms(system, [[(0, 0, 1)], [(1, 0, 1)]], seconds=2.0)
    of_input[1].positive, of_input[1].negative, of_input[1].either, of_input[1].is_bound

A system is made of the terms of each node, (node, delay, factor), with binary fractions as factors. A source is a list
of kicks (node, sample, amount): what is put in there, and at what sample. Of each source `norms` gives the `Norm` of
each node that it reaches; a node that is missing is not reached, and has the norm 0. Where `is_bound` holds, the sum of
all positive words is at most `positive` and that of the magnitudes of all negative ones `negative`, but for `either`,
which belongs to one of them or to both in parts. So inputs from `least` to `greatest` bring the node between the two
numbers of `reach(least, greatest)`. `summed` is a sum of magnitudes that the truth is not below, so it says how tight
the bound is. Where `is_bound` does not hold, no bound was found in the time, and the other numbers are sums so far.

Feed-forward systems are exact. Of others the response is summed up to some sample, and what comes after is bounded: see
`loops`, and `ellipsoids`. No bound rests on what seems to be over. More time makes it tighter; it ends before where
what comes after is below 2^-TIGHT of the whole, or where more time would not help.
"""
import math
from collections.abc import Iterable, Sequence
from dataclasses import dataclass
from fractions import Fraction

from silc.designing.ellipsoids import MOST_STATES, Ellipsoid, NoBound, States
from silc.designing.impulses import Kick, Response
from silc.designing.loops import (NOTHING, PLACES, WORD_PLACES, Clock, Passing, Sums, advanced, amount_of, cuts_of,
                                  in_flight, sums_of)
from silc.designing.systems import NoSystem, System

__all__ = ["Certified", "Norm", "NoSystem", "Offset", "System", "norms"]

SECONDS = 3.0
# What comes after is little where it is below 2^-TIGHT of the whole, and is worth the time where it may come below
# 2^-LITTLE.
TIGHT, LITTLE = 20, 10
# A response is summed to lengths that grow by STEP. Whether it is worth the time is asked after as many longest delays.
FIRST_LENGTH, STEP, DELAYS = 64, 2, 16
# Words have so many places where nothing may be cut.
EXACT_PLACES, LEAST_SECONDS = 1 << 14, 0.05


Ends = tuple[Fraction, Fraction]


@dataclass(frozen=True)
class Norm:
    """A bound of the sum of magnitudes of a response, or what is known of it."""
    positive: Fraction
    negative: Fraction
    either: Fraction
    summed: Fraction
    is_bound: bool

    @property
    def total(self) -> Fraction:
        return self.positive + self.negative + self.either

    def reach(self, least: Fraction, greatest: Fraction) -> Ends:
        """The least and the greatest word that inputs from `least` to `greatest` make, with least <= 0 <= greatest."""
        more = self.either * max(-least, greatest)
        return (self.positive * least - self.negative * greatest - more,
                self.positive * greatest - self.negative * least + more)


@dataclass(frozen=True)
class Offset:
    """Between which numbers something stays, or was so far."""
    least: Fraction
    greatest: Fraction
    is_bound: bool


class Running(Response):
    """A response with the least and the greatest of what its words come to from sample to sample."""

    def __init__(self, system: System, kicks: Iterable[Kick], places: int):
        super().__init__(system, kicks, places)
        self.least, self.greatest = [0] * len(system), [0] * len(system)

    def step(self, n: int, words: list[int]) -> None:
        super().step(n, words)
        for rank, word in enumerate(words):
            if word:
                total = self.positive[rank] - self.negative[rank]
                self.least[rank], self.greatest[rank] = min(self.least[rank], total), max(self.greatest[rank], total)


class Source:
    """The response to one source, as far as it is, and what comes after it at most."""

    def __init__(self, system: System, kicks: Iterable[Kick], passing: Passing, kind: type[Response] = Response):
        ranked = [(system.rank[node], sample, Fraction(amount)) for node, sample, amount in kicks]
        most = max([amount.denominator for _, _, amount in ranked], default=1).bit_length() - 1
        self.kicks = ranked
        self.response = kind(system, ranked, max(WORD_PLACES, most))
        self.system, self.passing = system, passing
        self.rest: dict[int, Sums] = {}
        self.unbounded: set[int] = set()
        self.is_done = False

    def bring(self, end: int, clock: Clock) -> bool:
        """Whether the response was summed up to a sample in time. What comes after it is bounded in both cases."""
        is_in_time = advanced(self.response, end, clock)
        self.rest, self.unbounded = self.passing.passed(in_flight(self.response))
        return is_in_time

    def whole(self, rank: int) -> int:
        return sums_of(self.response, rank).total + self.rest.get(rank, NOTHING).total

    def share(self) -> float:
        """The greatest share of the whole, of all nodes, that is only bounded."""
        return max((rest.total / self.whole(rank) for rank, rest in self.rest.items() if rest.total), default=0.0)

    def sum_up(self, clock: Clock, tight: int, is_last: bool) -> None:
        """Sums until what comes after is below 2^-tight of the whole, or no longer gets less, or as long as there is
        time."""
        length = max(FIRST_LENGTH, self.response.time * STEP)
        while not self.is_done:
            began, left, share = self.response.time, clock.left, self.share()
            before = {rank: self.whole(rank) for rank in self.rest}
            if not self.bring(length, clock):
                return
            self.is_done = self.response.is_over or self.share() < 2.0**-tight
            if length >= DELAYS * self.system.longest_delay and before:
                self.is_done |= all(abs(self.whole(rank) - whole) <= whole >> TIGHT for rank, whole in before.items())
                trend = math.log(share / self.share()) / (length - began) if share else 0.0
                pace = (left - clock.left) / (length - began)
                if pace * self.samples_wanted(trend, tight, is_last) > clock.left:
                    return
            length *= STEP

    def samples_wanted(self, trend: float, tight: int, is_last: bool) -> float:
        """After about how many samples more what comes after is little, or as little as is wanted where it is that
        already; with the last time that there is, a little less helps too."""
        decay = max(trend, min((self.passing.decay(rank) for rank in self.rest), default=math.inf))
        share, little = max(self.share(), 2.0**-tight), min(LITTLE, tight)
        wanted = math.log(share) + math.log(2) * (little if share > 2.0**-little else tight)
        return (min(wanted, 1.0) if is_last else wanted) / decay

    def sharpen(self) -> None:
        """Bounds what comes after by an ellipsoid, where it is made of few states."""
        flying = self.response.in_flight()
        if not flying or self.unbounded or self.share() < 2.0**-TIGHT:
            return
        states = States(self.system, self.reached(flying), flying)
        if len(states.names) > MOST_STATES:
            return
        try:
            tails = Ellipsoid(states).tails(flying)
        except NoBound:
            return
        errors, _ = self.passing.passed(cuts_of(self.response))
        for rank, rest in self.rest.items():
            tail = errors.get(rank, NOTHING).plus(Sums(0, 0, amount_of(tails.get(rank, Fraction(0)))))
            if tail.total < rest.total * (1 - 2.0**-TIGHT):
                self.rest[rank] = tail

    def reached(self, flying: Iterable[tuple[int, int]]) -> set[int]:
        """The nodes that something comes to later."""
        found = {rank for rank, _ in flying}
        queue = list(found)
        for rank in queue:
            for edge in self.system.edges[rank]:
                if edge.target not in found:
                    found.add(edge.target)
                    queue.append(edge.target)
        return found

    def norms(self, clock: Clock | None) -> dict[int, Norm]:
        """What is known of all nodes that are reached. The response that was summed is that of the cuts too. Nodes
        without a bound are left out where there is no time for what is known of them."""
        errors, _ = self.passing.passed(cuts_of(self.response))
        exact = exact_sums(self.system, self.kicks, clock) if self.unbounded and clock else []
        made = {}
        for rank, node in enumerate(self.system.order):
            if rank in self.unbounded:
                if not clock:
                    continue
                above, below = exact[rank]
                made[node] = Norm(above, below, Fraction(0), above + below, False)
                continue
            so_far, rest = sums_of(self.response, rank), self.rest.get(rank, NOTHING)
            if so_far.total or rest.total:
                least = max(0, so_far.total - errors.get(rank, NOTHING).total)
                positive, negative, either = map(value_of, so_far.plus(rest))
                made[node] = Norm(positive, negative, either, value_of(least), True)
        return made

    def offsets(self) -> dict[int, Offset]:
        """Between which numbers the sum of the words is in each node that is reached."""
        errors, _ = self.passing.passed(cuts_of(self.response))
        response, made = self.response, {}
        assert isinstance(response, Running)
        for rank, node in enumerate(self.system.order):
            rest, error = self.rest.get(rank, NOTHING), errors.get(rank, NOTHING).total
            now = sums_of(response, rank)[0] - sums_of(response, rank)[1]
            ends = [amount << PLACES - response.places for amount in (response.least[rank], response.greatest[rank])]
            least = min(ends[0], now - rest.negative - rest.either) - error
            greatest = max(ends[1], now + rest.positive + rest.either) + error
            if least or greatest or rank in self.unbounded:
                made[node] = Offset(value_of(least), value_of(greatest), rank not in self.unbounded)
        return made


def exact_sums(system: System, kicks: Iterable[Kick], clock: Clock) -> list[tuple[Fraction, Fraction]]:
    """The sums of what is above 0 and of what is below of a response in which nothing is cut, to a length that allows
    it."""
    response, length, made = Response(system, kicks, EXACT_PLACES), 1, [[0] * len(system)] * 2
    while advanced(response, length, clock) and not any(response.cuts):
        made = [list(response.positive), list(response.negative)]
        length *= 2
    return [(Fraction(above, 1 << EXACT_PLACES), Fraction(below, 1 << EXACT_PLACES)) for above, below in zip(*made)]


def value_of(amount: int) -> Fraction:
    return Fraction(amount, 1 << PLACES)


class Certified:
    """A system with the bounds of its loops, and the time that there is."""

    def __init__(self, system: System, seconds: float = SECONDS):
        self.system, self.clock = system, Clock(seconds)
        self.passing = Passing(system, self.clock)

    def norms(self, sources: Sequence[Iterable[Kick]], share: float = 1.0, tight: int = TIGHT) -> list[dict[int, Norm]]:
        """The norms of all nodes by each source, in a share of the time that is left. It ends before where what comes
        after the sums is below 2^-tight of them."""
        clock = Clock(self.clock.left * share)
        made = [Source(self.system, kicks, self.passing) for kicks in sources]
        for is_last in (False, True):
            rest = [source for source in made if not source.is_done]
            for number, source in enumerate(rest):
                source.sum_up(Clock(clock.left / (1 if is_last else 2) / (len(rest) - number)), tight, is_last)
        for source in made:
            source.sharpen()
        return [source.norms(Clock(max(LEAST_SECONDS, clock.left / len(made)))) for source in made]

    def spread(self, ends: dict[int, Ends], share: float, tight: int,
               few: dict[int, Fraction]) -> tuple[dict[int, Ends], set[int]]:
        """How far numbers between two ends, one for each sample, bring the nodes when they are put into some of them,
        and the nodes without a bound. Where they bring none further than `few` by the gains of the loops alone, nothing
        is summed; else each response is, in a share of the time."""
        clock = Clock(self.clock.left * share)
        rough, unbounded = self.roughly(ends)
        if all(max(-least, greatest) <= few.get(node, 0) for node, (least, greatest) in rough.items()):
            return rough, unbounded
        rest = dict(ends)
        made: dict[int, Ends] = {}
        while rest and clock.left > 0:
            node, (least, greatest) = rest.popitem()
            source = Source(self.system, [(node, 0, Fraction(1))], self.passing)
            source.sum_up(Clock(clock.left / (len(rest) + 1)), tight, True)
            if source.share() > 2.0**-tight:
                source.sharpen()
            add_ends(made, {other: norm.reach(least, greatest) for other, norm in source.norms(None).items()})
        add_ends(made, self.roughly(rest)[0])
        return {node: (max(ends[0], rough[node][0]), min(ends[1], rough[node][1])) for node, ends in made.items()
                if node in rough}, unbounded

    def roughly(self, ends: dict[int, Ends]) -> tuple[dict[int, Ends], set[int]]:
        """The same by the gains of the loops alone."""
        found, unbounded = self.passing.passed({self.system.rank[node]: Sums(amount_of(greatest), amount_of(-least), 0)
                                                for node, (least, greatest) in ends.items()})
        order = self.system.order
        return ({order[rank]: (value_of(-sums.negative - sums.either), value_of(sums.positive + sums.either))
                 for rank, sums in found.items()}, {order[rank] for rank in unbounded})

    def offsets(self, kicks: Iterable[Kick], share: float = 1.0) -> dict[int, Offset]:
        """Between which numbers the sums of all words so far are, of each node that the kicks reach: so what a constant
        brings about that is put in from a sample on."""
        source = Source(self.system, kicks, self.passing, Running)
        source.sum_up(Clock(self.clock.left * share), TIGHT, True)
        source.sharpen()
        return source.offsets()

    def length(self, sources: Sequence[Iterable[Kick]], weights: Sequence[Fraction], node: int,
               most: Fraction) -> tuple[int, Fraction | None]:
        """A length of the responses after which they bring a node no further than `most`, if there is time for it, each
        with a weight; and how far they do, or nothing where that has no bound."""
        made, rank, length = [Source(self.system, kicks, self.passing) for kicks in sources], self.system.rank[node], 1
        while True:
            in_time = all([source.bring(length, self.clock) for source in made])
            rests = [value_of(source.rest.get(rank, NOTHING).total) for source in made if rank not in source.unbounded]
            left = sum((rest * weight for rest, weight in zip(rests, weights)), Fraction(0)) \
                if len(rests) == len(made) else None
            if not in_time or left is not None and left <= most:
                return max(source.response.time for source in made), left
            length += 1 + length // 4


def add_ends(made: dict[int, Ends], more: dict[int, Ends]) -> None:
    for node, (least, greatest) in more.items():
        before = made.get(node, (Fraction(0), Fraction(0)))
        made[node] = before[0] + least, before[1] + greatest


def norms(system: System, sources: Sequence[Iterable[Kick]], seconds: float = SECONDS) -> list[dict[int, Norm]]:
    """The norms of all nodes by each source; see above."""
    return Certified(system, seconds).norms(sources)
