"""How much a system passes on at most: of each loop bounds of the sums of magnitudes, and what they make of an amount
that comes in. Each bound is an inequality that was checked in whole numbers; how it was found does not matter.

Of the nodes h of a loop, let S be the sums up to a sample, of a response to 1 put into h, and W what is in flight then
to each node of the loop. Whatever comes later comes of W, so sums G up to any sample fulfil G <= S + W G' with those G'
of fewer samples. So each G with S + W G <= G is a bound. The parts above and below 0 are told apart, and a part of
which only the magnitude is known is the third of a `Sums`.
"""
import heapq
import math
import time
from collections.abc import Callable
from dataclasses import dataclass
from fractions import Fraction
from typing import NamedTuple

from silc.designing.ellipsoids import Ellipsoid, NoBound, States
from silc.designing.impulses import Response
from silc.designing.systems import System

# Amounts and gains are whole numbers with so many places, rounded up; words of a response have fewer.
PLACES, WORD_PLACES = 192, 128
# The equations of a loop are solved with more places, and for sums that are greater by 2^-SLACK.
SOLVED_PLACES, SLACK = 320, 64
# A loop with no more states is bounded by an ellipsoid, after so many samples. The time is looked at after so many
# words.
FEW_STATES, FIRST_SAMPLES, CHUNK = 24, 16, 1 << 14


class Sums(NamedTuple):
    """Bounds of the sum of what is above 0, of the magnitudes of what is below, and of magnitudes on either side."""
    positive: int
    negative: int
    either: int

    def plus(self, other: "Sums") -> "Sums":
        return Sums(self[0] + other[0], self[1] + other[1], self[2] + other[2])

    def through(self, gain: "Sums") -> "Sums":
        """What a gain makes of these amounts."""
        return Sums(up(self[0] * gain[0] + self[1] * gain[1]), up(self[0] * gain[1] + self[1] * gain[0]),
                    up(self[2] * (gain[0] + gain[1] + gain[2]) + (self[0] + self[1]) * gain[2]))

    def times(self, number: int, shift: int) -> "Sums":
        """These amounts times a number, with a shift to the right."""
        positive, negative = self[:2] if number > 0 else (self[1], self[0])
        return Sums(*(-(-amount * abs(number) >> shift) for amount in (positive, negative, self[2])))

    @property
    def total(self) -> int:
        return self[0] + self[1] + self[2]


NOTHING, ONE = Sums(0, 0, 0), Sums(1 << PLACES, 0, 0)


def up(product: int) -> int:
    """A product of two amounts as an amount."""
    return -(-product >> PLACES)


def amount_of(value: Fraction) -> int:
    """The least amount that is no less."""
    return -(-(value.numerator << PLACES) // value.denominator)


def in_flight(response: Response) -> dict[int, Sums]:
    """What is in flight to each node, and what was cut there, which is one more input."""
    made = {rank: Sums(to_amount(response, rank, above), to_amount(response, rank, below), 0)
            for rank, (above, below) in response.flying().items()}
    for rank, amount in cuts_of(response).items():
        made[rank] = made.get(rank, NOTHING).plus(amount)
    return made


def to_amount(response: Response, rank: int, total: int) -> int:
    """What comes into a node, in its own units, as an amount."""
    return -(-total << PLACES - response.places >> response.system.shift[rank])


def cuts_of(response: Response) -> dict[int, Sums]:
    """What was cut in each node, at most."""
    return {rank: Sums(0, 0, cuts << PLACES - response.places) for rank, cuts in enumerate(response.cuts) if cuts}


def sums_of(response: Response, rank: int) -> Sums:
    """The sums of a response up to now."""
    up_to = PLACES - response.places
    return Sums(response.positive[rank] << up_to, response.negative[rank] << up_to, 0)


# One loop

Gains = dict[int, dict[int, Sums]]


def solved(matrix: list[list[int]], right: list[list[int]]) -> list[list[int]] | None:
    """About the x with matrix x = right, in numbers with SOLVED_PLACES, or nothing where it seems not to be
    positive."""
    rows, size = [[*a, *b] for a, b in zip(matrix, right)], len(matrix)
    for k in range(size):
        if rows[k][k] <= 0:
            return None
        rows[k] = [(x << SOLVED_PLACES) // rows[k][k] for x in rows[k]]
        for j, row in enumerate(rows):
            if j != k and row[k]:
                factor = row[k]
                rows[j] = [x - (factor * y >> SOLVED_PLACES) for x, y in zip(row, rows[k])]
    return [row[size:] for row in rows]


def gains_of(ranks: list[int], sums: Gains, left: Gains) -> Gains | None:
    """Bounds G with S + W G <= G, or nothing where none was found."""
    finer = SOLVED_PLACES - PLACES
    both = [[left[h].get(k, NOTHING) for k in ranks] for h in ranks]

    def system(weight: Callable[[Sums], int]) -> list[list[int]]:
        return [[((h == k) << SOLVED_PLACES) - (weight(w) << finer) for k, w in enumerate(row)]
                for h, row in enumerate(both)]

    def right(value: Callable[[Sums], int], slack: int) -> list[list[int]]:
        return [[value(sums[h].get(k, NOTHING)) + slack << finer for k in ranks] for h in ranks]

    slack = 1 << PLACES - SLACK
    total = solved(system(lambda w: w.total), right(lambda s: s[0] + s[1], 2 * slack))
    apart = solved(system(lambda w: w[0] - w[1] + w[2]), right(lambda s: s[0] - s[1], 0)) if total else None
    either = solved(system(lambda w: w.total), right(lambda s: s[2], slack)) if total else None
    if not total or not apart or not either:
        return None
    made = {h: {k: Sums(a + b >> finer + 1, a - b >> finer + 1, c >> finer) for k, a, b, c in zip(ranks, *rows)}
            for h, rows in zip(ranks, zip(total, apart, either))}
    return made if are_gains(made, sums, left) else None


def are_gains(made: Gains, sums: Gains, left: Gains) -> bool:
    """Whether S + W G <= G, and nothing is below 0: what all bounds of loops rest on."""
    for h, row in made.items():
        for k, gain in row.items():
            least = sums[h].get(k, NOTHING)
            for j, amount in left[h].items():
                least = least.plus(amount.through(made[j][k]))
            if min(gain) < 0 or any(a > b for a, b in zip(least, gain)):
                return False
    return True


class Clock:
    """When the time is over that there is: that of the processor, so that bounds do not depend on what else it does."""

    def __init__(self, seconds: float) -> None:
        self.end = time.process_time() + seconds

    @property
    def left(self) -> float:
        return self.end - time.process_time()


def advanced(response: Response, end: int, clock: Clock) -> bool:
    """Whether a response was brought up to a sample in time."""
    while response.time < end and not response.is_over:
        if clock.left <= 0:
            return False
        response.advance(min(end, response.time + max(1, CHUNK // len(response.system))))
    response.time = max(response.time, end)
    return True


@dataclass
class Loop:
    """What each node of a loop makes of 1 that is put into another at most, and about how fast it forgets that, as the
    logarithm of what is left after a sample. No bound rests on the latter."""
    gains: Gains
    decay: float


def loop_of(system: System, part: int, clock: Clock) -> Loop | None:
    """The gains of a loop, or nothing where none were found in the time that there is."""
    inner, ranks = system.inner(part), system.ranks_of(part)
    found = inner_loop(inner, clock)
    if found is None:
        return None
    names = [ranks[node] for node in inner.order]
    return Loop({names[h]: {names[k]: gain for k, gain in row.items()} for h, row in found.gains.items()}, found.decay)


def inner_loop(system: System, clock: Clock) -> Loop | None:
    """The same of a system that is one loop."""
    ranks = list(range(len(system)))
    responses = {h: Response(system, [(h, 0, Fraction(1))], WORD_PLACES) for h in ranks}
    length, is_tried = 1, False
    while all(advanced(response, length, clock) for response in responses.values()):
        sums = {h: {k: sums_of(response, k) for k in ranks} for h, response in responses.items()}
        made = gains_of(ranks, sums, {h: in_flight(response) for h, response in responses.items()})
        if made is not None:
            return Loop(made, decay_of(sums, made) / (length + system.longest_delay))
        if length >= FIRST_SAMPLES and not is_tried:
            is_tried, loop = True, short_loop(system, responses, sums)
            if loop is not None:
                return loop
        length *= 4
    return None


def decay_of(sums: Gains, made: Gains) -> float:
    """By how much the logarithm of what is left falls in one turn."""
    rests = [1 - sums[h][k].total / gain.total for h, row in made.items() for k, gain in row.items()]
    return -math.log(max(rests)) if 0 < max(rests) < 1 else 1.0


def short_loop(system: System, responses: dict[int, Response], sums: Gains) -> Loop | None:
    """The same of a loop with few states, by an ellipsoid."""
    pending = {h: response.in_flight() for h, response in responses.items()}
    states = States(system, responses, {name for flying in pending.values() for name in flying})
    if len(states.names) > FEW_STATES:
        return None
    try:
        ellipsoid = Ellipsoid(states)
        for h, flying in pending.items():
            for k, tail in (ellipsoid.tails(flying) if flying else {}).items():
                sums[h][k] = sums[h][k].plus(Sums(0, 0, amount_of(tail)))
    except NoBound:
        return None
    gains = gains_of(list(responses), sums, {h: cuts_of(response) for h, response in responses.items()})
    return Loop(gains, ellipsoid.decay) if gains else None


# The whole system


class Passing:
    """The loops of a system with their gains, and what comes of amounts that are put into nodes."""

    def __init__(self, system: System, clock: Clock) -> None:
        self.system = system
        self.loops: dict[int, Loop | None] = {}
        self.clock = clock

    def loop(self, part: int) -> Loop | None:
        """A loop, which is bounded when it is first asked for."""
        if part not in self.loops:
            self.loops[part] = loop_of(self.system, part, Clock(self.clock.left / 3))
        return self.loops[part]

    def decay(self, rank: int) -> float:
        loop = self.loops.get(self.system.part_of[rank])
        return loop.decay if loop else math.inf

    def passed(self, amounts: dict[int, Sums]) -> tuple[dict[int, Sums], set[int]]:
        """What amounts come to in each node that they reach, and the nodes of which there is no bound."""
        system, made, unbounded = self.system, {}, set()
        coming: dict[int, dict[int, Sums]] = {}
        for rank, amount in amounts.items():
            coming.setdefault(system.part_of[rank], {})[rank] = amount
        open_parts: set[int] = set()
        queue = list(coming)
        heapq.heapify(queue)
        while queue:
            part = heapq.heappop(queue)
            here = coming.pop(part, {})
            words = None if part in open_parts else self.words(part, here)
            for rank in system.ranks_of(part) if words is None else words:
                if words is None:
                    unbounded.add(rank)
                else:
                    made[rank] = words[rank]
                for edge in system.edges[rank]:
                    other = system.part_of[edge.target]
                    if other == part:
                        continue
                    if other not in coming:
                        coming[other] = {}
                        heapq.heappush(queue, other)
                    if words is None:
                        open_parts.add(other)
                    else:
                        there = coming[other].get(edge.target, NOTHING)
                        more = words[rank].times(edge.number, system.shift[edge.target])
                        coming[other][edge.target] = there.plus(more)
        return made, unbounded

    def words(self, part: int, here: dict[int, Sums]) -> dict[int, Sums] | None:
        """What amounts come to in the nodes of a part, if that is bounded."""
        if not self.system.is_loop(part):
            return here
        loop = self.loop(part)
        if loop is None:
            return None
        made: dict[int, Sums] = {}
        for rank, amount in here.items():
            for other, gain in loop.gains[rank].items():
                made[other] = made.get(other, NOTHING).plus(amount.through(gain))
        return made
