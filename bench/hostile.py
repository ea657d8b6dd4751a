"""Sources of 1 MiB that are mostly loops without turns: they count nothing of the load, and take the most of a
compiler."""
import random
from collections.abc import Iterable, Iterator, Sequence
from itertools import pairwise, repeat

SIZE = 1 << 20
TURNS_OF_LOOP = 8180
TERMS = 250
SEED = 1


def filled(head: str, foot: str, lows: Iterable[str], body: str) -> str:
    """A source with loops with these bounds below 1 between head and foot, one after another, as many as fit."""
    parts, room = [head], SIZE - len(head) - len(foot)
    for low in lows:
        one = f"(j:{low}..0)::begin {body}end;"
        if len(one) > room:
            break
        parts.append(one)
        room -= len(one)
    return "".join(parts) + foot


def empty_loops(loops: Sequence[str], lows: Iterable[str], body: str) -> str:
    """A source of such loops inside the others."""
    head = "func main(x : bool) y : bool =\nbegin\ny = x;\n" + "".join(f"({loop}) ::\nbegin\n" for loop in loops)
    return filled(head, "end;\n" * (len(loops) + 1), lows, body)


def called_loops(calls: int, turns: int, lows: Iterable[str]) -> str:
    """A source whose main function calls another so often, with such loops in a loop of so many turns."""
    head = f"func f(x : bool) y : bool =\nbegin\ny = x;\n(i : 1 .. {turns}) ::\nbegin\n(k : i .. i) ::\nbegin\n"
    foot = (f"end;\nend;\nend;\nfunc main(x : bool) y : bool =\nbegin\nvar s[{calls + 1}] : bool;\ns[0] = x;\n"
            f"(n : 1 .. {calls}) ::\nbegin\ns[n] = f(s[n - 1]);\nend;\ny = s[{calls}];\nend;\n")
    return filled(head, foot, lows, "")


def nested(turns: int, depth: int) -> list[str]:
    """Loops inside one another, each of which has as many turns as the index of the one around it tells."""
    names = ["i", *(f"l{n}" for n in range(depth - 2)), "k"]
    return [f"i : 1 .. {turns}", *(f"{name} : 1 .. {around}" for around, name in pairwise(names))]


def random_factor(choices: random.Random) -> tuple[str, int]:
    """A random factor, and how many operators and parentheses it has."""
    left, op, right = choices.choice("ik7"), choices.choice("+-*"), choices.choice("ik7")
    return choices.choice(
        (
            (left, 0),
            (f"-{left}", 1),
            (f"{left}*{right}", 1),
            (f"-{left}*{right}", 2),
            (f"({left}{op}{right})", 2),
            (f"-({left}{op}{right})", 3),
        )
    )


def random_bound(choices: random.Random) -> str:
    """A random sum over the indices i and k, which a term keeps above 0, with as many operators as a bound may have."""
    bound, weight = str(10**8), 0
    while weight < TERMS:
        factor, more = random_factor(choices)
        bound += choices.choice("+-") + factor
        weight += more + 1
    return bound


def random_bounds() -> Iterator[str]:
    choices = random.Random(SEED)
    while True:
        yield random_bound(choices)


def bounds_met_once(turns: int, loops: int) -> Iterator[str]:
    """Bounds over the index k, one for each of so many loops, that are 0 at a k of their own and above 0 else."""
    for n in range(loops):
        away = f"(k-{1 + n * turns // loops})"
        yield f"{away}*{away}" + "+k-k" * (TERMS // 2 - 3)


EQUATION = "y=x;"
ONE = [f"i : 1 .. {TURNS_OF_LOOP}"]
# As many turns, as the load counts them: in two loops, and in loops of one turn, also two deep, of two and of four.
TWO = ["i : 1 .. 88", "k : 1 .. 90"]
SINGLE = [f"i : 1 .. {TURNS_OF_LOOP // 2}", "k : i .. i"]
PAIRS = [f"i : 1 .. {TURNS_OF_LOOP // 3}", "k : i .. i + 1"]
NESTED = [f"i : 1 .. {TURNS_OF_LOOP // 3}", "l : i .. i", "k : l .. l"]
FOUR = [f"i : 1 .. {TURNS_OF_LOOP // 5}", "k : i .. i + 3"]
UNEQUAL = nested(126, 2)
# Twelve deep, of two turns each: the blocks of turns that are looked at at once are small.
TWELVE = ["i : 1 .. 2", *(f"l{n} : 1 .. 2" for n in range(10)), "k : 1 .. 2"]
# Loops around others that have a turn in one turn of the inner one.
MET_TURNS, MET_LOOPS = 2900, 1100
MET = ["i : 1 .. 2", f"k : 1 .. {MET_TURNS}"]
PRODUCTS = "+".join(["i*i-i*i"] * (TERMS // 4)) + "+1"
MIXED = "+".join(["i*k-k*i"] * (TERMS // 4)) + "+1"
HOSTILE = (
    ("numbers", ONE, "1", ""),
    ("sums of numbers", ONE, "+".join(["1"] * TERMS), ""),
    ("an index", ONE, "i", ""),
    ("an index, around an equation", ONE, "i+1", EQUATION),
    ("sums of an index", ONE, "+".join(["i"] * TERMS), ""),
    ("a product, around an equation", ONE, "i*i", EQUATION),
    ("sums of products", ONE, PRODUCTS, ""),
    ("a product of two indices", TWO, "i*k", EQUATION),
    ("sums of two indices", TWO, "+".join(["i+k-i"] * (TERMS // 3)), ""),
    ("sums of products of two indices", TWO, MIXED, ""),
    ("the same in loops of one turn", SINGLE, MIXED, ""),
    ("the same in loops of two turns", PAIRS, MIXED, ""),
    ("the same in loops of four turns", FOUR, MIXED, ""),
    ("the same in loops of one turn, deep", NESTED, MIXED, ""),
)
RANDOM = (
    ("random terms of two indices", TWO),
    ("the same in loops of unequal turns", UNEQUAL),
    ("the same in loops of four turns", FOUR),
    ("the same in two turns, twelve deep", TWELVE),
    ("the same in unequal turns, 3 deep", nested(34, 3)),
    ("the same, 6 deep", nested(10, 6)),
    ("the same, 12 deep", nested(5, 12)),
)

# How often a function with such loops is called, and how many turns they have in each call: few, or so many that they
# are not looked at ahead for all calls together.
CALLED = ((1000, 2), (30, 130))


def sources() -> Iterator[tuple[str, str]]:
    """What each of the sources has, and its text."""
    for content, loops, lows, body in (
        *((content, loops, repeat(low), body) for content, loops, low, body in HOSTILE),
        *((content, loops, random_bounds(), "") for content, loops in RANDOM),
        ("a turn of each in one turn of k", MET, bounds_met_once(MET_TURNS, MET_LOOPS), ""),
    ):
        yield content, empty_loops(loops, lows, body)
    for calls, turns in CALLED:
        yield f"random terms, {turns} turns in each of {calls} calls", called_loops(calls, turns, random_bounds())
