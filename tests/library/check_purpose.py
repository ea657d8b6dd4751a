#!/usr/bin/env python3
"""Whether blocks of library/ do what they are for, in sources that use them: coders and decoders together, loops that
lock, filters that adapt, levels that are kept.

usage: tests/library/check_purpose.py [--silc PROGRAM]

Each source is linked and evaluated by the built `silc`, PROGRAM, or the one that `SILC` names.
"""
import math
import os
import random
import sys
from collections.abc import Sequence
from pathlib import Path

from silc.designing.programs import evaluated
from silc.linking.blocks import Library, Source
from silc.linking.linker import link
from silc.linking.places import File

ROOT = Path(__file__).resolve().parent.parent.parent
FULL = 2**15
DICE = random.Random(1)


def rows_of(uses: Sequence[str], head: str, body: str, rows: Sequence[Sequence[int]]) -> list[tuple[int, ...]]:
    """The rows of a source whose main has this head and body."""
    lines = [f"use {use};" for use in uses]
    text = "\n".join([*lines, f"func main{head} =", "begin", body, "end;", ""])
    return evaluated(link(Library(), Source(File("purpose.sil", text.encode()))).text, rows)


def sine_of(count: int, share: float, size: float, phase: float = 0.0) -> list[tuple[int]]:
    return [(round(size * FULL * math.sin(2 * math.pi * share * n + phase)),) for n in range(count)]


def bits(count: int) -> list[int]:
    return [DICE.randint(0, 1) for _ in range(count)]


def check_viterbi() -> bool:
    """Two coded bits in 34 are wrong, and the message comes out 15 samples later."""
    message = bits(600)
    coded = rows_of(["convolutional<K=3, A=7, B=5> as code"], "(x : bool) (a : bool, b : bool)", "(a, b) = code(x);",
                    [(bit,) for bit in message])
    wrong = [(a ^ (n % 17 == 5 and n % 2), b ^ (n % 17 == 5 and not n % 2)) for n, (a, b) in enumerate(coded)]
    made = rows_of(["viterbi<D=16>"], "(a : bool, b : bool) y : bool", "y = viterbi(a, b);", wrong)
    return [bit for bit, in made[15:]] == message[:-15]


def check_scrambler() -> bool:
    """The descrambler gives the message back, also when the first bits were not heard."""
    message = bits(300)
    made = rows_of(["scrambler<N=7, T=6> as hide", "descrambler<N=7, T=6> as find"], "(x : bool) (y : bool, z : bool)",
                   "  y = hide(x);\n  z = find(y);", [(bit,) for bit in message])
    late = rows_of(["descrambler<N=7, T=6>"], "(x : bool) y : bool", "y = descrambler(x);",
                   [(y,) for y, _ in made[50:]])
    return [z for _, z in made] == message and [bit for bit, in late[7:]] == message[57:]


def check_differential() -> bool:
    """The message comes back, and also where the line is inverted, but for the first bit."""
    message = bits(200)
    made = rows_of(["differential as code", "differential_decode as find"], "(x : bool) (y : bool, z : bool)",
                   "  var l : bool;\n  l = code(x);\n  y = find(l);\n  z = find(!l);", [(bit,) for bit in message])
    return [y for y, _ in made] == message and [z for _, z in made[1:]] == message[1:]


def check_companders() -> bool:
    """A word comes back to within a step of its size."""
    words = [(x,) for x in range(-4000, 4001, 13)]
    mu = rows_of(["mulaw as code", "mulaw_decode as find"], "(x : fix<14,0>) y : fix<14,0>",
                 "  var c : fix<8,0>;\n  c = code(x);\n  y = find(c);", words)
    a = rows_of(["alaw as code", "alaw_decode as find"], "(x : fix<13,0>) y : fix<13,0>",
                "  var c : fix<8,0>;\n  c = code(x);\n  y = find(c);", words)
    return all(abs(y - x) <= 1 + abs(x) / 32 + 33 / 32 for (x,), (y,) in [*zip(words, mu), *zip(words, a)])


def check_costas() -> bool:
    """A carrier 0.0005 of the rate beside the oscillator, turned by bits: nearly all of it ends in i."""
    signs = [DICE.choice((-1, 1)) for _ in range(200)]
    words = [round(0.5 * FULL * signs[n // 40] * math.cos(2 * math.pi * 0.1005 * n + 1)) for n in range(8000)]
    step = round(0.2 * 2**31)
    made = rows_of(["costas"], "(x : fix<16,15>, step : fix<32,31>) (i : fix<16,15>, q : fix<16,15>)",
                   "(i, q) = costas(x, step);", [(word, step) for word in words])
    ends = made[6039::40]
    return all(abs(abs(i) - FULL / 4) < FULL / 16 and abs(q) < FULL / 32 for i, q in ends)


def check_gardner() -> bool:
    """Symbols of 4.03 samples, along half a cosine each: as many come out, and where the signal stands still."""
    symbols = [DICE.choice((-1, 1)) for _ in range(2100)]

    def at(time: float) -> float:
        place = int(time // 4.03)
        share = (1 - math.cos(math.pi * (time / 4.03 - place))) / 2
        return symbols[place] + (symbols[place + 1] - symbols[place]) * share
    made = rows_of(["gardner"], "(x : fix<16,15>) (on : bool, y : fix<16,15>)",
                   "  var mu : fix<17,15>;\n  (on, y, mu) = gardner(x);",
                   [(round(0.6 * FULL * at(n + 1.3)),) for n in range(8000)])
    taken = [y / FULL for on, y in made if on]
    return abs(len(taken) - 8000 / 4.03) < 4 and all(0.5 < abs(y) < 0.61 for y in taken[-500:])


def check_adaptive() -> bool:
    """A filter of four taps is found, by both rules, and the error is gone."""
    taps = (0.5, -0.3, 0.2, 0.1)
    x = [DICE.randint(-FULL // 2, FULL // 2) for _ in range(4000)]
    d = [round(sum(tap * x[n - k] for k, tap in enumerate(taps) if n >= k)) for n in range(len(x))]
    made = rows_of(["lms<M=3>", "nlms"], "(x : fix<16,15>, d : fix<16,15>) (e : fix<16,15>, f : fix<16,15>)",
                   "  var y, z : fix<16,15>;\n  (y, e) = lms(x, d);\n  (z, f) = nlms(x, d);", list(zip(x, d)))
    first, last = (max(abs(word) for row in rows for word in row) for rows in (made[:100], made[-500:]))
    return first > 5000 and last < 30


def check_limiter() -> bool:
    """Peaks of full scale stay below the level, and a soft signal comes out as it was, 15 samples later."""
    loud = [(DICE.choice((-FULL, FULL - 1, *range(-3000, 3000, 100))),) for _ in range(2000)]
    soft = [(DICE.randint(-8000, 8000),) for _ in range(500)]
    made = [rows_of(["limiter"], "(x : fix<16,15>) y : fix<16,15>", "y = limiter(x, 0.25);", rows)
            for rows in (loud, soft)]
    return max(abs(y) for y, in made[0]) <= FULL // 4 and made[1][15:] == soft[:-15]


def check_mixer() -> bool:
    """A tone at the oscillator's frequency is a constant of half its size behind a low-pass."""
    step = round(0.25 * 2**31)
    made = rows_of(["mixer", "onepole<K=6> as low"],
                   "(x : fix<16,15>, step : fix<32,31>) (i : fix<16,15>, q : fix<16,15>)",
                   "  var a, b : fix<16,15>;\n  (a, b) = mixer(x, step);\n  i = low(a);\n  q = low(b);",
                   [(x, step) for x, in sine_of(2000, 0.125, 0.8, 0.3)])
    return all(abs(math.hypot(i, q) / FULL - 0.4) < 0.01 for i, q in made[-100:])


def check_goertzel() -> bool:
    """The power of a tone of 8 periods in 64 samples, and of one of 9, at the eighth."""
    powers = []
    for periods in (8, 9):
        rows = [(x, round(2**17 * math.cos(2 * math.pi / 8))) for x, in sine_of(64, periods / 64, 0.5)]
        made = rows_of(["goertzel"], "(x : fix<16,15>, c : fix<18,16>) (on : bool, power : fix<35,2>)",
                       "(on, power) = goertzel(x, c);", rows)
        powers.append(made[-1])
    return powers[0][0] == 1 and powers[1][0] == 1 and powers[0][1] > 1000 * max(1, powers[1][1])


def check_dcblock() -> bool:
    """A constant goes, and a tone stays."""
    made = rows_of(["dcblock<K=8>"], "(x : fix<16,15>) y : fix<16,15>", "y = dcblock(x);",
                   [(x + 9000,) for x, in sine_of(6000, 0.05, 0.5)])
    last = [y for y, in made[-2000:]]
    return abs(sum(last) / len(last)) < 1 and abs(max(last) / FULL - 0.5) < 0.005


CHECKS = [value for name, value in sorted(globals().items()) if name.startswith("check_")]


def main(words: list[str]) -> int:
    if words[:1] == ["--silc"] and len(words) == 2:
        os.environ["SILC"] = str(Path(words[1]).resolve())
    elif words:
        print(__doc__, file=sys.stderr)
        return 2
    os.environ.setdefault("SILC", str(ROOT / "crates" / "silc_main" / "out" / "silc_main"))
    faults = [f"{check.__name__}: not so: {check.__doc__}" for check in CHECKS if not check()]
    for fault in faults:
        print(fault)
    print(f"library: {len(CHECKS)} purposes, {len(faults)} faults")
    return 1 if faults else 0


if __name__ == "__main__":
    sys.exit(main(sys.argv[1:]))
