"""Models of the blocks of library/, from the mathematics of their pages: whole numbers and fractions without bounds,
and nothing of `silc`. Where a page says that a word never passes its range, the model raises where it does.

A model takes the numbers of a block and rows of raw words, and gives the rows of raw words that come out.
"""
import math
from collections.abc import Callable, Iterable, Sequence
from fractions import Fraction
from typing import Any, TypeAlias

# Rows of words.
Rows: TypeAlias = Sequence[Sequence[int]]
# What a model makes of them.
Made: TypeAlias = list[tuple[int, ...]]
# The least and the greatest word of each input.
Ends: TypeAlias = list[tuple[int, int]]
# A model of a block, and what gives its inputs, by the block's numbers.
Model: TypeAlias = Callable[..., Made]
Inputs: TypeAlias = Callable[..., Ends]

BOOL = (0, 1)
MODELS, INPUTS, LINEAR = {}, {}, set()


def model(inputs: Inputs, is_linear: bool = False) -> Callable[[Model], Model]:
    """Makes a function the model of the block of its name; `inputs` gives the least and the greatest word of each
    input."""
    def made(function: Model) -> Model:
        name = function.__name__.rstrip("_")
        MODELS[name], INPUTS[name] = function, inputs
        if is_linear:
            LINEAR.add(name)
        return function
    return made


def word(bits: int) -> tuple[int, int]:
    return -(1 << bits - 1), (1 << bits - 1) - 1


def nearest(number: int | float | Fraction) -> int:
    """The nearest whole number, and up from the middle."""
    return math.floor(Fraction(number) + Fraction(1, 2))


def clipped(number: int, bits: int) -> int:
    low, high = word(bits)
    return max(low, min(high, number))


def held(number: int, bits: int) -> int:
    """The number, which is to be in the range of a word."""
    low, high = word(bits)
    if not low <= number <= high:
        raise ArithmeticError(f"{number} passes {bits} bits")
    return number


def wrapped(number: int, bits: int) -> int:
    low, high = word(bits)
    return (number - low) % (high - low + 1) + low


def past(rows: Sequence[Any], at: int, back: int) -> Any:
    """An item of a list some places before one, and 0 before the first."""
    return rows[at - back] if at >= back else 0


# Filters


@model(lambda W, F, K: [word(W)], is_linear=True)
def onepole(rows: Rows, W: int, F: int, K: int) -> Made:
    total, y, made = 0, 0, []
    for (x,) in rows:
        total = held(total + x - y, W + K)
        y = held(nearest(Fraction(total, 2**K)), W)
        made.append((y,))
    return made


@model(lambda W, F, K: [word(W)], is_linear=True)
def dcblock(rows: Rows, W: int, F: int, K: int) -> Made:
    return [(clipped(x - m, W),) for (x,), (m,) in zip(rows, onepole(rows, W, F, K))]


def coefficients(W: int, F: int, C: int, D: int) -> Ends:
    return [word(W), *[word(C)] * 5]


@model(coefficients)
def biquad(rows: Rows, W: int, F: int, C: int, D: int) -> Made:
    x, y = [row[0] for row in rows], []
    for n, (_, b0, b1, b2, a1, a2) in enumerate(rows):
        total = b0 * x[n] + b1 * past(x, n, 1) + b2 * past(x, n, 2) - a1 * past(y, n, 1) - a2 * past(y, n, 2)
        y.append(clipped(nearest(Fraction(held(total, W + C + 2), 2**D)), W))
    return [(out,) for out in y]


@model(coefficients)
def biquad_t(rows: Rows, W: int, F: int, C: int, D: int) -> Made:
    """Each coefficient with which a word was multiplied is that of the word's own sample."""
    y = []
    for n, (x, b0, *_) in enumerate(rows):
        total = b0 * x
        for back in (1, 2):
            if n >= back:
                was = rows[n - back]
                total += was[1 + back] * was[0] - was[3 + back] * y[n - back]
        y.append(clipped(nearest(Fraction(held(total, W + C + 2), 2**D)), W))
    return [(out,) for out in y]


def with_taps(W: int, C: int, **_: int) -> Ends:
    return [word(W), word(C)]


def tapped(rows: Rows, taps_of: Callable[[Callable[[int], int]], Iterable[tuple[int, int | Fraction]]], D: int,
           W: int) -> Made:
    """Rows of a filter whose taps at a sample are made of the last words of the second input."""
    x, c, made = [row[0] for row in rows], [row[1] for row in rows], []
    for n in range(len(rows)):
        total = sum(tap * past(x, n, back) for back, tap in taps_of(lambda k: past(c, n, k)))
        made.append((clipped(nearest(Fraction(total) / 2**D), W),))
    return made


@model(with_taps)
def fir(rows: Rows, N: int, W: int, F: int, C: int, D: int) -> Made:
    return tapped(rows, lambda h: [(k, h(k)) for k in range(N)], D, W)


@model(with_taps)
def fir_symmetric(rows: Rows, N: int, W: int, F: int, C: int, D: int) -> Made:
    return tapped(rows, lambda h: [(k, h(min(k, 2 * N - 1 - k))) for k in range(2 * N)], D, W)


@model(with_taps)
def halfband(rows: Rows, N: int, W: int, F: int, C: int, D: int) -> Made:
    def taps(h: Callable[[int], int]) -> list[tuple[int, int | Fraction]]:
        ends = [(2 * k, h(k)) for k in range(N)]
        return [*ends, (2 * N - 1, Fraction(2**D, 2)), *((4 * N - 2 - back, tap) for back, tap in ends)]
    return tapped(rows, taps, D, W)


def with_gain(W: int, C: int, **_: int) -> Ends:
    return [word(W), word(C)]


@model(with_gain)
def allpass(rows: Rows, N: int, W: int, F: int, C: int, D: int) -> Made:
    x, y = [row[0] for row in rows], []
    for n, (_, g) in enumerate(rows):
        y.append(clipped(nearest(past(x, n, N) + Fraction(g * (past(y, n, N) - x[n]), 2**D)), W))
    return [(out,) for out in y]


@model(with_gain)
def comb(rows: Rows, N: int, W: int, F: int, C: int, D: int) -> Made:
    y = []
    for n, (x, g) in enumerate(rows):
        y.append(clipped(nearest(x + Fraction(g * past(y, n, N), 2**D)), W))
    return [(out,) for out in y]


# Rates


def boxes(R: int, N: int) -> list[int]:
    """The answer of N sums over R words, one after another, to a single 1."""
    answer = [1]
    for _ in range(N):
        answer = [sum(answer[max(0, k - R + 1):k + 1]) for k in range(len(answer) + R - 1)]
    return answer


def filtered(words: Sequence[int], answer: Sequence[int]) -> list[int]:
    return [sum(tap * past(words, n, k) for k, tap in enumerate(answer) if k <= n) for n in range(len(words))]


@model(lambda R, N, W, F: [word(W)] * R)
def cic_down(rows: Rows, R: int, N: int, W: int, F: int) -> Made:
    words = [x for row in rows for x in row]
    width = W + math.ceil(math.log2(R)) * N
    return [(held(y, width),) for y in filtered(words, boxes(R, N))[R - 1::R]]


@model(lambda R, N, W, F: [word(W)])
def cic_up(rows: Rows, R: int, N: int, W: int, F: int) -> Made:
    words = [x if k == 0 else 0 for (x,) in rows for k in range(R)]
    width = W + math.ceil(math.log2(R)) * (N - 1)
    made = [held(y, width) for y in filtered(words, boxes(R, N))]
    return [tuple(made[at:at + R]) for at in range(0, len(made), R)]


# Sources


@model(lambda W: [word(W)])
def saw(rows: Rows, W: int) -> Made:
    total, made = 0, []
    for (step,) in rows:
        total += step
        made.append((wrapped(total, W),))
    return made


@model(lambda W: [word(W)])
def sine(rows: Rows, W: int) -> Made:
    return [(sine_of(p, W),) for (p,) in rows]


def sine_of(p: int, W: int) -> int:
    """The polynomial with its roundings, which is held against the sine itself."""
    turn, places = 2**W, W + 2
    folded = p if abs(p) * 4 <= turn else wrapped(turn // 2 - p, W)
    a = [nearest(Fraction(text) * 2**places) for text in ("1.570794851", "-0.645920978", "0.079487663", "-0.004362476")]
    t = Fraction(folded * 2, 2**(W - 1))

    def cut(number: Fraction) -> Fraction:
        return Fraction(held(nearest(number * 2**places), W + 4), 2**places)

    square = cut(t * t)
    total = Fraction(a[3], 2**places)
    for term in (a[2], a[1], a[0]):
        total = cut(total * square) + Fraction(term, 2**places)
    y = clipped(nearest(t * total * 2**(W - 1)), W)
    if abs(y - 2**(W - 1) * math.sin(math.pi * p / 2**(W - 1))) > 2 + 2e-6 * 2**(W - 1):
        raise ArithmeticError(f"the sine of {p} is {y} in {W} bits")
    return y


@model(lambda W, C: [word(C)] * 2)
def rotor(rows: Rows, W: int, C: int) -> Made:
    u, v, made = 2**(W - 2), 0, []
    for c, s in rows:
        u, v = (clipped(nearest(Fraction(part, 2**(C - 1))), W) for part in (c * u - s * v, s * u + c * v))
        made.append((u, v))
    return made


def series(above: int, below: int, count: int) -> list[int]:
    """The coefficients of a quotient of two polynomials over GF(2), which are numbers with the bit k for x^k."""
    made, rest = [], above
    for k in range(count):
        made.append(rest >> k & 1)
        if made[-1]:
            rest ^= below << k
    return made


@model(lambda N, T: [BOOL])
def pn(rows: Rows, N: int, T: int) -> Made:
    bits = [1, *series(1 << N - 1 | 1 << T - 1, 1 | 1 << N | 1 << T, len(rows))]
    made, at = [], 0
    for (run,) in rows:
        at += run
        made.append((bits[at],))
    return made


@model(lambda W, F: [BOOL])
def noise(rows: Rows, W: int, F: int) -> Made:
    bits = series(1 << 30 | 1 << 27, 1 | 1 << 31 | 1 << 28, len(rows) * W)
    made, at, y = [], 0, 0
    for (run,) in rows:
        if run:
            y = wrapped(int("".join(map(str, bits[at:at + W])), 2), W)
            at += W
        made.append((y,))
    return made


# Dynamics and nonlinearities


@model(lambda W, F: [word(W)])
def softclip(rows: Rows, W: int, F: int) -> Made:
    made = []
    for (x,) in rows:
        v = Fraction(clipped(x, F + 1), 2**F)
        square = Fraction(nearest(v * v * 2**F), 2**F)
        y = clipped(nearest(v * (3 - square) / 2 * 2**F), F + 1)
        if abs(y - (3 * v - v**3) / 2 * 2**F) > Fraction(5, 4):
            raise ArithmeticError(f"{x} becomes {y}")
        made.append((y,))
    return made


@model(lambda W, F, A, R: [word(W)])
def envelope(rows: Rows, W: int, F: int, A: int, R: int) -> Made:
    e, made = 0, []
    for (x,) in rows:
        distance = min(abs(x), word(W)[1]) * 2**R - e
        e += math.floor(Fraction(distance, 2**(A if distance > 0 else R)))
        made.append((held(math.floor(Fraction(e, 2**R)), W),))
    return made


# The least magnitude of each of the 128 steps of G.711, and the middle of it.
STEPS = [(0, 0)] + [(((2 * m + 32) << s) - 33 if s or m else 0, ((2 * m + 33) << s) - 33)
                    for s in range(8) for m in range(16)][1:]


@model(lambda W: [word(W)])
def mulaw(rows: Rows, W: int) -> Made:
    made = []
    for (x,) in rows:
        top = math.floor(Fraction(x, 2**(W - 14)))
        size = min(abs(top), 8158)
        place = max(k for k, (least, _) in enumerate(STEPS) if least <= size)
        made.append((wrapped(~(place | (128 if top < 0 else 0)), 8),))
    return made


@model(lambda W: [word(8)])
def mulaw_decode(rows: Rows, W: int) -> Made:
    made = []
    for (code,) in rows:
        bits = ~code % 256
        size = STEPS[bits % 128][1] * 2**(W - 14)
        made.append((-size if bits >= 128 else size,))
    return made


# Communications


@model(lambda W, P: [word(W), word(P)])
def mixer(rows: Rows, W: int, P: int) -> Made:
    phases = saw([(step,) for _, step in rows], P)
    made = []
    for (x, _), (phase,) in zip(rows, phases):
        p = math.floor(Fraction(phase, 2**(P - W)))
        c, s = sine_of(wrapped(p + 2**(W - 2), W), W), sine_of(p, W)
        made.append(tuple(clipped(nearest(Fraction(part, 2**(W - 1))), W) for part in (x * c, -x * s)))
    return made


@model(lambda N, P, I: [BOOL, BOOL])
def crc(rows: Rows, N: int, P: int, I: int) -> Made:
    """The remainder of the message behind N bits I, which is 0 before the first start."""
    made, message, start = [], 0, 0
    for bit, is_start in rows:
        if is_start:
            message, start = 0, I * (2**N - 1)
            length = 0
        elif not made:
            length = 0
        message, length = message << 1 | bit, length + 1
        rest = (message << N) ^ (start << length)
        for k in range(max(length - 1, rest.bit_length() - 1 - N), -1, -1):
            if rest >> (k + N) & 1:
                rest ^= (1 << N | P) << k
        made.append(tuple(rest >> k & 1 for k in range(N)))
    return made


@model(lambda W, B, F: [word(W)])
def dither(rows: Rows, W: int, B: int, F: int) -> Made:
    noises = [0, *(n for n, in noise([(1,)] * len(rows), W - B, 0))]
    return [(clipped(nearest(Fraction(x + now - before, 2**(W - B))), B),)
            for (x,), now, before in zip(rows, noises[1:], noises)]


@model(lambda W, F, H: [word(W)])
def zero_cross(rows: Rows, W: int, F: int, H: int) -> Made:
    is_up, made = False, []
    for (x,) in rows:
        was, is_up = is_up, True if x > H else False if x < -H else is_up
        made.append((int(is_up and not was),))
    return made


def bits_of(rows: Rows) -> int:
    return sum(row[0] << k for k, row in enumerate(rows))


def multiplied(one: int, two: int) -> int:
    """The product of two polynomials over GF(2)."""
    made = 0
    for k in range(two.bit_length()):
        if two >> k & 1:
            made ^= one << k
    return made


def rows_of_bits(number: int, count: int) -> Made:
    return [(number >> k & 1,) for k in range(count)]


@model(lambda: [BOOL])
def differential(rows: Rows) -> Made:
    return [(sum(x for (x,) in rows[:n + 1]) % 2,) for n in range(len(rows))]


@model(lambda: [BOOL])
def differential_decode(rows: Rows) -> Made:
    return rows_of_bits(multiplied(bits_of(rows), 0b11), len(rows))


@model(lambda N, T: [BOOL])
def scrambler(rows: Rows, N: int, T: int) -> Made:
    return [(bit,) for bit in series(bits_of(rows), 1 ^ 1 << T ^ 1 << N, len(rows))]


@model(lambda N, T: [BOOL])
def descrambler(rows: Rows, N: int, T: int) -> Made:
    return rows_of_bits(multiplied(bits_of(rows), 1 ^ 1 << T ^ 1 << N), len(rows))


@model(lambda K, A, B: [BOOL])
def convolutional(rows: Rows, K: int, A: int, B: int) -> Made:
    """Products with the polynomials, whose bits the numbers have the other way round."""
    first, second = (multiplied(bits_of(rows), int(f"{number:0{K}b}"[::-1], 2)) for number in (A, B))
    return [(first >> k & 1, second >> k & 1) for k in range(len(rows))]


@model(lambda D: [BOOL, BOOL])
def viterbi(rows: Rows, D: int) -> Made:
    """The likeliest path into each of the states (x, x@1), with all its bits from the first on."""
    paths = {(0, 0): (0, [0] * D), (0, 1): (8, [0] * D), (1, 0): (8, [0] * D), (1, 1): (8, [0] * D)}
    made = []
    for a, b in rows:
        grown = {}
        for x in (0, 1):
            for u in (0, 1):
                # The bit before the two of the state is 0 where both are as likely.
                ways = [(paths[u, v][0] + (a != x ^ u ^ v) + (b != x ^ v), v) for v in (0, 1)]
                wrong, v = min(ways)
                grown[x, u] = wrong, [*paths[u, v][1], x]
        paths = grown
        best = min(paths, key=lambda state: (paths[state][0], state))
        made.append((paths[best][1][-D],))
    return made


@model(lambda W: [word(W)] * 2)
def pulse(rows: Rows, W: int) -> Made:
    phases = saw([(step,) for step, _ in rows], W)
    return [(int(phase < width),) for (phase,), (_, width) in zip(phases, rows)]


@model(lambda W, F: [word(W), BOOL])
def sample_hold(rows: Rows, W: int, F: int) -> Made:
    return [(next((x for x, take in reversed(rows[:n + 1]) if take), 0),) for n in range(len(rows))]


@model(lambda R, W, C, **_: [*[word(W)] * R, word(C)])
def polyphase_down(rows: Rows, R: int, N: int, W: int, F: int, C: int, D: int) -> Made:
    words, made = [x for row in rows for x in row[:R]], []
    for n in range(len(rows)):
        at = R * n + R - 1
        total = sum(past([row[R] for row in rows], n, k) * past(words, at, k) for k in range(R * N))
        made.append((clipped(nearest(Fraction(total, 2**D)), W),))
    return made


@model(with_taps)
def polyphase_up(rows: Rows, R: int, N: int, W: int, F: int, C: int, D: int) -> Made:
    made = []
    for n in range(len(rows)):
        taps = [past([c for _, c in rows], n, k) for k in range(R * N)]
        words = [x for row in rows[:n + 1] for x in (row[0], *[0] * (R - 1))]
        sums = [sum(tap * past(words, R * n + r, k) for k, tap in enumerate(taps)) for r in range(R)]
        made.append(tuple(clipped(nearest(Fraction(total, 2**D)), W) for total in sums))
    return made


@model(with_taps)
def hilbert(rows: Rows, N: int, W: int, F: int, C: int, D: int) -> Made:
    def taps(h: Callable[[int], int]) -> list[tuple[int, int | Fraction]]:
        return [(2 * k, h(k)) for k in range(N)] + [(4 * N - 2 - 2 * k, -h(k)) for k in range(N)]
    q = tapped(rows, taps, D, W)
    return [(past(rows, n, 2 * N - 1)[0] if n >= 2 * N - 1 else 0, out) for n, (out,) in enumerate(q)]


@model(lambda W, K: [word(W)])
def level(rows: Rows, W: int, K: int) -> Made:
    return onepole([(clipped(nearest(Fraction(x * x, 2**(W - 1))), W),) for (x,) in rows], W, W - 1, K)


@model(lambda N, W, C, M: [word(W)] * 2)
def lms(rows: Rows, N: int, W: int, C: int, M: int) -> Made:
    weights, made, x = [0] * N, [], [row[0] for row in rows]
    for n, (_, d) in enumerate(rows):
        y = clipped(nearest(Fraction(sum(w * past(x, n, k) for k, w in enumerate(weights)), 2**(C - 2))), W)
        e = clipped(d - y, W)
        moves = [math.floor(Fraction(wrapped(e * past(x, n, k), 2 * W), 2**M)) for k in range(N)]
        moves = [clipped(nearest(Fraction(move) * 2**(C - 2) / 2**(2 * W - 2)), C) for move in moves]
        weights = [clipped(w + move, C) for w, move in zip(weights, moves)]
        made.append((y, e))
    return made


@model(lambda W, F, C: [word(W), word(C), word(C)])
def svf(rows: Rows, W: int, F: int, C: int) -> Made:
    low, band, made = 0, 0, []
    for x, f, q in rows:
        low = clipped(nearest(low + Fraction(f * band, 2**(C - 2))), W)
        high = clipped(nearest(x - low - Fraction(q * band, 2**(C - 2))), W)
        band = clipped(nearest(band + Fraction(f * high, 2**(C - 2))), W)
        made.append((low, band, high))
    return made


@model(with_taps)
def lattice(rows: Rows, N: int, W: int, F: int, C: int) -> Made:
    g, made = [0] * (N + 1), []
    for n, (x, _) in enumerate(rows):
        k = [past([c for _, c in rows], n, m) for m in range(N)]
        f, now = x, [0] * (N + 1)
        for m in range(N, 0, -1):
            f = clipped(nearest(f - Fraction(k[m - 1] * g[m - 1], 2**(C - 1))), W)
            now[m] = clipped(nearest(g[m - 1] + Fraction(k[m - 1] * f, 2**(C - 1))), W)
        now[0], g = f, now
        made.append((f,))
    return made


@model(lambda W, G, K: [word(W)] * 2)
def agc(rows: Rows, W: int, G: int, K: int) -> Made:
    gain, made = Fraction(1), []
    unit = 2**(W + K - 1)
    most = Fraction(2**(W + K + G - 1) - 1, unit)
    for x, t in rows:
        y = clipped(nearest(gain * x), W)
        size = min(abs(y), word(W)[1])
        moved = gain + Fraction(math.floor(Fraction(t - size, 2**(W - 1) * 2**K) * unit), unit)
        gain = min(max(moved, 0), most)
        made.append((y,))
    return made


@model(lambda W, A, D, R: [BOOL, word(W)])
def adsr(rows: Rows, W: int, A: int, D: int, R: int) -> Made:
    e, is_up, was, made = 0, False, 0, []
    unit = 2**(W + 14)
    top = Fraction(unit) - Fraction(unit, 2**(W - 1))
    for gate, sustain in rows:
        is_up = bool(gate) and (not was or is_up and e < top)
        if is_up:
            e = min(int(top), e + unit // 2**A)
        elif gate:
            e += math.floor(Fraction(sustain * 2**15 - e, 2**D))
        else:
            e -= math.floor(Fraction(e, 2**R))
        was = gate
        made.append((held(math.floor(Fraction(e, 2**15)), W),))
    return made


@model(lambda W, T, S: [word(W)] * 2)
def gate(rows: Rows, W: int, T: int, S: int) -> Made:
    wait, gain, made = 0, Fraction(0), []
    for x, bound in rows:
        size = min(abs(x), word(W)[1])
        if size > bound:
            wait = 2**T
        elif wait:
            wait = wait - 1 if size < math.floor(Fraction(bound, 2)) else 2**T
        gain = min(max(gain + Fraction(1 if wait else -1, 2**S), 0), 1 - Fraction(1, 2**15))
        made.append((held(nearest(gain * x), W),))
    return made


# The least magnitude of each of the 128 steps of G.711's A-law, and the middle of it.
A_STEPS = [(2 * m, 2 * m + 1) for m in range(32)] + [((16 + m) << s, ((32 + 2 * m + 1) << s) // 2)
                                                     for s in range(2, 8) for m in range(16)]


@model(lambda W: [word(W)])
def alaw(rows: Rows, W: int) -> Made:
    made = []
    for (x,) in rows:
        top = math.floor(Fraction(x, 2**(W - 13)))
        place = max(k for k, (least, _) in enumerate(A_STEPS) if least <= (top if top >= 0 else -top - 1))
        made.append((wrapped((place | (128 if top >= 0 else 0)) ^ 0x55, 8),))
    return made


@model(lambda W: [word(8)])
def alaw_decode(rows: Rows, W: int) -> Made:
    made = []
    for (code,) in rows:
        plain = code % 256 ^ 0x55
        size = A_STEPS[plain % 128][1] * 2**(W - 13)
        made.append((size if plain >= 128 else -size,))
    return made


def steps_of(p: int, q: int, z: int, N: int, W: int, is_up: Callable[[int, int], bool]) -> tuple[int, int, int]:
    """The steps of CORDIC on whole numbers, and the angle that they leave."""
    for k in range(N):
        turn = nearest(Fraction(math.atan(2.0**-k) / math.pi) * 2**(W + 3))
        sign = 1 if is_up(q, z) else -1
        p, q, z = p - sign * math.floor(Fraction(q, 2**k)), q + sign * math.floor(Fraction(p, 2**k)), z - sign * turn
    return held(p, W + 6), held(q, W + 6), z


def growth(N: int) -> float:
    return math.prod(math.sqrt(1 + 4.0**-k) for k in range(N))


@model(lambda N, W: [word(W)] * 3)
def cordic(rows: Rows, N: int, W: int) -> Made:
    made = []
    for x, y, a in rows:
        is_far = abs(a) > 2**(W - 2)
        sign, b = (-1, wrapped(a + 2**(W - 1), W)) if is_far else (1, a)
        p, q, _ = steps_of(sign * x * 16, sign * y * 16, held(b, W) * 16, N, W, lambda q, z: z >= 0)
        u, v = (held(nearest(Fraction(part, 16)), W + 2) for part in (p, q))
        ideal = growth(N) * complex(x, y) * complex(math.cos(math.pi * a / 2**(W - 1)),
                                                    math.sin(math.pi * a / 2**(W - 1)))
        if abs(complex(u, v) - ideal) > 4 + 2.0**(1 - N) * abs(ideal):
            raise ArithmeticError(f"{x}, {y} turned by {a} are {u}, {v}")
        made.append((u, v))
    return made


@model(lambda N, W: [word(W)] * 2)
def polar(rows: Rows, N: int, W: int) -> Made:
    made = []
    for x, y in rows:
        sign, z = (1, 0) if x >= 0 else (-1, -(2**(W + 3)) if y < 0 else 2**(W + 3))
        p, _, z = steps_of(sign * x * 16, sign * y * 16, z, N, W, lambda q, z: q < 0)
        m, a = held(nearest(Fraction(p, 16)), W + 2), wrapped(nearest(Fraction(z, 16)), W)
        size = math.hypot(x, y)
        if abs(m - growth(N) * size) > 4 + 2.0**(1 - 2 * N) * growth(N) * size:
            raise ArithmeticError(f"the magnitude of {x}, {y} is {m}")
        off = math.remainder(math.pi * a / 2**(W - 1) - math.atan2(y, x), 2 * math.pi)
        if size and abs(off) > 2.0**(1 - N) + 4 / size + 8 * math.pi / 2**W:
            raise ArithmeticError(f"the angle of {x}, {y} is {a}")
        made.append((m, a))
    return made


@model(lambda N, W, F, C: [word(W), word(C)])
def goertzel(rows: Rows, N: int, W: int, F: int, C: int) -> Made:
    made, power, more = [], 0, N.bit_length() * 2
    for n, (x, c) in enumerate(rows):
        if n % N == 0:
            k, s, t = Fraction(c, 2**(C - 2)), 0, 0
        s, t = held(x + nearest(k * s) - t, W + more), s
        if n % N == N - 1:
            u, v = (clipped(nearest(Fraction(part, 2**more)), W) for part in (s, t))
            power = held(u * u + v * v - nearest(k * u * v), 2 * W + 3)
        made.append((int(n % N == N - 1), power))
    return made


@model(lambda N, W, F: [word(W)] * 2)
def divide(rows: Rows, N: int, W: int, F: int) -> Made:
    def quotient(a: int, b: int) -> int:
        return 2**N - 1 if b <= 0 or a >= b else math.floor(Fraction(max(a, 0) * 2**N, b))
    return [(quotient(a, b),) for a, b in rows]


@model(lambda B, W, N: [word(W)] * 2)
def limiter(rows: Rows, B: int, W: int, N: int) -> Made:
    ahead, gains, made = 2**B, [], []
    sizes = [min(abs(x), word(W)[1]) for x, _ in rows]
    for n, (_, level) in enumerate(rows):
        peak = max([0] * (n < ahead - 1) + sizes[max(0, n - ahead + 1):n + 1])
        gains.append(2**N if peak <= level else divide([(level, peak)], N, W, W - 1)[0][0])
        mean = math.floor(Fraction(sum(gains[n - k] if n >= k else 2**N for k in range(ahead)), ahead))
        late = n - ahead + 1
        size = clipped(math.floor(Fraction(past(sizes, n, ahead - 1) * mean, 2**N)), W)
        levels = {one for _, one in rows[max(0, n - 2 * ahead + 2):n + 1]}
        if len(levels) == 1 and level > 0 and size > level:
            raise ArithmeticError(f"{size} passes the level {level}")
        made.append((-size if late >= 0 and rows[late][0] < 0 else size,))
    return made


def following(W: int, A: int, R: int) -> Callable[[int], int]:
    """The level of `envelope`, a word after another."""
    e = 0

    def level(x: int) -> int:
        nonlocal e
        distance = min(abs(x), word(W)[1]) * 2**R - e
        e += math.floor(Fraction(distance, 2**(A if distance > 0 else R)))
        return math.floor(Fraction(e, 2**R))
    return level


@model(lambda W, A, R, S: [word(W)] * 2)
def compressor(rows: Rows, W: int, A: int, R: int, S: int) -> Made:
    level, gain, made, one = following(W, A, R), 2**(W - 1), [], 2**(W - 1)
    for x, t in rows:
        y = held(nearest(Fraction(gain * x, one)), W)
        gain = one - min(max((level(y) - t) * 2**S, 0), one)
        made.append((y,))
    return made


def smoothing(W: int, K: int) -> Callable[[int], int]:
    """`onepole`, a word after another."""
    total, y = 0, 0

    def smooth(x: int) -> int:
        nonlocal total, y
        total += x - y
        y = nearest(Fraction(total, 2**K))
        return y
    return smooth


@model(lambda W, P, K, A, B: [word(W), word(P)])
def costas(rows: Rows, W: int, P: int, K: int, A: int, B: int) -> Made:
    arms, made = (smoothing(W, K), smoothing(W, K)), []
    phase, turns, error = 0, 0, 0
    for x, step in rows:
        turns += math.floor(Fraction(error * 2**(P - W), 2**B))
        phase = wrapped(phase + step + turns + math.floor(Fraction(error * 2**(P - W), 2**A)), P)
        p = math.floor(Fraction(phase, 2**(P - W)))
        c, s = sine_of(wrapped(p + 2**(W - 2), W), W), sine_of(p, W)
        i, q = (arm(clipped(nearest(Fraction(part, 2**(W - 1))), W)) for arm, part in zip(arms, (x * c, -x * s)))
        error = clipped(-q if i < 0 else q, W)
        made.append((i, q))
    return made


@model(lambda W, L, A, B: [word(W)])
def gardner(rows: Rows, W: int, L: int, A: int, B: int) -> Made:
    unit, one = 2**30, 2**(W - 1)
    count, stays, error, is_symbol, made = 0, 0, 0, False, []
    before, symbol, half = 0, 0, 0
    most = unit >> L + 2
    for (x,) in rows:
        moved = stays + math.floor(Fraction(error, 2**A))
        place, count = min(count * 2**L, unit), count - (unit >> L) - max(-most, min(most, moved))
        share = math.floor(Fraction(place, 2**15))
        word_there = clipped(nearest(before + Fraction(share * (x - before), 2**15)), W)
        is_taken, before = count < 0, x
        if is_taken:
            count, is_symbol = count + unit, not is_symbol
            if is_symbol:
                change = clipped(word_there - symbol, W)
                symbol = word_there
                error = nearest(Fraction(change * half, one)) if abs(change * half) < one * one else one - 1
                error = clipped(error, W) * 2**(31 - W)
                stays = max(-most, min(most, stays + math.floor(Fraction(error, 2**B))))
            else:
                half = word_there
        made.append((int(is_taken and is_symbol), symbol, share))
    return made


@model(lambda N, W, C, M: [word(W)] * 2)
def nlms(rows: Rows, N: int, W: int, C: int, M: int) -> Made:
    weights, made, x, one = [0] * N, [], [row[0] for row in rows], 2**(W - 1)
    for n, (_, d) in enumerate(rows):
        y = clipped(nearest(Fraction(sum(w * past(x, n, k) for k, w in enumerate(weights)), 2**(C - 2))), W)
        e = clipped(d - y, W)
        power = sum(nearest(Fraction(past(x, n, k)**2, one)) for k in range(N))
        g = 2**15 - 1 if power * 2**M <= one else math.floor(Fraction(one * 2**15, 2**M * power))
        move = clipped(nearest(Fraction(g * e, 2**15)), W)
        weights = [clipped(w + clipped(nearest(Fraction(move * past(x, n, k) * 2**(C - 2), one * one)), C), C)
                   for k, w in enumerate(weights)]
        made.append((y, e))
    return made
