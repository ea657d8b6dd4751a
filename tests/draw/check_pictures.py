#!/usr/bin/env python3
"""Whether the pictures of tools/draw show what the texts of schedules say, the responses of filters that are known, the
words of rows, and the processors of nets.

It knows nothing of the layout: columns and axes are found by the numbers beside them, bars and curves by their titles.
"""
import math
import os
import re
import subprocess
import sys
import tempfile
import xml.etree.ElementTree as Xml
from collections.abc import Callable, Iterable, Iterator, Sequence
from pathlib import Path
from typing import Any, TypeAlias

# A bar: its title, its first column and the one behind its last, and its place and size.
Bar: TypeAlias = tuple[str, float, float, tuple[float, ...]]
# What a curve has at a share of the sample rate.
Known: TypeAlias = Callable[[float], float]

HERE = Path(__file__).resolve().parent
ROOT = HERE.parent.parent
SVG = "{http://www.w3.org/2000/svg}"
NODE = re.compile(r"node (\d+) cycle (\d+) unit (\S+) op (\S+)((?: -?\d+(?:@\d+)?)*)")
TRANSFER = re.compile(r" to (\S+) bus (\S+) regs (\S+)")
WITHOUT_OPERANDS = ("input", "const", "addr")
# The texts, each with its datapath file and the latencies above 1 there.
TEXTS = [("increment", None, {}), ("biquad", "biquad", {"mul": 2}), ("accumulator", None, {}),
         ("held_difference", None, {}),
         ("held_three", None, {}), ("long", "long", {"mul": 8}), ("long", None, {}), ("increment_stages", None, {}),
         ("stages", "long", {"mul": 8})]
HEAD = re.compile(r"period (\d+)(?: stages (\d+))? unroll (\d+)")
# How many samples are drawn unfolded.
SAMPLES = 3


# A source for the text `increment`, with the line and the element of each of its nodes.
SHOW = Path(os.environ.get("SILC_SHOW", ROOT / "crates" / "silc_show" / "out" / "silc_show"))
SOURCE = "func main(x : fix<8,0>)\n  y : fix<8,0> =\nbegin\n  y = x + 1;\nend;\n"
ORIGINS = [(1, "x"), (4, "y"), (4, "y"), (4, "y")]


class Faults(list):
    def unless(self, holds: object, words: str) -> None:
        if not holds:
            self.append(words)


def found(name: str, ending: str) -> Path:
    """A file of the docs, or else one beside this script."""
    file = ROOT / "docs" / "pictures" / f"{name}.{ending}"
    return file if file.exists() else HERE / f"{name}.{ending}"


def drawn(*words: str | Path, given: str = "") -> Xml.Element:
    done = subprocess.run([ROOT / "tools" / "draw", *words], input=given, capture_output=True, text=True, check=True)
    return Xml.fromstring(done.stdout)


def number(shape: Xml.Element, *names: str) -> list[float]:
    return [float(shape.get(name)) for name in names]


def centres(picture: Xml.Element) -> list[tuple[int, float, float]]:
    """Of each cycle with a number, the middle of its column and how far down the number stands."""
    texts = [shape for shape in picture.iter(SVG + "text") if shape.get("font-size") == "10" and shape.text.isdigit()]
    tops = {shape.get("y") for shape in picture.iter(SVG + "text") if shape.text == "cycle"}
    return [(int(shape.text), *number(shape, "x", "y")) for shape in texts if shape.get("y") in tops]


def bars(picture: Xml.Element) -> Iterator[Bar]:
    """The shapes with a title: the title, and the cycles that each covers as numbers of columns."""
    columns = centres(picture)
    (one, x1, _), (two, x2, _) = columns[:2]
    step = (x2 - x1) / (two - one)
    for shape in picture.iter(SVG + "rect"):
        title = shape.find(SVG + "title")
        if title is not None:
            x, y, width, height = number(shape, "x", "y", "width", "height")
            above = max(top for _, _, top in columns if top < y)
            cycle, centre, _ = next(column for column in columns if column[2] == above)
            first = cycle + (x - centre) / step + 0.5
            yield title.text, first, first + width / step, (x, y, width, height)


def covered(shown: Iterable[Bar]) -> dict[str, list[int]]:
    """The cycles that the bars with one title cover, from the first to the one behind the last."""
    made = {}
    for title, first, end, _ in shown:
        made.setdefault(title, []).extend(range(round(first), round(end)))
    return {title: sorted(cycles) for title, cycles in made.items()}


def overlaps(shown: Iterable[Bar]) -> list[tuple[tuple[float, ...], tuple[float, ...]]]:
    boxes = [box for *_, box in shown]
    return [(a, b) for k, a in enumerate(boxes) for b in boxes[:k]
            if a[0] < b[0] + b[2] and b[0] < a[0] + a[2] and a[1] < b[1] + b[3] and b[1] < a[1] + a[3]]


def is_inside(picture: Xml.Element) -> bool:
    """Whether all that is written stands in the picture, by the width that its letters have at most."""
    width, height = number(picture, "width", "height")
    for shape in picture.iter(SVG + "text"):
        (x, y), wide = number(shape, "x", "y"), 0.62 * float(shape.get("font-size")) * len(shape.text or "")
        left = x - {"start": 0, "middle": wide / 2, "end": wide}[shape.get("text-anchor")]
        if left < 0 or left + wide > width or not 0 < y < height:
            return False
    return True


def head_of(text: str) -> tuple[int, int | None, int]:
    """The period, the stages, or nothing where the text names none, and the unroll factor."""
    period, stages, unroll = HEAD.match(text).groups()
    return int(period), int(stages) if stages else None, int(unroll)


def cycles_in(first: int, last: int) -> str:
    return f"cycle {first}" if last == first else f"cycles {first} to {last}"


def drawn_once(text: str, latency: dict[str, int], shift: int,
               note_of: Callable[[int], str]) -> Iterator[tuple[str, range]]:
    """What is drawn of one sample that begins so many cycles later: the title of each bar, and the cycles that it
    covers."""
    for line in text.splitlines()[1:]:
        node, cycle, unit, op, operands = NODE.match(line).groups()
        first = int(cycle) + shift
        last = first + latency.get(unit, 1) - 1
        title = f"node {node}: {op}{operands}, on {unit} in {cycles_in(first, last)}{note_of(first)}"
        yield title, range(first, last + 1)
        taken = {}
        for file, bus, registers in TRANSFER.findall(line):
            taken.setdefault(bus, []).append(f"{file} register {registers}")
        for bus, files in taken.items():
            yield f"node {node} over {bus} in cycle {last} to {', '.join(files)}{note_of(last)}", range(last, last + 1)


def check_bars(wanted: dict[str, list[int]], picture: Xml.Element, faults: Faults) -> None:
    """The bars have these titles and cover these cycles, and none is on another."""
    shown = list(bars(picture))
    cycles = covered(shown)
    faults.unless(set(cycles) == set(wanted), f"bars {set(cycles) ^ set(wanted)}")
    faults.unless(all(cycles.get(title) == wanted[title] for title in wanted), "a bar covers other cycles")
    faults.unless(not overlaps(shown), "bars on one another")
    faults.unless(is_inside(picture), "words outside the picture")


def check_schedule(text: str, latency: dict[str, int], picture: Xml.Element, faults: Faults) -> None:
    period, stages, _ = head_of(text)
    note_of = (lambda cycle: f", stage {cycle // period}") if stages else (lambda cycle: "")
    wanted = {title: sorted(cycle % period for cycle in cycles)
              for title, cycles in drawn_once(text, latency, 0, note_of)}
    check_bars(wanted, picture, faults)


def check_unfolded(text: str, latency: dict[str, int], picture: Xml.Element, faults: Faults) -> None:
    period, _, _ = head_of(text)
    wanted = {title: list(cycles) for sample in range(SAMPLES)
              for title, cycles in drawn_once(text, latency, sample * period, lambda _: f", sample {sample}")}
    check_bars(wanted, picture, faults)


def reads_of(node: str, file: str, nodes: Sequence[Any], period: int) -> Iterator[int]:
    """The cycles in which a word is read from a file, counted from the start of the sample in which it is written."""
    for (_, at, reader, op, operands), _ in nodes:
        words = operands.split()[1 if op in (*WITHOUT_OPERANDS, "output") else 0 :]
        for port, word in enumerate(words):
            read, _, delay = word.partition("@")
            if read == node and f"{reader}.{port}" == file:
                yield int(at) + int(delay or 0) * period


def lives(text: str, latency: dict[str, int]) -> Iterator[tuple[str, str, int, list[int], int]]:
    """Of each register, node and sample the cycles of its word's write and of its reads, from the start of sample 0.
    Over stages the word is of the period in which it is written."""
    period, stages, unroll = head_of(text)
    nodes = [(NODE.match(line).groups(), TRANSFER.findall(line)) for line in text.splitlines()[1:]]
    for (node, cycle, unit, *_), transfers in nodes:
        written = int(cycle) + latency.get(unit, 1) - 1
        write = written % period
        for file, _, registers in transfers:
            reads, copies = list(reads_of(node, file, nodes, period)), registers.split(",")
            for sample in range(unroll):
                shift = sample * period
                yield (f"node {node} of {'period' if stages else 'sample'} {sample}",
                       f"{file} register {copies[sample % len(copies)]}", write + shift,
                       [read + shift - written + write for read in reads], period * unroll)


def marks(picture: Xml.Element) -> Iterator[tuple[str, int, float]]:
    """Of each write and read that is marked, by its title, the cycle on the circle and how far down it stands."""
    columns = centres(picture)
    (one, x1, _), (two, x2, _) = columns[:2]
    step = (x2 - x1) / (two - one)

    def cycle_at(x: float, y: float) -> float:
        above = max(top for _, _, top in columns if top < y)
        cycle, centre, _ = next(column for column in columns if column[2] == above)
        return cycle + (x - centre) / step

    for shape in picture.iter():
        title = shape.find(SVG + "title")
        if title is not None and shape.tag == SVG + "circle":
            x, y = number(shape, "cx", "cy")
            yield title.text, round(cycle_at(x, y)), y
        elif title is not None and " goes into " in (title.text or "") and shape.tag == SVG + "path":
            x, y = map(float, shape.get("d").split("L")[2].split()[:2])
            # The tip is at the end of the cycle.
            yield title.text, round(cycle_at(x, y) - 0.5), y


def check_marks(wanted: Iterable[tuple[str, int]], picture: Xml.Element, faults: Faults) -> None:
    """Each write and read is marked once, in its cycle, and in the row of its register."""
    rows = {}
    for title, _, _, (_, y, _, height) in bars(picture):
        rows.setdefault(re.search(r"in (\S+ register \d+),", title)[1], set()).add((y, y + height))
    shown = sorted((title, cycle) for title, cycle, _ in marks(picture))
    faults.unless(shown == sorted(wanted), f"marks {set(shown) ^ set(wanted)}")
    for title, _, y in marks(picture):
        register = re.search(r"(?:into|from) (\S+ register \d+) in", title)[1]
        faults.unless(any(top < y < bottom for top, bottom in rows[register]), f"the mark {title} is in another row")


def check_lifetimes(text: str, latency: dict[str, int], picture: Xml.Element, faults: Faults) -> None:
    shown = list(bars(picture))
    wanted, marked = {}, []
    for word, register, write, reads, circle in lives(text, latency):
        cycles = range(write + 1, max(reads) + 1)
        wanted[f"{word} in {register}, cycles {cycles[0]} to {cycles[-1]}"] = sorted(cycle % circle for cycle in cycles)
        marked.append((f"{word} goes into {register} in cycle {write}", write))
        marked += [(f"{word} is read from {register} in cycle {read}", read % circle) for read in reads]
    faults.unless(covered(shown) == wanted, f"lives {set(covered(shown)) ^ set(wanted)}")
    faults.unless(not overlaps(shown), "two words in one register")
    check_marks(marked, picture, faults)
    faults.unless(is_inside(picture), "words outside the picture")


def scale(marks: Iterable[tuple[float, float]]) -> Callable[[float], float]:
    """The line through the places of an axis' numbers: a place to its number."""
    (one, at), (two, to) = min(marks), max(marks)
    return lambda place: one + (place - at) * (two - one) / (to - at)


def points_of(curve: str) -> list[list[tuple[float, ...]]]:
    """The points of a curve, part by part."""
    return [[tuple(map(float, point.split())) for point in part.split(" L")] for part in curve[1:].split(" M") if part]


def check_ends(levels: Iterable[float], least: float, most: float, faults: Faults) -> None:
    """The numbers at an axis are in equal steps, of 1, 2 or 5 times a power of ten, and no step of them is for
    nothing."""
    levels = sorted(levels)
    step = levels[1] - levels[0]
    faults.unless(all(abs(two - one - step) < step / 1000 for one, two in zip(levels, levels[1:])),
                  f"uneven numbers {levels}")
    faults.unless(f"{step:.0e}"[0] in "125" and len(levels) <= 12, f"steps of {step}")
    near = step / 40
    faults.unless(levels[0] - near <= least < levels[1] or len(levels) == 2,
                  f"from {levels[0]}, and {least} is the least")
    faults.unless(levels[-2] < most <= levels[-1] + near or len(levels) == 2,
                  f"to {levels[-1]}, and {most} is the most")


def decibels(known: Known, share: float) -> float:
    return 20 * math.log10(max(known(share), 1e-9))


def check_response(picture: Xml.Element, known: Known, rate: int, asked: tuple[float, float] | None,
                   faults: Faults) -> None:
    """Each point of each curve is on the one that is known, but for a tenth of a decibel, and the curve is there where
    that is between the ends of the axis. These are as they are asked for, or as the curve has them."""
    texts = [shape for shape in picture.iter(SVG + "text") if shape.get("font-size") == "10"]
    frequencies = [(math.log(float(t.text)), *number(t, "x")) for t in texts if t.get("text-anchor") == "middle"]
    levels = [(float(t.text), float(t.get("y")) - 4) for t in texts if t.get("text-anchor") == "end"]
    across, down = scale(frequencies), scale(levels)
    left, right = sorted({number(line, "x1")[0] for line in picture.iter(SVG + "line")})[0], 84 + 760
    shares = [math.exp(across(x)) / rate for x in range(round(left), right + 1)]
    wanted = [decibels(known, share) for share in shares]
    low, high = asked or (min(levels)[0], max(levels)[0])
    if not asked:
        least, most = max(min(wanted), max(wanted) - 100), max(wanted)
        short = max(0, 1 - (most - least)) / 2
        check_ends([level for level, _ in levels], least - short, most + short, faults)
    curves = [shape.get("d") for shape in picture.iter(SVG + "path") if shape.find(SVG + "title") is not None]
    faults.unless(len(curves) == 2, f"{len(curves)} curves")
    for parts in map(points_of, curves):
        for x, y in sum(parts, []):
            there = [decibels(known, min(math.exp(across(near)) / rate, 0.5)) for near in (x - 1.5, x, x + 1.5)]
            if not min(there) - 0.1 <= down(y) <= max(there) + 0.1:
                faults.append(f"{down(y):.2f} dB in the place of {there[1]:.2f}")
                break
        lacking = [x for x, level in enumerate(wanted, round(left)) if low < level < high
                   and not any(part[0][0] - 2 <= x <= part[-1][0] + 2 for part in parts)]
        faults.unless(not lacking, f"no curve at {lacking}")
    faults.unless(is_inside(picture), "words outside the picture")


def group_of(name: str, columns: dict[str, list[int]]) -> tuple[int, int]:
    """The least and the greatest word of the columns that have one axis with that of a name: of those that have most
    bits, and no more than three fewer, and so on."""
    bits = {one: max(max(words), -1 - min(words)).bit_length() for one, words in columns.items()}
    left = set(bits)
    while left:
        most = max(bits[one] for one in left)
        group = {one for one in left if bits[one] >= most - 3}
        if name in group:
            return min(min(columns[one]) for one in group), max(max(columns[one]) for one in group)
        left -= group


def check_words(picture: Xml.Element, columns: dict[str, list[int]], asked: tuple[float, float] | None,
                faults: Faults) -> None:
    """Each curve has the words of its column, by the numbers at the axes of its panel, but for a hundredth of the
    scale."""
    texts = [shape for shape in picture.iter(SVG + "text") if shape.get("font-size") == "10"]
    samples = {}
    for text in texts:
        if text.get("text-anchor") == "middle":
            samples.setdefault(float(text.get("y")), []).append((int(text.text), *number(text, "x")))
    curves = {shape.find(SVG + "title").text: shape.get("d") for shape in picture.iter(SVG + "path")}
    faults.unless(list(curves) == list(columns), f"curves {list(curves)}")
    bottoms = sorted(samples)
    for (name, words), above, bottom in zip(columns.items(), [0, *bottoms], bottoms):
        levels = [(int(t.text), float(t.get("y")) - 4) for t in texts
                  if t.get("text-anchor") == "end" and above < float(t.get("y")) < bottom]
        across, down = scale(samples[bottom]), scale(levels)
        low, high = asked or (min(levels)[0], max(levels)[0])
        if not asked:
            check_ends([level for level, _ in levels], *group_of(name, columns), faults)
        shown = [(across(x), down(y)) for part in points_of(curves[name]) for x, y in part]
        inside = {sample: word for sample, word in enumerate(words) if low <= word <= high}
        near = {round(sample): level for sample, level in shown if abs(sample - round(sample)) < 0.1}
        faults.unless(all(abs(near.get(sample, math.inf) - word) <= (high - low) / 100
                          for sample, word in inside.items()),
                      f"{name} has other words")
        faults.unless(all(low - (high - low) / 50 <= level <= high + (high - low) / 50 for _, level in shown),
                      f"{name} passes its axis")
    faults.unless(is_inside(picture), "words outside the picture")


# Columns of words, each by the names that are given for them, and the ends of an axis that is asked for.
COLUMNS = [({"one": [0, 100, -100, 7]}, None),
           ({"a ramp": list(range(-300, 300)), "its half": [n // 2 for n in range(-300, 300)]}, None),
           ({"the ends": [32767, -32768], "small": [1, -1]}, None),
           ({"forty bits": [(1 << 39) - 1, -(1 << 39), 0] * 5}, None),
           # A truth value beside a word of 24 bits, and a signal that is small beside where it is.
           ({"is loud": [0, 1, 1, 0], "the signal": [-8388608, 8388607, 5, 6000000]}, None),
           ({"is loud": [0, 1, 1, 0], "level": [5000010, 5000020, 5000013, 5000011]}, None),
           ({"still": [7, 7, 7]}, None), ({"beyond": [0, 50, 90, -80, 20, 100]}, (-50, 60))]


# Filters whose response is known: rows on an impulse, the word for a gain of 1, the design, the magnitude.
RESPONSES = {
    "sum of two": ("1\n1\n", "1", "1,1", lambda share: 2 * math.cos(math.pi * share)),
    "one pole": ("".join(f"{2**30 >> k},0\n" for k in range(31)), str(2**30), "1;-0.5",
                 lambda share: 1 / math.sqrt(1.25 - math.cos(2 * math.pi * share))),
    "delay": ("0\n0\n-5\n", "10", "0,0,-0.5", lambda share: 0.5),
    # From -2.5 to 1.9 decibels.
    "a shelf": ("4\n-1\n", "4", "1,-0.25", lambda share: math.sqrt(1.0625 - 0.5 * math.cos(2 * math.pi * share))),
}
# The ends of the axes that are asked for, of decibels and of frequencies.
ASKED = [(-3, 1), ("0.02", "0.4")]
# The samples a second at which each is drawn again, with an axis in hertz.
RATES = (8000, 44100)


def judged(name: str, check: Callable[..., None], *given: Any) -> bool:
    """Whether a picture is as it should be; what is wrong is printed."""
    faults = Faults()
    check(*given, faults)
    for fault in faults:
        print(f"{name}: {fault}")
    return not faults


def check_origins(picture: Xml.Element, faults: Faults) -> None:
    """The bars and the table have the element of each node, and its line."""
    titles = {number: title for title in (shape.text for shape in picture.iter(SVG + "title"))
              for number in re.findall(r"^node (\d+): .* on \S+ in cycle", title)}
    texts = [shape.text for shape in picture.iter(SVG + "text")]
    table = texts[texts.index("operation") + 1:]
    rows = [table[k:k + 4] for k in range(0, len(table), 4)]
    for number, (line, element) in enumerate(ORIGINS):
        title = titles.get(str(number), "")
        faults.unless(title.endswith(f"; {element} in line {line}"), f"the bar of node {number} says {title}")
        faults.unless(rows[number][:3] == [str(number), str(line), element],
                      f"the table has {rows[number]} for node {number}")
    faults.unless(len(rows) == len(ORIGINS), f"the table has {len(rows)} rows")


# A net of two processors that both read its row, and the second the first, with what its picture has to show.
NET_FILES = {
    "a.sil": "func main(x : fix<8,0>, is_on : bool) (y : fix<8,0>, z : fix<9,1,round>) = begin y = x; z = 0.0; end;",
    "b.sil": "func main(p[2] : fix<8,0>) q : bool = begin q = p[0] < p[1]; end;", "a.toml": "period = 7\n",
    "b.toml": "period = 9\n",
    "net.toml": ('inputs = 2\ncapacity = 3\n[[proc]]\nsrc = "a.sil"\ndp = "a.toml"\nfeed = ["in.1", "in.0"]\n'
                 '[[proc]]\nsrc = "b.sil"\ndp = "b.toml"\nfeed = ["in.1", "0.0"]\n')}
NET_TEXTS = {"in.0  bool", "in.1  fix<8,0>", "in.1  x : fix<8,0>", "in.0  is_on : bool", "0.0  y : fix<8,0>",
             "0.1  z : fix<9,1,round>", "in.1  p[0] : fix<8,0>", "0.0  p[1] : fix<8,0>", "1.0  q : bool", "0  a.sil",
             "1  b.sil", "7 cycles a sample", "9 cycles a sample", "in.1, in.0", "in.1", "y",
             "net.toml: each queue has room for 3 rows"}


def check_net(picture: Xml.Element, faults: Faults) -> None:
    """The words of the net stand there, and its one queue has its places."""
    texts = {text.text for text in picture.iter(SVG + "text")}
    faults.unless(NET_TEXTS <= texts, f"the picture lacks {NET_TEXTS - texts}")
    places = [title.text for title in picture.iter(SVG + "title")].count("a queue of 3 rows")
    faults.unless(places == 3, f"{places} places of queues")
    faults.unless(is_inside(picture), "words outside the picture")


def net_right() -> bool:
    with tempfile.TemporaryDirectory(prefix="silc-draw-") as folder:
        for name, text in NET_FILES.items():
            Path(folder, name).write_text(text)
        return judged("net", check_net, drawn("net", "--folder", folder, Path(folder, "net.toml")))


def origins_right() -> list[bool]:
    """Whether a picture with the origins of its nodes shows them, where the program that knows them is built."""
    if not os.access(SHOW, os.X_OK):
        print(f"the origins of nodes are left out: `tools/build silc_show` builds {SHOW}")
        return []
    with tempfile.TemporaryDirectory(prefix="silc-draw-") as folder:
        source = Path(folder, "source.sil")
        source.write_text(SOURCE)
        plain = ROOT / "examples" / "increment" / "plain.toml"
        return [judged("schedule with origins", check_origins,
                       drawn("schedule", found("increment", "schedule"), plain, source))]


def beside_right() -> bool:
    """Two schedules side by side show both, each what it shows alone and the second behind the first."""
    names = "increment", "increment_stages"
    texts = [found(name, "schedule") for name in names]
    faults, parts = Faults(), drawn("beside", *texts).findall(SVG + "svg")
    faults.unless(len(parts) == len(texts), f"{len(parts)} pictures")
    for text, part in zip(texts, parts):
        check_schedule(text.read_text(), {}, part, faults)
    faults.unless(float(parts[1].get("x", 0)) >= float(parts[0].get("width", 0)), "the second is over the first")
    for fault in faults:
        print(f"beside: {fault}")
    return not faults


def main() -> int:
    right = [*origins_right(), net_right(), beside_right()]
    for name, datapath, latency in TEXTS:
        file = found(name, "schedule")
        words = [file, *([found(datapath, "toml")] if datapath else [])]
        for subject, check in (("schedule", check_schedule), ("unfolded", check_unfolded),
                               ("lifetimes", check_lifetimes)):
            picture = drawn(subject, *words)
            right.append(judged(f"{subject} {name}", check, file.read_text(), latency if datapath else {}, picture))
    for name, (rows, unit, design, known) in RESPONSES.items():
        picture = drawn("response", "-", unit, design, given=rows)
        right.append(judged(f"response {name}", check_response, picture, known, 1, None))
        db, frequencies = ASKED
        options = ["--db", ",".join(map(str, db)), f"--frequencies={','.join(frequencies)}"]
        picture = drawn("response", *options, "-", unit, design, given=rows)
        right.append(judged(f"response {name} between {db}", check_response, picture, known, 1, db))
        labels = [float(text.text) for text in picture.iter(SVG + "text") if text.get("font-size") == "10"]
        right.append(labels[0] == 0.02 and 0.2 in labels and max(labels) <= 1)
        for rate in RATES:
            picture = drawn("response", "--rate", str(rate), "-", unit, design, given=rows)
            right.append(judged(f"response {name} at {rate} samples a second", check_response, picture, known, rate,
                                None))
    for columns, asked in COLUMNS:
        rows = "".join(",".join(map(str, row)) + "\n" for row in zip(*columns.values()))
        options = [f"--range={asked[0]},{asked[1]}"] if asked else []
        picture = drawn("words", *options, "-", ",".join(columns), given=rows)
        right.append(judged(f"words {', '.join(columns)}", check_words, picture, columns, asked))
    print(f"pictures: {right.count(True)} show what they should, and {right.count(False)} do not")
    return 1 if False in right else 0


if __name__ == "__main__":
    sys.exit(main())
