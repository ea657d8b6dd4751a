#!/usr/bin/env python3
"""Whether the tables and pictures of tools/explore are right: each row against `silc schedule` on a datapath file that
is written here by hand, the front against its definition, a table that was cut off against one that was not, and some
rows of the biquads' table against what is made of them now, and the clocks of cores against programs that play nextpnr.

usage: tests/explore/check_tables.py [--silc PROGRAM]

It runs the built `silc`, or PROGRAM; what `SILC` names in the environment is not asked. Where GNU parallel is
installed, it is tried too.
"""
import collections
import csv
import itertools
import os
import re
import shutil
import subprocess
import sys
import tempfile
import tomllib
import xml.etree.ElementTree as Xml
from collections.abc import Iterator, Sequence
from pathlib import Path
from typing import Any, TypeAlias

from silc.exploring.template import Template, text_of
from silc.programs import PLACE

# A row of a table, by the names of its columns.
Row: TypeAlias = dict[str, str]

HERE = Path(__file__).resolve().parent
ROOT = HERE.parent.parent
BUILT = ROOT / "crates" / "silc_main" / "out" / "silc_main"
TEMPLATE = HERE / "small.ranges"
SOURCE = "func main(x : fix<8,0>) y : fix<8,0> = begin y = (x + 1) + (x + 2); end;\n"
HEAD = ("period,adders,add.latency,size,b.times,units,buses,registers,register_bits,cell_bits,taken,cells,cycles,"
        "answer,front,made_from").split(",")
RANGES = {"period": (6, 10, 14), "adders": (1, 2), "add.latency": (1, 2), "size": (2, 4), "b.times": (1, 2)}
COSTS = ("period", "units", "buses", "register_bits", "cell_bits")
# What the title of a point on the front says, in order.
SAID = ("period", "units", "buses", "registers", "register_bits", "cell_bits")
SVG = "{http://www.w3.org/2000/svg}"
# The calls by which explore finds what combinations lack, at most.
MOST_TRIALS = 40
# The table that docs/pictures shows, and of how many of its rows one is made anew.
BIQUADS, SHOWN, EACH = ROOT / "examples" / "biquads", ROOT / "docs" / "pictures" / "biquads_processors.csv", 11
# The example that is planned over several stages.
REVERB = ROOT / "examples" / "reverb"
# Three memories with an acu each, no multiplier, two buses of one kind, none for the multiplier.
NUMBERED = ("", "_2", "_3")
COPIES = """
period = 8
unit = [
    { name = "rom", kind = "rom" },
    { name = "mul", kind = "mul", times = {0}, files = [1, 1] },
    { name = "mem", kind = "ram", times = {mems: 3}, cells = 4, files = [1, 1] },
    { name = "adr", kind = "acu", times = {mems}, ram = "mem" },
]
bus = [
    { name = "b", times = 2, from = ["rom", "mul"], to = ["mul.0", "mem.1"] },
    { name = "m", from = ["mul"], to = ["mem.1"] },
    { name = "c", from = ["adr"], to = ["mem.0"] },
]
"""
# A source in three word lengths, and a datapath for it, whose files are to fit.
LENGTHS_HEAD = "let W = 8 in 8, 12, 16;\nlet F = 7 in 7, 11 .. 15 step 4;\n"
LENGTHS = """func main(x : fix<16,15>) y : fix<{W},{F},round> = begin
  y = fix<{W},{F},round>(0.3 * x) + fix<{W},{F},round>(0.2 * x@1);
end;
"""
# A source that is linked, its combinations, and what it is with the numbers W, F = W - 1, K = N - 1 and S = W + K.
LINKED = """let W = 8 in 8 .. 12 step 4;
let N = 3 in 3, W // 4, 18;
use onepole<W=W, K=N - 1> as slow;
func main(x : fix<{W},{W - 1}>) y : fix<{W},{W - 1}> = begin y = slow(x); end;
"""
LINKED_CHOICES = [(w, n, period) for w, numbers in (("8", ("2", "3", "18")), ("12", ("3", "18"))) for n in numbers
                  for period in ("14", "16")]
ONEPOLE = """func main(x : fix<W,F>) y : fix<W,F> = begin y = slow(x); end;
func slow(x : fix<W,F>) y : fix<W,F> =
begin
  var s : fix<S,F,round>;
  s = s@1 - fix<S,F>(y@1) + fix<S,F>(x);
  y = fix<W,F>(s >> K);
end;
"""
LENGTHS_DATAPATH = """
period = 16
word = 32
hold = 1
unit = [
    { name = "inp", kind = "in" },
    { name = "rom", kind = "rom" },
    { name = "add", kind = "alu", files = [{fit}, {fit}] },
    { name = "mul", kind = "mul", files = [{fit}, {fit}] },
    { name = "outp", kind = "out", files = [{fit}] },
]
bus = [{ name = "b", from = ["inp", "rom", "add", "mul"], to = ["add.0", "add.1", "mul.0", "mul.1", "outp.0"] }]
"""
# A program in the place of Yosys that keeps its script, and counts a multiplier.
YOSYS = '#!/bin/sh\necho "$*" >"{log}"\nprintf "Number of cells: 1\\n  SB_MAC16  1\\n" >stat.txt\n'
# Programs in the place of nextpnr and icetime: the way through a multiplier has 1/30 of a microsecond. Of so many
# samples a second a period of 7 cycles is served by that, and no longer one.
NEXTPNR = """#!/bin/sh
echo "Info:          ICESTORM_LC:    10/ 5280     0%"
echo "Info: Max frequency for clock 'clk': 50.00 MHz (PASS at 12.00 MHz)"
"""
ICETIME = "#!/bin/sh\necho 'Total path delay: 33.33 ns (30.00 MHz)'\n"
CLOCK, CLOCK_RATE = 30, 4_000_000
# A program in the place of silc that keeps count of its calls.
COUNTING = '#!/bin/sh\necho >>"{count}"\nexec "{silc}" "$@"\n'


def datapath(period: int, adders: int, latency: int, size: int, buses: int) -> str:
    names = ["add", "add_2"][:adders]
    adder = f"kind = 'alu'\nlatency = {latency}\nfiles = [{size}, {size}]\n"
    ends = [f"{name}.{port}" for name in names for port in (0, 1)]
    units = ["name = 'inp'\nkind = 'in'\n", "name = 'rom'\nkind = 'rom'\n",
             *(f"name = '{name}'\n{adder}" for name in names), "name = 'outp'\nkind = 'out'\nfiles = [1]\n"]
    bus = f"from = {['inp', 'rom', *names]}\nto = {[*ends, 'outp.0']}\n"
    return "".join([f"period = {period}\nword = 16\n", *(f"[[unit]]\n{unit}" for unit in units),
                    *(f"[[bus]]\nname = '{name}'\n{bus}" for name in ["b", "b_2"][:buses])])


def measured(text: str, latency: int) -> tuple[int, int]:
    """The registers and the cycles of a schedule's text, by the last number in each file and the last result."""
    last = {}
    for file, registers in re.findall(r" to (\S+) bus \S+ regs (\S+)", text):
        last[file] = max(last.get(file, 0), *map(int, registers.split(",")))
    ends = [int(cycle) + (latency if unit.startswith("add") else 1)
            for cycle, unit in re.findall(r"^node \d+ cycle (\d+) unit (\S+)", text, re.M)]
    return sum(register + 1 for register in last.values()), max(ends)


def bits_of(text: str, sizes: dict[str, int]) -> int:
    """The bits of the registers of a schedule's text: in each file those of the words that come into it, and of the 0
    that is there first. A sum and an input have 8 bits, a constant as many as it needs."""
    held = {}
    for op, number, transfers in re.findall(r" op (\S+) (\d+).*?((?: to \S+ bus \S+ regs \S+)+)$", text, re.M):
        ends = (int(number), int(number)) if op == "const" else (-128, 127)
        for file in re.findall(r" to (\S+)", transfers):
            low, high = held.get(file, (0, 0))
            held[file] = min(low, ends[0]), max(high, ends[1])
    return sum(sizes[file] * (8 if low < 0 else max(1, high.bit_length())) for file, (low, high) in held.items())


def expected(room: Path, silc: Path) -> list[Row]:
    """Each combination with what it has and takes, or with the refusal, and whether it is on the front."""
    (room / "source").write_text(SOURCE)
    rows = {}
    for choice in itertools.product(*RANGES.values()):
        _, adders, latency, size, buses = choice
        (room / "datapath").write_text(datapath(*choice))
        done = subprocess.run([silc, "schedule", "source", "datapath"], cwd=room, capture_output=True, text=True)
        row = dict(zip(RANGES, choice)) | {"units": 3 + adders, "buses": buses, "registers": 2 * adders * size + 1}
        if done.returncode:
            rows[choice] = row | {"answer": done.stderr.strip().removeprefix("silc: ")}
        else:
            taken, cycles = measured(done.stdout, latency)
            sizes = {f"{name}.{port}": size for name in ("add", "add_2") for port in (0, 1)} | {"outp.0": 1}
            rows[choice] = row | {"answer": "fits", "register_bits": bits_of(done.stdout, sizes), "cell_bits": 0,
                                  "taken": taken, "cells": 0, "cycles": cycles}
    costs = {choice: [row[cost] for cost in COSTS] for choice, row in rows.items() if row["answer"] == "fits"}
    for choice, own in costs.items():
        is_bettered = any(other != own and all(a <= b for a, b in zip(other, own)) for other in costs.values())
        rows[choice] |= {} if is_bettered else {"front": "yes"}
    return [{name: str(row.get(name, "")) for name in HEAD[:-1]} for row in rows.values()]


def tried(room: Path, silc: Path, *options: str, source: str | Path = "source", template: str | Path = TEMPLATE,
          out: str = "made") -> subprocess.CompletedProcess[str]:
    """How a run ends."""
    return subprocess.run([ROOT / "tools" / "explore", *options, "--out", out, source, template], cwd=room,
                          env=os.environ | {"SILC": str(silc)}, capture_output=True, text=True)


def explored(room: Path, silc: Path, *options: str, **others: Any) -> tuple[str, subprocess.CompletedProcess[str]]:
    """What a run leaves, and what it says."""
    done = tried(room, silc, *options, **others)
    if done.returncode:
        sys.exit(f"tools/explore {' '.join(options)} ended with {done.returncode}: {done.stderr}")
    return (room / "made.csv").read_text(), done


def faults_of(text: str, rows: Sequence[Row]) -> Iterator[str]:
    """How a table differs from the rows that are expected."""
    lines = list(csv.reader(text.splitlines()))
    if lines[0] != HEAD:
        yield f"the head is {lines[0]}"
    for line, row in itertools.zip_longest(lines[1:], rows):
        if line is None or row is None or dict(zip(HEAD[:-1], line)) != row:
            yield f"the row {line} in the place of {row}"


def picture_faults(room: Path, rows: Sequence[Row]) -> Iterator[str]:
    """The picture has a large point for each place on the front, further right and lower for more cycles and fewer
    bits."""
    picture = Xml.parse(room / "made.svg").getroot()
    titles = {shape.find(SVG + "title").text: (float(shape.get("cx")), float(shape.get("cy")))
              for shape in picture.iter(SVG + "circle") if shape.find(SVG + "title") is not None}
    places = {tuple(int(row[cost]) for cost in SAID) for row in rows if row["front"]}
    shown = {tuple(map(int, re.findall(r"(\d+)", title.partition(":")[0]))): place for title, place in titles.items()}
    if set(shown) != places:
        yield f"the picture has {set(shown)} on the front, and not {places}"
    for (one, at), (other, to) in itertools.combinations(shown.items(), 2):
        is_one_panel = one[1] == other[1]
        if is_one_panel and ((one[0] < other[0]) != (at[0] < to[0]) or (one[4] < other[4]) != (at[1] > to[1])):
            yield f"the points of {one} and {other} are in another order"


def resumed_faults(room: Path, silc: Path, whole: str) -> Iterator[str]:
    """A table whose end was cut off, in the middle of a row, becomes whole again by the calls that are lacking."""
    lacking = 5
    kept = whole.splitlines(True)[:-lacking]
    (room / "made.csv").write_text("".join(kept) + "14,2,2")
    (room / "count").write_text("")
    counting = room / "counting"
    counting.write_text(COUNTING.format(count=room / "count", silc=silc))
    counting.chmod(0o755)
    text, _ = explored(room, counting, "--pool")
    calls = len((room / "count").read_text().splitlines())
    if text != whole:
        yield "a table that was cut off does not become the same again"
    # One call more sees whether silc takes the source, and then come those that find what is lacking.
    if calls < lacking + 1 or calls > lacking + 1 + MOST_TRIALS:
        yield f"{calls} calls for {lacking} rows that are lacking"


def copies_faults() -> Iterator[str]:
    """Units and buses that are there several times, or not at all, have the names and the ends that they should."""
    units = [{"name": "rom", "kind": "rom"},
             *({"name": f"mem{k}", "kind": "ram", "cells": 4, "files": [1, 1]} for k in NUMBERED),
             *({"name": f"adr{k}", "kind": "acu", "ram": f"mem{k}"} for k in NUMBERED)]
    buses = [*({"name": f"b{k}", "from": ["rom"], "to": ["mem.1", "mem_2.1", "mem_3.1"]} for k in ("", "_2")),
             {"name": "c", "from": ["adr", "adr_2", "adr_3"], "to": ["mem.0", "mem_2.0", "mem_3.0"]}]
    template = Template(COPIES)
    (choice,) = template.choices()
    made = tomllib.loads(text_of(template.datapath(choice)))
    if made != {"period": 8, "unit": units, "bus": buses}:
        yield f"copies are {made}"


def shown_faults(room: Path, silc: Path) -> Iterator[str]:
    """The table of the biquads, with some rows made anew, is as it was."""
    whole = SHOWN.read_text()
    kept = [line for number, line in enumerate(whole.splitlines(True)) if number % EACH or not number]
    (room / "made.csv").write_text("".join(kept))
    text, _ = explored(room, silc, "--pool", source=BIQUADS / "biquads.sil", template=BIQUADS / "processors.ranges")
    if text != whole:
        yield f"{SHOWN.name} is not as tools/explore makes it now"


def reason_faults(rows: Sequence[Row], said: str) -> Iterator[str]:
    """The reasons are told with their numbers, the commonest one first, and so is the least period that fits."""
    counts = collections.Counter(re.sub(r" (at|for) node \d+", "", row["answer"]) for row in rows
                                 if row["answer"] != "fits")
    told = re.findall(r"^explore:   (\d+) by ([^:\n]+)", said, re.M)
    if {reason: int(count) for count, reason in told} != counts:
        yield f"the reasons are {told}, and not {counts}"
    if [int(count) for count, _ in told] != sorted(counts.values(), reverse=True):
        yield f"the commonest reason is not the first of {told}"
    least = min(int(row["period"]) for row in rows if row["answer"] == "fits")
    if f"the least period that fits is {least}\n" not in said:
        yield f"the least period, {least}, is not told"


def best_faults(room: Path, silc: Path, rows: Sequence[Row]) -> Iterator[str]:
    """The datapath file of a row of the front has its plan and its costs; of a row that is not there none is
    written."""
    _, done = explored(room, silc, "--pool", "--best", "1")
    row, *costs = map(int, done.stdout.splitlines()[1].split()[:1 + len(COSTS)])
    made = tomllib.loads((room / "made.toml").read_text())
    text = subprocess.run([silc, "schedule", "source", "made.toml"], cwd=room, capture_output=True, text=True).stdout
    if not text:
        yield "there is no plan on made.toml"
    sizes = {f"{unit['name']}.{port}": size for unit in made["unit"] for port, size in enumerate(unit.get("files", []))}
    if [row, *costs] != [1, made["period"], len(made["unit"]), len(made["bus"]), bits_of(text, sizes), 0]:
        yield f"row 1 has {costs}, and made.toml another datapath"
    (room / "made.toml").unlink()
    done = tried(room, silc, "--pool", "--best", "99")
    if done.returncode != 1 or (room / "made.toml").exists():
        yield f"a row that is not there: {done.returncode} {done.stderr}"


def plan_faults(room: Path, silc: Path) -> Iterator[str]:
    """The better plan of each row of the front is no longer than that of the rules, and its microcode puts the rows of
    the source."""
    if not PLACE.is_there():
        print("explore: better plans are left out: there is no silc_place; tools/build silc_place builds it")
        return
    done = tried(room, silc, "--pool", "--best-plans", "1", "--force", out="planned")
    rows = [line.split() for line in done.stdout.splitlines()[1:]]
    (room / "rows.txt").write_text("0\n100\n-128\n")
    subprocess.run([silc, "eval", "source", "rows.txt", "solved.txt"], cwd=room, check=True)
    if done.returncode or not rows:
        yield f"--best-plans ends with {done.returncode}: {done.stderr}"
    for row in rows:
        made = room / "planned_plans" / row[0]
        period = tomllib.loads(made.with_suffix(".toml").read_text())["period"]
        run = subprocess.run([silc, "sim", made.with_suffix(".mic"), "rows.txt", "run.txt"], cwd=room)
        if run.returncode or (room / "run.txt").read_bytes() != (room / "solved.txt").read_bytes():
            yield f"the microcode of row {row} puts other rows"
        if int(row[-2]) != period or period > int(row[1]) or row[-1] not in ("yes", "open"):
            yield f"row {row} has a plan with period {period}"


def fit_faults(room: Path, silc: Path, rows: Sequence[Row]) -> Iterator[str]:
    """Files that are to fit have as many registers as the plan takes, and the best datapath file has a plan with them
    and none with one fewer."""
    (room / "fit.ranges").write_text(TEMPLATE.read_text().replace("{size: 2, 4}, {size}", "{fit}, {fit}"))
    if tried(room, silc, "--pool", "--best", "1", template="fit.ranges", out="fit").returncode:
        yield "there is no table of files that fit"
        return
    made = [row for row in csv.DictReader((room / "fit.csv").read_text().splitlines()) if row["answer"] == "fits"]
    if not made or any(row["registers"] != row["taken"] for row in made):
        yield "files that are to fit have other registers than the plan takes"
    if len(made) < len([row for row in rows if row["answer"] == "fits"]) / len(RANGES["size"]):
        yield "fewer combinations fit where files are to fit"
    best = tomllib.loads((room / "fit.toml").read_text())
    for unit in best["unit"]:
        for port, size in enumerate(unit.get("files", [])):
            files = [*unit["files"][:port], size - 1, *unit["files"][port + 1:]]
            smaller = [other | {"files": files} if other is unit else other for other in best["unit"]]
            (room / "smaller.toml").write_text(text_of(best | {"unit": smaller}))
            done = subprocess.run([silc, "schedule", "source", "smaller.toml"], cwd=room, capture_output=True,
                                  text=True)
            if size > 1 and not done.stderr.startswith(f"silc: file full {unit['name']}.{port} "):
                yield f"{unit['name']}.{port} has a plan with {size - 1} registers too: {done.stderr}"
    if subprocess.run([silc, "schedule", "source", "fit.toml"], cwd=room, capture_output=True).returncode:
        yield "there is no plan on fit.toml"


def core_faults(room: Path, silc: Path) -> Iterator[str]:
    """The biquads with delays in memory and in registers have the bits of the cores that tools/verilog makes of them.
    Their templates have no range but for sizes that fit, so each table has one row."""
    text = (BIQUADS / "processors.ranges").read_text().replace("{24, 26, 27, 32, 48, 60}", "60")
    for hold in (0, 2):
        plain = re.sub(r"\{(\d+)[^{}]*\}", r"\1", text).replace("hold = 0", f"hold = {hold}")
        (room / "core.ranges").write_text(plain)
        done = tried(room, silc, "--pool", "--best", "1", "--force", source=BIQUADS / "biquads.sil",
                     template="core.ranges", out="core")
        lines = done.stdout.splitlines()
        if done.returncode or len(lines) != 2 or len((room / "core.csv").read_text().splitlines()) != 2:
            yield f"a template with {{fit}} alone: {done.returncode} {done.stdout} {done.stderr}"
            return
        subprocess.run([silc, "compile", BIQUADS / "biquads.sil", "core.toml", "core.mic"], cwd=room, check=True)
        subprocess.run([ROOT / "tools" / "verilog", "core.mic", ".", "--datapath", "core.toml", "--name", "core"],
                       cwd=room, check=True, capture_output=True)
        held = {name: int(count) * int(bits) for name, count, bits in re.findall(
            r"^file (\w+): (\d+) words, .* in (\d+) bits", (room / "core.map").read_text(), re.M)}
        bits = [sum(of for name, of in held.items() if name.endswith("cells") == is_cells)
                for is_cells in (False, True)]
        if list(map(int, lines[1].split()[4:6])) != bits:
            yield f"with hold = {hold} the core has {bits} bits, and the table {lines[1]}"
        for name in ("core.csv", "core.mic"):
            (room / name).unlink()


def length_faults(room: Path, silc: Path) -> Iterator[str]:
    """Of word lengths no one betters another: the shorter has fewer bits, and the longer less noise."""
    (room / "lengths.silt").write_text(LENGTHS_HEAD + LENGTHS)
    (room / "exact.sil").write_text(LENGTHS.replace("{W}", "32").replace("{F}", "31"))
    (room / "noise.txt").write_text("".join(f"{word * 7919 % 65536 - 32768}\n" for word in range(200)))
    (room / "lengths.ranges").write_text(LENGTHS_DATAPATH)
    done = tried(room, silc, "--pool", "--samples", "noise.txt", "--against", "exact.sil", source="lengths.silt",
                 template="lengths.ranges", out="lengths")
    rows = [line.split() for line in done.stdout.splitlines()]
    front = [(int(row[4]), float(row[6]), int(row[7])) for row in rows[1:]]
    if [width for *_, width in sorted(front)] != [8, 12, 16] or len({bits for bits, *_ in front}) != 3:
        yield f"of word lengths the front is {done.stdout}{done.stderr}"


def linked_faults(room: Path, silc: Path) -> Iterator[str]:
    """A source with a head has a row for each combination of its numbers, which is that of the source with these
    numbers in the place of braces, or says in its file why it is none."""
    (room / "linked.silt").write_text(LINKED)
    (room / "linked.ranges").write_text(LENGTHS_DATAPATH.replace("period = 16", "period = {14, 16}"))
    tried(room, silc, "--pool", source="linked.silt", template="linked.ranges", out="linked")
    rows = list(csv.DictReader((room / "linked.csv").read_text().splitlines()))
    if [(row["W"], row["N"], row["period"]) for row in rows] != LINKED_CHOICES:
        yield f"the combinations of a source that is linked are {rows}"
    for row in rows:
        if row["N"] == "18":
            if row["answer"] != "linked.silt:3:1: onepole: K = 17 is not in 1..16 (onepole.sil:13)":
                yield f"a combination that a block does not take is {row}"
            continue
        source = ONEPOLE.replace("W", row["W"]).replace("K", str(int(row["N"]) - 1)).replace(
            "S", str(int(row["W"]) + int(row["N"]) - 1))
        (room / "plain.silt").write_text(source.replace("F", str(int(row["W"]) - 1)))
        tried(room, silc, "--pool", "--force", source="plain.silt", template="linked.ranges", out="plain")
        for plain in csv.DictReader((room / "plain.csv").read_text().splitlines()):
            if plain["period"] == row["period"] and any(plain[name] != row[name]
                                                        for name in ("answer", "taken", "cycles", "register_bits")):
                yield f"{row} is {plain} where its numbers stand in the source"


def wrap_faults(room: Path, silc: Path) -> Iterator[str]:
    """A word of 36 bits that is 64 times too great wraps by a multiple of 2^40, and is counted; no other sample is."""
    source = "func main(x : fix<36,35>) y : fix<{W},35> = begin y = fix<{W},35>(x) << 6; end;\n"
    (room / "wraps.silt").write_text(f"let W = 36 in 36;\n{source}")
    (room / "plain.sil").write_text(source.replace("{W}", "36"))
    (room / "wraps.txt").write_text(f"{-1 << 35}\n1\n2\n")
    (room / "wraps.ranges").write_text(LENGTHS_DATAPATH.replace("word = 32", "word = 40"))
    done = tried(room, silc, "--pool", "--samples", "wraps.txt", "--against", "plain.sil", source="wraps.silt",
                 template="wraps.ranges", out="wraps")
    row, = csv.DictReader((room / "wraps.csv").read_text().splitlines()) if done.returncode == 0 else [{}]
    if row.get("wraps") != "1":
        yield f"of a word that wraps by 2^40 the row is {row} {done.stderr}"


def dsp_faults(room: Path, silc: Path) -> Iterator[str]:
    """--dsp has Yosys take multipliers, and the table of the front counts them. A script plays Yosys."""
    folder = room / "bin"
    folder.mkdir()
    (folder / "yosys").write_text(YOSYS.format(log=room / "yosys.log"))
    (folder / "yosys").chmod(0o755)
    (room / "dsp.ranges").write_text(LENGTHS_DATAPATH)
    (room / "dsp.sil").write_text((room / "exact.sil").read_text())
    os.environ["PATH"] = f"{folder}:{os.environ['PATH']}"
    for options, is_dsp in ((["--dsp"], True), ([], False)):
        done = tried(room, silc, "--pool", "--area", "ice40", *options, source="dsp.sil", template="dsp.ranges",
                     out="dsp")
        script = (room / "yosys.log").read_text() if done.returncode == 0 else ""
        columns = (room / "dsp.area.csv").read_text().splitlines()[0].split(",")
        if ("synth_ice40 -dsp" in script) != is_dsp or "multipliers" not in columns:
            yield f"--area ice40 {options}: {done.returncode} {done.stderr} {script}"


def clock_faults(room: Path, silc: Path, rows: Sequence[Row]) -> Iterator[str]:
    """With a clock each row of the front has the one that it reaches and the one that it needs, and is marked where it
    is too slow, in the table and in the picture. Scripts play Yosys, of which each core has a multiplier, nextpnr and
    icetime."""
    for name, text in (("nextpnr-ice40", NEXTPNR), ("icetime", ICETIME)):
        (room / "bin" / name).write_text(text)
        (room / "bin" / name).chmod(0o755)
    shutil.copy(room / "made.csv", room / "clocked.csv")
    done = tried(room, silc, "--pool", "--area", "ice40", "--dsp", "--clock", str(CLOCK_RATE), out="clocked")
    made = [*csv.DictReader((room / "clocked.area.csv").read_text().splitlines())] if done.returncode == 0 else []
    wanted = sorted((int(row["period"]), CLOCK_RATE * int(row["period"]) / 10**6) for row in rows if row["front"])
    if sorted((int(row["period"]), float(row["needed MHz"])) for row in made) != wanted or not made:
        yield f"with a clock the front is {made}: {done.stderr}"
        return
    for row in made:
        mark = "too slow" if float(row["needed MHz"]) > CLOCK else ""
        if (float(row["MHz"]), row["clock"], row["multipliers"]) != (CLOCK, mark, "1") or mark not in done.stdout:
            yield f"with a clock a row is {row}"
    yield from clock_picture_faults(room, [period for period, _ in wanted])
    # Without --dsp the part is an hx8k, which has no multipliers.
    done = tried(room, silc, "--pool", "--force", "--area", "ice40", "--clock", str(CLOCK_RATE), out="clocked")
    marks = {row["clock"] for row in csv.DictReader((room / "clocked.area.csv").read_text().splitlines())}
    if (done.returncode, marks) != (0, {"does not fit"}) or "row 1: it does not fit: it takes 1 multipliers, and an " \
            "hx8k has 0\n" not in done.stderr:
        yield f"of cores that do not fit the marks are {marks}: {done.returncode} {done.stderr}"


def clock_picture_faults(room: Path, periods: Sequence[int]) -> Iterator[str]:
    """The picture has a dot for each core, which is marked where it is below the line of the clock that is needed."""
    tree = Xml.parse(room / "clocked_clock.svg").getroot()
    line, = (shape for shape in tree.iter(SVG + "path")
             if shape.findtext(SVG + "title") == "4,000,000 samples a second")
    (left, first), (right, last) = (map(float, place.split()) for place in line.get("d", "")[1:].split(" L"))
    dots = {shape.findtext(SVG + "title", ""): (float(shape.get("cx", 0)), float(shape.get("cy", 0)))
            for shape in tree.iter(SVG + "circle") if shape.findtext(SVG + "title")}
    told = sorted(int(re.findall(r"period (\d+)", title)[0]) for title in dots)
    if told != sorted(periods):
        yield f"the picture of clocks has dots of the periods {told}"
    for title, (x, y) in dots.items():
        is_below = y > first + (last - first) * (x - left) / (right - left)
        needed = CLOCK_RATE // 10**6 * int(re.findall(r"period (\d+)", title)[0])
        if is_below != title.startswith("too slow: ") or f"{CLOCK} of {needed} MHz" not in title:
            yield f"the dot of {title} is {'below' if is_below else 'above'} the line"


def over_stages(datapath: Path, stages: int) -> tuple[int, int, int] | None:
    """The cycles, registers and last cell of the plan over so many stages that tests/overlap/plan.py finds, or
    nothing."""
    words = [ROOT / "tests" / "overlap" / "plan.py", ROOT / "docs" / "pictures" / "reverb.schedule", datapath,
             str(stages)]
    text = subprocess.run(words, capture_output=True, text=True).stdout
    if not text:
        return None
    taken, _ = measured(text, 1)
    ends = [int(cycle) + (2 if unit == "mul" else 1)
            for cycle, unit in re.findall(r"^node \d+ cycle (\d+) unit (\S+)", text, re.M)]
    return max(ends), taken, max(map(int, re.findall(r" op addr (\d+)", text)))


def stages_faults(room: Path, silc: Path) -> Iterator[str]:
    """Each datapath is planned over each number of stages: the rows are as tests/overlap/plan.py has them, and so is
    the front, on which stages are a cost."""
    plain = (REVERB / "one_multiplier.toml").read_text()
    (room / "stages.ranges").write_text(plain.replace("period = 28", "period = {24, 28}"))
    done = tried(room, silc, "--pool", "--stages", "1..4", source=REVERB / "reverb.sil", template="stages.ranges",
                 out="stages")
    rows = {(int(row["period"]), int(row["stages"])): row
            for row in csv.DictReader((room / "stages.csv").read_text().splitlines())} if done.returncode == 0 else {}
    wanted = {}
    for period, stages in itertools.product((24, 28), range(1, 5)):
        (room / "stages.toml").write_text(plain.replace("period = 28", f"period = {period}"))
        wanted[period, stages] = over_stages(room / "stages.toml", stages)
    made = {key: ((int(row["cycles"]), int(row["taken"]), int(row["cells"]) - key[1])
                  if row["answer"] == "fits" else None)
            for key, row in rows.items()}
    if made != wanted:
        yield f"over stages the table has {made}, and not {wanted}: {done.stderr}"
    # The hardware is one, and the shorter period needs two stages.
    front = {key for key, row in rows.items() if row["front"]}
    if front != {(24, 2), (28, 1)}:
        yield f"over stages the front is {front}"
    titles = [shape.text for shape in Xml.parse(room / "stages.svg").getroot().iter(SVG + "text")] if rows else []
    if "8 units, 2 stages: 2 fit, 0 do not" not in titles:
        yield f"the picture has the panels {titles}"


def kept_faults(room: Path, silc: Path, whole: str) -> Iterator[str]:
    """A run that was stopped leaves a table that goes on, and one that is another is written over by --force alone."""
    (room / "made.csv").write_text("a table of mine\n")
    done = tried(room, silc, "--pool")
    if done.returncode != 1 or (room / "made.csv").read_text() != "a table of mine\n":
        yield f"a table of mine: {done.returncode} {done.stderr}"
    text, _ = explored(room, silc, "--pool", "--force")
    if text != whole:
        yield "a table over another one is not that of the template"


def unfit_faults(room: Path, silc: Path) -> Iterator[str]:
    """Where no combination fits, the exit status is 1, and the period that would be needed is told."""
    (room / "short.ranges").write_text(TEMPLATE.read_text().replace("{6..14 step 4}", "{3..4}"))
    done = tried(room, silc, "--pool", template="short.ranges", out="short")
    # Over one bus go six words, one in a cycle: the input, two constants, three sums. Then the output is put.
    if done.returncode != 1 or "none fits\n" not in done.stderr or "has 3 cycles, and needs 7" not in done.stderr:
        yield f"where none fits: {done.returncode} {done.stderr}"


def main(words: list[str]) -> int:
    if words and (words[0] != "--silc" or len(words) != 2):
        print(__doc__, file=sys.stderr)
        return 2
    silc = Path(words[1] if words else BUILT).resolve()
    with tempfile.TemporaryDirectory(prefix="silc-explore-test-") as folder:
        room = Path(folder)
        os.environ["XDG_STATE_HOME"] = str(room / "state")
        rows = expected(room, silc)
        text, done = explored(room, silc, "--pool")
        faults = [*faults_of(text, rows), *picture_faults(room, rows), *resumed_faults(room, silc, text),
                  *copies_faults(), *reason_faults(rows, done.stderr), *best_faults(room, silc, rows),
                  *plan_faults(room, silc),
                  *fit_faults(room, silc, rows), *unfit_faults(room, silc), *core_faults(room, silc),
                  *length_faults(room, silc), *linked_faults(room, silc), *wrap_faults(room, silc),
                  *dsp_faults(room, silc), *clock_faults(room, silc, rows), *stages_faults(room, silc),
                  *kept_faults(room, silc, text)]
        front = done.stdout.splitlines()[1:]
        if len(front) != sum(row["front"] == "yes" for row in rows):
            faults.append(f"standard output has {len(front)} rows of the front")
        if shutil.which("parallel"):
            (room / "made.csv").unlink()
            if explored(room, silc)[0] != text:
                faults.append("GNU parallel makes another table")
        faults += shown_faults(room, silc)
    for fault in faults:
        print(fault)
    fit = sum(row["answer"] == "fits" for row in rows)
    print(f"explore: {len(rows)} combinations, of which {fit} fit; {len(faults)} faults")
    return 1 if faults or not 0 < fit < len(rows) else 0


if __name__ == "__main__":
    sys.exit(main(sys.argv[1:]))
