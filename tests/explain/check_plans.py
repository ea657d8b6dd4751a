#!/usr/bin/env python3
"""Whether the cures that tools/explain tells for a source without a plan are right, by applying each as it is told.

usage: tests/explain/check_plans.py [COUNT [FIRST]]

It makes COUNT datapaths, from number FIRST on, over most of which one of the sources below has no plan: an ample one
with fewer cycles, registers, cells, buses or units. The words of each cure are applied to the datapath, `; or ..` as a
cure of its own, and the edits to the text of its file. Then there has to be a plan, or the answer is the fault that the
text has named. Without `COUNT` it tries 32 of them. It runs the built `silc` and `silc_show`, or those that `SILC` and
`SILC_SHOW` name.
"""
import copy
import os
import random
import re
import subprocess
import sys
import tempfile
import tomllib
from collections.abc import Sequence
from concurrent.futures import ThreadPoolExecutor
from pathlib import Path
from typing import Any, TypeAlias

from silc import programs
from silc.explaining import command
from silc.explaining.text import Edit
from silc.exploring.template import text_of

SILC = Path(programs.SILC.place())
os.environ["SILC_SHOW"] = programs.SHOW.place()

# A datapath file as Python reads it.
Tree: TypeAlias = dict[str, Any]

SOURCES = {
    "sum": ("x : fix<16,15>", "y = 0.25 * x + 0.5 * x@1 + 0.25 * x@2;"),
    "leak": ("x : fix<16,15>", "y = y@1 + (x - y@1 >> 3);"),
    "cubic": ("x : fix<16,15>", "y = fix<16,15>(x * x) * x + 0.5 * x;"),
    "gate": ("x : fix<16,15>, on : bool", "y = if on & x > 0.5 | !on & x@1 < -0.25 -> x || x@1 fi;"),
    "late": ("x : fix<16,15>", "y = x@5 + 0.5 * x@3 - y@4;"),
    "wide": ("x : fix<24,23>", "y = fix<16,15>(x) + fix<16,15>(x@1 * 0.5);"),
    "many": ("a : fix<16,15>, b : fix<16,15>", "y = a * b + 0.5 * a@1 + 0.25 * b@2 + 0.125 * a@3 - y@1 * 0.5;"),
    "held": ("x : fix<16,15>", "y = x + x@1 + x@2 + x@3;"),
}
AMPLE = """
period = 40
word = 24
hold = {hold}
[[unit]]
name = "inp"
kind = "in"
[[unit]]
name = "rom"
kind = "rom"
[[unit]]
name = "add"
kind = "alu"
files = [16, 16]
[[unit]]
name = "mul"
kind = "mul"
latency = 2
files = [16, 16]
[[unit]]
name = "sel"
kind = "sel"
files = [8, 8, 8]
[[unit]]
name = "outp"
kind = "out"
files = [4]
[[unit]]
name = "mem"
kind = "ram"
files = [8, 8]
cells = 64
[[unit]]
name = "adr"
kind = "acu"
ram = "mem"
"""
DRIVERS = ("inp", "rom", "add", "mul", "sel", "mem", "adr")
ENDS = ("add.0", "add.1", "mul.0", "mul.1", "sel.0", "sel.1", "sel.2", "outp.0", "mem.0", "mem.1")
FEWER = ("period", "files", "files", "cells", "unit", "route", "bus", "word", "two")
PLANNED, UNIT = 0, re.compile(r"`([^`]*)`")


def say(text: object) -> None:
    print(f"explain: {text}", file=sys.stderr, flush=True)


# Datapaths


def ample(rng: random.Random) -> Tree:
    """A datapath over which each source has a plan, with one to three buses that lead everywhere."""
    tree = tomllib.loads(AMPLE.format(hold=rng.choice((0, 0, 1, 3))))
    tree["bus"] = [{"name": f"b{number}", "from": list(DRIVERS), "to": list(ENDS)}
                   for number in range(rng.choice((1, 1, 2, 3)))]
    return tree


def lessen(tree: Tree, what: str, rng: random.Random) -> None:
    """Takes something away from a datapath."""
    units = tree["unit"]
    if what == "period":
        tree["period"] = rng.randint(1, 14)
    elif what == "word":
        tree["word"] = rng.randint(8, 20)
    elif what == "files":
        tree["unit"] = [unit | {"files": [rng.randint(1, 2) for _ in unit["files"]]} if "files" in unit else unit
                        for unit in units]
    elif what == "cells":
        next(unit for unit in units if unit["kind"] == "ram")["cells"] = rng.randint(1, 6)
    elif what == "unit":
        leave_out(tree, rng.choice(("rom", "mul", "sel", "adr", "mem", "outp", "add", "inp")))
    elif what == "route":
        for bus in tree["bus"]:
            for key in ("from", "to"):
                kept = [end for end in bus[key] if rng.random() < 0.7]
                bus[key] = kept or bus[key][:1]
    elif what == "bus":
        tree["bus"] = [{"name": "only", "from": ["inp"], "to": ["add.0"]}]
    else:
        for one in rng.sample(("period", "files", "route", "word"), 2):
            lessen(tree, one, rng)


def leave_out(tree: Tree, name: str) -> None:
    """Takes a unit away, what addresses it, and their ends of buses."""
    gone = {unit["name"] for unit in tree["unit"] if name in (unit["name"], unit.get("ram"))}
    tree["unit"] = [unit for unit in tree["unit"] if unit["name"] not in gone]
    for bus in tree["bus"]:
        bus["from"] = [end for end in bus["from"] if end not in gone]
        bus["to"] = [end for end in bus["to"] if end.partition(".")[0] not in gone]
    tree["bus"] = [bus for bus in tree["bus"] if bus["from"] and bus["to"]]


def made(number: int) -> tuple[str, Tree]:
    """The source and the datapath of a number."""
    rng = random.Random(number)
    name = rng.choice(list(SOURCES))
    tree = ample(rng)
    lessen(tree, FEWER[number % len(FEWER)], rng)
    if rng.random() < 0.3:
        lessen(tree, rng.choice(("period", "files")), rng)
    return name, tree


# Cures


def applied(cure: str, tree: Tree) -> Tree:
    """A datapath with the changes that the words of a cure tell."""
    tree, table, ends, key, last = copy.deepcopy(tree), None, [], None, 0
    for found in UNIT.finditer(cure):
        word, between, after = found[1], cure[last:found.start()], cure[found.end():]
        last = found.end()
        name, sign, value = word.partition(" = ")
        if word.startswith("[["):
            table = {}
            tree[word.strip("[]")].append(table)
        elif sign and table is not None and between == ", ":
            table |= tomllib.loads(word)
        elif sign:
            table = None
            owner = re.match(r" for `(\w+)`", after)
            target = next(unit for unit in tree["unit"] if unit["name"] == owner[1]) if owner else tree
            target |= tomllib.loads(word)
        elif word.startswith('"'):
            table = None
            ends.append(word.strip('"'))
        elif between == " to ":
            key, ends = [*(key or []), (word, ends)], []
        elif between == " of the bus ":
            bus = next(bus for bus in tree["bus"] if bus["name"] == word)
            for list_, added in key:
                bus[list_] = bus[list_] + added
            key = None
    return tree


def edited(text: str, edits: Sequence[Edit]) -> str:
    """A text with edits by their lines and columns."""
    starts = [0, *(found.end() for found in re.finditer("\n", text))]
    for edit in sorted(edits, key=lambda edit: (edit.line, edit.column), reverse=True):
        place = starts[edit.line - 1] + edit.column - 1
        text = text[:place] + edit.text + text[place + edit.length:]
    return text


def planned(source: Path, file: Path, text: str) -> tuple[str, subprocess.CompletedProcess[str]]:
    """What silc says of a datapath: nothing where there is a plan."""
    file.write_text(text)
    done = subprocess.run([SILC, "schedule", source, file], stdin=subprocess.DEVNULL, capture_output=True, text=True)
    return done.stderr.strip().removeprefix("silc: ") if done.returncode else "", done


def is_longer(source: Path, file: Path, tree: Tree, cure: str) -> bool:
    """Whether a period that is told as the least one is not."""
    found = re.match(r"write `period = (\d+)`, the least that fits", cure)
    if not found:
        return False
    shorter = applied(cure.partition("; or ")[0], tree) | {"period": int(found[1]) - 1}
    return not planned(source, file, text_of(shorter))[0].startswith("period exceeded")


def judged(number: int, folder: str) -> tuple[str, list[str], bool] | None:
    """The datapath of a number: nothing where there is a plan, or else the refusal and what is wrong with its cures."""
    name, tree = made(number)
    parameters, equation = SOURCES[name]
    source, file = Path(folder, f"{number}.sil"), Path(folder, f"{number}.toml")
    source.write_text(f"func main({parameters}) y : fix<16,15> =\nbegin\n  {equation}\nend;\n")
    said, done = planned(source, file, text_of(tree))
    if not said:
        return None
    case = command.Case(["schedule", str(source), str(file)], done.returncode, done.stderr, SILC)
    report = command.report_of(case)
    named = [found[1] for note in report.notes if (found := re.search(r"and then: (.*)\.$", note.text))]
    faults, other = [], Path(folder, f"{number}-cured.toml")
    for which, cure in enumerate(report.cure.split("; or ")):
        then = named[-1:] if which == 0 else []
        if "`" not in cure:
            # Advice without a number, which is no cure that can be tried.
            continue
        text = text_of(applied(cure, tree))
        answer, _ = planned(source, other, text)
        if text == text_of(tree) or answer != "".join(then):
            faults.append(f"{number} ({name}): {said}\n  cure: {cure}\n  then: {answer or 'a plan'}, named: {then}")
    faults += [f"{number} ({name}): {said}\n  cure: {report.cure}\n  and a shorter period is long enough" for _ in
               filter(None, [is_longer(source, other, tree, report.cure)])]
    if report.edits:
        answer, _ = planned(source, other, edited(file.read_text(), report.edits))
        if answer != "".join(named[-1:]):
            faults.append(f"{number} ({name}): {said}\n  edits: {report.edits}\n  then: {answer or 'a plan'}")
    return re.sub(r"\d+|\S+\.\d", "N", said), faults, bool(report.edits)


def main(words: list[str]) -> int:
    count, first = (int(word) for word in [*words, "32", "0"][:2]) if len(words) < 2 else map(int, words)
    if not os.access(SILC, os.X_OK) or not os.access(os.environ["SILC_SHOW"], os.X_OK):
        say("there is no silc or no silc_show; `tools/build silc_main silc_show` builds them")
        return 1
    # What is said while a search goes on is of no use here.
    command.say = lambda text: None
    sys.setrecursionlimit(command.DEPTH)
    with tempfile.TemporaryDirectory(prefix="silc-plans-") as folder, ThreadPoolExecutor(2) as pool:
        outcomes = [made for made in pool.map(lambda number: judged(number, folder), range(first, first + count))
                    if made]
    kinds = {}
    for kind, faults, has_edits in outcomes:
        kinds[kind] = kinds.get(kind, 0) + 1
        print("\n".join(faults), end="\n" if faults else "")
    wrong = sum(bool(faults) for _, faults, _ in outcomes)
    for kind, times in sorted(kinds.items()):
        say(f"{times} by {kind}")
    cured = sum(has_edits for *_, has_edits in outcomes)
    say(f"{len(outcomes)} of {count} datapaths are refused, {cured} cures are edits, {wrong} are wrong")
    return 1 if wrong or not outcomes else 0


if __name__ == "__main__":
    sys.exit(main(sys.argv[1:]))
