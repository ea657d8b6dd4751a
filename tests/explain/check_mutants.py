#!/usr/bin/env python3
"""Whether the cures that tools/explain tells as edits help, in broken files that a script makes of good ones.

usage: tests/explain/check_mutants.py [COUNT [FIRST]]      with --list before them: all that is told, to be read and
                                                           judged

It changes sources, datapath files and sample files as mistakes do: a token is left out, written twice or changes places
with the next one, a name is misspelt, a width or a mode is another one, a piece is written as in another language.
Where that is refused and the cure is told as edits, these are applied. Then the file is taken, or its next fault is
another one or at another place. COUNT is how many are made, from number FIRST on, or else 100. It runs the built `silc`
and `silc_show`, or those that `SILC` and `SILC_SHOW` name.
"""
import os
import random
import re
import subprocess
import sys
import tempfile
from concurrent.futures import ThreadPoolExecutor
from dataclasses import dataclass
from pathlib import Path

from check_plans import edited
from silc import programs
from silc.explaining import command
from silc.explaining.report import Report

SILC = Path(programs.SILC.place())
os.environ["SILC_SHOW"] = programs.SHOW.place()

SOURCE = """/* A choice, a delay and a table. */
const gain : fix<16,15> = 0.25;
const taps[3] : fix<16,15> = (0.25, -0.5, 0.25);

func half(a : fix<16,15>) h : fix<16,15> =
begin
  h = a >> 1;
end;

func main(x : fix<16,15>, level : fix<16,15>, on : bool) (y : fix<16,15,round>, loud : bool) =
begin
  var state, slow : fix<16,15>;
  var line[3] : fix<16,15,round,sat>;
  var wide : fix<24,20>;
  state@@1 = 0.5;
  state = state@1 + (x - state@1) * gain;
  wide = fix<24,20>(x * state) + 1.5;
  loud = on & state > level | !on & x < -0.25;
  slow = half(state);
  (i : 0 .. 2) :: begin
    line[i] = taps[i] * x@(i + 1);
  end;
  y = if loud -> slow || line[0] + line[1] - line[2] fi;
end;
"""
DATAPATH = """period = 40
word = 24
hold = 1

[[unit]]
name = "inp"
kind = "in"

[[unit]]
name = "rom"
kind = "rom"

[[unit]]
name = "add"
kind = "alu"
files = [32, 32]

[[unit]]
name = "mul"
kind = "mul"
latency = 2
gap = 1
files = [32, 32]

[[unit]]
name = "sel"
kind = "sel"
files = [8, 8, 8]

[[unit]]
name = "outp"
kind = "out"
files = [4]

[[unit]]
name = "mem"
kind = "ram"
files = [8, 8]
cells = 64

[[unit]]
name = "adr"
kind = "acu"
ram = "mem"

[[bus]]
name = "all"
from = ["inp", "rom", "add", "mul", "sel", "mem", "adr"]
to = ["add.0", "add.1", "mul.0", "mul.1", "sel.0", "sel.1", "sel.2", "outp.0", "mem.0", "mem.1"]
"""
SAMPLES = "1,2,0\n-5,300,1\n32767,-32768,0\n"
FILES = {"SRC": SOURCE, "DP": DATAPATH, "SAMPLES": SAMPLES}
# What is written elsewhere, as a pattern and what stands in its place.
ELSEWHERE = {
    "SRC": [("->", "then"), (r"\|\|", "else"), ("==", "="), (" & ", " && "), (r" \| ", " || "), ("!", "not "),
            (";", ""), (":", "="),
            ("@", "@-"), (r"@(\d)", r"[n-\1]"), ("= ", ":= "), ("= ", "== "), ("fix<16,15>", "int"),
            ("fix<16,15>", "float"),
            ("bool", "boolean"), (r"0\.25", ".25"), (r"0\.5", "5e-1"), ("1", "0x1"), ("1", "1."), ("0.25", "2.5"),
            ("/\\*", "//"),
            (r"\*/", ""), (">> 1", "/ 2"), (r"\* gain", "/ 4"), ("begin", "{"), ("end;", "}"), ("end;", "end"),
            ("round", "rnd"),
            ("sat", "saturate"), ("round", "round,trunc"), ("round", "sat,round"), (" > ", " => "), (" < ", " <> "),
            (" - ", " \u2212 "),
            (r"(\w+)@1", r"\g<1>1"), (r"x@", "x"), ("fi;", ";"), ("var", "int"), ("func", "def"), ("main", "Main"),
            ("begin", ""),
            (r"\.\.", "to"), ("::", ":"), ("::", ""), ("@@", "@"), ("true", "1"), ("loud ->", "x ->"),
            ("y = ", "y += "), (r"\(i", "for (i"),
            ("fix<16,15>", "fix<16,17>"), ("fix<16,15>", "fix<48,15>"), ("fix<24,20>", "fix<8,7>"),
            ("fix<16,15>", "bool"),
            ("const gain", "const gain[1]"), (r"taps\[3\]", "taps[4]"), (r"\[0\]", "[3]"), (r"\[i\]", ""),
            ("gain;", "gain[0];"),
            ("state@1", "state"), ("half\\(state\\)", "half(state, x)"), ("half\\(state\\)", "abs(state)"),
            ("> level", "> on"),
            ("loud = on", "loud = x"), ("on &", "on *"), ("x \\* state", "x * on"), ("state > level", "state * level"),
            ("1\\.5", "9000"),
            ("i \\+ 1", "i + 1000000000 * 9"), ("@1", "@2000"), (">> 1", ">> 40"), ("line\\[i\\] =", "line[0] ="),
            ("slow =", "state =")],
    "DP": [("= ", ": "), ("= ", ""), ('"alu"', '"adder"'), ('"alu"', '"ALU"'), ('"', ""), ("\\[\\[", "["),
           ("\\]\\]", "]"), ("\n", " "),
           ("files = \\[(\\d+), ", r"files = [\1] #"), ("files = \\[32, 32\\]", "files = 32"), ("(\\d+)", r'"\1"'),
           ("(\\d+)", r"\1.0"),
           ("40", "5000"), ("24", "64"), ("hold = 1", "hold = 4"), ("gap = 1", "gap = 3"), ("gap", "gab"),
           ("latency", "Latency"),
           ('"mem"', '"men"'), ("add\\.0", "add.7"), ("add\\.0", "add"), ("add\\.1", "add.0"), ('"add\\.', '"adder.'),
           ("rom", "add"),
           ("cells = 64\n", ""), ("ram = \"mem\"\n", ""), ("ram = \"mem\"", "ram = \"add\""), ("name = \"mul\"\n", ""),
           ("\n", "\r"),
           ("files", "file"), ("\\[4\\]", "4"), ("\\[8, 8, 8\\]", "[8, 8]"),
           ("kind = \"rom\"", "kind = \"rom\"\nfiles = [4]"), ("#", "//"),
           ("period = 40\n", ""), ("\\]\n\n\\[\\[unit", "] // files\n\n[[unit"), ('", "', '" "'), ("cells", "size"),
           ("word", "width")],
    "SAMPLES": [(",", ";"), (",", " "), (", ?", ", "), ("\n", ",\n"), ("\n", "\n\n"), ("^", "x,level,on\n"),
                ("1", "0x1"), ("300", "0.5"),
                ("300", "1e2"), ("300", "70000"), ("300", "+300"), ("-", "\u2212"), ("^", "\ufeff"), ("\n", "\r"),
                (",0", ",false"),
                (",0", ",2"), ("5", "five"), (",1", ""), (",1", ",1,1"), ("300", '"300"'), ("300", ""), ("300", "3_00"),
                ("\n", " \n")],
}
TOKEN = re.compile(r"\w+|\.\.|[-=<>@|:&!]+|\S", re.A)


def say(text: object) -> None:
    print(f"explain: {text}", file=sys.stderr, flush=True)


@dataclass
class Mutant:
    """A broken file, what was broken, and what is told of it."""
    number: int
    kind: str
    what: str
    text: str
    said: str = ""
    report: Report | None = None
    then: str = ""
    wrong: str = ""

    def is_edited(self) -> bool:
        return bool(self.report and self.report.edits)

    def lines(self) -> str:
        """What is told, and what comes then."""
        report = self.report
        told = [report.short, f"cure: {report.cure}",
                *(f"{edit.line}:{edit.column}+{edit.length} {edit.text!r}" for edit in report.edits),
                self.wrong or (self.then or "taken") * self.is_edited()] if report else [self.wrong]
        return "\n  ".join([f"{self.number} {self.kind}, {self.what}: {self.said}", *told])


def misspelt(rng: random.Random, word: str) -> str:
    """A name with a letter left out, written twice, in another case, or in the next one's place."""
    place = rng.randrange(len(word))
    swapped = word[:place] + word[place + 1:place + 2] + word[place] + word[place + 2:]
    return rng.choice([word[:place] + word[place + 1:] or word * 2, word[:place] + word[place] + word[place:],
                       word.upper(), swapped])


def mutant(number: int) -> Mutant:
    """The broken file of a number."""
    rng = random.Random(number)
    kind = ("SRC", "SRC", "SRC", "DP", "SAMPLES")[number % 5]
    text = FILES[kind]
    if rng.random() < 0.6:
        pattern, other = rng.choice(ELSEWHERE[kind])
        places = list(re.finditer(pattern, text))
        if places:
            found = rng.choice(places)
            return Mutant(number, kind, f"{found[0]!r} as {found.expand(other)!r}",
                          text[:found.start()] + found.expand(other)
                          + text[found.end():])
    tokens = list(TOKEN.finditer(text))
    at = rng.randrange(len(tokens) - 1)
    token, after = tokens[at], tokens[at + 1]
    between = text[token.end():after.start()]
    how = rng.choice(["without", "twice", "swapped", "misspelt", "misspelt"])
    names = [other for other in tokens if other[0][0].isalpha()]
    if how == "misspelt" and names:
        token = rng.choice(names)
        word = misspelt(rng, token[0])
        return Mutant(number, kind, f"{token[0]!r} as {word!r}", text[:token.start()] + word + text[token.end():])
    made = {"without": "", "twice": f"{token[0]} {token[0]}"}.get(how, after[0] + between + token[0])
    end = after.end() if how == "swapped" else token.end()
    return Mutant(number, kind, f"{token[0]!r} {how}", text[:token.start()] + made + text[end:])


def words_of(kind: str, folder: Path) -> list[str]:
    """The words of the command that reads the files in a folder."""
    names = ("SRC", "DP") if kind == "DP" else ("SRC", "SAMPLES", "OUT")
    return ["schedule" if kind == "DP" else "eval", *(str(folder / name) for name in names)]


def run(kind: str, folder: Path) -> tuple[str, Report | None]:
    """What silc says of the files in a folder, and what is told of its refusal."""
    words = words_of(kind, folder)
    done = subprocess.run([SILC, *words], stdin=subprocess.DEVNULL, capture_output=True, text=True)
    if done.returncode == 0:
        return "", None
    return done.stderr.strip(), command.report_of(command.Case(words, done.returncode, done.stderr, SILC))


def tail(folder: Path, kind: str, report: Report) -> tuple[str, int] | None:
    """What stands from the place of a report on, and how much more there is: by this a place is known after an edit."""
    span = report.span
    if span is None or Path(span.file).name != kind:
        return None
    lines = (folder / kind).read_text().split("\n")
    return span.shown[span.column - 1:], len(lines) - span.line


def tried(made: Mutant, folder: Path) -> Mutant:
    """What is told of a broken file, and whether the cure helps."""
    for name, text in FILES.items():
        (folder / name).write_text(text if name != made.kind else made.text, newline="")
    (folder / "OUT").write_text("")
    made.said, made.report = run(made.kind, folder)
    if made.report is None or not made.report.edits:
        return made
    place = tail(folder, made.kind, made.report)
    for name in {edit.file for edit in made.report.edits}:
        file = Path(name)
        file.write_bytes(edited(file.read_bytes().decode(), made.report.edits).encode())
    said, then = run(made.kind, folder)
    made.then = said
    kind = re.sub(r"line \d+|byte \d+", "", said)
    if said and (place is None or tail(folder, made.kind, then) == place) and kind == re.sub(r"line \d+|byte \d+", "",
                                                                                             made.said):
        made.wrong = said
    return made


def outcome(number: int) -> Mutant:
    made = mutant(number)
    with tempfile.TemporaryDirectory(prefix="silc-mutant-") as folder:
        try:
            return tried(made, Path(folder))
        except Exception as fault:  # noqa: BLE001 - a fault of the explanation is what is looked for
            made.wrong = f"no explanation: {fault!r}"
            return made


def main(words: list[str]) -> int:
    is_listed = words[:1] == ["--list"]
    numbers = [int(word) for word in words[is_listed:]]
    count, first = [*numbers, *(100, 0)[len(numbers):]]
    if not os.access(SILC, os.X_OK) or not os.access(os.environ["SILC_SHOW"], os.X_OK):
        say("there is no silc or no silc_show; `tools/build silc_main silc_show` builds them")
        return 1
    command.say = lambda text: None
    sys.setrecursionlimit(command.DEPTH)
    with ThreadPoolExecutor(2) as pool:
        outcomes = list(pool.map(outcome, range(first, first + count)))
    refused = [made for made in outcomes if made.said]
    wrong = [made for made in outcomes if made.wrong]
    for made in refused if is_listed else wrong:
        print(made.lines())
    cured = [made for made in refused if made.is_edited()]
    whole = sum(not made.then for made in cured)
    say(f"{len(refused)} of {count} files are refused, {len(cured)} cures are edits, {whole} of the files "
        f"are taken then, and {len(wrong)} cures are wrong")
    return 1 if wrong or not refused else 0


if __name__ == "__main__":
    sys.exit(main(sys.argv[1:]))
