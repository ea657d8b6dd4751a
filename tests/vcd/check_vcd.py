#!/usr/bin/env python3
"""Whether the waveforms of tools/vcd are files of value changes as IEEE 1364 has them, and show what a run does: that
of y = x + 1 as it was worked out by hand, and that of an example as `silc_show trace` prints it.

usage: tests/vcd/check_vcd.py

It runs the built `silc` and `silc_show`, or those that `SILC` and `SILC_SHOW` name.
"""
import os
import re
import subprocess
import sys
import tempfile
import tomllib
from collections.abc import Collection, Iterable, Iterator, Sequence
from dataclasses import dataclass, field
from pathlib import Path

HERE = Path(__file__).resolve().parent
ROOT = HERE.parent.parent
CRATES = ROOT / "crates"
SILC = Path(os.environ.get("SILC", CRATES / "silc_main" / "out" / "silc_main")).resolve()
SHOW = Path(os.environ.get("SILC_SHOW", CRATES / "silc_show" / "out" / "silc_show")).resolve()
PLAIN = ROOT / "examples" / "increment" / "plain.toml"
NOT_BUILT = 70

# The types of signals by the standard, and the texts of GTKWave and Surfer.
TYPES = {"event", "integer", "parameter", "real", "realtime", "reg", "supply0", "supply1", "time", "tri", "triand",
         "trior", "trireg", "tri0", "tri1", "wand", "wire", "wor", "string"}
SCOPES = {"begin", "fork", "function", "module", "task"}
TIMESCALE = re.compile(r"(1|10|100) ?(s|ms|us|ns|ps|fs)")
CODE = re.compile(r"[!-~]+")
NAME = re.compile(r"[A-Za-z0-9_]+")
SPAN = re.compile(r"\[(\d+):(\d+)\]")
COMMANDS = {"$comment", "$date", "$enddefinitions", "$scope", "$timescale", "$upscope", "$var", "$version"}
DUMPS = {"$dumpvars", "$dumpall", "$dumpon", "$dumpoff"}


# A reader of VCD files


class BadFile(Exception):
    """Why a text is no file of value changes."""


def wanted(holds: object, why: str) -> None:
    if not holds:
        raise BadFile(why)


@dataclass
class Signal:
    """A signal with its values, each with the time from which it has it on."""
    type: str
    bits: int
    values: list[tuple[int, str]] = field(default_factory=list)

    def at(self, time: int) -> str | None:
        """What it shows at a time."""
        found = [value for since, value in self.values if since <= time]
        return found[-1] if found else None

    def changes(self) -> list[tuple[int, str]]:
        """The times at which it shows another value than before, with the values."""
        last, found = {}, []
        for time, value in self.values:
            last[time] = value
        for time, value in last.items():
            if not found or found[-1][1] != value:
                found.append((time, value))
        return found


@dataclass
class Waves:
    """The signals of a file by their paths, and the last time in it."""
    signals: dict[str, Signal] = field(default_factory=dict)
    end: int = 0


class Reader:
    """The words of a file, and what of it was read."""

    def __init__(self, text: str) -> None:
        self.words, self.place = text.split(), 0
        self.waves, self.codes, self.scopes = Waves(), {}, []

    def next(self) -> str:
        wanted(self.place < len(self.words), "it ends too early")
        self.place += 1
        return self.words[self.place - 1]

    def to_end(self) -> list[str]:
        """The words up to the next $end."""
        found = []
        while (word := self.next()) != "$end":
            wanted(word not in COMMANDS, f"{word} stands before an $end")
            found.append(word)
        return found

    def scope(self, words: list[str]) -> None:
        wanted(len(words) == 2 and words[0] in SCOPES and NAME.fullmatch(words[1]), f"no scope: {words}")
        self.scopes.append(words[1])

    def var(self, words: list[str]) -> None:
        wanted(len(words) in (4, 5) and words[0] in TYPES, f"no signal: {words}")
        kind, size, code, name, *span = words
        bits = int(size)
        wanted(CODE.fullmatch(code) and NAME.fullmatch(name) and bits > 0, f"no signal: {words}")
        found = SPAN.fullmatch(span[0]) if span else None
        wanted(not span or found and int(found[1]) - int(found[2]) + 1 == bits, f"other bits than its size: {words}")
        path = ".".join([*self.scopes, name])
        wanted(self.scopes and path not in self.waves.signals and code not in self.codes, f"there twice: {words}")
        self.waves.signals[path] = self.codes[code] = Signal(kind, bits)

    def head(self) -> None:
        """The definitions."""
        timescales = 0
        while (command := self.next()) != "$enddefinitions":
            words = self.to_end()
            if command == "$scope":
                self.scope(words)
            elif command == "$upscope":
                wanted(self.scopes and not words, "$upscope outside of a scope")
                self.scopes.pop()
            elif command == "$var":
                self.var(words)
            elif command == "$timescale":
                wanted(TIMESCALE.fullmatch(" ".join(words)), f"no timescale: {words}")
                timescales += 1
            else:
                wanted(command in COMMANDS, f"no command: {command}")
        wanted(not self.to_end() and not self.scopes, "the definitions end in a scope")
        wanted(timescales == 1, f"{timescales} timescales")

    def change(self, word: str) -> None:
        """A change of a value."""
        if word[0] in "01xXzZ":
            self.put(word[1:], word[0], ("wire", "reg"), 1)
        elif word[0] in "bB":
            wanted(re.fullmatch("[01xXzZ]+", word[1:]), f"no bits: {word}")
            self.put(self.next(), word[1:], TYPES - {"string", "real", "realtime", "event"}, len(word) - 1)
        elif word[0] == "s":
            self.put(self.next(), word[1:], ("string",), 1)
        else:
            raise BadFile(f"no change: {word}")

    def put(self, code: str, value: str, types: Collection[str], size: int) -> None:
        wanted(code in self.codes, f"no signal has the code {code}")
        signal = self.codes[code]
        wanted(signal.type in types and size <= signal.bits, f"{value} is no value of {code}")
        signal.values.append((self.waves.end, value))

    def body(self) -> None:
        """The changes, each after its time."""
        timed, dumping = False, False
        while self.place < len(self.words):
            word = self.next()
            if word.startswith("#"):
                time = int(word[1:])
                wanted(not dumping and (not timed or time > self.waves.end), f"{word} comes after {self.waves.end}")
                self.waves.end, timed = time, True
            elif word in DUMPS:
                wanted(not dumping, f"{word} in another one")
                dumping = True
            elif word == "$end":
                wanted(dumping, "an $end of nothing")
                dumping = False
            elif word == "$comment":
                self.to_end()
            else:
                wanted(timed, f"{word} before the first time")
                self.change(word)
        wanted(not dumping, "it ends in a dump")


def read(text: str) -> Waves:
    reader = Reader(text)
    reader.head()
    reader.body()
    for path, signal in reader.waves.signals.items():
        wanted(signal.values, f"{path} has no value")
    return reader.waves


def word_of(signal: Signal, value: str) -> int | str | None:
    """A value as a signed number, a text, or nothing where all bits are z."""
    if signal.type == "string" or set(value) == {"z"}:
        return None if value in ("z", "-") else value
    bits = value.rjust(signal.bits, "0" if value[0] == "1" else value[0])
    number = int(bits, 2)
    return number - (1 << signal.bits) if signal.bits == 40 and bits[0] == "1" else number


def changes(waves: Waves, path: str) -> list[tuple[int, int | str | None]]:
    signal = waves.signals[path]
    return [(time, word_of(signal, value)) for time, value in signal.changes()]


# What the reader refuses


GOOD = ("$timescale 1 ns $end $scope module a $end $var wire 2 ! x [1:0] $end $upscope $end $enddefinitions $end "
        "#0 b1 ! #3 bz !")
WRONG = [("b1 !", "b1 ?"), ("#3", "#0"), ("bz !", "b100 !"), ("bz !", "1!?"), ("[1:0]", "[2:0]"), ("1 ns", "2 ns"),
         ("$upscope $end ", ""), ("bz !", "stext !"), ("#0 ", ""), ("module a", "a"), ("wire", "wires"), ("bz !", "bz")]


def reader_faults() -> Iterator[str]:
    """Wrong texts that the reader takes for files."""
    if changes(read(GOOD), "a.x") != [(0, 1), (3, None)]:
        yield "the reader reads another value than is there"
    for old, new in WRONG:
        try:
            read(GOOD.replace(old, new, 1))
            yield f"the reader takes {new!r} in the place of {old!r}"
        except (BadFile, ValueError):
            pass


# y = x + 1 over the rows 5 and 127, in a period of 16 cycles: by hand, from tests/make_microcode.py and docs/MACHINE.md


INCREMENT = {
    "strobe": [(0, 1), (1, 0), (16, 1), (17, 0)],
    "sample": [(0, 0), (16, 1)],
    "word": [(cycle, cycle % 16) for cycle in range(32)],
    "conflict": [(0, None)],
    "units.inp.operation": [(0, "input"), (1, None), (16, "input"), (17, None)],
    "units.inp.opcode": [(0, 0), (1, None), (16, 0), (17, None)],
    "units.inp.result": [(0, 5), (1, None), (16, 127), (17, None)],
    "units.rom.operation": [(0, None), (1, "const"), (2, None), (17, "const"), (18, None)],
    "units.rom.opcode": [(0, None), (1, 2), (2, None), (17, 2), (18, None)],
    "units.rom.result": [(0, None), (1, 1), (2, None), (17, 1), (18, None)],
    "units.add.operation": [(0, None), (2, "add"), (3, None), (18, "add"), (19, None)],
    "units.add.opcode": [(0, None), (2, 3), (3, None), (18, 3), (19, None)],
    "units.add.result": [(0, None), (2, 6), (3, None), (18, -128), (19, None)],
    # An operand is there from the cycle after the one in which it is on the bus.
    "units.add.port0.r0": [(0, 0), (1, 5), (17, 127)],
    "units.add.port1.r0": [(0, 0), (2, 1)],
    "units.outp.operation": [(0, None), (3, "output"), (4, None), (19, "output"), (20, None)],
    "units.outp.opcode": [(0, None), (3, 1), (4, None), (19, 1), (20, None)],
    "units.outp.result": [(0, None)],
    "units.outp.port0.r0": [(0, 0), (3, 6), (19, -128)],
    "buses.b0": [(0, 5), (1, 1), (2, 6), (3, None), (16, 127), (17, 1), (18, -128), (19, None)],
    "latches.out0": [(0, 0), (4, 6), (20, -128)],
}
IDLE = [f"units.add.port{port}.r{register}" for port in (0, 1) for register in range(1, 8)] + ["units.outp.port0.r1"]


def made(room: Path, microcode: Path, datapath: Path, samples: Path) -> Waves:
    """The waveform that the tool makes."""
    out = room / "out.vcd"
    subprocess.run([ROOT / "tools" / "vcd", microcode, datapath, samples, out], check=True, stdout=subprocess.DEVNULL,
                   env=os.environ | {"SILC_SHOW": str(SHOW)})
    return read(out.read_text())


def increment_faults(room: Path) -> Iterator[str]:
    samples = room / "samples"
    samples.write_text("5\n127\n")
    waves = made(room, ROOT / "tests" / "increment" / "add-8-1.mic", PLAIN, samples)
    expected = INCREMENT | {path: [(0, 0)] for path in IDLE}
    if waves.signals.keys() != {f"silc.{path}" for path in expected}:
        yield f"y = x + 1 has the signals {sorted(waves.signals)}"
        return
    for path, values in expected.items():
        if changes(waves, f"silc.{path}") != values:
            yield f"y = x + 1: {path} is {changes(waves, f'silc.{path}')}, expected {values}"
    if waves.end != 32:
        yield f"y = x + 1 ends at {waves.end}"


# A conflict in cycle 2, of which nothing is done; cycle 1 wrote the 1 that is in port 1 of the adder then


CONFLICT = {
    "conflict": [(0, None), (2, "two_drivers_0")],
    "word": [(0, 0), (1, 1), (2, 2)],
    "units.add.operation": [(0, None)],
    "units.add.port1.r0": [(0, 0), (2, 1)],
    "units.outp.port0.r0": [(0, 0)],
    "buses.b0": [(0, 7), (1, 1), (2, None)],
}


def conflict_faults(room: Path) -> Iterator[str]:
    samples = room / "samples"
    samples.write_text("7\n8\n")
    microcode = ROOT / "tests" / "machine" / "two-drivers.mic"
    waves = made(room, microcode, PLAIN, samples)
    for path, values in CONFLICT.items():
        if changes(waves, f"silc.{path}") != values:
            yield f"a conflict: {path} is {changes(waves, f'silc.{path}')}, expected {values}"
    if waves.end != 3:
        yield f"a conflict ends at {waves.end}"


# An example, against its trace


EXAMPLE, DATAPATH, ROWS = "echo", "one_multiplier.toml", 12
LINES = {
    "begin": re.compile(r"cycle (\d+) sample (\d+) word (\d+)"),
    "issue": re.compile(r"  issue unit (\d+) (\w+) .*"),
    "bus": re.compile(r"  bus (\d+) unit (\d+) carries (-?\d+)"),
    "register": re.compile(r"  register unit (\d+) port (\d+) register (\d+) becomes (-?\d+)"),
    "cell": re.compile(r"  cell ram (\d+) cell (\d+) becomes (-?\d+)"),
    "latch": re.compile(r"  latch (\d+) becomes (-?\d+)"),
    "row": re.compile(r"  row (\S+)"),
}


def facts_of(text: str) -> Iterator[tuple[str, tuple[str, ...]]]:
    """The lines of a trace: what each says, with its numbers and words."""
    for line in text.splitlines():
        found = [(what, match.groups()) for what, form in LINES.items() if (match := form.fullmatch(line))]
        if len(found) != 1:
            raise BadFile(f"no line of a trace: {line}")
        yield found[0]


class Shown:
    """What a waveform shows in the cycles of a trace, and the rows of the trace."""

    def __init__(self, waves: Waves, units: Sequence[str], buses: Sequence[str]) -> None:
        self.waves, self.units, self.buses = waves, units, buses
        self.cycle, self.period, self.carried, self.rows = 0, None, set(), []

    def at(self, path: str, later: int = 0) -> int | str | None:
        """What a signal shows in this cycle, or so many later."""
        signal = self.waves.signals[f"silc.{path}"]
        return word_of(signal, signal.at(self.cycle + later))

    def unit(self, number: str) -> str:
        return f"units.{self.units[int(number)]}"

    def begin(self, cycle: str, sample: str, word: str) -> bool:
        self.cycle, self.carried = int(cycle), set()
        return self.at("sample") == int(sample) and self.at("word") == int(word)

    def issue(self, unit: str, operation: str) -> bool:
        return self.at(f"{self.unit(unit)}.operation") == operation

    def bus(self, bus: str, unit: str, word: str) -> bool:
        self.carried.add(word)
        return self.at(f"buses.{self.buses[int(bus)]}") == int(word) == self.at(f"{self.unit(unit)}.result")

    def register(self, unit: str, port: str, register: str, word: str) -> bool:
        """What comes into a register is what a bus carries."""
        return word in self.carried and self.at(f"{self.unit(unit)}.port{port}.r{register}", 1) == int(word)

    def cell(self, ram: str, cell: str, word: str) -> bool:
        return self.at(f"{self.unit(ram)}.cells.c{cell}", 1) == int(word)

    def latch(self, output: str, word: str) -> bool:
        return self.at(f"latches.out{output}", 1) == int(word)

    def row(self, text: str) -> bool:
        self.period = self.period or self.cycle + 1
        self.rows.append(text)
        words = [str(self.at(f"latches.out{output}", 1)) for output in range(len(text.split(",")))]
        return words == text.split(",") and (self.cycle + 1) % self.period == 0


def shown_faults(shown: Shown, facts: Iterable[tuple[str, tuple[str, ...]]], expected: Sequence[str]) -> Iterator[str]:
    """Where a waveform shows something else than a trace says, or the trace other rows than are expected."""
    for what, said in facts:
        if not getattr(shown, what)(*said):
            yield f"{EXAMPLE}: cycle {shown.cycle}: the waveform has no such {what}: {said}"
    if shown.rows != expected:
        yield f"{EXAMPLE}: rows {shown.rows}, expected {expected}"


def example_faults(room: Path) -> Iterator[str]:
    home = ROOT / "examples" / EXAMPLE
    microcode, samples = room / "example.mic", room / "rows"
    subprocess.run([SILC, "compile", next(home.glob("*.sil")), home / DATAPATH, microcode], check=True)
    samples.write_text("".join((home / "samples.txt").read_text().splitlines(True)[:ROWS]))
    waves = made(room, microcode, home / DATAPATH, samples)
    trace = subprocess.run([SHOW, "trace", microcode, samples], check=True, capture_output=True, text=True).stdout
    datapath = tomllib.loads((home / DATAPATH).read_text())
    units, buses = ([table["name"] for table in datapath[key]] for key in ("unit", "bus"))
    expected = (home / "expected.txt").read_text().splitlines()[:ROWS]
    facts = list(facts_of(trace))
    if {what for what, _ in facts} != set(LINES):
        yield f"{EXAMPLE}: its trace has no {set(LINES) - {what for what, _ in facts}}"
    yield from shown_faults(Shown(waves, units, buses), facts, expected)


# Some cycles of the example, against the whole run


WINDOW = 205, 290


def waves_of(room: Path, *more: str) -> Waves:
    """The waveform of the example that `example_faults` left there, or of a part of it."""
    datapath, out = ROOT / "examples" / EXAMPLE / DATAPATH, room / "part.vcd"
    subprocess.run([ROOT / "tools" / "vcd", room / "example.mic", datapath, room / "rows", out, *more], check=True,
                   stdout=subprocess.DEVNULL, env=os.environ | {"SILC_SHOW": str(SHOW)})
    return read(out.read_text())


def window_faults(room: Path) -> Iterator[str]:
    """A waveform of some cycles shows in each of them, and after the last, what that of the whole run shows."""
    whole, part = waves_of(room), waves_of(room, *map(str, WINDOW))
    for path, signal in part.signals.items():
        for time in range(*WINDOW):
            if signal.at(time) != whole.signals[path].at(time):
                yield (f"from {WINDOW[0]} on: {path} is {signal.at(time)} at {time}, and not "
                       f"{whole.signals[path].at(time)}")
        if min(time for time, _ in signal.values) < WINDOW[0]:
            yield f"from {WINDOW[0]} on: {path} has a value before"
    missing = [path for path, signal in whole.signals.items()
               if path not in part.signals and any(time <= WINDOW[1] for time, _ in signal.changes()[1:])]
    if missing or part.end != WINDOW[1]:
        yield f"from {WINDOW[0]} on: no {missing}, and the end is {part.end}"


def main(words: list[str]) -> int:
    if words:
        print(__doc__, file=sys.stderr)
        return 2
    for program in (SILC, SHOW):
        if not os.access(program, os.X_OK):
            print(f"there is no program {program}")
            return NOT_BUILT
    with tempfile.TemporaryDirectory(prefix="silc-vcd-") as folder:
        room = Path(folder)
        os.environ["XDG_STATE_HOME"] = folder
        faults = [*reader_faults(), *increment_faults(room), *conflict_faults(room), *example_faults(room),
                  *window_faults(room)]
    for fault in faults[:20]:
        print(fault)
    print(f"{len(faults)} faults in the waveforms" if faults else "the waveforms are right")
    return 1 if faults else 0


if __name__ == "__main__":
    sys.exit(main(sys.argv[1:]))
