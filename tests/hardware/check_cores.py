#!/usr/bin/env python3
"""Whether cores that tools/verilog makes give the rows that they should.

usage: tests/hardware/check_cores.py [--long] [PART ..]

Without --long it takes less than four minutes on a machine with nothing else to do. Each part has more with it:
  numbers      the file of parts has each operation of an alu, by its number in the tools' table
  images       images of this folder: 60 directed ones and 30 random ones, or 300; both builds in turn, or each
  hazards      images with structural hazards, 200 or 1000, are refused for the first one of a run without end
  examples     the processors of the examples, on the first 10 rows or on all, without waits, and with waits at both
               sides and a reset; both builds
  stages       cores of plans over two and three stages, whose rows are those of the examples and come late
  planted      wrong lines in the parts and the module, each of which some image shows
  full         two programs in one module; datapaths whose names are words of Verilog, or of the core's own files
  restart      cores whose memories hold nothing before a reset, and cores that a reset fills with nothing
  missing      what the tools say where a program is not there
  files        a core over files that its user made, and over an older core; a waveform of rows that differ
  nets         random nets of cores, 8 or 60, with queues of 1 to 3 rows: without waits, and with waits at both sides,
               in each queue, and everywhere with a reset; wrong lines in the queue and the module, each of which some
               net shows; those of the examples, on the first 30 rows or on all
  board        two channels over the I2S lines of examples/biquads/board
  lint         Verilator with -Wall says nothing of the examples' cores, of those of directed images, of 10 random ones,
               or 200, both builds, and of some nets. No pragma is in a core but of what nothing can read, with its
               reason
  verilator    rows under Verilator, of one example or of three
  synthesis    Yosys for ice40 and xilinx; the netlist of an example gives the same rows
A check whose program is not there is skipped. Rows of images come from the model of machine.py, which is compared with
`silc sim` where that is built; those of the examples are their expected rows. The last line is 'N passed, M failed, K
skipped', and the exit status 1 where one failed, and 77 where none failed and some were skipped.
"""
import os
import re
import shutil
import subprocess
import sys
import tempfile
import time
import tomllib
from collections.abc import Callable, Iterator, Sequence
from importlib.machinery import SourceFileLoader
from itertools import islice
from pathlib import Path
from typing import Any, TypeAlias

from bench import ROOT, Fault, built_by_icarus, built_by_verilator, is_there, made, ran
from cores import SILC, as_silc_has_it, check_image, check_rows, make_core, modelled, ways, write_rows
from silc.exploring.template import text_of
from silc.hardware.hazards import first_hazard
from images import broken_images, directed_images, random_images
from machine import Wordless
from nets import RandomNet, random_net
from silc.micro_file import image_of
from silc.micro_file.operations import OF_KIND, number_of
from planted import PLANTED, PARTS as PARTS_FILE, Planted

# A check, which is given a folder.
Check: TypeAlias = Callable[[Path], object]
# Checks with their names.
Checks: TypeAlias = Iterator[tuple[str, Check]]
# Rows of words.
Rows: TypeAlias = list[list[int]]
# What puts a wrong line into a file of a net, by its name.
Plant: TypeAlias = Callable[[str, str], str]

EXAMPLES = ROOT / "examples"
SHORT_ROWS, SHORT_IMAGES, LONG_IMAGES, NETLIST_ROWS = 10, 30, 300, 40
SHORT_BROKEN, LONG_BROKEN = 200, 1000
SHORT_NETS, LONG_NETS, LINTED_NETS, NET_WAIT, SHORT_NET_ROWS = 8, 60, 4, 20, 30
# Of the directed images each so many-th is linted in the short run.
SHORT_LINTED, LONG_LINTED, DIRECTED_STEP = 10, 200, 6
KINDS_OF_HAZARDS = ("busy", "two drivers", "file twice", "no driver", "no result")
ICARUS, VERILATOR, YOSYS = ("iverilog", "vvp"), ("verilator", "g++", "make"), ("yosys",)
# Plans over several stages, which all are the shortest there are; the input words of these examples have one width.
STAGED = [("lowpass16/one_multiplier", 17, 3), ("reverb/one_multiplier", 19, 3), ("biquads/one_multiplier", 24, 2),
          ("mulaw/telephone", 34, 2)]
STAGED_REGISTERS, STAGED_CELLS, STAGED_WIDTH, STAGED_ROWS = 32, 4096, "16", 40
OVERLAP = ROOT / "tests" / "overlap"
FAST = ["biquads/one_multiplier", "mulaw/telephone", "echo/two_multipliers"]
INCREMENT, BIQUADS, REVERB = "increment/plain", "biquads/one_multiplier", "reverb/one_multiplier"
SECONDS_BETWEEN = 10
NOT_ALL_THERE = 77
# A number of an operation in the parts, and the operations that have none there: what a sum or a truth value is
# otherwise.
ALU_NUMBER, UNNUMBERED = re.compile(r"\b([A-Z]+) = 4'd([0-9]+)"), ("sub", "not")
WORDS_AS_NAMES = """
period = 4
word = 16
unit = [{ name = "until", kind = "in" }, { name = "0", kind = "rom" },
        { name = "module", kind = "alu", files = [1, 1] }, { name = "module_0", kind = "out", files = [1] }]
bus = [{ name = "until", from = ["until", "0", "module"], to = ["module.0", "module.1", "module_0.0"] }]
"""
# A memory of the name that the file of the microprogram has, and others that are called as ports of units are.
FILES_AS_NAMES = """
period = 12
word = 16
unit = [{ name = "i", kind = "in" }, { name = "a", kind = "alu", files = [2, 2] },
        { name = "code", kind = "ram", files = [2, 2], cells = 4 }, { name = "code_0", kind = "acu", ram = "code" },
        { name = "a_0", kind = "ram", files = [2, 2], cells = 4 }, { name = "a_1", kind = "acu", ram = "a_0" },
        { name = "a_0_cells", kind = "out", files = [2] }]
bus = [{ name = "b", from = ["i", "a", "code", "a_0"], to = ["a.0", "a.1", "code.1", "a_0.1", "a_0_cells.0"] },
       { name = "c", from = ["code_0"], to = ["code.0"] }, { name = "d", from = ["a_1"], to = ["a_0.0"] }]
"""


class Skipped(Exception):
    """A check whose program is not there."""


def need(*programs: str) -> None:
    if not is_there(*programs):
        raise Skipped(f"there is no {programs[0]}; apt-get install {programs[0]}")


def need_silc() -> None:
    if not os.access(SILC, os.X_OK):
        raise Skipped("silc is not built")


def words_in(text: str) -> Rows:
    return [list(map(int, line.split(","))) for line in text.splitlines()]


def processors() -> list[str]:
    """The names of all examples of one program with a datapath each."""
    return [f"{file.parent.name}/{file.stem}" for file in sorted(EXAMPLES.glob("*/*.toml"))
            if (file.parent / f"{file.parent.name}.sil").is_file()]


class Example:
    """An example over one of its datapaths, compiled in a folder."""

    def __init__(self, name: str, folder: Path, most: int | None = None) -> None:
        need_silc()
        self.home, self.datapath = EXAMPLES / name.split("/")[0], EXAMPLES / f"{name}.toml"
        self.microcode = folder / "example.mic"
        ran([SILC, "compile", next(self.home.glob("*.sil")), self.datapath, self.microcode], folder, True)
        self.period = image_of(self.microcode.read_bytes()).period
        self.samples, self.rows = (words_in((self.home / name).read_text())[:most]
                                   for name in ("samples.txt", "expected.txt"))

    def core(self, folder: Path, *options: str) -> Path:
        why = made(self.microcode, folder, "--name", "core", "--datapath", self.datapath, *options)
        if why:
            raise Fault(why)
        write_rows(folder, self.samples, self.rows)
        return folder


# The parts. Each check is a name and what is called with a new folder.


def check_numbers(_: object) -> None:
    numbers = {name.lower(): int(number)
               for name, number in ALU_NUMBER.findall((ROOT / "hardware" / PARTS_FILE).read_text())}
    wanted = {name: number_of(name) for name in OF_KIND["alu"] if name not in UNNUMBERED}
    if numbers != wanted:
        raise Fault(f"{PARTS_FILE} has the numbers {numbers}, and the table {wanted}")


def number_checks(_: object) -> Checks:
    yield "operations of an alu", check_numbers


def image_checks(is_long: bool) -> Checks:
    images = [*directed_images(), *islice(random_images(LONG_IMAGES), LONG_IMAGES if is_long else SHORT_IMAGES)]
    for place, (name, microcode, samples) in enumerate(images):
        for is_full in (False, True) if is_long else (place % 2 == 1,):
            yield f"{name}{', full' if is_full else ''}", lambda folder, one=(microcode, samples, is_full): (
                need(*ICARUS), check_image(folder, *one))


def check_broken(folder: Path, count: int) -> None:
    """The first hazard of each image is the one that the model comes to. Their rows are longer than two circles."""
    kinds = set()
    for name, microcode, samples in broken_images(count):
        image = image_of(microcode)
        as_silc_has_it(folder, microcode, image, samples)
        found, (_, hazard) = first_hazard(image), modelled(image, samples, Wordless)
        if found != (hazard.args if hazard else None):
            raise Fault(f"{name}: the first hazard is {found}, and that of the model {hazard}")
        kinds.add(found and found[1])
    if len(kinds) != len(KINDS_OF_HAZARDS) + 1:
        raise Fault(f"the images come to {kinds} alone")


def hazard_checks(is_long: bool) -> Checks:
    yield "broken images", lambda folder: check_broken(folder, LONG_BROKEN if is_long else SHORT_BROKEN)


def check_example(folder: Path, name: str, options: Sequence[str], most: int | None) -> None:
    need(*ICARUS)
    example = Example(name, folder, most)
    core = example.core(folder / "core", *options)
    plain, *_, with_all = ways(example.period, len(example.rows))
    check_rows(core, built_by_icarus(core), example.period, example.rows, None, [plain, with_all])


def example_checks(is_long: bool) -> Checks:
    for name in processors():
        for options in ([], ["--full"]):
            yield " ".join([name, *options]), lambda folder, one=(name, options, None if is_long else SHORT_ROWS): (
                check_example(folder, *one))


def roomy(datapath: dict[str, Any]) -> dict[str, Any]:
    """A datapath with room for plans over several stages."""
    return datapath | {"unit": [unit | ({"files": [STAGED_REGISTERS] * len(unit["files"])} if "files" in unit else {})
                                | ({"cells": STAGED_CELLS} if "cells" in unit else {}) for unit in datapath["unit"]]}


def guarded_text(folder: Path, example: str, datapath: Path, stages: int) -> str:
    """The guarded image of an example's plan, by scripts that know nothing of silc."""
    schedule = ROOT / "docs" / "pictures" / f"{example}.schedule"
    (folder / "plan").write_text(ran([OVERLAP / "plan.py", schedule, datapath, str(stages)], folder))
    return ran([OVERLAP / "guard.py", "plan", datapath, STAGED_WIDTH], folder)


def check_stages(folder: Path, name: str, period: int, stages: int, most: int | None) -> None:
    """The core of a plan over several stages; a script plays the program that prints the guarded image."""
    need(*ICARUS)
    home = EXAMPLES / name.split("/")[0]
    datapath, show, core = folder / "dp.toml", folder / "silc_show", folder / "core"
    datapath.write_text(text_of(roomy(tomllib.loads((EXAMPLES / f"{name}.toml").read_text())) | {"period": period}))
    (folder / "guarded").write_text(guarded_text(folder, home.name, datapath, stages))
    show.write_text(f"#!/bin/sh\ncat {folder}/guarded\n")
    show.chmod(0o755)
    words = [ROOT / "tools" / "verilog", "--stages", str(stages), home / f"{home.name}.sil", datapath, core,
             "--name", "core"]
    done = subprocess.run(words, capture_output=True, text=True, env=os.environ | {"SILC_SHOW": str(show)})
    if done.returncode:
        raise Fault(done.stderr)
    samples, rows = (words_in((home / file).read_text())[:most] for file in ("samples.txt", "expected.txt"))
    late = [*[[0] * len(rows[0])] * (stages - 1), *rows][: len(rows)]
    write_rows(core, samples, late)
    plain, *_, with_all = ways(period, len(late))
    check_rows(core, built_by_icarus(core), period, late, None, [plain, with_all])


def stages_checks(is_long: bool) -> Checks:
    for name, period, stages in STAGED:
        yield f"{name} in {period} cycles over {stages} stages", lambda folder, one=(name, period, stages): (
            check_stages(folder, *one, None if is_long else STAGED_ROWS))


def check_planted(folder: Path, planted: Planted) -> None:
    need(*ICARUS)

    def plant(core: Path) -> None:
        text = (core / planted.file).read_text()
        if text.count(planted.old) < 1:
            raise ValueError(f"{planted.file} has no line {planted.old}")
        (core / planted.file).write_text(text.replace(planted.old, planted.new))

    images = [*directed_images(), *islice(random_images(LONG_IMAGES), 60)]
    for place, (name, microcode, samples) in enumerate(images):
        if name.startswith(planted.images):
            try:
                check_image(folder / str(place), microcode, samples, planted.is_full, plant)
            except Fault:
                return
    raise Fault("no image shows it")


def planted_checks(_: object) -> Checks:
    for planted in PLANTED:
        yield planted.what, lambda folder, one=planted: check_planted(folder, one)


def check_two_programs(folder: Path) -> None:
    """Two programs over one datapath have one module, and each program runs in it."""
    need(*ICARUS)
    need_silc()
    datapath, texts = EXAMPLES / f"{BIQUADS}.toml", []
    for place, source in enumerate(("y = x@1 * 0.5 + x;", "y = if x > 0.25 -> x || x@2 fi;")):
        room = folder / str(place)
        room.mkdir()
        (room / "a.sil").write_text(f"func main(x : fix<16,15>) y : fix<16,15> = begin {source} end;\n")
        ran([SILC, "compile", "a.sil", datapath, "a.mic"], room, True)
        samples = [[(number * 7919) % 65536 - 32768] for number in range(30)]
        write_rows(room, samples, [])
        ran([SILC, "sim", "a.mic", "samples.txt", "expected.txt"], room, True)
        rows = words_in((room / "expected.txt").read_text())
        for name, options in (("core", ["--full"]), ("core16", ["--full", "16,16"])):
            if made(room / "a.mic", room / name, "--name", "core", "--datapath", datapath, *options):
                raise Fault("no full core")
            texts.append((name, (room / name / "core.v").read_text()))
        write_rows(room / "core", samples, rows)
    first, second = folder / "0" / "core", folder / "1" / "core"
    if len(set(texts)) != 2:
        raise Fault("the modules of two programs differ")
    for file in second.glob("*.hex"):
        (first / file.name).write_bytes(file.read_bytes())
    write_rows(first, samples, rows)
    check_rows(first, built_by_icarus(first), 27, rows, None, ways(27, len(rows)))


def check_names(folder: Path, datapath: str, equation: str) -> None:
    """A program over a datapath of odd names, in both builds."""
    need(*ICARUS)
    need_silc()
    (folder / "a.toml").write_text(datapath)
    (folder / "a.sil").write_text(f"func main(x : fix<8,0>) y : fix<8,0> = begin y = {equation}; end;\n")
    write_rows(folder, [[0], [127], [-128], [5], [-7], [1]], [])
    ran([SILC, "compile", "a.sil", "a.toml", "a.mic"], folder, True)
    ran([SILC, "sim", "a.mic", "samples.txt", "expected.txt"], folder, True)
    samples, rows = (words_in((folder / name).read_text()) for name in ("samples.txt", "expected.txt"))
    period = image_of((folder / "a.mic").read_bytes()).period
    for name, options in (("one", []), ("any", ["--full"])):
        if made(folder / "a.mic", folder / name, "--name", "core", "--datapath", folder / "a.toml", *options):
            raise Fault("no core")
        write_rows(folder / name, samples, rows)
        check_rows(folder / name, built_by_icarus(folder / name), period, rows, None, ways(period, len(rows)))


def full_checks(_: object) -> Checks:
    yield "two programs in one module", check_two_programs
    yield "names that are words of Verilog", lambda folder: check_names(folder, WORDS_AS_NAMES, "x + 1")
    yield "names as files have them", lambda folder: check_names(folder, FILES_AS_NAMES, "x@1 + x")


INITIALS = re.compile(r"generate\n\s+if \(FILE != \"\"\) begin : some\n\s+initial .*?end else begin : zeros\n.*?end\n",
                      re.S)
RESTARTED = ("first words everywhere", "ring of 7, unroll 1", "memory 2 1", "random 0", "random 1", "random 4")


def hold_nothing(core: Path) -> None:
    """Takes the initial content from the register files and memories of a core."""
    text = (core / PARTS_FILE).read_text()
    changed, count = INITIALS.subn("generate\n", text)
    if count != 1:
        raise Fault(f"{PARTS_FILE} has {count} initial contents of that form")
    (core / PARTS_FILE).write_text(changed)


def fill_nothing(core: Path) -> None:
    text = (core / "core.v").read_text()
    (core / "core.v").write_text(text.replace("parameter RESTART = 1", "parameter RESTART = 0"))


def without_reset(period: int, rows: int) -> list[dict[str, int]]:
    return ways(period, rows)[:-1]


def restart_checks(_: object) -> Checks:
    images = [*directed_images(), *islice(random_images(LONG_IMAGES), SHORT_IMAGES)]
    for name, microcode, samples in images:
        for is_full in (False, True) if name in RESTARTED else ():
            for what, given in (("nothing before", (hold_nothing, ways)),
                                ("nothing filled", (fill_nothing, without_reset))):
                one_image = (microcode, samples, is_full, *given)
                yield f"{name}{', full' if is_full else ''}, {what}", lambda folder, one=one_image: (
                    need(*ICARUS), check_image(folder, *one))


def check_missing(folder: Path, words: Sequence[str], others: Sequence[str], package: tuple[str, str]) -> None:
    """A tool says in one line what to install, where of the programs that it needs it finds these others alone."""
    need_silc()
    (folder / "bin").mkdir()
    for name in ("python3", *others):
        (folder / "bin" / name).symlink_to(sys.executable)
    shutil.copy(ROOT / "tests" / "increment" / "add-8-1.mic", folder / "MIC")
    (folder / "SAMPLES").write_text("0\n")
    before = sorted(os.listdir(folder))
    done = subprocess.run([ROOT / words[0], *words[1:]], cwd=folder, capture_output=True, text=True,
                          env=os.environ | {"PATH": str(folder / "bin")})
    said = f"{Path(words[0]).name}: there is no {package[0]}; apt-get install {package[1]}\n"
    if done.returncode != 1 or done.stderr != said or done.stdout or sorted(os.listdir(folder)) != before:
        raise Fault(f"it ended with {done.returncode}: {done.stderr}")


def missing_checks(_: object) -> Checks:
    board = "examples/biquads/board/board"
    for text, others, package in (
            ("tools/cosimulate MIC SAMPLES", (), ("iverilog", "iverilog")),
            ("tools/cosimulate MIC SAMPLES --with verilator", (), ("verilator", "verilator g++ make")),
            ("tools/synthesize MIC", (), ("yosys", "yosys")),
            ("tools/synthesize MIC --route", ("yosys",), ("nextpnr-ice40", "nextpnr-ice40")),
            (f"{board} build OUT", (), ("yosys", "yosys")),
            (f"{board} build OUT", ("yosys", "nextpnr-ice40"), ("icepack", "fpga-icestorm")),
            (f"{board} simulate SAMPLES OUT", (), ("iverilog", "iverilog"))):
        one_lacking = (text.split(), others, package)
        yield f"{text} without {package[0]}", lambda folder, one=one_lacking: check_missing(folder, *one)


def snapshot(folder: Path) -> dict[str, bytes]:
    return {file.name: file.read_bytes() for file in folder.iterdir()}


def check_core_over(folder: Path) -> None:
    """A file of the user's stays but with --force, and with it all others; an older core is made anew."""
    older, newer = (ROOT / "tests" / "increment" / f"{name}.mic" for name in ("add-8-1", "add-8-127"))
    core = folder / "core"
    core.mkdir()
    (core / "core_code.hex").write_text("mine\n")
    why = made(older, core, "--name", "core")
    if why != f"verilog: {core}/core_code.hex is there, and not as a tool made it; --force writes over it":
        raise Fault(f"over a file of the user's it says {why}")
    if snapshot(core) != {"core_code.hex": b"mine\n"}:
        raise Fault("files are made beside one of the user's")
    texts = []
    for microcode, options in ((older, ["--force"]), (newer, []), (older, [])):
        if made(microcode, core, "--name", "core", *options):
            raise Fault("a core that the tool made is in its way")
        texts.append(snapshot(core))
    if texts[0] != texts[2] or texts[0] == texts[1]:
        raise Fault("the core is not that of its microcode")


def check_waveform(folder: Path) -> None:
    """The waveform goes to the end of the run also where rows differ from those of `silc sim`, which a script plays."""
    need(*ICARUS)
    (folder / "silc").write_text("#!/bin/sh\nprintf '1\\n2\\n4\\n' > $4\n")
    (folder / "silc").chmod(0o755)
    (folder / "samples").write_text("0\n1\n2\n")
    microcode = ROOT / "tests" / "increment" / "add-8-1.mic"
    done = subprocess.run([ROOT / "tools" / "cosimulate", microcode, "samples", "--vcd", "waves.vcd"], cwd=folder,
                          capture_output=True, text=True, env=os.environ | {"SILC": str(folder / "silc")})
    if done.returncode != 1 or "sample 2: expected 4, the core put 3" not in done.stderr:
        raise Fault(f"it ended with {done.returncode}: {done.stderr}")
    text = (folder / "waves.vcd").read_text()
    names = sorted(os.listdir(folder))
    if "$enddefinitions" not in text or text.count("#") < 3 * 16 or names != ["samples", "silc", "waves.vcd"]:
        raise Fault("the waveform is not whole")


def check_long_wait(folder: Path) -> None:
    """A wait of many periods is no fault of the core. A script plays `silc sim`."""
    need(*ICARUS)
    (folder / "silc").write_text("#!/bin/sh\nprintf '1\\n2\\n3\\n' > $4\n")
    (folder / "silc").chmod(0o755)
    (folder / "samples").write_text("0\n1\n2\n")
    microcode = ROOT / "tests" / "increment" / "add-8-1.mic"
    done = subprocess.run([ROOT / "tools" / "cosimulate", microcode, "samples", "--wait", "5000"], cwd=folder,
                          capture_output=True, text=True, env=os.environ | {"SILC": str(folder / "silc")})
    if done.returncode or done.stdout != "3 rows are equal\n":
        raise Fault(f"it ended with {done.returncode}: {done.stdout}{done.stderr}")


def files_checks(_: object) -> Checks:
    yield "a core over files", check_core_over
    yield "a waveform of rows that differ", check_waveform
    yield "a wait of many periods", check_long_wait


def check_lint(core: Path) -> None:
    done = subprocess.run(["verilator", "--lint-only", "-Wall", "silc_parts.v", "core.v", "--top-module", "core"],
                          cwd=core, capture_output=True, text=True)
    if done.returncode or done.stdout + done.stderr:
        raise Fault((done.stdout + done.stderr)[:600])


def check_example_lint(folder: Path, name: str, options: Sequence[str]) -> None:
    need("verilator")
    check_lint(Example(name, folder, 1).core(folder / "core", *options))


def check_image_lint(folder: Path, microcode: bytes, is_full: bool) -> None:
    """Where there is a core of an image, it is clean too."""
    need("verilator")
    if not make_core(folder, microcode, image_of(microcode), is_full):
        check_lint(folder / "core")


def lint_checks(is_long: bool) -> Checks:
    for name in processors():
        for options in ([], ["--full"]):
            yield " ".join([name, *options]), lambda folder, one=(name, options): check_example_lint(folder, *one)
    images = [*directed_images(), *islice(random_images(LONG_LINTED), LONG_LINTED if is_long else SHORT_LINTED)]
    for name, microcode, _ in images if is_long else images[::DIRECTED_STEP] + images[-SHORT_LINTED:]:
        for is_full in (False, True):
            yield f"{name}{', full' if is_full else ''}", lambda folder, one=(microcode, is_full): (
                check_image_lint(folder, *one))
    for seed in range(LONG_NETS if is_long else LINTED_NETS):
        yield f"random net {seed}", lambda folder, seed=seed: check_net_lint(folder, seed)


def check_verilator(folder: Path, name: str) -> None:
    need(*VERILATOR)
    example = Example(name, folder)
    core = example.core(folder / "core")
    bench = built_by_verilator(core, "core")
    check_rows(core, bench, example.period, example.rows, None, ways(example.period, len(example.rows)))


def verilator_checks(is_long: bool) -> Checks:
    for name in FAST if is_long else FAST[:1]:
        yield name, lambda folder, one=name: check_verilator(folder, one)


# Wrong lines of a net: what is wrong, in which file, the line and what replaces it.
PLANTED_NETS = [
    ("a queue takes a row without a place", PARTS_FILE, "assign has_place = count != MOST;",
     "assign has_place = 1'b1;"),
    ("a queue keeps the row that was taken", PARTS_FILE, "if (take) from <= from == LAST",
     "if (take && put) from <= from == LAST"),
    ("a queue counts a row twice that goes as one comes", PARTS_FILE, "if (put && !take) count", "if (put) count"),
    ("a core takes a row before all are there", "core.v", " && has_", " || has_"),
    ("a core puts its row where one of its queues has no place", "core.v", " && free_", " || free_")]


def made_net(folder: Path, seed: int, plant: Plant | None = None) -> tuple[list[str | Path], RandomNet]:
    """The bench of a random net, whose queues wait where it is told so, and the net."""
    made_here = random_net(seed)
    folder.mkdir(exist_ok=True)
    for name, text in made_here.files("core").items():
        (folder / name).write_text(plant(name, text) if plant else text)
    write_rows(folder, made_here.samples, made_here.rows)
    return built_by_icarus(folder, "-DSILC_WAITS", *sorted(path.name for path in folder.glob("*.v"))), made_here


def check_net(folder: Path, seed: int, plant: Plant | None = None) -> None:
    need(*ICARUS)
    bench, net = made_net(folder, seed, plant)
    waits = [{}, *({side: NET_WAIT} for side in ("in_wait", "out_wait", "queue_wait"))]
    everywhere = {key: NET_WAIT for way in waits for key in way} | {"reset_after": len(net.rows) // 2}
    check_rows(folder, bench, None, net.rows, None, [*waits, everywhere])


def check_planted_net(folder: Path, file: str, old: str, new: str) -> None:
    def plant(name: str, text: str) -> str:
        return text.replace(old, new) if name == file else text
    for seed in range(LONG_NETS):
        if old not in random_net(seed).files("core")[file]:
            continue
        try:
            check_net(folder / str(seed), seed, plant)
        except Fault:
            return
    raise Fault("no net shows it")


def check_net_example(folder: Path, name: str, most: int | None) -> None:
    """The cores of an example put the rows of its programs, with waits everywhere."""
    need(*ICARUS)
    need_silc()
    rows = words_in((EXAMPLES / name / "samples.txt").read_text())[:most]
    write_rows(folder, rows, [])
    done = subprocess.run([ROOT / "tools" / "cosimulate", "net.toml", folder / "samples.txt", "--wait", str(NET_WAIT)],
                          cwd=EXAMPLES / name, capture_output=True, text=True, env=os.environ | {"SILC": str(SILC)})
    if done.returncode or done.stdout != f"{len(rows)} rows are equal\n":
        raise Fault(f"it ended with {done.returncode}: {done.stdout}{done.stderr}")


def net_checks(is_long: bool) -> Checks:
    for file in sorted(EXAMPLES.glob("*/net.toml")):
        yield f"example {file.parent.name}", lambda folder, name=file.parent.name: (
            check_net_example(folder, name, None if is_long else SHORT_NET_ROWS))
    for seed in range(LONG_NETS if is_long else SHORT_NETS):
        yield f"random net {seed}", lambda folder, seed=seed: check_net(folder, seed)
    for what, *planted in PLANTED_NETS:
        yield what, lambda folder, one=planted: check_planted_net(folder, *one)


def check_net_lint(folder: Path, seed: int) -> None:
    need("verilator")
    for name, text in random_net(seed).files("core").items():
        (folder / name).write_text(text)
    cores = sorted(path.name for path in folder.glob("core*.v") if path.name != "core_tb.v")
    done = subprocess.run(["verilator", "--lint-only", "-Wall", PARTS_FILE, *cores, "--top-module", "core"], cwd=folder,
                          capture_output=True, text=True)
    if done.returncode or done.stdout + done.stderr:
        raise Fault((done.stdout + done.stderr)[:600])


def check_board(folder: Path, most: int | None) -> None:
    """What comes back over the I2S lines of the board is what the filter makes of each channel."""
    need(*ICARUS)
    need_silc()
    example = Example(BIQUADS, folder, most)
    board = SourceFileLoader("board", str(EXAMPLES / "biquads" / "board" / "board")).load_module()
    one = [row[0] for row in example.samples]
    other = [-(word + 1) for word in reversed(one)]
    rows, _ = modelled(image_of(example.microcode.read_bytes()), [[word] for word in other])
    expected = [f"{a},{b}" for (a,), (b,) in zip(example.rows, rows)]
    text = "".join(f"{a},{b}\n" for a, b in zip(one, other))
    if board.simulate_rows(folder, text) != expected:
        raise Fault("the rows over the lines are others")


def board_checks(is_long: bool) -> Checks:
    yield "two channels over I2S", lambda folder: check_board(folder, None if is_long else SHORT_ROWS)


def cells_of_yosys(core: Path, script: str) -> dict[str, int]:
    """Synthesizes a core, and returns how many cells of each type it takes."""
    whole = f"read_verilog -defer silc_parts.v; read_verilog core.v; {script}; tee -q -o stat.txt stat"
    ran(["yosys", "-q", "-p", whole], core)
    lines = (core / "stat.txt").read_text().rpartition("Number of cells:")[2].splitlines()
    return {line.split()[0]: int(line.split()[1]) for line in lines if len(line.split()) == 2}


def check_netlist(folder: Path, name: str) -> None:
    """The netlist of an example gives the same rows."""
    need(*YOSYS)
    need(*ICARUS)
    example = Example(name, folder, NETLIST_ROWS)
    core = example.core(folder / "core")
    cells_of_yosys(core, "synth_ice40 -top core; write_verilog -noattr netlist.v")
    models = Path(shutil.which("yosys")).resolve().parent.parent / "share" / "yosys" / "ice40" / "cells_sim.v"
    ran(["iverilog", "-g2012", "-DNO_ICE40_DEFAULT_ASSIGNMENTS", "-o", "bench", "netlist.v", "core_tb.v", models], core)
    check_rows(core, ["vvp", "-n", "bench"], example.period, example.rows, None,
               ways(example.period, len(example.rows))[:1])


def check_sizes(folder: Path, name: str, options: Sequence[str], script: str, most: dict[str, int]) -> None:
    """The core takes no more of each kind of cell than here."""
    need(*YOSYS)
    cells = cells_of_yosys(Example(name, folder, 1).core(folder / "core", *options), script)
    for start, count in most.items():
        found = sum(number for cell, number in cells.items() if cell.startswith(start))
        if found > count:
            raise Fault(f"it takes {found} {start}, and {count} at most are allowed")


def synthesis_checks(is_long: bool) -> Checks:
    yield "netlist of increment", lambda folder: check_netlist(folder, INCREMENT)
    ice40, xilinx = "synth_ice40 -top core", "synth_xilinx -top core"
    sizes = [(INCREMENT, [], xilinx, {"FD": 80}),
             (BIQUADS, [], ice40, {"SB_LUT4": 1700, "SB_DFF": 520}),
             (BIQUADS, [], ice40 + " -dsp", {"SB_LUT4": 770, "SB_DFF": 520})]
    if is_long:
        yield "netlist of biquads", lambda folder: check_netlist(folder, BIQUADS)
        sizes += [(BIQUADS, ["--full"], ice40, {"SB_LUT4": 2800}), (REVERB, [], ice40, {"SB_DFF": 700}),
                  (REVERB, [], xilinx, {"FD": 700}), (BIQUADS, ["--full"], xilinx, {"FD": 700})]
    for one in sizes:
        yield f"{one[0]} {' '.join(one[1])} by {one[2].split()[0]}", lambda folder, one=one: check_sizes(folder, *one)


PARTS = {"numbers": number_checks, "images": image_checks, "hazards": hazard_checks, "examples": example_checks,
         "stages": stages_checks, "planted": planted_checks, "full": full_checks, "restart": restart_checks,
         "missing": missing_checks, "files": files_checks, "nets": net_checks, "board": board_checks,
         "lint": lint_checks, "verilator": verilator_checks, "synthesis": synthesis_checks}


def judged(check: Check) -> tuple[str | None, bool]:
    """How a check went: nothing, or why not, with whether it was skipped."""
    with tempfile.TemporaryDirectory(prefix="silc-core-") as folder:
        try:
            check(Path(folder))
        except Skipped as why:
            return str(why), True
        except (Fault, ValueError, OSError, subprocess.TimeoutExpired) as why:
            return str(why), False
    return None, False


def main(words: list[str]) -> int:
    is_long, names = "--long" in words, [word for word in words if word != "--long"]
    if any(name not in PARTS for name in names):
        print(__doc__, file=sys.stderr)
        return 2
    checks = [(f"{part}: {name}", check) for part in names or PARTS for name, check in PARTS[part](is_long)]
    counts, last, told = {"passed": 0, "failed": 0, "skipped": 0}, time.monotonic(), set()
    for place, (name, check) in enumerate(checks):
        why, is_skipped = judged(check)
        counts["skipped" if is_skipped else "failed" if why else "passed"] += 1
        if why and not (is_skipped and why in told):
            told.add(why)
            print(f"{'skipped: ' if is_skipped else ''}{name}: {why}", flush=True)
        if time.monotonic() - last > SECONDS_BETWEEN:
            last = time.monotonic()
            print(f"check_cores: {place + 1} of {len(checks)}", file=sys.stderr, flush=True)
    print(", ".join(f"{count} {what}" for what, count in counts.items()))
    return 1 if counts["failed"] else NOT_ALL_THERE if counts["skipped"] else 0


if __name__ == "__main__":
    sys.exit(main(sys.argv[1:]))
