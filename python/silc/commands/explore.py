"""Plans a source on many datapaths, and shows what they trade against one another: period, units, buses and bits.

usage: tools/explore [--out NAME] [--force] [--best ROW] [--jobs N] [--sshlogin LOGIN] [--pool]
                     [--json] [--stages RANGE] [--samples S --against R] [--area FAMILY [--dsp] [--clock RATE]]
                     [--best-plans N] [--library FOLDER] SRC TEMPLATE

TEMPLATE is a datapath file with ranges in the place of numbers: {1, 2} or {32..256 step 8}. {N: 8, 16} is a range with
a name, and {N} elsewhere has the same number. The size {fit} of a file is the least with which the rest has a plan;
where a template has no other range, it is one row. A unit or a bus with `times = {0..2}` is there this many times, each
copy with all ends of the first; copies of an acu address the copies of its ram.

Each combination is planned by `silc schedule` and is a row of NAME.csv: how many units, buses and registers it has, how
many bits its registers and its memories have, how many registers, memory cells and cycles the plan takes, or the
refusal. A register has as many bits as the widest word that comes into its file needs, and a cell as the widest that is
stored in its memory, as in the core that tools/verilog makes of the program; what nothing comes into has none. NAME.svg
is the picture of the table. Without --out, NAME is that of TEMPLATE without its ending, in this folder. Rows that are
there are not made again, so that a run goes on where an earlier one was stopped.

On standard output come the rows of the Pareto front with their numbers, those than which no other has less of period,
units, buses, bits of registers or bits of memories and no more of the rest. By --best the datapath file of one of them,
by its number, is written to NAME.toml. On standard error come the reasons for which combinations are refused, the
commonest first, each with what its first combination lacks, and the least period that fits. The exit status is 1 where
none fits.

With --stages each datapath is planned by `silc stages` over each number of stages of the range, as 1..4 or 2 or 1,3,
with all delays in memory whatever the hold is. Its rows say over how many, and the picture has panels for each number.
Stages are a cost too, since rows come a sample later for each: of two combinations on the front none has more of them
for nothing.

SRC may have ranges too, as in

    let W = 16 in 12, 14, 16;
    let F = W - 2 in W - 4 .. W - 1;
    use biquad<W=W, F=F> as section;

{W} in it is then a number of its range. It is linked for each combination, as tools/link does it, with blocks of each
FOLDER before those of library/. A combination that is no program is a row that says so. With --samples and --against,
as tools/noise has them, each row also has the noise of the output beside its signal, in decibels, and at how many
samples it is another than where nothing wraps or saturates, in words without bounds (nothing where such a word passes
256 bits). The front is then of noise against hardware, and NAME_noise.svg its picture.

With --area ice40 (or xilinx, ecp5) Yosys synthesizes the core of each row of the front, on this machine, in some
seconds to a minute each; what it takes of the FPGA stands beside and in NAME.area.csv. --dsp uses the multipliers that
an ice40 up5k has; the others have some always. With --clock RATE, samples a second, each core is placed and routed too
(ice40: an hx8k, with --dsp an up5k): beside stand the clock that it reaches and the one that the rate takes, RATE times
the period, and a row whose core is too slow, or does not fit the part, is marked. NAME_clock.svg is the picture: the
clock of each core over its period, and the line that it has to reach.

With --best-plans N the plan of each row of the front is searched on for N seconds, as tools/plan does it, over the same
units, buses, files and memories. Beside the row stands the least period that is found, and whether it is known to be
the least. silc_place makes the microcode of the plan; with the plan and its datapath it is written into the folder
NAME_plans, under the number of the row. It goes neither with --stages, since silc_place makes no microcode over stages,
nor with --area, which is of the plans of the rules.

With --json all rows come on standard output as JSON in the place of the front (docs/PYTHON.md).

No file replaces an input. A table of another template or source stays, and so do other files that no tool made, but for
--force.

GNU parallel runs silc, --jobs at a time on each machine, and by --sshlogin (more than one of them, as parallel has it)
on other machines. With --pool, or without GNU parallel, threads of this script do it. It builds nothing: it runs the
program that is built, or the one that `SILC` names in the environment, and with --samples `silc_show` too, or what
`SILC_SHOW` names, and with --best-plans `silc_place`, or what `SILC_PLACE` names.
"""
import argparse
import json
import re
import shutil
import sys
import tempfile
import time
from argparse import Namespace
from collections.abc import Iterable, Iterator, Sequence
from fractions import Fraction
from pathlib import Path
from typing import Any

from silc.commands import positive
from silc.commands.synthesize import SHORT, rate_word
from silc.designing.programs import Unrun
from silc.exploring import runs
from silc.exploring.bits import inputs_of
from silc.exploring.exploration import Exploration
from silc.exploring.planned import NotPlanned, Planned
from silc.exploring.reasons import Reasons
from silc.exploring.sources import BAD_SOURCE, Judgement, LinkedTemplate, PlainSource
from silc.exploring.template import ITEMS, Choice, Template, fitted, numbers_of as numbers_in, text_of
from silc.exploring.trades import (CLOCK, COSTS, LEAST, MARK, NEEDED, PLANNED_PERIOD, STAGES, Area, Table, Trade,
                                   mark_front, registers_by_file, trade_of)
from silc.hardware.fpga import MISFIT
from silc.hardware.words import Range
from silc.linking.blocks import Library
from silc.linking.places import File, Unlinked, has_head
from silc.made_files import MadeFiles, NotMade, add_force
from silc.pictures.plan import STAGES as COUNTS_OF_STAGES, plan_of
from silc.pictures.tradeoff import draw_clock, draw_noise, draw_tradeoff
from silc.programs import PLACE, SILC, NoProgram, is_program

# The statuses of silc for a plan, and for a datapath that is none or has no place for a node.
PLANNED, REFUSED = 0, (5, 6, 7, 8, 9)
SECONDS_BETWEEN = 5
STOPPED = 130
FIRST = "first"
# The ending of the folder with better plans.
PLANS = "_plans"


class Unexplored(Exception):
    """Why there is no table."""


def say(text: object) -> None:
    print(f"explore: {text}", file=sys.stderr, flush=True)


def bytes_in(file: str) -> bytes:
    try:
        return Path(file).read_bytes()
    except OSError as fault:
        raise Unexplored(f"{file}: {fault.strerror}") from fault


def template_of(file: str, is_plain_allowed: bool = False) -> Template:
    try:
        return Template(bytes_in(file).decode(), is_plain_allowed)
    except UnicodeDecodeError as fault:
        raise Unexplored(f"{file}: it is no text") from fault
    except ValueError as fault:
        raise Unexplored(f"{file}: {fault}") from fault


def source_of(file: str, folders: Sequence[str]) -> PlainSource | LinkedTemplate:
    content = bytes_in(file)
    text = content.decode("latin-1")
    try:
        return LinkedTemplate(File(file, content), Library(folders)) if has_head(text) else PlainSource(text)
    except Unlinked as fault:
        raise Unexplored(fault) from fault


class Space:
    """All combinations of the ranges of a source and of a datapath, and of numbers of stages where there are some."""

    def __init__(self, source: PlainSource | LinkedTemplate, template: Template, judgement: Judgement | None,
                 stages: list[int]) -> None:
        self.source, self.template, self.judgement = source, template, judgement
        self.ranges = source.ranges | template.ranges
        if len(self.ranges) < len(source.ranges) + len(template.ranges):
            raise Unexplored("a range of the source and one of the datapath have one name")
        if STAGES in self.ranges:
            raise Unexplored(f"no range may be called {STAGES}")
        self.stages: list[Choice] = [{STAGES: count} for count in stages] or [{}]
        self.ranges |= {STAGES: stages} if stages else {}
        self.count = source.count * template.count * len(self.stages)
        self.noises: dict[str, tuple[float | None, int | None]] = {}
        self.words: dict[str, list[Range]] = {}
        self.command = runs.STAGES if stages else runs.SCHEDULE

    def choices(self) -> Iterator[Choice]:
        for own in self.source.choices():
            for choice in self.template.choices():
                for stages in self.stages:
                    yield own | choice | stages

    def name(self, name: str, choice: Choice) -> str:
        """The name of the files of a combination, as its command needs it."""
        return f"{name}.{choice[STAGES]}" if STAGES in self.ranges else name

    def own(self, choice: Choice) -> Choice:
        """The numbers of a combination that are of the source."""
        return {name: choice[name] for name in self.source.ranges}

    def datapath(self, choice: Choice) -> dict[str, Any]:
        return self.template.datapath({name: choice[name] for name in self.template.ranges})

    def files(self, choice: Choice) -> tuple[str, dict[str, Any]]:
        """The source and the datapath of a combination."""
        return self.source.source(self.own(choice)), self.datapath(choice)

    def said(self, choice: Choice, status: int, said: str) -> str:
        """What silc says of a combination, with the places of the user's files."""
        return self.source.said(self.own(choice), said) if status == BAD_SOURCE else said

    def inputs(self, choice: Choice) -> list[Range]:
        """The words of the inputs of a combination's source."""
        source, _ = self.files(choice)
        if source not in self.words:
            self.words[source] = inputs_of(source)
        return self.words[source]

    def made_from(self) -> str:
        digits = self.template.made_from(self.source.text.encode("latin-1"))
        return digits + self.judgement.digits() if self.judgement else digits

    def noise_of(self, room: Path, choice: Choice) -> tuple[float | None, int | None]:
        """The noise and the wraps of a combination's source, which are found once."""
        if not self.judgement:
            return None, None
        source, _ = self.files(choice)
        if source not in self.noises:
            try:
                noise, wraps = self.judgement.judge(room / runs.PROGRAM, room, source)
            except (ValueError, Unrun) as fault:
                raise Unexplored(str(fault)) from fault
            self.noises[source] = None if noise is None else round(noise, 2), wraps
        return self.noises[source]


class Progress:
    """How far a run is, on standard error."""

    def __init__(self, trades: list[Trade], count: int) -> None:
        self.trades, self.count, self.began, self.last = trades, count, time.monotonic(), time.monotonic()
        self.before = len(trades)

    def report(self) -> None:
        now = time.monotonic()
        if now - self.last >= SECONDS_BETWEEN:
            self.last = now
            rate = (len(self.trades) - self.before) / (now - self.began)
            fit = sum(trade.fits() for trade in self.trades)
            left = (self.count - len(self.trades)) / rate
            say(f"{len(self.trades)} of {self.count} combinations, {fit} fit, {rate:.0f} a second, {left:.0f} s left")


def answered(room: Path, names: list[str], options: Namespace, command: str) -> Iterator[runs.Answer]:
    if options.pool:
        return runs.by_pool(room, names, options.jobs, command)
    return runs.by_parallel(room, names, options.jobs, options.sshlogin, command)


def numbers_of(trade: Trade, space: Space) -> tuple[int | Fraction, ...]:
    """The number of each range, in the order of the space."""
    return tuple(trade.choice[name] for name in space.ranges)


def put_files(room: Path, name: str, source: str, datapath: dict[str, Any]) -> None:
    (room / name).write_text(text_of(datapath))
    (room / (name + runs.SOURCE)).write_text(source, encoding="latin-1")


def explore(room: Path, options: Namespace, space: Space, table: Table, trades: list[Trade]) -> None:
    """Adds the combinations to the table that are not in it yet."""
    done = {numbers_of(trade, space) for trade in trades}
    waiting = {}
    unlinked = []
    for number, choice in enumerate(space.choices()):
        if tuple(choice[name] for name in space.ranges) not in done:
            try:
                source, datapath = space.files(choice)
            except Unlinked as why:
                unlinked.append(trade_of(choice, space.datapath(choice), BAD_SOURCE, str(why)))
                continue
            name = space.name(str(number), choice)
            waiting[name] = choice, datapath
            put_files(room, name, source, datapath)
    trades += unlinked
    progress = Progress(trades, len(trades) + len(waiting))
    with open(table.file, "a") as rows:
        rows.writelines(map(table.line, unlinked))
        for name, status, said in answered(room, list(waiting), options, space.command) if waiting else []:
            judge(options, space, status, said)
            try:
                choice, datapath = waiting.pop(name)
                said = space.said(choice, status, said)
                trade = trade_of(choice, datapath, status, said, space.inputs(choice))
                trade.noise, trade.wraps = space.noise_of(room, trade.choice)
                trades.append(trade)
            except ValueError as fault:
                raise Unexplored(f"{options.source}: what silc prints is no plan: {fault}") from fault
            rows.write(table.line(trades[-1]))
            rows.flush()
            progress.report()
    if waiting:
        raise Unexplored(f"{len(waiting)} combinations have no answer; run it again to go on")


def judge(options: Namespace, space: Space, status: int, said: str) -> None:
    """Stops where silc's answer is not of the combination, but of the whole source or of silc itself."""
    is_of_choice = status in REFUSED or status == BAD_SOURCE and space.source.ranges
    if status != PLANNED and not is_of_choice:
        raise Unexplored(f"{options.source}: {said.strip() or f'silc ended with {status}'}")


def prepare(room: Path, options: Namespace, space: Space) -> str:
    """Makes the folder in which silc runs, and sees that silc takes the source. Gives the name of the files of its
    first combination."""
    silc = SILC.place()
    if not is_program(silc):
        raise Unexplored(f"there is no program {silc}; `./silc build` builds it")
    shutil.copy2(silc, room / runs.PROGRAM)
    choice = next(space.choices())
    name = space.name(FIRST, choice)
    try:
        put_files(room, name, *space.files(choice))
    except Unlinked:
        # That is of the combination, and a row will say so.
        return name
    judge(options, space, *runs.run(room, name, space.command))
    return name


def area_in(status: int, said: str) -> Area | None:
    """What a core takes, by what tools/synthesize says, or nothing where it says none."""
    line = next((line for line in said.splitlines() if line.startswith("{")), None)
    if status in (0, SHORT) and line:
        numbers = json.loads(line)
        clock, needed = numbers.pop(CLOCK, None), numbers.pop(NEEDED, None)
        return Area(numbers, clock, needed)
    misfit = next((line for line in said.splitlines() if MISFIT in line), None)
    return Area({}, misfit=MISFIT + misfit.partition(MISFIT)[2]) if status and misfit else None


def add_areas(room: Path, options: Namespace, space: Space, front: list[Trade]) -> None:
    """Finds what the core of each trade on the front takes."""
    waiting = {f"front{place}": trade for place, trade in enumerate(front)}
    for name, trade in waiting.items():
        put_files(room, name, *space.files(trade.choice))
    command, names = runs.area(options.area, options.dsp, options.clock), list(waiting)
    answers = runs.by_pool(room, names, options.jobs, command) if options.pool else \
        runs.by_parallel(room, names, options.jobs, None, command)
    for done, (name, status, said) in enumerate(answers, 1):
        area = waiting[name].area = area_in(status, said)
        if not area:
            raise Unexplored(f"--area {options.area}: {said.strip()}")
        say(f"{done} of {len(waiting)} cores are synthesized"
            + (f"; row {front.index(waiting[name]) + 1}: {area.misfit}" if area.misfit else ""))


def fitting(room: Path, space: Space, trade: Trade) -> tuple[str, dict[str, Any]]:
    """The source and the datapath of a row, with files that fit its plan."""
    source, datapath = space.files(trade.choice)
    name = space.name(FIRST, trade.choice)
    put_files(room, name, source, datapath)
    plan = plan_of(runs.run(room, name, space.command)[1], datapath)
    return source, fitted(datapath, registers_by_file(plan))


def add_plans(room: Path, options: Namespace, space: Space, front: list[Trade]) -> dict[str, str | bytes]:
    """Searches for a better plan of each trade on the front. What is made of them, by the names of the files."""
    made: dict[str, str | bytes] = {}
    for number, trade in enumerate(front, 1):
        source, datapath = fitting(room, space, trade)
        try:
            planned = Planned(SILC.place(), PLACE.found(), source.encode("latin-1"), datapath,
                              space.inputs(trade.choice), options.best_plans)
        except (NotPlanned, NoProgram) as why:
            raise Unexplored(f"--best-plans, row {number}: {why}") from why
        trade.planned, trade.is_least = planned.period, planned.is_least
        made |= planned.files(str(number))
        say(f"{number} of {len(front)} rows are searched; row {number}: period {planned.period}, {trade.period} before")
    return made


def area_columns(front: list[Trade], has_clock: bool) -> list[str]:
    """The columns of what cores take; with a clock, those of it and of the mark."""
    kinds = dict.fromkeys(kind for trade in front if trade.area for kind in trade.area.cells)
    return [*kinds, *((CLOCK, NEEDED, MARK) if has_clock else ())]


def rows_of(front: list[Trade], ranges: Iterable[str], has_clock: bool) -> list[list[Any]]:
    """The rows of the front with their numbers, and with what their cores take, where that is known."""
    names = [name for name in ranges if name not in COSTS]
    costs = [*COSTS, *(["noise"] if any(trade.noise is not None for trade in front) else [])]
    rows: list[list[Any]] = [["row", *costs, *names]]
    for number, trade in enumerate(front, 1):
        rows.append([number, *trade.costs(), *(trade.choice[name] for name in names)])
    columns = area_columns(front, has_clock)
    areas: list[list[Any]] = [columns]
    areas += [[trade.area.cell(column) if trade.area else "" for column in columns] for trade in front]
    if any(trade.planned is not None for trade in front):
        areas[0] = [*columns, PLANNED_PERIOD, LEAST]
        areas[1:] = [[*area, trade.planned, "yes" if trade.is_least else "open"]
                     for area, trade in zip(areas[1:], front)]
    return [row + area for row, area in zip(rows, areas)]


def show(rows: list[list[Any]]) -> None:
    """Rows in columns."""
    widths = [max(len(str(row[column])) for row in rows) for column in range(len(rows[0]))]
    for row in rows:
        print("  ".join(str(cell).rjust(width) for cell, width in zip(row, widths)))


class Outputs:
    """The files of a run. The table is judged by what it says, since a run that was stopped leaves it as it is."""

    def __init__(self, options: Namespace, name: str, blocks: Sequence[str]) -> None:
        inputs = [options.source, options.template, options.samples, options.against, *blocks]
        self.name, self.files, self.tables = name, MadeFiles(inputs, options.force), MadeFiles(inputs, True)
        made = {".svg": True, "_noise.svg": options.samples, "_clock.svg": options.clock, ".area.csv": options.area,
                ".toml": options.best}
        try:
            self.tables.look_at(f"{name}.csv")
            for ending, is_made in made.items():
                if is_made:
                    self.files.look_at(name + ending)
        except NotMade as why:
            raise Unexplored(f"{why}; --out names others") from why

    def put_folder(self, made: dict[str, str | bytes]) -> None:
        try:
            self.files.write_folder(self.name + PLANS, made)
        except NotMade as why:
            raise Unexplored(str(why)) from why

    def put(self, ending: str, text: str) -> None:
        try:
            (self.tables if ending == ".csv" else self.files).write(self.name + ending, text)
        except NotMade as why:
            raise Unexplored(str(why)) from why


def table_of(outputs: Outputs, space: Space) -> tuple[Table, list[Trade]]:
    """The table, and the combinations that it has already."""
    name = outputs.name
    try:
        table = Table(f"{name}.csv", space.ranges, space.made_from(), space.judgement is not None)
    except ValueError as fault:
        raise Unexplored(f"{name}.csv: {fault}") from fault
    try:
        trades = table.read()
    except ValueError as fault:
        if not outputs.files.is_forced:
            raise Unexplored(f"{name}.csv: {fault}") from fault
        trades = []
    outputs.put(".csv", table.text(trades))
    say(f"{space.count} combinations, and {name}.csv has {len(trades)} rows")
    return table, trades


def tell(room: Path, first: str, space: Space, trades: list[Trade]) -> None:
    """Says why combinations are refused, what they lack where there is one source, and the least period that fits."""
    if not space.source.ranges:
        for line in Reasons(room / runs.PROGRAM, room / (first + runs.SOURCE), space.template).lines(trades):
            say(line)
    periods: dict[int, list[int]] = {}
    for trade in trades:
        if trade.fits():
            periods.setdefault(trade.stages(), []).append(trade.period)
    for stages, fit in sorted(periods.items()):
        over = f" over {stages} stage{'s' if stages > 1 else ''}" if stages else ""
        say(f"the least period that fits{over} is {min(fit)}")
    if not periods:
        say("none fits")


def write_best(room: Path, options: Namespace, outputs: Outputs, space: Space, front: list[Trade]) -> None:
    """Writes the datapath file of the row of the front that is picked, with files that fit its plan."""
    if options.best > len(front):
        raise Unexplored(f"there is no row {options.best} on the front, which has {len(front)}")
    trade = front[options.best - 1]
    _, datapath = fitting(room, space, trade)
    outputs.put(".toml", text_of(datapath))
    costs = dict(zip(COSTS, trade.costs())) | {name: trade.choice[name] for name in (STAGES,) if name in trade.choice}
    say(f"{outputs.name}.toml has the datapath of row {options.best}: "
        + ", ".join(f"{cost} {value}" for cost, value in costs.items()))


def make(options: argparse.Namespace) -> int:
    """Makes the table and the picture. Gives the exit status."""
    source = source_of(options.source, options.library)
    judgement = Judgement(options.samples, options.against) if options.samples else None
    template = template_of(options.template, bool(source.ranges or options.stages))
    space = Space(source, template, judgement, options.stages)
    name = options.out or Path(options.template).stem
    outputs = Outputs(options, name, [block.file.name for block in source.blocks])
    with tempfile.TemporaryDirectory(prefix="silc-explore-") as folder:
        first = prepare(Path(folder), options, space)
        table, trades = table_of(outputs, space)
        explore(Path(folder), options, space, table, trades)
        trades.sort(key=lambda trade: numbers_of(trade, space))
        tell(Path(folder), first, space, trades)
        front = mark_front(trades)
        outputs.put(".csv", table.text(trades))
        if options.area:
            add_areas(Path(folder), options, space, front)
        if options.best_plans and front:
            outputs.put_folder(add_plans(Path(folder), options, space, front))
        outputs.put(".svg", draw_tradeoff(trades) + "\n")
        if judgement:
            outputs.put("_noise.svg", draw_noise(trades) + "\n")
        if options.clock:
            outputs.put("_clock.svg", draw_clock(front, options.clock) + "\n")
        rows = rows_of(front, space.ranges, bool(options.clock))
        if options.area:
            outputs.put(".area.csv", "".join(",".join(map(str, row)) + "\n" for row in rows))
        if options.json:
            print(json.dumps(Exploration(trades, front).as_json()))
        else:
            show(rows)
        say(f"{sum(trade.fits() for trade in trades)} of {len(trades)} fit, {len(front)} on the front: {name}.csv, "
            f"{name}.svg")
        if options.best and front:
            write_best(Path(folder), options, outputs, space, front)
    return 0 if front else 1


def stages_of(word: str) -> list[int]:
    """The numbers of stages of a range, as 1..4 or 2 or 1,3."""
    try:
        counts: list[int] = numbers_in(word) if re.fullmatch(ITEMS, word) else []
    except ValueError:
        counts = []
    if not counts or any(count not in COUNTS_OF_STAGES for count in counts):
        least, most = COUNTS_OF_STAGES[0], COUNTS_OF_STAGES[-1]
        raise argparse.ArgumentTypeError(f"{word} is no range of stages, which are {least} to {most}, "
                                         f"as {least}..{most}")
    return counts


def options_of(words: list[str]) -> argparse.Namespace:
    parser = argparse.ArgumentParser(prog="explore", usage=__doc__.partition("usage: ")[2].partition("\n\n")[0],
                                     description=__doc__, formatter_class=argparse.RawDescriptionHelpFormatter)
    parser.add_argument("source", metavar="SRC")
    parser.add_argument("template", metavar="TEMPLATE")
    parser.add_argument("--out", metavar="NAME")
    add_force(parser)
    parser.add_argument("--best", metavar="ROW", type=positive)
    parser.add_argument("--jobs", metavar="N", type=positive)
    parser.add_argument("--sshlogin", metavar="LOGIN", action="append")
    parser.add_argument("--pool", action="store_true")
    parser.add_argument("--json", action="store_true")
    parser.add_argument("--area", choices=("ice40", "xilinx", "ecp5"))
    parser.add_argument("--dsp", action="store_true")
    parser.add_argument("--clock", metavar="RATE", type=rate_word)
    parser.add_argument("--best-plans", metavar="N", type=positive)
    parser.add_argument("--stages", metavar="RANGE", type=stages_of, default=[])
    parser.add_argument("--samples", metavar="S")
    parser.add_argument("--against", metavar="R")
    parser.add_argument("--library", metavar="FOLDER", action="append", default=[])
    options = parser.parse_args(words)
    if bool(options.samples) != bool(options.against):
        parser.error("--samples and --against go together")
    if options.area and options.stages:
        parser.error("--area is of microcode, and plans over stages have none")
    if options.best_plans and options.stages:
        parser.error("--best-plans is of microcode, and plans over stages have none")
    if options.best_plans and options.area:
        parser.error("--area is of the plans of the rules, and does not go with --best-plans")
    if options.dsp and options.area != "ice40":
        parser.error("--dsp is for --area" + (" ice40; the others have multipliers always" if options.area else ""))
    if options.clock and options.area != "ice40":
        parser.error("--clock is for --area ice40")
    return options


def main(words: list[str]) -> int:
    options = options_of(words)
    try:
        if options.area and not shutil.which("yosys"):
            raise Unexplored("there is no yosys; apt-get install yosys")
        if options.clock and not shutil.which("nextpnr-ice40"):
            raise Unexplored("there is no nextpnr-ice40; apt-get install nextpnr-ice40")
        if options.best_plans:
            PLACE.found()
        if not options.pool and not runs.is_there():
            if options.sshlogin:
                raise Unexplored("other machines need GNU parallel (apt-get install parallel)")
            say("there is no GNU parallel (apt-get install parallel), so threads of this script run silc")
            options.pool = True
        return make(options)
    except (Unexplored, NoProgram) as why:
        say(why)
        return 1
    except OSError as fault:
        say(f"{fault.filename}: {fault.strerror}")
        return 1
    except KeyboardInterrupt:
        say("stopped; the same words go on from here")
        return STOPPED
