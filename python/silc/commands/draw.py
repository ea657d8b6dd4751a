"""Draws pictures of hardware, of plans and of filters as SVG, on standard output.

usage: tools/draw [--out SVG [--force]] SUBJECT ..
       tools/draw datapath [--library FOLDER] FILE [SRC]
                                              the units, register files and buses of a datapath file; with a source,
                                              how many bits each file has in its core, and for which operand
       tools/draw schedule [--library FOLDER] TEXT [DATAPATH [SRC]]
                                              units and buses over the cycles, of a text of `silc schedule`; with
                                              the source, the element of each node, and a table of their lines. The
                                              stages of a text of `silc stages` are folded into one period, in colours
       tools/draw beside TEXT OTHER [DATAPATH]
                                              two such texts side by side, as before and after tools/plan
       tools/draw unfolded TEXT [DATAPATH]    three samples of such a text, each a period later than the one before
       tools/draw lifetimes TEXT [DATAPATH]   registers over the cycles of all samples until the microprogram begins
                                              anew, of such a text, with the write and each read of a word
       tools/draw response [--rate HZ] [--frequencies LOW,HIGH] [--db LOW,HIGH] ROWS UNIT [B;A ..]
                                              magnitude over frequency, of a filter's rows on an impulse
       tools/draw words [--range LOW,HIGH] ROWS NAMES ..
                                              words over the samples: for each file of rows the names of its words, with
                                              commas between them
       tools/draw tradeoff TABLE              bits of registers over the period, of a table of `tools/explore`
       tools/draw crates FILE                 the crates of a crates.txt, and what stands on what
       tools/draw net [--folder FOLDER] NET   the processors of a net file, their words and the queues between them
       tools/draw docs                        makes the pictures in docs/pictures anew
       tools/draw --check                     whether those are as this program draws them

TEXT and ROWS may be `-`, the standard input. Without a datapath file, each operation is drawn with a latency of 1. With
a source it runs the `silc_show` that is built, or the one that `SILC_SHOW` names; where there is none it draws the
rest, and says so. A source that begins with `use` or `let` is linked first, as tools/link does it, with blocks of each
FOLDER before those of library/, and its lines are those of its own file or of a block's. Of ROWS the first word of each
row is taken, and UNIT is the word that stands for a gain of 1 there. Each B;A is a section of the filter's design by
its coefficients, `b0,b1,..;a1,a2,..` without the a0, which is 1. Frequencies are shares of the sample rate, or in hertz
where HZ is given, the samples a second.

Files that a net file names are taken from the folder in which the tool runs, as `silc` takes them, or from FOLDER.

Axes have what there is to show: frequencies from where the curves begin to leave their level at 0, decibels from the
least to the greatest, but no more than 100 below it, and words from the least to the greatest of a column, or of all
columns that are no more than three bits smaller than the greatest of them. --frequencies, --db and --range name the
ends of an axis (--range that of all columns), and what is beyond them is cut off.

With --out the picture goes into a file, which is there once it is whole; a file that no tool made is written over with
--force alone.
"""
import subprocess
import sys
import tomllib
from collections.abc import Callable, Iterator, Sequence
from pathlib import Path
from typing import Any, TypeAlias

from silc.explaining.hardware import Node as NodeOfSource, nodes_of
from silc.exploring.trades import trades_of
from silc.hardware.costs import planned, widths_of
from silc.hardware.netlist import NoCore
from silc.linking.places import Unlinked
from silc.linking.words import given, source_in
from silc.made_files import MadeFiles
from silc.nets import Net
from silc.pictures.axes import range_of
from silc.pictures.beside import beside
from silc.pictures.crates import draw_crates
from silc.pictures.datapath import draw_datapath
from silc.pictures.lifetimes import draw_lifetimes
from silc.pictures.net import draw_net
from silc.pictures.plan import plan_of
from silc.pictures.response import draw_response, rate_of
from silc.pictures.schedule import draw_schedule, draw_unfolded
from silc.pictures.tradeoff import draw_tradeoff
from silc.pictures.words import columns_of, draw_words
from silc.programs import SHOW, TOP, NoProgram

# A word of a command line, or a file in its place.
Argument: TypeAlias = str | Path

ROOT = Path(TOP)
# The pictures of the docs, each with the words that draw it.
HERE = ROOT / "docs" / "pictures"
EXAMPLES = ROOT / "examples"
PLAIN = EXAMPLES / "increment" / "plain.toml"
# The examples whose schedule is drawn, by the datapath file that comes first.
SCHEDULED = ["adpcm", "aweight", "biquads", "clipper", "decimate", "decimator", "dtmf", "echo", "envelope", "equaliser",
             "goertzel", "halfband", "interpolator", "lowpass16", "mulaw", "overflow", "reverb"]
# The examples that are nets.
NETS = ["bands", "telephone"]
# The worked plans of docs/PLANNING.md with held delays, over PLAIN with a hold.
HELD = ["accumulator", "held_difference", "held_three"]
# The plans of samples that overlap, over datapaths of another period than the plan.
STAGED = {"increment": PLAIN, "reverb": EXAMPLES / "reverb" / "one_multiplier.toml"}
PICTURES: dict[str, list[Argument]] = {
    "crates.svg": ["crates", ROOT / "crates.txt"],
    "plain.svg": ["datapath", PLAIN],
    "filter.svg": ["datapath", HERE / "filter.toml"],
    "one_multiplier.svg": ["datapath", EXAMPLES / "biquads" / "one_multiplier.toml"],
    "increment.svg": ["schedule", HERE / "increment.schedule", PLAIN],
    "biquad.svg": ["schedule", HERE / "biquad.schedule", HERE / "biquad.toml"],
    **{f"{name}_lifetimes.svg": ["lifetimes", HERE / f"{name}.schedule", PLAIN] for name in HELD},
    "biquad_lifetimes.svg": ["lifetimes", HERE / "biquad.schedule", HERE / "biquad.toml"],
    **{f"{name}_stages.svg": ["schedule", HERE / f"{name}_stages.schedule", datapath]
       for name, datapath in STAGED.items()},
    **{f"{name}_unfolded.svg": ["unfolded", HERE / f"{name}_stages.schedule", datapath]
       for name, datapath in STAGED.items()},
    # The example's rows on the impulse 32767; the design is that of its page, before coefficients are rounded.
    "biquads_response.svg": ["response", HERE / "biquads.rows", "16383.5",
                             "0.087015,0.174029,0.087015;-0.840287,0.188345",
                             "0.097631,0.195262,0.097631;-0.942809,0.333333",
                             "0.123791,0.247582,0.123791;-1.195434,0.690599"],
    # The other examples' rows on an impulse, of the interpolator both outputs in turn; the designs are those of their
    # pages.
    "equaliser_response.svg": ["response", HERE / "equaliser.rows", "134217728",
                               "1.00654441,-1.98667865,0.98030446;-1.98667865,0.986848871",
                               "0.979542679,-1.87297123,0.90959035;-1.87297123,0.88913303",
                               "1.11016488,-0.732957931,0.355750982;-0.732957931,0.465915862"],
    "aweight_response.svg": ["response", HERE / "aweight.rows", "2097088",
                             "1,-1;-0.997307228",
                             "1,-1;-0.997307228",
                             "1,-1;-0.986006894",
                             "1,-1;-0.9078636",
                             "0.443860385,0.443860385;-0.112279229",
                             "0.527605189,0.527605189;-0.112279229"],
    "halfband_response.svg": ["response", HERE / "halfband.rows", "4194176"],
    # The rows on an impulse of the examples that run over frames: those of the source at the fast rate, and those of
    # frames.
    **{f"{name}_{at}_response.svg": ["response", "--rate", rate, HERE / f"{name}_{at}.rows", unit]
       for name, at, rate, unit in (("decimator", "fast", "32000", "30000"), ("decimator", "slow", "8000", "7500"),
                                    ("interpolator", "fast", "192000", "131068"),
                                    ("interpolator", "slow", "48000", "32767"),
                                    ("clipper", "fast", "192000", "12288"), ("clipper", "slow", "48000", "3072"))},
    # What goes into the example, and what comes out where words wrap and where they saturate.
    "overflow_words.svg": ["words", EXAMPLES / "overflow" / "samples.txt", "the input",
                           EXAMPLES / "overflow" / "expected.txt", "words that wrap,words that saturate"],
    **{f"{name}_processors.svg": ["tradeoff", HERE / f"{name}_processors.csv"] for name in ("biquads", "lowpass16")},
    **{f"{name}.svg": ["schedule", HERE / f"{name}.schedule", min((EXAMPLES / name).glob("*.toml"))]
       for name in SCHEDULED},
    **{f"{name}_net.svg": ["net", "--folder", EXAMPLES / name, EXAMPLES / name / "net.toml"] for name in NETS},
}


def text_of(file: Argument) -> str:
    return sys.stdin.read() if file == "-" else Path(file).read_text()


def datapath_of(file: Argument) -> dict[str, Any]:
    return tomllib.loads(Path(file).read_text())


def drawn_plan(draw: Callable[..., str]) -> Callable[..., str]:
    """What draws a text of a schedule, with or without the datapath file."""
    def drawn(text: Argument, file: Argument | None = None) -> str:
        datapath = datapath_of(file) if file else None
        return draw(plan_of(text_of(text), datapath), datapath)
    return drawn


def say(text: object) -> None:
    print(f"draw: {text}", file=sys.stderr, flush=True)


def origins_of(source: Argument, datapath: Argument, folders: Sequence[str]) -> dict[int, NodeOfSource] | None:
    """Where the nodes of a source that are planned for a datapath come from, by their numbers. Nothing where the
    program is not there that knows it."""
    show = SHOW.place()
    with given(["schedule", str(source), str(datapath)], folders) as command:
        try:
            done = subprocess.run([show, "origins", *command.placed[1:]], stdin=subprocess.DEVNULL, capture_output=True,
                                  text=True)
        except OSError:
            say(f"the elements and their lines are left out: there is no program {show}; `tools/build silc_show` "
                f"builds it")
            return None
    nodes = nodes_of(done.stdout)
    if not nodes:
        raise ValueError(f"{source}: {(done.stdout or done.stderr).strip()}")
    return {node.number: command.told.node(node) if command.told else node for node in nodes}


def drawn_schedule(text: Argument, file: Argument | None = None, source: Argument | None = None,
                   library: Sequence[str] = ()) -> str:
    """A text of a schedule, with or without the datapath file and the source."""
    datapath = datapath_of(file) if file else None
    plan = plan_of(text_of(text), datapath)
    origins = origins_of(source, file, library) if source and file else None
    if origins is not None and [node.op for node in plan.nodes] != [node.op for node in origins.values()]:
        raise ValueError(f"{source} has another plan")
    return draw_schedule(plan, datapath, origins)


def drawn_datapath(file: Argument, source: Argument | None = None, library: Sequence[str] = ()) -> str:
    """A datapath file, with or without the source that is planned for it."""
    try:
        widths = widths_of(planned(str(source), str(file), library)) if source else None
    except (NoCore, NoProgram) as why:
        raise ValueError(str(why)) from why
    return draw_datapath(datapath_of(file), widths)


def drawn_beside(text: Argument, other: Argument, file: Argument | None = None) -> str:
    """Two texts of schedules, side by side."""
    return beside(drawn_schedule(text, file), drawn_schedule(other, file))


def ends_of(words: str | None) -> tuple[float, float] | None:
    return range_of(words, "range") if words else None


def drawn_response(*words: str, rate: str | None = None, frequencies: str | None = None, db: str | None = None) -> str:
    if len(words) < 2:
        raise ValueError("a response has ROWS and a UNIT")
    rows, unit, *sections = words
    return draw_response(text_of(rows), unit, *sections, rate=rate_of(rate) if rate else None, db=ends_of(db),
                         frequencies=ends_of(frequencies))


def drawn_words(*words: str, range: str | None = None) -> str:
    if len(words) % 2 or not words:
        raise ValueError("each file of rows has the names of its words")
    files = zip(words[::2], words[1::2])
    columns = [column for rows, names in files for column in columns_of(text_of(rows), names.split(","))]
    return draw_words(*columns, range=ends_of(range))


def drawn_net(file: str, folder: str = "") -> str:
    return draw_net(Net(file, folder=folder))


# The option that may be given several times.
LIBRARY = "library"
MOST_WORDS = 100
# What draws, with the least and the most words that it takes, and its options.
SUBJECTS: dict[str, tuple[Callable[..., str], int, int, tuple[str, ...]]] = {
    "datapath": (drawn_datapath, 1, 2, (LIBRARY,)),
    "schedule": (drawn_schedule, 1, 3, (LIBRARY,)),
    "beside": (drawn_beside, 2, 3, ()),
    "unfolded": (drawn_plan(draw_unfolded), 1, 2, ()),
    "lifetimes": (drawn_plan(draw_lifetimes), 1, 2, ()),
    "tradeoff": (lambda table: draw_tradeoff(trades_of(text_of(table))), 1, 1, ()),
    "crates": (lambda file: draw_crates(text_of(file)), 1, 1, ()),
    "net": (drawn_net, 1, 1, ("folder",)),
    "response": (drawn_response, 2, MOST_WORDS, ("rate", "frequencies", "db")),
    "words": (drawn_words, 2, MOST_WORDS, ("range",)),
}


def options_in(words: Sequence[Argument], names: Sequence[str],
               flags: Sequence[str] = ()) -> tuple[dict[str, Any], list[str]]:
    """The options in front of words, as `--db -12,6` and `--db=-12,6` have them, and the words behind them."""
    options: dict[str, Any] = {}
    left = list(map(str, words))
    while left and left[0].startswith("--"):
        name, equals, value = left.pop(0)[2:].partition("=")
        if name in flags and not equals:
            options[name] = True
        elif name not in names or not equals and not left:
            raise ValueError(f"--{name} has no value" if name in names else f"there is no --{name} here")
        else:
            value = value if equals else left.pop(0)
            options[name] = [*options.get(name, ()), value] if name == LIBRARY else value
    return options, left


def drawn(words: Sequence[Argument]) -> str | None:
    """What is drawn, or nothing where the words are too few or too many."""
    draw, least, most, names = SUBJECTS[str(words[0])]
    options, left = options_in(words[1:], names)
    return draw(*left, **options) + "\n" if least < len(words) and len(left) <= most else None


def blocks_of(files: Sequence[str], folders: Sequence[str]) -> list[str]:
    """The files of the blocks that the source of a schedule uses, where there is one."""
    told = source_in(["schedule", files[2], files[1]], folders) if len(files) == 3 else None
    return [block.file.name for block in told.linked.blocks] if told else []


def docs() -> Iterator[tuple[Path, str]]:
    """The pictures of the docs, each with its file."""
    for name, words in PICTURES.items():
        yield HERE / name, drawn(words) or ""


def make_docs() -> None:
    """Makes the pictures of the docs. Here they are replaced in any case: they are asked for by no other name."""
    files = MadeFiles(is_forced=True)
    for file, picture in docs():
        files.write(file, picture)


def old_docs() -> list[str]:
    """The names of the pictures that are not as they would be drawn."""
    return [file.name for file, picture in docs() if not file.exists() or file.read_text() != picture]


def inputs_of(words: Sequence[str]) -> list[str]:
    """The files that a picture is drawn of: those that words name, the ones of a net's processors, and the blocks of a
    source that is linked."""
    subject, *named = words
    options, files = options_in(named, SUBJECTS[subject][3])
    if subject == "net":
        return [*files, *(file for net in files for file in Net(net, **options).files())]
    return [*named, *blocks_of(files, options.get(LIBRARY, ()))] if subject == "schedule" else named


def put(words: Sequence[str]) -> int:
    """Draws what is asked for. Gives the exit status."""
    options, words = options_in(words, ("out",), ("force",))
    if "force" in options and "out" not in options:
        raise ValueError("--force is for a file that --out names")
    is_known = bool(words) and words[0] in SUBJECTS
    out, files = options.get("out"), MadeFiles(inputs_of(words) if is_known else words[1:], "force" in options)
    files.look_at(out)
    picture = drawn(words) if is_known else None
    if picture is None:
        print(__doc__, file=sys.stderr)
        return 2
    if out is None:
        sys.stdout.write(picture)
    else:
        files.write(out, picture)
    return 0


def main(words: list[str]) -> int:
    if words in (["--help"], ["-h"]):
        print(__doc__)
        return 0
    try:
        if words == ["docs"]:
            make_docs()
        elif words == ["--check"]:
            old = old_docs()
            for name in old:
                print(f"docs/pictures/{name} is not as its source has it; run tools/draw docs")
            return 1 if old else 0
        else:
            return put(words)
    except (OSError, ValueError, Unlinked) as fault:
        print(f"draw: {' '.join(words)}: {fault}", file=sys.stderr)
        return 1
    except (KeyError, IndexError) as fault:
        print(f"draw: {' '.join(words)}: {fault!r}", file=sys.stderr)
        return 1
    return 0
