"""Makes a core in Verilog that runs a microcode file: the processor of its image with its program. Of a net file it
makes a core a processor, joined by queues.

usage: tools/verilog MIC FOLDER [--datapath DP] [--name NAME] [--full [I,O] | --large] [--force]
       tools/verilog --stages S SRC DP FOLDER [--name NAME] [--force]
       tools/verilog NET FOLDER [--name NAME] [--force]

FOLDER gets NAME.v, the parts that it needs, the microprogram and first words as NAME_*.hex, NAME.map with the meaning
of each bit, and NAME_tb.v, a bench that puts rows of samples in and compares those that come out. Without --name, NAME
is that of MIC without its ending. --datapath gives the names of units and buses. The core is made for this program
alone, or with
--full for any program over the datapath with as many input and output words, or with I and O of them: another program
is another .hex then. docs/HARDWARE.md describes the core.

With --large each memory of 16,384 bits or more is one for which an iCE40 UP5K has four large memories: with one port,
and filled by a reset. Where no memory can be one it is refused, with the reason.

With --stages the core runs the plan of a source over S stages of a datapath, with S samples in flight: its rows are
those of `silc pipe`. The name is that of SRC then, and the guarded words come from the `silc_show` that is built, or
the one that `SILC_SHOW` names.

NET is a file that ends in .toml (docs/NETS.md). `silc` compiles its programs over their datapaths; where it does not
lie in the checkout, `SILC` names it. FOLDER gets the files of each core, which is called NAME_K, but for their benches;
NAME.v, the module that joins them; NAME.map, and the bench NAME_tb.v of the whole.

Each file is there whole or not at all. Where one of these names is a file that no tool made, none is written but with
--force.
"""
import argparse
import re
from pathlib import Path

from silc.commands import ended
from silc.hardware.core_files import files_of
from silc.hardware.datapath import Names, names_of_file, numbered
from silc.hardware.hazards import lasting_hazard
from silc.hardware.large import make_large
from silc.hardware.net_files import net_texts
from silc.hardware.netlist import Core, NoCore, core_for_datapath, core_for_image
from silc.made_files import MadeFiles, NotMade, add_force
from silc.micro_file import BadImage
from silc.micro_file.guarded import Guarded, guarded_of
from silc.micro_file.image import Image
from silc.microcode import check_counts, check_name, checked_image
from silc.nets import Net, NetFault, is_net
from silc.pictures.plan import STAGES
from silc.programs import SHOW, NoProgram
from silc.refused import Refused
from silc.running import ran

SAME = "same"
# What `silc_show` answers first where there is no plan.
FAULT = "fault "


def checked_in(file: str) -> Image:
    """The image of a file that runs without a conflict."""
    try:
        return checked_image(Path(file).read_bytes())
    except (BadImage, NoCore) as why:
        raise NoCore(f"{file}: {why}") from why


def names_in(file: str | None, image: Image) -> Names:
    return numbered(image) if file is None else names_of_file(file, image)


def guarded_in(source: str, datapath: str, stages: int) -> Guarded:
    """The guarded image of a source over so many stages of a datapath, which has no conflict."""
    answer = ran(SHOW.found(), ["guarded", Path(source).read_bytes(), Path(datapath).read_bytes(), str(stages)])
    text = answer.out.decode()
    if answer.status or text.startswith(FAULT):
        raise NoCore(f"{source}: {answer.said.strip() or text.strip().removeprefix(FAULT)}")
    guarded = guarded_of(text)
    hazard = lasting_hazard(guarded.image)
    if hazard:
        raise NoCore("conflict at cycle {}: {} {}".format(*hazard))
    return guarded


def name_for(options: argparse.Namespace) -> str:
    name: str = options.name or Path(options.microcode).stem
    try:
        check_name(name)
    except NoCore as why:
        raise NoCore(f"{why}; give one by --name") from why
    return name


def counts_of(text: str, image: Image) -> tuple[int, int]:
    """The number of input and of output words of a full core."""
    if text == SAME:
        return len(image.inputs), image.outputs
    found = re.fullmatch(r"(\d{1,2}),(\d{1,2})", text)
    try:
        counts = (int(found[1]), int(found[2])) if found else (0, 0)
        check_counts(counts, image)
    except NoCore as why:
        raise NoCore(f"--full {text}: {why}") from why
    return counts


def staged_core(options: argparse.Namespace) -> tuple[Image, Core]:
    """The guarded image of the inputs, and its core."""
    name, (source, datapath) = name_for(options), options.inputs
    guarded = guarded_in(source, datapath, options.stages)
    return core_for_image(guarded.image, name, names_in(datapath, guarded.image), guarded.stages)


def core_of(options: argparse.Namespace) -> tuple[Image, Core]:
    """The image and its core."""
    if options.stages:
        return staged_core(options)
    name, image = name_for(options), checked_in(options.microcode)
    names = names_in(options.datapath, image)
    if options.full is None:
        image, core = core_for_image(image, name, names)
        if options.large:
            make_large(image, core)
        return image, core
    if names.ends is None:
        raise NoCore("--full needs --datapath")
    return image, core_for_datapath(image, name, names, *counts_of(options.full, image))


def options_of(words: list[str]) -> argparse.Namespace:
    parser = argparse.ArgumentParser(prog="verilog", usage=__doc__.partition("usage: ")[2].partition("\n\n")[0],
                                     description=__doc__, formatter_class=argparse.RawDescriptionHelpFormatter)
    parser.add_argument("inputs", metavar="MIC|NET", nargs="+")
    parser.add_argument("--datapath", metavar="DP")
    parser.add_argument("--stages", metavar="S", type=int, choices=STAGES)
    parser.add_argument("--name", metavar="NAME")
    parser.add_argument("--full", metavar="I,O", nargs="?", const=SAME)
    parser.add_argument("--large", action="store_true")
    add_force(parser)
    options = parser.parse_intermixed_args(words)
    *options.inputs, options.folder = options.inputs
    check_inputs(parser, options, "FOLDER")
    return options


def check_inputs(parser: argparse.ArgumentParser, options: argparse.Namespace, last: str) -> None:
    """Refuses inputs, and options for them, that do not go together; `last` is the word that stands behind them."""
    if len(options.inputs) != (2 if options.stages else 1):
        parser.error(f"--stages is with SRC DP {last}" if options.stages else f"there are MIC and {last}")
    if options.stages and (options.datapath or options.full):
        parser.error("--stages has its datapath and its program")
    options.microcode = options.inputs[0]
    if getattr(options, "large", False) and (options.stages or options.full or is_net(options.microcode)):
        parser.error("--large is for a core of microcode, for its program alone")
    # --full is true alone, or a text.
    if is_net(options.microcode) and (options.datapath is not None or options.full not in (None, False)):
        parser.error(
            "--datapath and --full are for microcode: a net file names the datapaths, and its cores have one program")


def make_net(options: argparse.Namespace) -> None:
    name = name_for(options)
    net = Net(options.microcode)
    files = MadeFiles(inputs=[options.microcode, *net.files()], is_forced=options.force)
    files.write_folder(options.folder, net_texts(net, name))


def make(options: argparse.Namespace) -> None:
    if is_net(options.microcode):
        make_net(options)
        return
    files = MadeFiles(inputs=[*options.inputs, options.datapath], is_forced=options.force)
    files.write_folder(options.folder, files_of(*core_of(options)))


def main(words: list[str]) -> int:
    options = options_of(words)
    return ended("verilog", lambda: make(options), NoCore, NotMade, NetFault, NoProgram, Refused)
