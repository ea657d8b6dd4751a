"""Says what a plan costs in hardware, in the words of its source: how wide each port is and for which operand, which
words wait long before they are read, and how large the memories are.

usage: tools/cost [--library FOLDER] [--json] SRC DP

Of each port of a unit it prints the bits and the registers of its file in the core that tools/verilog makes, and the
operand that takes so many bits: a file is as wide as the widest word that comes into it. Where all other words are
narrower it says how many bits they have; `tools/check --warn` says which products have factors to exchange.

Then, for each file with words that wait a quarter of a sample or more before anything reads them, how many they are,
and which one waits longest. Each takes a register as long as it waits. Words that a hold keeps from one sample to the
next are not counted: these have to wait.

Then the memories: the microprogram, register files of more than four words and the cells of each ram, with those whose
first words stand in a second memory too. `tools/synthesize --part` says whether they fit.

With --json all comes as one line. It writes no file. A source that begins with `use` or `let` is linked first, with
blocks of each --library FOLDER before those of library/.
"""
import argparse
import json

from silc.commands import ended
from silc.hardware.costs import numbers_of, planned, port_lines, wait_lines
from silc.hardware.memories import told
from silc.hardware.netlist import NoCore
from silc.linking.places import Unlinked
from silc.programs import NoProgram


def options_of(words: list[str]) -> argparse.Namespace:
    parser = argparse.ArgumentParser(prog="cost", usage=__doc__.partition("usage: ")[2].partition("\n\n")[0],
                                     description=__doc__, formatter_class=argparse.RawDescriptionHelpFormatter)
    parser.add_argument("source", metavar="SRC")
    parser.add_argument("datapath", metavar="DP")
    parser.add_argument("--library", metavar="FOLDER", action="append", default=[])
    parser.add_argument("--json", action="store_true")
    return parser.parse_args(words)


def put(options: argparse.Namespace) -> None:
    made = planned(options.source, options.datapath, options.library)
    if options.json:
        print(json.dumps(numbers_of(made)))
        return
    print(f"{made.plan.period} cycles a sample; ports, with the operand that takes the most bits:")
    for line in port_lines(made):
        print(f"  {line}")
    waits = [*wait_lines(made)]
    print("words that wait:" if waits else "no word waits a quarter of a sample before it is read")
    for line in waits:
        print(f"  {line}")
    for line in told(made.memories, has_restart=True, is_filled=False):
        print(line)


def main(words: list[str]) -> int:
    options = options_of(words)
    return ended("cost", lambda: put(options), NoCore, NoProgram, Unlinked, ValueError)
