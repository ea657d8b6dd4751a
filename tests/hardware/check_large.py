#!/usr/bin/env python3
"""Whether memories that are made as large ones give the same rows, and what is refused: a reverberator whose memory has
a latency of 2, and microcode that is written by hand, with first words, over memories of several latencies.

usage: tests/hardware/check_large.py

It runs the built `silc`, or the one that `SILC` names. Without Icarus it is skipped, and ends with 77. Where Yosys is
there too, it counts the large memories of an up5k that they become.
"""
import os
import random
import re
import shutil
import subprocess
import sys
import tempfile
from collections.abc import Iterator
from pathlib import Path

from silc import programs

ROOT = Path(__file__).resolve().parent.parent.parent
SILC = Path(programs.SILC.place())
REVERB = ROOT / "examples" / "reverb"
SKIPPED, ROWS, CELLS, DELAY = 77, 1200, 1100, 1023
# A delay of 1,023 samples by a memory of a latency: its store begins in cycle 1, and its load in one whose address
# comes in the cycle before.
HEAD = """\
input 0 width 16
unit 0 in latency 1 gap 1
unit 1 ram latency {latency} gap 1 files 1 1 cells {cells}
first 1 cell 7 5 6 -7
unit 2 acu latency 1 gap 1 ram 1
unit 3 out latency 1 gap 1 files 1
period 16 unroll 1 inputs 1 outputs 1 units 4 buses 2
"""
BEGIN = ["issue 0 input 0", "issue 2 addr 0", "drive 0 0", "drive 2 1", "take 1.1 bus 0 reg 0",
         "take 1.0 bus 1 reg 0"]
STORE, LOAD = ["issue 1 store regs 0 0"], ["issue 1 load regs 0 0"]
ADDRESS = [f"issue 2 addr {DELAY}", "drive 2 1", "take 1.0 bus 1 reg 0"]
HAND_ON, PUT = ["drive 1 0", "take 3.0 bus 0 reg 0"], ["issue 3 output 0 regs 0"]
# A store begins in cycle 1, and ends in cycle 1 less than its latency behind it.
TRIED = ((2, 3), (3, 2), (3, 5), (5, 4), (5, 6))
REFUSED = ((2, 2), (3, 3), (5, 5))
# Wrong lines of the part, each with the one that it replaces.
WRONG = (("fill ? fill_at : ends ? into : address", "fill ? fill_at : address"),
         ("cells[at] <= fill ? first : data", "cells[at] <= data"),
         ("if (write) cells[at]", "if (run && ends) cells[at]"),
         ("CYCLES(LATENCY - 2)) reads (\n                .clk(clk), .clear(1'b0), .run(run), .in(read), .out(word));\n"
          "        end\n    endgenerate\nendmodule\n\n// Where",
          "CYCLES(LATENCY - 1)) reads (\n                .clk(clk), .clear(1'b0), .run(run), .in(read), .out(word));\n"
          "        end\n    endgenerate\nendmodule\n\n// Where"))


def ran(*words: str | Path, room: Path) -> "subprocess.CompletedProcess[str]":
    return subprocess.run(words, cwd=room, stdin=subprocess.DEVNULL, capture_output=True, text=True,
                          env=os.environ | {"SILC": str(SILC), "XDG_STATE_HOME": str(room)})


def tool(name: str, *words: str | Path, room: Path) -> "subprocess.CompletedProcess[str]":
    return ran(ROOT / "tools" / name, *words, room=room)


def listing(latency: int, load: int) -> str:
    """The microcode of the delay."""
    words: dict[int, list[str]] = {0: BEGIN, 1: STORE}
    words[load - 1] = words.get(load - 1, []) + ADDRESS
    words |= {load: LOAD, load + latency - 1: HAND_ON, load + latency: PUT}
    return HEAD.format(latency=latency, cells=CELLS) + "".join(
        f"word {number}\n" + "".join(f"{line}\n" for line in lines) for number, lines in sorted(words.items()))


def delayed(latency: int, load: int, room: Path) -> "subprocess.CompletedProcess[str]":
    """The core of a delay, in a folder that is called after it."""
    name = f"delay_{latency}_{load}"
    (room / f"{name}.listing").write_text(listing(latency, load))
    done = tool("assemble", f"{name}.listing", f"{name}.mic", room=room)
    return done if done.returncode else tool("verilog", f"{name}.mic", name, "--large", room=room)


def delayed_rows(latency: int, load: int, words: list[int]) -> list[int]:
    """The words of a delay. At the start the cells 7 to 9 have words, of which cell -DELAY - k modulo the cells is the
    one that sample k loads; a load that begins before a store ends has the cell as it was."""
    first = {7: 5, 8: 6, 9: -7}
    return [words[n - DELAY] if n >= DELAY else first.get((DELAY - n) % CELLS, 0) for n in range(len(words))]


def played(folder: Path) -> str:
    """The last line of the bench in a folder."""
    made = subprocess.run(["iverilog", "-g2005", "-o", "bench", *sorted(file.name for file in folder.glob("*.v"))],
                          cwd=folder, stdin=subprocess.DEVNULL, capture_output=True, text=True)
    if made.returncode:
        return made.stderr.strip()
    done = subprocess.run(["vvp", "-n", "bench", "+in_wait=40", "+out_wait=40", "+reset_after=300"], cwd=folder,
                          stdin=subprocess.DEVNULL, capture_output=True, text=True)
    return (done.stdout.strip().splitlines() or [""])[-1]


def delay_faults(room: Path) -> Iterator[str]:
    dice = random.Random(4)
    words = [dice.randint(-32768, 32767) for _ in range(ROWS)]
    for latency, load in TRIED:
        done = delayed(latency, load, room)
        folder = room / f"delay_{latency}_{load}"
        if done.returncode:
            yield f"latency {latency}, a load in cycle {load}: {done.stderr}"
            continue
        (folder / "samples.txt").write_text("".join(f"{word}\n" for word in words))
        (folder / "expected.txt").write_text("".join(f"{word}\n" for word in delayed_rows(latency, load, words)))
        said = played(folder)
        if said != f"passed {2 * ROWS - (ROWS - 300)} rows" and said != f"passed {ROWS} rows":
            yield f"latency {latency}, a load in cycle {load}: the bench ends with {said}"
    for latency, load in REFUSED:
        done = delayed(latency, load, room)
        why = (f"verilog: no memory can be a large one: 1 begins a load in cycle {load}, in which a store ends; a gap "
               f"of {latency} keeps them apart\n")
        if done.returncode != 1 or done.stderr != why or (room / f"delay_{latency}_{load}").exists():
            yield f"latency {latency}, a load in cycle {load}: it ended with {done.returncode}: {done.stderr}"


def wrong_faults(room: Path) -> Iterator[str]:
    """Wrong lines that the benches let pass, at latencies above 2."""
    for number, (line, wrong) in enumerate(WRONG):
        caught = False
        for latency, load in (TRIED[1], TRIED[-1]):
            folder = room / f"wrong_{number}_{latency}"
            shutil.copytree(room / f"delay_{latency}_{load}", folder)
            parts = folder / "silc_parts.v"
            text = parts.read_text()
            at = text.index("module silc_large")
            if line not in text[at:]:
                yield f"wrong line {number}: there is no line {line}"
                return
            parts.write_text(text[:at] + text[at:].replace(line, wrong, 1))
            caught = caught or not played(folder).startswith("passed")
        if not caught:
            yield f"wrong line {number} passes: {wrong}"


def reverb_faults(room: Path) -> Iterator[str]:
    """The reverberator, whose rows are those of its example."""
    text = (REVERB / "one_multiplier.toml").read_text()
    text = re.sub(r'name = "mem"\nkind = "ram"\n', 'name = "mem"\nkind = "ram"\nlatency = 2\ngap = 2\n', text)
    (room / "reverb.toml").write_text(re.sub(r"period = \d+", "period = 48", text))
    done = ran(SILC, "compile", REVERB / "reverb.sil", "reverb.toml", "reverb.mic", room=room)
    done = done if done.returncode else tool("verilog", "reverb.mic", "reverb", "--large", room=room)
    if done.returncode:
        yield f"reverb: {done.stderr}"
        return
    for name in ("samples.txt", "expected.txt"):
        rows = (REVERB / name).read_text().splitlines()[:ROWS]
        (room / "reverb" / name).write_text("".join(f"{row}\n" for row in rows))
    said = played(room / "reverb")
    if not said.startswith("passed"):
        yield f"reverb: the bench ends with {said}"
    if shutil.which("yosys"):
        done = tool("synthesize", "reverb.mic", "--large", "--part", "up5k", room=room)
        if done.returncode or not re.search(r"[1-4] of 4 large memories$", done.stdout):
            yield f"reverb: {done.stdout}{done.stderr}"


def restart_faults(room: Path) -> Iterator[str]:
    """First words take block memories of their own, but where a core has no restart."""
    counts = []
    for option in ((), ("--no-restart",)):
        done = tool("synthesize", "delay_2_3.mic", "--part", "up5k", *option, room=room)
        found = re.search(r"(\d+) of 30 block memories", done.stdout)
        is_told = (f"first words in a second memory, for a restart: 1_cells {CELLS:,} x 16: {CELLS * 16:,} bits; "
                   "--no-restart spares it\n") in done.stdout
        if not found or is_told == bool(option):
            yield f"{' '.join(option)}: {done.stdout}{done.stderr}"
            return
        counts.append(int(found[1]))
    # 1,100 words of 16 bits have no place in four block memories.
    if counts[1] < 5 or counts[0] < 2 * counts[1]:
        yield f"{counts[0]} block memories with a restart, and {counts[1]} without"


def main() -> int:
    if not shutil.which("iverilog"):
        print("large: skipped: there is no iverilog; apt-get install iverilog")
        return SKIPPED
    with tempfile.TemporaryDirectory(prefix="silc-large-") as folder:
        room = Path(folder)
        faults = [*delay_faults(room), *wrong_faults(room), *reverb_faults(room)]
        if shutil.which("yosys"):
            faults += restart_faults(room)
    for fault in faults:
        print(fault)
    print(f"large: {len(TRIED) + 1} cores, {len(REFUSED)} refusals and {len(WRONG)} wrong lines, {len(faults)} faults")
    return 1 if faults else 0


if __name__ == "__main__":
    sys.exit(main())
