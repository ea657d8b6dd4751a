#!/usr/bin/env python3
"""Whether the tools that make files keep what is there: an output that is an input, by its name, a symbolic link or a
hard link, is refused; a file that no tool made stays; and a file is there whole or not at all, also where a disk is
full or a folder is missing.

usage: tests/check_outputs.py

It runs the built `silc` and `silc_show`, or those that `SILC` and `SILC_SHOW` name; what needs them is left out where
they are not there.
"""
import os
import resource
import subprocess
import sys
import tempfile
from collections.abc import Iterator, Mapping, Sequence
from dataclasses import dataclass
from pathlib import Path

from silc.programs import SHOW, SILC

ROOT = Path(__file__).resolve().parent.parent
EXAMPLE = ROOT / "examples" / "biquads"
# Where the name of the output stands in the words of a tool.
OUT = "OUT"
KEPT = "of the user\n"
SECONDS = 120
INPUTS = {"eq.sil": EXAMPLE / "biquads.sil", "dp.toml": EXAMPLE / "one_multiplier.toml",
          "samples": EXAMPLE / "samples.txt", "core.mic": ROOT / "tests" / "increment" / "add-8-1.mic",
          "core.toml": ROOT / "examples" / "increment" / "plain.toml", "eq2.sil": EXAMPLE / "biquads.sil",
          "voice.sil": ROOT / "examples" / "voice" / "voice.blocks",
          "impulse.rows": ROOT / "docs" / "pictures" / "biquads.rows"}
TEXTS = {"taps": "0.25\n0.5\n0.25\n", "few": "0\n1\n2\n", "pairs": "1,2\n-3,4\n"}


@dataclass(frozen=True)
class Tool:
    """A tool with its words, its inputs, and the programs that it runs."""
    words: str
    inputs: tuple[str, ...]
    needs: tuple[str, ...] = ()
    is_folder: bool = False

    def name(self) -> str:
        return self.words.partition(" ")[0]

    def is_possible(self) -> bool:
        return all(program.is_there() for program in (SILC, SHOW) if program.name in self.needs)


TOOLS = [
    Tool("draw --out OUT datapath dp.toml", ("dp.toml",)),
    Tool("draw --out OUT words samples x", ("samples",)),
    Tool("draw --out OUT response impulse.rows 16383", ("impulse.rows",)),
    Tool("rom --out OUT core.mic", ("core.mic",)),
    Tool("rom --intel --out OUT core.mic", ("core.mic",)),
    Tool("assemble core.listing OUT", ("core.listing",)),
    Tool("rows to-wav pairs 16,15 8000 OUT", ("pairs",)),
    Tool("design fir taps --input 16,15 --shape 16,15 --out OUT", ("taps",)),
    Tool("verilog core.mic OUT", ("core.mic",), is_folder=True),
    Tool("link voice.sil -o OUT", ("voice.sil",), ("silc",)),
    Tool("ranges eq.sil samples --picture OUT", ("eq.sil", "samples"), ("silc", "silc_show")),
    Tool("ranges --worst eq.sil --worst-input OUT", ("eq.sil",), ("silc", "silc_show")),
    Tool("noise eq.sil samples --against eq2.sil --picture OUT", ("eq.sil", "samples", "eq2.sil"),
         ("silc", "silc_show")),
    Tool("vcd core.mic core.toml few OUT", ("core.mic", "core.toml", "few"), ("silc_show",)),
]


def filled(room: Path) -> None:
    """Puts the inputs into a folder."""
    for name, file in INPUTS.items():
        (room / name).write_bytes(file.read_bytes())
    for name, text in TEXTS.items():
        (room / name).write_text(text)
    listing = subprocess.run([ROOT / "tools" / "assemble", "--listing", room / "core.mic"], capture_output=True)
    (room / "core.listing").write_bytes(listing.stdout)


def limited() -> None:
    """Lets this process make no file that has something in it, as on a full disk."""
    resource.setrlimit(resource.RLIMIT_FSIZE, (0, resource.RLIM_INFINITY))


class Room:
    """A folder with inputs, in which a tool is run."""

    def __init__(self, folder: Path, tool: Tool) -> None:
        self.folder, self.tool = folder, tool
        folder.mkdir()
        filled(folder)

    def run(self, out: str, *more: str, is_full: bool = False) -> subprocess.CompletedProcess[bytes]:
        words = [one for word in self.tool.words.split() for one in ((out, *more) if word == OUT else (word,))]
        return subprocess.run([ROOT / "tools" / words[0], *words[1:]], cwd=self.folder, stdin=subprocess.DEVNULL,
                              capture_output=True, timeout=SECONDS, preexec_fn=limited if is_full else None,
                              env=os.environ | {"XDG_STATE_HOME": f"{self.folder}.states"})

    def contents(self) -> Mapping[str, bytes]:
        """All files with what they hold."""
        return {str(file.relative_to(self.folder)): file.read_bytes() for file in sorted(self.folder.rglob("*"))
                if file.is_file() and "__pycache__" not in file.parts}

    def refused(self, what: str, out: str, *more: str, is_full: bool = False) -> Iterator[str]:
        """What is wrong where an output is to be refused, and nothing is to change."""
        before = self.contents()
        done = self.run(out, *more, is_full=is_full)
        said = done.stderr.decode(errors="replace")
        if done.returncode <= 0 or "Traceback" in said or not said.strip():
            yield f"{what}: it ended with {done.returncode}: {said!r}"
        after = self.contents()
        changed = sorted(name for name in {*before, *after} if before.get(name) != after.get(name))
        if changed:
            yield f"{what}: {', '.join(changed)} changed"


def input_faults(tool: Tool, room: Room) -> Iterator[str]:
    """An output that is an input is refused, also with --force."""
    for name in () if tool.is_folder else tool.inputs:
        os.symlink(name, room.folder / "symbolic")
        os.link(room.folder / name, room.folder / "hard")
        yield from room.refused(f"over its input {name}", name)
        for out in (name, "symbolic", "hard"):
            yield from room.refused(f"over its input {name} as {out}, forced", out, "--force")
        for made in ("symbolic", "hard"):
            (room.folder / made).unlink()


def stranger_faults(tool: Tool, room: Room) -> Iterator[str]:
    """A file that no tool made stays but with --force, and one that the tool made is made anew."""
    out, file = ("core", "core/core.v") if tool.is_folder else ("made", "made")
    (room.folder / file).parent.mkdir(exist_ok=True)
    (room.folder / file).write_text(KEPT)
    yield from room.refused("over a file of the user", out)
    for what, more in (("forced", ["--force"]), ("again", [])):
        done = room.run(out, *more)
        if done.returncode or (room.folder / file).read_text(errors="replace") == KEPT:
            yield f"{what}: it ended with {done.returncode}: {done.stderr.decode(errors='replace')!r}"


def disk_faults(tool: Tool, room: Room) -> Iterator[str]:
    """Nothing is left of a file that could not be written, and what was there stays."""
    yield from room.refused("on a full disk", "fresh", is_full=True)
    out = "core" if tool.is_folder else "made"
    yield from room.refused("over its own file on a full disk, forced", out, "--force", is_full=True)
    if not tool.is_folder:
        yield from room.refused("on a full device", "/dev/full")
        yield from room.refused("in a folder that is not there", "nowhere/made")
        yield from room.refused("over a folder", ".")
    else:
        yield from room.refused("over a file in the place of the folder", tool.inputs[0])


def faults_of(tool: Tool) -> Iterator[str]:
    with tempfile.TemporaryDirectory(prefix="silc-outputs-") as folder:
        room = Room(Path(folder).resolve() / "room", tool)
        for part in (input_faults, stranger_faults, disk_faults):
            for fault in part(tool, room):
                yield f"{tool.words}: {fault}"


def main(words: Sequence[str]) -> int:
    tools = [tool for tool in TOOLS if tool.is_possible() and (not words or tool.name() in words)]
    faults = [fault for tool in tools for fault in faults_of(tool)]
    for fault in faults:
        print(fault)
    left = f", {len(TOOLS) - len(tools)} left out" if len(tools) < len(TOOLS) else ""
    print(f"outputs: {len(tools)} tools{left}, {len(faults)} faults")
    return 1 if faults else 0


if __name__ == "__main__":
    sys.exit(main(sys.argv[1:]))
