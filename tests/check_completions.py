#!/usr/bin/env python3
"""What bash and zsh offer behind the words of a command line that begins with `silc`, in a folder with a few files.

usage: tests/check_completions.py

Each shell runs the function that completes, without a terminal. Without zsh its part is left out, with a line.
"""
import shutil
import subprocess
import sys
import tempfile
from collections.abc import Sequence
from pathlib import Path

ROOT = Path(__file__).resolve().parent.parent
FOLDER = ROOT / "completions"
FILES = ("fir.sil", "two words.sil", "small.toml", "fir.mic", "rows.txt", "click.wav", "front.csv")
EVERYTHING = {*FILES, "folder"}
# Words, the last of which is being typed, and what is offered for it.
CASES = [
    (["co"], {"compare", "compile", "cosimulate", "cost"}),
    (["--v"], {"--version"}),
    (["help", "sch"], {"schedule"}),
    (["help", "draw", ""], set()),
    (["compile", ""], {"fir.sil", "two words.sil", "folder"}),
    (["compile", "t"], {"two words.sil"}),
    (["compile", "fir.sil", ""], {"small.toml", "folder"}),
    (["compile", "fir.sil", "small.toml", "f"], {"fir.sil", "fir.mic", "front.csv", "folder"}),
    (["compile", "fir.sil", "small.toml", "out.mic", ""], set()),
    (["sim", ""], {"fir.mic", "folder"}),
    (["list", "fir.sil", ""], set()),
    (["demo", ""], set()),
    (["explain", "sc"], {"schedule"}),
    (["explain", "--e"], {"--edits"}),
    (["explain", "--datapath", ""], {"small.toml", "folder"}),
    (["explain", "--datapath", "small.toml", "sim", "f"], {"fir.mic", "folder"}),
    (["explain", "run", "fir.sil", "s"], {"small.toml"}),
    (["frame", "fir.sil", "s"], {"small.toml"}),
    (["frame", "fir.sil", "small.toml", "4", "0", ""], set()),
    (["frame", "fir.sil", "small.toml", "4", "0", "-", "f"], {"fir.sil", "fir.mic", "front.csv", "folder"}),
    (["explain", "fr"], {"frame"}),
    (["explain", "pla"], {"place"}),
    (["explain", "place", "fir.sil", "s"], {"small.toml"}),
    (["check", "f"], {"fir.sil", "folder"}),
    (["check", "--"], {"--all", "--library", "--warn"}),
    (["draw", "d"], {"datapath", "docs"}),
    (["draw", "datapath", ""], {"small.toml", "folder"}),
    (["draw", "schedule", "rows.txt", "s"], {"small.toml"}),
    (["draw", "schedule", "rows.txt", "small.toml", "f"], {"fir.sil", "folder"}),
    (["draw", "tradeoff", "f"], {"front.csv", "folder"}),
    (["draw", "--out", "picture.svg", "res"], {"response"}),
    (["design", "fir", "k"], {"kaiser"}),
    (["design", "sos", "rows.txt", "s"], {"small.toml"}),
    (["design", "sos", "rows.txt", "--norm", ""], {"l1", "l2", "peak", "none"}),
    (["design", "sos", "rows.txt", "--rounding", "d"], {"down"}),
    (["rows", "from-wav", ""], {"click.wav", "folder"}),
    (["rows", "to-wav", "--bits", "2"], {"24"}),
    (["explore", "--area", "i"], {"ice40"}),
    (["cosimulate", "--with", ""], {"icarus", "verilator"}),
    (["verilog", "fir.mic", ""], {"folder", "small.toml"}),
    (["fuzz", "so"], {"sources"}),
    (["show", "tr"], {"tree", "trace"}),
    (["show", "graph", ""], {"fir.sil", "two words.sil", "folder"}),
    (["noise", "fir.sil", "rows.txt", "--against", ""], EVERYTHING),
    (["nothing", ""], set()),
]
BASH = """source "$1"; shift; complete -p silc >/dev/null || exit; COMP_WORDS=(silc "$@"); COMP_CWORD=$#
_silc silc "${COMP_WORDS[COMP_CWORD]}" "${COMP_WORDS[COMP_CWORD - 1]}"; printf '%s\\n' "${COMPREPLY[@]}" """
# What zsh is asked to offer, by the functions of its own that are called.
ZSH = """compadd() { shift; print -rl -- ${(M)@:#${words[CURRENT]}*} }
_files() {
    case $1 in
        -/) print -rl -- *(N/) ;;
        -g) print -rl -- ${~2}(N) *(N/) ;;
        *) print -rl -- *(N) ;;
    esac | grep "^${words[CURRENT]}"
}
file=$1; shift; words=(silc "$@"); CURRENT=$(($# + 1)); source $file"""


def offered(shell: tuple[list[str], str], file: Path, words: Sequence[str], room: Path) -> set[str]:
    program, script = shell
    done = subprocess.run([*program, "-c", script, "check", file, *words], cwd=room, stdin=subprocess.DEVNULL,
                          capture_output=True, text=True)
    if done.returncode > 1 or done.stderr:
        return {f"status {done.returncode}", done.stderr}
    return set(done.stdout.split("\n")) - {""}


def main() -> int:
    shells = {"bash": ((["bash", "--norc"], BASH), FOLDER / "silc.bash"),
              "zsh": ((["zsh", "-f"], ZSH), FOLDER / "_silc")}
    faults = []
    with tempfile.TemporaryDirectory(prefix="silc-completions-") as folder:
        room = Path(folder)
        (room / "folder").mkdir()
        for name in FILES:
            (room / name).touch()
        for name, (shell, file) in shells.items():
            if not shutil.which(name):
                print(f"completions: {name} is left out, since it is not there: apt-get install {name}")
                continue
            for words, expected in CASES:
                got = offered(shell, file, words, room)
                if got != expected:
                    faults.append(f"{name}: silc {' '.join(words)}: {sorted(got)} in the place of {sorted(expected)}")
    for fault in faults:
        print(fault)
    print(f"completions: {len(CASES)} lines, {len(faults)} faults")
    return 1 if faults else 0


if __name__ == "__main__":
    sys.exit(main())
