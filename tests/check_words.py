#!/usr/bin/env python3
"""Whether `./silc` hands each word to the program or the tool that it names, with the words behind it, its streams and
its exit status; whether `silc help` has all of them; and what it says of a word that is none.

usage: tests/check_words.py

It runs the script on a copy, over programs and tools that scripts play. The commands are those of
tests/commands/help.txt.
"""
import os
import re
import shutil
import subprocess
import sys
import tempfile
from collections.abc import Iterator
from pathlib import Path
from typing import Any

ROOT = Path(__file__).resolve().parent.parent
HELP = ROOT / "tests" / "commands" / "help.txt"
# What plays a program or a tool: it says its name, its words and what it reads.
PLAYED = '#!/bin/sh\nprintf "%s:" "${0##*/}" "$@"; cat; echo to stderr >&2; exit 7\n'
# Tools for who changes the repository, which are no words.
UNSAID = {"alike", "build", "calling", "completions", "crates", "layout", "proved", "release", "remake", "trusted",
          "unreached", "wrong-bodies"}
# The words that are programs of their own, those with proved answers first.
ANSWERED = {"place": "silc_place", "same": "silc_same"}
PROGRAMS = {**ANSWERED, "show": "silc_show"}
# The words of the script itself.
OWN = {*PROGRAMS, "build", "help"}


def commands() -> set[str]:
    """The commands that the program's own help has."""
    return set(re.findall(r"^(?:usage:|      ) silc ([a-z]+) ", HELP.read_text(), re.M))


def tools() -> set[str]:
    return {path.name for path in (ROOT / "tools").iterdir() if path.is_file() and os.access(path, os.X_OK)} - UNSAID


class Room:
    """A copy of the script with programs and tools that are played."""

    def __init__(self, folder: Path) -> None:
        self.top = folder / "top folder"
        for name in ("silc_main", *PROGRAMS.values()):
            self.play(self.top / "crates" / name / "out" / name)
        for name in tools():
            self.play(self.top / "tools" / name)
        (self.top / "docs").symlink_to(ROOT / "docs")
        (self.top / "RELEASE").touch()
        shutil.copy2(ROOT / "silc", self.top)

    def play(self, path: Path) -> None:
        path.parent.mkdir(parents=True, exist_ok=True)
        path.write_text(PLAYED)
        path.chmod(0o755)

    def run(self, *words: str, **more: Any) -> subprocess.CompletedProcess[str]:
        return subprocess.run([self.top / "silc", *words], cwd=self.top, input="read", capture_output=True, text=True,
                              **more)


def handed_faults(room: Room) -> Iterator[str]:
    """Each word goes where it belongs, and what comes back is what was answered."""
    for word in sorted(commands() | tools() | PROGRAMS.keys()):
        program, *lead = [word] if word in tools() else [PROGRAMS[word]] if word in PROGRAMS else ["silc_main", word]
        done = room.run(word, "a b", "*")
        expected = "".join(f"{part}:" for part in (program, *lead, "a b", "*")) + "read"
        if (done.returncode, done.stdout, done.stderr) != (7, expected, "to stderr\n"):
            yield f"{word}: {done.returncode} {done.stdout!r} {done.stderr!r} in the place of {expected!r}"
    for word in ("--help", "--version"):
        if room.run(word).stdout != f"silc_main:{word}:read":
            yield f"{word} is not handed to the program"


def help_faults(room: Room) -> Iterator[str]:
    """`silc help` has every word, first those that are proved; and the help of a word is its own."""
    shown = room.run("help")
    heads = re.split(r"^(?=\w.*:\n)", shown.stdout, flags=re.M)
    listed = [set(re.findall(r"^  ([a-z]+) ", part, re.M)) for part in heads]
    proved, others, answered = (
        set().union(*(words for part, words in zip(heads, listed) if said in part.split("\n")[0]))
        for said in ("which is proved", "not proved", "what each says is proved"))
    if proved != commands():
        yield f"the proved commands of `silc help` are {sorted(proved)}, and the program's are {sorted(commands())}"
    if answered != ANSWERED.keys():
        yield f"the programs of `silc help` are {sorted(answered)}, and are {sorted(ANSWERED)}"
    if others != tools() | {"show"}:
        yield f"the tools of `silc help` are {sorted(others)}, and those of tools/ are {sorted(tools())} and show"
    for words, status, stream in ((["-h"], 0, "stdout"), ([], 2, "stderr"), (["help", "help"], 0, "stdout")):
        done = room.run(*words)
        if done.returncode != status or getattr(done, stream) != shown.stdout:
            yield f"{words}: {done.returncode} {done.stdout!r} {done.stderr!r}"
    for word in sorted(commands() | ANSWERED.keys()):
        done = room.run("help", word)
        if done.returncode or not done.stdout.startswith(f"usage: silc {word} "):
            yield f"help {word}: {done.returncode} {done.stdout!r}"
    for word in sorted(tools()):
        done = room.run("help", word)
        if (done.returncode, done.stdout) != (0, f"{word}:--help:readto stderr\n"):
            yield f"help {word}: {done.returncode} {done.stdout!r}"


def placed_faults(room: Room) -> Iterator[str]:
    """OUT of `place` is there whole or as it was, and is no input by another name."""
    program, out = room.top / "crates" / "silc_place" / "out" / "silc_place", room.top / "out.mic"
    for status, left in ((0, "made"), (16, "as it was")):
        out.write_text("as it was")
        program.write_text(f'#!/bin/sh\n[ "$1 $2 $3" = "a.sil dp plan" ] && [ "$4" != out.mic ] && printf made >"$4"\n'
                           f"exit {status}\n")
        done = room.run("place", "a.sil", "dp", "plan", out.name)
        if (done.returncode, out.read_text()) != (status, left):
            yield f"place that ends with {status}: {done.returncode} {out.read_text()!r} {done.stderr!r}"
    # Rows stay that came before a fault of the samples, and the number of stages is no file.
    for status, left in ((0, "made"), (11, "made"), (16, "as it was")):
        out.write_text("as it was")
        program.write_text('#!/bin/sh\n[ "$1 $2 $3 $4 $5 $6" = "pipe a.sil dp plan 2 rows" ] && [ "$7" != out.mic ] &&'
                           f' printf made >"$7"\nexit {status}\n')
        done = room.run("place", "pipe", "a.sil", "dp", "plan", "2", "rows", out.name)
        if (done.returncode, out.read_text()) != (status, left):
            yield f"place pipe that ends with {status}: {done.returncode} {out.read_text()!r} {done.stderr!r}"
    (room.top / "link").symlink_to("out.mic")
    for words in (("a.sil", "dp", "out.mic"), ("pipe", "a.sil", "dp", "out.mic", "2", "rows"),
                  ("pipe", "a.sil", "dp", "plan", "2", "out.mic")):
        done = room.run("place", *words, "link")
        if done.returncode != 2 or "by another name" not in done.stderr:
            yield f"place {words} into an input by another name: {done.returncode} {done.stderr!r}"
    (room.top / "2").symlink_to("out.mic")
    if room.run("place", "pipe", "a.sil", "dp", "plan", "2", "rows", out.name).returncode != status:
        yield "place pipe takes the number of stages for a file"
    for left in room.top.glob(".silc.*"):
        yield f"place leaves {left.name}"


def near_faults(room: Room) -> Iterator[str]:
    """A word that is none is refused in a line, which has those that are near it."""
    for word, near in (("drwa", "draw"), ("scheduel", "schedule"), ("compil", "compile"), ("assembler", "assemble"),
                       ("ex", "explain, explore"), ("evla", "eval"), ("xyzzy", ""), ("--frob", ""),
                       ("draw explain", ""), ("design draw", ""), ("../tools/draw", ""), ("dra\\\\q\\n", "")):
        said = f"; near it: {near}" if near else ""
        expected = f"silc: there is no command {word}{said}; 'silc help' lists them\n"
        for words in ((word, "a"), ("help", word)):
            done = room.run(*words)
            if (done.returncode, done.stdout) != (2, "") or sorted(done.stderr.replace(",", " ").split()) != \
                    sorted(expected.replace(",", " ").split()):
                yield f"{words}: {done.returncode} {done.stderr!r} in the place of {expected!r}"


def lacking_faults(room: Room) -> Iterator[str]:
    """Where a program is not there, tools run, and what needs it says so."""
    for name in ("silc_main", *PROGRAMS.values()):
        (room.top / "crates" / name / "out" / name).unlink()
    for word, status in (("run", 69), ("show", 69), ("draw", 7), ("help", 0), ("build", 69), ("help build", 69),
                         ("place", 69), ("place a b c d", 69), ("same a b", 69), ("help place", 0)):
        done = room.run(*word.split())
        if done.returncode != status or (status == 69 and not done.stderr.startswith("silc: ")):
            yield f"without programs {word} ends with {done.returncode}: {done.stderr!r}"


def main() -> int:
    with tempfile.TemporaryDirectory(prefix="silc-words-") as folder:
        room = Room(Path(folder))
        checks = (handed_faults, help_faults, near_faults, placed_faults, lacking_faults)
        faults = [fault for check in checks for fault in check(room)]
    if commands() & tools() or (commands() | tools()) & OWN:
        faults.append("a word is a command and a tool")
    for fault in faults:
        print(fault)
    print(f"./silc: {len(commands())} commands, {len(tools())} tools, {len(faults)} faults")
    return 1 if faults else 0


if __name__ == "__main__":
    sys.exit(main())
