#!/usr/bin/env python3
"""Whether `tools/batch` makes the rows of each sample file once, goes on where it was stopped, and keeps what it did
not make.

usage: tests/check_batch.py

Scripts play `silc`, and the way to another machine. Without GNU parallel it is skipped, and ends with 77.
"""
import os
import re
import shutil
import signal
import subprocess
import sys
import tempfile
import time
from collections.abc import Callable, Iterator
from pathlib import Path

ROOT = Path(__file__).resolve().parent.parent
TOOL = ROOT / "tools" / "batch"
SKIPPED, SECONDS = 77, 120
# It says which command ran, adds 1 to each word, refuses `x` as a row, and knows no command net without NET. A file
# that has 99 takes long.
PLAYED = """#!/bin/sh
[ "$1" != net ] || [ -n "$NET" ] || { echo 'silc: bad command words' >&2; exit 2; }
[ "$1" != net ] || cat net.toml 0.sil 0.toml >/dev/null || exit 3
echo "$1" >>"$LOG"
if grep -q 99 "$3"; then sleep 60; fi
if grep -q x "$3"; then echo 'silc: samples line 2 byte 0' >&2; exit 11; fi
while read -r row; do echo $((row + 1)); done <"$3" >"$4"
"""
# It runs a command as on another machine, whose home is a folder of its own.
FAR = """#!/bin/sh
while [ $# -gt 0 ]; do case $1 in -o|-l|-p) shift 2 ;; -*) shift ;; *) break ;; esac; done
shift
[ "$1" != -- ] || shift
export HOME="$FAR_HOME"
cd "$HOME" && exec sh -c "$*"
"""
# How far it is, which it says of a run that takes long.
PROGRESS = re.compile(r"^batch: \d+ of \d+\n", re.MULTILINE)
NET = 'inputs = 1\n[[proc]]\nsrc = "../p.sil"\ndp = "../p.toml"\nfeed = ["in.0"]\n'


class Room:
    """A folder with samples, a program of each kind, and a `silc` that a script plays."""

    def __init__(self, folder: Path) -> None:
        self.top = folder
        for name in ("samples", "far", "nets", "states"):
            (folder / name).mkdir()
        for name, text in (("silc", PLAYED), ("ssh", FAR)):
            (folder / name).write_text(text)
            (folder / name).chmod(0o755)
        for name, text in (("p.sil", "a source"), ("p.mic", "microcode"), ("p.toml", "a datapath"),
                           ("nets/net.toml", NET),
                           ("samples/a", "1\n2\n"), ("samples/b c's", "3\n"), ("samples/.hidden", "x\n")):
            (folder / name).write_text(text)

    def variables(self, **more: str) -> dict[str, str]:
        """Without the user's own shell, since a machine that runs tests by itself may tell none."""
        kept = {name: value for name, value in os.environ.items() if name != "SHELL"}
        return kept | {"SILC": str(self.top / "silc"), "LOG": str(self.top / "log"),
                       "FAR_HOME": str(self.top / "far"), "PARALLEL_SSH": str(self.top / "ssh"),
                       "XDG_STATE_HOME": str(self.top / "states")} | more

    def run(self, *words: str, within: str = "", **more: str) -> tuple[int, str]:
        """The exit status, and what is said on standard error but for how far it is."""
        done = subprocess.run([TOOL, *words], cwd=self.top / within, stdin=subprocess.DEVNULL, capture_output=True,
                              text=True, timeout=SECONDS, env=self.variables(**more))
        return done.returncode, PROGRESS.sub("", done.stderr)

    def runs(self) -> int:
        """How often `silc` ran since this was last asked, but for the look at the program itself."""
        log = self.top / "log"
        count = len(log.read_text().splitlines()) - 1 if log.exists() else 0
        log.unlink(missing_ok=True)
        return count

    def rows(self, out: str) -> dict[str, str]:
        return {file.name: file.read_text() for file in sorted((self.top / out).iterdir()) if file.name != ".batch"}


Fact = tuple[str, object, object]
ROWS = {"a": "2\n3\n", "b c's": "4\n"}


def kinds(room: Room) -> Iterator[Fact]:
    """A source, microcode and a net, which names its files from the folder where it runs."""
    for program, out in (("p.sil", "eval"), ("p.mic", "sim")):
        yield program, room.run(program, "samples", out), (0, "")
        yield f"the rows of {program}", room.rows(out), ROWS
        yield f"the command for {program}", (room.top / "log").read_text().split(), [out] * 3
        room.runs()
    yield "net", room.run("net.toml", "../samples", "../net", within="nets", NET="1"), (0, "")
    yield "the rows of a net", room.rows("net"), ROWS
    why = "batch: this silc has no command net; `./silc build` builds one that has\n"
    yield "no command net", room.run("net.toml", "../samples", "../none", within="nets"), (1, why)
    yield "nothing is made", (room.top / "none").exists(), False


def again(room: Room) -> Iterator[Fact]:
    """What is there is not made again; what was made of other files is."""
    room.run("p.sil", "samples", "out")
    room.runs()
    again = (0, "batch: 2 of 2 are there already\n")
    yield "all is there", (room.run("p.sil", "samples", "out"), room.runs()), (again, 0)
    (room.top / "samples" / "a").write_text("7\n")
    yield "other samples", (room.run("p.sil", "samples", "out"),
                            room.runs()), ((0, "batch: 1 of 2 are there already\n"), 1)
    yield "their rows", room.rows("out"), ROWS | {"a": "8\n"}
    (room.top / "p.sil").write_text("another source")
    yield "another source", (room.run("p.sil", "samples", "out"), room.runs()), ((0, ""), 2)


def refused(room: Room) -> Iterator[Fact]:
    """A file that is refused has no rows, and the others have theirs."""
    (room.top / "samples" / "bad").write_text("1\nx\n")
    yield "a bad file", room.run("p.sil", "samples", "out"), (1, "batch: bad: samples line 2 byte 0\n")
    yield "the others", room.rows("out"), ROWS


def strangers(room: Room) -> Iterator[Fact]:
    """What no tool made is in the way, and samples are never written over."""
    (room.top / "out").mkdir()
    (room.top / "out" / "a").write_text("mine")
    why = "batch: out/a is there, and not as a tool made it; --force writes over it\n"
    yield "in the way", (room.run("p.sil", "samples", "out"), room.rows("out")), ((1, why), {"a": "mine"})
    yield "with --force", (room.run("p.sil", "samples", "out", "--force")[0], room.rows("out")), (0, ROWS)
    why = "batch: samples/a is the input samples/a\n"
    yield "samples as rows", room.run("p.sil", "samples", "samples", "--force"), (1, why)
    (room.top / "linked").mkdir()
    os.symlink("../samples/a", room.top / "linked" / "a")
    why = "batch: linked/a is the input samples/a\n"
    yield "samples by another name", room.run("p.sil", "samples", "linked", "--force"), (1, why)
    (room.top / "out" / ".batch").write_text("mine\n")
    yield "another record", room.run("p.sil", "samples",
                                     "out"), (1, "batch: out/.batch is there, and no record of a batch\n")


def interruptible() -> None:
    """Has a process end at an interrupt, also where these tests run in the background and take none."""
    signal.signal(signal.SIGINT, signal.SIG_DFL)


def stopped(room: Room) -> Iterator[Fact]:
    """A run that is stopped has whole rows alone, and the next one goes on."""
    (room.top / "samples" / "long").write_text("99\n")
    run = subprocess.Popen([TOOL, "p.sil", "samples", "out", "--jobs", "3"], cwd=room.top, stdin=subprocess.DEVNULL,
                           stderr=subprocess.DEVNULL, env=room.variables(), start_new_session=True,
                           preexec_fn=interruptible)
    record, end = room.top / "out" / ".batch", time.monotonic() + SECONDS
    while not (record.exists() and record.read_text().count("\n") == 3) and time.monotonic() < end:
        time.sleep(0.05)
    os.killpg(run.pid, signal.SIGINT)
    yield "stopped", (run.wait(timeout=SECONDS), room.rows("out")), (130, ROWS)
    (room.top / "samples" / "long").write_text("9\n")
    with open(record, "a") as lines:
        lines.write("a line that was cut o")
    room.runs()
    yield "goes on", (room.run("p.sil", "samples", "out"), room.runs()), ((0, "batch: 2 of 3 are there already\n"), 1)
    yield "all rows", room.rows("out"), ROWS | {"long": "10\n"}
    yield "and is whole", room.run("p.sil", "samples", "out"), (0, "batch: 3 of 3 are there already\n")


def far(room: Room) -> Iterator[Fact]:
    """On other machines, with this one and without it; nothing is left there."""
    if not shutil.which("rsync") or not shutil.which("ssh"):
        print("check_batch: other machines are left out: apt-get install rsync openssh-client")
        return
    for place, machines in enumerate(("one,2/two", ":,one")):
        yield machines, room.run("p.sil", "samples", f"out{place}", "--sshlogin", machines)[0], 0
        yield f"the rows of {machines}", room.rows(f"out{place}"), ROWS
    words = ("p.sil", "samples", "by_another_shell", "--sshlogin", "one")
    yield "another shell", room.run(*words, SHELL="/bin/csh")[0], 0
    yield "its rows", room.rows("by_another_shell"), ROWS
    yield "nothing is left", list((room.top / "far").iterdir()), []


def missing(room: Room) -> Iterator[Fact]:
    """Without GNU parallel nothing is made."""
    (room.top / "bin").mkdir()
    (room.top / "bin" / "python3").symlink_to(sys.executable)
    why = "batch: there is no parallel; apt-get install parallel\n"
    yield "no parallel", room.run("p.sil", "samples", "out", PATH=str(room.top / "bin")), (1, why)
    yield "no rows", (room.top / "out").exists(), False


CHECKS: list[Callable[[Room], Iterator[Fact]]] = [kinds, again, refused, strangers, stopped, far, missing]


def main(words: list[str]) -> int:
    if words:
        print(__doc__, file=sys.stderr)
        return 2
    if not shutil.which("parallel"):
        print("check_batch: skipped: there is no parallel (apt-get install parallel)")
        return SKIPPED
    faults = count = 0
    for check in CHECKS:
        with tempfile.TemporaryDirectory(prefix="silc-batch-check-") as folder:
            for what, found, wanted in check(Room(Path(folder))):
                count += 1
                if found != wanted:
                    faults += 1
                    print(f"batch: {check.__name__}, {what}: {found} in the place of {wanted}")
    print(f"batch: {count} facts, {faults} faults")
    return 1 if faults else 0


if __name__ == "__main__":
    sys.exit(main(sys.argv[1:]))
