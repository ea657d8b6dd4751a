#!/usr/bin/env python3
"""Whether tools/wrong-bodies takes the bodies that its words name and says what comes of them: in a repository of two
crates, with a toolchain that is played by a script and judges an edit by the text that it puts.

usage: tests/check_wrong_bodies.py
"""
import os
import shutil
import subprocess
import sys
import tempfile
from collections.abc import Sequence
from pathlib import Path

ROOT = Path(__file__).resolve().parent.parent
RT = """#!/bin/sh
case $1 in
lib) mkdir -p out/rlib && echo built >out/rlib/low.rlib ;;
must-fail)
    for edit in crates/"$2"/must-fail/*.edit; do
        echo "rt: must-fail $2/$(basename "$edit"): $(case $(grep ^new: "$edit") in
            *same*) echo "NOT REFUSED: the crate is still proved" ;;
            *unread*) printf "BAD EDIT: it did not reach the prover:\\\\nerror[E1]: no such name" ;;
            *) echo "refused, as it must be: $(grep -c "^new: [a-z ]*$" "$edit") changes" ;;
        esac)"
    done ;;
esac
"""
TABLE = """
[low.cut]
file = "src/lib.rt"
old = "first"
new = "third"

[[low.cut.and]]
old = "second"
new = '''
fourth
    and fifth'''

[low.kept]
file = "src/lib.rt"
old = "second"
new = "the same"

[high.misspelt]
file = "src/lib.rt"
old = "above"
new = "unread"

[high.lost]
file = "src/lib.rt"
old = "no such text"
new = "any"
"""
ADDED = """
[high.added]
file = "src/lib.rt"
old = "above"
new = "below"
"""
CUT = "low/cut: refused: 2 changes"
KEPT = "low/kept: NOT REFUSED: the crate is still proved"
LOST = "high/lost: BAD: src/lib.rt has this text 0 times, and not once on one line: no such text"
MISSPELT = "high/misspelt: BAD: it did not reach the prover:\nerror[E1]: no such name"


class Room:
    """A repository with the tool, and what has been seen to be wrong there."""

    def __init__(self, folder: Path) -> None:
        self.kit, self.top, self.faults = folder / "kit", folder / "top", []
        texts = {"crates/low/src/lib.rt": "first second\n", "crates/high/src/lib.rt": "above\n",
                 "crates.txt": "low:\nhigh: low\n", "HANDLES": "Handles allowed: none.\n",
                 "tools/wrong-bodies.toml": TABLE}
        for name, text in texts.items():
            self.write(name, text)
        for name in ("build", "wrong-bodies"):
            shutil.copy2(ROOT / "tools" / name, self.top / "tools")
        self.kit.mkdir()
        (self.kit / "rt").write_text(RT)
        (self.kit / "rt").chmod(0o755)
        for words in (["init", "-q"], ["add", "."],
                      ["-c", "user.name=a", "-c", "user.email=a", "commit", "-qm", "first"]):
            subprocess.run(["git", *words], cwd=self.top, check=True, stdin=subprocess.DEVNULL)

    def write(self, name: str, text: str) -> None:
        (self.top / name).parent.mkdir(parents=True, exist_ok=True)
        (self.top / name).write_text(text)

    def expect(self, what: str, said: Sequence[str], status: int, *words: str, kit: bool = True) -> None:
        """Runs the tool, which is to print these lines and to end so."""
        path = f"{self.kit}:" * kit + "/usr/bin:/bin"
        done = subprocess.run([sys.executable, self.top / "tools" / "wrong-bodies", *words], stdin=subprocess.DEVNULL,
                              env=os.environ | {"PATH": path}, capture_output=True, text=True)
        if (done.stdout.rstrip("\n"), done.returncode) != ("\n".join(said), status):
            self.faults.append(f"{what}: {done.stdout}{done.stderr}and status {done.returncode}")


def check_tries(room: Room) -> None:
    room.expect("no rt", [], 77, kit=False)
    room.expect("all", [LOST, CUT, KEPT, MISSPELT, "1 passed, 3 failed"], 1)
    room.expect("a crate", [CUT, KEPT, "1 passed, 1 failed"], 1, "low")
    room.expect("a body", [CUT, "1 passed, 0 failed"], 0, "cut")
    room.expect("a name that nothing has", [], 2, "none")
    if list(room.top.glob("crates/*/must-fail")):
        room.faults.append("an edit was left in the repository")


def check_choice(room: Room) -> None:
    every = ["low/cut", "low/kept", "high/misspelt", "high/lost"]
    room.expect("the list", every, 0, "--list")
    room.expect("nothing has changed", [], 0, "--list", "--since", "HEAD")
    room.expect("no such commit", [], 2, "--list", "--since", "none")
    room.write("tools/wrong-bodies.toml", TABLE + ADDED)
    room.expect("a body is new", ["high/added"], 0, "--list", "--since", "HEAD")
    room.write("crates/high/proofs/Lib.antt", "a lemma\n")
    room.expect("a crate above has changed", [*every[2:], "high/added"], 0, "--list", "--since", "HEAD")
    room.write("crates/low/src/lib.rt", "first and second\n")
    room.expect("a crate below has changed", [*every, "high/added"], 0, "--list", "--since", "HEAD")
    room.expect("of one crate", every[:2], 0, "--list", "--since", "HEAD", "low")


def check_quick(room: Room) -> None:
    room.expect("a text is lost", [LOST, "4 passed, 1 failed"], 1, "--check", kit=False)
    room.write("crates/high/src/lib.rt", "above and no such text\n")
    room.expect("each can be planted", ["5 passed, 0 failed"], 0, "--check", kit=False)
    room.write("crates/low/must-fail/cut.edit", "file: src/lib.rt\nold: first\nnew: last\n")
    taken = ["low/cut: BAD: its name is taken"] * 2
    room.expect("a name is taken", [*taken, "4 passed, 2 failed"], 1, "--check", kit=False)
    room.write("tools/wrong-bodies.toml", "[low.cut]\nold = 1\n")
    room.expect("a table that lacks a text", [], 2, "--check", kit=False)


def main() -> int:
    if not shutil.which("git"):
        print("check_wrong_bodies: skipped: there is no git")
        return 77
    with tempfile.TemporaryDirectory(prefix="check-wrong-bodies-") as folder:
        room = Room(Path(folder))
        for check in (check_tries, check_choice, check_quick):
            check(room)
    print("\n".join(room.faults) or "check_wrong_bodies: as it should be")
    return 1 if room.faults else 0


if __name__ == "__main__":
    sys.exit(main())
