#!/usr/bin/env python3
"""Whether tools/build and ./silc build a program exactly where that is to be done and was asked for: in a repository of
a few crates, with a toolchain that is played by a script and counts its builds.

usage: tests/check_build.py
"""
import os
import shutil
import subprocess
import sys
import tempfile
import time
from pathlib import Path

ROOT = Path(__file__).resolve().parent.parent
# The toolchain: a program says by which line it was made, and what its source held.
RT = """#!/bin/sh
case $1 in
version) cat "{kit}/line" ;;
doc) echo "{kit}/page" ;;
lib) mkdir -p out/rlib && echo built >out/rlib/low.rlib ;;
run) echo run >>"{kit}/runs"
    grep -q broken src/main.rt && exit 1
    program=out/$(basename "$PWD")
    mkdir -p out && echo "#!/bin/sh" >$program
    echo "echo $(cat "{kit}/line") $(cat src/main.rt) \\"\\$@\\"" >>$program
    chmod +x $program ;;
esac
"""
LONG_AGO = time.time() - 10**6
# The programs that ./silc build makes.
PROGRAMS = ("silc_main", "silc_show", "silc_place", "silc_same")


class Room:
    """A repository whose `silc` is built by the script, and what has been seen to be wrong there."""

    def __init__(self, folder: Path) -> None:
        self.kit, self.top, self.faults = folder / "kit", folder / "top", []
        # Whether each call of ./silc is to build what is old, and what the last one said.
        self.is_asked, self.said = False, ""
        self.kit.mkdir()
        sources = [self.top / "crates" / name / "src" / "main.rt" for name in PROGRAMS]
        self.source, self.low = sources[0], self.top / "crates" / "low" / "src" / "lib.rt"
        for file, text in zip([*sources, self.low], ["first", "layer", "plan", "microcode", "low"]):
            file.parent.mkdir(parents=True)
            file.write_text(text)
        for name in ("specs", "proofs"):
            (self.low.parent.parent / name).mkdir()
        (self.top / "crates.txt").write_text("low:\nsilc_main: low\nsilc_show:\nsilc_place:\nsilc_same:\n")
        (self.top / "HANDLES").write_text("Handles allowed: none.\n")
        (self.top / "tools").mkdir()
        for name in ("tools/build", "silc"):
            shutil.copy2(ROOT / name, self.top / name)
        for name, text in (("line", "kit-1\n"), ("page", "a page\n"), ("rt", RT.format(kit=self.kit))):
            (self.kit / name).write_text(text)
        (self.kit / "rt").chmod(0o755)

    def run(self, *words: str | Path) -> tuple[int, str]:
        path = f"{self.kit}:{Path(sys.executable).parent}:/usr/bin:/bin"
        asked = {"SILC_BUILD": "1" if self.is_asked else ""}
        done = subprocess.run(words, env=os.environ | asked | {"PATH": path}, stdin=subprocess.DEVNULL,
                              capture_output=True, text=True)
        self.said = done.stderr
        return done.returncode, done.stdout.strip()

    def builds(self) -> int:
        runs = self.kit / "runs"
        return runs.read_text().count("run") if runs.exists() else 0

    def expect(self, what: str, said: str, more: int, *words: str | Path, status: int = 0) -> None:
        """Runs the words, or ./silc, which are to end so, print so, and build so many times."""
        before = self.builds()
        ended = self.run(*(words or (self.top / "silc", "list", "b")))
        if ended != (status, said) or self.builds() - before != more:
            self.faults.append(
                f"{what}: {ended}, {self.builds() - before} builds, in the place of {(status, said)}, {more}")

    def expect_refusal(self, what: str, *said: str) -> None:
        """Runs ./silc, which is to build nothing, and to say what would be built and how."""
        self.expect(what, "", 0, status=69)
        lines = self.said.splitlines()
        if len(lines) != 2 or not lines[0].startswith("build: silc_main: ") or f"'{self.top}/silc build'" not in lines[
                1] or \
                any(text not in self.said for text in said):
            self.faults.append(f"{what}: it says {self.said!r}")


def check_unasked(room: Room) -> None:
    """Nothing is built that was not asked for."""
    silc = room.top / "silc"
    room.expect_refusal("nothing is built, and nothing was asked for", "2 crates are to be proved and built",
                        " min or so")
    room.expect("a program of its own is not built", "", 0, silc, "same", "a", "b", status=69)
    room.expect("what is asked for", "", len(PROGRAMS), silc, "build")
    room.expect("once more", "", 0, silc, "build")
    room.expect("it is built", "kit-1 first list b", 0)
    room.expect("a layer", "kit-1 layer a b", 0, silc, "show", "a", "b")
    room.expect("a plan", "kit-1 plan a b c", 0, silc, "place", "a", "b", "c")
    room.expect("microcode", "kit-1 microcode a b", 0, silc, "same", "a", "b")
    room.source.touch()
    room.expect("a source is touched and holds the same", "kit-1 first list b", 0)
    room.source.write_text("other")
    room.expect_refusal("a source holds something else", "only what changed is proved anew")
    room.source.write_text("first")
    room.expect("it holds what it held", "kit-1 first list b", 0)
    (room.top / "RELEASE").touch()
    room.source.write_text("other")
    room.expect("a release looks at no source", "kit-1 first list b", 0)
    room.expect("a release builds nothing", "", 0, silc, "build", status=69)
    (room.top / "RELEASE").unlink()
    room.source.write_text("first")
    for name in PROGRAMS:
        shutil.rmtree(room.top / "crates" / name / "out")


def check(room: Room) -> None:
    room.is_asked = True
    room.expect("nothing is built", "kit-1 first list b", 1)
    room.expect("nothing has changed", "kit-1 first list b", 0)
    link = room.kit / "link"
    link.symlink_to(room.top / "silc")
    room.expect("through a symbolic link", "kit-1 first list b", 0, link, "list", "b")
    room.source.touch()
    room.expect("a source is touched and holds the same", "kit-1 first list b", 0)
    room.source.write_text("second")
    os.utime(room.source, (LONG_AGO, LONG_AGO))
    room.expect("a source has other bytes and an old time", "kit-1 second list b", 1)
    room.low.write_text("lower")
    room.expect("a source below has other bytes", "kit-1 second list b", 1)
    (room.low.parent / "more.rt").write_text("more")
    room.expect("a source more", "kit-1 second list b", 1)
    (room.low.parent / "more.rt").unlink()
    room.expect("a source less", "kit-1 second list b", 1)
    (room.kit / "line").write_text("kit-2\n")
    (room.kit / "page").write_text("another page\n")
    room.expect("another toolchain", "kit-2 second list b", 1)
    room.source.write_text("broken")
    room.expect("a source that is not built", "", 1, status=70)
    room.source.write_text("third")
    room.expect("a source that is mended", "kit-2 third list b", 1)
    room.expect("no program of this name", "", 0, room.top / "tools" / "build", "low", status=2)
    (room.kit / "rt").unlink()
    room.expect("no toolchain, and nothing has changed", "kit-2 third list b", 0)
    room.source.write_text("fourth")
    room.expect("no toolchain, and another source", "", 0, status=70)


def main() -> int:
    with tempfile.TemporaryDirectory(prefix="silc-build-test-") as folder:
        room = Room(Path(folder).resolve())
        check_unasked(room)
        check(room)
    for fault in room.faults:
        print(fault)
    print(f"build: {len(room.faults)} faults")
    return 1 if room.faults else 0


if __name__ == "__main__":
    sys.exit(main())
