#!/usr/bin/env python3
"""Whether a user who has only what is released gets what docs/TUTORIAL.md shows: the tarball is unpacked, and the
commands of the page run in an empty HOME, with neither the toolchain nor this repository in the PATH.

usage: tests/release/check_session.py

It packs the built programs, or those that `SILC`, `SILC_SHOW`, `SILC_PLACE` and `SILC_SAME` name, with what this
repository has; the two last are given the page's plan and microcode. The exit status is 70 where a program is not
built, and 77 without dpkg-deb.
"""
import shutil
import subprocess
import sys
import tarfile
import tempfile
from collections.abc import Iterator
from pathlib import Path

from check_tutorial import BLOCK, CONSOLE, Command, carry_out, commands_in, faults_of
from copies import ROOT, built, copy_of, users

NOT_BUILT, SKIPPED = 70, 77
PICTURE = "smooth.svg"
RECORD = Path(".local/state/silc/made")


def released(room: Path) -> dict[str, Path] | int:
    """The files of a release of these programs, by their endings, or why there are none."""
    programs, missing = built()
    if missing:
        print(f"session: there is no program {missing[0]}: ./silc build builds it")
        return NOT_BUILT
    if not shutil.which("dpkg-deb"):
        print("session: skipped, since there is no dpkg-deb: apt-get install dpkg")
        return SKIPPED
    copy_of(room / "repository", programs)
    subprocess.run([room / "repository" / "tools" / "release", room / "release"], check=True, stdout=subprocess.DEVNULL,
                   env=users(room))
    return {path.suffix: path for path in (room / "release").iterdir()}


def tutorial() -> tuple[Path, list[tuple[str, ...]], list[Command]]:
    """The page, its blocks, and the commands with what it shows of them."""
    page = ROOT / "docs" / "TUTORIAL.md"
    blocks = [found.groups() for found in BLOCK.finditer(page.read_text())]
    return page, blocks, [command for language, _, part in blocks if language == CONSOLE
                          for command in commands_in(part)]


def session_faults(top: Path, room: Path) -> Iterator[str]:
    """What the commands give in another way than the page shows, where `silc` is that of a folder."""
    page, blocks, shown = tutorial()
    outputs, last = carry_out(blocks, top, users(room))
    drawn = {PICTURE: (last / PICTURE).read_text() if (last / PICTURE).is_file() else ""}
    yield from faults_of(page, shown, outputs, drawn)
    yield from placed_faults(top, last, room)


def placed_faults(top: Path, folder: Path, room: Path) -> Iterator[str]:
    """What the programs for others' plans and microcode say of the page's own."""
    for words in (["place", "smooth.sil", "small.toml", "smooth.schedule", "placed.mic"],
                  ["same", "smooth.sil", "placed.mic"]):
        done = subprocess.run([top / "silc", *words], cwd=folder, env=users(room), stdin=subprocess.DEVNULL,
                              capture_output=True, text=True)
        if (done.returncode, done.stdout, done.stderr) != (0, "", ""):
            yield f"{words} ends with {done.returncode}: {done.stdout!r} {done.stderr!r}"
            return
    if (folder / "placed.mic").read_bytes() != (folder / "smooth.mic").read_bytes():
        yield "the microcode of the page's plan is another than that of the page"


def trace_faults(top: Path) -> Iterator[str]:
    """The files that name this repository's folder."""
    for path in top.rglob("*"):
        if path.is_file() and f"{ROOT}/".encode() in path.read_bytes():
            yield f"{path.relative_to(top)} names {ROOT}"


def left_faults(home: Path) -> list[str]:
    """The files that the commands leave in HOME, but for the record of what tools made."""
    left = {path.relative_to(home) for path in home.rglob("*") if not path.is_dir()}
    return [f"the session leaves {path} in HOME" for path in sorted(left - {RECORD})]


def main() -> int:
    with tempfile.TemporaryDirectory(prefix="silc-session-") as folder:
        room = Path(folder).resolve()
        made = released(room)
        if isinstance(made, int):
            return made
        shutil.rmtree(room / "repository")
        with tarfile.open(made[".gz"]) as tar:
            tar.extractall(room, filter="data")
        top = next(room.glob("silc-*"))
        faults = [*session_faults(top, room), *trace_faults(top)]
        faults += left_faults(room / "home")
    for fault in faults:
        print(fault)
    print(f"session: {len(tutorial()[2])} commands of the tutorial, {len(faults)} faults")
    return 1 if faults else 0


if __name__ == "__main__":
    sys.exit(main())
