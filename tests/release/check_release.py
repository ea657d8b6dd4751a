#!/usr/bin/env python3
"""Whether tools/release packs what it should and nothing else, gives equal bytes for equal inputs, and refuses a
program that is not made from the sources at hand.

usage: tests/release/check_release.py

It packs a copy of this repository, whose programs are played by scripts. Without dpkg-deb it is skipped, and ends with
77.
"""
import hashlib
import os
import shutil
import subprocess
import sys
import tarfile
import tempfile
import time
from pathlib import Path

from copies import LINE, ROOT, VARIABLES, copy_of, module_of, users

SKIPPED = 77
VERSION = "7.8.9"
PLAYED = f'#!/bin/sh\necho "silc {VERSION}"\n'
NAMES = {f"silc-{VERSION}-linux-x86_64.tar.gz", f"silc_{VERSION}_amd64.deb", "SHA256SUMS"}
TOP = f"silc-{VERSION}"
# What a user needs, and what is no user's.
WANTED = ("silc", "RELEASE", "README.md", *(f"crates/{name}/out/{name}" for name in VARIABLES), "docs/TUTORIAL.md",
          "docs/pictures/smooth.svg", "completions/silc.bash", "completions/_silc", "editor/lsp/silc-lsp",
          "hardware/silc_parts.v", "examples/biquads/biquads.sil", "examples/pipeline")
UNWANTED = ("tools/build", "tools/release", "tools/trusted", "tools/antt/modules.py", "tests/all", "crates.txt",
            "examples/run", "examples/plans", "crates/low/src/lib.rt", "docs/junk.txt")


class Room:
    """A copy of the repository, and what has been seen to be wrong there."""

    def __init__(self, folder: Path) -> None:
        self.folder, self.top, self.faults = folder, folder / "top", []
        script = folder / "script"
        script.write_text(PLAYED)
        script.chmod(0o755)
        self.programs = dict.fromkeys(VARIABLES, script)
        copy_of(self.top, self.programs, most=20)
        (self.top / "docs" / "__pycache__").mkdir()
        (self.top / "docs" / "__pycache__" / "junk.pyc").touch()

    def release(self, out: str, **more: str) -> tuple[subprocess.CompletedProcess[str], dict[str, bytes]]:
        """Packs into a folder of this name, and gives how that ended with the files that are there."""
        done = subprocess.run([self.top / "tools" / "release", self.folder / out], env=users(self.folder, **more),
                              cwd=self.folder, stdin=subprocess.DEVNULL, capture_output=True, text=True)
        made = {path.name: path.read_bytes() for path in (self.folder / out).glob("*")}
        return done, made

    def expect(self, holds: object, what: str) -> None:
        if not holds:
            self.faults.append(what)


def check_refusals(room: Room) -> None:
    """No program, none that says of what it is made, one of other sources, and programs of two toolchains."""
    kept = room.top / "crates" / "silc_main" / "out"
    source = room.top / "crates" / "low" / "src" / "lib.rt"

    def refused(what: str, said: str = "silc_main is not made from the sources at hand") -> None:
        done, made = room.release("refused")
        room.expect(done.returncode == 1 and said in done.stderr and not made,
                    f"{what}: {done.returncode} {done.stderr!r} {set(made)}")

    for file in ("silc_main", "silc_main.made-from"):
        (kept / file).rename(room.folder / "away")
        refused(f"without {file}")
        (room.folder / "away").rename(kept / file)
    for name in VARIABLES:
        (room.top / "crates" / name / "out" / name).rename(room.folder / "away")
        refused(f"without {name}", f"{name} is not made from the sources at hand")
        (room.folder / "away").rename(room.top / "crates" / name / "out" / name)
    source.write_text("other")
    refused("a source that changed")
    source.write_text("low")
    told = (kept / "silc_main.made-from").read_text()
    (kept / "silc_main.made-from").write_text("another line\n" + told.split("\n", 1)[1])
    if told.startswith(LINE):
        refused("programs of two toolchains", "toolchains of different lines")
    (kept / "silc_main.made-from").write_text(told)
    # The shell needs a library for terminals.
    shutil.copy2(shutil.which("bash"), kept / "silc_main")
    refused("a program that needs more than the C library", "silc_main needs libtinfo")
    shutil.copy2(room.programs["silc_main"], kept / "silc_main")


def check_strangers(room: Room) -> None:
    """A file that no tool made stays, and then nothing is packed."""
    (room.folder / "strange").mkdir()
    (room.folder / "strange" / "SHA256SUMS").write_text("of the user\n")
    done, made = room.release("strange")
    room.expect(done.returncode == 1 and "--force writes over it" in done.stderr
                and made == {"SHA256SUMS": b"of the user\n"},
                f"a user's file: {done.returncode} {done.stderr!r} {set(made)}")


def check_bytes(room: Room) -> None:
    """The same inputs, with other times, rights and places in their folders, and read under another mask and zone."""
    first, made = room.release("first")
    room.expect(first.returncode == 0 and set(made) == NAMES, f"{first.returncode} {first.stderr!r} {set(made)}")
    if set(made) != NAMES:
        return
    for number, path in enumerate(room.top.rglob("*")):
        if path.is_file():
            os.utime(path, (number, number))
            if os.geteuid() == 0:
                os.chown(path, number, number)
            if number % 3 == 0:
                data, mode = path.read_bytes(), path.stat().st_mode
                path.unlink()
                path.write_bytes(data)
                path.chmod(mode)
    mask = os.umask(0o077)
    again, others = room.release("again", TZ="Asia/Tokyo", LC_ALL="C")
    os.umask(mask)
    for name in sorted(NAMES):
        room.expect(made.get(name) == others.get(name), f"{name} has other bytes: {again.stderr!r}")
    later, others = room.release("later", SOURCE_DATE_EPOCH="1700000000")
    room.expect(others.keys() == NAMES and all(others[name] != made[name] for name in NAMES),
                f"another time: {later.stderr!r}")
    for line in made["SHA256SUMS"].decode().splitlines():
        told, name = line.split("  ")
        room.expect(hashlib.sha256(made[name]).hexdigest() == told, f"the sum of {name} is another")
    room.expect(made["SHA256SUMS"].decode().count("\n") == len(NAMES) - 1, "there are other sums")


def check_tarball(room: Room) -> None:
    """What is packed, whose it is, and what its RELEASE says."""
    with tarfile.open(room.folder / "first" / f"{TOP}-linux-x86_64.tar.gz") as tar:
        members = tar.getmembers()
        held = {member.name.removeprefix(f"{TOP}/"): member for member in members}
        told = tar.extractfile(held["RELEASE"]).read().decode()
        tar.extractall(room.folder / "unpacked", filter="data")
    room.expect([member.name for member in members]
                == sorted((member.name for member in members), key=lambda name: name.split("/")),
                "the names are in no order")
    room.expect({(member.uid, member.gid, member.uname, member.mtime) for member in members}
                == {(0, 0, "root", members[0].mtime)}, "owners or times differ")
    room.expect({member.mode for member in members if not member.issym()} == {0o644, 0o755}, "there are other rights")
    release = module_of(ROOT / "tools" / "release")
    words = {name for name in os.listdir(room.top / "tools") if (room.top / "tools" / name).is_file()}
    for name in [*WANTED, *(f"tools/{word}" for word in words - {"build", "release"})]:
        room.expect(name in held, f"{name} is not packed")
    for name in [name for name in held if name in UNWANTED or release.CLEAN in name]:
        room.expect(False, f"{name} is packed")
    for name in ("silc", "crates/silc_main/out/silc_main", "tools/draw"):
        room.expect(held[name].mode == 0o755, f"{name} is no program")
    made_from = (room.top / "crates" / "silc_main" / "out" / "silc_main.made-from").read_text().splitlines()
    for line in (f"silc {VERSION}", f"toolchain: {made_from[0]}", f"sources of silc_main: {made_from[1]}",
                 *(f"program {name}: {hashlib.sha256(PLAYED.encode()).hexdigest()}" for name in VARIABLES),
                 "commit: unknown"):
        room.expect(line in told.splitlines(), f"RELEASE has no line {line!r}: {told!r}")
    for words in (["--version"], ["place", "--version"], ["same", "a", "b"], ["show", "a"]):
        said = subprocess.run([room.folder / "unpacked" / TOP / "silc", *words], env=users(room.folder),
                              capture_output=True, text=True)
        room.expect(said.stdout == f"silc {VERSION}\n", f"what is unpacked says {said.stdout!r} {said.stderr!r}")


def check_package(room: Room) -> None:
    """The package has the files of the tarball, and its version is what the program says."""
    deb = room.folder / "first" / f"silc_{VERSION}_amd64.deb"
    field = subprocess.run(["dpkg-deb", "-f", deb, "Version", "Package"], capture_output=True, text=True).stdout
    room.expect(field == f"Version: {VERSION}\nPackage: silc\n" or field == f"Package: silc\nVersion: {VERSION}\n",
                f"fields: {field!r}")
    tree = room.folder / "installed"
    subprocess.run(["dpkg-deb", "-x", deb, tree], check=True)
    same = subprocess.run(["diff", "-r", tree / "usr" / "lib" / "silc", room.folder / "unpacked" / TOP],
                          capture_output=True, text=True)
    room.expect(same.returncode == 0, f"the package and the tarball differ: {same.stdout[:500]!r}")
    for link in ("usr/bin/silc", "usr/share/bash-completion/completions/silc",
                 "usr/share/zsh/vendor-completions/_silc"):
        room.expect((tree / link).is_symlink() and (tree / link).exists(), f"{link} leads nowhere")
    said = subprocess.run([tree / "usr" / "bin" / "silc", "--version"], env=users(room.folder), capture_output=True,
                          text=True)
    room.expect(said.stdout == f"silc {VERSION}\n", f"what is installed says {said.stdout!r} {said.stderr!r}")
    listed = subprocess.run(["dpkg-deb", "-c", deb], capture_output=True, text=True).stdout.splitlines()
    room.expect({line.split()[1] for line in listed} == {"root/root"}, "the package has other owners")


def check_git(room: Room) -> None:
    """Of a repository of git's what it knows is packed, with the time of the commit; and changes are told."""
    git = ["git", "-C", room.top, "-c", "user.name=x", "-c", "user.email=x", "-c", "commit.gpgsign=false"]
    date = {"GIT_COMMITTER_DATE": "1600000000 +0000", "GIT_AUTHOR_DATE": "1600000000 +0000"}
    for words in (["init", "-q"], ["add", "-A", "-f", "--", ":!docs/__pycache__"], ["commit", "-qm", "x"]):
        subprocess.run([*git, *words], check=True, env=users(room.folder, **date), stdin=subprocess.DEVNULL)
    commit = subprocess.run([*git, "rev-parse", "HEAD"], capture_output=True, text=True,
                            env=users(room.folder)).stdout.strip()
    (room.top / "docs" / "junk.txt").touch()
    for out, told in (("clean", f"commit: {commit}\n"), ("changed", f"commit: {commit}, with changes\n")):
        done, made = room.release(out)
        room.expect(set(made) == NAMES, f"of git's: {done.stderr!r}")
        with tarfile.open(room.folder / out / f"{TOP}-linux-x86_64.tar.gz") as tar:
            room.expect(f"{TOP}/docs/junk.txt" not in tar.getnames(), "a file is packed that git does not know")
            room.expect(tar.getmember(f"{TOP}/silc").mtime == 1_600_000_000, "the time is not that of the commit")
            room.expect(tar.extractfile(f"{TOP}/RELEASE").read().decode().endswith(told),
                        f"RELEASE does not end with {told!r}")
        (room.top / "README.md").write_text("other")


def main() -> int:
    if not shutil.which("dpkg-deb"):
        print("release: skipped, since there is no dpkg-deb: apt-get install dpkg")
        return SKIPPED
    began = time.monotonic()
    with tempfile.TemporaryDirectory(prefix="silc-release-test-") as folder:
        room = Room(Path(folder).resolve())
        checks = [check_refusals, check_strangers, check_bytes, check_tarball, check_package]
        checks += [check_git] if shutil.which("git") else []
        for check in checks:
            check(room)
    for fault in room.faults:
        print(fault)
    print(f"release: {len(room.faults)} faults, {time.monotonic() - began:.0f} s")
    return 1 if room.faults else 0


if __name__ == "__main__":
    sys.exit(main())
