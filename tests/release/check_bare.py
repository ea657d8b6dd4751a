#!/usr/bin/env python3
"""Whether the Debian package installs on a bare Debian, gives there what docs/TUTORIAL.md shows, and goes away whole.

usage: tests/release/check_bare.py [ROOT]

It packs the built programs, or those that `SILC`, `SILC_SHOW`, `SILC_PLACE` and `SILC_SAME` name, and installs the
package in a root that debootstrap makes, with Python beside what is essential, or in a copy of the root ROOT that was
made so before. It needs root, and to make a root the network and some minutes. Without debootstrap, dpkg-deb or the
rights it is skipped, and ends with 77; without a program 70.
"""
import os
import shlex
import shutil
import subprocess
import sys
import tempfile
from collections.abc import Iterator
from pathlib import Path

from check_session import PICTURE, SKIPPED, released, tutorial
from check_tutorial import MARK, faults_of, script_of

USER, HOME = "1234:1234", "/home/user"
PATH = "/usr/local/sbin:/usr/local/bin:/usr/sbin:/usr/bin:/sbin:/bin"


def lacking(words: list[str]) -> str | None:
    """What is not there that makes a root, with what brings it."""
    if os.geteuid() != 0:
        return "only root makes a root and goes into it"
    if not words and not shutil.which("debootstrap"):
        return "there is no debootstrap: apt-get install debootstrap"
    return None


# Shows the root its processes, where the host allows that, and goes into it.
ENTER = 'mount -t proc proc "$0/proc" 2>/dev/null; exec chroot "$@"'


def inside(root: Path, *words: str | Path, user: str = "0:0") -> subprocess.CompletedProcess[str]:
    """Runs a command in the root."""
    return subprocess.run(["unshare", "--mount", "sh", "-c", ENTER, root, f"--userspec={user}", root, *words],
                          text=True, stdin=subprocess.DEVNULL, stdout=subprocess.PIPE, stderr=subprocess.STDOUT,
                          env={"PATH": PATH, "HOME": HOME, "LC_ALL": "C.UTF-8"})


def made_root(root: Path, words: list[str]) -> None:
    if words:
        subprocess.run(["cp", "-a", f"{words[0]}/.", root], check=True)
    else:
        subprocess.run(["debootstrap", "--variant=minbase", "--include=python3", "stable", root], check=True,
                       stdin=subprocess.DEVNULL, stdout=subprocess.DEVNULL)
    (root / HOME.strip("/")).mkdir(parents=True)
    os.chown(root / HOME.strip("/"), *map(int, USER.split(":")))


def page_faults(root: Path) -> Iterator[str]:
    """What the commands of the page give there in another way, for a user who has nothing."""
    page, blocks, shown = tutorial()
    done = inside(root, "bash", "-c", f"cd {shlex.quote(HOME)}\n{script_of(blocks)}pwd", user=USER)
    *outputs, last = done.stdout.split(MARK + "\n")
    picture = root / last.strip().strip("/") / PICTURE
    yield from faults_of(page, shown, outputs, {PICTURE: picture.read_text() if picture.is_file() else ""})


def faults_in(root: Path, package: Path) -> Iterator[str]:
    """Installs the package, runs the page and takes the package away."""
    if shutil.which("rt", path=":".join(f"{root}{folder}" for folder in PATH.split(":"))):
        yield "the toolchain is there"
    shutil.copy2(package, root / "silc.deb")
    installed = inside(root, "dpkg", "-i", "/silc.deb")
    if installed.returncode:
        yield f"dpkg -i ends with {installed.returncode}: {installed.stdout}"
        return
    version = inside(root, "dpkg-query", "-W", "-f", "silc ${Version}\n", "silc").stdout
    if inside(root, "silc", "--version", user=USER).stdout != version:
        yield f"the package is {version!r}, and the program another"
    if inside(root, "dpkg", "--verify", "silc").stdout:
        yield "dpkg --verify finds changes"
    yield from page_faults(root)
    inside(root, "silc", "check", "/usr/lib/silc/examples/biquads/biquads.sil")
    removed = inside(root, "dpkg", "-r", "silc")
    left = [str(path) for path in (root / "usr/lib/silc", root / "usr/bin/silc") if path.exists() or path.is_symlink()]
    if removed.returncode or left:
        yield f"dpkg -r ends with {removed.returncode} and leaves {left}: {removed.stdout}"


def main(words: list[str]) -> int:
    if len(words) > 1 or words[:1] == ["--help"]:
        print(__doc__, file=sys.stderr)
        return 2
    why = lacking(words)
    if why:
        print(f"bare: skipped, since {why}")
        return SKIPPED
    with tempfile.TemporaryDirectory(prefix="silc-bare-") as folder:
        room = Path(folder).resolve()
        made = released(room)
        if isinstance(made, int):
            return made
        root = room / "root"
        root.mkdir()
        made_root(root, words)
        root.chmod(0o755)
        faults = list(faults_in(root, made[".deb"]))
    for fault in faults:
        print(fault)
    print(f"bare: {len(faults)} faults")
    return 1 if faults else 0


if __name__ == "__main__":
    sys.exit(main(sys.argv[1:]))
