#!/usr/bin/env python3
"""Whether tools keep inputs and files that no tool made, and make files whole or not at all
(`python/silc/made_files.py`).

usage: tests/check_made_files.py
"""
import errno
import os
import re
import resource
import sys
import tempfile
from collections.abc import Callable, Iterator
from pathlib import Path

from silc.made_files import MadeFiles, NotMade, put_whole, record_file

ROOT = Path(__file__).resolve().parent.parent
# A line that writes to a file of the repository, which is named by a constant, as it is.
PLAIN = re.compile(r"\b[A-Z][A-Z_]+(?: / [^()\n]+\))?\.write_(?:text|bytes)\(")


class Stopped(Exception):
    """What ends a write in its midst."""


def refused(act: Callable) -> str:
    try:
        act()
    except NotMade as why:
        return str(why)
    return "done"


def half(files: MadeFiles, name: str) -> None:
    try:
        with files.opened(name) as file:
            file.write(b"half")
            file.flush()
            raise Stopped
    except Stopped:
        pass


def inputs() -> Iterator[tuple]:
    """No option makes a tool write over an input of its own, or over another output."""
    Path("in").write_text("kept")
    os.symlink("in", "link")
    os.link("in", "hard")
    for name, more in (("in", ""), ("./in", " by another name"), ("link", " by another name"),
                       ("hard", " by another name")):
        files = MadeFiles(["in"], is_forced=True)
        yield f"write {name}", refused(lambda: files.write(name, "new")), f"{name} is the input in{more}"
        yield f"look at {name}", refused(lambda: files.look_at(name)), f"{name} is the input in{more}"
    yield "the input", Path("in").read_text(), "kept"
    files = MadeFiles()
    files.write("one", "1")
    yield "two outputs", refused(lambda: files.write("./one", "2")), "./one and one are one output"


def strangers() -> Iterator[tuple]:
    """A file is written over where a tool made it and nobody changed it since, or where that is asked for."""
    Path("own").write_text("own")
    why = "own is there, and not as a tool made it; --force writes over it"
    yield "look", refused(lambda: MadeFiles().look_at("own")), why
    yield "write", refused(lambda: MadeFiles().write("own", "new")), why
    yield "own", Path("own").read_text(), "own"
    yield "the same content", refused(lambda: MadeFiles().write("own", "own")), "done"
    Path("own").write_text("changed")
    yield "changed since", refused(lambda: MadeFiles().write("own", "new")), why
    yield "forced", refused(lambda: MadeFiles(is_forced=True).write("own", "new")), "done"
    yield "made", refused(lambda: MadeFiles().write("own", "newer")), "done"
    with open(record_file(), "ab") as record:
        record.write(b"\xff\n")
    yield "made, with a record that is no text", refused(lambda: MadeFiles().write("own", "newest")), "done"


def whole() -> Iterator[tuple]:
    """A file appears whole or not at all, with the rights that it had."""
    MadeFiles().write("rows", "before")
    os.chmod("rows", 0o640)
    half(MadeFiles(), "rows")
    half(MadeFiles(), "none")
    yield "stopped", Path("rows").read_text(), "before"
    yield "nothing is left", sorted(name for name in os.listdir() if name == "none" or name.endswith(".part")), []
    MadeFiles().write("rows", "after")
    yield "rights", os.stat("rows").st_mode & 0o777, 0o640
    old = os.umask(0o027)
    MadeFiles().write("new", "new")
    os.umask(old)
    yield "rights of a new file", os.stat("new").st_mode & 0o777, 0o640
    os.symlink("rows", "by-link")
    MadeFiles().write("by-link", "again")
    yield "through a link", (os.path.islink("by-link"), Path("rows").read_text()), (True, "again")
    name = "\u97f3" * 84
    MadeFiles().write(name, "long")
    yield "a long name", Path(name).read_text(), "long"
    yield "a folder", refused(lambda: MadeFiles(is_forced=True).look_at(".")), ". is a folder"


def folders() -> Iterator[tuple]:
    """Of a folder all files are made, or none where one is not the tool's. One that holds what is to be written may
    stay."""
    contents = {"first": "1", "second": b"2"}
    os.makedirs("there")
    Path("there", "second").write_text("of the user")
    yield "one of the user's", refused(lambda: MadeFiles().write_folder("there", contents)), \
        "there/second is there, and not as a tool made it; --force writes over it"
    yield "none is made", sorted(os.listdir("there")), ["second"]
    Path("there", "second").write_text("2")
    MadeFiles().write_folder("there", contents)
    MadeFiles().write_folder("new/folder", contents)
    for name in ("there", "new/folder"):
        yield name, [Path(name, one).read_text() for one in sorted(os.listdir(name))], ["1", "2"]
    Path("in").write_text("kept")
    yield "over an input", refused(lambda: MadeFiles(["in"], True).write_folder(".", contents | {"in": "3"})), \
        "./in is the input in by another name"
    yield "beside an input", [os.path.exists("first"), Path("in").read_text()], [False, "kept"]


def put_within(size: int, name: str, text: str) -> str:
    """Puts a page where no file may be longer, and tells how that ended."""
    limits = resource.getrlimit(resource.RLIMIT_FSIZE)
    resource.setrlimit(resource.RLIMIT_FSIZE, (size, limits[1]))
    try:
        put_whole(Path(name), text)
    except OSError as why:
        return errno.errorcode[why.errno or 0]
    finally:
        resource.setrlimit(resource.RLIMIT_FSIZE, limits)
    return "done"


def pages() -> Iterator[tuple]:
    """A page that a tool keeps is replaced whoever wrote it, whole or not at all, and by each script that has one."""
    Path("page").write_text("by hand")
    os.chmod("page", 0o640)
    os.symlink("page", "link")
    put_whole(Path("link"), "new")
    yield "a page by a link", (Path("page").read_text(), os.stat("page").st_mode & 0o777), ("new", 0o640)
    yield "a full disk", put_within(4, "page", "longer"), "EFBIG"
    yield "what is left", (Path("page").read_text(), sorted(os.listdir())), ("new", ["link", "page"])
    for part in ("tools", "tests", "bench"):
        for file in filter(Path.is_file, (ROOT / part).rglob("*")):
            if not file.suffix or file.suffix == ".py":
                yield str(file.relative_to(ROOT)), PLAIN.findall(file.read_text(errors="replace")), []


def streams() -> Iterator[tuple]:
    """A descriptor goes on where it is, and no name of it is opened anew."""
    with open("log", "wb+") as log:
        log.write(b"before\n")
        log.flush()
        MadeFiles().write(f"/dev/fd/{log.fileno()}", "row\n")
    yield "a log", Path("log").read_text(), "before\nrow\n"
    yield "a device", refused(lambda: MadeFiles().write("/dev/null", "row\n")), "done"


def main() -> int:
    faults, count = [], 0
    with tempfile.TemporaryDirectory(prefix="silc-made-") as folder:
        os.environ["XDG_STATE_HOME"] = os.path.join(folder, "states")
        for part in (inputs, strangers, whole, folders, pages, streams):
            room = Path(folder, part.__name__)
            room.mkdir()
            os.chdir(room)
            for what, got, expected in part():
                count += 1
                if got != expected:
                    faults.append(f"made files: {part.__name__}: {what}: {got!r} in the place of {expected!r}")
        os.chdir(ROOT)
    print("\n".join([*faults, f"made files: {count} answers, {len(faults)} faults"]))
    return 1 if faults else 0


if __name__ == "__main__":
    sys.exit(main())
