"""The files that a tool makes: none replaces an input, or a file that no tool made, and each appears whole or not at
all.

A tool names its inputs, looks at each output before it works, and then writes it:

    files = MadeFiles(inputs=[options.source, options.samples], is_forced=options.force)
    files.look_at(options.picture)         # before a long work
    files.write(options.picture, text)

What tools made is known by a record of sums, `silc/made` in the user's folder of states: a file whose content is there
was made by a tool and is as it was made, so it may be written over. So may one that already holds what is to be
written. Any other needs `--force`. A device, a pipe or a descriptor, as /dev/stdout, is written to as it is.
"""
import hashlib
import os
import re
import tempfile
from argparse import ArgumentParser
from collections.abc import Callable, Iterable, Iterator, Mapping
from contextlib import contextmanager
from pathlib import Path
from typing import IO, TypeAlias

# The name of a file, as a user gives it.
Name: TypeAlias = str | os.PathLike[str]

# How many sums the record keeps, the newest, and with how many bytes it is cut to these.
MOST_SUMS, CUT_AT = 20_000, 4 << 20
PIECE = 1 << 20
DESCRIPTOR = re.compile(r"/dev/(stdout|stderr|fd/(\d+))")
NUMBERS = {"stdout": 1, "stderr": 2}
FORCE = "--force"


class NotMade(ValueError):
    """Why an output is not written."""


def record_file() -> Path:
    """Where the sums are of what tools made."""
    states = os.environ.get("XDG_STATE_HOME", "")
    states = states if os.path.isabs(states) else os.path.join(os.path.expanduser("~"), ".local", "state")
    return Path(states) / "silc" / "made"


def sum_of(file: Name) -> str:
    """The sum of a file's content."""
    made = hashlib.sha256()
    with open(file, "rb") as source:
        while piece := source.read(PIECE):
            made.update(piece)
    return made.hexdigest()


def record(file: Name) -> None:
    """Adds a file to what tools made. Where there is no place for a record, the next run asks for `--force`."""
    sums = record_file()
    try:
        sums.parent.mkdir(parents=True, exist_ok=True)
        if sums.exists() and sums.stat().st_size > CUT_AT:
            newest = sums.read_text("ascii", "replace").splitlines()[-MOST_SUMS:]
            put_whole(sums, "".join(f"{line}\n" for line in newest).encode())
        with open(sums, "a", encoding="ascii") as rows:
            rows.write(f"{sum_of(file)}\n")
    except OSError:
        pass


def is_recorded(file: Name) -> bool:
    """Whether a tool made this file, and nobody changed it since."""
    try:
        with open(record_file(), encoding="ascii", errors="replace") as rows:
            wanted = sum_of(file)
            return any(row.rstrip("\n") == wanted for row in rows)
    except OSError:
        return False


@contextmanager
def whole(target: Path) -> Iterator[IO[bytes]]:
    """A file under a name of its own beside the target, which takes the target's place where all went well."""
    made = tempfile.NamedTemporaryFile(dir=target.parent, prefix=f".{target.name[:40]}.", suffix=".part", delete=False)
    try:
        with made:
            yield made
            made.flush()
            os.fsync(made.fileno())
        os.chmod(made.name, target.stat().st_mode & 0o7777 if target.exists() else 0o666 & ~mask())
        os.replace(made.name, target)
    except BaseException:
        os.unlink(made.name)
        raise


def mask() -> int:
    """The rights that a new file does not get."""
    own = os.umask(0)
    os.umask(own)
    return own


def put_whole(target: Path, content: str | bytes) -> None:
    """Makes a file that a tool keeps, as a page of the docs, whoever wrote what is there."""
    with whole(Path(os.path.realpath(target))) as file:
        file.write(content.encode() if isinstance(content, str) else content)


class MadeFiles:
    """The outputs of one run of a tool."""

    def __init__(self, inputs: Iterable[Name | None] = (), is_forced: bool = False) -> None:
        self.inputs = [os.fspath(name) for name in inputs if name is not None]
        self.is_forced = is_forced
        self.outputs: dict[str, str] = {}

    def look_at(self, name: Name | None) -> None:
        """Raises `NotMade` where an output may not be written, before a long work. Nothing, where `name` is none."""
        if name is not None and not is_stream(name):
            self.check(name)
            if os.path.exists(name) and not self.may_replace(name):
                raise in_the_way(name)

    def write(self, name: Name, content: str | bytes) -> None:
        """Makes a file of a text or of bytes."""
        data = content.encode() if isinstance(content, str) else content
        with self.opened(name, is_same=lambda: holds(name, data)) as file:
            file.write(data)

    def write_folder(self, folder: Name, contents: Mapping[str, str | bytes]) -> None:
        """Makes the files of a folder by their names, and the folder: none of them, where one may not be written."""
        names: dict[str, bytes] = {os.path.join(folder, name): content.encode() if isinstance(content, str) else content
                                   for name, content in contents.items()}
        for name, content in names.items():
            if not (os.path.isfile(name) and holds(name, content)):
                self.look_at(name)
        os.makedirs(folder, exist_ok=True)
        for name, content in names.items():
            self.write(name, content)

    @contextmanager
    def opened(self, name: Name, is_same: Callable[[], bool] = lambda: False) -> Iterator[IO[bytes]]:
        """A file of bytes that is there, under its name, once the block is left without a fault."""
        if is_stream(name):
            with stream(name) as file:
                yield file
            return
        self.check(name)
        if os.path.exists(name) and not is_same() and not self.may_replace(name):
            raise in_the_way(name)
        target = Path(os.path.realpath(name))
        try:
            with whole(target) as file:
                yield file
        except OSError as fault:
            raise OSError(fault.errno, fault.strerror, fault.filename if is_other(fault, target) else name) from fault
        record(target)

    def may_replace(self, name: Name) -> bool:
        return self.is_forced or is_recorded(name)

    def check(self, name: Name) -> None:
        """Raises `NotMade` where an output is an input, another output, a folder or a file that nobody may write."""
        if os.path.isdir(name):
            raise NotMade(f"{name} is a folder")
        for other in filter(os.path.exists, self.inputs):
            if os.path.exists(name) and os.path.samefile(other, name):
                raise NotMade(f"{name} is the input {other}" + ("" if os.fspath(name) == other else " by another name"))
        if os.path.exists(name) and not may_be_written(name):
            raise NotMade(f"{name} may not be written")
        first = self.outputs.setdefault(os.path.realpath(name), os.fspath(name))
        if first != os.fspath(name):
            raise NotMade(f"{name} and {first} are one output")


def may_be_written(name: Name) -> bool:
    """Whether a file is one to write to: not one from which the right was taken, whoever this is."""
    return os.access(name, os.W_OK) and os.stat(name).st_mode & 0o222 != 0


def is_other(fault: OSError, target: Path) -> bool:
    """Whether a fault of the host is of a file that a user knows, and not of the one that is being made."""
    return fault.filename is not None and Path(fault.filename).parent != target.parent


def in_the_way(name: Name) -> NotMade:
    return NotMade(f"{name} is there, and not as a tool made it; {FORCE} writes over it")


def is_stream(name: Name) -> bool:
    """Whether a name is a descriptor of this process, a device, a pipe or a socket, which have no content to keep."""
    return DESCRIPTOR.fullmatch(os.fspath(name)) is not None or os.path.exists(name) and not (
        os.path.isfile(name) or os.path.isdir(name))


def stream(name: Name) -> IO[bytes]:
    """A stream to write to. A descriptor goes on where it is: by its name it would be opened anew, and emptied."""
    found = DESCRIPTOR.fullmatch(os.fspath(name))
    if not found:
        return open(name, "wb")
    number = NUMBERS.get(found[1]) or int(found[2])
    return open(os.dup(number), "wb")


def holds(name: Name, content: bytes) -> bool:
    """Whether a file has just this content."""
    return os.path.getsize(name) == len(content) and Path(name).read_bytes() == content


def add_force(parser: ArgumentParser) -> None:
    """The option by which a file that no tool made is written over."""
    parser.add_argument(FORCE, action="store_true", help="write over files that no tool made")
