"""Runs of the proved programs: one process a call, rows through its standard streams, and files that it reads from
memory."""
from __future__ import annotations

import fcntl
import os
import subprocess
import threading
from collections.abc import Generator, Iterable, Iterator, Sequence
from contextlib import contextmanager
from typing import IO, Any, NamedTuple

# A word of a command, or the content of a file that stands in its place.
Word = str | bytes
STDIN, STDOUT = "/dev/stdin", "/dev/stdout"
# As many bytes a pipe holds where the host lets it, and are read at a time.
PIECE = 1 << 20
SET_PIPE_SIZE: int | None = getattr(fcntl, "F_SETPIPE_SZ", None)


class Answer(NamedTuple):
    """How a program ended: its exit status, what it printed, and what it said on standard error."""
    status: int
    out: bytes
    said: str


class Ended(Exception):
    """A program that ended with another status than 0."""

    def __init__(self, status: int, said: str) -> None:
        super().__init__(said or f"it ended with {status}")
        self.status, self.said = status, said


@contextmanager
def in_memory(words: Sequence[Word]) -> Iterator[tuple[list[str], list[int]]]:
    """The words of a command, in which each content is a file in memory, and the descriptors that its process needs."""
    made: list[str] = []
    held: list[int] = []
    try:
        for word in words:
            if isinstance(word, bytes):
                held.append(os.memfd_create("silc"))
                with open(os.dup(held[-1]), "wb") as file:
                    file.write(word)
                made.append(f"/dev/fd/{held[-1]}")
            else:
                made.append(word)
        yield made, held
    finally:
        for descriptor in held:
            os.close(descriptor)


def ran(program: str, words: Sequence[Word], given: bytes = b"") -> Answer:
    """Runs a program to its end, with `given` on its standard input."""
    with in_memory(words) as (named, held):
        # A pipe that is not there is none to wait for.
        source: dict[str, Any] = {"input": given} if given else {"stdin": subprocess.DEVNULL}
        done = subprocess.run([program, *named], capture_output=True, pass_fds=held, **source)
    return Answer(done.returncode, done.stdout, done.stderr.decode(errors="replace").strip())


class Feeder(threading.Thread):
    """Writes pieces to a program, which may end before it has them all. A fault of the pieces themselves is kept."""

    def __init__(self, to: IO[bytes], pieces: Iterable[bytes]) -> None:
        super().__init__(daemon=True)
        self.to, self.pieces = to, pieces
        self.fault: BaseException | None = None

    def run(self) -> None:
        try:
            for piece in self.pieces:
                self.to.write(piece)
                self.to.flush()
        except BrokenPipeError:
            pass
        except BaseException as fault:
            self.fault = fault
        finally:
            try:
                self.to.close()
            except BrokenPipeError:
                pass


def streamed(program: str, words: Sequence[Word], pieces: Iterable[bytes]) -> Generator[bytes, None, None]:
    """What a program prints, as it comes, while the pieces go to its standard input. `Ended` where it refuses."""
    with in_memory(words) as (named, held):
        process: subprocess.Popen[bytes] = subprocess.Popen([program, *named], stdin=subprocess.PIPE,
                                                            stdout=subprocess.PIPE,
                                                            stderr=subprocess.PIPE, pass_fds=held)
    to, out, said = pipes_of(process)
    widen(to, out)
    feeder = Feeder(to, pieces)
    feeder.start()
    try:
        while piece := out.read1(PIECE):
            yield piece
        text = said.read().decode(errors="replace").strip()
        status = process.wait()
    finally:
        process.kill()
        process.wait()
        out.close()
        said.close()
    if status:
        # The feeder may wait for a piece that nobody takes any more.
        raise Ended(status, text)
    feeder.join()
    if feeder.fault:
        raise feeder.fault


def placed(program: str, words: Sequence[Word], why: Ended, text: bytes) -> Ended:
    """How a program ends on rows in the form of a file that is written, so that the bytes it tells are those of this
    text; `why` where it takes them."""
    again = ran(program, words, text)
    return Ended(again.status, again.said) if again.status else why


def widen(*pipes: Any) -> None:
    """Lets pipes hold more, so that their ends wait for one another less."""
    for pipe in pipes:
        try:
            if SET_PIPE_SIZE is not None:
                fcntl.fcntl(pipe, SET_PIPE_SIZE, PIECE)
        except OSError:
            # The host gives no more to this user.
            pass


def pipes_of(process: subprocess.Popen[bytes]) -> tuple[IO[bytes], Any, IO[bytes]]:
    """The three streams of a process that has them all as pipes."""
    assert process.stdin and process.stdout and process.stderr
    return process.stdin, process.stdout, process.stderr
