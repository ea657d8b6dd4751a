"""Bytes as they come and go."""
import sys
from collections.abc import Iterator
from typing import IO

STANDARD = "-"
# How many bytes are asked for at once. Fewer come where no more are there yet.
PIECE = 1 << 16


def opened(file: str, mode: str) -> IO[bytes]:
    """A file, or a stream that the process was given, without a buffer."""
    if file != STANDARD:
        return open(file, mode, buffering=0)
    return open(sys.stdin.fileno() if mode == "rb" else sys.stdout.fileno(), mode, buffering=0, closefd=False)


def put(out: IO[bytes], data: bytes) -> None:
    """Writes all of it, and hands it on."""
    left = memoryview(data)
    while left:
        left = left[out.write(left):]
    out.flush()


def pieces(source: IO[bytes], length: int | None = None) -> Iterator[bytes]:
    """The next bytes, so many or all, in pieces as they are there."""
    while length is None or length > 0:
        piece = source.read(PIECE if length is None else min(PIECE, length))
        if not piece:
            return
        if length is not None:
            length -= len(piece)
        yield piece


def taken(source: IO[bytes], length: int) -> bytes:
    """So many bytes, or fewer where the end comes before."""
    return b"".join(pieces(source, length))


def skip(source: IO[bytes], length: int | None = None) -> None:
    for _ in pieces(source, length):
        pass


def handed_on(parts: Iterator[bytes], file: str) -> Iterator[bytes]:
    """The parts as they come where the file is the standard input, else all together once they are made."""
    return parts if file == STANDARD else iter([b"".join(parts)])
