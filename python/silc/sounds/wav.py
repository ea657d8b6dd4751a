"""The heads of WAV files, and their words."""
from collections.abc import Iterator, Sequence
from struct import pack, unpack
from typing import IO

from silc.sounds.streams import pieces, skip, taken

# How many channels a sound may have, and of how many bits its words.
CHANNELS, WIDTHS = (1, 2), (16, 24, 32)
# The tags of a format: plain samples, and a longer head that tells which by a number of 16 bytes.
PCM_TAG, EXTENSIBLE_TAG = 1, 0xFFFE
PCM_GUID = bytes.fromhex("0100 0000 0000 1000 8000 00aa00389b71")
GUID_AT = 24
FORMAT_BYTES = GUID_AT + len(PCM_GUID)
# A program that writes a sound into a pipe gives a length from here on, since it can't know it.
UNKNOWN_LENGTH = 0x7FFF0000
# The length that sox gives then, and takes for none.
NO_LENGTH = 0x7FFFF000
LONGEST = 0xFFFFFFFF
# The letters by which `struct` has words of 16 and of 32 bits. Of 24 bits it has none: they are taken for the upper
# bytes of 32.
LETTERS = {16: "h", 32: "i"}
THREE, FOUR, BESIDE = 3, 4, 8


def number(data: bytes, at: int, size: int = 2) -> int:
    return int.from_bytes(data[at : at + size], "little")


def format_of(head: bytes) -> tuple[int, int]:
    """The number of channels and the bits of a word."""
    tag, count, width = number(head, 0), number(head, 2), number(head, 14)
    if tag != PCM_TAG and (tag != EXTENSIBLE_TAG or head[GUID_AT:FORMAT_BYTES] != PCM_GUID):
        raise ValueError(f"samples of format {tag}, in the place of PCM")
    if width not in WIDTHS or count not in CHANNELS:
        raise ValueError(f"{count} channels of {width} bits, in the place of 1 or 2 of {', '.join(map(str, WIDTHS))}")
    return count, width


def head_of(source: IO[bytes]) -> tuple[int, int, int]:
    """Reads up to the samples. Gives the number of channels, the bits of a word and the length of the samples."""
    head = taken(source, 12)
    if head[:4] != b"RIFF" or head[8:12] != b"WAVE":
        raise ValueError("not a WAVE file")
    found = None
    while len(chunk := taken(source, 8)) == 8:
        name, length = chunk[:4], number(chunk, 4, 4)
        if name == b"data" and found:
            return *found, length
        kept = min(length, FORMAT_BYTES) if name == b"fmt " and not found else 0
        head = taken(source, kept)
        skip(source, length + length % 2 - kept)
        found = format_of(head) if kept else found
    raise ValueError("the file ends too early")


def samples_of(source: IO[bytes], length: int, frame: int) -> Iterator[bytes]:
    """The bytes of the samples, in pieces of whole frames."""
    known, came, rest = length < UNKNOWN_LENGTH, 0, b""
    if known and length % frame:
        raise ValueError(f"{length} bytes of samples, of which {frame} are a row")
    for piece in pieces(source, length if known else None):
        came += len(piece)
        data = rest + piece
        whole = len(data) - len(data) % frame
        rest = data[whole:]
        yield data[:whole]
    if known and came != length:
        raise ValueError(f"{came} bytes of samples, in the place of {length}")


def words_in(data: bytes, width: int) -> Sequence[int]:
    """The words of samples."""
    if width in LETTERS:
        return unpack(f"<{len(data) * 8 // width}{LETTERS[width]}", data)
    wide = bytearray(len(data) // THREE * FOUR)
    for place in range(THREE):
        wide[place + 1 :: FOUR] = data[place::THREE]
    return [word >> BESIDE for word in words_in(wide, 32)]


def samples_in(words: Sequence[int], width: int) -> bytes:
    """The samples of words, by `struct`, which refuses those that are out of the range."""
    if width in LETTERS:
        return pack(f"<{len(words)}{LETTERS[width]}", *words)
    wide, made = samples_in([word << BESIDE for word in words], 32), bytearray(THREE * len(words))
    for place in range(THREE):
        made[place::THREE] = wide[place + 1 :: FOUR]
    return bytes(made)


def head_with(channels: int, width: int, rate: int, length: int) -> bytes:
    """What stands before so many bytes of samples."""
    frame = channels * width // 8
    fields = ((PCM_TAG, 2), (channels, 2), (rate, 4), (rate * frame, 4), (frame, 2), (width, 2))
    form = b"WAVEfmt " + chunk_length(16) + b"".join(value.to_bytes(size, "little") for value, size in fields)
    return b"RIFF" + chunk_length(len(form) + 8 + length + length % 2) + form + b"data" + chunk_length(length)


def chunk_length(length: int) -> bytes:
    return min(length, LONGEST).to_bytes(4, "little")
