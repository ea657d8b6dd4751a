"""Rows that are played through the top of a board by its bench, and compared with those of `silc sim`."""
from __future__ import annotations

import re
import subprocess
import tempfile
from collections.abc import Mapping, Sequence
from dataclasses import dataclass
from pathlib import Path

from silc.programs import SILC

from .board_text import BYTES, CODEC, SAMPLES, SERIAL, TOP, UART, Audio, NoBoard, controls_of, out_width
from .control import bytes_of, changes
from .core_files import PARTS
from .netlist import Core
from .routing import run
from .words import Range

Row = tuple[int, ...]
# A row comes back in the frame behind the one in which it was sent, or, where that has begun, in the next; and a frame
# may be read before the first sample.
BEHIND = (1, 2, 3)
CHANNELS = 2


def sources(core: Core, audio: Audio) -> list[str]:
    return [PARTS.name, SERIAL, *[UART] * bool(audio.controls), f"{core.name}.v", f"{TOP}.v"]


def rows_in(file: str, audio: Audio) -> list[Row]:
    """Rows of two words, and the control words behind them."""
    lines, count = Path(file).read_text().splitlines(), CHANNELS + audio.controls
    rows = [tuple(int(word) for word in line.split(",") if re.fullmatch(r"-?\d+", word)) for line in lines]
    wrong = next((number for number, row in enumerate(rows, 1) if len(row) != count), None)
    if wrong:
        beside = f", and {audio.controls} control words behind them" if audio.controls else ""
        raise NoBoard(f"{file}:{wrong}: a row of a board has two words, a left and a right one{beside}")
    return rows


def line_word(word: int, width: int, bits: int) -> int:
    """A word of the core, of so many bits, as a word of the lines."""
    return word << (bits - width) if width <= bits else word >> (width - bits)


def signed(word: int, words: Range) -> int:
    """A word that was printed without its sign."""
    bits = words.bits()
    return word - (1 << bits) if words.is_signed() and word >> (bits - 1) else word


@dataclass(frozen=True)
class Playing:
    """A core in its top, with the microcode that it has."""
    core: Core
    audio: Audio
    microcode: str

    def widths(self) -> list[int]:
        """The bits of a left and a right word in."""
        return [words.bits() for words in self.core.inputs[:CHANNELS if self.is_stereo() else 1]] * (
            1 if self.is_stereo() else CHANNELS)

    def is_stereo(self) -> bool:
        """Whether one core has both channels."""
        return len(self.core.inputs) - self.audio.controls == CHANNELS

    def sent(self, rows: Sequence[Row]) -> list[Row]:
        """The words of both channels on the lines."""
        return [tuple(line_word(word, own, self.audio.bits) for word, own in zip(row, self.widths())) for row in rows]

    def carried(self, lines: Sequence[Row]) -> list[Row]:
        """Words of the lines as the core takes them."""
        return [tuple(line_word(word, self.audio.bits, own) for word, own in zip(row, self.widths())) for row in lines]

    def simulated(self, rows: Sequence[Row]) -> list[Row]:
        """What `silc sim` makes of rows of both channels, with the control words behind them."""
        if self.is_stereo():
            return simulated(self.microcode, rows)
        made = [simulated(self.microcode, [(row[channel], *row[CHANNELS:]) for row in rows])
                for channel in range(CHANNELS)]
        return [(left, right) for (left,), (right,) in zip(*made)]

    def wanted(self, rows: Sequence[Row]) -> list[Row]:
        """The words of the lines that come back for these rows."""
        width = out_width(self.core, self.audio)
        return [tuple(line_word(word, width, self.audio.bits) for word in row) for row in self.simulated(rows)]

    def bytes_text(self, rows: Sequence[Row]) -> str:
        """The bytes that the host sends, each behind the number of the row from which on it does."""
        bits = {place: words.bits() for place, words in enumerate(controls_of(self.core, self.audio.controls))}
        rows_of_words = [row[CHANNELS:] for row in rows]
        return "".join(f"{place},{byte}\n" for place, words in changes(rows_of_words, (0,) * self.audio.controls)
                       for byte in bytes_of(words, bits))


def simulated(microcode: str, rows: Sequence[Row]) -> list[Row]:
    """The rows of `silc sim`."""
    with tempfile.TemporaryDirectory(prefix="silc-board-") as name:
        samples, out = Path(name, "samples"), Path(name, "rows")
        samples.write_text("".join(",".join(map(str, row)) + "\n" for row in rows))
        done = subprocess.run([SILC.found(), "sim", microcode, samples, out], capture_output=True, text=True)
        if done.returncode:
            raise NoBoard(done.stderr.strip())
        return [tuple(map(int, line.split(","))) for line in out.read_text().splitlines()]


@dataclass(frozen=True)
class Heard:
    """What a bench says: the rows that came back, those that the core took, and the clocks that it has to spare."""
    made: list[Row]
    taken: list[Row]
    spare: int


def rows_behind(lines: Sequence[str], word: str) -> list[Row]:
    """The rows of words in the lines that begin with a word."""
    try:
        return [tuple(map(int, line.removeprefix(word).split(","))) for line in lines if line.startswith(word)]
    except ValueError:
        raise NoBoard("a word has bits that are not known") from None


def heard(folder: Path, playing: Playing) -> Heard:
    """What the bench in a folder says."""
    audio, core = playing.audio, playing.core
    run(["iverilog", "-g2005", "-o", "bench", *sources(core, audio), f"{CODEC}.v"], folder, "Icarus")
    lines = run(["vvp", "-n", "bench"], folder, "the bench").splitlines()
    spare = next((int(line.removeprefix("spare ")) for line in lines if line.startswith("spare ")), None)
    if spare is None:
        raise NoBoard("the bench does not come to its end")
    if "lost" in lines:
        raise NoBoard("a row was lost, or an address was outside of its memory")
    ranges = [Range(-1 << (audio.bits - 1), 0)] * CHANNELS + controls_of(core, audio.controls)
    taken = [tuple(signed(word, words) for word, words in zip(row, ranges)) for row in rows_behind(lines, "took ")]
    return Heard(rows_behind(lines, "row "), taken, spare)


def check_taken(rows: Sequence[Row], sent: Sequence[Row], taken: Sequence[Row], controls: int) -> None:
    """Raises where the rows that the core took are not those that were sent, with the control words one after
    another."""
    audio = [row[:CHANNELS] for row in taken]
    if not any(audio[place: place + len(sent)] == [*sent] for place in (0, *BEHIND)):
        raise NoBoard("the core took other words of audio than were sent")
    zeros = (0,) * controls
    steps = {"asked": [zeros, *(row[CHANNELS:] for row in rows)], "given": [zeros, *(row[CHANNELS:] for row in taken)]}
    asked, given = ([row for row, last in zip(words[1:], words) if row != last] for words in steps.values())
    if asked != given:
        wrong = next((k for k, (one, other) in enumerate(zip(asked, given)) if one != other),
                     min(len(asked), len(given)))
        raise NoBoard(f"change {wrong} of the control words came as {given[wrong:wrong + 1]}, and "
                      f"{asked[wrong:wrong + 1]} was sent")


def compare(made: Sequence[Row], outs: Sequence[Row], behind: Sequence[int]) -> None:
    """Raises where the rows that came back are not these, so many frames behind."""
    if any([*made[late: late + len(outs)]] == [*outs] for late in behind):
        return
    late = next((k for k, row in enumerate(made) if any(row)), 0)
    wrong = next((k for k, (own, other) in enumerate(zip(made[late:], outs)) if own != other), 0)
    raise NoBoard(f"row {wrong} comes back as {made[late:][wrong:wrong + 1]}, and silc sim has "
                  f"{outs[wrong:wrong + 1]}")


def play(playing: Playing, file: str, texts: Mapping[str, str]) -> str:
    """Plays rows through the top, and says how that went."""
    audio = playing.audio
    rows = rows_in(file, audio)
    sent = playing.sent([row[:CHANNELS] for row in rows])
    with tempfile.TemporaryDirectory(prefix="silc-board-") as name:
        files = {**texts, SAMPLES: "".join(f"{left},{right}\n" for left, right in sent),
                 BYTES: playing.bytes_text(rows)}
        for own, text in files.items():
            (Path(name) / own).write_text(text)
        said = heard(Path(name), playing)
    if not audio.controls:
        outs, moved = playing.wanted(playing.carried(sent)), ""
        compare(said.made, outs, BEHIND)
    else:
        outs, moved = wanted_of_taken(playing, rows, sent, said)
        compare(said.made, outs, (0, *BEHIND))
    return (f"{len(outs)} rows came back as silc sim puts them{moved}, and the core has {said.spare} clocks to spare "
            "in each frame")


def wanted_of_taken(playing: Playing, rows: Sequence[Row], sent: Sequence[Row], said: Heard) -> tuple[list[Row], str]:
    """The words of the lines for the rows that the core took, and how often their control words changed."""
    taken = said.taken
    check_taken(rows, sent, taken, playing.audio.controls)
    carried = playing.carried([row[:CHANNELS] for row in taken])
    outs = playing.wanted([(*words, *row[CHANNELS:]) for words, row in zip(carried, taken)])
    count = sum(row[CHANNELS:] != last[CHANNELS:] for row, last in zip(taken[1:], taken))
    return outs[: len(said.made) - max(BEHIND)], f", while control words changed in {count} of them"
