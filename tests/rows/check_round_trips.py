#!/usr/bin/env python3
"""Whether each word of 16 bits comes back from a sound, and each sound from its rows, in one and in two channels and in
sounds of 16, 24 and 32 bits, which Python's own reader reads as well.
"""
import os
import signal
import subprocess
import sys
import tempfile
import time
import wave
from collections.abc import Callable
from pathlib import Path

TOOL = Path(__file__).resolve().parent.parent.parent / "tools" / "rows"
WORDS = range(-(1 << 15), 1 << 15)
# Shapes that have each word of fix<16,15>, what such a word is times there, numbers of channels, and of bits in the
# sound.
SHAPES = [("16,15", 1, 1, 16), ("32,30", 1 << 15, 2, 16), ("16,15", 1, 1, 24), ("24,22", 1 << 7, 2, 24),
          ("17,15", 1, 2, 32)]
# How many seconds a tool may take to do what it is waited for.
PATIENCE = 20


def rows(*words: str | Path, given: bytes = b"") -> str:
    return subprocess.run([TOOL, *words], input=given, capture_output=True, check=True).stdout.decode()


def is_sound(file: Path, channels: int, bits: int) -> bool:
    """Whether Python's reader finds the words in the file."""
    with wave.open(str(file)) as sound:
        data, size = sound.readframes(len(WORDS)), bits // 8
        form = (sound.getnchannels(), sound.getsampwidth(), sound.getframerate(), sound.getnframes())
    words = [int.from_bytes(data[at : at + size], "little", signed=True) for at in range(0, len(data), size)]
    return form == (channels, size, 48000, len(WORDS) // channels) and words == [word << (bits - 16) for word in WORDS]


def comes_back(room: Path, shape: str, factor: int, channels: int, bits: int) -> bool:
    words = [str(word * factor) for word in WORDS]
    text = "".join(",".join(words[k : k + channels]) + "\n" for k in range(0, len(words), channels))
    (room / "rows").write_text(text)
    making = ["to-wav", "--bits", str(bits)]
    rows(*making, room / "rows", shape, "48000", room / "first.wav")
    back = rows("from-wav", room / "first.wav", shape)
    rows(*making, "-", shape, "48000", room / "second.wav", given=back.encode())
    sound = (room / "first.wav").read_bytes()
    return (is_sound(room / "first.wav", channels, bits) and back == text
            and sound == (room / "second.wav").read_bytes()
            and rows("from-wav", "-", shape, given=sound) == text)


def is_kept(room: Path) -> bool:
    """Whether a sound that is made of standard input is whole up to where a signal stops it."""
    with subprocess.Popen([TOOL, "to-wav", "-", "16,15", "48000", room / "kept.wav"], stdin=subprocess.PIPE) as making:
        making.stdin.write(b"1\n2\n3\n")
        making.stdin.flush()
        wait_for(lambda: any(part.stat().st_size > 44 for part in room.glob(".kept.wav.*")))
        making.send_signal(signal.SIGTERM)
        making.wait(timeout=PATIENCE)
    with wave.open(str(room / "kept.wav")) as sound:
        return sound.getnframes() == 3 and sound.readframes(3) == bytes([1, 0, 2, 0, 3,
                                                                         0]) and not list(room.glob(".kept*"))


def wait_for(is_so: Callable[[], bool]) -> None:
    end = time.monotonic() + PATIENCE
    while not is_so() and time.monotonic() < end:
        time.sleep(0.02)


def main() -> int:
    with tempfile.TemporaryDirectory(prefix="silc-rows-") as folder:
        os.environ["XDG_STATE_HOME"] = folder
        faults = [f"the words of fix<{shape}> do not come back from {bits} bits"
                  for shape, *more, bits in SHAPES if not comes_back(Path(folder), shape, *more, bits)]
        faults += [] if is_kept(Path(folder)) else ["a sound that was stopped is not whole up to there"]
    for fault in faults:
        print(fault)
    return 1 if faults else 0


if __name__ == "__main__":
    sys.exit(main())
