#!/usr/bin/env python3
"""Whether `/dev/stdin` and `/dev/stdout` are the streams that the program was given: files that others write to as
well, sockets, terminals, and streams that are closed; whether the pieces in which samples come change nothing; and
whether a filter can stand between two sounds in a pipeline.

usage: tests/streams/check_streams.py [--silc PROGRAM]

What needs sox is left out with a line where it is not there (Debian: apt-get install sox).
"""
import os
import pty
import select
import shutil
import socket
import subprocess
import sys
import tempfile
import tty
import wave
from collections.abc import Iterator, Sequence
from contextlib import suppress
from pathlib import Path
from typing import Any, TypeAlias

# What was done, what came of it, and what had to.
Outcomes: TypeAlias = Iterator[tuple[str, Any, Any]]

ROOT = Path(__file__).resolve().parent.parent.parent
SILC = Path(os.environ.get("SILC", ROOT / "crates" / "silc_main" / "out" / "silc_main")).resolve()
MICROCODE = ROOT / "tests" / "increment" / "add-8-1.mic"
ROWS = ROOT / "tools" / "rows"
FILTER = ROOT / "examples" / "lowpass16"
TAPS16, PATH = ROOT / "tests" / "eval" / "filter16.sil", ROOT / "tests" / "datapath" / "filter.toml"
FAULT = (3, b"silc: file fault\n")
SECONDS = 120
# How long a row may take to come back.
ANSWER_SECONDS = 20


def sim(silc: Path, samples: str | Path, out: str | Path, **streams: Any) -> tuple[int, bytes]:
    """How `sim` of y = x + 1 ends, and what it writes to standard error."""
    done = subprocess.run([silc, "sim", MICROCODE, samples, out], stderr=subprocess.PIPE, timeout=SECONDS, **streams)
    return done.returncode, done.stderr


def shell(silc: Path, room: Path, line: str) -> bytes:
    done = subprocess.run(["sh", "-c", line], cwd=room, timeout=SECONDS, capture_output=True,
                          env=os.environ | {"SILC": str(silc), "MIC": str(MICROCODE)})
    return done.stdout + done.stderr


def shared_files(silc: Path, room: Path) -> Outcomes:
    """Files that have something before, and that others write to."""
    (room / "samples").write_text("1\n2\n")
    run = '"$SILC" sim "$MIC" samples /dev/stdout'
    yield "between two others", shell(silc, room, f"( echo a; {run}; echo b ) > f; cat f"), b"a\n2\n3\nb\n"
    yield "behind what is there", shell(silc, room, f"echo old > g; {run} >> g; cat g"), b"old\n2\n3\n"
    yield "twice", shell(silc, room, f"( {run}; {run} ) > h; cat h"), b"2\n3\n2\n3\n"
    rest = '"$SILC" sim "$MIC" /dev/stdin /dev/stdout'
    yield "the rest of a file", shell(silc, room, f"( read row; {rest} ) < samples"), b"3\n"


def sockets(silc: Path, _room: Path) -> Outcomes:
    ours, its = socket.socketpair()
    with ours, its:
        ours.sendall(b"1\n2\n")
        ours.shutdown(socket.SHUT_WR)
        ended = sim(silc, "/dev/stdin", "/dev/stdout", stdin=its, stdout=its)
        its.close()
        yield "a socket", (ended, ours.recv(100)), ((0, b""), b"2\n3\n")


def came(end: int, length: int) -> bytes:
    """So many bytes of a terminal, or fewer where no more come in time."""
    said = b""
    while len(said) < length and select.select([end], [], [], ANSWER_SECONDS)[0]:
        said += os.read(end, length - len(said))
    return said


def terminals(silc: Path, _room: Path) -> Outcomes:
    master, slave = pty.openpty()
    tty.setraw(slave)
    os.write(master, b"1\n")
    process = subprocess.Popen([silc, "sim", MICROCODE, "/dev/stdin", "/dev/stdout"], stdin=slave, stdout=slave,
                               stderr=slave)
    first = came(master, 2)
    os.write(master, b"2\n")
    yield "a terminal, row by row", (first, came(master, 2)), (b"2\n", b"3\n")
    process.kill()
    process.wait()
    for end in (master, slave):
        os.close(end)


def closed_streams(silc: Path, room: Path) -> Outcomes:
    (room / "samples").write_text("1\n")
    code = 'echo "$?"'
    for what, line in (("input", f'"$SILC" sim "$MIC" /dev/stdin out <&- 2>&1; {code}'),
                       ("output", f'{{ "$SILC" sim "$MIC" samples /dev/stdout >&- 2>&3; {code}; }} 3>&1'),
                       ("input and output",
                        f'{{ "$SILC" sim "$MIC" /dev/stdin /dev/stdout <&- >&- 2>&3; {code}; }} 3>&1')):
        yield f"a closed {what}", shell(silc, room, line), FAULT[1] + b"3\n"


def gone_readers(silc: Path, room: Path) -> Outcomes:
    """A pipe that nobody reads any more, from the start on."""
    (room / "samples").write_text("1\n")
    reader, writer = os.pipe()
    os.close(reader)
    yield "no reader", sim(silc, room / "samples", "/dev/stdout", stdout=writer), FAULT
    os.close(writer)


def in_pieces(command: Sequence[str | Path], content: bytes, size: int, room: Path) -> tuple[int, bytes, bytes]:
    """How a command ends over bytes that come in pieces of this size, each of which is taken by one read, and its
    rows."""
    reader, writer = os.pipe2(os.O_DIRECT)
    process = subprocess.Popen([*command, "/dev/stdin", room / "rows"], stdin=reader, stderr=subprocess.PIPE)
    os.close(reader)
    with suppress(BrokenPipeError), open(writer, "wb", buffering=0) as pipe:
        for at in range(0, len(content), size):
            pipe.write(content[at : at + size])
    said = process.communicate(timeout=SECONDS)[1]
    return process.returncode, said, (room / "rows").read_bytes()


def pieces(silc: Path, room: Path) -> Outcomes:
    """Impulses through a filter of 16 taps, of which the first gives its coefficients."""
    (room / "path.toml").write_text(PATH.read_text().replace("period = 1024", "period = 256"))
    content = (b"16384\n" + b"0\n" * 15) * 300
    taps = (128, -256, 512, -1024, 2048, -4096, 8192, 16384)
    rows = "".join(f"{word}\n" for word in (*taps, *reversed(taps))).encode() * 300
    for command in ((silc, "run", TAPS16, room / "path.toml"), (silc, "eval", TAPS16)):
        for size in (1, 7, 5000):
            yield f"{command[1]} over pieces of {size} bytes", in_pieces(command, content, size, room), (0, b"", rows)


def tone(file: Path) -> None:
    """A second of a tone in steps, which repeats after 40 samples."""
    with wave.open(str(file), "wb") as sound:
        sound.setparams((1, 2, 8000, 0, "NONE", "not compressed"))
        sound.writeframes(b"".join((1500 * (place % 40) - 30000).to_bytes(2, "little", signed=True)
                                   for place in range(8000)))


def sounds(silc: Path, room: Path) -> Outcomes:
    """A filter between two sounds gives what it gives of files."""
    tone(room / "in.wav")
    rows = subprocess.run([ROWS, "from-wav", room / "in.wav", "16,15"], check=True, capture_output=True).stdout
    (room / "samples").write_bytes(rows)
    source, path = FILTER / "lowpass16.sil", FILTER / "one_multiplier.toml"
    subprocess.run([silc, "run", source, path, room / "samples", room / "rows"], check=True)
    subprocess.run([ROWS, "to-wav", room / "rows", "16,15", "8000", room / "out.wav"], check=True)
    wanted = (room / "out.wav").read_bytes()
    piped = shell(silc, room, f'"{ROOT}/examples/pipeline" < in.wav > piped.wav')
    made = (room / "piped.wav").read_bytes()
    yield "a sound through the pipeline", (piped, made[44:]), (b"", wanted[44:])
    if not shutil.which("sox"):
        print("check_streams: there is no sox: the pipeline between two of it is skipped", flush=True)
        return
    unknown = "sox in.wav -t raw - | sox -t raw -r 8000 -b 16 -e signed -c 1 - -t wav - 2>/dev/null"
    for what, first in (("of known length", "sox in.wav -t wav -"), ("of unknown length", unknown)):
        said = shell(silc, room, f'{first} | "{ROOT}/examples/pipeline" | sox -t wav - sox.wav; cmp sox.wav out.wav')
        yield f"a sound of sox {what}, and back", said, b""


CHECKS = (shared_files, sockets, terminals, closed_streams, gone_readers, pieces, sounds)


def main(words: list[str]) -> int:
    silc = SILC
    if words[:1] == ["--silc"] and len(words) == 2:
        silc = Path(words[1]).resolve()
    elif words:
        print(__doc__, file=sys.stderr)
        return 2
    passed = failed = 0
    for check in CHECKS:
        with tempfile.TemporaryDirectory(prefix="silc-streams-") as folder:
            for what, came, wanted in check(silc, Path(folder)):
                passed, failed = passed + (came == wanted), failed + (came != wanted)
                if came != wanted:
                    print(f"{what}: {str(came)[:300]}, in the place of {str(wanted)[:300]}", flush=True)
    print(f"{passed} passed, {failed} failed")
    return 1 if failed else 0


if __name__ == "__main__":
    sys.exit(main(sys.argv[1:]))
