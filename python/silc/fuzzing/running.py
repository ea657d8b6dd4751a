"""Runs of the built programs in a folder, within 10 seconds, 1 GiB and 2 MiB of stack."""
import os
import re
import resource
import signal
import subprocess
from collections.abc import Sequence
from dataclasses import dataclass
from pathlib import Path

SECONDS, MEMORY, STACK = 10, 1 << 30, 2 << 20
# The clock may take longer than the processor where the machine has other work.
CLOCK_SECONDS = 300
LINE = re.compile(rb"silc: [ -~]+\n")
DONE, SAMPLES, CONFLICT, MOST_CODE = 0, 11, 12, 12
# How each command may end. Memory, words and files are as they should be, so 1 to 3 come at none.
FRONT_END, PLAN = {4}, {5, 6, 7, 8, 9}
CODES = {
    "compile": {DONE} | FRONT_END | PLAN,
    "schedule": {DONE} | FRONT_END | PLAN,
    "run": {DONE, SAMPLES} | FRONT_END | PLAN,
    "eval": {DONE, SAMPLES} | FRONT_END,
    "sim": {DONE, 10, SAMPLES, CONFLICT},
    "list": {DONE, 10},
}
PRINTING = {"schedule", "list"}


def limited() -> None:
    for kind, most in ((resource.RLIMIT_CPU, SECONDS), (resource.RLIMIT_AS, MEMORY), (resource.RLIMIT_STACK, STACK)):
        resource.setrlimit(kind, (most, most))


@dataclass(frozen=True)
class Programs:
    silc: Path
    show: Path
    keeps_rows: bool


@dataclass(frozen=True)
class Ended:
    """How a command ended, and OUT where it wrote one."""
    code: int
    printed: bytes
    line: bytes
    out: bytes | None = None

    def said(self) -> tuple[int, bytes]:
        """The code and the line, without the place of a line of the source."""
        return self.code, self.line


class Broken(Exception):
    """What had to hold, and did not."""


class Room:
    """A folder in which the commands of a case run. `ran` has the words of each, `ends` how many ended with which
    code."""

    def __init__(self, folder: str | Path, programs: Programs) -> None:
        self.folder, self.programs = Path(folder), programs
        self.ran: list[str] = []
        self.ends: dict[tuple[str, int], int] = {}

    def put(self, name: str, data: bytes) -> str:
        (self.folder / name).write_bytes(data)
        return name

    def bytes_of(self, name: str) -> bytes | None:
        path = self.folder / name
        return path.read_bytes() if path.is_file() else None

    def expect(self, holds: object, what: str) -> None:
        if not holds:
            raise Broken(what)

    def started(self, program: Path, words: Sequence[str]) -> subprocess.CompletedProcess[bytes]:
        self.ran.append(f"{program.name} {' '.join(words)}")
        try:
            done = subprocess.run([program, *words], cwd=self.folder, stdin=subprocess.DEVNULL, capture_output=True,
                                  preexec_fn=limited, timeout=CLOCK_SECONDS,
                                  env={"PATH": os.defpath, "LANG": "C.UTF-8"})
        except subprocess.TimeoutExpired as late:
            raise Broken(f"it has not ended after {CLOCK_SECONDS} seconds: {self.ran[-1]}") from late
        if done.returncode < 0:
            name = signal.Signals(-done.returncode).name
            raise Broken(f"it was ended by {name} (of {SECONDS} s of processor, {MEMORY >> 20} MiB): {self.ran[-1]}")
        return done

    def silc(self, *words: str, out: str | None = None, before: bytes | None = None) -> Ended:
        """How a command ended. With `out` it writes a file of this name, in whose place `before` stands."""
        command = words[0]
        inputs = [(name, self.bytes_of(name)) for name in words[1:] if name != out]
        names = set(os.listdir(self.folder))
        if out:
            (self.folder / out).unlink(missing_ok=True)
            if before is not None:
                self.put(out, before)
        done = self.started(self.programs.silc, words)
        code = done.returncode
        self.ends[command, code] = self.ends.get((command, code), 0) + 1
        self.expect(0 <= code <= MOST_CODE, f"the code is {code}: {self.ran[-1]}")
        self.expect(code in CODES[command], f"no code of this command: {code}, {done.stderr!r}: {self.ran[-1]}")
        self.expect(done.stderr == b"" if code == DONE else LINE.fullmatch(done.stderr),
                    f"standard error of code {code} is {done.stderr[:300]!r}: {self.ran[-1]}")
        self.expect(bool(done.stdout) == (command in PRINTING and code == DONE),
                    f"standard output of code {code} is {done.stdout[:300]!r}: {self.ran[-1]}")
        self.expect(all(self.bytes_of(name) == data for name, data in inputs), f"an input was changed: {self.ran[-1]}")
        self.expect(set(os.listdir(self.folder)) - names <= {out}, f"a file was made beside OUT: {self.ran[-1]}")
        left = self.bytes_of(out) if out else None
        return Ended(code, done.stdout, done.stderr, self.rows_left(out, before, code, left))

    def rows_left(self, out: str | None, before: bytes | None, code: int, left: bytes | None) -> bytes | None:
        """What OUT holds: all where it is done, the rows before the fault after 11 and 12, what it held before
        elsewhere."""
        if not out:
            return None
        if code == DONE or code in (SAMPLES, CONFLICT) and self.programs.keeps_rows:
            self.expect(left is not None, f"there is no OUT after code {code}: {self.ran[-1]}")
            return left
        self.expect(left == before, f"OUT was touched by a refusal of code {code}: {self.ran[-1]}")
        return None

    def show(self, *words: str) -> bytes | None:
        """What `silc_show` prints. It ends with 0 for a refusal, too, which it prints."""
        done = self.started(self.programs.show, words)
        self.expect(done.returncode in (0, 1),
                    f"silc_show ended with {done.returncode}, {done.stderr[:300]!r}: {self.ran[-1]}")
        return done.stdout if done.returncode == 0 else None
