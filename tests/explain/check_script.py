#!/usr/bin/env python3
"""Whether `./silc` keeps an input from being written over, makes an OUT that is a file whole or not at all, says which
file or place a refusal is of, and says on a terminal alone who tells more of it.

usage: tests/explain/check_script.py

It runs the script on a copy, beside the built `silc` or the one that `SILC` names.
"""
import os
import pty
import resource
import shutil
import signal
import subprocess
import sys
import tempfile
import time
from collections.abc import Iterator, Sequence
from pathlib import Path
from typing import IO, Any

from silc import programs

ROOT = Path(__file__).resolve().parent.parent.parent
SILC = Path(programs.SILC.place())
SOURCE = "func main(x : fix<8,0>) y : fix<8,0> = begin y = x + 1; end;\n"
WORDS = {"compile": ("SRC", "DP"), "eval": ("SRC", "SAMPLES"), "run": ("SRC", "DP", "SAMPLES"),
         "sim": ("MIC", "SAMPLES")}
MORE = "tells more"
USAGE = "silc compiles equations"
SECONDS = 20


def prepare(room: Path) -> tuple[Path, Path]:
    """A folder with the script and a program that is newer than its sources, as after a build, and one with the
    inputs."""
    crate = room / "top" / "crates" / "silc_main"
    for folder in ("src", "specs", "proofs", "out"):
        (crate / folder).mkdir(parents=True)
    shutil.copy2(ROOT / "silc", room / "top" / "silc")
    toolchain = room / "top" / "crates.txt"
    toolchain.touch()
    program = crate / "out" / "silc_main"
    program.write_text(f'#!/bin/sh\nexec "{SILC}" "$@"\n')
    program.chmod(0o755)
    program.with_name("silc_main.made-by").write_text(f"{toolchain}\n")
    inputs = room / "inputs"
    inputs.mkdir()
    (inputs / "SRC").write_text(SOURCE)
    shutil.copy2(ROOT / "tests" / "datapath" / "plain.toml", inputs / "DP")
    (inputs / "SAMPLES").write_text("1\n2\n")
    shutil.copy2(ROOT / "tests" / "machine" / "accumulator.mic", inputs / "MIC")
    return room / "top" / "silc", inputs


def run(script: Path, inputs: Path, words: Sequence[str], **more: Any) -> subprocess.CompletedProcess[str]:
    given = {} if {"input", "preexec_fn"} & {*more} else {"stdin": subprocess.DEVNULL}
    return subprocess.run([script, *words], cwd=inputs, capture_output=True, text=True, **given, **more)


def on_terminal(script: Path, inputs: Path, words: Sequence[str]) -> tuple[int, str]:
    """What the script writes to a terminal."""
    master, slave = pty.openpty()
    done = subprocess.run([script, *words], cwd=inputs, stdin=subprocess.DEVNULL, stdout=slave, stderr=slave)
    os.close(slave)
    said = b""
    while True:
        try:
            piece = os.read(master, 4096)
        except OSError:
            break
        if not piece:
            break
        said += piece
    os.close(master)
    return done.returncode, said.decode()


def guard_faults(script: Path, inputs: Path) -> Iterator[str]:
    """The commands that write over an input, or that are refused though they do not."""
    for command, names in WORDS.items():
        for name in names:
            kept = (inputs / name).read_bytes()
            (inputs / "link").symlink_to(name)
            (inputs / "hard").hardlink_to(inputs / name)
            for other in ("link", "hard", f"./{name}", str(inputs / name)):
                done = run(script, inputs, [command, *names, other])
                expected = f"silc: {other} is the input {name} by another name\n"
                if done.returncode != 2 or done.stderr != expected or (inputs / name).read_bytes() != kept:
                    yield f"{command} with {other} for {name}: {done.returncode} {done.stderr}"
            (inputs / "link").unlink()
            (inputs / "hard").unlink()
        done = run(script, inputs, [command, *names, "OUT"])
        if done.returncode or done.stdout or done.stderr:
            yield f"{command} is not done: {done.returncode} {done.stderr}"
        # The program itself refuses names that are equal.
        done = run(script, inputs, [command, *names, names[0]])
        if (done.returncode, done.stderr) != (2, "silc: bad command words\n"):
            yield f"{command} with {names[0]} twice: {done.returncode} {done.stderr}"


def terminal_faults(script: Path, inputs: Path) -> Iterator[str]:
    """The second line is there on a terminal alone, and after a refusal alone."""
    refused = ["compile", "SAMPLES", "DP", "OUT"]
    status, said = on_terminal(script, inputs, refused)
    if status != 4 or MORE not in said or len(said.splitlines()) != 2:
        yield f"a refusal on a terminal: {status} {said!r}"
    done = run(script, inputs, refused)
    if done.returncode != 4 or MORE in done.stderr or len(done.stderr.splitlines()) != 1:
        yield f"a refusal in a script: {done.returncode} {done.stderr!r}"
    status, said = on_terminal(script, inputs, ["eval", "SRC", "SAMPLES", "OUT"])
    if status != 0 or said:
        yield f"a command that is done, on a terminal: {status} {said!r}"


def whole_faults(script: Path, inputs: Path) -> Iterator[str]:
    """An OUT that is a file is replaced where the command is done, or has the rows before a fault, and else is as it
    was."""
    out = inputs / "OUT"

    def expect(what: str, words: Sequence[str], status: int, content: str, **more: Any) -> Iterator[str]:
        out.write_text("before\n")
        out.chmod(0o640)
        done = run(script, inputs, words, **more)
        got = out.read_text(errors="replace"), out.stat().st_mode & 0o777
        if done.returncode != status or got != (content, 0o640):
            yield f"{what}: {done.returncode} {done.stderr!r}, {got}"
        left = [path.name for path in inputs.iterdir() if path.name.startswith(".silc")]
        if left:
            yield f"{what}: it leaves {left}"

    yield from expect("rows", ["eval", "SRC", "SAMPLES", "OUT"], 0, "2\n3\n")
    (inputs / "BAD").write_text("1\nx\n")
    yield from expect("rows before a bad line", ["eval", "SRC", "BAD", "OUT"], 11, "2\n")
    yield from expect("a refused source", ["eval", "DP", "SAMPLES", "OUT"], 4, "before\n")
    yield from expect("microcode for which there is no room", ["compile", "SRC", "DP", "OUT"], 3, "before\n",
                      preexec_fn=no_room)
    link = inputs / "out-link"
    link.symlink_to("OUT")
    yield from expect("rows through a link", ["eval", "SRC", "SAMPLES", "out-link"], 0, "2\n3\n")
    if not link.is_symlink():
        yield "a link as OUT is no link any more"
    link.unlink()
    out.unlink()


def no_room() -> None:
    """No file takes a byte, and a write past its end is a fault and no signal."""
    signal.signal(signal.SIGXFSZ, signal.SIG_IGN)
    resource.setrlimit(resource.RLIMIT_FSIZE, (0, 0))


def stream_faults(script: Path, inputs: Path) -> Iterator[str]:
    """Standard streams go through, and a descriptor's file is not opened anew."""
    done = run(script, inputs, ["eval", "SRC", "/dev/stdin", "/dev/stdout"], input="5\n")
    if (done.returncode, done.stdout) != (0, "6\n"):
        yield f"rows through a pipe: {done.returncode} {done.stdout!r} {done.stderr!r}"
    for name in ("/dev/fd/1", "/dev/stderr", "/proc/self/fd/1", "//dev/fd/1", "/dev/./fd/2", "log"):
        log = inputs / "log"
        log.write_text("before\n")
        with open(log, "a") as end:
            done = subprocess.run([script, "eval", "SRC", "SAMPLES", name], cwd=inputs, stdin=subprocess.DEVNULL,
                                  stdout=end, stderr=end)
        if done.returncode != 2 or not log.read_text().startswith("before\n"):
            yield f"{name} as OUT: {done.returncode}, and the log holds {log.read_text()!r}"
        log.unlink()


def descriptor_faults(script: Path, inputs: Path) -> Iterator[str]:
    """A standard input that is closed is an empty one, and a descriptor of the user's goes through."""
    done = run(script, inputs, ["eval", "SRC", "SAMPLES", "/dev/stdout"], preexec_fn=lambda: os.close(0))
    if (done.returncode, done.stdout, done.stderr) != (0, "2\n3\n", ""):
        yield f"without a standard input: {done.returncode} {done.stdout!r} {done.stderr!r}"
    with open(inputs / "SAMPLES") as samples:
        done = run(script, inputs, ["eval", "SRC", "/dev/fd/3", "/dev/stdout"], preexec_fn=lambda: as_third(samples),
                   close_fds=False)
    if (done.returncode, done.stdout, done.stderr) != (0, "2\n3\n", ""):
        yield f"samples by a descriptor: {done.returncode} {done.stdout!r} {done.stderr!r}"


def as_third(file: IO[str]) -> None:
    os.dup2(file.fileno(), 3)
    os.set_inheritable(3, True)


def name_faults(script: Path, inputs: Path) -> Iterator[str]:
    """A blank line at the end of OUT's name is of the name; and no word is told as strange where nothing can tell."""
    (inputs / "kept").write_text("before\n")
    done = run(script, inputs, ["eval", "SRC", "SAMPLES", "kept\n"])
    if done.returncode or (inputs / "kept").read_text() != "before\n" or (inputs / "kept\n").read_text() != "2\n3\n":
        yield f"a name that ends with a blank line: {done.returncode} {done.stderr!r}"
    for name in ("kept", "kept\n"):
        (inputs / name).unlink(missing_ok=True)
    with tempfile.TemporaryDirectory() as folder:
        for name in ("sh", "find", "readlink", "rm"):
            Path(folder, name).symlink_to(shutil.which(name))
        done = run(script, inputs, ["eval", "SRC"], env=os.environ | {"PATH": folder})
    if (done.returncode, done.stderr) != (2, "silc: bad command words\n"):
        yield f"without iconv: {done.returncode} {done.stderr!r}"


def right_faults(script: Path, inputs: Path) -> Iterator[str]:
    """What is said and done without the rights of root, in a folder of one's own and in one such as /tmp."""
    lead = ["setpriv", "--reuid=65534", "--regid=65534", "--clear-groups"]
    if os.geteuid() != 0 or not shutil.which(lead[0]):
        return
    for path in (inputs, *inputs.parents):
        if path != Path(tempfile.gettempdir()) and path != Path("/"):
            path.chmod(0o755)
    for what, mode, owner, rights, status, said, rows in (
            ("a file that may not be written", 0o755, 65534, 0o444, 3,
             "silc: file fault\nsilc: {out}: it may not be written\n", "before\n"),
            ("another's file in a folder for all", 0o1777, 0, 0o666, 0, "", "2\n3\n")):
        folder = inputs / "folder"
        folder.mkdir()
        out = folder / "OUT"
        out.write_text("before\n")
        for path, own in ((folder, mode), (out, rights)):
            os.chown(path, owner, owner)
            path.chmod(own)
        done = subprocess.run([*lead, script, "eval", "SRC", "SAMPLES", out], cwd=inputs, stdin=subprocess.DEVNULL,
                              capture_output=True, text=True)
        if (done.returncode, done.stderr, out.read_text()) != (status, said.format(out=out), rows):
            yield f"{what}: {done.returncode} {done.stderr!r}, {out.read_text()!r}"
        shutil.rmtree(folder)


def stop_faults(script: Path, inputs: Path) -> Iterator[str]:
    """A run that is stopped leaves OUT as it was, and its rows under a name that it tells."""
    out, pipe = inputs / "OUT", inputs / "pipe"
    out.write_text("before\n")
    os.mkfifo(pipe)
    with subprocess.Popen([script, "eval", "SRC", "pipe", "OUT"], cwd=inputs, stdin=subprocess.DEVNULL,
                          stderr=subprocess.PIPE, text=True) as process, open(pipe, "w") as rows:
        rows.write("1\n")
        rows.flush()
        parts, end = [], time.monotonic() + SECONDS
        while not (parts and parts[0].read_text()) and time.monotonic() < end:
            time.sleep(0.02)
            parts = list(inputs.glob(".silc.*.part"))
        process.terminate()
        said = process.communicate(timeout=SECONDS)[1]
    if process.returncode != -signal.SIGTERM or out.read_text() != "before\n":
        yield f"stopped: {process.returncode}, and OUT holds {out.read_text()!r}"
    if not parts or f"{parts[0].name}\n" not in said or parts[0].read_text() != "2\n":
        yield f"stopped: the rows so far are not told: {said!r}, {parts}"
    for path in (*parts, out, pipe):
        path.unlink(missing_ok=True)


def telling_faults(script: Path, inputs: Path) -> Iterator[str]:
    """What a second line says of a refusal."""
    (inputs / "TWICE").write_bytes((ROOT / "tests" / "machine" / "file-twice.mic").read_bytes())
    for words, status, wanted in (
            (["sim", "TWICE", "SAMPLES", "OUT"], 12, "silc: file 8 is port 0 of unit 2, both from 0"),
            (["sim", "MIC", "none", "OUT"], 3, "silc: none: there is no such file"),
            (["list", "none"], 3, "silc: none: there is no such file"),
            (["eval", "SRC", ".", "OUT"], 3, "silc: .: it is a folder"),
            (["eval", "SRC", "SAMPLES", "no/OUT"], 3, "silc: no/OUT: there is no folder no/"),
            (["eval", b"\xff", "SAMPLES", "OUT"], 2, "silc: a word is no UTF-8, and names no file here: \udcff")):
        done = subprocess.run([script, *words], cwd=inputs, stdin=subprocess.DEVNULL, capture_output=True)
        lines = done.stderr.decode(errors="surrogateescape").splitlines()
        if done.returncode != status or len(lines) != 2 or lines[1] != wanted:
            yield f"{words}: {done.returncode} {lines}"
    if os.path.exists("/dev/full"):
        with open("/dev/full", "w") as full:
            done = subprocess.run([script, "demo", "1", "3"], cwd=inputs, stdin=subprocess.DEVNULL, stdout=full,
                                  stderr=subprocess.PIPE, text=True)
        if (done.returncode, done.stderr) != (3, "silc: file fault\n"):
            yield f"words that are no files: {done.returncode} {done.stderr!r}"
    done = run(script, inputs, ["sim", "TWICE", "SAMPLES", "/dev/stdout"], preexec_fn=no_room)
    if done.returncode != 12 or not done.stderr.startswith("silc: refused with 12: "):
        yield f"no room for the line of a refusal: {done.returncode} {done.stderr!r}"
    (inputs / "TWICE").unlink()
    (inputs / "OUT").unlink(missing_ok=True)
    for words, status in (([], 2), (["-h"], 0), (["help"], 0), (["--help"], 0)):
        done = run(script, inputs, words)
        if done.returncode != status or not (done.stderr if status else done.stdout).startswith(USAGE):
            yield f"the words {words}: {done.returncode} {done.stdout!r} {done.stderr!r}"


def main() -> int:
    if not os.access(SILC, os.X_OK):
        print(f"silc: there is no program {SILC}; `tools/build silc_main` builds it")
        return 1
    with tempfile.TemporaryDirectory(prefix="silc-script-") as folder:
        script, inputs = prepare(Path(folder))
        checks = (guard_faults, whole_faults, stream_faults, descriptor_faults, name_faults, right_faults, stop_faults,
                  telling_faults, terminal_faults)
        faults = [fault for check in checks for fault in check(script, inputs)]
    for fault in faults:
        print(fault)
    print(f"./silc: {len(faults)} faults")
    return 1 if faults else 0


if __name__ == "__main__":
    sys.exit(main())
