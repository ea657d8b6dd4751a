"""Runs of `silc schedule` or `silc stages` on many datapaths, and of tools/synthesize on some, by GNU parallel or by a
pool of this process."""
import os
import shlex
import shutil
import subprocess
from collections.abc import Iterable, Iterator, Sequence
from multiprocessing.pool import ThreadPool
from pathlib import Path
from typing import TypeAlias

from silc.programs import command as command_of, with_package

# A name, the status of its command, and what that says.
Answer: TypeAlias = tuple[str, int, str]

# The ending of the source of a datapath.
SOURCE, PROGRAM, LIST = ".sil", "silc", "list"
# The lines before and after what silc says of a datapath.
BEGIN, END = "datapath", "status"
SCHEDULE = f"./{PROGRAM} schedule {{}}{SOURCE} {{}}"
# The number of stages is behind the last dot of a datapath's name.
STAGES = f"n={{}}; ./{PROGRAM} stages $n{SOURCE} $n ${{n##*.}}"


def area(family: str, has_dsp: bool = False, rate: float | None = None) -> str:
    """The command that says what the core of a datapath takes of an FPGA, with its multipliers in blocks or not; with a
    rate, at which clock it runs, too."""
    clock = f" --route --rate {rate}" if rate else ""
    return (f"./{PROGRAM} compile {{}}{SOURCE} {{}} {{}}.mic && "
            f"{shlex.join(command_of('synthesize'))} {{}}.mic --datapath {{}} --for {family}{' --dsp' * has_dsp}"
            f"{clock} --json")


def is_there() -> bool:
    """Whether the command `parallel` is GNU parallel, since another program has that name too."""
    program = shutil.which("parallel")
    done = subprocess.run([program, "--version"], capture_output=True, text=True) if program else None
    return done is not None and done.stdout.startswith("GNU parallel")


def run(room: Path, name: str, command: str = SCHEDULE) -> tuple[int, str]:
    """The status of the command on the datapath of that name, and what it says."""
    done = subprocess.run(command.replace("{}", name), shell=True, cwd=room, stdin=subprocess.DEVNULL,
                          stdout=subprocess.PIPE, stderr=subprocess.STDOUT, text=True, env=with_package())
    return done.returncode, done.stdout


def by_pool(room: Path, names: Sequence[str], jobs: int | None, command: str = SCHEDULE) -> Iterator[Answer]:
    """Each name with the status and what the command says, in the order in which they are done."""
    with ThreadPool(jobs or len(os.sched_getaffinity(0))) as pool:
        yield from pool.imap_unordered(lambda name: (name, *run(room, name, command)), names)


def by_parallel(room: Path, names: Sequence[str], jobs: int | None, logins: Sequence[str] | None,
                command: str = SCHEDULE) -> Iterator[Answer]:
    """The same. On other machines, by ssh and rsync, the program and the files lie in a folder of this one's name."""
    (room / LIST).write_text("".join(f"{name}\n" for name in names))
    words = ["parallel", "--plain", "--will-cite", "--arg-file", LIST, *(["--jobs", str(jobs)] if jobs else [])]
    if logins:
        words += ["--workdir", ".", "--basefile", PROGRAM, "--transferfile", "{}", "--transferfile", "{}" + SOURCE,
                  "--cleanup"]
        words += [word for login in logins for word in ("--sshlogin", login)]
    command = f"echo {BEGIN} {{}}; ( {command} ) 2>&1; echo {END} $?"
    with subprocess.Popen([*words, command], cwd=room, stdin=subprocess.DEVNULL, stdout=subprocess.PIPE, text=True,
                          env=with_package()) as running:
        try:
            yield from answers(running.stdout or [])
        finally:
            running.terminate()


def answers(lines: Iterable[str]) -> Iterator[Answer]:
    """The answers that the lines of the command give; parallel keeps those of a datapath together."""
    name, said = "", list[str]()
    for line in lines:
        word, _, rest = line.rstrip("\n").partition(" ")
        if word == BEGIN:
            name, said = rest, []
        elif word == END:
            yield name, int(rest), "".join(said)
        else:
            said.append(line)
