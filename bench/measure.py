"""Has silc_show repeat a call on files, and tells how long one turn takes."""
import os
import re
import resource
import shutil
import subprocess
import sys
from collections.abc import Sequence
from pathlib import Path
from typing import TypeAlias

from silc import programs

# A word of a command.
Word: TypeAlias = str | Path

ROOT = Path(__file__).resolve().parent.parent
# Programs that are built elsewhere are named by these variables; then none is built.
PROGRAM = Path(programs.SHOW.place())
SILC = Path(programs.SILC.place())
VARIABLES = {"silc_show": "SILC_SHOW", "silc_main": "SILC", "silc_place": "SILC_PLACE"}
# The microcode of y = x + 1.
INCREMENT = ROOT / "tests" / "increment" / "add-8-1.mic"
COUNTED = re.compile(rb"Collected : (\d+)")
# How a script ends that is skipped, since a program of the host is not there.
SKIPPED = 77


def build(program: str = "silc_show") -> None:
    """Builds the program where it is not there or older than its sources, and ends where that fails."""
    if os.environ.get(VARIABLES[program]):
        return
    status = subprocess.run([ROOT / "tools" / "build", program]).returncode
    if status:
        sys.exit(status)


def spent(*words: Word) -> tuple[float, bytes]:
    """The processor time of a command, which says more than the clock where the machine does other work too, and what
    it prints. Ends with the status of a command that fails."""
    process = subprocess.Popen(words, stdout=subprocess.PIPE)
    with process.stdout as printed:
        answer = printed.read()
    _, status, usage = os.wait4(process.pid, 0)
    process.returncode = os.waitstatus_to_exitcode(status)
    if process.returncode:
        sys.exit(process.returncode)
    return usage.ru_utime + usage.ru_stime, answer


def run(call: str, turns: int, *files: Word) -> tuple[float, int]:
    """How long so many turns take, and what they add up to. The program answers that, or the fault of a file."""
    taken, answer = spent(PROGRAM, "repeat", call, str(turns), *files)
    if not answer.strip().isdigit():
        sys.exit(f"{call} answers {answer.decode(errors='replace')}")
    return taken, int(answer)


def least(words: Sequence[Word], tries: int) -> float:
    """The least time of a command in so many runs."""
    return min(spent(*words)[0] for _ in range(tries))


def sum_of(call: str, turns: int, *files: Word) -> int:
    """What so many turns add up to."""
    return run(call, turns, *files)[1]


def best(call: str, turns: int, *files: Word) -> float:
    """The least of at least three runs, and of as many as take half a second: a short run says little by itself."""
    times = []
    while len(times) < 3 or sum(times) < 0.5:
        times.append(run(call, turns, *files)[0])
    return min(times)


def seconds_a_turn(call: str, file: Word, turns: int, *others: Word) -> float:
    """The time of one turn on a file, and on the others that the call takes: that of so many turns and one, less that
    of one."""
    return max(best(call, turns + 1, file, *others) - best(call, 1, file, *others), 1e-9) / turns


def peak(call: str, turns: int, file: Word) -> int:
    """The most memory that a run takes, in bytes. It is no less than the script's, which starts the program."""
    process = subprocess.Popen([PROGRAM, "repeat", call, str(turns), file], stdout=subprocess.DEVNULL)
    _, status, usage = os.wait4(process.pid, 0)
    process.returncode = os.waitstatus_to_exitcode(status)
    if process.returncode:
        sys.exit(f"{call} ends with {process.returncode}")
    return usage.ru_maxrss * 1024


def peak_of_children() -> int:
    """The most memory that a run has taken so far, in bytes."""
    return resource.getrusage(resource.RUSAGE_CHILDREN).ru_maxrss * 1024


def needs_valgrind(name: str) -> None:
    """Ends the script of this name where there is no valgrind."""
    if not shutil.which("valgrind"):
        print(f"{name}: there is no valgrind: apt-get install valgrind")
        sys.exit(SKIPPED)


def instructions(*words: object, status: int = 0) -> int:
    """How many instructions a command of silc takes that ends with this status. valgrind counts them, so that another
    machine or its other work changes nothing."""
    return instructions_of(SILC, *words, status=status)


def instructions_of_show(*words: object) -> int:
    """The same of `silc_show`."""
    return instructions_of(PROGRAM, *words)


def instructions_of(program: Word, *words: object, status: int = 0) -> int:
    process = subprocess.run(["valgrind", "--tool=callgrind", "--callgrind-out-file=/dev/null", program,
                              *map(str, words)], stdout=subprocess.DEVNULL, stderr=subprocess.PIPE)
    found = COUNTED.search(process.stderr)
    if process.returncode != status or not found:
        sys.exit(f"{' '.join(map(str, words))} ends with {process.returncode}")
    return int(found[1])
