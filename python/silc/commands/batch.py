"""Runs a program, microcode or a net over each sample file of a folder, by GNU parallel: many at a time, here and
elsewhere.

usage: tools/batch SRC FOLDER OUT [--jobs N] [--sshlogin MACHINES] [--force]
       tools/batch MIC FOLDER OUT [--jobs N] [--sshlogin MACHINES] [--force]
       tools/batch NET FOLDER OUT [--jobs N] [--sshlogin MACHINES] [--force]

SRC ends in .sil and is solved by `silc eval`, MIC ends in .mic and is run by `silc sim`, NET ends in .toml and is run
by `silc net` (docs/NETS.md). FOLDER has the sample files: all of its files but those whose names begin with a dot. OUT
gets the rows of each under its name, whole, as soon as they are there. Of a file that is refused the name and the
reason are told, and there are no rows; the others are run all the same, and the exit status is 1.

It says how far it is, and goes on where it was stopped: OUT/.batch has the sums of what each file of rows was made of.
One that is there, and that was made of the same files, is not made again. One that no tool made, or that was changed
since, is in the way, and then nothing is run but with --force.

--jobs is for GNU parallel: how many run at a time on a machine, N of them or N% of its processors, where it is left out
one on each. --sshlogin is too, as host, user@host or 8/host, some of them with commas between: each file is run on one
of these machines, and on this one if `:` is among them. A machine needs Perl, rsync and what the program needs; `silc`,
the program and the samples are brought there, into a folder that goes away.
"""
from __future__ import annotations

import argparse
import json
import os
import re
import shutil
import subprocess
import sys
import tempfile
import time
from collections.abc import Iterator
from dataclasses import dataclass, field
from hashlib import sha256
from pathlib import Path

from silc.commands import ended
from silc.made_files import MadeFiles, NotMade, add_force, sum_of
from silc.nets import NetFault, NetFile, net_file_of
from silc.programs import SILC, NoProgram

RECORD, HEAD = ".batch", "silc batch 1"
SECONDS_BETWEEN, SECONDS_TO_STOP, NO_WORDS = 5, 0.2, 2
# What GNU parallel runs is written for this shell, whatever the user's own is, and where the variable SHELL is missing.
SHELL = {"PARALLEL_SHELL": "/bin/sh"}
JOBS = re.compile(r"[1-9][0-9]{0,3}%?")
# A line of the record: the sum of what rows were made of, that of the rows, and their name.
LINE = re.compile(r'([0-9a-f]{64}) ([0-9a-f]{64}) (".*")')
# What each kind of program is called where it is run, and the command that runs it, by its ending.
COMMANDS = {".sil": ("eval", "program.sil"), ".mic": ("sim", "program.mic"), ".toml": ("net", "net.toml")}


class Unrun(Exception):
    """Why nothing is run, or not all of it."""


@dataclass
class Room:
    """The folder in which the files are run: `silc`, the program with what it names, and by numbers the samples and
    rows."""
    folder: Path
    command: str
    program: str
    files: dict[str, bytes]

    def words(self) -> str:
        """What is run for the file with the number that GNU parallel puts in. On this machine the room is where it
        is."""
        return (f"[ \"$PARALLEL_SSHLOGIN\" != : ] || cd {self.folder}; mkdir -p rows said; : > rows/{{}}; "
                f"./silc {self.command} {self.program} samples/{{}} rows/{{}} 2> said/{{}}; echo {{}} $?")

    def fill(self, silc: str, is_far: bool) -> None:
        for name, content in self.files.items():
            (self.folder / name).write_bytes(content)
        for name in ("samples", "rows", "said"):
            (self.folder / name).mkdir()
        self.bring(silc, "silc", is_far)

    def bring(self, file: str | Path, name: str, is_far: bool) -> None:
        """Puts a file into the room, as a copy where it goes to other machines."""
        if is_far:
            shutil.copy(file, self.folder / name)
        else:
            (self.folder / name).symlink_to(os.path.abspath(file))

    def told(self, number: int) -> str:
        """What was said of a file that was refused."""
        said = self.folder / "said" / str(number)
        return said.read_text(errors="replace").strip().removeprefix("silc: ") if said.exists() else ""


@dataclass
class Batch:
    """The sample files by their names, the sums of what their rows are made of, and where the rows go."""
    samples: Path
    out: Path
    files: MadeFiles
    sums: dict[str, str] = field(default_factory=dict)
    known: dict[str, tuple[str, str]] = field(default_factory=dict)

    def is_made(self, name: str) -> bool:
        """Whether the rows are there, as they were made of the same files."""
        made = self.known.get(name)
        target = self.out / name
        return made is not None and made[0] == self.sums[name] and target.is_file() and sum_of(target) == made[1]

    def keep(self, name: str, rows: Path) -> None:
        """Puts the rows of a file into their place, and into the record."""
        with self.files.opened(self.out / name) as target, open(rows, "rb") as source:
            shutil.copyfileobj(source, target)
        with open(self.out / RECORD, "a", encoding="utf-8") as record:
            record.write(f"{self.sums[name]} {sum_of(self.out / name)} {json.dumps(name)}\n")


def say(text: object) -> None:
    print(f"batch: {text}", file=sys.stderr, flush=True)


# What is run


def net_text(net: NetFile) -> str:
    """The net file over files that lie beside it, by the numbers of their processors."""
    lines = [f"inputs = {net.inputs}", f"capacity = {net.capacity}"]
    for number, processor in enumerate(net.processors):
        feed = json.dumps([str(wire) for wire in processor.feed])
        lines += ["[[proc]]", f'src = "{number}.sil"', f'dp = "{number}.toml"', f"feed = {feed}"]
    return "\n".join([*lines, ""])


def files_of(program: str, name: str) -> tuple[dict[str, bytes], list[str]]:
    """The files that are run, by their names in the room; and where they lie."""
    content = Path(program).read_bytes()
    if not program.endswith(".toml"):
        return {name: content}, [program]
    net = net_file_of(content)
    files, places = {name: net_text(net).encode()}, [program]
    for number, processor in enumerate(net.processors):
        for ending, file in (("sil", processor.src), ("toml", processor.dp)):
            files[f"{number}.{ending}"] = Path(file).read_bytes()
            places.append(file)
    return files, places


def check_program(room: Room) -> None:
    """Refuses a program once, and not at each of its samples."""
    done = subprocess.run(["./silc", room.command, room.program, os.devnull, "rows/none"], cwd=room.folder,
                          stdin=subprocess.DEVNULL, capture_output=True, text=True)
    if done.returncode == NO_WORDS:
        raise Unrun(f"this silc has no command {room.command}; `./silc build` builds one that has")
    if done.returncode:
        raise Unrun(f"{room.program}: {done.stderr.strip().removeprefix('silc: ')}")


# The record


def known_in(record: Path) -> dict[str, tuple[str, str]]:
    """Of each name that was made the sums of what it was made of and of its rows. A line that was cut off is none."""
    if not record.exists():
        return {}
    head, *lines = record.read_text(encoding="utf-8").split("\n")
    if head != HEAD:
        raise NotMade(f"{record} is there, and no record of a batch")
    return {json.loads(found[3]): (found[1], found[2]) for found in map(LINE.fullmatch, lines) if found}


def begin(record: Path) -> None:
    """Makes the record, or ends a line of it that was cut off."""
    if not record.exists():
        record.write_text(f"{HEAD}\n", encoding="utf-8")
    elif not record.read_bytes().endswith(b"\n"):
        with open(record, "a", encoding="utf-8") as lines:
            lines.write("\n")


def sums_of(files: dict[str, bytes], samples: dict[str, Path]) -> dict[str, str]:
    """The sums of what the rows of each sample file are made of."""
    program = sha256(b"".join(b"%s %d\n%s" % (name.encode(), len(content), content)
                              for name, content in sorted(files.items())))
    return {name: sha256(program.digest() + sum_of(file).encode()).hexdigest() for name, file in samples.items()}


def sample_files(folder: Path) -> dict[str, Path]:
    found = {file.name: file for file in sorted(folder.iterdir()) if file.is_file() and not file.name.startswith(".")}
    if not found:
        raise Unrun(f"{folder} has no file")
    return found


def check_places(batch: Batch, samples: dict[str, Path], places: list[str]) -> None:
    """Refuses rows that would take the place of samples or of a program, by whatever name."""
    def mark(file: Path) -> tuple[int, int]:
        return (file.stat().st_dev, file.stat().st_ino)
    inputs = {mark(file): file for file in [*samples.values(), *map(Path, places)]}
    for name in samples:
        target = batch.out / name
        if target.exists() and mark(target) in inputs:
            raise NotMade(f"{target} is the input {inputs[mark(target)]}")


# The run


def parallel_words(options: argparse.Namespace, room: Room) -> list[str]:
    words = ["parallel", "--will-cite", "--plain", *(["--jobs", options.jobs] if options.jobs else [])]
    if options.machines:
        words += ["--sshlogin", options.machines, "--workdir", room.folder.name, "--cleanup", "--transferfile",
                  "samples/{}", "--return", "rows/{}", "--return", "said/{}"]
        words += [word for name in ["silc", *room.files] for word in ("--basefile", name)]
    return [*words, room.words()]


def stop(run: subprocess.Popen[str]) -> None:
    """Ends GNU parallel with what it runs: at the first signal it would wait for that, and at the next it does not."""
    while run.poll() is None:
        run.terminate()
        time.sleep(SECONDS_TO_STOP)


def ends_of(words: list[str], room: Room, count: int) -> Iterator[tuple[int, int]]:
    """The number of each file as its run ends, with the exit status."""
    with open(room.folder / "numbers", "w+", encoding="ascii") as numbers, \
            open(room.folder / "faults", "w+", encoding="utf-8") as faults:
        numbers.write("".join(f"{number}\n" for number in range(count)))
        numbers.seek(0)
        with subprocess.Popen(words, cwd=room.folder, stdin=numbers, stdout=subprocess.PIPE, stderr=faults,
                              text=True, env=os.environ | SHELL) as run:
            assert run.stdout
            try:
                for line in run.stdout:
                    number, status = line.split()
                    yield int(number), int(status)
            except BaseException:
                stop(run)
                raise
        faults.seek(0)
        told = faults.read().strip()
    if run.returncode and told:
        raise Unrun(f"GNU parallel: {told.splitlines()[-1]}")


def run_all(options: argparse.Namespace, room: Room, batch: Batch, names: list[str]) -> int:
    """Runs the files of these names. Gives how many were refused or not run."""
    made, refused, last = 0, 0, time.monotonic()
    for number, status in ends_of(parallel_words(options, room), room, len(names)):
        if status:
            refused += 1
            say(f"{names[number]}: {room.told(number) or f'silc ended with {status}'}")
        else:
            batch.keep(names[number], room.folder / "rows" / str(number))
            made += 1
        for kind in ("rows", "samples"):
            (room.folder / kind / str(number)).unlink(missing_ok=True)
        if time.monotonic() - last > SECONDS_BETWEEN:
            last = time.monotonic()
            say(f"{made + refused} of {len(names)}")
    if made + refused < len(names):
        say(f"{len(names) - made - refused} of {len(names)} were not run")
    return len(names) - made


def batch_of(options: argparse.Namespace, room: Room, places: list[str]) -> tuple[Batch, dict[str, Path]]:
    samples, out = sample_files(Path(options.folder)), Path(options.out)
    batch = Batch(Path(options.folder), out, MadeFiles(is_forced=options.force), sums_of(room.files, samples),
                  known_in(out / RECORD))
    check_places(batch, samples, places)
    return batch, samples


def put(options: argparse.Namespace) -> int:
    """Makes what is not there yet. Gives the exit status."""
    check_programs(options)
    command, program = COMMANDS[Path(options.program).suffix]
    with tempfile.TemporaryDirectory(prefix="silc-batch-") as folder:
        files, places = files_of(options.program, program)
        room = Room(Path(folder), command, program, files)
        room.fill(SILC.found(), bool(options.machines))
        check_program(room)
        batch, samples = batch_of(options, room, places)
        names = [name for name in samples if not batch.is_made(name)]
        for name in names:
            batch.files.look_at(batch.out / name)
        batch.out.mkdir(parents=True, exist_ok=True)
        begin(batch.out / RECORD)
        for number, name in enumerate(names):
            room.bring(samples[name], f"samples/{number}", bool(options.machines))
        if len(names) < len(samples):
            say(f"{len(samples) - len(names)} of {len(samples)} are there already")
        left = run_all(options, room, batch, names) if names else 0
    print(f"{len(samples) - left} of {len(samples)} files have their rows in {options.out}")
    return 1 if left else 0


def check_programs(options: argparse.Namespace) -> None:
    for program in ("parallel", *(["rsync", "ssh"] if options.machines else [])):
        if not shutil.which(program):
            package = "openssh-client" if program == "ssh" else program
            raise Unrun(f"there is no {program}; apt-get install {package}")


def jobs_of(word: str) -> str:
    if not JOBS.fullmatch(word):
        raise argparse.ArgumentTypeError(f"{word} is no number of jobs, as 4 or 50%")
    return word


def options_of(words: list[str]) -> argparse.Namespace:
    assert __doc__
    parser = argparse.ArgumentParser(prog="batch", usage=__doc__.partition("usage: ")[2].partition("\n\n")[0],
                                     description=__doc__, formatter_class=argparse.RawDescriptionHelpFormatter)
    parser.add_argument("program", metavar="SRC|MIC|NET")
    parser.add_argument("folder", metavar="FOLDER")
    parser.add_argument("out", metavar="OUT")
    parser.add_argument("--jobs", metavar="N", type=jobs_of)
    parser.add_argument("--sshlogin", metavar="MACHINES", dest="machines")
    add_force(parser)
    options = parser.parse_args(words)
    if Path(options.program).suffix not in COMMANDS:
        parser.error(f"{options.program} ends in none of {', '.join(COMMANDS)}")
    return options


def main(words: list[str]) -> int:
    options = options_of(words)
    return ended("batch", lambda: put(options), Unrun, NotMade, NetFault, NoProgram)
