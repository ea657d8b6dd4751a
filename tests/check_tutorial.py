#!/usr/bin/env python3
"""Whether docs/TUTORIAL.md and docs/DESIGNING.md say what happens: the files of a page are made and its commands run,
one after another, in one shell.

usage: tests/check_tutorial.py [--silc PROGRAM]            ends with 1 where an output or the picture is another, and
                                                           prints what differs
       tests/check_tutorial.py [--silc PROGRAM] --write    writes what the commands print into the pages, and the
                                                           picture that they draw

A block of `console` has commands after `$ `, which go on after `> `, each with its output. A block with a second word
after its language is the file of that name. It runs the built `silc`, or PROGRAM; what `SILC` names in the environment
is not asked.
"""
import os
import re
import shutil
import subprocess
import sys
import tempfile
from collections.abc import Iterator, Sequence
from pathlib import Path
from typing import TypeAlias

from silc.made_files import put_whole

# The blocks of a page: the language, the name of a file where there is one, and the text.
Blocks: TypeAlias = Sequence[tuple[str, ...]]

ROOT = Path(__file__).resolve().parent.parent
BUILT = ROOT / "crates" / "silc_main" / "out" / "silc_main"
# The pages, each with the pictures that its commands draw, as files of docs/pictures.
PAGES = {ROOT / "docs" / "TUTORIAL.md": ["smooth.svg"], ROOT / "docs" / "DESIGNING.md": []}
PICTURES = ROOT / "docs" / "pictures"
BLOCK = re.compile(r"^```(\w+)(?: (\S+))?\n(.*?)^```$", re.M | re.S)
CONSOLE, MARK = "console", "-- end of a command --"
SECONDS = 60


class Command:
    """A command with the lines that show it, and what it prints."""

    def __init__(self, line: str) -> None:
        self.shown, self.words, self.output = [line], [line[2:]], ""


def commands_in(text: str) -> list[Command]:
    commands = []
    for line in text.splitlines():
        if line.startswith("$ "):
            commands.append(Command(line))
        elif line.startswith("> "):
            commands[-1].shown.append(line)
            commands[-1].words.append(line[2:])
        else:
            commands[-1].output += line + "\n"
    return commands


def script_of(blocks: Blocks) -> str:
    """The shell script of all blocks: after each command comes a line that marks its end."""
    lines = ["exec 2>&1"]
    for language, name, text in blocks:
        if name:
            lines.append(f"cat > {name} <<'{MARK}'\n{text}{MARK}")
        elif language == CONSOLE:
            for command in commands_in(text):
                lines += [*command.words, f"echo '{MARK}'"]
    return "\n".join(lines) + "\n"


def laid_out(room: Path, silc: Path) -> Path:
    """A folder as the top of the repository, with the program in the place of the built one."""
    top = room / "top"
    made = top / "crates" / "silc_main" / "out"
    made.mkdir(parents=True)
    (made / "silc_main").symlink_to(silc)
    shutil.copy2(ROOT / "silc", top / "silc")
    (top / "RELEASE").touch()
    for folder in ("tools", "examples"):
        (top / folder).symlink_to(ROOT / folder)
    return top


def carry_out(blocks: Blocks, top: Path, variables: dict[str, str]) -> tuple[list[str], Path]:
    """What each command prints where the first one runs in the top folder, and the folder in which the last one ran."""
    done = subprocess.run(["bash", "-c", script_of(blocks) + "pwd"], cwd=top, stdin=subprocess.DEVNULL, timeout=SECONDS,
                          env=variables, stdout=subprocess.PIPE, text=True)
    *outputs, folder = done.stdout.split(MARK + "\n")
    return outputs, Path(folder.strip())


def run(blocks: Blocks, room: Path, silc: Path) -> tuple[list[str], Path]:
    """The same at the top of a repository with this program, and with the tools of this one."""
    return carry_out(blocks, laid_out(room, silc), os.environ | {"TMPDIR": str(room), "SILC": str(silc)})


def page_with(text: str, outputs: Sequence[str]) -> str:
    """The page with these outputs in the place of its own."""
    outputs = iter(outputs)

    def block(found: re.Match[str]) -> str:
        if found[1] != CONSOLE:
            return found[0]
        shown = ("\n".join(command.shown) + "\n" + next(outputs) for command in commands_in(found[3]))
        return f"```{CONSOLE}\n{''.join(shown)}```"

    return BLOCK.sub(block, text)


def carried_out(page: Path, silc: Path) -> tuple[list[Command], list[str], dict[str, str]]:
    """The commands of a page, what each prints, and the pictures that they draw."""
    blocks = [found.groups() for found in BLOCK.finditer(page.read_text())]
    shown = [command for language, _, part in blocks if language == CONSOLE for command in commands_in(part)]
    with tempfile.TemporaryDirectory(prefix="silc-tutorial-") as folder:
        outputs, last = run(blocks, Path(folder).resolve(), silc)
        drawn = {name: (last / name).read_text() if (last / name).is_file() else "" for name in PAGES[page]}
    return shown, outputs, drawn


def write(page: Path, shown: Sequence[Command], outputs: Sequence[str], drawn: dict[str, str]) -> bool:
    """Writes what was printed and drawn, and tells whether all commands were carried out."""
    if len(outputs) != len(shown):
        return False
    put_whole(page, page_with(page.read_text(), outputs))
    for name, picture in drawn.items():
        put_whole(PICTURES / name, picture)
    return True


def faults_of(page: Path, shown: Sequence[Command], outputs: Sequence[str], drawn: dict[str, str]) -> Iterator[str]:
    name = page.relative_to(ROOT)
    for command, output in zip(shown, outputs):
        if command.output != output:
            yield f"{name}: {command.words[0]} prints\n{output}in the place of\n{command.output}"
    if len(shown) != len(outputs):
        yield f"{name}: {len(outputs)} of {len(shown)} commands are carried out"
    for file, picture in drawn.items():
        if not (PICTURES / file).exists() or picture != (PICTURES / file).read_text():
            yield f"docs/pictures/{file} is not what {name} draws; run tests/check_tutorial.py --write"


def main(words: list[str]) -> int:
    silc = BUILT
    if words[:1] == ["--silc"] and len(words) > 1:
        silc, words = Path(words[1]).resolve(), words[2:]
    if words not in ([], ["--write"]):
        print(__doc__, file=sys.stderr)
        return 2
    done = {page: carried_out(page, silc) for page in PAGES}
    if words and all([write(page, *what) for page, what in done.items()]):
        return 0
    faults = [fault for page, what in done.items() for fault in faults_of(page, *what)]
    for fault in faults:
        print(fault)
    print(f"tutorial: {sum(len(outputs) for _, outputs, _ in done.values())} commands, {len(faults)} faults")
    return 1 if faults else 0


if __name__ == "__main__":
    sys.exit(main(sys.argv[1:]))
