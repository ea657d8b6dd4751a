"""Runs `silc`, and where it refuses says more: the place, what is wrong there, what would be right, and where the rule
is.

usage: tools/explain [OPTION ..] WORDS..    runs `silc WORDS..`, and explains its refusal on standard error
       tools/explain --place LINE [DP]      tells in a line what the place of a conflict is, by the LINE that silc has
                                            said
       tools/explain --page                 prints docs/ERRORS.md, which has every refusal with an example and its cure

  --datapath DP   with `sim`: the datapath file that MIC was compiled for, so that units and buses are told by their
                  names
  --library FOLDER  blocks of this folder come before those of library/, where the source is to be linked
  --edits         tells the cure as edits too, where it is some: lines `edit: FILE:LINE:COLUMN-END: TEXT`, TEXT as JSON
  --json          prints a plan, an image or the refusal as JSON on standard output (docs/PYTHON.md), and explains
                  nothing else

What `silc` prints goes through, and its exit status is that of this program. A SRC that begins with `use` or `let` is
linked first, as tools/link does it, and what is said of it is told in that file, or in the block that has it; where it
can't be linked, the exit status is 4. It builds nothing: it runs the programs that
are built, or those that `SILC` and `SILC_SHOW` name in the environment. Without `silc_show` it says what it can.
"""
import os
import sys
from typing import TYPE_CHECKING

from silc.programs import SILC, is_program

if TYPE_CHECKING:
    from silc.linking.places import Unlinked
    from silc.linking.words import Given

# The exit code of `./silc` where the program is not there and could not be built.
UNBUILT, BAD_WORDS = 70, 2
PIECE = 1 << 16
DATAPATH, LIBRARY, EDITS, JSON = "--datapath", "--library", "--edits", "--json"
# The options, and how many words follow each.
OPTIONS = {DATAPATH: 1, LIBRARY: 1, EDITS: 0, JSON: 0}


def run(words: list[str], is_shown: bool = True) -> tuple[int, str]:
    """Runs the program of a command. Gives its exit status and what it wrote to standard error, which goes through
    where it is shown."""
    read, write = os.pipe()
    from silc.explaining.outputs import called
    line = called(words)
    child = os.posix_spawn(line[0], line, os.environ, file_actions=[
        (os.POSIX_SPAWN_DUP2, write, 2), (os.POSIX_SPAWN_CLOSE, read)])
    os.close(write)
    said = b""
    while piece := os.read(read, PIECE):
        if is_shown:
            os.write(2, piece)
        said += piece
    _, status = os.waitpid(child, 0)
    return os.waitstatus_to_exitcode(status), said.decode(errors="replace")


def options_of(words: list[str]) -> tuple[dict[str, list[str]], list[str], str | None]:
    """The options before the words of a command, these words, and why they are wrong, where they are."""
    options: dict[str, list[str]] = {}
    while words and words[0] in OPTIONS:
        count = OPTIONS[words[0]]
        # Of folders with blocks there may be several.
        options[words[0]], words = [*(options.get(LIBRARY, []) if words[0] == LIBRARY else []),
                                    *words[1:1 + count]], words[1 + count:]
    if not words:
        return options, words, "no command follows the options; `tools/explain --help` shows the usage"
    if DATAPATH in options and words[0] != "sim":
        return options, words, f"{DATAPATH} is for `sim`: the other commands have a datapath of their own, or none"
    return options, words, None


def explained(options: dict[str, list[str]], words: list[str]) -> int:
    """Runs a command, and explains its refusal. Gives the exit status."""
    from silc.explaining.outputs import guarded
    from silc.linking.places import Unlinked
    from silc.linking.words import given
    datapath = options[DATAPATH][0] if DATAPATH in options else None
    try:
        with given(words, options.get(LIBRARY, [])) as command:
            if JSON in options:
                from silc.as_json import told
                return told(command, SILC.place(), datapath)
            status, said = guarded(words) or command.guarded() or ran(command)
            if status > 0 and said:
                from silc.explaining.command import explain
                explain(command, status, said, SILC.place(), datapath, is_edited=EDITS in options)
            return status if status >= 0 else 128 - status
    except Unlinked as fault:
        return unlinked(fault, JSON in options)


def ran(command: "Given") -> tuple[int, str]:
    """Runs a command. What is said of a source that is linked is shown with the lines of its files."""
    status, said = run(command.placed, is_shown=command.told is None)
    if command.told:
        sys.stderr.write(command.said(said))
        sys.stderr.flush()
    return status, said


def unlinked(fault: "Unlinked", is_json: bool) -> int:
    """Says why a source can't be linked. Gives the exit status."""
    from silc.explaining.report import lines_of
    from silc.linking.told import refused_unlinked, report_unlinked
    print("\n".join(lines_of(report_unlinked(fault))), file=sys.stderr, flush=True)
    refused = refused_unlinked(fault)
    if is_json:
        from silc.as_json import put
        put(refused.as_json())
    return refused.status


def main(words: list[str]) -> int:
    if words in ([], ["--help"]):
        print(__doc__)
        return 0 if words else BAD_WORDS
    if words == ["--page"]:
        from silc.explaining.page import page
        print(page(), end="")
        return 0
    if words[0] == "--place" and len(words) in (2, 3):
        from silc.explaining.of_microcode import told_place
        return told_place(*words[1:])
    options, words, fault = options_of(words)
    if fault:
        print(f"explain: {fault}", file=sys.stderr)
        return BAD_WORDS
    from silc.explaining.outputs import program_of
    program = program_of(words)
    if not is_program(program):
        print(f"explain: there is no program {program}; `./silc build` builds it", file=sys.stderr)
        return UNBUILT
    return explained(options, words)
