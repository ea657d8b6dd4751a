"""The commands over the package, a module each: `tools/NAME WORDS` of the checkout, and `python3 -m silc NAME
WORDS`."""
import argparse
import importlib
import os
import sys
from collections.abc import Callable, Iterable

STOPPED = 130


def names() -> list[str]:
    """The names of all commands."""
    files = os.listdir(os.path.dirname(__file__))
    return sorted(file[:-3] for file in files if file.endswith(".py") and not file.startswith("_"))


def ended(name: str, work: Callable[[], int | None], *known: type[Exception]) -> int:
    """Does the work of a command, and gives its exit status: 1, with a line, at a fault that is known or of a file."""
    try:
        return work() or 0
    except BrokenPipeError:
        raise
    except known as why:
        print(f"{name}: {why}", file=sys.stderr, flush=True)
    except OSError as fault:
        print(f"{name}: {fault.filename or 'standard output'}: {fault.strerror}", file=sys.stderr, flush=True)
    return 1


def positive(word: str) -> int:
    """A whole number above 0, for an option; argparse says of others that they are none."""
    number = int(word)
    if number < 1:
        raise ValueError
    return number


def measured(name: str, work: Callable[[], int | None], source: str, files: Iterable[str]) -> int:
    """Does the work of a command on a source, and gives its exit status. A line tells a fault behind the source's name,
    where it begins with none of the other files."""
    from silc.designing.programs import Unrun, fall_silent
    from silc.linking.checked import Unable
    from silc.linking.places import Unlinked
    from silc.made_files import NotMade

    def placed() -> int:
        try:
            status = work() or 0
            sys.stdout.flush()
            return status
        except NotMade:
            raise
        except (ValueError, Unrun) as why:
            raise ValueError(why if str(why).startswith(tuple(files)) else f"{source}: {why}") from why
    try:
        return ended(name, placed, ValueError, Unlinked, Unable)
    except BrokenPipeError:
        fall_silent()
        return 0


def add_library(parser: argparse.ArgumentParser) -> None:
    """The option that names a folder of blocks, which come before those of library/."""
    parser.add_argument("--library", metavar="FOLDER", action="append", default=[])


def run(name: str, words: list[str] | None = None) -> None:
    """Runs a command on words, those of this process where none are given, and ends the process with its status."""
    module = importlib.import_module(f"silc.commands.{name}")
    try:
        sys.exit(module.main(sys.argv[1:] if words is None else words))
    except BrokenPipeError:
        # Whoever reads may go away before the end.
        sys.stderr.close()
    except KeyboardInterrupt:
        sys.exit(STOPPED)
