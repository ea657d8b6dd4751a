"""Commands of `silc` on sources that are to be linked: the words with a file of what is linked, and what is said of
it."""
from __future__ import annotations

import os
import sys
from collections.abc import Iterator, Sequence
from contextlib import contextmanager
from typing import TYPE_CHECKING

from silc.explaining.outputs import FORMS, begin_of, command_of, named
from silc.linking.opening import opened

if TYPE_CHECKING:
    from silc.explaining.report import Report
    from silc.linking.told import Told

BAD_WORDS = 2


class Given:
    """The words of a command, as a user gave them and as `silc` takes them, and the source in them where it is
    linked."""

    def __init__(self, words: list[str], placed: list[str], told: Told | None) -> None:
        self.words, self.placed, self.told = words, placed, told
        self.files = named(words) or {}

    def judged(self, status: int) -> list[str]:
        """The words that a report is on: those of the user, where they are what is refused."""
        return self.words if status == BAD_WORDS else self.placed

    def said(self, text: str) -> str:
        """What `silc` says, with the lines of the user's files."""
        return self.told.said(text) if self.told else text

    def report(self, status: int, report: Report | None) -> Report | None:
        """A report with the places of the user's files."""
        return self.told.reported(status, report) if self.told else report

    def over_block(self) -> str | None:
        """The block that OUT is, where it is one."""
        out = self.files.get("OUT")
        if self.told is None or out is None or not os.path.isfile(out):
            return None
        files = [block.file.name for block in self.told.linked.blocks]
        return next((file for file in files if os.path.exists(file) and os.path.samefile(file, out)), None)

    def guarded(self) -> tuple[int, str] | None:
        """The status and the line for a command that would write over a block; nothing for any other."""
        block = self.over_block()
        if block is None:
            return None
        line = f"silc: {self.files['OUT']} is the block {block}\n"
        sys.stderr.write(line)
        sys.stderr.flush()
        return BAD_WORDS, line


def source_in(words: Sequence[str], folders: Sequence[str]) -> Told | None:
    """The source of a command where it is to be linked. One that can't be read is told by `silc`, as is one that OUT
    names too."""
    files = named(words) or {}
    name = files.get("SRC")
    if name is None or name in [file for what, file in files.items() if what != "SRC"] or not os.path.isfile(name):
        return None
    try:
        with open(name, "rb") as file:
            content = file.read()
    except OSError:
        return None
    return opened(name, content, folders)


@contextmanager
def given(words: list[str], folders: Sequence[str] = ()) -> Iterator[Given]:
    """The words of a command, for as long as the folder is there in which a source is that is linked. Raises
    `Unlinked`."""
    told = source_in(words, folders)
    if told is None:
        yield Given(words, words, None)
        return
    from tempfile import TemporaryDirectory
    with TemporaryDirectory(prefix="silc-link-") as folder:
        file = os.path.join(folder, os.path.basename(told.linked.main.name))
        with open(file, "wb") as made:
            made.write(told.text.data)
        at = FORMS[command_of(words)].index("SRC") + begin_of(words)
        yield Given(words, [*words[:at], file, *words[at + 1:]], told.named(file))
