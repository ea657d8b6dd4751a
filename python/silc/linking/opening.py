"""Sources that tools are given, of which some are to be linked first. It imports the linker where one is."""
from __future__ import annotations

from collections.abc import Sequence
from typing import TYPE_CHECKING

from silc.linking.places import has_head

if TYPE_CHECKING:
    from silc.linking.told import Told

LIBRARY = "--library"


def opened(name: str, content: bytes, folders: Sequence[str] = ()) -> Told | None:
    """A source that is to be linked, with blocks of these folders and then of the library; nothing of a plain one.
    Raises `Unlinked`."""
    if not has_head(content.decode("latin-1")):
        return None
    from silc.linking.blocks import Library
    from silc.linking.told import told_of
    return told_of(name, content, Library(folders))


def plain(file: str, folders: Sequence[str] = ()) -> tuple[str, list[str]]:
    """The text of a source as the programs read it, and the files of the blocks in it. Of one that is linked the front
    end has found no fault. Raises `Unlinked` at the place of what is wrong with such a one, and `Unable`."""
    with open(file, "rb") as held:
        content = held.read()
    told = opened(file, content, folders)
    if told is None:
        return content.decode("latin-1"), []
    from silc.linking.checked import check
    check(told.linked)
    return told.linked.text, [block.file.name for block in told.linked.blocks]


def without_folders(words: Sequence[str]) -> tuple[list[str], list[str]]:
    """The words but for `--library FOLDER`, and the folders. One without a folder stays."""
    rest, folders, left = [], [], list(words)
    while left:
        word = left.pop(0)
        if word.startswith(f"{LIBRARY}="):
            folders.append(word.partition("=")[2])
        elif word == LIBRARY and left:
            folders.append(left.pop(0))
        else:
            rest.append(word)
    return rest, folders
