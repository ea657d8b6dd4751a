"""Linked sources before the front end, with faults at their places, and stale copies."""
from __future__ import annotations

import subprocess
import sys
from collections.abc import Mapping

from silc.checking.first import Unchecked, first_fault
from silc.explaining.command import DEPTH
from silc.linking.linker import HEAD, Linked
from silc.linking.places import Unlinked
from silc.linking.told import Told


class Unable(Exception):
    """Why it is not known whether a source is one."""


def check(linked: Linked) -> None:
    """Raises `Unlinked` at the place of the first fault that the front end finds, in the file that has it."""
    sys.setrecursionlimit(max(DEPTH, sys.getrecursionlimit()))
    told = Told(linked)
    try:
        fault = first_fault(told.text)
        found = told.found(fault.finding()) if fault else None
    except (Unchecked, OSError, subprocess.SubprocessError) as why:
        raise Unable(str(why)) from why
    if found:
        raise Unlinked(found.file, found.finding.line, found.finding.column, found.finding.text)


def files_in(text: str) -> dict[str, str]:
    """The files of a linked source with their sums, as its first comment has them."""
    head = HEAD.match(text)
    pairs = [pair.split() for pair in head["files"].split(", ")] if head else []
    return {name: digits for name, digits in (pair for pair in pairs if len(pair) == 2)}


def stale(linked: Linked, text: str) -> str | None:
    """What is other in a copy than in the source as it is linked now, or nothing."""
    if text == linked.text:
        return None
    was, now = files_in(text), files_in(linked.text)
    if not was:
        return "it is no linked source"
    return "; ".join(differences(was, now)) or "it was changed by hand, or linked by another release"


def differences(was: Mapping[str, str], now: Mapping[str, str]) -> list[str]:
    return [f"{name} {'is gone' if name not in now else 'is new' if name not in was else 'is another'}"
            for name in sorted({*was, *now}) if was.get(name) != now.get(name)]


__all__ = ["Unable", "check", "files_in", "stale"]
