"""Better plans for the rows of the front, each over the hardware of its row, with the microcode of silc_place."""
from __future__ import annotations

from collections.abc import Callable, Sequence
from typing import Any

from silc.exploring.template import text_of
from silc.hardware.words import Range
from silc.planning.check import NoPlan, check
from silc.planning.ruled import Ruled, Unplanned
from silc.planning.sat import solver_there
from silc.planning.search import Finder, Wanted
from silc.running import STDOUT, ran

SEED = 1
# The endings of what is made of a row.
PLAN, DATAPATH, MICROCODE = ".plan", ".toml", ".mic"


class NotPlanned(Exception):
    """Why a row has no better plan and none of the rules either."""


class Planned:
    """The best plan that a search finds for a source over a datapath with its own files and memories, beginning with
    that of the rules."""

    def __init__(self, silc: str, place: str, source: bytes, datapath: dict[str, Any], inputs: Sequence[Range],
                 seconds: float, say: Callable[[str], None] = lambda text: None) -> None:
        try:
            ruled = Ruled(silc, source, datapath, 1, False)
        except Unplanned as why:
            raise NotPlanned(str(why)) from why
        finder = Finder(ruled.problem, ruled.best(), Wanted(seconds, solver_there(), SEED, inputs=inputs), say)
        finder.run()
        if finder.is_stopped:
            raise KeyboardInterrupt
        if finder.best is None:
            raise NotPlanned("the rules have no plan in its files")
        self.period = finder.best.period
        self.text = finder.best.text()
        self.datapath = ruled.datapath | {"period": self.period}
        self.is_least = not finder.known.open(self.period)
        try:
            check(self.text, ruled.nodes, self.datapath)
        except NoPlan as why:
            raise NotPlanned(str(why)) from why
        made = ran(place, [source, text_of(self.datapath).encode(), self.text.encode(), STDOUT])
        if made.status:
            raise NotPlanned(f"silc_place: {made.said}")
        self.microcode = made.out

    def files(self, name: str) -> dict[str, str | bytes]:
        """What is made of it, by the names of the files."""
        return {name + PLAN: self.text, name + DATAPATH: text_of(self.datapath), name + MICROCODE: self.microcode}
