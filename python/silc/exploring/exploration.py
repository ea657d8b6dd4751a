"""An exploration from Python: a source planned on all datapaths of a template."""
from __future__ import annotations

import os
from dataclasses import dataclass
from multiprocessing.pool import ThreadPool
from typing import TYPE_CHECKING, Any

from silc.exploring.bits import inputs_of
from silc.exploring.template import Choice, Template, text_of
from silc.exploring.trades import COSTS, Trade, mark_front, trade_of
from silc.pictures.tradeoff import draw_tradeoff
from silc.running import ran

if TYPE_CHECKING:
    from silc.source import Source


@dataclass
class Exploration:
    """The combinations of a template, each with what it takes or why it is refused, and those of the Pareto front, than
    which no other has less of one cost and no more of the rest. In a notebook it is the picture of the front."""
    trades: list[Trade]
    front: list[Trade]

    def as_json(self) -> dict[str, Any]:
        """The rows as docs/PYTHON.md has them."""
        return {"trades": [trade_as_json(trade) for trade in self.trades]}

    def _repr_svg_(self) -> str:
        return draw_tradeoff(self.trades) + "\n"


def trade_as_json(trade: Trade) -> dict[str, Any]:
    """A combination: the number of each range, its costs, and what it is answered."""
    measures = ("registers", "taken", "cells", "cycles", "noise", "wraps")
    choice = {name: number if isinstance(number, int) else float(number) for name, number in trade.choice.items()}
    better = {} if trade.planned is None else {"best_period": trade.planned, "least": trade.is_least}
    return {"choice": choice, **{cost: getattr(trade, cost) for cost in COSTS},
            **{name: getattr(trade, name) for name in measures}, "answer": trade.answer, "front": trade.is_on_front,
            **better}


def explored(source: Source, template: str | os.PathLike[str], jobs: int | None) -> Exploration:
    """Plans a source on all datapaths of a template, some at a time."""
    with open(template, encoding="utf-8") as file:
        space = Template(file.read(), True)
    inputs = inputs_of(source.text)

    def trade(choice: Choice) -> Trade:
        datapath = space.datapath(choice)
        answer = ran(source.silc, ["schedule", source.content, text_of(datapath).encode()])
        return trade_of(choice, datapath, answer.status, answer.said if answer.status else answer.out.decode(), inputs)

    with ThreadPool(jobs or len(os.sched_getaffinity(0))) as pool:
        trades = pool.map(trade, space.choices())
    return Exploration(trades, mark_front(trades))
