"""Why combinations of an exploration are refused, the commonest reason first, and what they lack."""
import subprocess
from collections.abc import Iterator, Sequence
from functools import partial
from pathlib import Path

from silc.explaining.lacks import PLANNED, Trial
from silc.explaining.refusals import refusal_of
from silc.exploring.template import Template
from silc.exploring.trades import Trade

NODE = (" at node NODE", " for node NODE")
FULL, EXCEEDED = "file full PORT at node NODE", "period exceeded at node NODE"
NO_CELLS = "no ram cells for node NODE"


def reason_of(answer: str) -> str:
    """The reason in an answer of silc, without the node."""
    found = refusal_of(answer)
    if found is None:
        return answer
    refusal, values = found
    text = refusal.text
    for end in NODE:
        text = text.removesuffix(end)
    text = text.replace("node NODE", "a node is")
    for name, value in values.items():
        text = text.replace(name.upper(), value)
    return text


def refused_by_reason(trades: Sequence[Trade]) -> list[tuple[str, list[Trade]]]:
    """The combinations that do not fit, by reason, the commonest one first."""
    made: dict[str, list[Trade]] = {}
    for trade in trades:
        if not trade.fits():
            made.setdefault(reason_of(trade.answer), []).append(trade)
    return sorted(made.items(), key=lambda reason: -len(reason[1]))


def silent(_: object) -> None:
    """Says nothing of the search."""


class Reasons:
    """What the refused combinations of a template lack, by plans of a source on other datapaths."""

    def __init__(self, silc: str | Path, source: str | Path, template: Template) -> None:
        self.silc, self.source, self.template = silc, source, template

    def plan(self, stages: int, datapath: str | Path) -> tuple[int, str]:
        words: list[str | Path] = (["stages", self.source, datapath, str(stages)] if stages
                                   else ["schedule", self.source, datapath])
        done = subprocess.run([self.silc, *words], stdin=subprocess.DEVNULL, capture_output=True, text=True)
        return done.returncode, done.stdout if done.returncode == 0 else done.stderr

    def trial(self, trade: Trade) -> Trial:
        return Trial(partial(self.plan, trade.stages()), self.template.datapath(trade.choice), silent)

    def lack(self, trade: Trade) -> str:
        """What a refused combination lacks, in words."""
        found = refusal_of(trade.answer)
        if found is None:
            return ""
        refusal, values = found
        if refusal.text == EXCEEDED:
            return self.lacking_period(trade)
        if refusal.text == FULL:
            needs = self.trial(trade).registers_for(values["port"])
            return f"the first of them needs {needs[values['port']]} registers there" if needs else ""
        if refusal.text == NO_CELLS and (cells := self.trial(trade).cells()):
            return f"the first of them has {cells[0]} cells, and its delay lines take {cells[1]}"
        return refusal.short()

    def lacking_period(self, trade: Trade) -> str:
        trial = self.trial(trade)
        if trade.stages():
            longer = trial.longer_period()
            return f"the first of them has {trade.period} cycles, and needs {longer}" if longer else ""
        found = trial.least_period()
        if found is None:
            return "the first of them has no plan in any period"
        least, status, said = found
        then = "" if status == PLANNED else f", and then has {said.strip().removeprefix('silc: ')}"
        return f"the first of them has {trade.period} cycles, and needs {least}{then}"

    def lines(self, trades: Sequence[Trade]) -> Iterator[str]:
        """The reasons in lines, with what the first combination of each lacks."""
        refused = refused_by_reason(trades)
        if refused:
            yield f"{sum(len(group) for _, group in refused)} of {len(trades)} combinations are refused:"
        for reason, group in refused:
            lack = self.lack(group[0])
            yield f"  {len(group)} by {reason}" + (f": {lack}" if lack else "")
