"""Microcode of a plan over one stage, from its text, for `silc sim`: what the machine does with the plan itself."""
from __future__ import annotations

from typing import Any

from silc.exploring.template import text_of
from silc.fuzzing.plans import image_of_plan
from silc.micro_file import NEWEST, bytes_of, image_of
from silc.running import STDIN, STDOUT, ran


class NoRows(Exception):
    """Why a plan gives no rows."""


def microcode_of(silc: str, source: bytes, roomy: dict[str, Any], plan: str, datapath: dict[str, Any]) -> bytes | None:
    """The microcode of a plan over a datapath. The widths of inputs are those of the rules' plan over a roomy one.
    Nothing where words have initial values, which the text of a plan does not have."""
    compiled = ran(silc, ["compile", source, text_of(roomy).encode(), STDOUT])
    if compiled.status:
        raise NoRows(f"compile: {compiled.said}")
    ruled = image_of(compiled.out)
    if any(any(words) for unit in ruled.units for words in [unit.cells, *unit.files]):
        return None
    image = image_of_plan(plan, text_of(datapath), len(ruled.inputs), ruled.outputs)
    image.inputs = ruled.inputs
    return bytes_of(image, NEWEST)


def rows_of(silc: str, microcode: bytes, samples: bytes) -> bytes:
    """The rows of a run."""
    answer = ran(silc, ["sim", microcode, STDIN, STDOUT], samples)
    if answer.status:
        raise NoRows(f"sim: {answer.said}")
    return answer.out
