"""silc from Python: sources of fixed-point filters evaluated, planned on processors, run cycle by cycle, and measured.

    import silc
    eq = silc.Source("eq.sil")
    y = eq.evaluate(x)
    plan = eq.plan("processor.toml")

docs/PYTHON.md is its page. Each call runs the proved program once; nothing here computes a row by itself.
"""
from __future__ import annotations

import importlib
from typing import TYPE_CHECKING, Any

if TYPE_CHECKING:
    from silc import design as design
    from silc.microcode import Microcode as Microcode
    from silc.plan import Plan as Plan
    from silc.programs import NoProgram as NoProgram
    from silc.refused import Refused as Refused
    from silc.source import Source as Source
    from silc.sweeping import sweep as sweep

# Where each name is: commands start without what they don't use.
PLACES = {"Source": "source", "Refused": "refused", "Plan": "plan", "Microcode": "microcode", "NoProgram": "programs",
          "sweep": "sweeping"}
__all__ = ["Microcode", "NoProgram", "Plan", "Refused", "Source", "design", "sweep"]


def __getattr__(name: str) -> Any:
    if name == "design":
        return importlib.import_module("silc.design")
    if name not in PLACES:
        raise AttributeError(f"silc has no {name}")
    return getattr(importlib.import_module(f"silc.{PLACES[name]}"), name)
