"""Filters designed by SciPy, in a Python that has it: this one, or the system's."""
import json
import shutil
import subprocess
import sys
from collections.abc import Iterable
from pathlib import Path
from typing import Any

SCRIPT = Path(__file__).resolve().parent / "with_scipy.py"
# The exit status of the script in a Python without SciPy.
LACKING = 3
SYSTEM = "/usr/bin/python3"
INSTALL = "SciPy is not there (apt-get install python3-scipy)"


class Lacking(Exception):
    """A program that is not there, and what installs it."""


def pythons() -> Iterable[str]:
    return dict.fromkeys(python for python in (sys.executable, shutil.which("python3"), SYSTEM) if python)


def designed(**asked: Any) -> Any:
    """What SciPy makes of the words: sections or taps, or a list of these where the words are several designs.
    `ValueError` has what it says against them."""
    for python in pythons():
        try:
            done = subprocess.run([python, SCRIPT], input=json.dumps(asked), capture_output=True, text=True)
        except OSError:
            continue
        if done.returncode == 0:
            answer = json.loads(done.stdout)
            if "fault" in answer:
                raise ValueError(f"SciPy: {answer['fault']}")
            return answer["made"]
        if done.returncode != LACKING:
            raise ValueError(f"SciPy: {(done.stderr.strip().splitlines() or ['no answer'])[-1]}")
    raise Lacking(INSTALL)
