"""What `silc` answers, as JSON on standard output (docs/PYTHON.md)."""
from __future__ import annotations

import json
import subprocess
import sys
from typing import Any

from silc.explaining.command import Case
from silc.explaining.outputs import called, guarded, named
from silc.linking.words import Given
from silc.micro_file import image_of
from silc.microcode import image_as_json
from silc.pictures.plan import plan_of
from silc.plan import plan_as_json
from silc.refused import Refused, told_of


def put(tree: Any) -> None:
    """Prints a tree as a line of JSON."""
    print(json.dumps(tree), flush=True)


def told(command: Given, silc: str, datapath: str | None = None) -> int:
    """Runs a command of `silc`. Prints its plan, its image or its refusal, and gives its exit status."""
    refused: tuple[int, str] | None = guarded(command.words) or command.guarded()
    if refused:
        (status, said), out = refused, ""
    else:
        done = subprocess.run(called(command.placed), stdout=subprocess.PIPE, stderr=subprocess.PIPE, text=True,
                              errors="replace")
        status, said, out = done.returncode, done.stderr, done.stdout
        sys.stderr.write(command.said(said))
    if status < 0:
        return 128 - status
    if status:
        case = Case(command.judged(status), status, said, silc, datapath, is_quiet=True)
        put(Refused(status, command.said(said).strip(), lambda: command.report(status, told_of(case))).as_json())
    elif command.words[0] == "schedule":
        put(plan_as_json(plan_of(out)))
    elif command.words[0] == "list":
        with open((named(command.words) or {})["MIC"], "rb") as file:
            put(image_as_json(image_of(file.read())))
    else:
        sys.stdout.write(out)
    return status
