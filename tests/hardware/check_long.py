#!/usr/bin/env python3
"""Runs the long checks of cores, and keeps what each said last in long_result.txt beside this script.

usage: tests/hardware/check_long.py [PART ..]

A part is one of check_cores.py, which is run with --long, or `increment`, which is prove_increment.py; without one all
are run. Lines of other parts stay as they are. It takes some two hours of a processor, most of it for all rows of the
examples. The exit status is 1 where a check failed.
"""
import subprocess
import sys
import time
from pathlib import Path

from check_cores import PARTS
from silc.made_files import put_whole

HERE = Path(__file__).resolve().parent
RESULT = HERE / "long_result.txt"
COMMANDS = {part: ["check_cores.py", "--long", part] for part in PARTS} | {"increment": ["prove_increment.py"]}


def results() -> dict[str, str]:
    """What each part said last."""
    lines = RESULT.read_text().splitlines() if RESULT.exists() else []
    return dict(line.split(": ", 1) for line in lines)


def keep(part: str, said: str) -> None:
    """Puts a result in its place, which is that of its part."""
    kept = results() | {part: f"{said}, {time.strftime('%Y-%m-%d', time.gmtime())}"}
    put_whole(RESULT, "".join(f"{name}: {kept[name]}\n" for name in COMMANDS if name in kept))


def main(words: list[str]) -> int:
    if any(word not in COMMANDS for word in words):
        print(__doc__, file=sys.stderr)
        return 2
    failed = False
    for part in words or COMMANDS:
        script, *options = COMMANDS[part]
        done = subprocess.run([sys.executable, HERE / script, *options], stdin=subprocess.DEVNULL,
                              stdout=subprocess.PIPE, text=True)
        print(f"{part}: {done.stdout.strip()}", flush=True)
        keep(part, (done.stdout.strip().splitlines() or ["no answer"])[-1])
        failed = failed or done.returncode not in (0, 77)
    return 1 if failed else 0


if __name__ == "__main__":
    sys.exit(main(sys.argv[1:]))
