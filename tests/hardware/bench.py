"""Runs of the benches of cores under Icarus and Verilator, and datapath files for images that have none."""
import json
import shutil
import subprocess
from collections.abc import Iterable, Sequence
from pathlib import Path

from silc.micro_file.image import MOST_WIDTH, Image
from silc.micro_file.operations import PORTS

HERE = Path(__file__).resolve().parent
ROOT = HERE.parent.parent
SECONDS = 3600


class Fault(Exception):
    """How a core is not as it should be."""


def is_there(*programs: str) -> bool:
    return all(map(shutil.which, programs))


def ran(words: Sequence[object], folder: Path, wants_silence: bool = False) -> str:
    done = subprocess.run(words, cwd=folder, stdin=subprocess.DEVNULL, capture_output=True, text=True, timeout=SECONDS)
    if done.returncode or wants_silence and done.stdout + done.stderr:
        raise Fault(
            f"{' '.join(map(str, words))[:200]} ended with {done.returncode}: {(done.stdout + done.stderr)[-600:]}")
    return done.stdout


def made(microcode: Path, folder: Path, *options: str | Path) -> str | None:
    """Makes a core in a folder, or answers why there is none."""
    done = subprocess.run([ROOT / "tools" / "verilog", microcode, folder, *options], capture_output=True, text=True)
    if done.returncode not in (0, 1) or done.returncode == 1 and done.stderr.count("\n") != 1:
        raise Fault(f"tools/verilog ended with {done.returncode}: {done.stderr[-600:]}")
    return done.stderr.strip() if done.returncode else None


def built_by_icarus(folder: Path, *sources: str) -> list[str | Path]:
    """Builds the bench with the core, which is to be without a warning."""
    ran(["iverilog", "-g2005", "-Wall", "-o", "bench", *(sources or sorted(path.name for path in folder.glob("*.v")))],
        folder, True)
    return ["vvp", "-n", "bench"]


def built_by_verilator(folder: Path, name: str) -> list[str | Path]:
    ran(["verilator", "--binary", "--timing", "-Wno-fatal", "-O3", "--top-module", f"{name}_tb", "-o", "fast",
         f"{name}_tb.v", f"{name}.v", "silc_parts.v"], folder)
    return [folder / "obj_dir" / "fast"]


def text_of(rows: Iterable[Sequence[int]]) -> str:
    return "".join(",".join(map(str, row)) + "\n" for row in rows)


def answer(bench: Sequence[str | Path], folder: Path, **options: int) -> tuple[list[list[list[int]]], int | None]:
    """The rows that a bench prints, those before and after a reset apart, and the cycle of a fault."""
    said = ran([*bench, *(f"+{key}={value}" for key, value in options.items())], folder).splitlines()
    warnings = [line for line in said if "warning" in line.lower()]
    if warnings:
        raise Fault(f"the simulator says {warnings[0]}")
    runs, fault = [[]], None
    for line in said:
        word, _, rest = line.partition(" ")
        if word == "row" and rest.replace(",", "").replace("-", "").isdigit():
            runs[-1].append([int(number) for number in rest.split(",")])
        elif word == "reset":
            runs.append([])
        elif word == "fault":
            fault = int(rest.rpartition(" ")[2])
    if not any(line.startswith("passed ") for line in said):
        raise Fault(f"the bench says with {options}: {said[-3:]}")
    return runs, fault


def datapath_text(image: Image) -> str:
    """A datapath file for an image: each unit drives the buses that it drives there, and each file takes what it
    takes."""
    def names(kind: str, things: Iterable[int]) -> list[str]:
        return [f"{kind}{thing}" for thing in things]

    lines = [f"period = {image.period}", f"word = {MOST_WIDTH}"]
    for number, unit in enumerate(image.units):
        lines += ["[[unit]]", f'name = "u{number}"', f'kind = "{unit.kind}"', f"latency = {unit.latency}",
                  f"gap = {unit.gap}"]
        if PORTS[unit.kind]:
            lines.append(f"files = {[len(file) for file in unit.files]}")
        if unit.kind == "ram":
            lines.append(f"cells = {len(unit.cells)}")
        if unit.kind == "acu":
            lines.append(f'ram = "u{unit.ram}"')
    for bus in range(image.buses):
        drivers = sorted({unit for word in image.words for unit, driven in word.enables if driven == bus})
        files = sorted({(take.unit, take.port) for word in image.words for take in word.takes if take.bus == bus})
        lines += ["[[bus]]", f'name = "b{bus}"', f"from = {json.dumps(names('u', drivers))}",
                  f"to = {json.dumps([f'u{unit}.{port}' for unit, port in files])}"]
    return "\n".join([*lines, ""])
