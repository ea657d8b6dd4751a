"""What is checked of one core: its rows without waits, with waits of up to two periods, and all over again after a
reset."""
import os
import subprocess
from collections.abc import Callable, Iterable, Sequence
from pathlib import Path
from typing import TypeAlias

from bench import Fault, answer, built_by_icarus, datapath_text, made, text_of
from silc import programs
from silc.hardware.hazards import first_hazard
from machine import Hazard, Machine
from silc.micro_file import image_of
from silc.micro_file.image import Image

# Rows of words.
Rows: TypeAlias = list[list[int]]
# What a bench is told, by its words.
Way: TypeAlias = dict[str, int]

SILC = Path(programs.SILC.place())
ADDRESS = "address"


def ways(period: int, rows: int) -> list[Way]:
    """How a bench may treat a core: with waits of none to two periods at each side, and a reset after half of the
    rows."""
    most = 2 * period
    return [{}, {"in_wait": most}, {"out_wait": most},
            {"in_wait": most, "out_wait": most, "reset_after": (rows + 1) // 2}]


def judged_by_silc(folder: Path, microcode: bytes, samples: Rows) -> str:
    """The rows of `silc sim`, or the text of its conflict."""
    (folder / "judge.mic").write_bytes(microcode)
    (folder / "judge.txt").write_text(text_of(samples))
    done = subprocess.run([SILC, "sim", "judge.mic", "judge.txt", "judged.txt"], cwd=folder, capture_output=True,
                          text=True)
    if done.returncode not in (0, 12):
        raise Fault(f"silc ended with {done.returncode}: {done.stderr}")
    return (folder / "judged.txt").read_text() if done.returncode == 0 else done.stderr.strip().removeprefix("silc: ")


def modelled(image: Image, samples: Rows, model: type[Machine] = Machine) -> tuple[Rows, Hazard | None]:
    """The rows of the model, and its first hazard, if it comes to one."""
    rows = []
    try:
        for row in model(image).rows(samples):
            rows.append(row)
    except Hazard as hazard:
        return rows, hazard
    return rows, None


def as_silc_has_it(folder: Path, microcode: bytes, image: Image, samples: Rows) -> tuple[Rows, Hazard | None]:
    """What the model comes to, which is compared with `silc sim` where that is built."""
    rows, hazard = modelled(image, samples)
    if os.access(SILC, os.X_OK):
        said = judged_by_silc(folder, microcode, samples)
        if said != (text_of(rows) if hazard is None else "conflict at cycle {}: {} {}".format(*hazard.args)):
            raise Fault(f"silc says {said[:200]}")
    return rows, hazard


def check_rows(folder: Path, bench: Sequence[str | Path], period: int, rows: Rows, fault_cycle: int | None,
               some_ways: Iterable[Way]) -> None:
    """Compares the rows of a bench in several ways."""
    for way in some_ways:
        if fault_cycle is not None:
            way = {key: value for key, value in way.items() if key != "reset_after"} | {"rows_alone": 1}
        runs, fault = answer(bench, folder, **way)
        if fault != fault_cycle:
            raise Fault(f"with {way} the fault comes at cycle {fault}, and not {fault_cycle}")
        if runs[-1] != rows or any(run != rows[: len(run)] for run in runs):
            raise Fault(f"with {way} the rows are {str(runs)[:300]}")
        if len(runs) != 1 + ("reset_after" in way and len(rows) > 0):
            raise Fault(f"with {way} there are {len(runs)} runs")


def write_rows(folder: Path, samples: Rows, rows: Rows) -> None:
    (folder / "samples.txt").write_text(text_of(samples))
    (folder / "expected.txt").write_text(text_of(rows))


def make_core(folder: Path, microcode: bytes, image: Image, is_full: bool) -> str | None:
    """Makes the core in the folder's `core`, or answers why there is none."""
    (folder / "core.mic").write_bytes(microcode)
    options = []
    if is_full:
        (folder / "core.toml").write_text(datapath_text(image))
        options = ["--datapath", folder / "core.toml", "--full"]
    return made(folder / "core.mic", folder / "core", *options)


def check_image(folder: Path, microcode: bytes, samples: Rows, is_full: bool,
                plant: Callable[[Path], None] | None = None, some_ways: Callable[[int, int], list[Way]] = ways) -> str:
    """Compares the core of an image with the model, and that with `silc sim` where it is built. `plant` changes the
    core."""
    folder.mkdir(exist_ok=True)
    image = image_of(microcode)
    rows, hazard = as_silc_has_it(folder, microcode, image, samples)
    why = make_core(folder, microcode, image, is_full)
    structural = first_hazard(image)
    if why or structural:
        check_refusal(why, structural, hazard, len(rows) * image.period)
        return "refused"
    if plant:
        plant(folder / "core")
    write_rows(folder / "core", samples, rows)
    cycle = hazard.args[0] if hazard else None
    check_rows(folder / "core", built_by_icarus(folder / "core"), image.period, rows, cycle,
               some_ways(image.period, len(rows)))
    return "rows" if hazard is None else "fault"


def check_refusal(why: str | None, structural: tuple[int, str, int] | None, hazard: Hazard | None, cycles: int) -> None:
    """A core is refused for the model's first hazard, or for one that comes after the run or after an address."""
    if not why or not structural or not why.endswith("conflict at cycle {}: {} {}".format(*structural)):
        raise Fault(f"{why}, and the first structural hazard is {structural}")
    is_later = structural[0] >= (hazard.args[0] if hazard else cycles)
    is_same = hazard is not None and hazard.args == structural
    if not is_same and not (is_later and (hazard is None or hazard.args[1] == ADDRESS)):
        raise Fault(f"{why}, and the run comes to {hazard}")
