"""A copy of what tools/release reads of the repository, with crates that are only named, and programs that are
given."""
import os
import shutil
import sys
from collections import Counter
from collections.abc import Iterable
from importlib.machinery import SourceFileLoader
from importlib.util import module_from_spec, spec_from_loader
from pathlib import Path
from typing import Any

ROOT = Path(__file__).resolve().parent.parent.parent
# The folders with many files, and those of their files that are not left out.
LARGE, WANTED = {"docs", "examples", "tests"}, {"TUTORIAL.md", "smooth.svg", "biquads.sil", "pipeline"}
LINE = "a line of the toolchain"
# The programs of a release, and the variable that names another of each.
VARIABLES = {"silc_main": "SILC", "silc_show": "SILC_SHOW", "silc_place": "SILC_PLACE", "silc_same": "SILC_SAME"}


def module_of(script: Path) -> Any:
    """The functions of a script of tools/, of this repository or of a copy."""
    loader = SourceFileLoader(script.name, str(script))
    module = module_from_spec(spec_from_loader(script.name, loader))
    sys.dont_write_bytecode = True
    loader.exec_module(module)
    return module


def copy_of(top: Path, programs: dict[str, Path], most: int | None = None) -> None:
    """Makes the copy, in which the programs are made from the sources at hand; each has a crate of its own, above one.
    Of a folder of files no more than so many may be there."""
    release = module_of(ROOT / "tools" / "release")
    taken = Counter()
    for name in [*release.files(), "tools/release", "tools/build"]:
        part = name.split("/")[0]
        taken[part] += 1
        if most and part in LARGE and taken[part] > most and Path(name).name not in WANTED:
            continue
        (top / name).parent.mkdir(parents=True, exist_ok=True)
        shutil.copy2(ROOT / name, top / name, follow_symlinks=False)
    (top / "crates.txt").write_text("low:\n" + "".join(f"{name}: low\n" for name in programs))
    for name, file in (("low", "lib.rt"), *((name, "main.rt") for name in programs)):
        (top / "crates" / name / "src").mkdir(parents=True)
        (top / "crates" / name / "src" / file).write_text(name)
    for name, program in programs.items():
        (top / "crates" / name / "out").mkdir()
        shutil.copy2(program, top / "crates" / name / "out" / name)
    mark(top, programs)


def mark(top: Path, names: Iterable[str]) -> None:
    """Says beside programs that they are made from what the copy holds now."""
    build = module_of(top / "tools" / "build")
    line = build.said_by_rt("version") or LINE
    for name in names:
        build.beside(name, build.FROM).write_text(build.origin_of(build.dependencies(), name, line))


def built() -> tuple[dict[str, Path], list[Path]]:
    """The programs that are built, or those that the variables name; which of them are not there."""
    programs = {name: Path(os.environ.get(variable) or ROOT / "crates" / name / "out" / name).resolve()
                for name, variable in VARIABLES.items()}
    return programs, [program for program in programs.values() if not os.access(program, os.X_OK)]


def users(room: Path, **more: str) -> dict[str, str]:
    """The environment of somebody whose HOME is empty, and who has of programs this Python and the host's, in a
    room."""
    programs, home = room / "bin", room / "home"
    if not programs.exists():
        programs.mkdir()
        home.mkdir()
        (programs / "python3").symlink_to(sys.executable)
    return {"HOME": str(home), "PATH": f"{programs}:/usr/bin:/bin", "LC_ALL": "C.UTF-8", "TMPDIR": str(room), **more}
