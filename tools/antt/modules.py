"""The modules of .antt files, of the crates and of the kit: what each declares, brings in and passes on."""
import json
import subprocess
from collections.abc import Iterable
from dataclasses import dataclass, field
from functools import cache
from pathlib import Path

from .items import MARKS, Item, items_of
from .tokens import tokens_of

ROOT = Path(__file__).resolve().parent.parent.parent
CRATES = ROOT / "crates"


@dataclass
class Module:
    """A module: the names that it declares, those that it brings in and their paths, and the globs that it passes
    on."""
    path: str
    file: Path
    items: list[Item]
    declared: set[str] = field(default_factory=set)
    brought: dict[str, tuple[str, str]] = field(default_factory=dict)
    passed: set[str] = field(default_factory=set)
    globs: list[str] = field(default_factory=list)
    modules: dict[str, str] = field(default_factory=dict)


def kit() -> Path | None:
    """The kit's folder of sources, or None where there is no toolchain."""
    try:
        page = subprocess.run(["rt", "doc"], capture_output=True, text=True, check=True).stdout.strip()
    except (OSError, subprocess.CalledProcessError):
        return None
    folder = Path(page).parent / "rattle"
    return folder if folder.is_dir() else None


@cache
def roots() -> dict[str, Path]:
    """The folders of the libraries, by their names."""
    folder, found = kit(), {}
    if folder:
        for project in folder.glob("**/antt-project.json"):
            found.setdefault(json.loads(project.read_text())["name"], project.parent / "src")
        found |= {f"Rattle.{path.name}": path for path in folder.iterdir() if (path / "src").is_dir()}
    return found | {f"Rattle.{path.name}": path for path in CRATES.iterdir() if path.is_dir()}


def file_of(path: str) -> Path | None:
    """The file of a module, if it is in a folder that is known."""
    words = path.split(".")
    for count in (2, 1):
        root = roots().get(".".join(words[:count]))
        if root and len(words) >= count:
            inside = root.joinpath(*words[count:])
            for file in (inside.with_name(inside.name + ".antt"), inside / "Lib.antt"):
                if file.is_file():
                    return file
    return None


@cache
def module_of(path: str) -> Module | None:
    """The module at a path, or None where there is no such file."""
    file = file_of(path)
    return read(path, file) if file else None


def path_of(file: Path, root: Path, name: str) -> str:
    """The path of the module that a file of a library holds."""
    words = file.relative_to(root).with_suffix("").parts
    return ".".join((name, *(words[:-1] if words[-1] == "Lib" else words)))


def read(path: str, file: Path) -> Module:
    module = Module(path, file, items_of(tokens_of(file.read_text())))
    for item in module.items:
        role = item.role()
        if role == "use":
            bring(module, item)
        else:
            declare(module, item, role)
    return module


def declare(module: Module, item: Item, role: str) -> None:
    words = item.words()
    while words and words[0] in MARKS:
        words = words[1:]
    if role == "header" and words[0] != "module":
        module.declared.add(words[1])
    elif role == "statement":
        module.declared.update(words[: words.index(":")] if "{" not in words[: words.index(":")] else words[:1])


def bring(module: Module, item: Item) -> None:
    """`use M.{a, b as c}`, `use M.N as Q` or `use M.*`."""
    words = item.words()
    is_passed = "pub" in words[: words.index("use")]
    words = words[words.index("use") + 1 :]
    if "{" not in words:
        return bring_module(module, words, is_passed)
    prefix = "".join(words[: words.index("{")]).rstrip(".").removeprefix("package.")
    for entry in split(words[words.index("{") + 1 : -1]):
        bring_name(module, prefix, entry, is_passed)


def bring_module(module: Module, words: list[str], is_passed: bool) -> None:
    if words[-1] == "*":
        module.globs.append(module.path.rpartition(".")[0] + "." + "".join(words[:-1]).rstrip("."))
    elif words[-2:-1] == ["as"]:
        module.modules[words[-1]] = "".join(words[:-2]).removeprefix("package.")
    else:
        module.modules[words[-1]] = "".join(words).removeprefix("package.")


def bring_name(module: Module, prefix: str, entry: list[str], is_passed: bool) -> None:
    name = entry[-1]
    path = "".join(entry[:-2]) if entry[-2:-1] == ["as"] else "".join(entry)
    module.brought[name] = (prefix, path)
    if is_passed:
        module.passed.add(name)


def split(words: Iterable[str]) -> list[list[str]]:
    """The parts of a list with commas."""
    parts = [[]]
    for word in words:
        if word == ",":
            parts.append([])
        else:
            parts[-1].append(word)
    return [part for part in parts if part]


@cache
def defined(path: str, name: str) -> str:
    """The whole path of what a module declares or passes on under a name."""
    *inner, last = name.split(".")
    if inner:
        return defined(".".join((path, *inner)), last)
    module = module_of(path)
    if module is None or last in module.declared:
        return f"{path}.{last}"
    if last in module.passed:
        return defined(*module.brought[last])
    for glob in module.globs:
        if (child := module_of(glob)) and last in child.declared:
            return f"{glob}.{last}"
    return f"{path}.{last}"


def resolved(module: Module, name: str) -> str | None:
    """The whole path of a name as a module reads it, or None where it is not one of a declaration or a `use` line."""
    if name in module.declared:
        return f"{module.path}.{name}"
    if name in module.brought:
        return defined(*module.brought[name])
    for glob in module.globs:
        if (child := module_of(glob)) and name in child.declared:
            return f"{glob}.{name}"
    return None
