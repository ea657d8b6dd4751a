"""Builds the wheel of the package: its files as they are, the parts of a core, and the proved programs where they are
built. It needs nothing but the standard library, so `pip install ./python` fetches nothing."""
from __future__ import annotations

import base64
import hashlib
import tomllib
import zipfile
from pathlib import Path
from typing import Any

HERE = Path(__file__).resolve().parent
TOP = HERE.parent
PACKAGE = HERE / "silc"
PARTS = [TOP / "hardware" / name for name in ("silc_parts.v", "silc_i2s.v", "silc_uart.v")]
# What the package takes beside its modules.
ENDINGS = {".py", ".txt", ".typed"}
EXECUTABLE, PLAIN = 0o755, 0o644
YEAR = (1980, 1, 1, 0, 0, 0)


def project() -> dict[str, Any]:
    """The table of the project in pyproject.toml."""
    with open(HERE / "pyproject.toml", "rb") as file:
        return dict(tomllib.load(file)["project"])


def programs() -> dict[str, Path]:
    """The proved programs that are built, by their places in the package."""
    built = {name: TOP / "crates" / name / "out" / name for name in ("silc_main", "silc_show", "silc_place")}
    return {f"silc/bin/{name}": file for name, file in built.items() if file.is_file()}


def metadata() -> str:
    """What is said of the package."""
    of = project()
    return (f"Metadata-Version: 2.1\nName: {of['name']}\nVersion: {of['version']}\nSummary: {of['description']}\n"
            f"Requires-Python: {of['requires-python']}\nProvides-Extra: numpy\nRequires-Dist: numpy ; extra == "
            f"'numpy'\n")


class Wheel:
    """A wheel that is being made, with the sums of its files."""

    def __init__(self, folder: str, tag: str) -> None:
        of = project()
        self.info = f"{of['name']}-{of['version']}.dist-info"
        self.tag, self.name = tag, f"{of['name']}-{of['version']}-{tag}.whl"
        self.file = zipfile.ZipFile(Path(folder, self.name), "w", zipfile.ZIP_DEFLATED)
        self.rows: list[str] = []

    def add(self, place: str, content: bytes, rights: int = PLAIN) -> None:
        entry = zipfile.ZipInfo(place, YEAR)
        entry.external_attr = rights << 16
        entry.compress_type = zipfile.ZIP_DEFLATED
        self.file.writestr(entry, content)
        digest = base64.urlsafe_b64encode(hashlib.sha256(content).digest()).rstrip(b"=").decode()
        self.rows.append(f"{place},sha256={digest},{len(content)}")

    def end(self) -> str:
        """Adds what a wheel says of itself. Gives its name."""
        pure = str(self.tag.endswith("any")).lower()
        self.add(f"{self.info}/METADATA", metadata().encode())
        self.add(f"{self.info}/WHEEL",
                 f"Wheel-Version: 1.0\nGenerator: {Path(__file__).stem}\nRoot-Is-Purelib: {pure}\n"
                 f"Tag: {self.tag}\n".encode())
        self.add(f"{self.info}/RECORD", "".join(f"{row}\n" for row in [*self.rows, f"{self.info}/RECORD,,"]).encode())
        self.file.close()
        return self.name


def build_wheel(folder: str, config: object = None, metadata_folder: str | None = None) -> str:
    """Makes the wheel in a folder. It is one for this kind of machine where it has the programs."""
    binaries = programs()
    wheel = Wheel(folder, "py3-none-linux_x86_64" if binaries else "py3-none-any")
    for file in sorted(PACKAGE.rglob("*")):
        if file.is_file() and file.suffix in ENDINGS:
            wheel.add(str(file.relative_to(HERE)), file.read_bytes())
    for part in filter(Path.is_file, PARTS):
        wheel.add(f"silc/hardware/{part.name}", part.read_bytes())
    for place, program in binaries.items():
        wheel.add(place, program.read_bytes(), EXECUTABLE)
    return wheel.end()


def build_editable(folder: str, config: object = None, metadata_folder: str | None = None) -> str:
    """Makes a wheel that leads to the package where it lies."""
    wheel = Wheel(folder, "py3-none-any")
    wheel.add("silc.pth", f"{HERE}\n".encode())
    return wheel.end()


def get_requires_for_build_wheel(config: object = None) -> list[str]:
    """Nothing has to be fetched."""
    return []


get_requires_for_build_editable = get_requires_for_build_wheel
