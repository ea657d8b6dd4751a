"""The wheel that pip makes of the package: what is in it, and that it runs where it is unpacked, far from here."""
import base64
import csv
import hashlib
import os
import subprocess
import sys
import tempfile
import unittest
import zipfile
from pathlib import Path

TOP = Path(__file__).resolve().parent.parent.parent
PACKAGE = TOP / "python"
# As pip runs the backend: in its folder, by its name in pyproject.toml.
BUILD = "import sys, wheel_of_silc; print(wheel_of_silc.build_wheel(sys.argv[1]))"
RECORD = "silc-0.1.0.dist-info/RECORD"
USE = """import sys, silc
source = silc.Source(text="func main(x : fix<8,0>) y : fix<8,0> = begin y = x + 1; end;")
print(silc.__file__, source.evaluate([126, 127]))
print(*source.plan(sys.argv[1]).microcode.verilog("core"))
"""


class Wheel(unittest.TestCase):
    def setUp(self) -> None:
        room = tempfile.TemporaryDirectory(prefix="silc-wheel-")
        self.addCleanup(room.cleanup)
        self.room = Path(room.name).resolve()
        self.file = self.room / self.said(PACKAGE, BUILD, str(self.room)).strip()

    def said(self, folder: Path, code: str, word: str, **variables: str) -> str:
        return subprocess.run([sys.executable, "-c", code, word], cwd=folder, env=os.environ | variables, check=True,
                              stdout=subprocess.PIPE, text=True).stdout

    def test_files(self) -> None:
        with zipfile.ZipFile(self.file) as wheel:
            held = {name: wheel.read(name) for name in wheel.namelist()}
        modules = {str(file.relative_to(PACKAGE)): file.read_bytes() for file in (PACKAGE / "silc").rglob("*.py")}
        self.assertLess(20, len(modules))
        self.assertEqual({name: held.get(name) for name in modules}, modules)
        self.assertEqual(held["silc/hardware/silc_parts.v"], (TOP / "hardware" / "silc_parts.v").read_bytes())
        rows = csv.reader(held[RECORD].decode().splitlines())
        told = {name: (total, size) for name, total, size in rows}
        self.assertEqual(told.pop(RECORD), ("", ""))
        self.assertEqual(told, {name: (f"sha256={sum_of(content)}", str(len(content)))
                                for name, content in held.items() if name != RECORD})

    def test_its_version_is_that_of_the_program(self) -> None:
        said = subprocess.run([program(), "--version"], check=True, stdout=subprocess.PIPE, text=True).stdout
        self.assertEqual(self.file.name.split("-")[:2], said.split())

    def test_it_runs_where_it_is_unpacked(self) -> None:
        with zipfile.ZipFile(self.file) as wheel:
            wheel.extractall(self.room / "site")
        said = self.said(self.room, USE, str(TOP / "examples" / "increment" / "plain.toml"),
                         PYTHONPATH=str(self.room / "site"), SILC=program())
        self.assertEqual(said.splitlines(), [f"{self.room / 'site' / 'silc' / '__init__.py'} [127, -128]",
                                             "core.map core.v core_code.hex core_tb.v silc_parts.v"])


def sum_of(content: bytes) -> str:
    return base64.urlsafe_b64encode(hashlib.sha256(content).digest()).rstrip(b"=").decode()


def program() -> str:
    from silc.programs import SILC
    return SILC.found()


if __name__ == "__main__":
    unittest.main()
