"""`tests/check_tutorial.py`, for the scripts beside this file."""
from pathlib import Path

__file__ = str(Path(__file__).resolve().parent.parent / "check_tutorial.py")
exec(compile(Path(__file__).read_text(), __file__, "exec"))
