"""`python/silc`, for the scripts beside this file."""
from pathlib import Path

REAL = next(top for top in Path(__file__).resolve().parents if (top / "python/silc").exists()) / "python/silc"
__path__ = [str(REAL)]
__file__ = str(REAL / "__init__.py")
exec(compile(Path(__file__).read_text(), __file__, "exec"))
