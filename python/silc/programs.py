"""Where things are that the package does not hold: the proved programs `silc`, `silc_show` and `silc_place`, and the
checkout with its files. This is the one place that says so. Commands that start often import it, so it imports
little."""
import os
import sys

PACKAGE = os.path.dirname(os.path.realpath(__file__))
# The folder of the checkout, where the package lies in one.
TOP = os.path.dirname(os.path.dirname(PACKAGE))
# The programs that an installed package has with it.
OWN = os.path.join(PACKAGE, "bin")
Name = str | os.PathLike[str]


class NoProgram(Exception):
    """A program is not there. It has the file that was looked for, and the crate that it is built of."""

    def __init__(self, file: str, crate: str) -> None:
        super().__init__(f"there is no program {file}; tools/build {crate} builds one")
        self.file, self.crate = file, crate


class Program:
    """A proved program: its name, the variable of the environment that names another, and the crate that it is built
    of."""

    def __init__(self, name: str, variable: str, crate: str) -> None:
        self.name, self.variable, self.crate = name, variable, crate

    def built(self) -> str:
        """Where the checkout has it, once it is built."""
        return in_checkout("crates", self.crate, "out", self.crate)

    def place(self, given: Name | None = None) -> str:
        """The whole name of the program's file, whether it is there or not: the one that is given, or that the
        environment names, or the package's own, or the checkout's, or one in the PATH."""
        named = given or os.environ.get(self.variable)
        if named:
            return os.path.abspath(os.fspath(named))
        own = os.path.join(OWN, self.crate)
        if is_program(own):
            return own
        return self.built() if is_checkout() else self.in_path() or self.built()

    def in_path(self) -> str | None:
        """The program of the PATH, by the name of its crate or by its own."""
        import shutil
        return shutil.which(self.crate) or shutil.which(self.name)

    def found(self, given: Name | None = None) -> str:
        """The file of the program, or `NoProgram`."""
        file = self.place(given)
        if not is_program(file):
            raise NoProgram(file, self.crate)
        return file

    def is_there(self) -> bool:
        return is_program(self.place())


def is_program(file: Name) -> bool:
    """Whether a file may be run."""
    return os.access(file, os.X_OK) and not os.path.isdir(file)


def in_checkout(*names: str) -> str:
    """A file of the checkout."""
    return os.path.join(TOP, *names)


def is_checkout() -> bool:
    """Whether the package lies in a checkout, with the crates and the tools."""
    return os.path.isfile(in_checkout("crates.txt"))


def command(name: str) -> list[str]:
    """The words that run a command of the package in a process of its own; they go with the variables of
    `with_package`."""
    return [sys.executable, "-m", "silc", name]


def with_package() -> dict[str, str]:
    """This process's variables, with which another Python finds the package."""
    paths = [os.path.dirname(PACKAGE), *filter(None, [os.environ.get("PYTHONPATH")])]
    return os.environ | {"PYTHONPATH": os.pathsep.join(paths)}


SILC = Program("silc", "SILC", "silc_main")
SHOW = Program("silc_show", "SILC_SHOW", "silc_show")
PLACE = Program("silc_place", "SILC_PLACE", "silc_place")
SAME = Program("silc_same", "SILC_SAME", "silc_same")
