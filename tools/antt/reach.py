"""What a clause of a Rust function rests on: all definitions of specs/ that its text reaches, and the Rust types they
name."""
import re
from collections.abc import Iterable
from dataclasses import dataclass, field
from functools import cached_property

from .definitions import Definition, Names, definitions_of
from .items import items_of
from .modules import CRATES, Module, bring, module_of
from .tokens import tokens_of

DECLARED = ".specs.declared."
FUNCTION = r"^ *pub fn {}\b.*?^ *\{{(?:\n|\}})"
CLAUSE = re.compile(r"^ *(requires|ensures)\*?(?: (\w+))? \{", re.M)


class Unknown(Exception):
    """A function, a clause or a definition that is not there."""


@dataclass(frozen=True)
class Type:
    """A Rust type, or a table of constants, that a definition names: its crate and its name."""
    crate: str
    name: str


@dataclass
class Reached:
    """What is reached: the definitions in the order in which they were met, and the types."""
    definitions: dict[Definition, None] = field(default_factory=dict)
    types: dict[Type, None] = field(default_factory=dict)


@dataclass(frozen=True)
class Clause:
    """A clause of a function: its name, its lines and the names in it, each with its whole path."""
    function: str
    name: str
    text: str
    paths: tuple[str, ...]

    def lines(self) -> int:
        return sum(bool(line.strip()) for line in self.text.split("\n"))


class Specs:
    """The definitions of all specs/, read when they are met."""

    def __init__(self, without: Iterable[str] = ()) -> None:
        self.known: dict[str, dict[str, Definition]] = {}
        self.left_out = set(without)
        self.met: set[str] = set()
        self.paths: dict[Definition, list[str]] = {}

    def names_of(self, module: str) -> dict[str, Definition] | None:
        """The definitions of a module by their names, or None where the crates have no such module."""
        if module not in self.known:
            read = module_of(module)
            if read is None or not read.file.is_relative_to(CRATES):
                return None
            self.known[module] = {name: one for one in definitions_of(read) for name in one.names}
        return self.known[module]

    def find(self, path: str) -> Definition | None:
        """The definition at a path, which may go on with fields of it."""
        words = path.split(".")
        for count in range(len(words) - 1, 2, -1):
            names = self.names_of(".".join(words[:count]))
            if names is not None:
                return names.get(words[count])
        return None

    def is_constructor(self, path: str) -> bool:
        found = self.find(path)
        return DECLARED in path or (found is not None and path.rpartition(".")[2] in found.constructors)

    def is_left_out(self, definition: Definition) -> bool:
        """Whether an option leaves it out, which is remembered as met."""
        left = set(definition.names) & self.left_out
        self.met |= left
        return bool(left)

    def fields_left_out(self, definition: Definition) -> set[str]:
        """The fields of a record that an option leaves out, which are remembered as met."""
        own = {f"{definition.names[0]}.{name}" for name in definition.fields()}
        self.met |= own & self.left_out
        return {path.partition(".")[2] for path in own & self.left_out}

    def paths_in(self, definition: Definition) -> list[str]:
        """The whole paths of names in a definition, each once."""
        if definition not in self.paths:
            names = Names(definition.module, self.is_constructor).of(definition, self.fields_left_out(definition))
            self.paths[definition] = [path for path in dict.fromkeys(names) if "." in path]
        return self.paths[definition]

    def reach(self, paths: Iterable[str], reached: Reached, stops: frozenset[str] = frozenset()) -> None:
        """Adds what the paths reach, each with what it names before the next, but for what stands under a stop."""
        waiting = list(reversed(list(paths)))
        while waiting:
            path = waiting.pop()
            if DECLARED in path:
                reached.types.setdefault(type_at(path))
                continue
            found = self.find(path) if "." in path else None
            if found is None or found in reached.definitions or stops & set(found.names) or self.is_left_out(found):
                continue
            reached.definitions[found] = None
            waiting.extend(reversed(self.paths_in(found)))


def type_at(path: str) -> Type:
    """The type at a path such as `Rattle.CRATE.specs.declared.MODULE.TYPE.TheVariants.VARIANT`."""
    crate, _, inside = path.removeprefix("Rattle.").partition(DECLARED)
    words = inside.split(".")
    ends = [place for place, word in enumerate(words) if word.startswith("The")]
    return Type(crate, words[ends[0] - 1] if ends and ends[0] else words[-2] if len(words) > 1 else words[0])


@dataclass
class Source:
    """A Rust file: what its `ghost use` lines bring into clauses."""
    crate: str
    text: str

    @cached_property
    def module(self) -> Module:
        lines = re.findall(r"^ghost (use [^;]*);", self.text, re.M)
        made = Module(f"Rattle.{self.crate}.src", CRATES / self.crate, [])
        for item in items_of(tokens_of("\n".join(" ".join(line.split()) for line in lines))):
            bring(made, item)
        return made


def function_in(crate: str, function: str) -> tuple[Source, str]:
    """The file that has a public function, and its text up to its body."""
    for path in sorted((CRATES / crate / "src").glob("**/*.rt")):
        text = path.read_text()
        if found := re.search(FUNCTION.format(re.escape(function)), text, re.S | re.M):
            return Source(crate, text), found[0]
    raise Unknown(f"{crate} has no public function {function}")


def functions_of(crate: str) -> list[str]:
    """The public functions at the top of a crate's files, those of lib.rt first."""
    paths = sorted((CRATES / crate / "src").glob("**/*.rt"), key=lambda path: (path.name != "lib.rt", path))
    return [name for path in paths for name in re.findall(r"^pub fn (\w+)", path.read_text(), re.M)]


def clauses_of(specs: Specs, crate: str, function: str) -> list[Clause]:
    """The clauses of a function in their order; those without a name are called by their kind."""
    source, text = function_in(crate, function)
    names = Names(source.module, specs.is_constructor)
    found = []
    for begin in CLAUSE.finditer(text):
        end = closing(text, begin.end())
        paths = names.in_tokens(tokens_of(text[begin.end() : end]), set())
        found.append(Clause(function, begin[2] or begin[1], text[begin.start() : end + 1].strip(), tuple(paths)))
    return found


def closing(text: str, start: int) -> int:
    """The place of the brace that closes the one before `start`."""
    depth = 1
    for place in range(start, len(text)):
        depth += {"{": 1, "}": -1}.get(text[place], 0)
        if depth == 0:
            return place
    raise Unknown("a clause has no end")
