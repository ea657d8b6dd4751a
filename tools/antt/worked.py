"""The worked values of definitions: clauses of the functions of one crate, whose statements are shown below the
definitions that they reach."""
from dataclasses import dataclass

from .definitions import Definition
from .modules import CRATES
from .reach import Clause, Reached, Specs, clauses_of, functions_of

WORKED = "worked_values"


class Unworked(Exception):
    """A table of worked values that the crate or the definitions do not bear out."""


def name_at(definition: Definition) -> str:
    """A definition as the tables have it: CRATE/FILE.NAME."""
    file = definition.module.file
    return f"{file.relative_to(CRATES).parts[0]}/{file.stem}.{definition.names[0]}"


def is_worked(definition: Definition) -> bool:
    """Whether a definition is one of the worked values' own."""
    return definition.module.file.relative_to(CRATES).parts[0] == WORKED


@dataclass(frozen=True)
class Value:
    """A worked value: the clause that promises it, and what its statement reaches."""
    clause: Clause
    reached: Reached

    def name(self) -> str:
        return f"{self.clause.function}.{self.clause.name}"

    def statement(self) -> list[Definition]:
        return [one for one in self.reached.definitions if is_worked(one)]


class Values:
    """All worked values, with a table that says of which definition each is one, and a table of those that have none,
    each with its reason."""

    def __init__(self, specs: Specs, shown: dict[str, list[str]], without: dict[str, str]) -> None:
        self.values = {value.name(): value for value in values_of(specs)}
        self.shown, self.without = shown, without

    def below(self, definitions: list[Definition]) -> list[Value]:
        """The values that are shown below definitions, each once."""
        names = [name for one in definitions for name in self.shown.get(name_at(one), [])]
        return [self.values[name] for name in dict.fromkeys(names) if name in self.values]

    def check(self, definitions: list[Definition]) -> None:
        """Refuses tables that are not as these definitions, on which the sentence rests, and the clauses are."""
        named = {name_at(one): one for one in definitions}
        self.check_shown(named)
        reached = {name_at(one) for value in self.values.values() for one in value.reached.definitions}
        for name in named:
            if name not in reached and name not in self.without:
                raise Unworked(f"no worked value of crates/{WORKED} reaches {name}")
            if name in reached and name in self.without:
                raise Unworked(f"a worked value of crates/{WORKED} reaches {name}, which is listed as having none")
        if unknown := sorted(set(self.without) - set(named)):
            raise Unworked(f"the sentence does not rest on {unknown[0]}, which is listed as having no worked value")

    def check_shown(self, named: dict[str, Definition]) -> None:
        for name, values in self.shown.items():
            if name not in named:
                raise Unworked(f"the sentence does not rest on {name}, for which worked values are listed")
            for value in values:
                if value not in self.values:
                    raise Unworked(f"crates/{WORKED} promises no {value}, which is listed for {name}")
                if named[name] not in self.values[value].reached.definitions:
                    raise Unworked(f"{value} of crates/{WORKED} does not reach {name}, for which it is listed")
        listed = {value for values in self.shown.values() for value in values}
        if unlisted := [name for name in self.values if name not in listed]:
            raise Unworked(f"{unlisted[0]} of crates/{WORKED} is listed for no definition")


def values_of(specs: Specs) -> list[Value]:
    """The clauses of the crate's functions with what they reach, in their order."""
    if not (CRATES / WORKED).is_dir():
        return []
    found = []
    for function in functions_of(WORKED):
        for clause in clauses_of(specs, WORKED, function):
            reached = Reached()
            specs.reach(clause.paths, reached)
            found.append(Value(clause, reached))
    return found
