"""The definitions of an .antt file, each with its lines, the blocks around it and the names that it refers to."""
from collections.abc import Callable, Iterator
from dataclasses import dataclass, field

from .items import MARKS, Item
from .modules import Module, resolved
from .statements import Bracket, Form, Forms, Scope, body_of, is_mutual, names_in, nested
from .tokens import Token

FIXITIES = {"infix", "infixl", "infixr"}


@dataclass(eq=False)
class Definition:
    """A function with its clauses, a `data` with its constructors, or a `record` with its fields."""
    module: Module
    names: list[str]
    items: list[Item]
    blocks: list[Item]
    constructors: list[str] = field(default_factory=list)

    def lines(self) -> set[int]:
        """The lines that it takes, counted from 0, without the comment above it."""
        return {line for item in self.items for line in range(*item.lines())}

    def is_record(self) -> bool:
        return without_marks(self.items[0].words())[:1] == ["record"]

    def fields(self) -> list[str]:
        parts = self.items[1:] if self.is_record() else []
        return [name for item in parts if item.role() == "statement" for name in names_stated(item)]

    def is_function(self) -> bool:
        return self.items[0].role() == "statement"


def without_marks(words: list[str]) -> list[str]:
    while words and words[0] in MARKS:
        words = words[1:]
    return words


def names_stated(item: Item) -> list[str]:
    """The names that a statement declares: those before its colon, or one with its levels."""
    words = without_marks(item.words())
    names = words[: words.index(":")]
    return names[:1] if "{" in names else names


def after_names(item: Item) -> list[Token]:
    """The tokens of a statement behind its names, which it declares and does not refer to."""
    names = len(names_stated(item)) + len(item.words()) - len(without_marks(item.words()))
    return [token for token in item.tokens if not token.is_comment()][names:]


def definitions_of(module: Module) -> list[Definition]:
    """The definitions in their order, those in `module _` and `mutual` blocks too."""
    found: list[Definition] = []
    blocks: list[Item] = []
    for place, item in enumerate(module.items):
        while blocks and blocks[-1].depth >= item.depth:
            blocks.pop()
        if without_marks(item.words())[:1] == ["module"] or is_mutual(item):
            blocks.append(item)
        elif item.depth > len(blocks) + 1:
            continue
        elif item.role() == "header":
            found.append(with_parts(module, place, list(blocks)))
        elif item.role() == "statement":
            body = [part for part in body_of(module, place) if not is_fixity(part)]
            found.append(Definition(module, names_stated(item), [item, *body], list(blocks)))
    add_fixities(module, found)
    return found


def with_parts(module: Module, place: int, blocks: list[Item]) -> Definition:
    """A `data` or a `record` with what stands in its block."""
    header, parts = module.items[place], []
    for item in module.items[place + 1 :]:
        if item.depth <= header.depth:
            break
        parts.append(item)
    kind, name = without_marks(header.words())[:2]
    constructors = [own for part in parts if part.role() == "statement"
                    for own in names_stated(part)] if kind == "data" else []
    return Definition(module, [name, *constructors], [header, *parts], blocks, constructors)


def add_fixities(module: Module, found: list[Definition]) -> None:
    """Gives each operator the line that says how much it binds."""
    owners = {name: definition for definition in found for name in definition.names}
    for item in module.items:
        if is_fixity(item) and item.words()[-1] in owners:
            owners[item.words()[-1]].items.append(item)


def is_fixity(item: Item) -> bool:
    return item.words()[:1] != [] and item.words()[0] in FIXITIES


class Names(Forms):
    """The names that a module refers to: the whole path of each that no binder around it binds, in the order of the
    text."""

    def __init__(self, module: Module, is_constructor: Callable[[str], bool]) -> None:
        super().__init__(module)
        self.is_constructor = is_constructor
        self.operators = operators_of(module)

    def head(self, name: str, path: str, scope: Scope) -> Form:
        if name == "do":
            return tuple(resolved(self.module, operator) or operator for operator in ("◌>>=◌", "◌>>◌"))
        if name not in scope and name in self.operators:
            return tuple(resolved(self.module, operator) or operator for operator in self.operators[name])
        return super().head(name, path, scope)

    def piece(self, pieces: list[Bracket], scope: Scope) -> Form:
        """A field that gets a value, as `at` in `record { at = n }`, refers to nothing by its name."""
        is_field = len(pieces) > 1 and pieces[0].content is None and pieces[1].text == "="
        return super().piece(pieces[2:] if is_field else pieces, scope)

    def in_tokens(self, tokens: list[Token], bound: set[str]) -> Iterator[str]:
        yield from texts(self.term(nested(tokens), self.bind(sorted(bound), {})))

    def in_clauses(self, definition: Definition, bound: set[str]) -> Iterator[str]:
        """What the clauses of a function refer to. A clause binds the variables of its patterns, in what stands in it
        too."""
        own = definition.items[0].depth
        variables: set[str] = set()
        for item in definition.items[1:]:
            parts = nested(item.tokens)
            begins = item.depth == own
            binds = next((place for place, part in enumerate(parts) if part.text == ("=" if begins else "←")), 0)
            variables = set() if begins else set(variables)
            variables |= {name for part in parts[:binds] for name in names_in(part) if self.is_variable(name)}
            scope = self.bind(sorted(bound | variables), {})
            yield from texts((*self.term(parts[:binds], scope), *self.term(parts[binds:], scope)))

    def is_variable(self, name: str) -> bool:
        """Whether a name in a pattern is a variable's, be it that of something else too, and no constructor's."""
        if name in self.module.modules or name in self.operators:
            return False
        path = resolved(self.module, name)
        return path is None or not self.is_constructor(path)

    def of(self, definition: Definition, without: set[str]) -> Iterator[str]:
        """What a definition refers to, but for the fields of these names."""
        bound = bound_by(definition.blocks)
        for block in definition.blocks:
            yield from self.in_tokens(block.tokens, set())
        if definition.is_function():
            yield from self.in_tokens(after_names(definition.items[0]), bound)
            yield from self.in_clauses(definition, bound | set(definition.names))
            return
        for item in definition.items:
            if item.role() != "statement":
                yield from self.in_tokens(item.tokens, bound)
                continue
            if not set(names_stated(item)) & without:
                yield from self.in_tokens(after_names(item), bound)
            bound = bound | set(names_stated(item) if definition.is_record() else ())


def texts(form: Form) -> Iterator[str]:
    return (part for part in form if isinstance(part, str))


def operators_of(module: Module) -> dict[str, list[str]]:
    """The operators that a module knows, by each of their parts, as `if`, `then` and `else` of `if◌then◌else◌`."""
    found: dict[str, list[str]] = {}
    for name in sorted(module.declared | set(module.brought)):
        for part in name.split("◌") if "◌" in name else ():
            if part:
                found.setdefault(part, []).append(name)
    return found


def bound_by(blocks: list[Item]) -> set[str]:
    """The names that the parameters of the blocks bind."""
    return {name for block in blocks for part in nested(block.tokens)
            if part.content is not None and part.is_binder() for name in part.binder()[0]}
