"""Statements in a form in which those that say the same are equal: bound variables by number, names by their whole
paths."""
from __future__ import annotations

from collections.abc import Iterable, Iterator, Sequence
from dataclasses import dataclass
from itertools import count
from pathlib import Path
from typing import TypeAlias

from .items import MARKS, Item
from .modules import Module, resolved
from .terms import RANK_OF, elements_of, node_of
from .tokens import CLOSERS, OPENERS, Token

# The words of a statement, in which a variable is a number: equal where two state the same.
Form: TypeAlias = tuple[str | int, ...]
# The variables that are bound at a place, by their names.
Scope: TypeAlias = dict[str, int]

# What ends an operand, and what a bracket that holds it is kept for.
ENDS = {",", ";", "|", "↦", "=", ":", "in", "."}
KEEPS = {"λ", "let", "elim", "if", "then", "else", ",", ";", ":", "=", "record", "unfold"}
RELATIONS = {"≡", "≢", "≤", "<", "≤ℤ", "<ℤ", "⊥", "¬", "⊎", "↔"}


@dataclass
class Bracket:
    """A bracket with its content, or a token alone, which has no content."""
    text: str
    touches: bool
    content: list[Bracket] | None = None

    def is_binder(self) -> bool:
        """Whether it is `(x y : A)` or `{x : A}`."""
        words = [part.text for part in self.content or []]
        if self.text not in "({" or ":" not in words[1:]:
            return False
        names = self.content[: words.index(":")]
        return all(part.content is None and part.text not in ("=", ",", "λ") for part in names)

    def binder(self) -> tuple[list[str], list[Bracket]]:
        """The names that it binds, and their type."""
        place = [part.text for part in self.content].index(":")
        return [part.text for part in self.content[:place]], self.content[place + 1 :]


@dataclass
class Statement:
    """A lemma or a definition: where it stands, how long it is, and its form."""
    path: str
    file: Path
    line: int
    lines: int
    text: str
    form: Form
    is_definition: bool
    is_public: bool


def nested(tokens: Iterable[Token]) -> list[Bracket]:
    """The tokens with what stands in each bracket as one part, without brackets that change nothing."""
    stack = [[]]
    for token in tokens:
        if token.is_comment():
            continue
        if token.kind != "text" and token.text in OPENERS:
            stack[-1].append(Bracket(token.text, token.touches, []))
            stack.append(stack[-1][-1].content)
        elif token.kind != "text" and token.text in CLOSERS:
            level = stack.pop()
            level[:] = stripped(level)
        else:
            stack[-1].append(Bracket(token.text, token.touches))
    return stripped(stack[0])


def stripped(parts: list[Bracket]) -> list[Bracket]:
    """The parts of one level, with those in brackets in the open where the brackets change nothing."""
    found = []
    for place, part in enumerate(parts):
        found += part.content if is_idle(parts, place) else [part]
    return found


def is_idle(parts: list[Bracket], place: int) -> bool:
    """Whether a bracket is a whole operand whose own operators bind more than those beside it."""
    part = parts[place]
    if part.text != "(" or part.content is None or not part.content:
        return False
    left, right = beside(parts, place - 1), beside(parts, place + 1)
    own = loosest(part.content)
    if left is None or right is None or own is None or (place + 1 < len(parts) and parts[place + 1].text == "."):
        return False
    return own > max(left, right) or (own == 0 and left == 0 and right < 0)


def beside(parts: list[Bracket], place: int) -> int | None:
    """The rank of the operator at a place, -1 where the level or a part of it ends there, or None."""
    if not 0 <= place < len(parts):
        return -1
    part = parts[place]
    if part.content is not None:
        return None
    return -1 if part.text in ENDS else RANK_OF.get(part.text)


def loosest(parts: list[Bracket]) -> int | None:
    """The least rank of the operators of a level, or None where it is no term that could stand in the open."""
    ranks = [len(RANK_OF)]
    for part in parts:
        if part.content is None and part.text in RANK_OF:
            ranks.append(RANK_OF[part.text])
        elif part.content is None and (part.text in KEEPS or not (part.text[0].isalnum() or part.text[0] in "_.[⊥\"")):
            return None
    return min(ranks)


class Forms:
    """Makes the form of terms of a module. A variable is a number, an unused binder is left out of a function's
    type."""

    def __init__(self, module: Module) -> None:
        self.module, self.fresh = module, count()

    def bind(self, names: Iterable[str], scope: Scope) -> Scope:
        return scope | {name: next(self.fresh) for name in names}

    def term(self, parts: list[Bracket], scope: Scope) -> Form:
        """The form of the parts of one bracket, from the first on."""
        found: list[str | int] = []
        place = 0
        while place < len(parts):
            part = parts[place]
            if part.content is None and part.text in ("λ", "let") or part.content is not None and part.is_binder():
                return (*found, *self.over_variables(parts[place:], scope))
            if part.content is not None:
                found += (part.text, *self.inside(part, scope))
                place += 1
            else:
                end = after_fields(parts, place)
                found += self.name(parts[place:end], scope)
                place = end
        return tuple(found)

    def over_variables(self, parts: list[Bracket], scope: Scope) -> Form:
        """A term that begins with binders, a `λ` or a `let`."""
        if parts[0].text == "λ":
            return self.abstraction(parts, scope)
        if parts[0].text == "let":
            return self.binding(parts, scope)
        place = 0
        while place < len(parts) and parts[place].content is not None and parts[place].is_binder():
            place += 1
        return self.binders(parts[:place], parts[place:], scope)

    def binders(self, binders: list[Bracket], rest: list[Bracket], scope: Scope) -> Form:
        """`(x : A) → B` where x stands in B, and `A → B` where it does not."""
        if not binders:
            return self.term(rest, scope)
        names, kind = binders[0].binder()
        return self.one_by_one(binders[0].text, names, kind, binders[1:], rest, scope)

    def one_by_one(self, opener: str, names: Sequence[str], kind: list[Bracket], others: list[Bracket],
                   rest: list[Bracket], scope: Scope) -> Form:
        is_function = bool(rest) and rest[0].text == "→"
        inner = self.bind(names[:1], scope)
        number = inner[names[0]]
        if len(names) > 1:
            below = self.one_by_one(opener, names[1:], kind, others, rest, inner)
        else:
            below = self.binders(others, rest[1:] if is_function and not others else rest, inner)
        of = self.term(kind, scope)
        if is_function and opener == "(" and number not in below:
            return (*of, "→", *below)
        return (opener, number, ":", *of, ")", *(("→",) if is_function else ()), *below)

    def abstraction(self, parts: list[Bracket], scope: Scope) -> Form:
        end = next((place for place, part in enumerate(parts) if part.text == "." and part.content is None),
                   len(parts) - 1)
        names = [name for part in parts[1:end] for name in names_in(part)]
        inner = self.bind(names, scope)
        return ("λ", *(inner[name] for name in names), ".", *self.term(parts[end + 1 :], inner))

    def binding(self, parts: list[Bracket], scope: Scope) -> Form:
        """`let x : T = e in b`"""
        equal = next((place for place, part in enumerate(parts) if part.text == "="), None)
        end = matching_in(parts)
        if equal is None or end is None:
            return ("let", *self.term(parts[1:], scope))
        names = [name for part in before_colon(parts[1:equal]) for name in names_in(part)]
        inner = self.bind(names, scope)
        return ("let", *(inner[name] for name in names), "=", *self.term(parts[equal + 1 : end], scope), "in",
                *self.term(parts[end + 1 :], inner))

    def inside(self, part: Bracket, scope: Scope) -> Form:
        """What stands in a bracket; in the cases of an `elim` and the fields of a record each for itself."""
        found = []
        for mark, pieces in pieces_of(part.content):
            found += [*self.piece(pieces, scope), mark]
        return (*found, ")")

    def piece(self, pieces: list[Bracket], scope: Scope) -> Form:
        arrow = next((place for place, part in enumerate(pieces) if part.text == "↦"), None)
        if arrow is None:
            return self.term(pieces, scope)
        names = [name for part in pieces[:arrow] for name in names_in(part) if resolved(self.module, name) is None]
        inner = self.bind(names, scope)
        return (*self.term(pieces[:arrow], inner), "↦", *self.term(pieces[arrow + 1 :], inner))

    def name(self, parts: list[Bracket], scope: Scope) -> Form:
        """A name with its fields, or a mark."""
        path = "".join(part.text for part in parts[1:] if part.content is None)
        return self.head(parts[0].text, path, scope)

    def head(self, name: str, path: str, scope: Scope) -> Form:
        if name in scope:
            return (scope[name], path) if path else (scope[name],)
        for spelled in (name, f"◌{name}◌", f"{name}◌"):
            if found := resolved(self.module, spelled):
                return (found + path,)
        if path and name in self.module.modules:
            return (self.module.modules[name] + path,)
        return (name + path,)


def after_fields(parts: list[Bracket], place: int) -> int:
    """The place behind a name and its fields."""
    place += 1
    while place + 1 < len(parts) and parts[place].text == "." and parts[place].touches and parts[place + 1].touches:
        place += 2
    return place


def pieces_of(parts: list[Bracket]) -> Iterator[tuple[str, list[Bracket]]]:
    """The parts between commas, semicolons and bars, each with the mark behind it."""
    piece = []
    for part in parts:
        if part.content is None and part.text in (",", ";", "|"):
            yield part.text, piece
            piece = []
        else:
            piece.append(part)
    yield "", piece


def names_in(part: Bracket) -> list[str]:
    """The names that a binder or a pattern binds."""
    if part.content is None:
        return [] if part.text in "_,:=." else [part.text]
    return [name for inner in before_colon(part.content) for name in names_in(inner)]


def before_colon(parts: list[Bracket]) -> list[Bracket]:
    place = next((place for place, part in enumerate(parts) if part.text == ":"), len(parts))
    return parts[:place]


def matching_in(parts: list[Bracket]) -> int | None:
    depth = 0
    for place, part in enumerate(parts):
        depth += (part.text == "let") - (part.text == "in")
        if part.text == "in" and depth == 0:
            return place
    return None


def numbered(form: Form) -> Form:
    """The form with its variables numbered in the order in which they come."""
    numbers = {}
    return tuple(numbers.setdefault(part, len(numbers)) if isinstance(part, int) else part for part in form)


def used(parameters: list[Bracket], parts: list[Bracket], siblings: set[str]) -> list[Bracket]:
    """The parameters of the blocks around a statement that it names, and those that are about named ones alone; all
    where it names what the blocks declare, which has them unseen."""
    names = all_names(parts)
    if names & siblings:
        return parameters
    kept = []
    for binder in reversed(parameters):
        bound, kind = binder.binder()
        if names & set(bound):
            names |= all_names(kind)
            kept.append(binder)
    kept_names = {name for binder in kept for name in binder.binder()[0]}
    every = {name for binder in parameters for name in binder.binder()[0]}
    about = [binder for binder in parameters if binder not in kept
             and (own := all_names(binder.binder()[1]) & every) and own <= kept_names]
    return [binder for binder in parameters if binder in kept or binder in about]


def all_names(parts: list[Bracket]) -> set[str]:
    found = set()
    for part in parts:
        found |= all_names(part.content) if part.content is not None else {part.text}
    return found


def statements_of(module: Module) -> list[Statement]:
    """The lemmas and definitions of a module that stand in no `where` block of a proof."""
    found, blocks = [], []
    for place, item in enumerate(module.items):
        blocks = [block for block in blocks if block[0].depth < item.depth]
        role = item.role()
        if role == "header" and "module" in item.words()[:1]:
            own = [part for part in nested(item.tokens) if part.content is not None and part.is_binder()]
            blocks.append((item, own, declared_in(module, place)))
        elif role == "other" or role == "header":
            blocks.append((item, None, set()))
        if role == "statement" and all(parameters is not None or is_mutual(block) for block, parameters, _ in blocks):
            parameters = [binder for _, own, _ in blocks for binder in own or []]
            siblings = set().union(*(names for _, own, names in blocks if own))
            found.append(statement(module, place, parameters, siblings))
    return found


def declared_in(module: Module, place: int) -> set[str]:
    """The names that the block under a header declares."""
    depth, names = module.items[place].depth, set()
    for item in module.items[place + 1 :]:
        if item.depth <= depth:
            break
        words = [word for word in item.words() if word not in MARKS]
        if item.role() == "statement":
            names.add(words[0])
        elif item.role() == "header" and words[0] != "module":
            names.add(words[1])
    return names


def is_mutual(item: Item) -> bool:
    return item.words() in (["mutual"], ["unfoldable", "mutual"], ["abbrev", "mutual"])


def statement(module: Module, place: int, parameters: list[Bracket], siblings: set[str]) -> Statement:
    item = module.items[place]
    tokens = [token for token in item.tokens if not token.is_comment()]
    while tokens[0].text in MARKS:
        tokens = tokens[1:]
    colon = next(at for at, token in enumerate(tokens) if token.text == ":")
    parts = nested(tokens[colon + 1 :])
    body = body_of(module, place)
    form = Forms(module)
    binders = used(parameters, parts, siblings)
    of = form.term([*binders, *([Bracket("→", False)] if binders else []), *parts], {})
    is_definition = defines(of)
    whole = (*of, "=", *clauses(form, body, tokens[0].text)) if is_definition else of
    first, end = item.tokens[0].line, (body[-1] if body else item).tokens[-1].line + 1
    name = module.path + "." + tokens[0].text
    text = node_of(elements_of(tokens[colon + 1 :])).flat()
    return Statement(name, module.file, first + 1, end - item.tokens[-1].line - 1, text, numbered(whole), is_definition,
                     "pub" in item.words()[:3])


def body_of(module: Module, place: int) -> list[Item]:
    """The items of a declaration's body: the clauses, and what stands in blocks in them."""
    depth, found = module.items[place].depth, []
    for item in module.items[place + 1 :]:
        if item.depth < depth or (item.depth == depth and item.role() not in ("other", "unfolding")):
            break
        if item.depth == depth and is_mutual(item):
            break
        found.append(item)
    return found


def clauses(form: Forms, body: Sequence[Item], name: str) -> list[str | int]:
    """The form of a definition's clauses, in which its own name and its patterns' variables are bound."""
    found = []
    for item in body:
        parts = nested(item.tokens)
        equal = next((place for place, part in enumerate(parts) if part.text == "="), len(parts))
        patterns = [own for part in parts[:equal] for own in names_in(part) if resolved(form.module, own) is None]
        scope = form.bind(dict.fromkeys([name, *patterns]), {})
        found += [*form.term(parts[:equal], scope), "=", *form.term(parts[equal + 1 :], scope), ";"]
    return found


def defines(form: Form) -> bool:
    """Whether the form is the type of a definition: what it ends in is no relation, and names no variable but of a
    type."""
    depth, last = 0, []
    for part in form:
        depth += (part in ("(", "{", "[")) - (part == ")")
        last = [] if depth == 0 and part == "→" else last + [part]
    is_about = any(isinstance(part, int) and part not in types_in(form) for part in last)
    return "Type" in last or not (is_about or any(is_relation(part) for part in last))


def is_relation(part: str | int) -> bool:
    return isinstance(part, str) and part.rsplit(".", 1)[-1].strip("◌") in RELATIONS


def types_in(form: Form) -> set[str | int]:
    """The variables that are bound as types."""
    return {form[place] for place in range(len(form) - 2)
            if isinstance(form[place], int) and form[place + 1] == ":" and form[place + 2] == "Type"}
