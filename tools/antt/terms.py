"""Terms as trees, for layout alone: brackets, lists, `x = e`, `λ`, `let`, operators by rank, applications.

A tree keeps the text of its tokens and which of them touch. A piece of a text need not have both brackets of a pair:
one that lacks is taken as standing before the piece's first token, or behind its last.
"""
from collections.abc import Iterable
from dataclasses import dataclass, field

from .tokens import CLOSERS, OPENERS, Token

# Operators, those that bind the least first. A rank whose operators all stand on lines of their own is in `SPREADS`.
RANKS = [["→"], ["then", "else"], ["↔", "≃"], ["⊎"], ["×"], ["≡", "≢", "<", "≤", "<ℤ", "≤ℤ", "∈"], ["||"], ["&&"],
         ["=="], [">>=", ">>"], ["∙", "⨟", "▸", "▹"], ["++", "∷"], ["+", "-", "+ℤ", "-ℤ", "⊕"],
         ["*", "/", "%", "*ℤ", "⊙", "·"], ["^"]]
RANK_OF = {operator: rank for rank, operators in enumerate(RANKS) for operator in operators}
SPREADS = set(range(5))


class Tree:
    """What has a text on one line, which is kept."""

    def flat(self) -> str:
        if not hasattr(self, "text"):
            self.text = self.on_one_line()
        return self.text


@dataclass
class Group(Tree):
    """What stands in brackets, and whether spaces stand behind the first one and before the last."""
    opener: str
    body: Tree | None
    closer: str
    spaced: bool
    spaced_end: bool

    def on_one_line(self) -> str:
        inside = self.body.flat() if self.body else ""
        return self.opener + " " * self.spaced + inside + " " * self.spaced_end + self.closer


@dataclass
class Element(Tree):
    """Tokens that touch, as texts and groups."""
    parts: list[str | Group]

    def on_one_line(self) -> str:
        return "".join(part if isinstance(part, str) else part.flat() for part in self.parts)

    def is_word(self, *words: str) -> bool:
        return len(self.parts) == 1 and self.parts[0] in words

    def ends_in(self, mark: str) -> bool:
        return self.parts[-1] == mark

    def group(self) -> Group | None:
        """The group that it is or ends in, if any."""
        return self.parts[-1] if isinstance(self.parts[-1], Group) else None


@dataclass
class Node(Tree):
    """A tree's node, whose `kind` says what its children and the words between them are:

    list          parts, each but the last perhaps with its mark
    marked        a part of a list and its mark
    alternatives  cases
    prefixed      `|` and a case
    define        the two sides of `=`, `↦`, `←` or `:`
    lambda        `λ` with its binders, as elements, and the body
    let           what is bound, and the body
    closed        a term whose `let` or clause began before the piece, and the `in` or `where` behind it
    steps         such a term, and what follows it
    operators     operands and the operators between them
    apply         a function and its arguments, as elements
    """
    kind: str
    children: list[Tree | None]
    marks: list[str]

    def on_one_line(self) -> str:
        return " ".join(self.words())

    def words(self) -> list[str]:
        texts = [child.flat() for child in self.children if child]
        if self.kind == "marked":
            return ["".join(texts) + self.marks[0]]
        if self.kind in ("define", "operators"):
            return interleaved([child and child.flat() for child in self.children], self.marks)
        if self.kind == "let":
            bound, body = (child.flat() if child else None for child in self.children)
            return [word for word in ("let", bound, *self.marks, body) if word]
        return self.marks + texts if self.kind == "prefixed" else texts + self.marks


def interleaved(texts: list[str | None], marks: list[str]) -> list[str]:
    """The texts with the marks between them; a text may lack."""
    between = [word for pair in zip(texts, marks + [None]) for word in pair]
    return [word for word in between if word]


@dataclass
class Frame:
    """An open bracket, or the piece itself, with the elements so far."""
    opener: str = ""
    touches: bool = False
    spaced: bool = False
    elements: list[Element] = field(default_factory=list)

    def put(self, part: str | Group, touches: bool) -> None:
        if self.elements and touches:
            self.elements[-1].parts.append(part)
        else:
            self.spaced = self.spaced if self.elements else not touches
            self.elements.append(Element([part]))


def elements_of(tokens: Iterable[Token]) -> list[Element]:
    """The elements of a sequence of tokens, its brackets matched."""
    frames = [Frame()]
    for token in tokens:
        if token.kind == "text" or token.text not in OPENERS.keys() | CLOSERS:
            frames[-1].put(token.text, token.touches)
        elif token.text in OPENERS:
            frames.append(Frame(token.text, token.touches))
        else:
            close(frames, token.text, token.touches)
    while len(frames) > 1:
        close(frames, "", True)
    return frames[0].elements


def close(frames: list[Frame], closer: str, touches: bool) -> None:
    """Makes a group of what stands in the innermost open bracket, or of all so far where none is open."""
    frame = frames.pop()
    if not frames:
        frames.append(Frame())
    body = node_of(frame.elements) if frame.elements else None
    frames[-1].put(Group(frame.opener, body, closer, frame.spaced and bool(frame.opener), not touches), frame.touches)


def operator_of(element: Element) -> int | None:
    return RANK_OF.get(element.parts[0]) if len(element.parts) == 1 and isinstance(element.parts[0], str) else None


def node_of(elements: list[Tree]) -> Tree:
    """The tree of the elements of one bracket."""
    for mark in (";", ","):
        if any(element.ends_in(mark) for element in elements):
            return listed(elements, mark)
    if any(element.is_word("|") for element in elements):
        return alternatives(elements)
    return clause(elements)


def listed(elements: list[Tree], mark: str) -> Node:
    """The parts of a list; each but perhaps the last ends in the mark."""
    parts, part = [], []
    for element in elements:
        part.append(element)
        if element.ends_in(mark):
            parts.append(part)
            part = []
    parts += [part] if part else []
    return Node("list", [node_of_part(one) for one in parts], [])


def node_of_part(elements: list[Tree]) -> Tree:
    """The tree of a list's part, with its mark at its end."""
    *others, last = elements
    if last.parts[-1] not in (";", ","):
        return node_of(elements)
    inner = [Element(last.parts[:-1])] if len(last.parts) > 1 else []
    if not others + inner:
        return last
    return Node("marked", [node_of(others + inner)], [last.parts[-1] if inner else " " + last.parts[-1]])


def alternatives(elements: list[Tree]) -> Node:
    parts = [[]]
    for element in elements:
        if element.is_word("|"):
            parts.append([])
        parts[-1].append(element)
    return Node("alternatives", [alternative(part) for part in parts if part], [])


def alternative(elements: list[Tree]) -> Tree:
    if elements[0].is_word("|") and len(elements) > 1:
        return Node("prefixed", [clause(elements[1:])], ["|"])
    return clause(elements)


def clause(elements: list[Tree]) -> Tree:
    """`a = e`, `p ↦ e`, `x : T`, or a term."""
    for place, element in enumerate(elements):
        if element.is_word("λ", "let"):
            break
        if element.is_word("=", "↦", "←"):
            return define(elements, place)
    for place, element in enumerate(elements):
        if element.is_word("λ", "let", "→"):
            break
        if element.is_word(":"):
            return define(elements, place)
    return term(elements)


def define(elements: list[Tree], place: int) -> Node:
    left, right = elements[:place], elements[place + 1 :]
    return Node("define", [clause(left) if left else None, term(right) if right else None], [elements[place].parts[0]])


def ends_binding(elements: list[Tree]) -> int:
    """The place of the `in` that belongs to the `let` at the first place, or where there is none, the end."""
    depth = 0
    for place, element in enumerate(elements):
        if element.is_word("let"):
            depth += 1
        elif element.is_word("in"):
            depth -= 1
            if depth == 0:
                return place
    return len(elements)


def unmatched_in(elements: list[Tree]) -> int | None:
    """The place of the first `in` whose `let` stands before the piece."""
    depth = 0
    for place, element in enumerate(elements):
        if element.is_word("let"):
            depth += 1
        elif element.is_word("in", "where"):
            if depth == 0:
                return place
            depth -= 1
    return None


def term(elements: list[Tree]) -> Tree:
    place = unmatched_in(elements)
    if place is not None and place > 0:
        rest = elements[place + 1 :]
        first = Node("closed", [term(elements[:place])], [elements[place].parts[0]])
        return Node("steps", [first] + ([term(rest)] if rest else []), [])
    for place, element in enumerate(elements):
        if element.is_word("λ", "let"):
            tail = abstraction(elements[place:]) if element.is_word("λ") else binding(elements[place:])
            return operators(elements[:place] + [tail]) if place else tail
    return operators(elements)


def abstraction(elements: list[Tree]) -> Node:
    """`λ x y. e`"""
    for place, element in enumerate(elements):
        if element.ends_in("."):
            body = elements[place + 1 :]
            return Node("lambda", elements[: place + 1] + ([term(body)] if body else [None]), [])
    return Node("apply", elements, [])


def binding(elements: list[Tree]) -> Node:
    """`let x = e in b`; the piece may end before the `in` or behind it."""
    place = ends_binding(elements)
    bound, body = elements[1:place], elements[place + 1 :]
    has_in = place < len(elements)
    return Node("let", [clause(bound) if bound else None, term(body) if body else None], ["in"] if has_in else [])


def operators(elements: list[Tree]) -> Tree:
    """The operands of the operators that bind the least, or an application."""
    ranks = ranks_of(elements)
    found = [rank for rank in ranks if rank is not None]
    if not found or len(elements) == 1:
        return elements[0] if len(elements) == 1 else Node("apply", elements, [])
    operands, marks = [[]], []
    for element, rank in zip(elements, ranks):
        if rank == min(found):
            marks.append(element.parts[0])
            operands.append([])
        else:
            operands[-1].append(element)
    return Node("operators", [operators(one) if one else None for one in operands], marks)


def ranks_of(elements: list[Tree]) -> list[int | None]:
    """The rank of each element that is an operator; `then` and `else` are names where no `if` stands before them."""
    found, after_if = [], False
    for element in elements:
        is_plain = isinstance(element, Element)
        after_if = after_if or (is_plain and element.is_word("if"))
        is_name = is_plain and element.is_word("then", "else") and not after_if
        found.append(operator_of(element) if is_plain and not is_name else None)
    return found
