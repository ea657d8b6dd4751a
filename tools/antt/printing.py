"""Prints a tree within a number of columns, by breaking it at its outermost boundaries.

What does not fit goes on four columns further in than the line on which it began, the fields of a record and the cases
of an `elim` two. An application, and a chain of operators or `let`s, that begins its line goes on in its own column.
"""
from collections.abc import Sequence

from .terms import RANK_OF, SPREADS, Element, Group, Node, Tree

WIDTH, DEEPER, FIELDS, SHORT, NARROW = 120, 4, 2, 16, 8


class Printer:
    """Writes lines. `tail` is the number of columns that what follows a tree on its line needs."""

    def __init__(self, column: int, begins_item: bool) -> None:
        self.lines, self.line, self.indent, self.begins_item = [], " " * column, column, begins_item

    # ---- lines

    def put(self, text: str) -> None:
        self.line += text

    def space(self) -> None:
        if self.line.strip():
            self.line += " "

    def next_line(self, indent: int) -> None:
        if self.line.strip():
            self.lines.append(self.line.rstrip())
        self.line, self.indent = " " * indent, indent

    def done(self) -> list[str]:
        self.lines.append(self.line.rstrip())
        return self.lines

    def column(self) -> int:
        return len(self.line)

    def fits(self, text: str, tail: int) -> bool:
        return len(self.line) + len(text) + tail <= WIDTH

    def begins_line(self) -> bool:
        """Whether nothing but brackets stands before here, and what follows may go on in this column."""
        return not self.line.strip(" ([{|") and not (self.begins_item and not self.lines
                                                     and self.column() == self.indent)

    def deeper(self) -> int:
        return self.indent + DEEPER

    # ---- trees

    def tree(self, tree: Tree, tail: int = 0) -> None:
        if self.fits(tree.flat(), tail):
            self.put(tree.flat())
        elif isinstance(tree, Element):
            self.element(tree, tail)
        else:
            getattr(self, tree.kind.replace("lambda", "abstraction").replace("list", "parts"))(tree, tail)

    def element(self, element: Element, tail: int) -> None:
        for place, part in enumerate(element.parts):
            behind = sum(len(other) if isinstance(other, str) else 1 for other in element.parts[place + 1 :])
            if isinstance(part, str):
                self.put(part)
            else:
                self.group(part, tail + behind)

    def group(self, group: Group, tail: int) -> None:
        """A bracket; a record's fields and an `elim`'s cases stand on lines of their own."""
        if self.fits(group.flat(), tail):
            self.put(group.flat())
            return
        self.put(group.opener)
        if group.body is None:
            self.put(" " * group.spaced_end + group.closer)
        elif stands_apart(group):
            self.block(group)
        else:
            self.put(" " * group.spaced)
            self.tree(group.body, tail + len(group.closer) + group.spaced_end)
            self.put(" " * group.spaced_end + group.closer)

    def block(self, group: Group) -> None:
        indent = self.indent
        for child in group.body.children:
            self.next_line(indent + FIELDS)
            self.tree(child)
        if group.closer:
            self.next_line(indent)
            self.put(group.closer)

    def parts(self, node: Node, tail: int) -> None:
        """The parts of a list: fields a line each, and of a tuple as many on a line as fit."""
        indent = self.column() if self.begins_line() else self.deeper()
        one_a_line = any(child.flat().endswith(";") for child in node.children)
        for place, child in enumerate(node.children):
            behind = tail if place == len(node.children) - 1 else 0
            self.item(child, behind, place, indent, one_a_line)

    def item(self, child: Tree, tail: int, place: int, indent: int, apart: bool) -> None:
        """One of several children: behind the one before it, if that was one line and this fits, else on the next
        line."""
        if place == 0:
            self.lines_before = len(self.lines)
        elif apart or len(self.lines) > self.lines_before or not self.fits(" " + child.flat(), tail):
            self.next_line(indent)
        else:
            self.space()
        self.lines_before = len(self.lines)
        self.tree(child, tail)

    def marked(self, node: Node, tail: int) -> None:
        self.tree(node.children[0], tail + len(node.marks[0]))
        self.put(node.marks[0])

    def closed(self, node: Node, tail: int) -> None:
        self.tree(node.children[0], tail + len(node.marks[0]) + 1)
        self.put(" " + node.marks[0])

    def steps(self, node: Node, tail: int) -> None:
        indent = self.indent
        for place, child in enumerate(node.children):
            if place:
                self.next_line(indent)
            self.tree(child, tail if place else 0)

    def alternatives(self, node: Node, tail: int) -> None:
        indent = self.column() if self.begins_line() else self.deeper()
        for place, child in enumerate(node.children):
            if place:
                self.next_line(indent)
            self.tree(child, tail if place == len(node.children) - 1 else 0)

    def prefixed(self, node: Node, tail: int) -> None:
        self.put("| ")
        self.tree(node.children[0], tail)

    def define(self, node: Node, tail: int) -> None:
        """`a = e`: what does not fit behind the sign goes to the next line, unless it begins with what may stand
        there."""
        left, right = node.children
        sign, deeper = node.marks[0], self.deeper()
        if left:
            self.tree(left, len(sign) + 1 + (len(right.flat()) + 1 + tail if is_short(right) else 0))
            self.space()
        self.put(sign)
        if right is None:
            return
        if self.fits(" " + right.flat(), tail) or sign == ":" or self.takes_define(right, deeper, tail):
            self.space()
        else:
            self.next_line(deeper)
        self.tree(right, tail)

    def takes_define(self, right: Tree, deeper: int, tail: int) -> bool:
        """Whether the right side begins behind the sign; a record or cases that fit on the next line stand there."""
        is_lambda = isinstance(right, Node) and right.kind == "lambda"
        return self.takes_head(right) and (is_lambda or deeper + len(right.flat()) + tail > WIDTH)

    def takes_head(self, tree: Tree) -> bool:
        """Whether a tree that is to be broken may begin on this line: its first line ends in `{`, `[` or `λ x.`."""
        head = head_of(tree)
        return head is not None and self.fits(" " + head, 0)

    def abstraction(self, node: Node, tail: int) -> None:
        *binders, body = node.children
        deeper = self.deeper()
        for place, binder in enumerate(binders):
            self.item(binder, 0, place, deeper, False)
        if body is None:
            return
        if self.fits(" " + body.flat(), tail) or self.takes_block(body):
            self.space()
        else:
            self.next_line(deeper)
        self.tree(body, tail)

    def takes_block(self, tree: Tree) -> bool:
        return not isinstance(tree, Node) or tree.kind != "lambda" and self.takes_head(tree)

    def let(self, node: Node, tail: int) -> None:
        """Each binding on a line of its own, and the body in the same column."""
        if not self.begins_line() and self.line.endswith(" "):
            self.next_line(self.deeper())
        bound, body = node.children
        column = self.column() if self.begins_line() else self.deeper()
        self.put("let")
        if bound:
            self.space()
            self.tree(bound, (3 if node.marks else 0))
        if node.marks:
            self.put(" in")
        if body is None:
            return
        self.next_line(column)
        if isinstance(body, Node) and body.kind == "let":
            self.let(body, tail)
        else:
            self.tree(body, tail)

    def operators(self, node: Node, tail: int) -> None:
        """Each operator before its right operand, which stands on the next line where it does not fit."""
        indent = self.column() if self.begins_line() else self.deeper()
        apart = RANK_OF[node.marks[0]] in SPREADS
        first, *others = node.children
        if first:
            self.tree(first, 0)
        lines = len(self.lines)
        for place, (mark, operand) in enumerate(zip(node.marks, others)):
            behind = tail if place == len(others) - 1 else 0
            text = mark + (" " + operand.flat() if operand else "")
            begins = place == 0 and first is None
            if not begins and (apart or len(self.lines) > lines or not self.fits(" " + text, behind)):
                self.next_line(indent)
            elif not begins:
                self.space()
            lines = len(self.lines)
            self.put(mark)
            if operand:
                self.space()
                self.tree(operand, behind)

    def apply(self, node: Node, tail: int) -> None:
        """A function and its arguments, as many on a line as fit."""
        deeper = self.column() if self.begins_line() else self.deeper()
        last = len(node.children) - 1
        for place, child in enumerate(node.children):
            behind = tail if place == last else 0
            if place and (is_of_record(node.children, place) or self.stays(child, behind, deeper)):
                self.space()
                self.tree(child, behind)
                self.lines_before = -1
            else:
                self.item(child, behind, place, deeper, False)

    def stays(self, child: Tree, tail: int, deeper: int) -> bool:
        """Whether an argument that no line holds is begun on this line."""
        if self.fits(" " + child.flat(), tail) or deeper + len(child.flat()) + tail <= WIDTH:
            return False
        if self.column() - deeper < NARROW:
            return True
        if isinstance(child, Node):
            return child.kind == "lambda" and self.takes_head(child)
        group = child.group()
        return group is not None and (stands_apart(group) or self.takes_head(child)) and self.fits(" {", 0)


def is_of_record(children: Sequence[Tree | None], place: int) -> bool:
    """Whether an argument is the braces of `record { .. }` or `record r { .. }`."""
    before = children[max(0, place - 2) : place]
    return isinstance(children[place], Element) and children[place].group() is not None \
        and any(isinstance(child, Element) and child.is_word("record") for child in before)


def stands_apart(group: Group) -> bool:
    """Whether a bracket holds fields or cases, with spaces inside, so that each may stand on a line."""
    body = group.body
    if not isinstance(body, Node) or not (group.spaced and (group.spaced_end or not group.closer)):
        return False
    has_fields = any(child.flat().endswith(";") or is_field(child) for child in body.children)
    return group.opener == "[" or (group.opener == "{" and has_fields)


def is_short(tree: Tree | None) -> bool:
    """Whether a tree is to stay on its line, as the universe of a record is."""
    return tree is not None and len(tree.flat()) <= SHORT


def is_field(child: Tree) -> bool:
    return isinstance(child, Node) and child.kind == "define" and child.marks[0] == "="


def head_of(tree: Tree) -> str | None:
    """How a tree begins whose further lines stand deeper: up to `{`, `[` or the dot of a `λ`; else None."""
    if isinstance(tree, Element):
        group = tree.group()
        if group is None or len(tree.parts) > 1:
            return None
        if stands_apart(group):
            return group.opener
        inner = head_of(group.body) if isinstance(group.body, (Node, Element)) and group.opener == "(" else None
        return None if inner is None or not group.body or group.body.kind != "lambda" else group.opener + inner
    if tree.kind == "lambda":
        return " ".join(child.flat() for child in tree.children[:-1])
    if tree.kind == "apply" and isinstance(tree.children[-1], Element):
        group = tree.children[-1].group()
        if group is not None and stands_apart(group):
            return " ".join(child.flat() for child in tree.children[:-1]) + " " + group.opener
    return None
