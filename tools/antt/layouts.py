"""Lays an .antt file out anew: where its lines break, how far in they begin, and on how many `use` lines names
stand."""
import re
from collections.abc import Sequence

from .items import Item, items_of, outline
from .printing import WIDTH, Printer
from .terms import Node, Tree, elements_of, node_of
from .tokens import Token, tokens_of, words_of

# Breaking a line can leave lines that are to be broken again.
MOST_PASSES = 8
# A line, or lines, that bring in names of a module.
USE = re.compile(r"^( *)((?:pub )?use [^\s{]+\.)\{([^}]*)\}$", re.M)


class Changed(Exception):
    """A new layout that would not say the same."""


def laid_out(text: str) -> str:
    """The text with its long lines broken."""
    for _ in range(MOST_PASSES):
        new = once(text)
        if new == text:
            break
        text = new
    return text


def checked(text: str) -> str:
    """The text laid out, after a comparison of its tokens and items with those before."""
    new = laid_out(text)
    if new == text:
        return text
    before, after = tokens_of(apart(text)), tokens_of(apart(new))
    if words_of(before) != words_of(after):
        raise Changed("its tokens would not be the same")
    if outline(items_of(before)) != outline(items_of(after)):
        raise Changed("its items would not be the same")
    return new


def names_of(use: re.Match[str]) -> list[str]:
    return [name.strip() for name in use[3].split(",") if name.strip()]


def apart(text: str) -> str:
    """The text with a `use` line for each name, since on how many lines they stand says nothing."""
    return USE.sub(lambda use: "\n".join(f"{use[1]}{use[2]}{{{name}}}" for name in names_of(use)), text)


def once(text: str) -> str:
    lines = text.split("\n")
    tokens = tokens_of(text)
    new = {}
    items = items_of(tokens)
    for item in items:
        begin, end = item.lines()
        whole = of_item(item, lines[begin:end])
        if whole is not None and not breaks_alike(whole, lines[begin:end]):
            new[begin] = (end, whole)
    return "\n".join(joined(lines, tokens, new, {item.lines()[0] for item in items}))


def joined(lines: Sequence[str], tokens: Sequence[Token], new: dict[int, tuple[int, list[str]]],
           begins: set[int]) -> list[str]:
    """The lines, with items that were laid out in their places, and each other line that is too long broken."""
    by_line = {}
    for token in tokens:
        by_line.setdefault(token.line, []).append(token)
    at, found = 0, []
    while at < len(lines):
        if at in new:
            at, whole = new[at]
            found += whole
        else:
            found += broken(lines[at], by_line.get(at, []), at in begins)
            at += 1
    return found


def of_item(item: Item, lines: Sequence[str]) -> list[str] | None:
    """A `use`, a header or a statement that does not fit on a line, laid out; None where its lines stay as they are."""
    role = item.role()
    if role == "other" or any(token.is_comment() for token in item.tokens) or shares_line(item, lines):
        return None
    node = node_of(elements_of(item.tokens))
    if item.column + len(node.flat()) <= WIDTH:
        return None
    if role not in ("statement", "use") and all(len(line) <= WIDTH for line in lines):
        return None
    if role == "use":
        return imports(lines)
    printer = Printer(item.column, begins_item=True)
    if role == "statement" and isinstance(node, Node) and node.kind == "define":
        statement(printer, node)
    else:
        printer.tree(node)
    return printer.done()


def breaks_alike(whole: Sequence[str], lines: Sequence[str]) -> bool:
    """Whether lines break where others do. How far in they begin is for `rt fmt` to say."""
    return [line.strip() for line in whole] == [line.strip() for line in lines]


def shares_line(item: Item, lines: Sequence[str]) -> bool:
    """Whether tokens of another item stand on the item's lines."""
    return len("".join(lines).replace(" ", "")) != sum(len(token.text.replace(" ", "")) for token in item.tokens)


def imports(lines: Sequence[str]) -> list[str] | None:
    """`use path.{names}` as lines that each bring in as many of the names as fit, or None where it has no names."""
    use = USE.fullmatch("\n".join(lines))
    if not use:
        return None
    head, found = f"{use[1]}{use[2]}{{", [[]]
    for name in names_of(use):
        if found[-1] and len(head + ", ".join([*found[-1], name]) + "}") > WIDTH:
            found.append([])
        found[-1].append(name)
    return [head + ", ".join(names) + "}" for names in found]


def statement(printer: Printer, node: Node) -> None:
    """`name : type`, its binders on the first line where they fit, and each premise and the conclusion on a line."""
    name, kind = node.children
    first = kind.children[0] if is_arrows(kind) else kind
    printer.put(name.flat() + " :")
    if printer.fits(" " + first.flat(), 0) or not is_arrows(kind) and has_head(printer, kind):
        printer.space()
    else:
        printer.next_line(printer.deeper())
    printer.tree(kind)


def is_arrows(kind: Tree) -> bool:
    return isinstance(kind, Node) and kind.kind == "operators" and kind.marks[0] == "→"


def has_head(printer: Printer, kind: Tree) -> bool:
    """Whether the first operand of a type that is no function's fits behind the name."""
    first = kind.children[0] if isinstance(kind, Node) and kind.kind == "operators" else None
    return first is not None and printer.fits(" " + first.flat(), 0)


def broken(line: str, tokens: Sequence[Token], begins_item: bool) -> list[str]:
    """The lines of one line."""
    if len(line) <= WIDTH or not tokens:
        return [line]
    if tokens[0].is_comment():
        return comment(line)
    if any(token.is_comment() for token in tokens):
        return [line]
    printer = Printer(tokens[0].column, begins_item)
    printer.tree(node_of(elements_of(tokens)))
    found = printer.done()
    return found if [one.strip() for one in found] != [line.strip()] else [line]


def comment(line: str) -> list[str]:
    """A comment, as many words on a line as fit."""
    indent = line[: len(line) - len(line.lstrip())]
    sign, *words = line.split()
    found = [indent + sign]
    for word in words:
        if len(found[-1]) + 1 + len(word) > WIDTH:
            found.append(indent + sign)
        found[-1] += " " + word
    return found
