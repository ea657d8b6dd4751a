"""The items of an .antt file: its declarations, clauses, fields and headers, by the language's layout rule.

`where`, `mutual` and `do` open a block, whose column is that of the next token. Outside brackets a line at that column
begins the next item of the block, and a line left of it ends the block.
"""
from collections.abc import Iterable, Sequence
from dataclasses import dataclass, field

from .tokens import CLOSERS, OPENERS, Token

BLOCKS = {"where", "mutual", "do"}
MARKS = {"pub", "abbrev", "unfoldable", "pattern", "axiom"}
HEADERS = {"module", "data", "record"}


@dataclass
class Item:
    """An item: the column and the depth of the block that it stands in, and its tokens, without those of blocks in
    it."""
    column: int
    depth: int
    tokens: list[Token] = field(default_factory=list)

    def words(self) -> list[str]:
        return [token.text for token in self.tokens if not token.is_comment()]

    def lines(self) -> tuple[int, int]:
        """The first line, and the one behind the last."""
        return self.tokens[0].line, self.tokens[-1].line + 1

    def role(self) -> str:
        """What the item is: `use`, `unfolding`, `header`, `statement` or `other`."""
        words = self.words()
        while words and words[0] in MARKS:
            words = words[1:]
        if not words:
            return "other"
        if words[0] in HEADERS:
            return "header"
        if words[0] in ("use", "unfolding"):
            return words[0]
        return "statement" if states(words) else "other"


def states(words: Sequence[str]) -> bool:
    """Whether the words are names, perhaps with levels, and then a colon: `name {ℓ} : type`."""
    depth = 0
    for place, word in enumerate(words):
        if word in OPENERS:
            depth += 1
        elif word in CLOSERS:
            depth -= 1
        elif depth == 0 and word == ":":
            return place > 0
        if word in ("=", "↦", "λ", "let", "←", "|", ";") or (depth and words[place] == "("):
            return False
    return False


@dataclass
class Block:
    column: int
    brackets: int
    item: Item | None = None


class Reader:
    """Takes the tokens one by one, and keeps the blocks that are open."""

    def __init__(self) -> None:
        self.items, self.blocks, self.brackets, self.opens = [], [Block(0, 0)], 0, False

    def read(self, token: Token) -> None:
        if self.opens:
            self.open_block(token)
        else:
            self.close_blocks(token)
        self.opens = token.text in BLOCKS and token.kind == "name"
        self.block().item.tokens.append(token)
        if token.text in OPENERS:
            self.brackets += 1
        elif token.text in CLOSERS:
            self.brackets -= 1

    def block(self) -> Block:
        return self.blocks[-1]

    def begin(self, column: int) -> None:
        self.block().item = Item(column, len(self.blocks))
        self.items.append(self.block().item)

    def open_block(self, token: Token) -> None:
        if token.column > self.block().column:
            self.blocks.append(Block(token.column, self.brackets))
            self.begin(token.column)
        else:
            self.close_blocks(token)

    def close_blocks(self, token: Token) -> None:
        """Ends the blocks that the token stands left of, or whose bracket it closes, and begins an item at their
        column."""
        while len(self.blocks) > 1 and self.ends(token):
            self.blocks.pop()
        if self.block().item is None or self.is_at_column(token):
            self.begin(token.column)

    def ends(self, token: Token) -> bool:
        if token.text in CLOSERS and self.brackets == self.block().brackets:
            return True
        return token.begins_line and self.brackets == self.block().brackets and token.column < self.block().column

    def is_at_column(self, token: Token) -> bool:
        return token.begins_line and self.brackets == self.block().brackets and token.column == self.block().column


def items_of(tokens: Sequence[Token]) -> list[Item]:
    """The items, in the order in which they begin. A comment on a line of its own between items belongs to none."""
    reader = Reader()
    for place, token in enumerate(tokens):
        if not is_apart(tokens, place, reader):
            reader.read(token)
    return reader.items


def is_apart(tokens: Sequence[Token], place: int, reader: Reader) -> bool:
    """Whether a comment stands outside of items: outside brackets, where the next token begins an item or a block."""
    if not tokens[place].is_comment():
        return False
    after = next((token for token in tokens[place:] if not token.is_comment()), None)
    return after is None or reader.opens or reader.block().item is None or (
        reader.brackets == reader.block().brackets and after.column <= reader.block().column)


def outline(items: Iterable[Item]) -> list[tuple[int, tuple[str, ...]]]:
    """The blocks and items without their places, by which two texts are compared."""
    return [(item.depth, tuple(item.words())) for item in items]
