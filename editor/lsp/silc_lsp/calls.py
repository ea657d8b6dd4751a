"""The function that is called around a place, and the argument there."""
from silc_lsp.names import FUNCTION, PARAMETER, Names, Symbol


def call_at(names: Names, offset: int) -> tuple[Symbol, int] | None:
    """The function of the innermost call that is open at a place, and how many arguments are before it."""
    opened, in_type = [], False
    for at, token in enumerate(names.tokens):
        if token.end > offset:
            break
        in_type = (in_type or token.text == "fix") and token.text != ">"
        if token.text == ";":
            opened = []
        elif token.text == "(":
            opened.append([at, 0])
        elif token.text == ")" and opened:
            opened.pop()
        elif token.text == "," and opened and not in_type:
            opened[-1][1] += 1
    for at, count in reversed(opened):
        symbol = called(names, at)
        if symbol:
            return symbol, count
    return None


def called(names: Names, at: int) -> Symbol | None:
    """The function whose call has this parenthesis, where one is called."""
    name = names.tokens[at - 1] if at else None
    if name is None or not name.is_name() or at > 1 and names.tokens[at - 2].text == "func":
        return None
    symbol = names.symbol_of(name)
    return symbol if symbol and symbol.kind == FUNCTION else None


def signature(names: Names, offset: int) -> dict | None:
    """What the protocol has of the call at a place."""
    found = call_at(names, offset)
    if not found:
        return None
    symbol, count = found
    params = [inner for inner in names.symbols if inner.owner is symbol and inner.kind == PARAMETER]
    label = symbol.told()
    shown = [f"{one.name}{''.join(f'[{dim}]' for dim in one.dims)} : {one.of}" for one in params]
    labels = [text if text in label else one.name for text, one in zip(shown, params)]
    return {"signatures": [{"label": label, "parameters": [{"label": text} for text in labels]}], "activeSignature": 0,
            "activeParameter": min(count, max(len(params) - 1, 0))}
