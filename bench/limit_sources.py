"""Sources and datapath files at the limits of what may be read, and what is read the slowest or with the most
memory."""
from collections.abc import Callable, Iterator, Sequence
from typing import TypeAlias

from sources import chain, held, taps

# What makes a text when it is asked for.
Text: TypeAlias = Callable[[], str]

SIZE = 1 << 20
NUMBER = "0.12345678901234567"
FUNCTION = "func f{0}(x : fix<16,8>, b : bool) y : fix<16,8> = begin y = {1}; end;\n"
MAIN = "func main(x : fix<16,8>) y : fix<16,8> = begin y = x; end;\n"
# Expressions with as many tokens that count as there may be.
SUM = "x" + " + x" * 255
NEGATIONS = "-" * 255 + "x"
CHOICES = "if b -> x || " * 85 + "x" + " fi" * 85
CASTS = "x * fix<16,8>(" * 50 + "x" + ")" * 50
PRODUCTS = "fix<16,8>(" + " + ".join(["x * x"] * 125) + ")"


def around(head: str, one: Callable[[int], str], foot: str) -> str:
    """As often as it fits, with its number."""
    parts, room, number = [head], SIZE - len(head) - len(foot), 0
    while len(text := one(number)) <= room:
        parts.append(text)
        room -= len(text)
        number += 1
    return "".join(parts) + foot


def functions(expression: str) -> str:
    """Functions that are not called, so that they count nothing of the load. Their types are judged."""
    return around(MAIN, lambda number: FUNCTION.format(number, expression), "")


def long_sources() -> Iterator[tuple[str, Text, int]]:
    """What a source of 1 MiB has, its text, and the code with which it is compiled."""
    for content, expression in (("sums", SUM), ("negations", NEGATIONS), ("choices", CHOICES), ("casts", CASTS),
                                ("products", PRODUCTS), ("names", "x")):
        yield f"functions that nothing calls, of {content}", lambda expression=expression: functions(expression), 0
    yield "a comment", lambda: around(MAIN + "/*", lambda _: "*", "*/"), 0
    yield "a comment without an end", lambda: around("/*", lambda _: "*", ""), 4
    yield "tables of one number", lambda: around(MAIN, lambda number: f"const c{number}:fix<8,0>=1;", ""), 0
    yield "a table of too many numbers", lambda: around("const c[8192]:fix<8,0>=(1", lambda _: ",1", ");"), 4
    yield "numbers of 18 digits", lambda: around("const c[8192]:fix<8,0>=(1", lambda _: f",{NUMBER}", ");"), 4
    yield "equations for one signal", lambda: around("func main(x : bool) y : bool = begin ", lambda _: "y=x;",
                                                     "end;"), 4
    yield "signals of one function", lambda: around(
        MAIN + "func f(x : bool) y : bool = begin var ", lambda number: f"s{number},", "z : bool; end;"), 0
    yield "names of 1,000 letters", lambda: around(MAIN, lambda number: f"const {'a' * 1000}{number}:fix<8,0>=1;",
                                                   ""), 0
    half = "x" * (SIZE // 2 - 30)
    yield "two names of half a MiB", lambda: f"func main({half} : bool) y : bool = begin y = x; end;", 4
    yield "brackets", lambda: around("func main(x : bool) y : bool = begin y = ", lambda _: "(", ""), 4
    yield "loops in one another", lambda: around("func main(x : bool) y : bool = begin ",
                                                 lambda number: f"(i{number}:0..0)::begin ", ""), 4
    yield "calls to the function before", lambda: around(
        "func f(x : bool) y : bool = begin y = x; end;\nfunc g0(x : bool) y : bool = begin y = f(x); end;\n",
        lambda number: f"func g{number + 1}(x : bool) y : bool = begin y = g{number}(x); end;\n", MAIN), 0
    calls = MAIN + "func f(x : bool) y : bool = begin y = x; end;\nfunc g(x : bool) y : bool = begin "
    yield "calls in one function", lambda: around(calls, lambda _: "y=f(x);", "end;"), 0


def full_loads() -> Iterator[tuple[str, Text, int, int]]:
    """What a source of nearly the whole load has, its text, the hold of its datapath, and the code."""
    yield "a chain", lambda: chain(8000), 0, 0
    yield "a chain on words that stay in registers", lambda: held(7992), 3, 0
    yield "a filter of 1,000 taps", lambda: taps(1000), 0, 0
    yield "copies", lambda: copies(4090), 0, 0
    yield "a loop without a delay", lambda: copies(4090, "s[4090]"), 0, 4
    yield "past words", lambda: past_words(8), 0, 0
    yield "elements that all read one", lambda: fan_out(2700), 0, 0
    yield "elements that all have a delay line", lambda: delay_lines(800), 0, 0
    yield "truth values", lambda: truths(1300), 0, 0
    yield "choices", lambda: choices(900), 0, 0


def copies(count: int, first: str = "x") -> str:
    return (f"func main(x : fix<16,8>) y : fix<16,8> = begin var s[{count + 1}] : fix<16,8>;\ns[0] = {first};\n"
            f"(i : 1 .. {count}) :: begin s[i] = s[i - 1]; end; y = s[{count}]; end;\n")


def past_words(count: int) -> str:
    """Each of so many signals with 1,000 words of its past, added over all delays that are multiples of 7."""
    names = [f"v{number}" for number in range(count)]
    equations = "".join(f"{name} = x;\n(i{name} : 1 .. 500) :: begin {name}@@i{name} = 1; end;\n" for name in names)
    sums = " + ".join(f"{name}@{7 * number + 3}" for number, name in enumerate(names))
    locals_ = f"var {', '.join(names)} : fix<16,8>;\n"
    return f"func main(x : fix<16,8>) y : fix<16,8> = begin {locals_}{equations}y = {sums};\nend;\n"


def fan_out(count: int) -> str:
    """Sums that all read one word, and one of all of them."""
    return (f"func main(x : fix<16,8>) y : fix<16,8> = begin var v : fix<16,8>; var s[{count}] : fix<16,8>;\nv = x + "
            f"1;\n"
            f"s[0] = v; (i : 1 .. {count - 1}) :: begin s[i] = s[i - 1] + v; end; y = s[{count - 1}]; end;\n")


def delay_lines(count: int) -> str:
    """Words that are each read four samples later."""
    return (f"func main(x : fix<16,8>) y : fix<16,8> = begin var s[{count}], t[{count}] : fix<16,8>;\ns[0] = x + 1;\n"
            f"t[0] = x;\n(i : 1 .. {count - 1}) :: begin s[i] = s[i - 1] + x; t[i] = t[i - 1] + s[i]@4; end;\n"
            f"y = t[{count - 1}]; end;\n")


def truths(count: int) -> str:
    return (f"func main(x : fix<16,8>) y : bool = begin var b[{count}] : bool;\nb[0] = x > 0;\n"
            f"(i : 1 .. {count - 1}) :: begin b[i] = b[i - 1] & x < 5 | !b[i - 1]; end; y = b[{count - 1}]; end;\n")


def choices(count: int) -> str:
    return (f"func main(x : fix<16,8>) y : fix<16,8> = begin var s[{count}] : fix<16,8>;\ns[0] = x;\n"
            f"(i : 1 .. {count - 1}) :: begin "
            f"s[i] = if s[i - 1] > x -> s[i - 1] - x || s[i - 1] < 0 -> -x || s[i - 1] + 1 fi; end; y = "
            f"s[{count - 1}]; end;\n")


def wide_sums(count: int) -> str:
    """Sums that need no other, and at the end a sum of all."""
    return (f"func main(x : fix<16,8>) y : fix<16,8> = begin var s[{count}], t[{count}] : fix<16,8>;\n"
            f"(i : 0 .. {count - 1}) :: begin s[i] = x + x; end;\nt[0] = s[0];\n"
            f"(j : 1 .. {count - 1}) :: begin t[j] = t[j - 1] + s[j]; end; y = t[{count - 1}]; end;\n")


def nested_loops() -> Iterator[tuple[str, Text]]:
    yield "of two turns each, eleven deep, in five of one turn", lambda: nested([1] * 5 + [2] * 11, "")
    yield ("of one turn each, seven deep, in nine of two, around an equation",
           lambda: nested([2] * 9 + [1] * 7, "equation"))
    yield "of one turn each, in a loop of 500", lambda: nested([500] + [1] * 15, "")


def nested(turns: Sequence[int], inside: str) -> str:
    """Loops inside one another with so many turns; the innermost defines an element, where something is inside."""
    names = [f"i{number}" for number in range(len(turns))]
    place, weight = [], 1
    for name, count in zip(reversed(names), reversed(turns)):
        if count > 1:
            place.append(f"{weight} * {name}")
            weight *= count
    body = f"s[{' + '.join(place)}] = x;" if inside else ""
    loops = "".join(f"({name} : 0 .. {count - 1}) :: begin\n" for name, count in zip(names, turns))
    local = f"var s[{weight}] : bool;\n" if inside else ""
    return f"func main(x : bool) y : bool = begin {local}y = x;\n{loops}{body}{'end; ' * len(turns)}end;\n"


def deep_calls() -> Iterator[tuple[str, Text]]:
    yield "arrays of 60 words handed on", lambda: handed_on(60)
    yield "a function called twice by each of ten above", lambda: doubled(10)


def handed_on(count: int) -> str:
    """64 calls in one another, each of which hands an array on."""
    kinds = f"(x[{count}] : fix<16,8>) y[{count}] : fix<16,8>"
    parts = [f"func f64{kinds} = begin (i : 0 .. {count - 1}) :: begin y[i] = x[i] + 1; end; end;\n"]
    parts += [f"func f{number}{kinds} = begin y = f{number + 1}(x); end;\n" for number in range(1, 64)]
    main = (f"func main(x : fix<16,8>) y : fix<16,8> = begin var a[{count}], b[{count}] : fix<16,8>; "
            f"(i : 0 .. {count - 1}) :: begin a[i] = x@i; end; b = f1(a); y = b[0] + b[{count - 1}]; end;\n")
    return "".join(parts) + main


def doubled(depth: int) -> str:
    """A chain of 64 calls, of which the last ones call the next function twice."""
    kinds = "(x : fix<16,8>) y : fix<16,8>"
    parts = [f"func f64{kinds} = begin y = x + 1; end;\n"]
    for number in range(1, 64):
        one = f"y = f{number + 1}(x);"
        two = f"var a : fix<16,8>; a = f{number + 1}(x); y = f{number + 1}(a);"
        parts.append(f"func f{number}{kinds} = begin {two if number >= 64 - depth else one} end;\n")
    return "".join(parts) + "func main(x : fix<16,8>) y : fix<16,8> = begin y = f1(x); end;\n"


def long_datapaths() -> Iterator[tuple[str, Text, int]]:
    """What a datapath file of 1 MiB has, its text, and the code."""
    head = "period = 16\nword = 8\n"
    plain = head + ('[[unit]]\nname = "inp"\nkind = "in"\n[[unit]]\nname = "outp"\nkind = "out"\nfiles = [1]\n'
                    '[[bus]]\nname = "b"\nfrom = ["inp"]\nto = ["outp.0"]\n')
    yield "a comment", lambda: around(plain + "#", lambda _: "#", "\n"), 0
    yield "arrays in one another", lambda: around("a = ", lambda _: "[", ""), 5
    yield "tables in one another", lambda: around("a = ", lambda _: "{a=", ""), 5
    yield "a key of many parts", lambda: around("a", lambda _: ".a", " = 1\n"), 5
    yield "tables of a key of 1,000 parts", lambda: around("", lambda number: f"[{'a.' * 1000}k{number}]\n", ""), 5
    yield "keys", lambda: around(head, lambda number: f"k{number}=1\n", ""), 5
    yield "units", lambda: around(head, lambda number: f'[[unit]]\nname="u{number}"\nkind="rom"\n', ""), 5
    from_ = plain.rpartition("to")[0].replace('["inp"]\n', '["inp"')
    yield "entries of `from`", lambda: around(from_, lambda _: ',"inp"', ']\nto = []\n'), 5
    yield "a text", lambda: around('a = "', lambda _: "x", '"\n'), 5
    yield "numbers of files", lambda: around(head + '[[unit]]\nname="o"\nkind="out"\nfiles=[1', lambda _: ",1",
                                             "]\n"), 5
