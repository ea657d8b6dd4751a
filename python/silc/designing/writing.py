"""Sources of filters, as one would write them by hand."""
from collections.abc import Sequence

from silc.designing.forms import Form
from silc.designing.scaling import Cascade, Rounding, Shapes, Words
from silc.designing.shapes import Shape


COLUMNS = 100
FORM_NAMES = {Form.DIRECT: "direct form I", Form.TRANSPOSED: "transposed direct form II",
              Form.LATTICE: "a lattice with a ladder"}
NUMBERS = ("no", "one", "two", "three", "four", "five", "six", "seven", "eight", "nine", "ten")


def counted(number: int, noun: str) -> str:
    return f"{NUMBERS[number] if number < len(NUMBERS) else number} {noun}{'' if number == 1 else 's'}"


def wrapped(words: Sequence[str], before: str, after: str = "", columns: int = COLUMNS) -> str:
    """Words in lines that are not too long, each but the first after blanks."""
    lines, line = [], before
    for word in words:
        if len(line) + len(word) + 1 > columns and line.strip():
            lines.append(line.rstrip())
            line = " " * (len(before) - len(before.lstrip()) or 2)
        line += word + " "
    return "\n".join([*lines, line.rstrip() + after])


def comment(paragraphs: Sequence[str]) -> str:
    """A comment of sentences, a paragraph each."""
    lines = [wrapped(text.replace("*/", "* /").split(), "   ") for text in paragraphs]
    return "/* " + "\n".join(lines)[3:] + " */\n"


def table(name: str, shape: Shape, words: Sequence[int]) -> str:
    """A table of coefficients."""
    if len(words) == 1:
        return f"const {name} : {shape} = {shape.text(words[0])};\n"
    numbers = [shape.text(word) + "," for word in words]
    numbers[-1] = numbers[-1][:-1]
    head = f"const {name}[{len(words)}] : {shape} = ("
    if len(head) + len(" ".join(numbers)) + 2 <= COLUMNS:
        return f"{head}{' '.join(numbers)});\n"
    return f"{head}\n{wrapped(numbers, '  ')});\n"


def rounded(shapes: Shapes, sum_name: str) -> str:
    """A sum as a word of the signals' shape."""
    width, places = shapes.signal.width, shapes.signal.places
    if shapes.rounding is Rounding.NEAREST:
        return f"fix<{width},{places},round>({sum_name})"
    if shapes.rounding is Rounding.DOWN:
        return f"{shapes.signal}({sum_name})"
    return f"if {sum_name} < 0 -> -{shapes.signal}(-{sum_name}) || {shapes.signal}({sum_name}) fi"


def sum_type(shapes: Shapes) -> str:
    """The type of the sums: a product that has no place in it is rounded, or cut."""
    if shapes.is_exact() or shapes.of_products is Rounding.DOWN:
        return str(shapes.sum)
    return f"fix<{shapes.sum.width},{shapes.sum.places},round>"


def brought(shapes: Shapes) -> str:
    """What happens to a product that has no place in the sum."""
    return "cut" if shapes.of_products is Rounding.DOWN else "rounded"


def said_of_rounding(shapes: Shapes, products: int) -> str:
    if not shapes.is_exact():
        said = f"The {counted(products, 'product')} are {brought(shapes)} to {shapes.sum.places} bits after the point"
        return said if is_one_word(shapes) else f"{said}, and their sum to a word"
    said = f"The {counted(products, 'product')} are exact, and their sum is"
    return f"{said} the word" if is_one_word(shapes) else f"{said} rounded once"


def said_of_sums(shapes: Shapes) -> str:
    if shapes.is_exact():
        return "Each sum is a word" if is_one_word(shapes) else "Each sum is rounded once"
    said = f"Each product is {brought(shapes)} to {shapes.sum.places} bits after the point"
    return said if is_one_word(shapes) else f"{said}, and each sum to a word"


# Sections


def is_one_word(shapes: Shapes) -> bool:
    return shapes.is_one_word()


def result_type(shapes: Shapes) -> str:
    """The type of a result: with the products' rounding where it is the sum itself."""
    return sum_type(shapes) if is_one_word(shapes) else str(shapes.signal)


def rounded_lines(sum_name: str, word: str, terms: str, shapes: Shapes) -> list[str]:
    """The equations of a word that is a sum of products."""
    if is_one_word(shapes):
        return [f"{word} = {terms};"]
    return [f"{sum_name} = {terms};", f"{word} = {rounded(shapes, sum_name)};"]


def function(said: str, head: str, variables: Sequence[tuple[Sequence[str], object]], lines: Sequence[str]) -> str:
    """A function after a comment, with lines of variables of some types and of equations."""
    body = "".join(f"  var {', '.join(names)} : {of};\n" for names, of in variables if names)
    return f"/* {said}. */\n{head} =\nbegin\n{body}{''.join(f'  {line}' + chr(10) for line in lines)}end;\n"


def section_head(name: str, order: int, shapes: Shapes) -> str:
    signal, coefficient = shapes.signal, shapes.coefficient
    return (f"func {name}(x : {signal}, b[{order + 1}] : {coefficient}, a[{order}] : {coefficient}) "
            f"y : {result_type(shapes)}")


def direct_function(name: str, order: int, shapes: Shapes) -> str:
    terms = "b[0] * x" + "".join(f" + b[{k}] * x@{k}" for k in range(1, order + 1))
    terms += "".join(f" - a[{k}] * y@{k + 1}" for k in range(order))
    sums = [] if is_one_word(shapes) else ["sum"]
    return function(f"One section, in direct form I. {said_of_rounding(shapes, 2 * order + 1)}",
                    section_head(name, order, shapes), [(sums, sum_type(shapes))],
                    rounded_lines("sum", "y", terms, shapes))


def transposed_function(name: str, order: int, shapes: Shapes) -> str:
    kept = [f"w{k}" for k in range(1, order + 1)]
    lines = rounded_lines("sum", "y", f"b[0] * x + {kept[0]}@1", shapes)
    for k in range(1, order + 1):
        later = f" + w{k + 1}@1" if k < order else ""
        lines.append(f"w{k} = b[{k}] * x - a[{k - 1}] * y{later};")
    sums = [] if is_one_word(shapes) else ["sum"]
    return function(f"One section, in transposed direct form II. {said_of_rounding(shapes, 2 * order + 1)}",
                    section_head(name, order, shapes), [(sums + kept, sum_type(shapes))], lines)


def lattice_lines(order: int, shapes: Shapes) -> list[tuple[str, str]]:
    """The equations of a lattice, each a wide sum and the word that is made of it."""
    made = []
    for m in range(order, 0, -1):
        behind = f"g{m - 1}" if m > 1 else "f0"
        first = "gain * x" if m == order else f"{wide(shapes, f'f{m}')}"
        made.append((f"f{m - 1}", f"{first} - k[{m - 1}] * {behind}@1"))
    for m in range(1, order + 1):
        behind = f"g{m - 1}" if m > 1 else "f0"
        made.append((f"g{m}", f"k[{m - 1}] * f{m - 1} + {wide(shapes, behind + '@1')}"))
    ladder = " + ".join(f"v[{m}] * {f'g{m}' if m else 'f0'}" for m in range(order + 1))
    return [*made, ("y", ladder)]


def wide(shapes: Shapes, signal: str) -> str:
    """A signal as a word of the sums' shape."""
    return signal if is_one_word(shapes) else f"{shapes.sum}({signal})"


def lattice_function(name: str, order: int, shapes: Shapes) -> str:
    signal, coefficient = shapes.signal, shapes.coefficient
    equations = lattice_lines(order, shapes)
    words = [own for own, _ in equations if own != "y"]
    sums = [] if is_one_word(shapes) else [f"u{k}" for k in range(1, len(equations) + 1)]
    lines = []
    for k, (own, terms) in enumerate(equations, 1):
        lines += rounded_lines(f"u{k}", own, terms, shapes)
    head = (f"func {name}(x : {signal}, gain : {coefficient}, k[{order}] : {coefficient}, v[{order + 1}] : "
            f"{coefficient}) "
            f"y : {result_type(shapes)}")
    return function(f"One section: a lattice with the reflection coefficients k, and its ladder v. "
                    f"{said_of_sums(shapes)}", head, [(words, result_type(shapes)), (sums, sum_type(shapes))], lines)


FUNCTIONS = {Form.DIRECT: direct_function, Form.TRANSPOSED: transposed_function, Form.LATTICE: lattice_function}
NAMES = {1: "first_order", 2: "biquad"}


def tables_of(number: int, words: Words, shape: Shape) -> str:
    """The tables of a section's coefficients."""
    if words.form is Form.LATTICE:
        return (table(f"gain{number}", shape, [words.gain]) + array(f"k{number}", shape, words.k)
                + array(f"v{number}", shape, words.v))
    return array(f"b{number}", shape, words.b) + array(f"a{number}", shape, words.a)


def array(name: str, shape: Shape, words: Sequence[int]) -> str:
    """A table that is an array, of one word too."""
    return table(name, shape, words) if len(words) > 1 else f"const {name}[1] : {shape} = {shape.text(words[0])};\n"


def called(number: int, words: Words) -> str:
    """The call of a section's function."""
    order = len(words.k or words.a)
    tables = f"gain{number}, k{number}, v{number}" if words.form is Form.LATTICE else f"b{number}, a{number}"
    return f"s[{number}] = {NAMES[order]}(s[{number - 1}], {tables});"


def input_signal(shapes: Shapes, word: str = "x") -> str:
    """The input as a signal."""
    if shapes.input == shapes.signal:
        return word
    mode = ",round" if shapes.signal.places < shapes.input.places and shapes.has_headroom() else ""
    return f"fix<{shapes.signal.width},{shapes.signal.places}{mode}>({word})"


def cascade_parts(cascade: Cascade, form: Form, name: str = "main") -> tuple[str, str, str]:
    """The tables of a cascade of sections, the functions of a section, and the function that calls them in a row."""
    shapes, sections = cascade.shapes, [words for words, _ in cascade.made]
    tables = "".join(tables_of(number, words, shapes.coefficient) for number, words in enumerate(sections, 1))
    calls = "".join(f"  {called(number, words)}\n" for number, words in enumerate(sections, 1))
    whole = (f"func {name}(x : {shapes.input}) y : {shapes.signal} =\nbegin\n  var s[{len(sections) + 1}] : "
             f"{shapes.signal};\n"
             f"  s[0] = {input_signal(shapes)};\n{calls}  y = s[{len(sections)}];\nend;\n")
    return tables, section_functions(sections, form, shapes), whole


def section_functions(sections: Sequence[Words], form: Form, shapes: Shapes) -> str:
    """The functions of sections, one for each order."""
    orders = sorted({len(words.k or words.a) for words in sections}, reverse=True)
    return "\n".join(FUNCTIONS[form](NAMES[order], order, shapes) for order in orders)


def cascade_source(said: Sequence[str], cascade: Cascade, form: Form) -> str:
    """The source of a cascade of sections, after the comment."""
    tables, functions, main = cascade_parts(cascade, form)
    return f"{comment(said)}{tables}\n{functions}\n{main}"


# FIR filters


def fir_source(said: Sequence[str], shapes: Shapes, words: Sequence[int]) -> str:
    """The source of a FIR filter, after the comment."""
    return f"{comment(said)}{array('h', shapes.coefficient, words)}\n{fir_function('main', shapes, words)}"


def fir_function(name: str, shapes: Shapes, words: Sequence[int]) -> str:
    """The function of a FIR filter with the taps h."""
    last = len(words)
    exact = "exact here" if shapes.is_exact() else f"{brought(shapes)} to {shapes.sum.places} bits after the point"
    once = "is the word" if is_one_word(shapes) else "is rounded once"
    return (f"func {name}(x : {shapes.input}) y : {shapes.signal} =\nbegin\n"
            f"  /* The products are {exact}, and the sum of all {last} {once}. */\n"
            f"  var s[{last + 1}] : {sum_type(shapes)};\n  s[0] = 0.0;\n"
            f"  (k : 0 .. {last - 1}) :: begin\n    s[k+1] = s[k] + h[k] * x@k;\n  end;\n"
            f"  y = {f's[{last}]' if is_one_word(shapes) else rounded(shapes, f's[{last}]')};\nend;\n")
