"""A program as a linear system with inputs and errors: of each element the terms, a constant, and the errors of its
rounding.

Words are raw, so a step is 1. What rounds or truncates is exact but for an error, of which it is known between what it
lies. What is not linear (a choice, a truth value, a product of two signals, an operation that saturates) is a node
without terms, whose word may be any of a range.
"""
from collections.abc import Callable
from dataclasses import dataclass, field, replace
from fractions import Fraction

from silc.designing.flat import Flat, FlatElement, Operation

Read = tuple[int, int]
Range = tuple[int, int]
LINEAR = ("add", "sub", "neg", "pass", "mul")
WHOLE: dict[str, Callable[..., int]] = {
    "add": int.__add__, "sub": int.__sub__, "neg": int.__neg__, "pass": int.__pos__, "mul": int.__mul__,
    "lt": lambda a, b: int(a < b), "le": lambda a, b: int(a <= b), "eq": lambda a, b: int(a == b),
    "ne": lambda a, b: int(a != b), "and": int.__and__, "or": int.__or__, "not": lambda a: 1 - a,
    "sel": lambda c, a, b: a if c else b}


def range_of(width: int) -> Range:
    """The least and the greatest word of so many bits."""
    return -(1 << width - 1), (1 << width - 1) - 1


def shifted(word: int, operation: Operation) -> int:
    """An exact result without the bits that fall off, before it is brought to its width."""
    shift = operation.shift
    if shift <= 0:
        return word << -shift
    return word + ((1 << shift - 1) if "round" in operation.mode else 0) >> shift


def fitted(word: int, operation: Operation) -> int:
    """A result in its width."""
    least, greatest = range_of(operation.width)
    if "sat" in operation.mode:
        return max(least, min(greatest, word))
    return (word - least) % (1 << operation.width) + least


def computed(operation: Operation, words: list[int]) -> int:
    """What an operation makes of words."""
    made = WHOLE[operation.name](*words)
    return fitted(shifted(made, operation), operation) if operation.name in LINEAR else made


@dataclass(frozen=True)
class Form:
    """The word of an expression: terms, a constant, and an error that lies between two numbers. `width` is that of an
    operation whose word nothing has yet, and is none for what is read."""
    terms: dict[Read, Fraction] = field(default_factory=dict)
    constant: Fraction = Fraction(0)
    least: Fraction = Fraction(0)
    greatest: Fraction = Fraction(0)
    width: int | None = None

    @property
    def is_constant(self) -> bool:
        return not self.terms and not self.least and not self.greatest

    def times(self, factor: Fraction) -> "Form":
        least, greatest = sorted((self.least * factor, self.greatest * factor))
        terms = {read: other * factor for read, other in self.terms.items()}
        return Form(terms, self.constant * factor, least, greatest)

    def plus(self, other: "Form") -> "Form":
        terms = dict(self.terms)
        for read, factor in other.terms.items():
            terms[read] = terms.get(read, Fraction(0)) + factor
        return Form({read: factor for read, factor in terms.items() if factor}, self.constant + other.constant,
                    self.least + other.least, self.greatest + other.greatest)


def quantised(form: Form, operation: Operation, zeros: int) -> Form:
    """A form, of whole numbers that end with so many zeros in any case, shifted as an operation does it."""
    made, lost = form.times(Fraction(1, 2) ** operation.shift), operation.shift - zeros
    step = Fraction(1, 1 << max(lost, 0))
    least, greatest = (step - Fraction(1, 2), Fraction(1, 2)) if "round" in operation.mode else (step - 1, Fraction(0))
    if lost > 0:
        made = replace(made, least=made.least + least, greatest=made.greatest + greatest)
    return replace(made, width=operation.width)


@dataclass(frozen=True)
class Check:
    """A node that may pass its range, in an element."""
    element: int
    node: int
    width: int
    is_saturating: bool
    is_last: bool


@dataclass(frozen=True)
class Choice:
    """What a node is that is not linear: an operation on nodes, or on constants."""
    element: int
    operation: Operation
    operands: tuple[tuple[bool, int], ...]


class Linear:
    """The system of a program. Of the saturating operations those in `bent` are not taken as linear; they are named by
    the element and their number there."""

    def __init__(self, flat: Flat, order: list[int], bent: frozenset = frozenset()):
        self.elements: list[FlatElement] = flat.elements
        self.bent, self.number = bent, 0
        count = len(self.elements)
        self.forms: list[Form] = [Form() for _ in range(count)]
        self.node_of = list(range(count))
        self.constants: list[int | None] = [None] * count
        self.inputs: list[int] = flat.inputs
        self.checks: list[Check] = []
        self.choices: dict[int, Choice] = {}
        # Of each saturating operation, by its element and its number there, what goes into it.
        self.saturating: dict[tuple[int, int], Check] = {}
        # Of how many bits the word of a node is; of none where it is a truth value.
        self.widths = [each.shape.width if each.shape else None for each in self.elements]
        for number in order:
            self.enter(number)

    def enter(self, number: int) -> None:
        """Makes the node of an element."""
        if isinstance(self.elements[number].body, int):
            return
        body, self.number = self.elements[number].parts(), 0
        if len(body) == 1 and isinstance(body[0], tuple) and self.is_alias(number, *body[0]):
            self.node_of[number] = self.node_of[body[0][0]]
            self.constants[number] = self.constants[body[0][0]]
            return
        stack: list[Form] = []
        for place, part in enumerate(body):
            if isinstance(part, Operation):
                parts = stack[len(stack) - part.parts :]
                del stack[len(stack) - part.parts :]
                stack.append(self.made(number, part, parts, place == len(body) - 1))
            else:
                stack.append(self.read(part))
        (form,) = stack
        if form.is_constant:
            self.constants[number] = int(form.constant)
        if number in self.choices:
            return
        is_read = form.width is None and not self.elements[number].initials
        if is_read and self.is_node(form) and not self.is_element(form):
            self.node_of[number] = next(iter(form.terms))[0]
            return
        self.forms[number] = form
        if form.width is not None:
            self.checks.append(Check(number, number, form.width, False, True))

    def is_alias(self, number: int, other: int, delay: int) -> bool:
        """Whether an element has the words of another, those before the first sample too."""
        return not delay and self.elements[number].initials == self.elements[other].initials

    def read(self, part: int | Read) -> Form:
        if isinstance(part, int):
            return Form(constant=Fraction(part))
        number, delay = part
        constant = self.constants[number]
        if not delay and constant is not None:
            return Form(constant=Fraction(constant))
        return Form({part: Fraction(1)})

    def made(self, element: int, operation: Operation, parts: list[Form], is_last: bool) -> Form:
        """What an operation makes of forms."""
        if all(part.is_constant for part in parts):
            return Form(constant=Fraction(computed(operation, [int(part.constant) for part in parts])))
        is_product = operation.name == "mul" and not any(part.is_constant for part in parts)
        if operation.name not in LINEAR or is_product:
            return self.chosen(element, operation, [self.settled(element, part) for part in parts], is_last)
        form = self.combined(operation, [self.ready(element, part, operation) for part in parts])
        return self.saturated(element, operation, form, is_last) if "sat" in operation.mode else form

    def combined(self, operation: Operation, parts: list[Form]) -> Form:
        """A linear operation of forms, but for what is out of its range."""
        zeros = 0
        if operation.name == "mul":
            factor, form = parts if parts[0].is_constant else parts[::-1]
            whole = int(factor.constant)
            form, zeros = form.times(factor.constant), (whole & -whole).bit_length() - 1 if whole else operation.shift
        elif len(parts) == 2:
            form = parts[0].plus(parts[1].times(Fraction(1 if operation.name == "add" else -1)))
        else:
            form = parts[0].times(Fraction(-1 if operation.name == "neg" else 1))
        return quantised(form, operation, zeros)

    def ready(self, element: int, part: Form, operation: Operation) -> Form:
        """A part whose range is looked at, where an overflow in it would not come back by what is made of it."""
        if part.width is None or (operation.shift <= 0 and "sat" not in operation.mode
                                  and part.width - operation.shift >= operation.width):
            return part
        return self.settled(element, part)

    def settled(self, element: int, part: Form) -> Form:
        """A part as a node of its own, where it is the word of an operation."""
        if part.width is None:
            return part
        node = self.add(part, part.width)
        self.checks.append(Check(element, node, part.width, False, False))
        return Form({(node, 0): Fraction(1)})

    def add(self, form: Form, width: int | None) -> int:
        self.forms.append(form)
        self.widths.append(width)
        return len(self.forms) - 1

    def saturated(self, element: int, operation: Operation, form: Form, is_last: bool) -> Form:
        """A saturating operation: linear, but where it was seen to pass its range."""
        name = element, self.number
        self.number += 1
        node = self.add(form, operation.width)
        check = self.saturating[name] = Check(element, node, operation.width, True, is_last)
        self.checks.append(check)
        if name not in self.bent:
            return Form({(node, 0): Fraction(1)})
        clip = replace(operation, name="pass", shift=0, parts=1)
        return self.chosen(element, clip, [Form({(node, 0): Fraction(1)})], is_last)

    def chosen(self, element: int, operation: Operation, parts: list[Form], is_last: bool) -> Form:
        """The node of an operation that is not linear."""
        operands = tuple((True, int(part.constant)) if part.is_constant else (False, self.node(part)) for part in parts)
        width = operation.width if operation.name in (*LINEAR, "sel") else None
        node = element if is_last else self.add(Form(), width)
        self.choices[node] = Choice(element, operation, operands)
        return Form({(node, 0): Fraction(1)})

    def node(self, form: Form) -> int:
        """The node that has the word of a form."""
        first = next(iter(form.terms))[0]
        return first if self.is_node(form) else self.add(form, self.widths[first])

    def is_node(self, form: Form) -> bool:
        """Whether a form is the word of a node."""
        return bool(form.terms) and form == Form({(next(iter(form.terms))[0], 0): Fraction(1)})

    def is_element(self, form: Form) -> bool:
        """Whether the node of a form is an element, which may have had other words before the first sample."""
        return next(iter(form.terms))[0] < len(self.elements)

    def terms(self) -> list[list[tuple[int, int, Fraction]]]:
        """The terms of all nodes, as a system has them."""
        count = len(self.elements)
        return [[(self.node_of[node] if node < count else node, delay, factor)
                 for (node, delay), factor in form.terms.items()] for form in self.forms]
