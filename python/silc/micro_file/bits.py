"""Fields of microcode files one after the other: of whole bytes in version 1, of bits in version 2. The most
significant bit of a byte comes first, and that of a field too."""
from typing import Any, NamedTuple, NoReturn

from .fields import Bits, Choice, Row, Value, called

# Why bytes hold no image.
MAGIC, VERSION, SHORT, FIELD, TRAILING = "magic", "version", "short", "field", "trailing"
REFUSALS = {MAGIC: "bad magic", VERSION: "bad version", SHORT: "short at {at}", FIELD: "bad field at {at}",
            TRAILING: "trailing bytes at {at}"}
TOLD = {MAGIC: "it is no microcode file", VERSION: "version {found} of the microcode file is not known",
        SHORT: "it ends at byte {at}, in the middle of a field", FIELD: "what stands at byte {at} is not allowed",
        TRAILING: "bytes follow the last field, from byte {at} on"}
PIECE = 1 << 12


class Field(NamedTuple):
    """A field that was read: what it is, the place of its first bit in the file, how many bits it has, their number."""
    name: str
    bit: int
    bits: int
    value: int


class BadImage(Exception):
    """The first fault of bytes that are no microcode file: of which kind it is, and the byte by which it is told; the
    first bit and the name of the field, what it may be, and what stands there."""

    def __init__(self, kind: str, at: int, field: Field | None = None, allowed: str = "", found: Any = None) -> None:
        super().__init__(kind, at)
        self.kind, self.at, self.allowed, self.found = kind, at, allowed, found
        self.bit, self.name = (field.bit, field.name) if field else (8 * at, "")

    def __str__(self) -> str:
        return TOLD[self.kind].format(at=self.at, found=self.found)

    def refusal(self) -> str:
        """The text by which `silc` refuses the bytes."""
        return REFUSALS[self.kind].format(at=self.at)


def between(low: int, high: int) -> str:
    """What a number may be, for a message."""
    return f"{low} to {high}" if low < high else str(low)


class Reader:
    """Bytes of a version, and the bit up to which they are read. It keeps its fields where that is asked for."""

    def __init__(self, data: bytes, version: int, keeps: bool = False) -> None:
        self.data, self.bit, self.size, self.version = data, 0, 8 * len(data), version
        self.fields: list[Field] = []
        self.keeps = keeps

    def number(self, row: Row, *place: object, low: int | None = None, high: int | None = None) -> int:
        """The number of the next field, which is in the range of its row, or in the one that it has there."""
        count, less, is_signed = row.bits(self.version)
        least, most = row.low if low is None else low, row.high if high is None else high
        found = self.peek(count, is_signed)
        if found is None or not least <= found + less <= most:
            allowed = row.allowed.format(*place) or between(least - less, most - less)
            self.fail(called(row.name, place, less), count, allowed, found)
        self.passed(row.name, place, less, count, found)
        return found + less

    def one_of(self, choice: Choice[Value], *place: object) -> Value:
        """The value for which the next field stands."""
        count, numbers, allowed = choice.codes(self.version)
        known = numbers or range(len(choice.values))
        found = self.peek(count)
        if found is None or found not in known:
            allowed = allowed.format(*place) or between(0, len(choice.values) - 1)
            self.fail(called(choice.name, place), count, allowed, found)
        self.passed(choice.name, place, 0, count, found)
        return choice.values[known.index(found)]

    def peek(self, count: int, is_signed: bool = False) -> int | None:
        """The number that so many bits are, or nothing where the bytes end before."""
        end = self.bit + count
        if end > self.size:
            return None
        last = end + 7 >> 3
        number = int.from_bytes(self.data[self.bit >> 3:last], "big") >> 8 * last - end & (1 << count) - 1
        return number - (1 << count) if is_signed and number >> count - 1 else number

    def passed(self, name: str, place: tuple[object, ...], less: int, count: int, number: int) -> None:
        """Goes on behind a field."""
        if self.keeps:
            self.fields.append(Field(called(name, place, less), self.bit, count, number))
        self.bit += count

    def fail(self, name: str, count: int, allowed: str, found: int | None) -> NoReturn:
        """Says that the next field is not whole, or not allowed."""
        field = Field(name, self.bit, count, found or 0)
        if found is None:
            raise BadImage(SHORT, len(self.data), field, allowed)
        self.refuse(field, allowed, found)

    @staticmethod
    def refuse(field: Field, allowed: str, found: object) -> NoReturn:
        """Says that a field is not allowed."""
        raise BadImage(FIELD, field.bit >> 3, field, allowed, found)

    def end(self) -> None:
        """What is left of the last byte is zero, and nothing follows."""
        rest = Bits(-self.bit % 8)
        self.number(Row("the rest of the last byte", 0, 0, rest, rest))
        if self.bit < self.size:
            raise BadImage(TRAILING, self.bit >> 3, found=(self.size - self.bit) >> 3)


class Spelling:
    """How a version writes fields: each as a text of 0 and 1."""

    def __init__(self, version: int) -> None:
        self.version = version

    def number(self, row: Row, number: int) -> str:
        count, less, _ = row.bits(self.version)
        return digits(count, number - less)

    def one_of(self, choice: Choice[Value], value: Value) -> str:
        count, numbers, _ = choice.codes(self.version)
        place = choice.values.index(value)
        return digits(count, numbers[place] if numbers else place)


def digits(count: int, number: int) -> str:
    """The lowest bits of a number."""
    return format(number & (1 << count) - 1, f"0{count}b") if count else ""


class Writer:
    """Bits that become bytes, a piece at a time."""

    def __init__(self) -> None:
        self.data, self.count = bytearray(), 0
        self.left: list[str] = []

    def put(self, text: str) -> None:
        """Bits as a text of 0 and 1."""
        self.left.append(text)
        self.count += 1
        if self.count >= PIECE:
            self.flush()

    def flush(self) -> None:
        """Makes bytes of all bits but those of the last one, where it is not whole."""
        text = "".join(self.left)
        whole = len(text) // 8
        self.data += int(text[:8 * whole] or "0", 2).to_bytes(whole, "big")
        self.left, self.count = [text[8 * whole:]], 0

    def bytes(self) -> bytes:
        """All of it, with zero bits to the end of the last byte."""
        self.flush()
        self.put("0" * (-len(self.left[0]) % 8))
        self.flush()
        return bytes(self.data)
