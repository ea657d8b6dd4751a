"""Microcode files of both versions, read and written field by field as docs/MICROCODE.md has them; no part of the
compiler is asked. `image_of` and `bytes_of` are the two directions. BadImage tells the first fault by the rules of that
page."""
from . import bit_words, byte_words, fields
from .bits import FIELD, MAGIC, SHORT, TRAILING, VERSION, BadImage, Field, Reader, Spelling, Writer
from .hardware import read_hardware, spelled_hardware
from .image import MAGIC as LETTERS
from .image import VERSIONS, Format, Image, Issue, Take, Unit, Word

__all__ = ["FIELD", "MAGIC", "NEWEST", "SHORT", "TRAILING", "VERSION", "VERSIONS", "BadImage", "Field", "Format",
           "Image", "Issue", "Take", "Unit", "Word", "bytes_of", "fields_of", "image_of"]
WORDS = {1: byte_words, 2: bit_words}
OLDEST, NEWEST = VERSIONS[0], VERSIONS[-1]


def image_of(data: bytes) -> Image:
    """The image of a microcode file, or BadImage where the bytes are none."""
    return read_image(Reader(data, OLDEST))


def fields_of(data: bytes) -> tuple[list[Field], BadImage | None]:
    """The fields that are read of bytes, and the fault that ends them, or nothing."""
    reader = Reader(data, OLDEST, keeps=True)
    try:
        read_image(reader)
    except BadImage as fault:
        return reader.fields, fault
    return reader.fields, None


def read_image(reader: Reader) -> Image:
    """The image that the bytes of a reader are. All versions begin alike, and then the reader goes on in the one that
    they name."""
    reader.version = read_version(reader)
    image = read_hardware(reader)
    for number in range(image.circle()):
        image.words.append(WORDS[reader.version].read_word(reader, image, f"of word {number}"))
    reader.end()
    return image


def read_version(reader: Reader) -> int:
    letters = reader.data[:len(LETTERS)]
    if letters != LETTERS[:len(letters)]:
        raise BadImage(MAGIC, 0, found=letters)
    reader.number(fields.LETTERS)
    start, number = reader.bit, reader.number(fields.VERSION)
    if number not in VERSIONS:
        field = Field(fields.VERSION.name, start, reader.bit - start, 0)
        raise BadImage(VERSION, start >> 3, field, " or ".join(map(str, VERSIONS)), number)
    return number


def bytes_of(image: Image, version: int = NEWEST) -> bytes:
    """The bytes of a valid image in a version. Words that are one object are written once."""
    spelling, writer = Spelling(version), Writer()
    words: dict[int, str] = {}
    writer.put(spelling.number(fields.LETTERS, int.from_bytes(LETTERS, "big")))
    writer.put(spelling.number(fields.VERSION, version))
    for text in spelled_hardware(spelling, image):
        writer.put(text)
    for word in image.words:
        if id(word) not in words:
            words[id(word)] = "".join(WORDS[version].spelled_word(spelling, image, word))
        writer.put(words[id(word)])
    return writer.bytes()
