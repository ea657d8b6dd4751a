"""Values that may be none by their type, and are there by what was looked at before."""
from typing import TypeVar

Thing = TypeVar("Thing")


class NotThere(AttributeError):
    """A value is none that was sure to be there."""


def sure(value: Thing | None) -> Thing:
    """The value."""
    if value is None:
        raise NotThere("a value is none that was sure to be there")
    return value
