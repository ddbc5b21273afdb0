"""Texts as the bytes that they are written as, and as a person reads them."""
from typing import Union

Text = Union[str, bytes]


def text(data: bytes) -> str:
    """Returns the bytes as text that `raw` gives back unchanged."""
    return data.decode("utf-8", "surrogateescape")


def raw(value: Text) -> bytes:
    """Returns the bytes of a text."""
    return value.encode("utf-8", "surrogateescape") if isinstance(value, str) else bytes(value)


def shown(value: Text) -> str:
    """Returns a text as a person reads it, without what a terminal would obey.

    >>> print(shown("a\\x1b[2J"), shown(b"\\xff"))
    a\\x1b[2J \\xff
    """
    return "".join(it if it.isprintable() else it.encode("unicode_escape").decode() for it in raw(value).decode("utf-8", "backslashreplace"))
