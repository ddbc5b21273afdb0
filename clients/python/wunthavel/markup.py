"""Markup of which contents are never a part: a text is escaped wherever it is put into some."""
import html
from typing import Union

from .texts import Text, shown


class Html(str):
    """What is markup already."""


def escaped(content: Union[Html, Text]) -> Html:
    """Returns markup that shows a text as it is. What a reader wouldn't see, or would see out of its order, is shown by its number."""
    if isinstance(content, Html):
        return content
    text = content if isinstance(content, str) else content.decode("utf-8", "backslashreplace")
    return Html(html.escape("\t".join(map(shown, text.split("\t")))))


def joined(*content: Union[Html, Text]) -> Html:
    """Returns the markup of all of these."""
    return Html("".join(map(escaped, content)))


def element(kind: str, *content: Union[Html, Text], **attributes: object) -> Html:
    """Returns an element. Attributes whose names are words of Python end with a line.

    >>> print(element("a", "<b>", href="/?q='", class_="title"))
    <a href="/?q=&#x27;" class="title">&lt;b&gt;</a>
    """
    told = "".join(f' {name.rstrip("_").replace("_", "-")}="{escaped(str(value))}"' for name, value in attributes.items() if value is not None)
    return Html(f"<{kind}{told}>{joined(*content)}</{kind}>")
