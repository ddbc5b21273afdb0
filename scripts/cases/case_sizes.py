"""Rows of all sizes, as `answer_sizes` of the crate case_words plays them: lines with repetitions, and digests of the answers."""
import hashlib
import re

SIZES = (0, 1, 2, 63, 64, 65, *range(1000, 1026), 4097)


def hexed(text):
    """A text in hexadecimal digits, but for its marks: `{` and `}` around what is repeated, and `~`."""
    marks = {"{": "[", "}": "]", "~": "~"}
    return "".join(marks.get(it) or f"{ord(it):02x}" for it in text)


def numbered(text, number):
    return text.replace("#", f"{number:04}").replace("^", f"{number + 1:04}").replace("~", f"{number:04}".encode().hex())


def expand(text, size):
    """A line or a part of one at this size, but for its objects."""
    def repeated(found):
        between = "," if found[1].endswith(",") else ""
        part = found[1].removesuffix(",")
        return between.join(numbered(part, it) for it in range(size)) or between and "-"
    pieces = re.split(r"(\[.*?\])", text)
    return "".join(repeated(re.fullmatch(r"\[(.*)\]", it)) if it.startswith("[") else numbered(it, size) for it in pieces)


def content(text, size):
    """The bytes that hexadecimal digits with marks are at this size."""
    return bytes.fromhex(expand(text, size))


def oid(kind, data):
    return hashlib.sha1(b"%s %d\0" % (kind.encode(), len(data)) + data).hexdigest()


def row(line, answer):
    """A line, with `&` between lines, and a digest of its answers, which the second argument gives as one text for a size."""
    told = (hashlib.sha1((answer(size) + "\n").encode()).hexdigest()[:4] for size in SIZES)
    return line, " ".join(told)
