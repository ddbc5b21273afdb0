"""Words in the lines of cases, as the crate case_words reads and writes them: for generators of cases, cases.py in the folder of a crate's
name."""
from families import crate_of

PLAIN = b"ABCDEFGHIJKLMNOPQRSTUVWXYZabcdefghijklmnopqrstuvwxyz0123456789/.@<>_-"


def word(data):
    """Bytes, each as it is or, if that would be taken for something else, as `%` and two digits; `-` for none."""
    if data in (b"", b"-"):
        return "%2d" if data else "-"
    return "".join(chr(byte) if byte in PLAIN else f"%{byte:02x}" for byte in data)


def write(here, rows):
    """Writes the rows, each a line and its answer, to `stdin` and `stdout` of the crate whose script this is."""
    folder = crate_of(here)
    (folder / "stdin").write_text("".join(f"{line}\n" for line, _ in rows))
    (folder / "stdout").write_text("".join(f"{answer}\n" for _, answer in rows))
