#!/usr/bin/env python3
"""Writes the rows of `message` in stdin and stdout; git 2.39 is called, on the path.

Nothing of the crate is used. The answers of the first part are git's: the subject line and the body that `git show` prints of a commit
with that message, and the trailers that `git interpret-trailers --parse` prints. All its messages have their title first, at most one
empty line after it, and at their end a paragraph of trailers alone or one whose first line is none, if this port's rules and git's
say the same. The answers of the others are what this port's rules, in the README of `gix_object_message`, say of them, as regular
expressions.
"""
import itertools
import os
import re
import subprocess
import sys
import tempfile
from pathlib import Path

sys.path.append(str(Path(__file__).resolve().parents[1]))
from families import write

ROWS = []


def case(operation, text, answer):
    ROWS.append((f"{operation} {text.hex() or '-'}", answer))


def texts(pieces, most):
    return [b"".join(text) for count in range(most + 1) for text in itertools.product(pieces, repeat=count)]


def quoted(text):
    """The text in quotes, with escapes for what doesn't print."""
    escapes = {"\0": "\\0", "\t": "\\t", "\r": "\\r", "\n": "\\n", "'": "\\'", '"': '\\"', "\\": "\\\\"}
    shown = [escapes.get(ch) or (ch if " " <= ch < "\x7f" or ch.isalpha() else f"\\x{ord(ch) & 255:02x}")
             for ch in text.decode(errors="surrogateescape")]
    return f'"{"".join(shown)}"'


# ---- what git prints

TITLES = ["title", "title ", "first\nsecond", "first  \n second\t\nthird", "Ž: ü", "fix: it", "a\tb  c", "one\ntwo\nthree\nfour", "Don't \"quote\" \\ it", "日本"]
BODIES = ["", "text\n", "text", "text\n\nmore text\nand more\n", "text\n\n\n\nmore\n", "this is\nnote: text\n", "- one\n- two\n", "  indented\n\n\ttab\n", "Fix: a\n\nbut text\n"]
TRAILERS = [
    "", "Signed-off-by: A U Thor <author@example.com>\n", "Signed-off-by: A U Thor <author@example.com>",
    "Co-authored-by: B <b@c>\nReviewed-by:  C  <c@d> \nx-1: \ty z\n", "signed-off-BY: A\nTested-by: B: C\nFixes: #12\n", "Acked-by: A\n\n",
    "A: \n", "Signed-off-by: Ž <z@y>\nSigned-off-by: Ž <z@y>\nCc: \n",
]
ENVIRONMENT = {f"GIT_{role}_{word}": value for role in ["AUTHOR", "COMMITTER"] for word, value in [("NAME", "A"), ("EMAIL", "a@b"), ("DATE", "1 +0000")]}


def messages():
    for title, body, trailers in itertools.product(TITLES, BODIES, TRAILERS):
        rest = (body.rstrip("\n") + "\n\n" if body and trailers else body) + trailers
        yield title + "\n\n" + rest if rest else title
    for title, trailers in itertools.product(TITLES[:4], TRAILERS[1:4]):
        yield (title + "\n\ntext\n\n" + trailers).replace("\n", "\r\n")


def git(folder, *words, given=b""):
    environment = dict(os.environ, HOME=folder, GIT_CONFIG_NOSYSTEM="1", **ENVIRONMENT)
    return subprocess.run(("git", "-C", folder) + words, input=given, env=environment, check=True, capture_output=True).stdout


def told_by_git(folder, tree, message):
    content = b"tree %s\nauthor A <a@b> 1 +0000\ncommitter A <a@b> 1 +0000\n\n%s" % (tree, message)
    commit = git(folder, "hash-object", "-t", "commit", "-w", "--stdin", given=content).decode().strip()
    subject, body = (git(folder, "show", "-s", f"--format=tformat:{form}", commit)[:-1] for form in ["%s", "%b"])
    trailers = git(folder, "interpret-trailers", "--parse", given=message)
    case("message", message, f"{quoted(subject)} {quoted(body)} {quoted(trailers)}")


def by_git():
    with tempfile.TemporaryDirectory() as folder:
        git(folder, "init", "-q")
        tree = git(folder, "mktree").strip()
        for message in dict.fromkeys(messages()):
            told_by_git(folder, tree, message.encode())


# ---- what the rules say

WHITE = b" \t\n\f\r"
TRAILER = re.compile(rb"([A-Za-z0-9-]+): (.*)", re.DOTALL)


def parts_of(message):
    title, _, body = re.fullmatch(rb"(.*?)(?:(\n\n|\r\n\r\n)(.*))?", message, re.DOTALL).groups(b"")
    return title, body


def summary_of(title):
    return b" ".join(line.rstrip(WHITE) for line in title.strip(WHITE).split(b"\n"))


def lines_of(text):
    return re.findall(rb"[^\n]*\n|[^\n]+", text)


def trailers_in(text):
    found = [TRAILER.fullmatch(line) for line in lines_of(text)]
    return [(match[1], match[2].strip(WHITE)) for match in found if match]


def paragraphs_of(body):
    """Each with the empty lines after it; empty lines that begin the body are one of their own."""
    line = rb"(?!\r?\n)(?:[^\n]*\n|[^\n]+)"
    return re.findall(rb"\A(?:\r?\n)+|(?:%s)+(?:\r?\n)*" % line, body)


def is_trailers(paragraph):
    return bool(TRAILER.fullmatch(lines_of(paragraph)[0]))


def written(trailers):
    return quoted(b"".join(b"%s: %s\n" % trailer for trailer in trailers))


def trailer_part(body):
    last = paragraphs_of(body)[-1:]
    return last[0] if last and is_trailers(last[0]) else b""


def message(text):
    title, body = parts_of(text)
    case("message", text, f"{quoted(summary_of(title))} {quoted(body)} {written(trailers_in(trailer_part(body)))}")


def texts_of_rows(rows):
    return [row.replace("%", "\n").replace("~", "\r").encode() for row in rows]


def by_rules():
    for text in texts_of_rows(["", "a", "a%", "a%%", "a%%b", "a%%%b", "%%b", "a~%~%b", "a~%~%%%b", "a~%%b", "a%~%b", "a%%b~%~%c", "a~%~%b%%c", "a% %b", "fix%%A: b%%C: d%x"]):
        message(text)
    for text in texts([b"a", b" ", b"\n", b"\r\n"], 5):
        message(text)


by_git()
by_rules()
write(__file__, ROWS)
