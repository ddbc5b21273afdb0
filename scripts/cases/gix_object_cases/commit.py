#!/usr/bin/env python3
"""Writes the rows `read` of `commit` in stdin and stdout, after the family's others, which stay; git 2.39 is called, on the path.

The commits are those that the family's rows have. The fields are those that `git log` prints of one, and its further headers the lines of
`git cat-file` after these. If they spell the commit's content to the byte, and so in the form in which git writes one, there is a row.
"""
import re
import subprocess
import sys
import tempfile
from pathlib import Path

sys.path.append(str(Path(__file__).resolve().parents[1]))
from families import crate_of, write

FORM = "%x00".join(["%T", "%P", "%an", "%ae", "%ad", "%cn", "%ce", "%cd", "%e", "%B"])
CRATE = crate_of(__file__)


def shown(data):
    return "".join("\\n" if c == 10 else "\\\\" if c == 92 else chr(c) if 32 <= c <= 126 else "\\x%02x" % c for c in data)


def repository(kind):
    folder = tempfile.mkdtemp()
    subprocess.run(["git", "init", "-q", "--object-format=" + kind, folder], check=True)

    def git(*words, data=b""):
        """What this command of git prints, or nothing if it fails."""
        done = subprocess.run(["git", "-C", folder, *words], input=data, capture_output=True)
        return done.stdout if done.returncode == 0 else b""
    return git


def told(git, commit):
    """The fields of a commit, each its name and its value's parts."""
    log = ["log", "--no-walk", "--date=raw", "--format=" + FORM]
    encoding = (git(*log, commit).split(b"\0") + [b""] * 9)[8].decode(errors="replace")
    parts = git(*log, *(["--encoding=" + encoding] if encoding else []), commit)[:-1].split(b"\0")
    if len(parts) != 10:
        return []
    tree, parents, *people, encoding, message = parts
    actors = [(b"author", *people[:3]), (b"committer", *people[3:])]
    front = [(b"tree", tree), *((b"parent", it) for it in parents.split(b" ") if it), *actors, *([(b"encoding", encoding)] if encoding else [])]
    lines = re.findall(rb"([^\n ]+) ([^\n]*(?:\n [^\n]*)*)\n", git("cat-file", "commit", commit).partition(b"\n\n")[0] + b"\n")
    headers = [(b"header", *it) for it in lines[len(front):]]
    # An empty encoding and none are printed alike.
    return [] if any(it[1] == b"encoding" for it in headers) else [*front, *headers, (b"message", message)]


def spelled(name, *value):
    if name in (b"author", b"committer"):
        return b"%s %s <%s> %s\n" % (name, *value)
    return b"\n" + value[0] if name == b"message" else b"%s %s\n" % value if name == b"header" else b"%s %s\n" % (name, *value)


def main():
    lines, answers = ((CRATE / name).read_text().split("\n")[:-1] for name in ("stdin", "stdout"))
    others = [(line.removeprefix("commit "), answer) for line, answer in zip(lines, answers) if line.startswith("commit ")]
    contents = dict.fromkeys(tuple(line.split(" ")[1:3]) for line, _ in others if line.split(" ")[0] in ("read", "write", "own", "signature"))
    git = {kind: repository(kind) for kind in ("sha1", "sha256")}
    rows = [row for row in others if not row[0].startswith("read ")]
    for kind, content in contents:
        data = b"" if content == "-" else bytes.fromhex(content)
        stored = git[kind]("hash-object", "-t", "commit", "--literally", "-w", "--stdin", data=data).decode().strip()
        fields = told(git[kind], stored)
        if fields and b"".join(spelled(*it) for it in fields) == data:
            rows.append((f"read {kind} {content}", "; ".join(f"{it[0].decode()} {'|'.join(map(shown, it[1:]))}" for it in fields)))
    write(__file__, rows)


main()
