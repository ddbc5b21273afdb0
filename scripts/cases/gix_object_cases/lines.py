#!/usr/bin/env python3
"""Writes the rows of `lines` in stdin and stdout; git 2.39 is called, on the path.

Nothing of the crate is used. The answers are git's if git prints them: its loose objects' headers, the lines that `git var` prints and that `git cat-file` gives back, what `git check-ref-format` says. The others
are what the formats' descriptions say, as regular expressions and numbers of Python.
"""
import datetime
import itertools
import os
import re
import subprocess
import sys
import tempfile
import zlib
from pathlib import Path

sys.path.append(str(Path(__file__).resolve().parents[1]))
from families import write

ROWS = []
UNSPELLABLE = "the value has no written form"
NO_TIME = "seconds and an offset were expected"
KINDS = [b"tree", b"blob", b"commit", b"tag"]


def case(operation, *fields, answer):
    """A number is written as its decimal text."""
    ROWS.append((" ".join([operation] + [(b"%d" % field if isinstance(field, int) else field).hex() or "-" for field in fields]), answer))


def texts(pieces, most, least=0):
    return [b"".join(text) for count in range(least, most + 1) for text in itertools.product(pieces, repeat=count)]


def letters(alphabet, most):
    return texts([bytes([byte]) for byte in alphabet], most)


def bare(text):
    """The text with escapes for what doesn't print."""
    escaped = "".join(
        {"\0": "\\0", "\t": "\\t", "\r": "\\r", "\n": "\\n", "'": "\\'", '"': '\\"', "\\": "\\\\"}.get(ch)
        or (ch if " " <= ch < "\x7f" or ch.isalpha() else f"\\x{ord(ch) & 255:02x}")
        for ch in text.decode(errors="surrogateescape"))
    return escaped


def quoted(text):
    return f'"{bare(text)}"'


def truth(value):
    return "true" if value else "false"


def git(*words, folder=".", given=b"", env=None):
    done = subprocess.run(["git", "-C", folder, *words], input=given, capture_output=True, env={**os.environ, **(env or {})})
    return done.returncode, done.stdout


# ---- headers

HEADER = re.compile(rb"(blob|tree|commit|tag) (0|[1-9][0-9]*)\0", re.DOTALL)


def header_of(text):
    header = HEADER.match(text)
    if header and int(header[2]) < 2**64:
        return f"{header[1].decode()} {int(header[2])} {header.end()}"
    if b" " not in text:
        return "the header has no space or no zero byte"
    if text.split(b" ")[0] not in KINDS:
        return "the word names no kind of object"
    return "the object's size is no number" if b"\0" in text.split(b" ", 1)[1] else "the header has no space or no zero byte"


def loose_objects(folder):
    """The uncompressed objects that git made, with git's words on their kinds and sizes."""
    env = {f"GIT_{role}_{word}": value for role in ["AUTHOR", "COMMITTER"]
           for word, value in [("NAME", "A"), ("EMAIL", "a@b"), ("DATE", "1700000000 +0100")]}
    run = lambda *words, given=b"": git(*words, folder=folder, given=given, env=env)[1].strip()
    run("init", "-q")
    names = [run("hash-object", "-w", "--stdin", given=b"x" * length) for length in (0, 9, 10, 12345, 1, 99, 100, 999, 1000, 65536)]
    tree = run("mktree", given=b"100644 blob " + names[1] + b"\ta\n")
    commit = run("commit-tree", "-m", "first", tree.decode())
    tag = run("mktag", given=b"object " + commit + b"\ntype commit\ntag v1\ntagger A <a@b> 1700000000 +0100\n\nfirst\n")
    for name in map(bytes.decode, [*names, tree, commit, tag]):
        with open(os.path.join(folder, ".git", "objects", name[:2], name[2:]), "rb") as file:
            yield run("cat-file", "-t", name), int(run("cat-file", "-s", name)), zlib.decompress(file.read())


def headers():
    for text in texts([b"tag", b" ", b"0", b"1", b"\0"], 4):
        case("header", text, answer=header_of(text))
    for text in texts([b"0", b"1", b"-", b" ", b"\0"], 4):
        case("header", b"tag " + text, answer=header_of(b"tag " + text))
    for word, size in itertools.product(KINDS + [b"Tag", b"trees", b"blo"], [0, 7, 10, 2**32, 2**63, 2**64 - 1, 2**64, 10**20]):
        text = b"%s %d\0rest" % (word, size)
        case("header", text, answer=header_of(text))
        if word in KINDS and size < 2**64:
            case("write_header", word, size, answer=quoted(text[:-4]))
    with tempfile.TemporaryDirectory() as folder:
        for kind, size, text in loose_objects(folder):
            header = text[:text.index(0) + 1]
            case("header", text[:80], answer=f"{kind.decode()} {size} {len(header)}")
            case("header", header, answer=f"{kind.decode()} {size} {len(header)}")
            case("write_header", kind, size, answer=quoted(header))


# ---- times

def time_of(text):
    match = re.fullmatch(rb"(-?[0-9]+) ([+-])([0-9]{2})([0-9]{2})", text)
    if not match or not -(2**63) <= int(match[1]) < 2**63:
        return None
    offset = 3600 * int(match[3]) + 60 * int(match[4])
    return int(match[1]), offset if match[2] == b"+" else -offset


def time_text(seconds, offset):
    minutes, left = divmod(abs(offset), 60)
    if left or minutes >= 6000:
        return None
    return b"%d %c%02d%02d" % (seconds, b"+-"[offset < 0], minutes // 60, minutes % 60)


def or_unspellable(text):
    return UNSPELLABLE if text is None else quoted(text)


# ---- actors

def ident(name, email, date):
    code, out = git("var", "GIT_AUTHOR_IDENT", env={"GIT_AUTHOR_NAME": name, "GIT_AUTHOR_EMAIL": email, "GIT_AUTHOR_DATE": date})
    assert code == 0, (name, email, date)
    return out.rstrip(b"\n")


def stored(line):
    """The author line as git gives it back of a commit that it stored."""
    commit = b"tree 4b825dc642cb6eb9a060e54bf8d69288fbee4904\nauthor %s\ncommitter A <a> 0 +0000\n\nm\n" % line
    with tempfile.TemporaryDirectory() as folder:
        git("init", "-q", folder=folder)
        name = git("hash-object", "-t", "commit", "-w", "--stdin", "--literally", folder=folder, given=commit)[1].decode().strip()
        kept = git("cat-file", "commit", name, folder=folder)[1].split(b"\n")[1].removeprefix(b"author ")
        if int(kept[-2:]) > 59:
            assert_git_takes(folder, name, kept)
        return kept


def assert_git_takes(folder, commit, line):
    """Git's check finds no fault in the commit, and its clock is as far ahead as we read the line's offset."""
    git("mktree", folder=folder)
    assert git("fsck", "--strict", folder=folder)[0] == 0, line
    clock = git("show", "-s", "--date=format:%Y-%m-%d %H:%M:%S", "--format=%ad", commit, folder=folder)[1].decode().strip()
    moment = datetime.datetime(1970, 1, 1) + datetime.timedelta(seconds=sum(time_of(line.rpartition(b"> ")[2])))
    assert datetime.datetime.strptime(clock, "%Y-%m-%d %H:%M:%S") == moment, line


def parts_of(line):
    match = re.fullmatch(rb"([^<\n]*) <([^\n]*)> ([^>]*)", line, re.DOTALL)
    return match and match.groups()


def actor_of(line):
    parts = parts_of(line)
    if parts is None:
        return "a name, an email between angle brackets and a time were expected"
    name, email, time = parts
    if time_of(time) is None:
        return NO_TIME
    return f"{quoted(name)} {quoted(email)} {quoted(time)} {or_unspellable(actor_text(name, email, *time_of(time)))}"


def actor_text(name, email, seconds, offset):
    time = time_text(seconds, offset)
    return None if time is None or set(b"<>\n") & set(name + email) else b"%s <%s> %s" % (name, email, time)


def actors():
    dates = ["0 +0000", "1112911993 -0700", "1700000000 +0545", "1700000000 -0330", "2147483648 +1400", "4102444800 +0001", "99999999999 -1200", "1234567890 +0530"]
    people = [("A U Thor", "author@example.com"), ("Ž", ""), ("René d'Été", "a+b@c"), ('A "B" C', "x")]
    lines = [ident(name, email, f"@{date}") for date in dates for name, email in people]
    lines += [stored(line) for line in [
        b"A <a@b> -1 +0000", b"A <a@b> -9223372036854775808 -9959", b" <a@b> 5 +0000", b"A > B <a <b> c> 12 +0100",
        b"A <a@b> 0 -0000", b"A <a@b> 007 +0000", b"A <> 1 +0000", b"A  <a@b> 1 +0000",
        b"A <a@b> 1000000 +0060", b"A <a@b> 1000000 -0099", b"A <a@b> 1000000 +9999", b"A <a\tb> 9223372036854775807 +0000",
    ]]
    lines += [b"A a@b> 1 +0000", b"A\nB <a@b> 1 +0000", b"A <a\nb> 1 +0000", b"<a@b> 1 +0000", b"A <a@b> now", b"A <a@b>1 +0000", b"A <a@b> 1 +0000 ", b"A <a@b> ", b"A <a@b", b""]
    lines += [text + b"> 1 +0000" for text in texts([b"A", b" ", b"<", b">", b"\n"], 4)]
    for line in lines:
        case("actor", line, answer=actor_of(line))


# ---- names

def names():
    more = ["main", "refs/heads/main", "a.lock", "a.lock/b", "a.lockb", ".lock", "lock", "a/.lock", "a.LOCK", "a b", "a~b", "a^b", "a:b", "a?b", "a*b", "a[b", "a]b", "a\\b", "a\x7fb", "a\tb", "a\x1fb", "é", "a@{b", "@@", "@/a", "a/@", "a/-b", "a..b", "a.b.c", "HEAD", "@/", ""]
    all_names = letters(b"./@{a", 3)[1:] + [name.encode() for name in more] + [b"a%cb" % byte for byte in range(1, 256)] + [b"a\xff"]
    all_names += texts([b".lock", b"/", b"a", b"."], 3, 1) + texts([b"A", b"_", b"/", b"a", b"Z0"], 3, 1)
    all_names += [b"FETCH_HEAD", b"_", b"Head", b"HEAD ", b"HEAD.lock", b"@HEAD", b"[", b"`", b"\xc3\x84"]
    for name in dict.fromkeys(all_names):
        partial = git("check-ref-format", "--allow-onelevel", os.fsdecode(name))[0] == 0
        capitals = re.fullmatch(rb"[A-Z_]*", name) is not None
        full = git("check-ref-format", os.fsdecode(name))[0] == 0 or partial and capitals
        case("name", name, answer=f"{truth(partial)} {truth(full)} {truth(capitals)}")


for part in [headers, actors, names]:
    part()
write(__file__, ROWS)
