#!/usr/bin/env python3
"""Writes the rows of `sizes`: each list that a command takes, or that a repository or a part holds, at each size, as `answer_sizes` of the
crate case_words plays them. All memory is there, so that no fault may be told. What is wanted is what the plain repository of
plain.py answers. `lengths` gives cases.py rows of each field at each size, since a field's length has no leading zeros."""

import hashlib
import sys
from pathlib import Path
from urllib.parse import unquote_to_bytes

sys.path.insert(0, str(Path(__file__).resolve().parents[1]))
sys.path.insert(0, str(Path(__file__).resolve().parent))
from case_sizes import SIZES, expand, row
from case_words import word
from families import write
from grafts import graft
from plain import ORDERS, Plain
from streams import BY, ONE, PACK, ROWS, Long, left, refusals, spelled, tag, told

# A path has as many folders.
sys.setrecursionlimit(9999)
SIGNED = b"author 1 3 %s +0000\nA\na@b\ncommitter 1 3 %s +0000\nA\na@b\nmessage 1\nx\nend\n"
BY_ALL = BY % (9, 3, b"all")


def marked(stream):
    """The word of a stream, but for its marks: `[` and `]` around what is repeated, `#` for the number, `^` for the next one."""
    return "".join(chr(it) if it in b"[]#^" else word(bytes([it])).replace("%2d", "-") for it in stream)


def answered(line):
    """What the words of a line answer."""
    plain, answers = Plain("sha1"), []
    for at in line.split(" ")[1:]:
        operation, _, rest = at.partition(":")
        if operation in ("answer", "run"):
            ended, replies = plain.run(unquote_to_bytes(rest))
            assert not any(reply.startswith(b"fault") for reply, _ in replies)
            answers.append(told(ended, replies))
        elif operation in ("names", "objects"):
            answers.append("done")
        elif operation != "close":
            answers.append(left(plain) if operation == "left" else {"create": "created", "open": "opened", "recover": "recovered"}[operation])
    return " ".join(answers)


def sized(line):
    return row(f"sha1 {line}", lambda size: answered(expand(f"sha1 {line}", size)))


def streams(*parts):
    """A row of one stream over a new repository, or of several with the folder closed and opened again before each but the first."""
    if len(parts) == 1:
        return sized("answer:" + marked(parts[0]))
    return sized("create open " + " close open ".join("run:" + marked(it) for it in parts) + " close recover open")


def commit(name, edits=b"", seconds=b"1"):
    return b"commit %s\n" % name + edits + SIGNED % (seconds, seconds)


def move(line):
    """A move of a name and of as many, to one commit."""
    return b"move\nto refs/heads/m " + line + b"\n[to refs/heads/# " + line + b"\n]" + BY_ALL


FILES = commit(b"refs/heads/main new", b"put file 1 1\nk\nk\n[put exec 6 4\nd/#\n#\n]") + b"files main\n"
FOLDERS = commit(b"refs/heads/main new", b"put file 1 1\nk\nk\n[put file 6 1\n#/a\na\n]")
TWO = commit(b"refs/heads/main new") + commit(b"refs/heads/other new", seconds=b"2")


def edits():
    """As many puts, grafts, and removals of files, folders and nothing, and then a log at as many paths."""
    gone = commit(b"refs/heads/main any", b"[remove-file 6\nd/#\n]") + b"files main\nshow main\n"
    put = commit(b"refs/heads/x new", b"[" + graft(b"#", b"main", b"k") + b"]")
    yield streams(FILES + put + b"files x\n" + gone + commit(b"refs/heads/x any", b"[remove 4\n#\n][remove 6\na/#\n]") + b"show x\n"
                  + b"log breadth all +main[ path 6]\n[d/#\n]")
    put = commit(b"refs/heads/x new", graft(b"e", b"main", b"")) + b"files x\n"
    yield streams(FOLDERS + put + commit(b"refs/heads/main any", b"[put link 6 1\n#/b\nb\n]") + b"files main\nlog newest all +main[ path 4]\n[#\n]")


def names():
    """As many names made, moved, packed, moved behind that, deleted and listed."""
    listed = b"names\nnames refs/heads\n"
    yield streams(TWO + move(b"new main") + listed + move(b"at main other") + PACK + b"names\n", move(b"any main") + listed + b"pack\n")
    yield streams(TWO + move(b"new main") + b"[delete refs/heads/# at main\n]names\n")
    yield streams(TWO + move(b"new main") + PACK, b"delete refs/heads/m any\nrename refs/heads/other refs/tags/t\nnames\n" + PACK)


def logs():
    """A log of as many items, and a parent as often."""
    tips = b"".join(b"log %s%s %s +m[ +m]\n" % (it, b" 1" * it.endswith(b"since"), how) for it in ORDERS for how in (b"all", b"first"))
    made = commit(b"refs/heads/m new") + commit(b"refs/heads/m any", seconds=b"2") + commit(b"refs/heads/n new", seconds=b"3")
    yield streams(made + tips)
    yield streams(made + b"".join(b"log %s%s all +n[ -m]\n" % (it, b" 1" * it.endswith(b"since")) for it in ORDERS))
    yield streams(made + commit(b"refs/heads/p new", b"[parent m\n]"))


def long_names():
    """A name as long, and one in as many folders."""
    for name in (b"refs/heads/[a]", b"refs/heads/a[/a]"):
        other = name + b"b"
        made = commit(name + b" new") + tag(b"refs/tags/t new " + name) + b"past " + name + b"\nlog newest all +" + name + b"\n"
        yield streams(made + b"rename " + name + b" " + other + b"\npack\nswitch " + other + b"\nnames " + other + b"\nnames\n",
                      b"delete " + other + b" any\nnames\n")


def parts():
    """Contents as long, and as many of what a recovery takes away."""
    for text in ("c*#", "[#]"):
        def put(size):
            data = b"c" * size if text == "c*#" else expand(text, size).encode()
            oid, _ = Plain("sha1").id(b"blob", data)
            at = f"objects/{oid[:2].decode()}/{oid[2:].decode()}"
            return f"{oid.decode()} exists blob:{word(data)} first Malformed opened Stray:{at}"
        yield row(f"sha1 put:{text}", put)
    folders = "".join(f" names:folder:{it}" for it in ("refs", "refs/heads", "logs", "logs/refs"))
    yield sized(f"create{folders}[ names:write:refs/heads/#.lock:x][ names:write:logs/refs/#:x][ names:folder:refs/heads/#] recover left")


BLOB = "11" * 20


def files(below):
    """As many files right in the root or, each in a folder, below it: made, listed, found at their paths, and taken away."""
    at = "~" + below.hex()
    line = f"files sha1[ put:file:{at}:{BLOB}] edit files by-trees at:{(b'0000' + below).hex()} each[:{at}][ remove:{at}] edit"

    def answer(size):
        plain, folders = Plain("sha1"), size if below else 0
        paths = [b"%04d" % it + below for it in range(size)]
        root = plain.tree({it: (b"100644", BLOB.encode()) for it in paths}).decode()
        listed = "".join(f" file:{BLOB}:{it.hex()}" for it in paths)
        found = f"{root} written {1 + folders} lookups 0 asked 0 known+"
        for asked in (1 + folders, len(plain.objects)):
            found += f" files {size}{listed} asked {asked}"
        found += f" file:{BLOB} asked {2 if below else 1}" if size else " none asked 1"
        asked = 1 + folders if size else 0
        found += f" file:{BLOB}" * size + f" told {asked} asked {asked}"
        return f"{found} {plain.tree({}).decode()} written 1 lookups {1 + folders} asked {1 + folders} known+"

    return row(line, answer)


def rows():
    for part in (edits, names, logs, long_names, parts):
        yield from part()
    yield files(b"")
    yield files(b"/a")


def summed(ended, replies):
    return f"{ended}:{hashlib.sha1(b''.join(reply for reply, _ in replies)).hexdigest()[:4]}"


def histories():
    """As many commits behind the first, each of which moves the name once more, without rows and with them: one repository that grows."""
    listed = b"".join(b"log %s%s all +main\n" % (it, b" 1" * it.endswith(b"since")) for it in ORDERS)
    for asked in (b"past main\nlog breadth first +main\n" + listed, b"index\n" + listed):
        plain = Plain("sha1")
        words, answers = ["create", "open"], ["created", "opened"]
        for size in SIZES:
            count = size + 1 - len(plain.commits)
            for more in (commit(b"refs/heads/main any"), asked):
                text = word(more) + (f"*{count}" if more != asked else "")
                words.append(f"sum:{text}")
                answers.append(summed(*plain.run(more * count if more != asked else more)))
            words += ["close", "open"]
            answers.append("opened")
        ROWS.append((f"sha1 {' '.join(words)}", " ".join(answers)))


def tags():
    """As many tags, in files and packed: up to 65."""
    made = commit(b"refs/heads/main new")
    for size in range(SIZES[5] + 1):
        made += (tag(b"refs/tags/%d new main" % size) if size else b"") + (b"names\npack\nnames\n" if size in SIZES else b"")
    text, data = spelled(made)
    ended, replies = Plain("sha1").run(data)
    ROWS.append((f"sha1 answer:{text}", told(ended, replies)))


def roots():
    """As many parents, and tips, that are different commits: up to one more than the most parents."""
    few = SIZES[:6]
    made = b"".join(commit(b"refs/heads/%d new" % it, seconds=b"%d" % it) for it in range(few[-1]))
    for size in few:
        made += commit(b"refs/heads/p%d new" % size, b"".join(b"parent %d\n" % it for it in range(size))) + b"show p%d\n" % size
    for size in few[1:]:
        made += b"".join(b"log %s all%s\n" % (it, b"".join(b" +%d" % at for at in range(size))) for it in (b"breadth", b"newest", b"date", b"topological"))
    text, data = spelled(made)
    ended, replies = Plain("sha1").run(data)
    assert (ended, refusals(replies)) == ("Input", ["TooManyParents", "UnknownWord"])
    ROWS.append((f"sha1 answer:{text}", told(ended, replies)))


def lengths():
    """A content, a path, a path of so many names, an actor's name and email, and a message of a commit and of a tag, each of each length."""
    any_, new = b"commit refs/heads/main any\n", b"commit refs/heads/p%d new\n"
    fields = (
        lambda size: [any_ + b"put file 1 %d\na\n" % size, Long(b"c", size), b"\n" + ONE + b"show main path 1\na\n"],
        lambda size: [new % size + b"put file %d 1\n" % size, Long(b"p", size), b"\nx\n" + ONE + b"files p%d\n" % size],
        lambda size: [new % size + b"put file %d 1\n" % (2 * size + 1), Long(b"p/", size), b"p\nx\n" + ONE + b"files p%d\n" % size],
        lambda size: [any_ + b"author %d %d 1 +0000\n" % (size, size), Long(b"n", size), b"\n", Long(b"e", size),
                      b"\n" + ONE.partition(b"a@b\n")[2] + b"show main\n"],
        lambda size: [any_ + ONE.partition(b"message")[0] + b"message %d\n" % size, Long(b"m", size), b"\nend\nshow main\n"],
        lambda size: [any_ + ONE.partition(b"message")[0] + b"message %d\nm\n" % (size + 2), Long(b"m", size), b"\nend\nshow main\n"],
        lambda size: [b"tag refs/tags/t any main\n" + ONE.partition(b"committer")[0].replace(b"author", b"tagger")
                      + b"message %d\nm\n" % (size + 2), Long(b"m", size), b"\nend\nshow t\n"])
    for field in fields:
        text, data = spelled([commit(b"refs/heads/main new"), *(it for size in SIZES for it in field(size))])
        ended, replies = Plain("sha1").run(data)
        assert ended == "Input" and not any(reply.startswith(b"fault") for reply, _ in replies)
        ROWS.append((f"sha1 answer:{text}", told(ended, replies)))


if __name__ == "__main__":
    write(__file__, list(rows()))
