"""Writes the rows of `packed` in ../stdin and ../stdout: files `packed-refs` of git, edits of them, and the files that git makes of these.

Each answer is the file that git writes: for a removal after `git update-ref -d`, for records that are written after `git update-ref` and
`git pack-refs --all`. A file that git doesn't write itself, unsorted or with several records of a name, is answered by the rule of the
table at the end.
"""
import sys
import tempfile
from pathlib import Path

sys.path.append(str(Path(__file__).resolve().parents[1]))
from families import write
from git_packed import git, packed

rows = []


def add(kind, before, edits, after):
    text = "".join(edit + "\n" for edit in edits).encode()
    rows.append((f"{kind} {before.hex()} {text.hex()}", after.decode().replace("\n", "|")))


def ids(room):
    tree = git(room, "mktree")
    one, two = [git(room, "commit-tree", "-m", text, tree) for text in ["one", "two"]]
    tags = {}
    for name, target in [("v1", one), ("v2", two)]:
        body = f"object {target}\ntype commit\ntag {name}\ntagger a <b> 1 +0000\n\nx\n"
        tags[name] = git(room, "hash-object", "-w", "-t", "tag", "--stdin", text=body.encode()), target
    return one, two, tags


def repository(kind):
    """A repository with some packed names; loose files are gone."""
    room = tempfile.mkdtemp()
    git(room, "init", "-q", f"--object-format={kind}")
    one, two, tags = ids(room)
    for name, target in [("refs/heads/main", one), ("refs/heads/a", two), ("refs/heads/a-b", one), ("refs/heads/a.b", two), ("refs/heads/z/y", one),
                         ("refs/remotes/origin/main", two), ("refs/notes/commits", one)]:
        git(room, "update-ref", name, target)
    for name, (tag, _) in tags.items():
        git(room, "update-ref", f"refs/tags/{name}", tag)
    git(room, "pack-refs", "--all")
    return room, one, two, tags


def try_edits(kind, edits):
    """The file before, and the one that git leaves after the edits; each of these lines is the edit of a row."""
    room, one, two, tags = repository(kind)
    before = packed(room)
    lines = []
    for word, name, what in edits:
        if word == "drop":
            git(room, "update-ref", "-d", name)
            lines.append(f"drop {name}")
            continue
        target, peeled = {"one": (one, ""), "two": (two, ""), **{tag: (told, " " + end) for tag, (told, end) in tags.items()}}[what]
        git(room, "update-ref", name, target)
        lines.append(f"write {target} {name}{peeled}")
    if any(word == "write" for word, _, _ in edits):
        git(room, "pack-refs", "--all")
    add(kind, before, lines, packed(room))


lists = [[], [("drop", "refs/heads/a", None)], [("drop", "refs/heads/main", None)], [("drop", "refs/tags/v1", None)], [("drop", "refs/tags/v2", None)],
         [("write", "refs/heads/a", "one")], [("write", "refs/heads/new", "two")], [("write", "refs/aa", "one")], [("write", "refs/zz", "two")],
         [("write", "refs/tags/v3", "v1")], [("write", "refs/tags/v1", "v2")], [("write", "refs/tags/v1", "one")], [("write", "refs/notes/a0", "v1")],
         [("drop", "refs/heads/z/y", None), ("write", "refs/heads/z", "one")], [("write", "refs/heads/b", "one"), ("write", "refs/heads/B", "two")],
         [("drop", "refs/heads/a-b", None), ("drop", "refs/heads/a.b", None), ("write", "refs/heads/a_b", "one"), ("drop", "refs/notes/commits", None)],
         [("drop", name, None) for name in ["refs/heads/main", "refs/heads/a", "refs/heads/a-b", "refs/heads/a.b", "refs/heads/z/y",
                                            "refs/remotes/origin/main", "refs/notes/commits", "refs/tags/v1", "refs/tags/v2"]]]
for kind in ["sha1", "sha256"]:
    for edits in lists:
        try_edits(kind, edits)

# What git doesn't write: no file, a file without a header, unsorted ones, several records or several edits of a name. The first of a name
# counts, and all is written in order, with the whole header.
header = b"# pack-refs with: peeled fully-peeled sorted \n"
x, y, z = (digit * 40 for digit in "123")
records = {name: f"{target} {name}\n".encode() for name, target in [("refs/heads/a", x), ("refs/heads/b", y), ("refs/tags/t", z)]}
a, b, t = records.values()
peel = f"^{x}\n".encode()
other = f"{z} refs/heads/a\n".encode()
for before, edits, after in [
        (b"", [], header), (b"", [f"write {x} refs/heads/a"], header + a), (b"", ["drop refs/heads/a"], header), (header, ["drop refs/heads/a"], header),
        (b + a, [], header + a + b), (t + peel + a, [], header + a + t + peel), (t + peel + b + a, ["drop refs/heads/b"], header + a + t + peel),
        (a + other + b, [], header + a + b), (other + b + a, [], header + other + b), (a + other, ["drop refs/heads/a"], header),
        (a + other, [f"write {y} refs/heads/b"], header + a + b), (b, [f"write {x} refs/heads/a", f"write {z} refs/heads/a"], header + a + b),
        (a, ["drop refs/heads/a", f"write {z} refs/heads/a"], header), (t + peel, [f"write {z} refs/tags/t"], header + t),
        (t, [f"write {z} refs/tags/t {x}"], header + t + peel), (b"# pack-refs with: sorted\n" + a, [f"write {y} refs/heads/b"], header + a + b),
        (b"AbC0" * 10 + b" refs/heads/a\n", [], header + b"abc0" * 10 + b" refs/heads/a\n")]:
    add("sha1", before, edits, after)
for before, edits, answer in [(b"# none\n", [], "unread"), (b"x\n", [], "unread"), (a[:-1], [], "unread"), (b"", ["lose refs/heads/a"], "refused"),
                              (b"", [f"write {x} main"], "refused"), (b"", [f"write {x[1:]} refs/heads/a"], "refused"), (b"", ["drop main"], "refused")]:
    text = "".join(edit + "\n" for edit in edits).encode()
    rows.append((f"sha1 {before.hex()} {text.hex()}", answer))

write(__file__, rows)
