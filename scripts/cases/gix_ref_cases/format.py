"""Writes the rows of `format` in ../stdin and ../stdout. Each answer comes from git itself, asked in a repository made for it, or from a table of
Git's documents; none from the program.

`git pack-refs` writes the packed files, `git for-each-ref` prints their records; a loose text is put into a file of the
repository, and `git symbolic-ref` or `git rev-parse` prints what it points to; `git rev-parse` looks words up.
"""
import os
import shutil
import subprocess
import sys
import tempfile
from pathlib import Path

sys.path.append(str(Path(__file__).resolve().parents[1]))
from families import write as write_rows

rows = []
folder = tempfile.mkdtemp()
quiet = {"stdout": subprocess.PIPE, "stderr": subprocess.DEVNULL}
people = dict(os.environ, GIT_AUTHOR_NAME="a", GIT_AUTHOR_EMAIL="a@b", GIT_COMMITTER_NAME="a", GIT_COMMITTER_EMAIL="a@b",
              GIT_AUTHOR_DATE="1000000000 +0000", GIT_COMMITTER_DATE="1000000000 +0000", GIT_CONFIG_GLOBAL="/dev/null", GIT_CONFIG_SYSTEM="/dev/null")


def git(*words, fails=False):
    done = subprocess.run(["git", *words], cwd=folder, env=people, **quiet)
    if done.returncode != 0:
        assert fails, words
        return None
    return done.stdout.decode("latin-1").rstrip("\n")


def add(case, answer):
    rows.append((case, answer))


def place(name):
    return os.path.join(folder, ".git", *name.split("/"))


def write(name, data):
    os.makedirs(os.path.dirname(place(name)), exist_ok=True)
    with open(place(name), "wb") as f:
        f.write(data)


def records():
    """What git prints of all references: target, name, and the object that a tag leads to."""
    told = git("for-each-ref", "--format=%(objectname) %(refname)")
    lines = [line.split(" ") for line in told.split("\n")] if told else []
    return [(target, name, git("rev-parse", "--verify", "-q", name + "^{}")) for target, name in lines]


def completed(word):
    """The record that git finds for a word: it prints the id, and of the names of gitrevisions the first that exists has it."""
    id = git("rev-parse", "--verify", "-q", word, fails=True)
    names = [word] if word.startswith("refs/") else [f"refs/{word}", f"refs/tags/{word}", f"refs/heads/{word}", f"refs/remotes/{word}", f"refs/remotes/{word}/HEAD"]
    hits = [r for name in names for r in told if r[1] == name]
    assert (hits[0][0] if hits else None) == id, word
    return hits[0] if hits else None


git("init", "-q", "-b", "main")
one = git("commit-tree", "-m", "one", git("write-tree"))
two = git("commit-tree", "-m", "two", "-p", one, git("write-tree"))
three = git("commit-tree", "-m", "three", "-p", two, git("write-tree"))
names = {"refs/heads/main": two, "refs/heads/a": one, "refs/heads/a.b": two, "refs/heads/ab": three, "refs/heads/b/c": one, "refs/heads/HEAD": two,
         "refs/tags/light": one, "refs/remotes/origin/main": two, "refs/remotes/origin/HEAD": three, "refs/remotes/up": one, "refs/notes/x": one,
         "refs/tags/main": three, "refs/remotes/a": three, "refs/x": two, "refs/heads/z": three, "refs/heads/a-b": one, "refs/heads/a0": two}
for name, id in names.items():
    git("update-ref", name, id)
git("tag", "-a", "-m", "m", "v1", one)
git("tag", "-a", "-m", "m", "v2", "v1")
git("tag", "-a", "-m", "m", "a", two)
git("pack-refs", "--all", "--prune")
with open(place("packed-refs"), "rb") as f:
    packed = f.read()
told = records()
shown = "".join(f"{t} {n} {o}; " for t, n, o in told)

# ---- packed files that git wrote, and the same by hand: without a header, with other headers, out of order

lines = packed.split(b"\n")[:-1]
assert lines[0].startswith(b"#")
body = lines[1:]
blocks = []
for line in body:
    if line.startswith(b"^"):
        blocks[-1].append(line)
    else:
        blocks.append([line])


def text(parts):
    return b"".join(line + b"\n" for block in parts for line in block)


backwards = text(reversed(blocks))
shown_backwards = "".join(f"{t} {n} {o}; " for t, n, o in reversed(told))
bare = text(blocks)
for data, answer in [(packed, shown), (bare, shown), (backwards, shown_backwards), (b"# pack-refs with: peeled\n" + backwards, shown_backwards),
                     (b"", ""), (b"# pack-refs with: \n", ""), (b"# pack-refs with:\n" + bare, shown), (packed.replace(b"\n", b"\r\n"), shown)]:
    add("items " + data.hex() if data else "items ", answer)
    add("open " + data.hex() if data else "open ", "opened")
    add("bytes " + data.hex() if data else "bytes ", data.hex())
for data in [packed, bare, backwards, b"# pack-refs with: peeled fully-peeled \n" + backwards]:
    # git itself reads the file that was put together by hand
    write("packed-refs", data)
    assert sorted(records()) == sorted(told), "git reads another file"
    words = ["main", "a", "ab", "a.b", "b/c", "c", "b", "v1", "v2", "light", "origin", "origin/main", "up", "x", "notes/x", "heads/main", "tags/a", "remotes/a",
             "remotes/origin", "z", "zz", "a-b", "a0", "heads/a0", "refs/heads/a", "refs/heads/ab", "refs/heads/abc", "refs/heads/", "refs/x", "refs/a",
             "refs/tags/v1", "refs/tags/v3", "nosuch", "heads", "refs/heads/z", "refs/heads/A", "refs/remotes/origin/HEAD", "refs/notes/x"]
    for word in words:
        if word.endswith("/"):
            add(f"find {word} {data.hex()}", "no name")
            continue
        hit = completed(word)
        answer = "{} {} {}".format(*hit) if hit else "none"
        add(f"find {word} {data.hex()}", answer)
        add(f"must {word} {data.hex()}", answer if hit else "not found")
        if word.startswith("refs/"):
            add(f"whole {word} {data.hex()}", answer)
    # in git's order, whatever order the file has
    add("all " + data.hex(), shown)
    for front in ["refs/", "refs/heads/", "refs/heads/a", "refs/heads/a/", "refs/heads/a.", "refs/tags/v", "refs/z", "x", "refs/heads/b/c", "refs/remotes/origin/"]:
        add(f"begin {front} {data.hex()}", "".join(f"{t} {n} {o}; " for t, n, o in told if n.startswith(front)))

# ---- names of which a worktree has its own, though a record be there (gitrepository-layout, git-worktree)

own = text([[f"{one} {name}".encode()] for name in ["HEAD", "refs/bisect/bad", "refs/heads/w", "refs/rewritten/x", "refs/worktree/y"]])
for name in ["HEAD", "refs/bisect/bad", "refs/rewritten/x", "refs/worktree/y", "main-worktree/HEAD", "main-worktree/refs/bisect/bad", "worktrees/w/HEAD",
             "worktrees/w/refs/worktree/y", "bisect/bad"]:
    add(f"find {name} {own.hex()}", "none")
for name in ["refs/heads/w", "main-worktree/refs/heads/w", "worktrees/w/refs/heads/w", "w"]:
    add(f"find {name} {own.hex()}", f"{one} refs/heads/w {one}")

# ---- bad lines: git refuses the whole file

bads = {b"x\n": 1, bare[:-1]: len(body), one.encode() + b"  refs/heads/x\n": 1, one.encode() + b" refs/heads/x y\n": 1, one[:39].encode() + b" refs/heads/x\n": 1,
        b"^" + one.encode() + b"\n": 1, one.encode() + b"0 refs/heads/x\n": 1, one.encode() + b" refs/heads/x\n\n": 2, b"g" + one[1:].encode() + b" refs/heads/x\n": 1,
        b"# pack-refs with: \nx\n": 2, one.encode() + b" refs/heads/x\n^" + two.encode() + b"\n^" + two.encode() + b"\n": 3,
        one.encode() + b"\trefs/heads/x\n": 1, bare + b"^" + one[:20].encode() + b"\n": len(body) + 1, one.encode() + b"\n": 1, b"\n": 1}
for data, number in bads.items():
    add("open " + data.hex(), f"bad {number}")
for data in [b"#\n", b"# pack-refs\n", b"# pack-refs with:", b"#x\n" + bare]:
    add("open " + data.hex(), "no header")
    add("items " + data.hex(), "no header")
good = one.encode() + b" refs/heads/x\n"
add("items " + (b"x\n" + good + b"^\n" + good).hex(), f"bad 1; {one} refs/heads/x {one}; bad 3; {one} refs/heads/x {one}; ")
add("items " + (good + b"^" + two.encode() + b"\n^" + two.encode() + b"\n" + good).hex(), f"{one} refs/heads/x {two}; bad 3; {one} refs/heads/x {one}; ")
add("items " + (good + b"^" + two.encode()).hex(), f"{one} refs/heads/x {one}; bad 2; ")
# of two records of one name the first counts, as a search line by line has it
twice = f"{one} refs/heads/x\n{two} refs/heads/x\n{three} refs/heads/a\n".encode()
add("find x " + twice.hex(), f"{one} refs/heads/x {one}")
upper = b"D53C4B0F91F1B29769C9430F2D1C0BCAB1170C75 refs/heads/uppercase\n^E9CDC958E7CE2290E2D7958CDB5AA9323EF35D37\n"
add("items " + upper.hex(), "d53c4b0f91f1b29769c9430f2d1c0bcab1170c75 refs/heads/uppercase e9cdc958e7ce2290e2d7958cdb5aa9323ef35d37; ")

# ---- files opened again over what is known of them, and after the deletion of a name's record, which git makes


def opened(data):
    """What git prints of the records of this file."""
    write("packed-refs", data)
    return "".join(f"{t} {n} {o}; " for t, n, o in records())


def without(data, name):
    """The file that git leaves of this one when it deletes the name."""
    write("packed-refs", data)
    git("update-ref", "-d", name)
    with open(place("packed-refs"), "rb") as f:
        return f.read()


def add_opened(known, file, answer, gone=None):
    """A row of `known`, or of `less` if a name is gone."""
    digits = "none" if file is None else file.hex()
    add(f"less {gone}:{digits} {known.hex()}" if gone else f"known {digits} {known.hex()}", answer)


other_header = b"# pack-refs with: peeled fully-peeled \n"
alone = packed.split(b"\n")[0] + b"\n" + good
gone = "refs/heads/a"
left = without(packed, gone)
# another id in a file of the same length, and a tag without its peeled id, which then is none
moved = left.replace(three.encode() + b" refs/heads/ab\n", two.encode() + b" refs/heads/ab\n")
tag, first = [(t, o) for t, n, o in told if n == "refs/tags/v1"][0]
unpeeled = left.replace(b" refs/tags/v1\n^" + first.encode(), b" refs/tags/v1")
assert len(moved) == len(left) != len(unpeeled) and moved != left
unpeeled_shown = opened(left).replace(f"{tag} refs/tags/v1 {first};", f"{tag} refs/tags/v1 {tag};")
for data in [packed, bare, backwards, other_header + backwards, alone, b""]:
    add_opened(data, data, opened(data))
    add_opened(data, data, opened(data), "refs/heads/nosuch")
    add_opened(data, None, "none")
    add_opened(data, None, "none", gone)
for data in [left, moved, bare, backwards, other_header + bare, alone, b""]:
    add_opened(packed, data, opened(data))
    add_opened(data, packed, shown)
    add_opened(packed, data, opened(data), gone)
    add_opened(data, packed, shown, gone)
add_opened(left, moved, opened(moved))
add_opened(packed, unpeeled, unpeeled_shown)
add_opened(packed, unpeeled, unpeeled_shown, gone)
for name in [gone, "refs/heads/ab", "refs/heads/z", "refs/notes/x", "refs/tags/v1", "refs/tags/v2", "refs/x"]:
    data = without(packed, name)
    for known in [packed, backwards]:
        add_opened(known, data, opened(data), name)
    add_opened(packed, packed, shown, name)
add_opened(packed, without(packed, "refs/x"), opened(without(packed, "refs/x")), gone)
add_opened(alone, without(alone, "refs/heads/x"), "", "refs/heads/x")
# both records of a name go, and of both that stay the first is before the other
last = f"{three} refs/heads/a\n".encode()
add_opened(twice, alone.split(b"\n")[0] + b"\n" + last, f"{three} refs/heads/a {three}; ", "refs/heads/x")
add_opened(twice, twice[:-len(last)], f"{one} refs/heads/x {one}; {two} refs/heads/x {two}; ", gone)
for data in [b"x\n", bare[:-1], good + b"\n", packed + b"^" + one.encode() + b"\n^" + one.encode() + b"\n"]:
    for name in [None, gone]:
        add_opened(packed, data, f"bad {bads.get(data) or len(lines) + 2}", name)
for name in [None, gone]:
    add_opened(packed, b"#x\n" + bare, "no header", name)
write("packed-refs", packed)

# ---- loose texts: git reads them if the program should

git("pack-refs", "--all", "--prune")
ids = [one.encode() + b"\n", one.encode(), one.upper().encode() + b"\n", one.encode() + b"\r\n", one.encode() + b" x\n", one.encode() + b"\t\tbranch 'main' of /x\n",
       one.encode() + b"\n\n", one[:39].encode() + b"\n", one.encode() + b"0\n", b"g" + one[1:].encode() + b"\n", b"", b"\n", b" " + one.encode() + b"\n", one.encode() + b"x\n"]
for data in ids:
    write("refs/heads/t", data)
    id = git("rev-parse", "--verify", "-q", "refs/heads/t", fails=True)
    add("loose " + data.hex() if data else "loose ", id or "parse")
    add("again " + data.hex() if data else "again ", (id + "\n").encode().hex() if id else "parse")
    add("path " + data.hex() if data else "path ", "refs/heads/main Object" if id else "parse")
texts = [b"ref: refs/heads/main\n", b"ref: refs/heads/main", b"ref:   refs/heads/main\n", b"ref: refs/heads/main\r\n", b"ref: refs/heads/no.such\n", b"ref: refs/heads/a\xc3\xa9\n"]
for data in texts:
    write("refs/heads/t", data)
    name = git("symbolic-ref", "--no-recurse", "refs/heads/t")
    add("loose " + data.hex(), "ref: " + name.encode("latin-1").decode())
    add("again " + data.hex(), b"ref: ".hex() + name.encode("latin-1").hex() + "0a")
    add("path " + data.hex(), "refs/heads/main Symbolic")
for data in [b"ref: refs/heads/a..b\n", b"ref: \n", b"ref: refs/heads/x.lock\n", b"ref: refs/heads/a b\n", b"ref: refs/heads/a\nrefs/heads/b\n", b"ref: ", b"ref: refs//heads\n"]:
    write("refs/heads/t", data)
    assert git("rev-parse", "--verify", "-q", "refs/heads/t", fails=True) is None
    add("loose " + data.hex(), "name")
for data in [b"reff: hello\n", b"refs/heads/main\n", b"re", b"foobar"]:
    write("refs/heads/t", data)
    assert git("rev-parse", "--verify", "-q", "refs/heads/t", fails=True) is None
    add("loose " + data.hex(), "parse")

shutil.rmtree(folder)
write_rows(__file__, rows)
