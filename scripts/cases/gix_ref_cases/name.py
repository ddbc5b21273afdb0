"""Writes the rows of `name` in ../stdin and ../stdout: names with what git says of them, and tables of documented answers.

Each answer comes from `git check-ref-format` (with `--allow-onelevel` for partial names), from the files of references that git
writes, from Git's documents (gitnamespaces, git-update-ref), from Python's `unicodedata`, or by hand; none from the program.
"""
import os
import random
import subprocess
import sys
import tempfile
import unicodedata
from pathlib import Path

sys.path.append(str(Path(__file__).resolve().parents[1]))
from families import write

rows = []


def add(operation, data, answer):
    add_fields(operation, [data], answer)


def add_fields(operation, fields, answer):
    rows.append((" ".join([operation, *(field.hex() for field in fields)]), answer))


def git_takes(name, *flags):
    if b"\0" in name or not name:
        return False
    return subprocess.run([b"git", b"check-ref-format", *flags, name]).returncode == 0


def rules(name):
    """Whether git takes it for a partial name, and whether for a full one."""
    # A dash would be read as an option; the rules say nothing of dashes.
    asked = b"x" + name if name.startswith(b"-") else name
    partial = git_takes(asked, b"--allow-onelevel")
    capitals = all(65 <= b <= 90 or b == 95 for b in name)
    return partial, git_takes(asked) or (partial and capitals)


def name_row(name):
    partial, full = rules(name)
    add("name", name, f"{str(partial).lower()} {str(full).lower()}")


hard = [b"", b"@", b"@@", b"a@", b"@a", b"a/@", b"@/a", b"HEAD", b"FETCH_HEAD", b"head", b"Head", b"HEAD1", b"_", b"A_B", b"HEAD/a",
        b"refs/heads/main", b"refs/heads", b"refs", b"refs/", b"/refs", b"/", b"//", b"a//b", b"a/b/", b".", b"..", b".a", b"a.",
        b"a..b", b"a.b", b"a/.b", b"a./b", b"a/b.", b"a.lock", b"a.lock/b", b"a/b.lock", b"a.lockb", b"a.lock.b", b".lock", b"a/.lock",
        b"lock", b"a.LOCK", b"a@{b", b"a@{", b"@{", b"a{b", b"a@b", b"a@}", b"-", b"-a", b"a-", b"a/-b", b"a\x7fb", b"a\x80b",
        b"a\xffb", b"\xc3\xa9", b"\xc3", b"a\xe2\x82\xacb", b"refs/heads/\xff", b"refs/tags/v1.0", b"refs/stash", b"stash",
        b"worktrees/a/HEAD", b"main-worktree/HEAD", b"refs/heads/a.b.c", b"refs/heads/a.lock/x", b"refs/heads/@", b"refs/heads/@{-1}"]
for name in hard:
    name_row(name)
for byte in range(1, 256):
    name_row(bytes([byte]))
    name_row(b"a/" + bytes([byte]) + b"b")
random.seed(26)
letters = [b"a", b"B", b".", b"/", b"@", b"{", b"~", b"^", b".lock", b"_", b"*", b" ", b"\\", b"refs/"]
for _ in range(400):
    name_row(b"".join(random.choice(letters) for _ in range(random.randint(1, 6))))

# Names of each category.
table = [
    b"refs/tags/v1", b"refs/tags/a/b", b"refs/heads/main", b"refs/heads/refs/heads/x", b"refs/remotes/origin/main", b"refs/notes/commits",
    b"refs/bisect/bad", b"refs/rewritten/onto", b"refs/worktree/foo", b"HEAD", b"FETCH_HEAD", b"main-worktree/HEAD", b"main-worktree/refs/heads/x",
    b"main-worktree/refs/bisect/bad", b"worktrees/w/HEAD", b"worktrees/w/refs/heads/x", b"worktrees/refs/HEAD", b"refs/heads/a/refs/b",
]
for name in table:
    # What comes after the whole front is repeated, unless it begins with the front.
    add("again", name, {b"refs/heads/refs/heads/x": "refs/heads/x"}.get(name, name.decode()))

# A view and a name of its own, and both again of a full name; bytes that are no text as Unicode's recommendation has them.
for name in [b"main", b"a/b", b"caf\xc3\xa9", b"\xff", b"a\xe2\x82b", b"\xf0\x9f\x98", b"HEAD", b"refs/heads/main", b"refs/heads/caf\xc3\xa9",
             b"refs/heads/\xff\xfe", b"refs/heads/\xe2\x82/\xc3"]:
    full = b"/" in name or name == b"HEAD"
    add("shown", name, " ".join([name.decode(errors="replace")] * (4 if full else 2)))
for name in [b"a..b", b"refs/heads/a.lock"]:
    add("shown", name, "refused")

for name in [b"foo", b"foo/bar", b"a/b/c"]:
    front = "".join(f"refs/namespaces/{part}/" for part in name.decode().split("/"))
    add("namespace", name, f"{front} {front}refs/heads/main")
add("namespace", b"a..b", "refused")

for text in ["cafe\u0301", "\u0041\u030a", "abc", "\u1100\u1161", "o\u0308\u0304", "\ufb01", "\u00e9"]:
    add("composed", text.encode(), unicodedata.normalize("NFC", text).encode().hex())
for data in [b"\xff", b"a\xc3", b"e\xcc"]:
    add("composed", data, data.hex())

broken = "the bytes break a rule of reference names"
some = [b"main", b"HEAD", b"refs/heads/main", b"a/b", b"caf\xc3\xa9", b"refs/tags/caf\xc3\xa9", b"-a", b"worktrees/w/HEAD", b"a..b", b"",
        b"a.lock", b"/a", b"refs/heads/", b"@", b"a b", b"refs/heads/x.lock"]


def times(name, number, is_name):
    return " ".join([name.decode() if is_name else "refused"] * number)


# What names of their own and their views hold, however they are made: the name, if git takes it.
for name in some:
    partial, full = rules(name)
    add("partial", name, times(name, 3, True) if partial else broken)
    add("path", name, times(name, 3, full) if full else "refused")
    add("last", name, times(name.rpartition(b"/")[2], 2, full) if full else "refused")
for name, component in [(b"refs/heads", b"main"), (b"a", b"b/c"), (b"a", b""), (b"a", b"/b"), (b"a", b".b"), (b"a", b"b.lock"), (b"a", b"b/"),
                        (b"a", b"@"), (b"@a", b"@{b"), (b"HEAD", b"x"), (b"a", b"caf\xc3\xa9"), (b"a", b"b c"), (b"a.", b"b")]:
    whole = name + b"/" + component
    answer = whole.decode() if rules(whole)[0] else broken
    add_fields("join", [name, component], answer if rules(name)[0] else "refused")
add_fields("join", [b"a..b", b"c"], "refused")
add_fields("join", [b"a.lock", b"c"], "refused")

def front_of(name):
    return b"".join(b"refs/namespaces/" + part + b"/" for part in name.split(b"/"))


# gitnamespaces: each component is a level of its own. What is left must be a full name, or the name stays.
for name in [b"foo", b"foo/bar"]:
    for prefix in [b"refs/heads/", b"", b"refs/tags/v1", b"HEAD"]:
        front = front_of(name).decode()
        add_fields("prefixed", [name, prefix], f"{front}{prefix.decode()} {front} {front}")
    for rest in [b"refs/heads/main", b"HEAD", b"refs/namespaces/foo/x", b"main", b"Head", b"a/b"]:
        left = rest if rules(rest)[1] else front_of(name) + rest
        add_fields("strip", [front_of(name) + rest, name], left.decode())
    for whole in [b"refs/heads/main", b"HEAD", b"refs/namespaces/fo/HEAD", b"refs/namespaces/foo", b"x/refs/namespaces/foo/HEAD"]:
        add_fields("strip", [whole, name], whole.decode())
add_fields("prefixed", [b"a..b", b"x"], "refused")
add_fields("strip", [b"main", b"foo"], "refused")
add_fields("strip", [b"HEAD", b"a..b"], "refused")


def git(room, *words, text=b""):
    return subprocess.run(["git", "-C", room, *words], input=text, capture_output=True, check=True).stdout.strip().decode()


def files_of_git(kind):
    """The ids of two blobs, and the texts of the loose files that git writes for a name that points to each and for some symbolic ones."""
    with tempfile.TemporaryDirectory() as room:
        git(room, "init", "-q", f"--object-format={kind}")
        ids = [git(room, "hash-object", "-w", "--stdin", text=text) for text in [b"one", b"two"]]
        texts = []
        for digits in ids:
            git(room, "update-ref", "refs/tags/x", digits)
            texts.append((digits, None, os.path.join(room, ".git/refs/tags/x")))
            texts[-1] = (digits, None, open(texts[-1][2], "rb").read())
        for name in ["refs/heads/main", "refs/heads/a/b", "refs/remotes/origin/caf\u00e9"]:
            git(room, "symbolic-ref", "HEAD" if "heads" in name else "refs/remotes/origin/HEAD", name)
            path = ".git/HEAD" if "heads" in name else ".git/refs/remotes/origin/HEAD"
            texts.append((None, name, open(os.path.join(room, path), "rb").read()))
        return texts


# A target prints as the file that git writes for it; its id is what git was to write.
zeros = [(("0" * length), None, b"0" * length + b"\n") for length in (40, 64)]
written = files_of_git("sha1") + files_of_git("sha256")[:2] + zeros
for digits, _, text in written:
    assert text.endswith(b"\n")
    text = text[:-1]
    taken = f"id {digits}" if digits else f"back {text.decode()}"
    add("taken", text, f"{taken}; {taken}; {text.decode()}")
    # The null id has only zeros; git writes none, since it means that a reference doesn't exist.
    is_null = str(bool(digits) and set(digits) == {"0"}).lower()
    add("null", text, f"{is_null} {is_null}")
add("taken", b"ref: main", "refused")
add("null", b"ref: main", "refused")
# ---- lists of edits

NEW = "64c5e58854b06001b3a0c20edb97900dd0131025"


def ready(references, edits):
    """The edits after gix-ref's documents: in rounds, each of a symbolic reference leaves its log's part and adds the same edit of the
    reference that it leads to; the fifth round finds none to split. In the end no name may be there twice, and the least is reported."""
    listed = [dict(word=word, name=name, log="log" if word == "drop-log" else "both", asks=True, leads=not word.endswith("-here"))
              for word, name in edits]
    first, places = 0, []
    for number in range(5):
        added = []
        for place in range(first, len(listed)):
            edit = listed[place]
            target = references.get(edit["name"], "") if edit["leads"] else ""
            edit["leads"] = False
            if target.startswith("ref: "):
                added.append(dict(edit, name=target[5:], leads=True))
                places.append(place)
                edit.update(log="log", asks=edit["asks"] and edit["word"].startswith("drop"))
        if number == 4 and added:
            return "too far", []
        first = len(listed)
        listed += added
    names = sorted(edit["name"] for edit in listed)
    again = [one for one, other in zip(names, names[1:]) if one == other]
    if again:
        return f"twice {again[0]}", []
    shown = "".join(f"{edit['word'].split('-')[0]} {edit['name']} {edit['log']} {'asks' if edit['asks'] else 'free'} stays;" for edit in listed)
    return shown + "".join(f" {place}" for place in places), listed


def logs_and_changes(references, edits, others):
    """What git changes: the names whose logs get a line, and those that point to the new id afterwards."""
    with tempfile.TemporaryDirectory() as room:
        git(room, "init", "-q")
        git(room, "config", "core.logAllRefUpdates", "always")
        ids = [git(room, "-c", "user.name=a", "-c", "user.email=b", "commit-tree", "-m", text, git(room, "mktree")) for text in ["one", "two"]]
        for name, target in references.items():
            if target.startswith("ref: "):
                git(room, "symbolic-ref", name, target[5:])
        for name, target in references.items():
            if not target.startswith("ref: "):
                git(room, "update-ref", "--no-deref", name, ids[0])
        subprocess.run(["rm", "-rf", os.path.join(room, ".git/logs")], check=True)
        lines = "".join(f"option no-deref\nupdate {name} {ids[1]}\n" if word.endswith("-here") else f"update {name} {ids[1]}\n" for word, name in edits)
        git(room, "update-ref", "--stdin", text=lines.encode())
        names = {*references, *others}
        logged = {name for name in names if os.path.exists(os.path.join(room, ".git/logs", name))}
        texts = {name: open(os.path.join(room, ".git", name)).read().strip() for name in names if os.path.exists(os.path.join(room, ".git", name))}
        return logged, {name for name, text in texts.items() if text == ids[1]}


chain = {"HEAD": "ref: refs/heads/a", "refs/heads/a": "ref: refs/heads/b", "refs/heads/b": "ref: refs/heads/c",
         "refs/heads/c": "ref: refs/heads/d", "refs/heads/d": "ref: refs/heads/e", "refs/heads/e": NEW,
         "refs/heads/x": "ref: refs/heads/y", "refs/heads/y": NEW, "refs/heads/s": "ref: refs/heads/s", "refs/heads/p": "ref: refs/heads/q",
         "refs/heads/q": "ref: refs/heads/p", "refs/heads/n": "ref: refs/heads/none", "refs/heads/z": "ref: refs/heads/y"}
# git says the same of updates that none of its own rules refuses: a line for each name on the way, a change of the last alone. It also
# adds a line to HEAD's log if the name that HEAD points to is updated, which is no edit of the list.
for edits in [["move HEAD"], ["move refs/heads/a"], ["move refs/heads/b"], ["move refs/heads/d", "move refs/heads/x"], ["move refs/heads/e"],
              ["move-here refs/heads/x", "move refs/heads/y"], ["move refs/heads/x", "move refs/heads/c"], ["move refs/heads/n"],
              ["move refs/heads/a", "move refs/heads/x"], []]:
    pairs = [tuple(edit.split()) for edit in edits]
    answer, listed = ready(chain, pairs)
    if listed:
        logged, changed = logs_and_changes(chain, pairs, [edit["name"] for edit in listed])
        assert logged - {"HEAD"} == {edit["name"] for edit in listed} - {"HEAD"}, (edits, logged)
        assert changed == {edit["name"] for edit in listed if edit["log"] == "both"}, (edits, changed)
lists = [["move HEAD"], ["move refs/heads/a"], ["move refs/heads/b"], ["move refs/heads/d", "move refs/heads/x"], ["move refs/heads/e"],
         ["move-here refs/heads/x", "move refs/heads/y"], ["move refs/heads/x", "move refs/heads/c"], ["move refs/heads/n"],
         ["move refs/heads/a", "move refs/heads/x"], ["move-here HEAD", "move-here refs/heads/a"], [], ["drop refs/heads/a"],
         ["drop-log refs/heads/x"], ["drop-here refs/heads/x"], ["drop refs/heads/x", "move refs/heads/c"], ["move refs/heads/s"],
         ["move refs/heads/p"], ["drop refs/heads/q"], ["move refs/heads/x", "move refs/heads/y"], ["move refs/heads/x", "move refs/heads/z"],
         ["drop refs/heads/none"], ["move refs/heads/a", "move refs/heads/b"], ["drop-here refs/heads/s"],
         ["move-here refs/heads/y", "drop-here refs/heads/e", "move-here refs/heads/y", "move-here refs/heads/e"],
         ["move refs/heads/c", "drop refs/heads/n", "move refs/heads/x", "drop-log refs/tags/none"]]
for edits in lists:
    table_text = "".join(f"{name} {target}\n" for name, target in chain.items())
    add_fields("ready", [table_text.encode(), "".join(edit + "\n" for edit in edits).encode()], ready(chain, [tuple(edit.split()) for edit in edits])[0])
add_fields("ready", [b"refs/heads/a none", b""], "refused")
add_fields("ready", [b"", b"lose refs/heads/a"], "refused")
add_fields("ready", [b"", b"move main"], "refused")
for names in ["HEAD", "HEAD HEAD", "refs/heads/b refs/heads/a", "refs/heads/b refs/heads/a refs/heads/b refs/heads/a", "refs/heads/a refs/heads/a/b",
              "refs/heads/b HEAD refs/heads/b FETCH_HEAD", "refs/a-b refs/a/b refs/a.b refs/a/b refs/a-b", "refs/x refs/x refs/x", "refs/a refs/b refs/c"]:
    words = names.split()
    again = sorted(name for name in words if words.count(name) > 1)
    add("once", names.encode(), f"twice {again[0]}" if again else "once")
add("once", b"", "once")
add("once", b"main", "refused")
for word in ["move", "move-here", "drop", "drop-here", "drop-log"]:
    for name in ["HEAD", "refs/heads/a"]:
        add_fields("copied", [word.encode(), name.encode()], f"true {str((word, name) == ('move', 'HEAD')).lower()}")
add_fields("copied", [b"lose", b"HEAD"], "refused")

write(__file__, rows)
