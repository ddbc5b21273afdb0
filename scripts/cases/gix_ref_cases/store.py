"""Writes the rows of `store` and `transaction` in stdin and stdout: files of repositories that git made, and what git says of their references.

Each answer comes from `git for-each-ref`, `git symbolic-ref`, `git rev-parse`, `git log -g` and `git ls-remote` over the very files, or, if it
says so, from a rule of git's documents; none from the program. transaction_rows.py has those of transactions.
"""
import os
import sys
import unicodedata
from pathlib import Path

sys.dont_write_bytecode = True
sys.path.append(str(Path(__file__).resolve().parents[1]))
import transaction_rows
from families import write
from repository import Repository, base, rows, run

PREFIXES = ["", "refs/", "refs/heads/", "refs/heads/fe", "refs/heads/a", "refs/heads/a/", "refs/heads/a.", "refs/heads/feature", "refs/heads/zz",
            "refs/tags/", "refs/tags/v", "refs/remotes/origin", "re", "heads/", "refs/heads", "refs/bisect/", "refs/worktree/", "refs//", "x"]

FOLDERS = ["refs", "refs/", "refs/heads", "refs/heads/", "refs/heads/a", "refs/heads/a/", "refs/heads/a/b", "refs/heads/a.b", "refs/heads/ab", "refs/heads/fe",
           "refs/heads/feature", "refs/heads/main", "refs/heads/m", "refs/tags", "refs/tag", "refs/tags/v1", "refs/remotes/origin", "refs/bisect", "refs/heads/zz", "heads", "x"]


def fill(repository):
    one, two, three, four = repository.commits
    for name, id in [("heads/main", four), ("heads/feature", one), ("heads/fe/x", two), ("heads/a/b", one), ("heads/a.b", two),
                     ("heads/ab", three), ("tags/light", two), ("remotes/origin/main", three), ("notes/n", one), ("heads/both", one), ("tags/both", two),
                     ("bisect/bad", one), ("worktree/own", two), ("heads/main2", one)]:
        repository.git("update-ref", "--create-reflog", "-m", "made", "refs/" + name, id)
    repository.git("tag", "-a", "-m", "x", "v1", three)
    repository.git("tag", "-a", "-m", "x", "v2", "v1")
    repository.git("symbolic-ref", "refs/heads/sym", "refs/heads/feature")
    repository.git("symbolic-ref", "refs/remotes/origin/HEAD", "refs/remotes/origin/main")
    repository.git("update-ref", "ORIG_HEAD", one)
    repository.git("update-ref", "-m", "moved", "refs/heads/feature", two)


def look(repository):
    repository.ask("all", "", "".join(repository.shown(name) + ";" for name in repository.names()))
    for prefix in PREFIXES:
        repository.list(prefix)
    for folder in FOLDERS:
        repository.within(folder)
    for word in ["feature", "heads/feature", "refs/heads/feature", "light", "tags/light", "v1", "v2", "fe/x", "a.b", "origin/main",
                 "refs/notes/n", "notes/n", "refs/bisect/bad", "bisect/bad", "refs/worktree/own", "ORIG_HEAD"]:
        repository.find(word)
    repository.find("both", "refs/tags/both")
    for word, name in [("HEAD", "HEAD"), ("sym", "refs/heads/sym"), ("refs/heads/sym", "refs/heads/sym"), ("origin", "refs/remotes/origin/HEAD")]:
        repository.find(word, name)
    for word in ["nosuch", "refs/heads/nosuch", "refs/feature", "heads", "NO_HEAD", "fe", "refs/heads/fe"]:
        repository.lacks(word)
    names = ["HEAD", "ORIG_HEAD"]
    repository.ask("pseudo", "", "".join(f"{name} {repository.target(name)};" for name in names))
    for name in ["refs/heads/feature", "refs/heads/main", "refs/tags/light"]:
        ids = repository.git("log", "-g", "--format=%H", name).split()
        repository.ask("log", name, "".join(id + " " for id in reversed(ids)) + "/" + "".join(" " + id for id in ids))
    repository.ask("log", "refs/heads/nosuch", "none")


plain = Repository("plain")
fill(plain)
look(plain)
plain.write("refs/heads/main.lock", "")
plain.write("refs/heads/fe/y.lock", plain.commits[0] + "\n")
plain.list("refs/heads/")
os.remove(plain.path("refs/heads/main.lock"))
os.remove(plain.path("refs/heads/fe/y.lock"))

packed = Repository("packed")
fill(packed)
packed.git("pack-refs", "--all")
look(packed)
packed.find("feature", operation="packed")
packed.lacks("nosuch", operation="packed")
for word in ["feature", "light", "v1", "v2"]:
    packed.find(word, operation="record")
packed.lacks("nosuch", operation="record")
packed.ask("record", "refs/bisect/bad", "none")
# Names that are loose again hide their records, which still hold the older ids.
packed.git("update-ref", "refs/heads/feature", packed.commits[3])
packed.git("update-ref", "refs/heads/new", packed.commits[0])
packed.git("update-ref", "refs/tags/v1", packed.commits[0])
look(packed)
packed.find("new", operation="loose")
packed.ask("loose", "light", "none")
for word in ["v1", "v2", "feature", "light"]:
    packed.find(word, operation="packed")

# By gitrepository-layout each worktree has its own names below refs/bisect, refs/worktree and refs/rewritten: no record is one of them.
hand = Repository("hand")
hand.git("update-ref", "refs/heads/main", hand.commits[0])
hand.write("packed-refs", f"# pack-refs with: peeled fully-peeled sorted \n{hand.commits[0]} refs/bisect/only\n{hand.commits[1]} refs/heads/p\n")
hand.ask("find", "refs/bisect/only", "none")
hand.ask("packed", "refs/bisect/only", "none")
hand.ask("prefixed", "refs/", f"refs/heads/main {hand.commits[0]};refs/heads/p {hand.commits[1]};")
hand.find("p")

# Records that no header calls sorted.
hand.write("packed-refs", f"{hand.commits[1]} refs/heads/z\n{hand.commits[2]} refs/heads/b\n{hand.commits[3]} refs/heads/k\n")
hand.list("refs/heads/")
for word in ["z", "b", "k", "main"]:
    hand.find(word)
hand.lacks("c")

# A file that has no target: git calls the reference broken, and lists the others.
hand.write("refs/heads/c", "no id\n")
told = run(hand.folder, "for-each-ref", "--format=%(refname)")
assert "broken ref refs/heads/c" in told.stderr, told.stderr
good = {name: hand.shown(name) for name in told.stdout.split()}
hand.ask("prefixed", "refs/heads/", "".join(good.get(name, "!") + ";" for name in sorted([*good, "refs/heads/c"])))
hand.ask("find", "refs/heads/c", "broken")
hand.ask("find", "c", "broken")
os.remove(hand.path("refs/heads/c"))

# A file `packed-refs` that git refuses: names with files are read without it.
hand.write("packed-refs", "no record\n")
assert run(hand.folder, "rev-parse", "--verify", "refs/heads/z", ok=False).returncode != 0
rows.append((f"find - refs/heads/main {hand.files()}", f"refs/heads/main {hand.commits[0]}"))
hand.ask("find", "refs/heads/z", "packed broken")
hand.ask("all", "", "packed broken")
for operation in ["try_find_packed", "cached_packed_buffer", "iter_prefixed_packed", "iter_within_packed", "follow_packed", "follow_in_place", "peel_packed"]:
    hand.ask(operation, "refs/heads/z", "packed broken")

# A linked worktree: its own HEAD, private names and logs, and the shared names.
tree = Repository("tree")
fill(tree)
tree.git("reset", "-q", "--hard")
tree.git("worktree", "add", "-q", "-b", "side", os.path.join(base, "linked"))
linked = os.path.join(base, "linked")
run(linked, "update-ref", "refs/bisect/mine", tree.commits[2])
run(linked, "update-ref", "refs/worktree/mine", tree.commits[1])


def look_linked():
    for name in ["HEAD", "refs/heads/feature", "refs/bisect/mine", "refs/worktree/mine", "main-worktree/HEAD", "main-worktree/refs/bisect/bad",
                 "worktrees/linked/HEAD", "worktrees/linked/refs/bisect/mine"]:
        tree.ask("find", name, f"{name} {tree.target(name, linked)}", "worktrees/linked")
    # By the categories of names, a shared name after a worktree's front is the shared one; git 2.39 finds none.
    for front in ["main-worktree/", "worktrees/linked/", "worktrees/other/"]:
        tree.ask("find", front + "refs/heads/feature", f"{front}refs/heads/feature {tree.target('refs/heads/feature')}", "worktrees/linked")
    for name in ["refs/bisect/bad", "refs/worktree/own", "main-worktree/refs/bisect/mine", "worktrees/other/HEAD"]:
        assert run(linked, "rev-parse", "--verify", "-q", name, ok=False).returncode != 0, name
        tree.ask("find", name, "none", "worktrees/linked")
    names = run(linked, "for-each-ref", "--format=%(refname)").stdout.split()
    for prefix in ["", "refs/bisect/", "refs/heads/", "refs/worktree/"]:
        chosen = [name for name in names if name.startswith(prefix)]
        tree.ask("prefixed", prefix, "".join(f"{name} {tree.target(name, linked)}{tree.peeled(name) if not os.path.exists(tree.path('worktrees/linked/' + name)) else ''};" for name in chosen), "worktrees/linked")
    for name in ["worktrees/linked/HEAD", "worktrees/linked/refs/bisect/mine"]:
        tree.ask("find", name, f"{name} {tree.target(name)}")
    ids = run(linked, "log", "-g", "--format=%H", "HEAD").stdout.split()
    tree.ask("log", "HEAD", "".join(id + " " for id in reversed(ids)) + "/" + "".join(" " + id for id in ids), "worktrees/linked")
    tree.ask("log", "worktrees/linked/HEAD", "".join(id + " " for id in reversed(ids)) + "/" + "".join(" " + id for id in ids))


def chain(repository, front, length):
    """Symbolic references, each to the one before it, the first to this name."""
    for k in range(length):
        repository.git("symbolic-ref", f"refs/chain/{k}", front if k == 0 else f"refs/chain/{k - 1}")


def in_place(name, error=None):
    """The object that git says a name leads to, and the last name on the way; after an error the reference is as it was."""
    if error:
        with open(links.path(name)) as file:
            links.ask("follow_in_place", name, f"{error} {name} {file.read().strip()}")
    else:
        id = links.git("rev-parse", name)
        links.ask("follow_in_place", name, f"{id} {links.git('rev-parse', '--symbolic-full-name', name)} {id}")


links = Repository("links")
links.git("update-ref", "refs/heads/end", links.commits[2])
chain(links, "refs/heads/end", 7)
for k in range(4):
    links.ask("follow", f"refs/chain/{k}", links.git("rev-parse", f"refs/chain/{k}"))
    in_place(f"refs/chain/{k}")
# The crate's own rule: at most 5 names are followed, and git follows 4.
links.ask("follow", "refs/chain/4", links.commits[2])
links.ask("follow_in_place", "refs/chain/4", f"{links.commits[2]} refs/heads/end {links.commits[2]}")
for k in [5, 6]:
    links.ask("follow", f"refs/chain/{k}", "more than 5 references point to one another")
    in_place(f"refs/chain/{k}", "more than 5 references point to one another")
links.ask("follow", "refs/heads/end", links.commits[2])
in_place("refs/heads/end")
links.git("pack-refs", "--all")
links.ask("follow", "refs/chain/2", links.git("rev-parse", "refs/chain/2"))
in_place("refs/chain/2")
in_place("refs/heads/end")
links.git("symbolic-ref", "refs/heads/none", "refs/heads/nosuch")
assert run(links.folder, "rev-parse", "--verify", "-q", "refs/heads/none", ok=False).returncode != 0
links.ask("follow", "refs/heads/none", "there is no reference of this name")
in_place("refs/heads/none", "there is no reference of this name")
for length in [1, 2, 5]:
    chain(links, f"refs/chain/{length - 1}", length)
    assert run(links.folder, "rev-parse", "--verify", "-q", "refs/chain/0", ok=False).returncode != 0
    links.ask("follow", "refs/chain/0", "references point to one another in a ring")
    in_place("refs/chain/0", "references point to one another in a ring")

# The next reference, and the object in the end: a tag of a tag, by files and by records that say what they peel to.
ends = Repository("ends")
fill(ends)
ends.git("tag", "-a", "-m", "x", "v3", "v2")
ends.git("tag", "-a", "-m", "x", "tree", ends.commits[0] + "^{tree}")
ends.git("symbolic-ref", "refs/heads/tagged", "refs/tags/v3")
ends.git("symbolic-ref", "refs/heads/twice", "refs/heads/tagged")
ends.git("symbolic-ref", "refs/heads/none", "refs/heads/nosuch")
every = ends.git("cat-file", "--batch-all-objects", "--batch-check=%(objectname)").split()
for word, then in [("HEAD", "refs/heads/main"), ("twice", "refs/heads/tagged"), ("tagged", "refs/tags/v3"), ("sym", "refs/heads/feature")]:
    ends.lead("next", word, ends.shown(then))
for word in ["v1", "v3", "main", "light"]:
    ends.lead("next", word, "object")
ends.lead("next", "none", "none")
for name in ["HEAD", "refs/heads/main", "refs/heads/sym", "refs/heads/tagged", "refs/heads/twice", "refs/tags/v1", "refs/tags/v2", "refs/tags/v3", "refs/tags/light", "refs/tags/tree"]:
    ends.peel(name, every)
ends.lead("peel", "none", "there is no reference of this name", every)
tags = [ends.git("rev-parse", f"refs/tags/v{k}") for k in [1, 2, 3]]
ends.lead("peel", "v3", "lost " + tags[2])
ends.lead("peel", "v3", "lost " + tags[1], tags[2:])
ends.lead("peel", "v3", "lost " + ends.commits[2], tags)
ends.lead("peel", "twice", "lost " + tags[0], tags[1:])
# A tag that names nothing: git can't peel it.
bad = ends.git("hash-object", "-t", "tag", "-w", "--literally", "--stdin", input="no object\n")
ends.write("refs/tags/bad", bad + "\n")
assert run(ends.folder, "rev-parse", "--verify", "-q", "refs/tags/bad^{}", ok=False).returncode != 0
ends.lead("peel", "refs/tags/bad", "lost " + bad, [bad])
os.remove(ends.path("refs/tags/bad"))
for name in ["HEAD", "refs/heads/feature", "refs/heads/main"]:
    count = len(ends.git("log", "-g", "--format=%H", name).split())
    ends.lead("lines", name, f"{'+' * count}/{'+' * count}/{'+' * count}" if count else "none")
ends.git("pack-refs", "--all")
for name in ["refs/tags/v3", "refs/heads/twice", "refs/heads/main"]:
    ends.peel(name, every)
# A record has what its tag peels to, so no object is looked up.
for name in ["refs/tags/v1", "refs/tags/v3"]:
    ends.peel(name, [])
ends.lead("next", "twice", ends.shown("refs/heads/tagged"))
ends.lead("next", "tagged", ends.shown("refs/tags/v3"))

# A store as a new one.
fresh = Repository("fresh")
fresh.ask("pristine", "refs/heads/main", "true")
fresh.ask("pristine", "refs/heads/master", "false")
fresh.git("symbolic-ref", "HEAD", "refs/heads/other")
fresh.ask("pristine", "refs/heads/main", "false")
fresh.ask("pristine", "refs/heads/other", "true")
fresh.git("update-ref", "ORIG_HEAD", fresh.commits[0])
fresh.ask("pristine", "refs/heads/other", "true")
fresh.git("update-ref", "refs/tags/t", fresh.commits[0])
fresh.ask("pristine", "refs/heads/other", "false")
fresh.git("pack-refs", "--all")
fresh.ask("pristine", "refs/heads/other", "false")
fresh.git("update-ref", "-d", "refs/tags/t")
os.remove(fresh.path("packed-refs"))
fresh.ask("pristine", "refs/heads/other", "true")
# A file that has no target is no reference.
fresh.write("refs/heads/broken", "no id\n")
fresh.ask("pristine", "refs/heads/other", "true")
os.remove(fresh.path("refs/heads/broken"))
fresh.git("update-ref", "--no-deref", "HEAD", fresh.commits[0])
fresh.ask("pristine", "refs/heads/other", "false")
fresh.write("HEAD", "no id\n")
fresh.ask("pristine", "refs/heads/other", "no head")
os.remove(fresh.path("HEAD"))
fresh.ask("pristine", "refs/heads/other", "no head")

look_linked()
tree.git("pack-refs", "--all")
look_linked()

# Names with their characters composed, as Git knows them if `core.precomposeUnicode` is set (it is so on one system alone: what form
# C of a name is comes from Python's tables). An uncomposed word means the composed name; a name that is uncomposed isn't known.
marks = Repository("marks")
UNCOMPOSED = {name: unicodedata.normalize("NFD", name) for name in ["refs/heads/ä", "refs/heads/é/x", "refs/tags/한글", "refs/heads/plain"]}
for name in UNCOMPOSED:
    assert unicodedata.normalize("NFC", name) == name
    marks.git("update-ref", "-m", "made", "--create-reflog", name, marks.commits[1])


def look_marks():
    for name, apart in UNCOMPOSED.items():
        for word in [name, name.split("/", 2)[2]]:
            marks.ask("find", word, marks.shown(name), "+")
            marks.ask("find", word, marks.shown(name))
        for word in [apart, apart.split("/", 2)[2]]:
            marks.ask("find", word, marks.shown(name), "+")
            if apart != name:
                marks.lacks(word)
    for prefix in ["", "refs/heads/", "refs/heads/ä", "refs/heads/a", "refs/heads/a\u0308", "refs/heads/e\u0301/", "refs/tags/\u1112"]:
        for folder in ["+", "-"]:
            known = unicodedata.normalize("NFC", prefix) if folder == "+" else prefix
            marks.ask("prefixed", prefix, "".join(marks.shown(name) + ";" for name in marks.names() if name.startswith(known)), folder)
    for prefix in ["refs/heads", "refs/heads/e\u0301", "refs/heads/é", "refs/heads/a\u0308", "refs/heads/a"]:
        known = unicodedata.normalize("NFC", prefix)
        marks.ask("within", prefix, "".join(marks.shown(name) + ";" for name in marks.names() if name == known or name.startswith(known + "/")), "+")


look_marks()
marks.git("pack-refs", "--all")
look_marks()
marks.git("update-ref", "refs/heads/o\u0308", marks.commits[2])
known = [name for name in marks.names() if unicodedata.normalize("NFC", name) == name]
assert len(known) == 4
marks.ask("all", "", "".join(marks.shown(name) + ";" for name in marks.names()))
marks.ask("all", "", "".join(marks.shown(name) + ";" for name in known), "+")
marks.find("o\u0308", "refs/heads/o\u0308")
marks.ask("find", "o\u0308", "none", "+")
marks.ask("find", "ö", "none", "+")

# The same if a record has the name, and not a file.
marks.git("pack-refs", "--all")
assert not os.path.exists(marks.path("refs/heads/o\u0308"))
for prefix in ["", "refs/heads/o", "refs/heads/o\u0308", "refs/heads/ö"]:
    for folder, names in [("-", marks.names()), ("+", known)]:
        front = unicodedata.normalize("NFC", prefix) if folder == "+" else prefix
        marks.ask("prefixed", prefix, "".join(marks.shown(name) + ";" for name in names if name.startswith(front)), folder)
marks.ask("within", "refs/heads/o\u0308", "", "+")
for word in ["o\u0308", "refs/heads/o\u0308"]:
    marks.find(word, "refs/heads/o\u0308")
    marks.find(word, "refs/heads/o\u0308", "packed")
    for operation in ["find", "packed", "loose"]:
        for asked in [word, unicodedata.normalize("NFC", word)]:
            marks.ask(operation, asked, "none", "+")

# Namespaces: git prints the names of one, and what they point to, without its front.
spaces = Repository("spaces")
for name, id in [("a/refs/heads/main", 0), ("a/refs/heads/x/y", 1), ("a/refs/tags/light", 2), ("a/refs/namespaces/b/refs/heads/deep", 3), ("ab/refs/heads/main", 1)]:
    spaces.git("update-ref", "refs/namespaces/" + name, spaces.commits[id])
spaces.git("update-ref", "refs/heads/main", spaces.commits[1])
spaces.git("tag", "-a", "-m", "x", "v1", spaces.commits[3])
spaces.git("update-ref", "refs/namespaces/a/refs/tags/v1", spaces.git("rev-parse", "refs/tags/v1"))
for name, target in [("a/HEAD", "refs/namespaces/a/refs/heads/main"), ("a/refs/heads/sym", "refs/namespaces/a/refs/heads/x/y"), ("a/refs/heads/out", "refs/heads/main")]:
    spaces.git("symbolic-ref", "refs/namespaces/" + name, target)


def strip(space):
    """The names of a repository without the front of this namespace, as git lists them by it; others git doesn't list: they stay."""
    front = "".join(f"refs/namespaces/{part}/" for part in space.split("/"))
    told = {}
    for line in spaces.git("--namespace=" + space, "ls-remote", "--symref", ".").splitlines():
        target, name = line.split("\t")
        if "^{}" not in name:
            told.setdefault(name, target)
    for name in spaces.names():
        if name.startswith(front):
            rest = name.removeprefix(front)
            # Of a target outside of the namespace git prints no name: by the rule it stays.
            target = told[rest] if told[rest] != "ref: (null)" else spaces.target(name)
            answer = f"{rest} {rest} {target}{spaces.peeled(name)}"
        else:
            answer = f"outside {spaces.shown(name)}"
        rows.append((f"strip - {name} {spaces.files()} {space}", answer))


for _ in range(2):
    for space in ["a", "a/b", "ab", "c"]:
        strip(space)
    spaces.git("pack-refs", "--all")
# What is left of a name is no full name: by the rule it stays.
spaces.git("update-ref", "refs/namespaces/a/x", spaces.commits[0])
rows.append((f"strip - refs/namespaces/a/x {spaces.files()} a", "outside " + spaces.shown("refs/namespaces/a/x")))

# git rev-parse prints a worktree's own folder, the shared one and where packed references are; a folder in the `refs` or `logs` of the
# other, and one that is no path, is of no store by the port's own rule.
def folders(folder, asked, files):
    room = linked if folder.startswith("worktrees/") else tree.folder
    told = [run(room, "rev-parse", "--path-format=absolute", *words).stdout.strip() for words in (["--git-dir"], ["--git-common-dir"], ["--git-path", "packed-refs"])]
    own, shared, packed = [os.path.relpath(path, os.path.realpath(tree.path(""))).removeprefix(".") for path in told]
    lengths = {path: len(digits) // 2 for path, digits in (item.split("=") for item in files.split(";"))}
    rows.append((f"folders {folder} {asked} {files}",
                 f"[{own}] [{'none' if own == shared else shared}] [{shared}] [{packed}] {str(folder != '+').lower()} {lengths.get(asked, 'no file')}"))


for folder in ["-", "+", "worktrees/linked"]:
    for asked in ["HEAD", "packed-refs", "refs", "nothing", "worktrees/linked/HEAD"]:
        folders(folder, asked, tree.files())
for folder in ["refs", "refs/x", "logs/x", "a//b", ".", "..", "/a", "a/"]:
    rows.append((f"folders {folder} HEAD {tree.files()}", "no store"))

# An operation by another call answers what its sister does, whose answer is git's: each so many rows, and those of errors.
unread = "packed-refs=" + b"no record\n".hex()
for operation, sister, step in [("try_find", "find", 5), ("try_find_packed", "packed", 1), ("try_find_packed", "find", 11), ("try_find_loose", "loose", 1),
                                ("cached_packed_buffer", "packed", 1), ("cached_packed_buffer", "find", 13), ("iter_packed", "all", 1), ("iter_prefixed_packed", "prefixed", 4),
                                ("iter_within_packed", "within", 4), ("iter_pseudo", "pseudo", 1), ("follow_packed", "next", 1), ("peel_packed", "peel", 1), ("log_iter", "log", 1)]:
    alike = [(asked, answer) for asked, answer in rows if asked.split(" ")[0] == sister and (operation in ["try_find", "iter_packed"] or unread not in asked)]
    for k, (asked, answer) in enumerate(alike):
        if k % step == 0 or answer in ["broken", "packed broken"] or "!" in answer:
            rows.append((operation + asked.removeprefix(sister), answer))
for asked, answer in list(rows):
    operation, _, rest = asked.partition(" ")
    if operation == "files" and rest.startswith("- - "):
        rows.append(("loose_iter " + rest, answer))
    if operation == "log":
        rows.append(("reflog_exists " + rest, "false false false" if answer == "none" else "true true true"))
    if operation == "all":
        rows.append(("force_refresh_packed_buffer " + rest, "packed broken" if answer == "packed broken" else "opened"))

# How many calls a listing makes, by the rule of the crate's README: one for each file below `refs`, two for each folder, of which `refs` itself
# is only listed, and none for a name that only has a record; none when it is gone through.
def calls(paths, packed, folder="-", prefix="", made=None):
    """A listing over these paths of files, each with the same id, and as many records as this; of all names the calls that are made."""
    id = "1" * 40
    folders = {path.rsplit("/", k)[0] for path in paths for k in range(1, path.count("/"))}
    records = "".join(f"{id} refs/heads/r{k:03}\n" for k in range(packed))
    files = ["HEAD=" + b"ref: refs/heads/main\n".hex(), *(f"{path}={(id + chr(10)).encode().hex()}" for path in paths)]
    if packed:
        files.append("packed-refs=" + records.encode().hex())
    names = {*paths, *(f"refs/heads/r{k:03}" for k in range(packed))}
    given = len([name for name in names if name.startswith(prefix)])
    rows.append((f"calls {folder} {prefix or '-'} {';'.join(files)}", f"{1 + 2 * len(folders) + len(paths) if made is None else made} 0 {given}"))


def branches(count):
    return [f"refs/heads/b{k:03}" for k in range(count)]


for count in [0, 1, 2, 7, 40]:
    for packed in [0, 1, 5, 60]:
        calls(branches(count), packed)
for count in [1, 7]:
    # Of the wanted names half have a record too.
    calls([f"refs/heads/r{k:03}" for k in range(count)], 2 * count)
    calls(branches(count), 3, "+")
calls([*branches(3), "refs/heads/x/y/z", "refs/heads/x/y/w", "refs/tags/v1", "refs/remotes/origin/HEAD"], 2)
# The folder of the wanted names is the first that is called for.
calls([*branches(4), "refs/tags/v1"], 3, prefix="refs/heads/", made=1 + 4)
calls([*branches(4), "refs/tags/v1"], 3, prefix="refs/tags/", made=1 + 1)
calls([*branches(4), "refs/tags/v1"], 3, prefix="refs/notes/", made=1)

write(__file__, rows)
write(Path(__file__).with_name("transaction.py"), transaction_rows.rows)
