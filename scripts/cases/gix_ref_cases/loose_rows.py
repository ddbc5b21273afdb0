"""Rows of transactions of references' own files, for transaction_rows.py: the files before and after are those that git leaves.

git makes a repository, its references and logs; its files are the case's. Then `git update-ref --stdin` or `git symbolic-ref` makes the same
edits, or refuses them, and the files that are there then are the answer. What a stop or a failed call leaves comes from the order of the calls,
which the documents of the crates say.
"""
import os
import subprocess
import tempfile

WHO = {f"GIT_{who}_{what}": value for who in ["AUTHOR", "COMMITTER"] for what, value in [("NAME", "a"), ("EMAIL", "b"), ("DATE", "@1 +0000")]}


def git(room, *words, text=b"", check=True):
    done = subprocess.run(["git", "-C", room, "-c", "core.logAllRefUpdates=true", *words], input=text, capture_output=True, env={**os.environ, **WHO})
    if check and done.returncode != 0:
        raise RuntimeError(done.stderr.decode())
    return done.returncode, done.stdout.strip().decode()


def files_of(room):
    """The files of references and logs, by path, in the order in which a walk of folders meets them."""
    root = os.path.join(room, ".git")
    found = {}
    for path in ["HEAD", "packed-refs"]:
        if os.path.exists(os.path.join(root, path)):
            found[path] = open(os.path.join(root, path), "rb").read()
    for top in ["refs", "logs"]:
        for folder, _, names in os.walk(os.path.join(root, top)):
            for name in names:
                path = os.path.relpath(os.path.join(folder, name), root)
                found[path] = open(os.path.join(folder, name), "rb").read()
    return found


def walk_order(path):
    return [part.encode() for part in path.split("/")]


def shown(files):
    return "".join(f"{path}={files[path].decode().replace(chr(10), '|')};" for path in sorted(files, key=walk_order))


class Repository:
    """HEAD is on a branch that doesn't exist, so that no update of another is written to its log."""

    def __init__(self, packed=False, head="refs/heads/unborn"):
        self.room = tempfile.mkdtemp()
        git(self.room, "init", "-q")
        git(self.room, "symbolic-ref", "HEAD", head)
        _, tree = git(self.room, "mktree")
        self.ids = {text: git(self.room, "commit-tree", "-m", text, tree)[1] for text in ["one", "two", "three"]}
        for name, target in [("refs/heads/main", "one"), ("refs/heads/a", "two"), ("refs/tags/v", "one")]:
            git(self.room, "update-ref", "-m", "m", name, self.ids[target])
        if packed:
            git(self.room, "pack-refs", "--all")

    def id(self, word):
        return self.ids.get(word, "0" * 40)

    def files(self):
        return files_of(self.room)


def row(operation, fuse, files, edits, answer):
    lines = "".join(f"{path} {text.hex()}\n" for path, text in files.items())
    fields = [fuse.encode(), lines.encode(), edits.encode()]
    return (" ".join([operation, *(field.hex() for field in fields)]), answer)


def update_ref(repository, edits):
    """The lines of a case's edits, whether git accepts them, and the files that it leaves."""
    lines, words = [], []
    for verb, name, new, test in edits:
        old = {"any": "", "new": " " + "0" * 40}.get(test)
        told = test
        if old is None:
            old = " " + repository.id(test)
            told = f"at:{repository.id(test)}"
        if verb == "delete":
            lines.append(f"delete {name} {told}")
            words.append(f"delete {name}{old if test != 'any' else ''}")
        else:
            lines.append(f"update {name} {repository.id(new)} {told}")
            words.append(f"update {name} {repository.id(new)}{old}")
    script = "".join(f"option no-deref\n{line}\n" for line in words)
    code, _ = git(repository.room, "update-ref", "-m", "m", "--stdin", text=script.encode(), check=False)
    return "".join(line + "\n" for line in lines), code == 0, repository.files()


LISTS = [
    [("update", "refs/heads/new", "two", "new")],
    [("update", "refs/heads/main", "two", "one")],
    [("update", "refs/heads/main", "two", "any"), ("update", "refs/heads/a", "one", "any")],
    [("update", "refs/heads/deep/er/name", "three", "new")],
    [("update", "refs/tags/w", "three", "any")],
    [("delete", "refs/heads/a", None, "any")],
    [("delete", "refs/heads/main", None, "one"), ("update", "refs/heads/trunk", "one", "new")],
    [("delete", "refs/tags/v", None, "any")],
]

REFUSED = [
    ([("update", "refs/heads/main", "two", "three")], "Refused(ReferenceOutOfDate)"),
    ([("update", "refs/heads/new", "two", "one")], "Refused(MustExist)"),
    ([("update", "refs/heads/main", "two", "new")], "Refused(MustNotExist)"),
    ([("delete", "refs/heads/main", None, "two")], "Refused(ReferenceOutOfDate)"),
    ([("update", "refs/heads/a", "one", "any"), ("update", "refs/heads/main", "two", "three")], "Refused(ReferenceOutOfDate)"),
]


def rows():
    found = []
    for packed in [False, True]:
        for edits in LISTS:
            repository = Repository(packed)
            before = repository.files()
            lines, accepted, after = update_ref(repository, edits)
            assert accepted, edits
            found.append(row("loose", "", before, lines, f"made {len(edits)}; {shown(after)}"))
            found.append(row("loose-rollback", "", before, lines, f"rolled back {len(edits)}; {shown(before)}"))
        for edits, told in REFUSED:
            repository = Repository(packed)
            before = repository.files()
            lines, accepted, after = update_ref(repository, edits)
            assert not accepted and after == before, edits
            found.append(row("loose", "", before, lines, f"{told}; {shown(before)}"))
    found += symbolic() + locked() + packing() + private() + tags() + alone() + unhit()
    return found


def objects_of(room):
    """All objects of a repository, as lines of loose ones."""
    _, listed = git(room, "cat-file", "--batch-all-objects", "--batch-check=%(objectname) %(objecttype)")
    lines = []
    for line in listed.splitlines():
        name, kind = line.split()
        content = subprocess.run(["git", "-C", room, "cat-file", kind, name], capture_output=True, check=True).stdout
        lines.append((f"{kind} {len(content)}\0".encode() + content).hex())
    return "".join(line + "\n" for line in lines)


def packing_row(operation, fuse, files, objects, edits, answer):
    lines = "".join(f"{path} {text.hex()}\n" for path, text in files.items())
    fields = [fuse.encode(), lines.encode(), objects.encode(), edits.encode()]
    return (" ".join([operation, *(field.hex() for field in fields)]), answer)


def packed_files(edits, prune, start):
    """The files before, the lines of the edits, and the files that git leaves once it has made them and packed all names."""
    repository = start()
    before = repository.files()
    objects = objects_of(repository.room)
    lines, accepted, _ = update_ref(repository, edits)
    assert accepted, edits
    git(repository.room, "pack-refs", "--all", *([] if prune else ["--no-prune"]))
    return before, objects, lines, repository.files()


def packing():
    """Updates that are packed: all names of a repository, or some if the others are packed already."""
    found = []
    everything = [("update", "refs/heads/a", "two", "two"), ("update", "refs/heads/main", "one", "one"), ("update", "refs/tags/v", "one", "one")]
    moved = [("update", "refs/heads/a", "three", "any"), ("update", "refs/heads/main", "two", "any"), ("update", "refs/tags/v", "two", "any")]
    for operation, prune in [("keep", False), ("pack", True)]:
        cases = [(everything, lambda: Repository(False)), (moved, lambda: Repository(False))]
        # git writes no file of its own for a packed name that keeps its id; here it is written.
        again = [everything] if prune else []
        cases += [(edits, lambda: Repository(True)) for edits in LISTS + again + [moved]]
        for edits, start in cases:
            before, objects, lines, after = packed_files(edits, prune, start)
            found.append(packing_row(operation, "", before, objects, lines, f"made {len(edits)}; {shown(after)}"))
            found.append(packing_row(f"{operation}-rollback", "", before, objects, lines, f"rolled back {len(edits)}; {shown(before)}"))
        for edits, told in REFUSED:
            repository = Repository(True)
            before, objects = repository.files(), objects_of(repository.room)
            lines, accepted, after = update_ref(repository, edits)
            assert not accepted and after == before, edits
            found.append(packing_row(operation, "", before, objects, lines, f"{told}; {shown(before)}"))
        files = Repository(True).files()
        missing = "1" * 40
        told = f"Resolve(NotFound {{ oid: Sha1({missing}) }})"
        found.append(packing_row(operation, "", files, "", f"update refs/heads/a {missing} any\n", f"{told}; {shown(files)}"))
        held = {**files, "packed-refs.lock": b""}
        found.append(packing_row(operation, "", held, "", "delete refs/heads/a any\n", f"PackedTransactionAcquire(TransactionLock(Held)); {shown(held)}"))
    return found


def private():
    """Names of which each worktree has its own are never packed, as git packs none of them."""
    found = []
    edits = [("update", "refs/bisect/bad", "two", "any"), ("update", "refs/rewritten/x", "one", "new"), ("update", "refs/heads/main", "two", "any")]
    for operation, prune in [("keep", False), ("pack", True)]:
        before, objects, lines, after = packed_files(edits, prune, lambda: Repository(True))
        assert "refs/bisect/bad" in after and b"bisect" not in after["packed-refs"]
        found.append(packing_row(operation, "", before, objects, lines, f"made {len(edits)}; {shown(after)}"))
    return found


def tags():
    """A record of a tag has the object that it leads to."""
    found = []

    def start():
        repository = Repository(True)
        content = f"object {repository.id('one')}\ntype commit\ntag v\ntagger a <b> 1 +0000\n\nx\n".encode()
        _, repository.ids["tag"] = git(repository.room, "hash-object", "-w", "-t", "tag", "--stdin", text=content)
        return repository

    for operation, prune in [("keep", False), ("pack", True)]:
        before, objects, lines, after = packed_files([("update", "refs/tags/w", "tag", "new")], prune, start)
        assert b"^" in after["packed-refs"]
        found.append(packing_row(operation, "", before, objects, lines, f"made 1; {shown(after)}"))
    return found


def alone():
    """One branch of several is packed; the others keep their own files. The text of `packed-refs` is that of its format."""
    found = []
    repository = Repository(False)
    before, objects = repository.files(), objects_of(repository.room)
    target = repository.id("two")
    text = f"# pack-refs with: peeled fully-peeled sorted \n{target} refs/heads/a\n".encode()
    edit = f"update refs/heads/a {target} any\n"
    without = {path: held for path, held in before.items() if path != "refs/heads/a"}
    after = {**without, "packed-refs": text}
    found.append(packing_row("pack", "", before, objects, edit, f"made 1; {shown(after)}"))
    return found


def unhit():
    """No record is of a deleted name: the file of records stays as it is, also one that git wouldn't write so."""
    found = []
    for others in [[], [("update", "refs/heads/main", "two", "one")]]:
        repository = Repository(True)
        git(repository.room, "update-ref", "-m", "m", "refs/heads/new", repository.id("three"))
        records = repository.files()["packed-refs"].splitlines(keepends=True)[1:]
        text = b"".join([b"# pack-refs with: peeled \n", *reversed(records)])
        open(os.path.join(repository.room, ".git", "packed-refs"), "wb").write(text)
        before = repository.files()
        edits = [("delete", "refs/heads/new", None, "three"), *others]
        lines, accepted, after = update_ref(repository, edits)
        assert accepted and after["packed-refs"] == text and "refs/heads/new" not in after
        found.append(row("loose", "", before, lines, f"made {len(edits)}; {shown(after)}"))
    return found

def symbolic():
    """HEAD and the branch that it leads to: by HEAD, and each by itself."""
    found = []
    for packed in [False, True]:
        repository = Repository(packed, head="refs/heads/main")
        before = repository.files()
        git(repository.room, "update-ref", "-m", "m", "HEAD", repository.id("two"))
        found.append(row("loose", "", before, f"deref-update HEAD {repository.id('two')} any\n", f"made 2; {shown(repository.files())}"))
    repository = Repository()
    before = repository.files()
    git(repository.room, "symbolic-ref", "HEAD", "refs/heads/main")
    # git writes it into HEAD's log; here an update to another reference's name is in no log.
    after = {path: text for path, text in repository.files().items() if path != "logs/HEAD"}
    found.append(row("loose", "", before, "update HEAD ref:refs/heads/main any\n", f"made 1; {shown(after)}"))
    return found


def locked():
    """Another's lock exists, or a file is in the place of a needed folder: nothing changes."""
    found = []
    files = Repository().files()
    one = "1" * 40
    held = {**files, "refs/heads/main.lock": b"x"}
    found.append(row("loose", "", held, f"update refs/heads/a {one} any\nupdate refs/heads/main {one} any\n", f"LockAcquire; {shown(held)}"))
    found.append(row("loose", "", files, f"update refs/heads/main/x {one} any\n", f"LockAcquire; {shown(files)}"))
    twice = f"update refs/heads/a {one} any\nupdate main-worktree/refs/heads/a {one} any\n"
    found.append(row("loose", "", files, twice, f"SamePlace; {shown(files)}"))
    found.append(row("loose", "", files, "delete refs/heads/a new\n", f"Refused(DeleteMustNotExist); {shown(files)}"))
    found.append(row("loose", "", files, "delete refs/heads/none exist\n", f"Refused(DeleteReferenceMustExist); {shown(files)}"))
    packed = {**Repository(packed=True).files(), "packed-refs.lock": b""}
    found.append(row("loose", "", packed, "delete refs/heads/a any\n", f"PackedTransactionAcquire(TransactionLock(Held)); {shown(packed)}"))
    return found
