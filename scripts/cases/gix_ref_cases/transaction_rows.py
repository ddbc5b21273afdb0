"""Rows of transactions of files `packed-refs`, whole, refused and stopped, for rows.py.

The files and what edits make of them are those that git writes (`gix_ref_cases` asks it in the same way). What a stop or a failed call
leaves comes from the order of the calls, which the documents of the crate say: the lock is made (call 1), the file is read (2), the text is
written into the lock (3), the lock is renamed (4), and a call that fails is followed by the lock's removal. None comes from the program.
"""
import tempfile

import loose_rows
from git_packed import git, packed

rows = []


def repository():
    room = tempfile.mkdtemp()
    git(room, "init", "-q")
    tree = git(room, "mktree")
    one, two = [git(room, "commit-tree", "-m", text, tree) for text in ["one", "two"]]
    tag = git(room, "hash-object", "-w", "-t", "tag", "--stdin", text=f"object {one}\ntype commit\ntag v\ntagger a <b> 1 +0000\n\nx\n".encode())
    for name, target in [("refs/heads/main", one), ("refs/heads/a", two), ("refs/tags/v", tag)]:
        git(room, "update-ref", name, target)
    git(room, "pack-refs", "--all")
    return room, one, two, tag


def edited(edits):
    """A file, lines of edits, and the file that git leaves after them."""
    room, one, two, tag = repository()
    before, lines = packed(room), []
    for word, name, what in edits:
        if word == "drop":
            git(room, "update-ref", "-d", name)
            lines.append(f"drop {name}")
        else:
            target = {"one": one, "two": two, "tag": tag}[what]
            git(room, "update-ref", name, target)
            lines.append(f"write {target} {name}" + (f" {one}" if what == "tag" else ""))
    if any(word == "write" for word, _, _ in edits):
        git(room, "pack-refs", "--all")
    return before, "".join(line + "\n" for line in lines), packed(room)


def shown(text):
    return "none" if text is None else text.decode().replace("\n", "|")


def add(operation, fuse, file, edits, told, after, lock):
    fields = [fuse.encode(), b"none" if file is None else file, edits.encode()]
    rows.append((" ".join([operation, *(field.hex() for field in fields)]), f"{told}; {shown(after)}; {shown(lock)}"))


lists = [[("drop", "refs/heads/a", None)], [("write", "refs/heads/a", "one")], [("write", "refs/heads/new", "two"), ("drop", "refs/tags/v", None)],
         [("write", "refs/tags/w", "tag")], [("drop", "refs/heads/a", None), ("drop", "refs/heads/main", None), ("drop", "refs/tags/v", None)]]
for edits in lists:
    before, lines, after = edited(edits)
    add("commit", "", before, lines, "commit true", after, None)
    add("rollback", "", before, lines, "rollback true", before, None)
    add("held", "", before, lines, "TransactionLock(Held)", before, b"x")
    add("commit", "stop 1", before, lines, "TransactionLock(Failed)", before, None)
    add("commit", "stop 1 0", before, lines, "TransactionLock(Failed)", before, b"")
    add("commit", "fail 1", before, lines, "TransactionLock(Failed)", before, None)
    # The reading fails, and then the removal of the lock, which is a failed change: it is reported.
    add("commit", "stop 2", before, lines, "TransactionLock(Failed)", before, b"")
    add("commit", "fail 2", before, lines, "BufferOpen(Io)", before, None)
    for kept in [0, 1, 40, len(after) - 1, len(after)]:
        add("commit", f"stop 3 {kept}", before, lines, "CloseLock", before, after[:kept])
        add("commit", f"fail 3 {kept}", before, lines, "CloseLock", before, None)
    add("commit", "stop 3", before, lines, "CloseLock", before, b"")
    add("commit", "stop 4", before, lines, "Commit", before, after)
    add("commit", "stop 4 0", before, lines, "Commit", after, None)
    add("commit", "fail 4", before, lines, "Commit", before, None)
    add("commit", "fail 4 0", before, lines, "Commit", after, None)
    add("commit", "stop 5", before, lines, "commit true", after, None)
    add("rollback", "stop 4", before, lines, "Commit", before, after)
    add("rollback", "stop 4 0", before, lines, "Commit", before, None)

# Without edits nothing is written, and the file stays as it is; without a file one is made.
before, lines, after = edited(lists[0])
header = b"# pack-refs with: peeled fully-peeled sorted \n"
record = b"1" * 40 + b" refs/heads/a\n"
add("commit", "", before, "", "commit true", before, None)
add("commit", "", b"", "", "commit true", b"", None)
add("commit", "", None, "", "commit false", None, None)
add("rollback", "", None, "", "rollback false", None, None)
add("commit", "stop 3", before, "", "Commit", before, b"")
add("commit", "stop 3 0", before, "", "Commit", before, None)
add("commit", "", None, f"write {'1' * 40} refs/heads/a\n", "commit false", header + record, None)
add("commit", "", None, "drop refs/heads/a\n", "commit false", header, None)
add("rollback", "", None, f"write {'1' * 40} refs/heads/a\n", "rollback false", None, None)
add("commit", "stop 4", None, f"write {'1' * 40} refs/heads/a\n", "Commit", None, header + record)
# A file that can't be read: the lock goes again. If its removal fails, that is reported.
for bad, told in [(b"x\n", "BufferOpen(Iter { line_number: 1 })"), (b"# none\n", "BufferOpen(HeaderParsing)"), (record + b"y\n", "BufferOpen(Iter { line_number: 2 })")]:
    add("commit", "", bad, lines, told, bad, None)
    add("commit", "stop 3", bad, lines, "TransactionLock(Failed)", bad, b"")
rows.append((f"commit - {header.hex()} {b'lose refs/heads/a'.hex()}".replace(" - ", "  "), "refused"))
rows.append((f"commit {b'burn 1'.hex()} {header.hex()} ", "no fuse"))

rows += loose_rows.rows()
