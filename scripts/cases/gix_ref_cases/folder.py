#!/usr/bin/env python3
"""Writes the rows of `folder` in stdin and stdout. The answers come from the tree of files of the rows of `file`, of which each of the two
parts shows its own: `objects` and what lies below it, or all else. At a path with a component of more than 255 bytes nothing exists, and a
change fails. No file with a name of more than 250 bytes is made or written in the names part, unless it is a lock file: its own couldn't be."""

import random

import file as files
from families import write


def is_of(part, path):
    return (path == b"objects" or path.startswith(b"objects/")) == (part == "o")


def has_lock_name(path):
    return path.endswith(b".lock") or len(path.rpartition(b"/")[2]) <= 255 - len(".lock")


def is_text(path):
    try:
        path.decode()
    except UnicodeDecodeError:
        return False
    return True


class Parts(files.Tree):
    """One folder, seen by a part of it."""

    def call(self, part, name, path, *rest):
        paths = [path] + ([rest[0]] if name == "rename" else [])
        if any(files.is_path(it) and is_of(part, it) and not is_text(it) for it in paths):
            return "failed"
        if any(it != b"" and not is_of(part, it) for it in paths):
            return {"kind": "absent", "read": "none:so%20", "read-at": "none:......", "list": "names"}.get(name, "failed")
        if any(len(it) > 255 for path in paths for it in path.split(b"/")):
            return {"kind": "absent", "read": "none:so%20", "read-at": "none:......", "list": "names"}.get(name, "failed")
        if part == "n" and name in ("create", "write", "append") and not has_lock_name(path):
            return "failed"
        if name == "list" and path == b"":
            names = [it for it in self.below(b"") if is_of(part, it)]
            return ":".join(["names"] + [files.word(it) for it in names])
        if name in ("kind", "read", "read-at", "list"):
            return self.read(name, path, rest[0] if rest else 0)
        return self.change(name, path, *rest)


ROWS = []


def row(words, answers=None):
    """One line of words, each of a part; answers that were written by hand must be those of the model."""
    tree = Parts()
    found = [tree.call(*word) for word in words]
    assert answers is None or found[-len(answers):] == answers, (words, answers, found)
    ROWS.append((" ".join(f"{word[0]}:{files.spelled(word[1:])}" for word in words), " ".join(found)))


BOTH = [("o", "folder", b"objects"), ("o", "folder", b"objects/ab"), ("o", "write", b"objects/ab/cd", b"blob"),
        ("n", "folder", b"refs"), ("n", "write", b"HEAD", b"ref"), ("n", "append", b"refs/x", b"1")]


def by_hand():
    row(BOTH + [("o", "list", b""), ("n", "list", b"")], ["names:objects", "names:HEAD:refs"])
    row(BOTH + [("o", "kind", b"HEAD"), ("n", "kind", b"objects"), ("n", "kind", b"objects/ab/cd")], ["absent"] * 3)
    row(BOTH + [("o", "kind", b""), ("n", "kind", b""), ("o", "kind", b"objects/ab/cd")], ["folder", "folder", "file:4"])
    row(BOTH + [("n", "write", b"objects/x", b"1"), ("o", "write", b"refs/y", b"1"), ("n", "rename", b"HEAD", b"objects/x"),
                ("o", "list", b"objects"), ("n", "list", b"refs")], ["failed"] * 3 + ["names:ab", "names:x"])
    row(BOTH + [("n", "write", b"objectsx", b"1"), ("n", "list", b"")], ["done", "names:HEAD:objectsx:refs"])
    row(BOTH + [("n", "rename", b"refs", b"moved"), ("n", "remove", b"refs"), ("n", "remove-folder", b""),
                ("n", "remove-folder", b"refs")], ["failed"] * 4)
    row(BOTH + [("n", "create", b"HEAD"), ("n", "create", b"new"), ("n", "create", b"refs"), ("n", "read", b"new")],
        ["stands", "done", "stands", "0:so%20"])
    row(BOTH + [("n", "append", b"HEAD", b"+"), ("n", "read", b"HEAD"), ("n", "write", b"HEAD", b"x"), ("n", "read", b"HEAD")],
        ["done", "4:so%20ref%2b", "done", "1:so%20x"])
    row(BOTH + [("n", "rename", b"HEAD", b"refs/x"), ("n", "list", b""), ("n", "read", b"refs/x")], ["done", "names:refs", "3:so%20ref"])
    row(BOTH + [("n", "kind", b"\xff"), ("n", "write", b"\xff", b""), ("n", "kind", b"HEAD/x"), ("n", "kind", b"a//b")],
        ["failed", "failed", "absent", "absent"])


def shortenings():
    row(BOTH + [("n", "shorten", b"HEAD", 1), ("n", "read", b"HEAD"), ("n", "shorten", b"HEAD", 0), ("n", "append", b"HEAD", b"new"), ("n", "read", b"HEAD")],
        ["done", "1:so%20r", "done", "done", "3:so%20new"])
    row(BOTH + [("n", "shorten", b"HEAD", 4), ("n", "shorten", b"none", 0), ("n", "shorten", b"refs", 0), ("n", "shorten", b"", 0),
                ("o", "shorten", b"HEAD", 0), ("n", "shorten", b"objects/ab/cd", 0), ("o", "shorten", b"objects/ab/cd", 2), ("n", "read", b"HEAD"),
                ("o", "read", b"objects/ab/cd")], ["failed"] * 6 + ["done", "3:so%20ref", "2:so%20bl"])
    row(BOTH + [("n", "create", b"refs/m", b""), ("n", "append", b"refs/m", b"2345"), ("n", "shorten", b"refs/m", 2), ("n", "append", b"refs/m", b"6"),
                ("n", "read", b"refs/m"), ("n", "rename", b"refs/m", b"m"), ("n", "shorten", b"m", 1), ("n", "rename", b"m", b"refs/m"), ("n", "read", b"refs/m")],
        ["done"] * 4 + ["3:so%20236"] + ["done"] * 3 + ["1:so%202"])


def fixed(words, answers):
    """A line whose answers the tree of files doesn't have: links, and what is shown of a failed call."""
    ROWS.append((f"n:folder:refs n:write:kept:1 {words}", f"done done {answers}"))


def by_hand_alone():
    for path in (b"w" * 250, b"refs/" + b"w" * 250, b"refs/" + b"w" * 250 + b".lock", b"w" * 255 + b"/" + b"w" * 250):
        above = [("n", "folder", b"w" * 255)]
        row(BOTH + above + [("n", "write", path, b"1"), ("n", "kind", path), ("n", "append", path, b"2"), ("n", "remove", path)],
            ["done", "file:1", "done", "done"])
    for path in (b"w" * 251, b"w" * 255, b"refs/" + b"w" * 251):
        row(BOTH + [("n", "write", path, b"1"), ("n", "append", path, b"2"), ("n", "create", path), ("n", "kind", path),
                    ("n", "rename", b"HEAD", path), ("n", "kind", path), ("n", "remove", path)],
            ["failed"] * 3 + ["absent", "done", "file:3", "done"])
    row(BOTH + [("o", "write", b"objects/" + b"w" * 255, b"1"), ("o", "kind", b"objects/" + b"w" * 255)], ["done", "file:1"])
    for path in (b"w" * 256, b"refs/" + b"w" * 256, b"w" * 256 + b"/x", b"refs/" + b"w" * 4000, b"/".join([b"w" * 255] * 16)):
        row(BOTH + [("n", "kind", path), ("n", "read", path), ("n", "read-at", path, 0), ("n", "list", path), ("n", "create", path),
                    ("n", "write", path, b"1"), ("n", "append", path, b"1"), ("n", "rename", b"HEAD", path), ("n", "rename", path, b"a"),
                    ("n", "remove", path), ("n", "folder", path), ("n", "remove-folder", path), ("n", "list", b"")],
            ["absent", "none:so%20", "none:......", "names"] + ["failed"] * 8 + ["names:HEAD:refs"])
    # A link is read as the file that it leads to, and never looked at, written through or listed; it may be replaced and removed.
    link = "link:refs/l:../kept"
    fixed(f"{link} n:kind:refs/l n:read:refs/l n:read-at:refs/l:0 n:list:refs", "linked failed 1:so%201 1:1..... names:l")
    fixed(f"{link} n:create:refs/l n:write:refs/l:2 n:append:refs/l:3 n:read:kept n:last", "linked stands failed failed 1:so%201 refs/l%3a%20not%20a%20file")
    fixed("link:refs/l:../gone n:create:refs/l n:write:refs/l:2 n:append:refs/l:3 n:kind:gone", "linked stands failed failed absent")
    fixed("link:refs/l:.. n:list:refs/l n:folder:refs/l n:remove-folder:refs/l n:list:-", "linked failed failed failed names:kept:refs")
    fixed(f"{link} n:rename:refs/l:a n:rename:kept:refs/l n:read:refs/l n:list:-", "linked failed done 1:so%201 names:refs")
    fixed(f"{link} n:remove:refs/l n:list:refs n:read:kept", "linked done names 1:so%201")
    # What another process puts into the place of a file that was made just now isn't written, whatever it is; nor is a file that is to be
    # replaced, but has another path.
    for made, change in (("n:create:refs/m", "write"), ("n:create:refs/m", "append"), ("n:create:refs/m:x", "append")):
        for put in ("hard:refs/l:kept give:refs/l:refs/m", "link:refs/l:../kept give:refs/l:refs/m", "hard:also:kept give:kept:refs/m"):
            kept = "also" if "also" in put else "kept"
            outcome = "failed refs/m%3a%20the%20file%20was%20taken%20away" if change == "write" else "done none"
            fixed(f"{made} {put} n:{change}:refs/m:2 n:last n:read:{kept}", f"done linked given {outcome} 1:so%201")
    fixed("hard:refs/l:kept n:write:refs/l:2 n:last n:read:kept n:append:refs/l:3 n:read:kept",
          "linked failed refs/l%3a%20the%20file%20has%20another%20path%20too 1:so%201 done 2:so%2013")
    fixed("hard:refs/l:kept n:remove:kept n:write:refs/l:2 n:read:refs/l", "linked done done 1:so%202")
    # Another change ends that, and the file that is there is written.
    fixed("n:create:refs/m n:create:refs/n n:write:refs/m:2 n:write:refs/n:34 n:append:refs/n:5 n:write:refs/n:6 n:read:refs/m n:read:refs/n",
          "done done done done done done 1:so%202 1:so%206")
    fixed("n:create:refs/m n:append:refs/m:2 n:write:refs/m:- n:append:refs/m:34 n:append:refs/m:5 n:read:refs/m", "done done done done done 3:so%20345")
    fixed("n:create:refs/m give:refs/m:refs/n n:write:refs/n:2 n:write:refs/m:3 n:read:refs/n n:read:refs/m", "done given done done 1:so%202 1:so%203")
    # Nothing is shortened through a link, nor a file that has another path; none is lengthened.
    fixed("link:refs/l:../kept n:shorten:refs/l:0 n:last n:read:kept", "linked failed refs/l%3a%20not%20a%20file 1:so%201")
    fixed("hard:refs/l:kept n:shorten:refs/l:0 n:last n:read:kept", "linked failed refs/l%3a%20the%20file%20has%20another%20path%20too 1:so%201")
    fixed("n:shorten:kept:2 n:last n:read:kept n:shorten:none:0 n:last",
          "failed kept%3a%20the%20file%20is%20shorter 1:so%201 failed none%3a%20No%20such%20file%20or%20directory")
    # The system takes no path of over 4,095 bytes with the folder's. A look at a lock's is for whoever is to make it.
    deep = "/".join(["w" * 200] * 20) + "/"
    fixed(f"n:kind:{deep}{'x' * 40}.lock n:kind:{deep}{'x' * 67} n:last", "absent absent none")
    lock = f"{deep}{'x' * 67}.lock"
    fixed(f"n:kind:{lock} last n:create:{lock} n:list:-", f"failed {lock}%3a%20File%20name%20too%20long failed names:kept:refs")
    # A path through links that lead in a circle isn't absent.
    fixed("link:l:l n:kind:l/x n:read:l/x last", "linked failed failed l/x%3a%20Too%20many%20levels%20of%20symbolic%20links")
    # What explains a fault is the first call of both parts that failed, met something or read no object, else the last reading. A file that
    # is made since shows that what failed was passed over.
    there, none, met = (files.word(it) for it in (b": read last, and no call failed", b": No such file or directory", b"refs: File exists"))
    fixed("n:last o:last last n:kind:none last n:read:kept last o:read:objects/a last n:list:refs last "
          "n:create:refs n:read:a/b last n:last forget last n:create:refs last n:create:new last",
          f"none none {there} absent none{none} 1:so%201 kept{there} none:so%20 objects/a{none} names objects/a{none} "
          f"stands none:so%20 objects/a{none} none {there} stands {met} done {there}")
    # A look at a lock explains nothing, unless it fails.
    fixed("n:read:none n:kind:a.lock n:read:kept.lock last n:read:kept n:create:a.lock n:kind:a.lock last",
          f"none:so%20 absent none:so%20 none{none} 1:so%201 done file:0 kept{there}")
    fixed("n:folder:refs n:last n:remove-folder:none n:last o:last o:read:objects/a last forget o:read-at:objects/b:0 last",
          f"failed {met} failed none{none} none none:so%20 {met} none:...... objects/b{none}")
    fixed("o:write:objects/a:1 o:last n:write:objects/a:1 n:last",
          "failed objects/a%3a%20No%20such%20file%20or%20directory failed objects/a%3a%20no%20path%20of%20this%20part")
    fixed(f"n:write:{'w' * 251}:1 n:last", f"failed {'w' * 251}%3a%20no%20name%20for%20its%20lock%20file")
    # A rename is noted under its source if that is missing or can't be looked at, else under its target.
    fixed("n:rename:none:kept n:last link:l:l n:rename:l/x:kept n:last n:rename:kept:refs n:last last forget n:kind:%ff last",
          f"failed none{none} linked failed l/x%3a%20Too%20many%20levels%20of%20symbolic%20links failed refs%3a%20Is%20a%20directory "
          f"none{none} failed %ff%3a%20not%20UTF-8")


PATHS = [b"a", b"a/b", b"a/b/c", b"a-", b"b", b"b/c", b"c", b"..", b"a//b", b"", b"objects", b"objects/a", b"objects/a/b", b"objects-"]


def by_chance(chance, names):
    """Changes and readings, and all that is there then."""
    def call():
        name = chance.choice(names)
        path = chance.choice(PATHS)
        if name == "shorten":
            return ("o" if path.startswith(b"objects") else "n", name, path, chance.choice([0, 1, 3, 20]))
        more = {"write": [chance.choice(files.BYTES)], "append": [chance.choice(files.BYTES)], "rename": [chance.choice(PATHS)],
                "read-at": [chance.choice([0, 1, 7, 2 ** 64 - 1])]}
        return (chance.choice("on") if chance.random() < 0.2 else "o" if path.startswith(b"objects") else "n", name, path,
                *more.get(name, []))
    words = [("n", "folder", b"a"), ("o", "folder", b"objects")] + [call() for _ in range(chance.randrange(6, 20))]
    row(words + [("n", "list", path) for path in (b"", b"a", b"a/b", b"b")] + [("o", "list", path) for path in (b"", b"objects")]
        + [("n", "read", path) for path in PATHS[:7]])


if __name__ == "__main__":
    by_hand()
    by_hand_alone()
    chance = random.Random(41)
    for _ in range(300):
        by_chance(chance, files.NAMES)
    for _ in range(40):
        by_chance(chance, files.WITH_SHORTEN)
    shortenings()
    write(__file__, ROWS)
