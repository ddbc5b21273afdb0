"""Rows of folders that are opened again, or aren't, each for its cause."""

from case_words import word
from plain import Plain
from streams import (
    HEAD, INPUT, KINDS, NEW_LINE, ONE, PUT_HELLO, ROWS, SIGNED, ZERO, known, left, move, object_file, placed, reopen_between, tag, told)


def opening():
    """Folders that aren't opened, each for its cause, and empty ones in the way of the first commit."""
    head = f"names:write:HEAD:{word(HEAD)}"
    for kind in KINDS:
        ROWS.append((f"{kind} {head} open", "done opened"))
        ROWS.append((f"{kind} open", "NoHead"))
        for text in [b"refs/heads/main\n", b"ref: refs/tags/main\n"]:
            ROWS.append((f"{kind} names:write:HEAD:{word(text)} open", "done BadHead"))
        # HEAD may name any branch.
        plain = Plain(kind)
        plain.branch = b"refs/heads/other"
        ended, replies = plain.run(b"commit HEAD new\n" + ONE + b"names\n")
        ROWS.append((f"{kind} names:write:HEAD:{word(b'ref: refs/heads/other' + NEW_LINE)} open run:{word(b'commit HEAD new' + NEW_LINE + ONE + b'names' + NEW_LINE)} left",
                     f"done opened {told(ended, replies)} {left(plain)}"))
        ROWS.append((f"{kind} {head} names:folder:hooks open", "done done Stray:hooks"))
        ROWS.append((f"{kind} {head} names:write:packed-refs:- open", "done done opened"))
        ROWS.append((f"{kind} {head} names:write:packed-refs:{word(NEW_LINE)} open", "done done BadPacked:1"))
        folders = ["refs", "refs/heads", "refs/heads/main", "refs/heads/main/x", "refs/heads/main/x/y", "refs/heads/main/z", "logs",
                   "logs/refs", "logs/refs/heads", "logs/refs/heads/main", "logs/refs/heads/main/x"]
        stream = b"commit refs/heads/main new\n" + ONE
        plain = Plain(kind)
        ended, replies = plain.run(stream)
        known(kind, replies[0][0])
        ROWS.append((" ".join([kind, head, *(f"names:folder:{it}" for it in folders), "open", f"run:{word(stream)}", "left"]),
                     " ".join(["done"] * 12 + ["opened", told(ended, replies), left(plain)])))


def reopening():
    """A folder with a commit, as it is or changed: opened again, or not, for its cause; what `recover` makes whole opens after it."""
    again = b"names\nfiles main\nshow main path 1\na\n"
    for kind in KINDS:
        plain = Plain(kind)
        ended, replies = plain.run(PUT_HELLO)
        commit, tree, blob = (text for text in reversed(list(plain.objects.values())))
        log = plain.logs[b"refs/heads/main"]
        assert (len(log) == 102) == (kind == "sha1")
        answers = told(*plain.run(again))
        made, whole = f"{kind} create open run:{word(PUT_HELLO)}", f"created opened {told(ended, replies)}"
        opens = f"open run:{word(again)} left"
        opened = f"opened {answers} {left(plain)}"
        empty = object_file(kind, b"blob 0\0")
        objects = {name: object_file(kind, text) for name, text in [("commit", commit), ("tree", tree), ("blob", blob)]}
        digits = {name: path.replace(b"objects/", b"").replace(b"/", b"").decode() for name, path in objects.items()}

        def row(cause, *words, then="", done=None):
            ROWS.append((" ".join([made, "close", *words, "open", *([then] if then else [])]),
                         " ".join([whole, *["done"] * len(words), cause, *([done] if done else [])])))

        ROWS.append((f"{made} close {opens}", f"{whole} {opened}"))
        ROWS.append((f"{kind} create open run:{word(INPUT)} close open", f"created opened {told(*Plain(kind).run(INPUT))} opened"))
        # A name's lock and a log's half line go with `recover`.
        row("Unfinished:refs/heads/main.lock", "names:write:refs/heads/main.lock:-", then=f"recover {opens}", done=f"recovered {opened}")
        row("BadLog:logs/refs/heads/main:2", "names:append:logs/refs/heads/main:0000",
            then=f"recover names:kind:logs/refs/heads/main {opens}", done=f"recovered file:{len(log)} {opened}")
        row("Symbolic:refs/heads/x", f"names:write:refs/heads/x:{word(b'ref: refs/heads/main' + NEW_LINE)}")
        row("Stray:README", "names:write:README:hello")
        row("BadHead", f"names:write:HEAD:{word(digits['commit'].encode() + NEW_LINE)}")
        row("Stray:refs/heads/q.lock", "names:folder:refs/heads/q.lock")
        ROWS.append((f"{made} close names:folder:refs/heads/q open run:{word(again)}", f"{whole} done opened {answers}"))
        # The empty blob may be with no name of it; under its id no other bytes may.
        folder = [] if any(path.startswith(empty[:10]) for path in objects.values()) else [f"objects:folder:{word(empty[:10])}"]
        ROWS.append((" ".join([made, "close", *folder, f"objects:write:{word(empty)}:{word(b'blob 0' + ZERO)}", f"open run:{word(again)}"]),
                     " ".join([whole, *["done"] * (len(folder) + 1), f"opened {answers}"])))
        row(f"WrongId:{word(empty)}", *folder, f"objects:write:{word(empty)}:{word(b'blob 1' + ZERO + b'x')}")
        # What is named must exist, in its kind.
        row(f"Missing:{digits['tree']}:{digits['commit']}", f"objects:remove:{word(objects['tree'])}")
        row(f"Missing:{digits['blob']}:{digits['tree']}", f"objects:remove:{word(objects['blob'])}")
        row(f"Missing:{digits['commit']}:refs/heads/main", f"objects:remove:{word(objects['commit'])}")
        row(f"WrongKind:{digits['tree']}:refs/heads/x", f"names:write:refs/heads/x:{word(digits['tree'].encode() + NEW_LINE)}")
        row("Unfinished:objects/unfinished", "objects:write:objects/unfinished:blob", then=f"recover {opens}", done=f"recovered {opened}")
        row(f"BadObject:{word(objects['blob'])}", f"objects:write:{word(objects['blob'])}:blob")
        row("BadName:refs/heads/x", "names:write:refs/heads/x:-")
        row("PrivateName:refs/bisect/x", "names:folder:refs/bisect", f"names:write:refs/bisect/x:{word(digits['commit'].encode() + NEW_LINE)}")
        row("LogWithoutName:logs/refs/heads/x", f"names:write:logs/refs/heads/x:{word(log)}", then=f"recover {opens}", done=f"recovered {opened}")
        row("LongLogLine:logs/refs/heads/main:2", "names:append:logs/refs/heads/main:x*4097")
        # With ids of the other kind no file is an object's.
        first = sorted(plain.objects)[0].decode()
        mixed = [*placed("objects", {b"objects/" + it[:2] + b"/" + it[2:]: text for it, text in plain.objects.items()}),
                 f"names:write:HEAD:{word(HEAD)}", "open"]
        other = "sha256" if kind == "sha1" else "sha1"
        ROWS.append((" ".join([other, *mixed]), " ".join([*["done"] * (len(mixed) - 1), f"Stray:objects/{first[:2]}/{first[2:]}"])))


def reopened_between():
    """Commands of each kind that changes files, with the folder closed and opened again between them."""
    second = b"commit refs/heads/side new\nparent main\nput exec 3 1\nd/b\n2\n" + SIGNED % (2, 2, 3, b"two")
    streams = [PUT_HELLO, tag(b"refs/tags/v1 new main", 3), second,
               move(b"refs/heads/main any side"),
               b"rename refs/heads/side refs/heads/kept\n", b"switch refs/heads/kept\n", b"index\n",
               b"delete refs/tags/v1 any\n", b"names\npast main\nlog topological all +kept +main\nfiles kept\nshow main path 3\nd/b\n"]
    reopen_between(streams)
