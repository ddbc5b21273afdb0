#!/usr/bin/env python3
"""Writes the rows of `sizes`: walks at each size of the lists that they take, of tips, hidden commits, parents, rows, entries, trees and paths.

What is wanted follows from the rules for the orders: at one time, or in one line, if only one answer is right."""
import sys
from pathlib import Path

sys.path.insert(0, str(Path(__file__).resolve().parents[1]))
from case_sizes import hexed, row
from families import write


def spaced(found):
    return "".join(f"{it} " for it in found)


# 9999 is the parent of 9997 and of as many as the size says, whose child is 9998.
ROWS = "walk history&[commit row # 7 2 9999&]commit row 9999 7 1 -&commit row 9997 7 2 9999&commit row 9998 7 3 9997[,#]&commit graph&"
COMMITS = "walk history&[walk commit # 7 9999&]walk commit 9999 7 -&walk commit 9998 7 [#,]&"
# One of two has the other as each of its parents.
TWO = "walk history&walk commit 9999 7 -&walk commit 9998 7 [9999,]&"
# Each is the parent of the next.
LINE = "walk history&walk commit 0 7 -&[walk commit ^ 7 #&]"


def over_rows(line, answer):
    return row(ROWS + line, lambda size: "history\n" + "row\n" * (size + 3) + "graph\n" + answer(size))


def over_commits(line, answer):
    return row(COMMITS + line, lambda size: "history\n" + "commit\n" * (size + 2) + answer(size))


def infos(size):
    parents = ",".join(map(str, [9997, *range(size)]))
    return f"9998:{parents}:3:- " + "".join(f"{it}:9999:2:- " for it in (9997, *range(size))) + "9999:-:1:- "


def commits():
    yield over_rows("commit breadth all [#,] -", lambda size: spaced([*range(size), 9999] if size else ()))
    yield over_rows("commit breadth all 9998 [#,]", lambda size: spaced((9998, 9997) if size else (9998, 9997, 9999)))
    yield over_rows("commit simple all 9998 - new infos", infos)
    yield over_rows("commit simple all [#,] 9999 newest set -", lambda size: spaced(range(size)))
    yield over_rows("commit simple all 9998 [#,] filtered order", lambda size: spaced((9998, 9997) if size else (9998, 9997, 9999)))
    yield over_rows("topo date all 9998 [#,]", lambda size: spaced((9998, 9997) if size else (9998, 9997, 9999)) + "after 0")
    yield over_rows("topo topo first 9998 [#,]", lambda size: spaced((9998, 9997) if size else (9998, 9997, 9999)) + "after 0")
    yield over_commits("walk simple 9998 end", lambda size: spaced([9998, *range(size), *[9999] * bool(size)]) + "end")
    yield row(TWO + "walk orders [9999,] -", lambda size: "history\ncommit\ncommit\n" + ("9999" if size else "-"))
    yield row(TWO + "walk orders 9998 [9999,]", lambda size: "history\ncommit\ncommit\n9998")
    line = lambda size: "history\n" + "commit\n" * (size + 1)
    yield row(LINE + "walk simple # newest end", lambda size: f"{line(size)}newest {spaced(range(size, -1, -1))}end")


ROOT, BLOB = "33" * 20, "11" * 20
FILES = "[" + hexed("100644 a~\0") + "00" * 18 + "#]"
FOLDERS = "[" + hexed("40000 a~\0") + "22" * 18 + "#]"
BELOW = "[ " + "22" * 18 + "#" + hexed("100644 b\0") + BLOB + "]"
# Of each tree `d` is the next one, and of the last `b` is a blob.
DEEP = f"{ROOT}{hexed('40000 d') + '00' + '22' * 18}0000[ {'22' * 18}#{hexed('40000 d')}00{'22' * 18}^] {'22' * 18}#{hexed('100644 b')}00{BLOB}"


def trees():
    names = {"": True, "-names": True, "-untracked": False}
    for order in ("depth", "breadth"):
        for tracked, is_named in names.items():
            yield row(f"tree {order}{tracked} sha1 {ROOT} {ROOT}{FILES}", lambda size: "whole" + "".join(
                f" blob {f'a{it:04}' * is_named} {it:040}" for it in range(size)))

            def deep(size):
                each = [f" tree {'d' * is_named} {'22' * 18}{it:04}" for it in range(size + 1)]
                return "whole" + "".join(each) + f" blob {'b' * is_named} {BLOB}"
            if tracked == "-names":
                yield row(f"tree {order}{tracked} sha1 {ROOT} {DEEP}", deep)

    def below(size, order):
        folders = [f" tree a{it:04} {'22' * 18}{it:04}" for it in range(size)]
        files = [f" blob a{it:04}/b {BLOB}" for it in range(size)]
        both = [it for pair in zip(folders, files) for it in pair]
        return "".join(both if order == "depth" else folders + files)
    for order, before in (("depth", "0 0 "), ("breadth", "")):
        line = f"sha1 {ROOT} {ROOT}{FOLDERS}{BELOW}"
        yield row(f"tree {order} {line}", lambda size: "whole" + below(size, order))
        yield row(f"tree {order}-copied {line}", lambda size: f"{before}a a/b" + below(size, order))


def paths():
    def answer(asked, found):
        return lambda size: f"{asked(size)} of {asked(size)}{found(size)} again {asked(size)} of {asked(size)}{found(size)}"
    yield row(f"tree paths sha1 {ROOT} {hexed('{a~' + chr(0) + '}')} {ROOT}{FILES}",
              answer(lambda size: min(size, 1), lambda size: "".join(f" blob {it:040}" for it in range(size))))
    yield row(f"tree paths sha1 {ROOT} {hexed('{a~/b' + chr(0) + '}')} {ROOT}{FOLDERS}{BELOW}",
              answer(lambda size: size and size + 1, lambda size: f" blob {BLOB}" * size))
    yield row(f"tree paths sha1 {ROOT} {hexed('d{/d}/b' + chr(0))} {DEEP}", answer(lambda size: size + 2, lambda size: f" blob {BLOB}"))


if __name__ == "__main__":
    write(__file__, [*commits(), *trees(), *paths()])
