#!/usr/bin/env python3
"""Writes the rows of `file` in stdin and stdout. The answers come from the definitions of a tree of files, written once more here: what a path is,
which change a tree allows and what it makes, and what a call that is stopped or fails leaves. The rows that come first have answers
that were written by hand, and this model must agree with them."""

import random
import sys
from pathlib import Path

sys.path.insert(0, str(Path(__file__).resolve().parents[1]))
from case_words import word
from families import write


def is_path(path):
    parts = path.split(b"/")
    return len(path) <= 4096 and b"\0" not in path and not {b"", b".", b".."} & set(parts)


class Tree:
    """Files and folders by their paths; a folder is None. One call may fail, or all from it on."""

    def __init__(self):
        self.at, self.calls, self.chosen, self.kept, self.stops = {}, 0, 0, None, False

    def place(self, path):
        return "folder" if path == b"" else "absent" if path not in self.at else "folder" if self.at[path] is None else "file"

    def has_room(self, path):
        """Whether a file or a folder may be there, as far as the folders above it say."""
        return is_path(path) and self.place(path.rpartition(b"/")[0]) == "folder"

    def below(self, folder):
        front = folder + b"/" if folder else b""
        return sorted(path[len(front):] for path in self.at if path.startswith(front) and b"/" not in path[len(front):])

    def allows(self, change, path, rest):
        place = self.place(path)
        if change == "create":
            return place == "absent" and self.has_room(path)
        if change in ("write", "append"):
            return place != "folder" and self.has_room(path)
        if change == "rename":
            return place == "file" and self.place(rest) != "folder" and self.has_room(rest)
        if change == "shorten":
            return place == "file" and rest <= len(self.at[path])
        if change == "remove":
            return place == "file"
        if change == "folder":
            return place == "absent" and self.has_room(path)
        return place == "folder" and path != b"" and not self.below(path)

    def make(self, change, path, rest):
        if change == "create":
            self.at[path] = b""
        elif change == "write":
            self.at[path] = rest
        elif change == "append":
            self.at[path] = self.at.get(path, b"") + rest
        elif change == "shorten":
            self.at[path] = self.at[path][:rest]
        elif change == "rename":
            self.at[rest] = self.at.pop(path)
        elif change == "folder":
            self.at[path] = None
        else:
            del self.at[path]

    def turn(self):
        """What becomes of the next call: all of it, a part, or nothing."""
        self.calls += 1
        if self.chosen == 0 or self.calls < self.chosen:
            return "whole"
        if self.calls == self.chosen:
            return "part"
        return "nothing" if self.stops else "whole"

    def change(self, change, path, rest=b""):
        turn = self.turn()
        allowed = self.allows(change, path, rest)
        if turn == "whole":
            if change == "create" and self.place(path) != "absent":
                return "stands"
            if allowed:
                self.make(change, path, rest)
            return "done" if allowed else "failed"
        if turn == "part" and allowed and self.kept is not None:
            self.make(change, path, rest if change in ("rename", "shorten") else rest[: self.kept])
        return "failed"

    def read(self, reading, path, at):
        if self.turn() != "whole":
            return "failed"
        place, data = self.place(path), self.at.get(path)
        if reading == "kind":
            return f"file:{len(data)}" if place == "file" else place
        if reading == "list":
            return ":".join(["names"] + [word(name) for name in (self.below(path) if place == "folder" else [])])
        if reading == "read":
            return f"{len(data)}:{word(b'so ' + data)}" if place == "file" else f"none:{word(b'so ')}"
        part = data[at:at + 6] if place == "file" else b""
        return f"{len(part) if place == 'file' else 'none'}:{word(part + b'......'[len(part):])}"

    def act(self, words):
        """What a word answers; None if it answers nothing."""
        name, *rest = words
        if name in ("stop", "fail"):
            self.calls, self.chosen, self.kept, self.stops = 0, rest[0], rest[1], name == "stop"
        elif name == "sound":
            self.calls, self.chosen = 0, 0
        elif name == "calls":
            return f"calls:{self.calls}"
        elif name in ("kind", "read", "read-at", "list"):
            return self.read(name, rest[0], rest[1] if len(rest) > 1 else 0)
        else:
            return self.change(name, *rest)
        return None


def spelled(words):
    parts = ["-" if part is None else word(part) if isinstance(part, bytes) else str(part) for part in words[1:]]
    return ":".join([words[0]] + parts)


def told(words):
    tree = Tree()
    return [answer for answer in map(tree.act, words) if answer is not None]


ROWS = []


def row(words, answers=None):
    """One line; answers that were written by hand must be those of the model."""
    found = told(words)
    assert answers is None or found[-len(answers):] == answers, (words, answers, found)
    ROWS.append((" ".join(map(spelled, words)), " ".join(found)))


SAMPLE = [("folder", b"a"), ("folder", b"a/b"), ("write", b"a/b/c", b"deep"), ("write", b"a0", b"zero"),
          ("append", b"a-", b"minus"), ("write", b"z", b"last")]
ALL = ("list", b"")


def by_hand():
    for path, place in [(b"a", "folder"), (b"a0", "file:4"), (b"none", "absent")]:
        row(SAMPLE + [("kind", path)], [place])
    row(SAMPLE + [("read", b"a/b/c")], ["4:so%20deep"])
    row(SAMPLE + [("read", b"a")], ["none:so%20"])
    for path, at, answer in [(b"z", 1, "3:ast..."), (b"z", 9, "0:......"), (b"y", 0, "none:......")]:
        row(SAMPLE + [("read-at", path, at)], [answer])
    for folder, names in [(b"", "names:a:a-:a0:z"), (b"a", "names:b"), (b"a/b", "names:c"), (b"z", "names"), (b"none", "names")]:
        row(SAMPLE + [("list", folder)], [names])
    made = [(("create", b"new"), "done"), (("create", b"new"), "stands"), (("append", b"new", b"ab"), "done"),
            (("append", b"new", b"cd"), "done"), (("write", b"z", b"other"), "done"), (("rename", b"new", b"a/b/c"), "done"),
            (("remove", b"a0"), "done"), (("folder", b"empty"), "done"), (("remove-folder", b"empty"), "done")]
    for end in range(1, len(made) + 1):
        row(SAMPLE + [change for change, _ in made[:end]], [answer for _, answer in made[:end]])
    row(SAMPLE + [change for change, _ in made] + [ALL, ("read", b"a/b/c"), ("read", b"z")],
        ["names:a:a-:z", "4:so%20abcd", "5:so%20other"])
    forbidden = [("write", b"none/x", b""), ("write", b"z/x", b""), ("write", b"a/..", b""), ("append", b"a", b""),
                 ("rename", b"a", b"b"), ("rename", b"z", b"a"), ("remove", b"a"), ("remove", b"none"), ("folder", b"z"),
                 ("remove-folder", b"a")]
    for change in forbidden:
        row(SAMPLE + [change, ALL], ["failed", "names:a:a-:a0:z"])
    row(SAMPLE + forbidden + [ALL], ["failed"] * 10 + ["names:a:a-:a0:z"])
    paths()
    fuses()
    shortenings()


def shortenings():
    """A file keeps its first bytes; no call lengthens one, and a stop leaves all of them or those."""
    for count, left in [(0, "0:so%20"), (2, "2:so%20la"), (4, "4:so%20last")]:
        row(SAMPLE + [("shorten", b"z", count), ("read", b"z"), ("append", b"z", b"+"), ("kind", b"z")], ["done", left, "done", f"file:{count + 1}"])
    forbidden = [("shorten", b"z", 5), ("shorten", b"z", 2 ** 64 - 1), ("shorten", b"none", 0), ("shorten", b"a", 0), ("shorten", b"", 0),
                 ("shorten", b"z/x", 0), ("shorten", b"a//b", 0)]
    row(SAMPLE + forbidden + [("read", b"z"), ALL], ["failed"] * 7 + ["4:so%20last", "names:a:a-:a0:z"])
    for how, kept, after, left in [("stop", None, "failed", "last"), ("stop", 0, "failed", "la"), ("stop", 9, "failed", "la"),
                                   ("fail", None, "done", "l"), ("fail", 0, "done", "l")]:
        row(SAMPLE + [(how, 1, kept), ("shorten", b"z", 2), ("shorten", b"z", 1), ("sound",), ("read", b"z")],
            ["failed", after, f"{len(left)}:so%20{left}"])


def paths():
    """What is a path: a file can be written there once each folder on the way was made."""
    good = [b"a", b"a/b", b".a/..b/c.", b"...", b"\xff\xfe", b"a b", b"x" * 4096]
    bad = [b"", b"/", b"/a", b"a/", b"a//b", b".", b"a/./b", b"..", b"a/..", b"a\0b", b"x" * 4097]
    for path in good + bad:
        folders = [("folder", path[:at]) for at, byte in enumerate(path) if byte == ord("/")]
        row(folders + [("write", path, b"")], ["done" if path in good else "failed"])


# At which call, and what it keeps; which of four changes are made; the names that are left, and what is at `new` and `a0` then.
STOPPING = [(0, None, "1111", "a:a-:a0", None, b"onetwo"), (1, None, "0000", "a:a-:a0:z", None, b"zero"),
            (1, 2, "0000", "a:a-:a0:new:z", b"on", b"zero"), (2, 1, "1000", "a:a-:a0:new:z", b"onet", b"zero"),
            (3, None, "1100", "a:a-:a0:new:z", b"onetwo", b"zero"), (3, 0, "1100", "a:a-:a0:z", None, b"onetwo"),
            (4, 9, "1110", "a:a-:a0", None, b"onetwo"), (5, None, "1111", "a:a-:a0", None, b"onetwo")]
FAILING = [(1, None, "0111", "a:a-:a0", None, b"two"), (1, 1, "0111", "a:a-:a0", None, b"otwo"),
           (3, None, "1101", "a:a-:a0:new", b"onetwo", b"zero"), (4, 0, "1110", "a:a-:a0", None, b"onetwo")]
CHANGES = [("write", b"new", b"one"), ("append", b"new", b"two"), ("rename", b"new", b"a0"), ("remove", b"z")]


def fuses():
    for how, rows in [("stop", STOPPING), ("fail", FAILING)]:
        for call, kept, made, names, new, zero in rows:
            answers = ["done" if it == "1" else "failed" for it in made] + ["calls:4", "names:" + names]
            answers += ["none:so%20" if it is None else f"{len(it)}:so%20{it.decode()}" for it in (new, zero)]
            row(SAMPLE + [(how, call, kept)] + CHANGES + [("calls",), ("sound",), ALL, ("read", b"new"), ("read", b"a0")], answers)
    row(SAMPLE + [("fail", 2, None)] + [("kind", b"a0")] * 3, ["file:4", "failed", "file:4"])


PATHS = [b"a", b"a/b", b"a/b/c", b"a-", b"a0", b"b", b"b/c", b"b/\xff", b"c", b"..", b"a//b", b"", b"a/b/c/d"]
BYTES = [b"", b"1", b"two", b"a longer text", b"\0\n"]


NAMES = ["create", "write", "append", "rename", "remove", "folder", "folder", "folder", "remove-folder", "kind", "read", "read-at", "list"]
WITH_SHORTEN = NAMES + ["shorten"] * 4


def by_chance(chance, names):
    """Changes and readings, of which one may fail, and all that is there then."""
    def act():
        name = chance.choice(names)
        path = chance.choice(PATHS)
        if name == "shorten":
            return (name, path, chance.choice([0, 1, 3, 20]))
        more = {"write": [chance.choice(BYTES)], "append": [chance.choice(BYTES)], "rename": [chance.choice(PATHS)],
                "read-at": [chance.choice([0, 1, 7, 2 ** 64 - 1])]}
        return (name, path, *more.get(name, []))
    words = [("folder", b"a")] + [act() for _ in range(chance.randrange(4, 10))]
    if chance.random() < 0.8:
        words.append((chance.choice(["stop", "fail"]), chance.randrange(0, 9), chance.choice([None, 0, 1, 2, 3, 99])))
    words += [act() for _ in range(chance.randrange(4, 10))] + [("calls",), ("sound",)]
    row(words + [(name, path) for path in (b"", b"a", b"a/b", b"b") for name in ("list",)] + [("read", path) for path in PATHS[:9]])


if __name__ == "__main__":
    by_hand()
    chance = random.Random(23)
    for _ in range(500):
        by_chance(chance, NAMES)
    for _ in range(60):
        by_chance(chance, WITH_SHORTEN)
    write(__file__, ROWS)
