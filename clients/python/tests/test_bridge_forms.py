"""What the bridge takes for an object or a log that a history can hold is what the engine's check takes: compared on texts made at random."""
import os
import random
import sys
import tempfile
import unittest
from typing import List, Optional, Sequence, Tuple

sys.path.insert(0, os.path.dirname(os.path.dirname(os.path.abspath(__file__))))

from tests.test_git_bridge import MISSING
from wunthavel.bridge_folder import Store
from wunthavel.bridge_forms import SHA1, commit_problem, log_problems, read_commit, read_tag, read_tree, tag_problem, tree_problem, with_titles
from wunthavel.errors import HistoryError
from wunthavel.progress import Progress

BAR = Progress("checking", quiet=True)
WHO = b"Ada <a@b> 5 +0000"
# What goes before the seconds, the seconds, the offset, and what comes after it.
PEOPLE = [b"Ada <a@b> ", b"A <> ", b" <a> ", b"<a> ", b"A  <a> ", b"A < a> ", b"A <a>", b"A<a> ", b"A <a>  ", b"A\t <a> ", b"A <a\r> ", b"A <a<> "]
PEOPLE += [b"A> <a> ", b"A <a>> ", b"A \0 <a> ", b"\xff\xfe <\xff> ", b"A" * 513 + b" <a> ", b"A" * 512 + b" <" + b"b" * 512 + b"> "]
SECONDS = [b"5", b"0", b"05", b"-5", b"+5", b"9223372036854775807", b"9223372036854775808", b"9" * 5000]
OFFSETS = [b" +0000", b" -0100", b" -0000", b" +0060", b" +9959", b"  +0000", b" +000", b" 0000", b" +00:0", b" +0000 ", b""]
MESSAGES = [b"m", b"", b"\n", b"t\n\nb\n", b"t" * 1024, b"t" * 1025, b"\0", b"a\tb", b"a\rb", b" a", b"\xff"]
MORE = [b"encoding UTF-8", b"gpgsig x", b"x y", b"mergetag object 1\n type commit", b"x", b"", b" more"]


def actor(chance: random.Random) -> bytes:
    """Returns an actor, which is odd in one part at most, most often in none."""
    parts = [PEOPLE[0], SECONDS[0], OFFSETS[0]]
    at = chance.randrange(6)
    if at < 3:
        parts[at] = chance.choice((PEOPLE, SECONDS, OFFSETS)[at])
    return b"".join(parts)


def changed(chance: random.Random, lines: List[bytes]) -> bytes:
    """Returns these lines as the head of an object, with one change or none."""
    at = chance.randrange(len(lines))
    line = lines[at]
    others = [b" " + line, line + b" ", line.replace(b" ", b"  ", 1), line + b"\r", line.upper(), line + b"\0", line + b"\n" + line, line + b"\n more"]
    if chance.random() < 0.5:
        lines[at] = chance.choice([*others, chance.choice(MORE) + b"\n" + line, line + b"\n" + chance.choice(MORE)])
    elif chance.random() < 0.1:
        chance.shuffle(lines)
    return b"\n".join(lines) + chance.choice([b"\n\n"] * 8 + [b"\n", b"\n\n\n"]) + chance.choice(MESSAGES)


class Made:
    """A history with a file, a folder and a commit, and objects over them, made at random."""

    def __init__(self, folder: str, chance: random.Random) -> None:
        self.chance = chance
        self.store = Store(folder, False, None)
        self.store.make(BAR)
        self.blob = self.put("blob", b"x")
        self.tree = self.put("tree", b"100644 a\0" + self.blob)
        self.first = self.put("commit", b"tree %s\nauthor %s\ncommitter %s\n\nm" % (self.tree.hex().encode(), WHO, WHO))

    def put(self, kind: str, text: bytes) -> bytes:
        id = SHA1.id_of(kind, text)
        self.store.write(id, kind, text)
        return id

    def commit(self) -> bytes:
        parents = self.chance.choice([[], [self.first], [self.first, self.first]])
        lines = [b"tree " + self.tree.hex().encode(), *(b"parent " + it.hex().encode() for it in parents)]
        return changed(self.chance, [*lines, b"author " + actor(self.chance), b"committer " + actor(self.chance)])

    def tag(self) -> bytes:
        kind = self.chance.choice([b"commit"] * 20 + [b"tree", b"tag", b"blob"])
        name = self.chance.choice([b"v"] * 15 + [b"v 1", b"-v", b"@", b"a/b", b"", b"v.lock", b"\xff", b"HEAD"])
        return changed(self.chance, [b"object " + self.first.hex().encode(), b"type " + kind, b"tag " + name, b"tagger " + actor(self.chance)])

    def folder(self) -> bytes:
        names = [b"a", b"b", b"c.x", b"c0", b".", b"..", b"", b"h/i", b"\xff", b"x" * 4096, b"a b"]
        modes = [b"100644", b"100755", b"120000", b"100664", b"0100644"]
        files = [(self.chance.choice(modes), it, self.blob) for it in names]
        folders = [(self.chance.choice([b"40000", b"040000"]), it, self.tree) for it in (b"c", b"a", b".git")]
        entries = self.chance.sample([*files, *folders, (b"160000", b"m", self.first), (b"40000", b"n", SHA1.empty_tree)], self.chance.randrange(4))
        if self.chance.random() < 0.8:
            entries.sort(key=lambda it: it[1] + b"/" * it[0].endswith(b"40000"))
        text = b"".join(b"%s %s\0%s" % it for it in entries)
        return text[:-1] if self.chance.random() < 0.05 else text

    def log(self) -> bytes:
        ids = self.chance.choice([b"%s %s "] * 6 + [b"%s  %s ", b"%s %s", b" %s %s ", b"%s\t%s "]) % (b"0" * 40, self.first.hex().encode())
        title = self.chance.choice([b"\tm", b"\tm", b"\t", b"", b"\ta\tb", b"\ta\r", b"\t" + b"t" * 1024, b"\t" + b"t" * 1025, b"\ta\0b"])
        return with_titles((ids.upper() if self.chance.random() < 0.05 else ids) + actor(self.chance) + title + self.chance.choice([b"\n"] * 9 + [b""]))


def problem(kind: str, text: bytes) -> Optional[str]:
    try:
        if kind == "commit":
            return commit_problem(read_commit(text, SHA1))
        return tag_problem(read_tag(text, SHA1)) if kind == "tag" else tree_problem(read_tree(text, SHA1), SHA1)
    except ValueError as error:
        return str(error)


@unittest.skipIf(MISSING, MISSING)
class AgainstTheEngine(unittest.TestCase):
    def setUp(self) -> None:
        room = tempfile.TemporaryDirectory(prefix="bridge-")
        self.addCleanup(room.cleanup)
        self.made = Made(os.path.join(room.name, "store"), random.Random(87))
        self.store = self.made.store

    def refusal(self) -> Optional[str]:
        try:
            self.store.check(BAR)
        except HistoryError as error:
            return str(error)
        return None

    def is_as_the_engine_says(self, texts: Sequence[Tuple[str, bytes]]) -> None:
        """What has a problem the engine refuses, each for itself, and all that has none it takes."""
        odd = {text: kind for kind, text in texts if problem(kind, text)}
        fine = {text: kind for kind, text in texts if text not in odd}
        self.assertTrue(len(odd) > 10 and len(fine) > 10, (len(odd), len(fine)))
        for text, kind in odd.items():
            id = self.made.put(kind, text)
            self.assertIsNotNone(self.refusal(), (kind, text, problem(kind, text)))
            os.remove(os.path.join(self.store.folder, "objects", id.hex()[:2], id.hex()[2:]))
        for text, kind in fine.items():
            self.made.put(kind, text)
        self.assertIsNone(self.refusal())

    def test_commits(self) -> None:
        self.is_as_the_engine_says([("commit", self.made.commit()) for _ in range(250)])

    def test_tags(self) -> None:
        self.is_as_the_engine_says([("tag", self.made.tag()) for _ in range(250)])

    def test_folders(self) -> None:
        self.is_as_the_engine_says([("tree", self.made.folder()) for _ in range(250)])

    def test_logs(self) -> None:
        name, counts = b"refs/heads/main", [0, 0]
        self.store.write_names({name: self.made.first}, set())
        for _ in range(150):
            log = self.made.log()
            self.store.write_log(name, log)
            is_refused = self.refusal() is not None
            counts[is_refused] += 1
            self.assertEqual(bool(list(log_problems(name, log, SHA1))), is_refused, log)
        self.assertTrue(min(counts) > 20, counts)


if __name__ == "__main__":
    unittest.main()
