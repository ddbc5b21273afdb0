"""Imports and exports given again: after ordinary git work, two at once, and without reading what is there already."""
import json
import os
import random
import subprocess
import sys
import unittest
from typing import Any, List
from unittest import mock

sys.path.insert(0, os.path.dirname(os.path.dirname(os.path.abspath(__file__))))

from tests.test_git_bridge import PACKAGE, Case, all_of, engine, git
from wunthavel import bridge_folder
from wunthavel.bridge import goes_on
from wunthavel.bridge_folder import Store
from wunthavel.bridge_git import Git
from wunthavel.errors import HistoryError
from wunthavel.git_export import git_export

COMMIT = b"commit refs/heads/%s any\nput file 1 1\n%s\nx\nauthor 1 3 5 +0000\nA\na@b\ncommitter 1 3 5 +0000\nA\na@b\nmessage 3\nown\nend\n"
CODE = "import sys; from wunthavel.git_export import main; sys.exit(main(sys.argv[1:]))"


class OneNewPlace(Case):
    def setUp(self) -> None:
        super().setUp()
        self.init()
        self.commit("one", a="a")
        self.bring("--unreached")

    def test_an_export_that_fails_removes_nothing_of_another_one(self) -> None:
        others: List[bool] = []

        def complain(*_: Any) -> List[str]:
            # The first time another export is given meanwhile, whose own end is in order.
            if others:
                return []
            others.append(False)
            try:
                git_export(self.store, self.dest)
                others[0] = True
            except HistoryError as error:
                self.assertIn("another process", str(error))
            return ["a complaint"]

        with mock.patch.object(bridge_folder, "WAIT", 0.1), mock.patch.object(Git, "fsck", complain):
            self.assertIn("a complaint", self.give(status=1)["error"])
        self.assertEqual(os.path.exists(self.dest), others[0])
        self.assertEqual([it for it in os.listdir(self.room) if it.startswith("dest")], ["dest.git"] if others[0] else [])
        self.give()
        self.assertEqual(all_of(self.dest), all_of(self.source))

    def test_what_came_to_the_place_meanwhile_stays(self) -> None:
        def come(*_: Any) -> List[str]:
            git(self.room, "clone", "-q", "--mirror", self.source, self.dest)
            return []

        with mock.patch.object(Git, "fsck", come):
            self.assertIn("dest.git", self.give(status=1)["error"])
        self.assertEqual(git(self.dest, "rev-parse", "main"), git(self.source, "rev-parse", "main"))
        self.assertFalse(os.path.exists(self.dest + ".unfinished"))

    def test_a_good_and_a_bad_export_at_once(self) -> None:
        bad = os.path.join(self.room, "bad")
        subprocess.run(["cp", "-r", self.store, bad], check=True)
        engine(bad, COMMIT.replace(b"put file 1 1\n%s\nx", b"put file 14 3001\n%s\n" + b"x" * 3000 + b"\n") % (b"other", b".gitattributes"))
        for number in range(3):
            dest = f"{self.dest}{number}"
            words = [[sys.executable, "-c", CODE, it, dest, "--json"] for it in (bad, self.store)]
            both = [subprocess.Popen(it, env={**os.environ, "PYTHONPATH": PACKAGE}, stdout=subprocess.PIPE) for it in words]
            said = [json.loads(it.communicate()[0]) for it in both]
            self.assertFalse(said[0]["done"])
            if said[1]["done"]:
                self.assertEqual(all_of(dest), all_of(self.source))
            else:
                self.assertIn("another process", said[1]["error"])

    def test_what_git_refuses_of_few_objects_is_not_taken(self) -> None:
        # Such a path is one of several to git unless it is in quotes.
        self.dest = os.path.join(self.room, 'a:b"c\\d')
        self.give()
        self.commit("two", b="b")
        self.bring("--unreached")
        self.give()
        engine(self.store, COMMIT.replace(b"put file 1 1\n%s\nx", b"put file 14 3001\n%s\n" + b"x" * 3000 + b"\n") % (b"other", b".gitattributes"))
        self.assertIn(".gitattributes", self.give(status=1)["error"])
        self.assertEqual(all_of(self.dest), all_of(self.source))
        self.assertEqual(git(self.dest, "fsck", "--strict", "--no-dangling"), "")

    def test_an_empty_folder_becomes_the_repository_in_its_place(self) -> None:
        os.mkdir(self.dest)
        same = os.stat(self.dest).st_ino
        self.give()
        self.assertEqual(os.stat(self.dest).st_ino, same)
        self.assertEqual(all_of(self.dest), all_of(self.source))

    def test_what_a_killed_export_left_beside_the_place_goes(self) -> None:
        left = os.path.join(self.dest + ".unfinished", "objects", "ab")
        os.makedirs(left)
        open(os.path.join(left, "c"), "x").close()
        self.give()
        self.assertFalse(os.path.exists(self.dest + ".unfinished"))
        self.assertEqual(all_of(self.dest), all_of(self.source))

    def test_a_shallow_repository_is_refused(self) -> None:
        for number in range(3):
            self.commit(f"change {number}", a=str(number))
        git(self.room, "clone", "-q", "--bare", "--depth=1", "file://" + self.source, self.dest)
        self.bring()
        self.assertIn("is shallow", self.give(status=1)["error"])
        self.assertIn("is shallow", self.give("--dry-run", status=1)["error"])
        git(self.dest, "fetch", "-q", "--unshallow", "origin")
        self.give()


class Again(Case):
    def setUp(self) -> None:
        super().setUp()
        self.init()
        self.commit("one", a="a")

    def both(self, *words: str) -> None:
        """Brings and gives, and all is the same."""
        self.bring("--unreached", *words)
        self.give(*words)
        self.assertEqual(all_of(self.dest), all_of(self.source))

    def test_a_name_where_a_folder_of_names_was(self) -> None:
        git(self.source, "branch", "a/b")
        self.both()
        git(self.source, "branch", "-D", "a/b")
        git(self.source, "branch", "a")
        self.both("--prune")
        git(self.source, "branch", "-D", "a")
        git(self.source, "branch", "a/b/c")
        self.both("--prune")

    def test_a_name_where_the_engine_deleted_one_in_a_folder(self) -> None:
        git(self.source, "branch", "a/b")
        self.both()
        git(self.source, "branch", "-D", "a/b")
        self.assertEqual(engine(self.store, b"delete refs/heads/a/b any\n"), b"ok delete\n")
        git(self.source, "branch", "a")
        self.both("--prune")

    def test_logs_that_git_shortened(self) -> None:
        for number in range(4):
            self.commit(f"change {number}", a=str(number))
        self.both()
        log = os.path.join(self.source, ".git/logs/refs/heads/main")
        with open(log, "rb") as it:
            lines = it.readlines()
        for kept in (lines[2:], []):
            # As git reflog expire leaves them.
            with open(log, "wb") as it:
                it.writelines(kept)
            self.both()
            self.commit(f"more after {len(kept)}", a="more")
            self.both()
        git(self.dest, "reflog", "expire", "--expire=now", "--all")
        git(self.dest, "gc", "-q")
        self.commit("last", a="last")
        self.both()

    def test_a_stash_that_was_dropped(self) -> None:
        for text in ("1", "2", "3"):
            with open(os.path.join(self.source, "a"), "w", encoding="ascii") as it:
                it.write(text)
            git(self.source, "stash")
        self.both()
        git(self.source, "stash", "drop", "-q", "stash@{1}")
        self.both()
        git(self.source, "stash", "drop", "-q", "stash@{1}")
        self.both()

    def test_lines_of_the_other_side_alone_are_kept(self) -> None:
        self.bring()
        engine(self.store, COMMIT % (b"main", b"own"[:1]))
        self.commit("two", b="b")
        said = self.bring(status=1)["cannot_hold"]
        self.assertEqual([(it["where"], it["hint"].split()[0]) for it in said], [("refs/heads/main", "--force"), ("log of refs/heads/main", "--force-logs")])
        for alone, left in (("--force", "log of refs/heads/main"), ("--force-logs", "refs/heads/main")):
            self.assertEqual([it["where"] for it in self.bring(alone, status=1)["cannot_hold"]], [left])
        self.assertEqual(self.bring("--force", "--force-logs")["logs"], 1)
        self.give()
        self.assertEqual(git(self.dest, "reflog", "main"), git(self.source, "reflog", "main"))

    def test_which_logs_go_on(self) -> None:
        line = b"%040d %040d A <a@b> 5 +0000\tm\n"
        one, two, three = (line % (it, it + 1) for it in range(3))
        for old, new, goes in (
            (b"", one, True),
            (one, one + two, True),
            (one + two, two + three, True),
            (one + two, three, True),
            (one + two, two, True),
            (one + two, b"", True),
            (one + two, line % (0, 2), True),
            (one + two, one, False),
            (one + two, one + three, False),
            (one + two, line % (0, 9), False),
            (one + b"%040d %040d A <a@b> 5 +0000\n" % (1, 2), one + three, True),
        ):
            self.assertEqual(goes_on(old, new), goes, (old, new))

    def test_without_logs(self) -> None:
        self.commit("dropped", a="d")
        git(self.source, "reset", "-q", "--hard", "HEAD~1")
        self.assertEqual(self.bring("--no-logs")["objects"], 3)
        self.assertEqual(engine(self.store, b"past main\n"), b"ok past 0\n")
        said = self.bring()
        self.assertEqual((said["objects"], said["logs"]), (3, 1))
        self.give("--no-logs")
        self.assertFalse(os.path.exists(os.path.join(self.dest, "logs")))

    def test_a_line_without_a_title(self) -> None:
        git(self.source, "update-ref", "refs/heads/main", self.commit("two", b="b"))
        log = os.path.join(self.source, ".git/logs/refs/heads/main")
        with open(log, "ab") as it:
            it.write(b"%s %s A <a@b> 5 +0000\n" % ((git(self.source, "rev-parse", "main").encode(),) * 2))
        self.bring()
        self.assertIn(b"A <a@b> 5 +0000\t\n", engine(self.store, b"past main\n"))
        self.assertEqual(self.bring()["logs"], 0)
        self.give()
        self.assertEqual(git(self.dest, "reflog", "--format=%H %gs", "main"), git(self.source, "reflog", "--format=%H %gs", "main"))


class Skipped(Case):
    def setUp(self) -> None:
        super().setUp()
        self.init()
        self.commit("one", a="a")
        git(self.source, "branch", "kept")
        git(self.source, "branch", "gone")
        self.bring()
        self.give()
        self.all = {b"refs/heads/main", b"refs/heads/kept", b"refs/heads/gone", b"refs/heads/own"}
        self.assertEqual(engine(self.store, COMMIT % (b"own", b"o"))[:9], b"ok commit")
        git(self.dest, "branch", "own", "main")

    def sides(self) -> "List[set[bytes]]":
        return [set(bridge_folder.read_names(os.fsencode(self.store))), set(git(self.dest, "for-each-ref", "--format=%(refname)").encode().split())]

    def test_a_skipped_name_is_not_pruned(self) -> None:
        git(self.source, "branch", "-D", "gone")
        skipped = ("--prune", "--skip-refs", "refs/heads/kept", "--skip-refs", "refs/heads/own")
        self.assertEqual(self.bring(*skipped)["deleted"], 1)
        self.assertEqual(self.give(*skipped)["deleted"], 1)
        self.assertEqual(self.sides(), [self.all - {b"refs/heads/gone"}] * 2)
        self.assertTrue(os.path.exists(os.path.join(self.store, "logs/refs/heads/kept")))

    def test_it_is_not_listed_as_the_other_side_s(self) -> None:
        self.assertEqual(self.bring("--skip-refs", "refs/heads/kept")["only_in_folder"], ["refs/heads/own"])
        git(self.dest, "branch", "git-only", "main")
        self.assertEqual(self.give("--skip-refs", "refs/heads/kept", "--force")["only_in_git"], ["refs/heads/git-only"])

    def test_a_pattern_that_keeps_a_name_of_the_other_side_alone_has_a_use(self) -> None:
        self.assertEqual(self.bring("--prune", "--skip-refs", "refs/heads/own")["deleted"], 0)
        self.assertEqual(self.sides()[0], self.all)
        for words in (("--skip-refs", "refs/heads/own"), ("--prune", "--skip-refs", "refs/heads/none")):
            self.assertIn(f"no name: {words[-1]}", self.bring(*words, status=1)["error"])

    def test_a_symbolic_name_is_left_out_twice(self) -> None:
        git(self.source, "symbolic-ref", "refs/remotes/origin/HEAD", "refs/heads/main")
        self.assertEqual(self.bring("--as-clone", "--skip-refs", "refs/remotes/origin/HEAD")["skipped"], ["refs/remotes/origin/HEAD"])


class Cost(Case):
    def test_what_is_there_is_not_read_again(self) -> None:
        self.init()
        for number in range(5):
            self.commit(f"change {number}", a=str(number))
        self.bring()
        opened, looked = AssertionError("it was opened"), AssertionError("it was read")
        with mock.patch.object(Store, "check", side_effect=opened), mock.patch.object(Git, "objects", side_effect=looked):
            said = self.bring()
        self.assertEqual((said["done"], said["objects"], said["names"]), (True, 0, 0))
        self.give()
        with mock.patch.object(Store, "check", side_effect=opened), mock.patch.object(Git, "fsck", side_effect=looked):
            self.assertEqual(self.give()["objects"], 0)
        self.commit("more", b="b")
        read: List[bytes] = []
        reading = Git.read
        with mock.patch.object(Git, "read", lambda *given: (read.append(it[0]) or it for it in reading(*given))):
            self.bring()
        new = {git(self.source, "rev-parse", it) for it in ("HEAD", "HEAD^{tree}", "HEAD:b")}
        self.assertEqual({it.hex() for it in read}, new)

    def test_a_folder_that_was_stopped_is_recovered_even_if_nothing_is_new(self) -> None:
        self.init()
        self.commit("one", a="a")
        self.bring()
        lock = os.path.join(self.store, "HEAD.lock")
        open(lock, "x").close()
        self.bring()
        self.assertFalse(os.path.exists(lock))

    def test_memory_does_not_follow_the_entries_of_folders(self) -> None:
        taken = []
        for files in (20, 4000):
            self.source, self.store = (os.path.join(self.room, f"{it}{files}") for it in ("source", "store"))
            self.init("--bare")
            git(self.source, "fast-import", "--quiet", given=wide_stream(files, 100))
            code = "import resource, sys; from wunthavel.git_import import main; main(sys.argv[1:]); print(resource.getrusage(resource.RUSAGE_SELF).ru_maxrss)"
            words = [sys.executable, "-c", code, self.source, self.store, "--quiet"]
            said = subprocess.run(words, env={**os.environ, "PYTHONPATH": PACKAGE}, stdout=subprocess.PIPE, check=True).stdout
            taken.append(int(said.split()[-1]))
        # 100 folders of 4,000 files each are 400,000 entries: some bytes for each would be tens of megabytes.
        self.assertLess(taken[1] - taken[0], 10_000, taken)


def wide_stream(files: int, commits: int) -> bytes:
    """Returns a stream of commits that each change one of these files of one folder."""
    chance, parts = random.Random(9), []
    for number in range(commits):
        parts.append(b"commit refs/heads/main\ncommitter A <a@b> %d +0000\ndata 1\nm\n" % number)
        for it in range(files) if number == 0 else [chance.randrange(files)]:
            parts.append(b"M 644 inline folder/file%d\ndata %d\n%d\n" % (it, len(b"%d" % number), number))
    return b"".join(parts)


del Case
if __name__ == "__main__":
    unittest.main()
