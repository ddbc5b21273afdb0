"""What git clones and pushes for the bridge: URLs and bundles as sources, and mirrors of a history on other machines."""
import contextlib
import io
import os
import sys
import unittest
from typing import Any, Dict, List, Optional, Tuple
from unittest import mock

sys.path.insert(0, os.path.dirname(os.path.dirname(os.path.abspath(__file__))))

from tests.test_git_bridge import Case, engine, git
from wunthavel import bridge_git, cli, fast_import, git_mirror
from wunthavel.progress import Progress


def names(folder: str) -> str:
    return git(folder, "for-each-ref", "--format=%(objectname) %(refname)")


class Sources(Case):
    def setUp(self) -> None:
        super().setUp()
        self.grow("e x")
        git(self.source, "tag", "-a", "-m", "First", "v1", "HEAD~1")
        self.here = self.source

    def is_brought(self, place: str) -> None:
        """The import takes the place as its source, and leaves no clone of it."""
        before = self.rooms()
        self.source = place
        self.bring()
        self.give()
        self.assertEqual((names(self.dest), git(self.dest, "fsck", "--strict")), (names(self.here), ""))
        self.assertEqual(git(self.dest, "symbolic-ref", "HEAD"), git(self.here, "symbolic-ref", "HEAD"))
        self.assertEqual(self.rooms(), before)

    def rooms(self) -> List[str]:
        top = os.path.dirname(self.room)
        return [it for it in os.listdir(top) if it.startswith("wunthavel-mirror-")]

    def test_a_url(self) -> None:
        self.is_brought("file://" + self.here)
        self.assertEqual(self.bring()["objects"], 0)

    def test_a_bundle(self) -> None:
        bundle = os.path.join(self.room, "project.bundle")
        git(self.here, "bundle", "create", "-q", bundle, "--all", "HEAD")
        self.is_brought(bundle)
        self.store += "2"
        self.assertEqual(self.call(fast_import, self.store, "--from", bundle)["other_ids"], 0)
        rows = engine(self.store, b"names\n").decode().splitlines()[1:]
        self.assertEqual([f"{it.split()[0]} {it.split()[2]}" for it in rows], names(self.here).splitlines())

    def test_nothing_that_git_can_clone(self) -> None:
        before = self.rooms()
        for place in (os.path.join(self.room, "none"), "file://" + os.path.join(self.room, "none")):
            self.source = place
            self.assertIn("git clone", self.bring(status=1)["error"])
            self.assertFalse(os.path.exists(self.store))
        self.assertEqual(self.rooms(), before)


class Mirrors(Case):
    def setUp(self) -> None:
        super().setUp()
        self.init()
        for number in range(3):
            self.commit(f"change {number}", a=str(number))
        git(self.source, "tag", "-a", "-m", "First", "v1")
        self.bring()
        git(self.room, "init", "-q", "--bare", self.dest)

    def push(self, *words: str, status: int = 0) -> Dict[str, Any]:
        return self.call(git_mirror, self.store, self.dest, *words, status=status)

    def test_only_what_is_new_and_what_is_gone(self) -> None:
        self.assertEqual(self.push()["objects"], 10)
        self.assertEqual((names(self.dest), git(self.dest, "fsck", "--strict")), (names(self.source), ""))
        reader = os.path.join(self.room, "reader")
        git(self.room, "clone", "-q", self.dest, reader)
        self.assertEqual(git(reader, "log", "--format=%s", "origin/main"), git(self.source, "log", "--format=%s", "main"))
        self.commit("more", b="b")
        git(self.source, "tag", "-d", "v1")
        self.bring("--prune")
        self.assertEqual(self.push()["objects"], 3)
        self.assertEqual(names(self.dest), names(self.source))
        self.assertEqual(self.push()["objects"], 0)

    def test_a_history_that_was_set_back(self) -> None:
        self.push()
        git(self.source, "reset", "-q", "--hard", "HEAD~1")
        self.bring("--force")
        self.push()
        self.assertEqual(names(self.dest), names(self.source))

    def test_a_path_from_here_on(self) -> None:
        before = os.getcwd()
        self.addCleanup(os.chdir, before)
        os.chdir(self.room)
        with contextlib.redirect_stdout(io.StringIO()):
            self.assertEqual(cli.main(["mirror", "store", "dest.git"]), 0)
        self.assertEqual(names(self.dest), names(self.source))

    def test_a_remote_that_is_not_there(self) -> None:
        self.dest = os.path.join(self.room, "none")
        self.assertIn("git push", self.push(status=1)["error"])

    def test_a_history_without_names(self) -> None:
        self.store = os.path.join(self.room, "empty")
        self.bring("--skip-refs", "refs")
        self.assertIn("nothing was pushed", self.push()["notes"][0])


class Percentages(Case):
    def test_what_git_says_of_its_progress(self) -> None:
        self.init()
        for number in range(40):
            self.commit(f"change {number}", a=str(number))
        self.bring()
        seen: Dict[str, Tuple[int, int]] = {}
        with mock.patch.object(Progress, "show", lambda bar, *it: seen.update({it[0]: it[1:]})):
            self.give()
        self.assertEqual({it: seen[it] for it in ("receiving objects", "checking objects")}, {"receiving objects": (120, 120), "checking objects": (120, 120)})

    def shown(self, count: int, total: Optional[int]) -> List[str]:
        """Returns what a terminal shows of a work of three seconds."""
        stream = mock.Mock(isatty=lambda: True)
        with mock.patch("time.monotonic", side_effect=[0.0, 3.0]), Progress("work", total, stream) as bar:
            bar.step(count)
        return [it.args[0].strip("\r").replace("\x1b[K", "") for it in stream.write.call_args_list]

    def test_what_a_terminal_shows(self) -> None:
        self.assertEqual(self.shown(1500, 3000), ["work [###############               ]  50% 1,500 of 3,000, 3 s", ""])
        self.assertEqual(self.shown(1500, None), ["work 1,500, 3 s", ""])
        self.assertEqual(self.shown(0, None), ["work, 3 s", ""])

    def test_what_is_read_tested_and_written_shows_its_part(self) -> None:
        self.init()
        for number in range(3):
            self.commit(f"change {number}", a=str(number))
        seen: Dict[str, Tuple[int, Optional[int]]] = {}
        with mock.patch.object(Progress, "close", lambda bar: seen.update({bar.label: (bar.count, bar.total)})):
            self.bring("--unreached")
            parts = {"listing objects": (9, 9), "reading commits and tags": (3, 3), "reading folders": (3, 3), "writing objects": (9, 9)}
            self.assertEqual(seen, {**parts, "checking the folder": (0, None)})
            self.give()
        self.assertEqual(seen["reading objects"], (9, 9))

    def test_it_is_no_complaint(self) -> None:
        said: List[str] = []
        bridge_git._listen(io.BytesIO(b"Checking objects:  50% (1/2)\rChecking objects: 100% (2/2), done.\nbroken link\n"), said, Progress("git", quiet=True))
        self.assertEqual(said, ["broken link"])


del Case
if __name__ == "__main__":
    unittest.main()
