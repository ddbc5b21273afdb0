"""`wunthavel doctor`: each flaw is listed with what it touches, objects come back from another place, and what nothing needs goes."""
import contextlib
import io
import json
import os
import shutil
import unittest
from typing import List, Tuple

import wunthavel
from tests.support import WithRepo
from wunthavel import cli, doctor
from wunthavel.errors import HistoryError


class WithFlaws(WithRepo):
    """A history of two branches, whose `notes/page` is at its first commits the same."""

    def setUp(self) -> None:
        super().setUp()
        self.first = self.repo.commit("Begin").put("notes/page", b"one\n").put("top", b"top\n").run()
        self.second = self.repo.commit("Go on").put("notes/page", b"two\n").run()
        self.repo.commit("Aside", name="idea").put("other", b"other\n").run()
        self.repo.move({"refs/heads/idea-2": self.first})
        self.repo.tag("v1", self.second, "First")
        self.page = self.repo.content("notes/page", self.first).id
        self.repo.close()
        self.copy = os.path.join(self.room, "copy")
        shutil.copytree(self.store, self.copy)

    def place(self, id: str, folder: str = "") -> str:
        return os.path.join(folder or self.store, "objects", id[:2], id[2:])

    def spoil(self, id: str) -> None:
        os.chmod(self.place(id), 0o644)
        with open(self.place(id), "r+b") as it:
            it.seek(-1, os.SEEK_END)
            it.write(b"!")

    def flaws(self) -> List[Tuple[str, str]]:
        return [(it.where, it.why) for it in doctor.examine(self.store).flaws]

    def write(self, path: str, data: bytes) -> None:
        place = os.path.join(self.store, path)
        os.makedirs(os.path.dirname(place), exist_ok=True)
        with open(place, "wb") as it:
            it.write(data)

    def command(self, *words: str) -> Tuple[int, str]:
        said = io.StringIO()
        with contextlib.redirect_stdout(said):
            status = cli.main(["doctor", self.store, *words])
        return status, said.getvalue()


class Finds(WithFlaws):
    def test_a_whole_folder(self) -> None:
        found = doctor.examine(self.store)
        self.assertEqual((found.flaws, found.objects), ([], sum(len(it) for _, _, it in os.walk(os.path.join(self.store, "objects")))))

    def test_each_flaw_and_what_it_touches(self) -> None:
        gone = self.repo_tree(self.second)
        os.truncate(self.place(self.page), 0)
        os.remove(self.place(gone))
        found = {it.id: it for it in doctor.examine(self.store).flaws}
        self.assertEqual(set(found), {self.page, gone})
        page, tree = found[self.page], found[gone]
        self.assertEqual((page.why, page.commits, page.path), ("it is empty", [self.first], "notes/page"))
        self.assertEqual(page.names, ["refs/heads/idea-2", "refs/heads/main", "refs/tags/v1"])
        self.assertEqual((tree.why, tree.commits), ("it isn't stored", [self.second]))
        self.assertEqual(tree.names, ["refs/heads/main", "refs/tags/v1"])

    def repo_tree(self, id: str) -> str:
        with wunthavel.Repo(self.copy) as repo:
            return repo.show(id).tree

    def test_a_commit_that_is_missing(self) -> None:
        os.remove(self.place(self.first))
        (flaw,) = doctor.examine(self.store).flaws
        self.assertEqual((flaw.id, flaw.why, self.second in flaw.commits, "refs/heads/idea-2" in flaw.names), (self.first, "it isn't stored", True, True))

    def test_names_and_logs(self) -> None:
        for path, data, where in (
            ("HEAD", b"ref: main\n", "HEAD"),
            ("refs/heads/short", b"abc\n", "refs/heads/short"),
            ("refs/heads/page", self.page.encode() + b"\n", "refs/heads/page"),
            ("refs/heads/main/below", self.first.encode() + b"\n", None),
            ("refs/heads/x.lock", b"", "refs/heads/x.lock"),
            ("packed-refs", b"nonsense\n", "packed-refs, line 1"),
            ("logs/refs/heads/none", b"", "logs/refs/heads/none"),
            ("logs/refs/heads/main", b"half a line", "log of refs/heads/main"),
            ("objects/unfinished", b"", "objects/unfinished"),
            ("objects/zz/1", b"", "objects/zz/1"),
            ("mine", b"", "mine"),
        ):
            with self.subTest(path):
                shutil.rmtree(self.store)
                shutil.copytree(self.copy, self.store)
                if where is None:
                    os.remove(os.path.join(self.store, "refs/heads/main"))
                    self.write("packed-refs", self.first.encode() + b" refs/heads/main\n")
                self.write(path, data)
                self.assertIn(where or "refs/heads/main/below", [it for it, _ in self.flaws()])
                with self.assertRaises(wunthavel.Refused):
                    wunthavel.Repo.check(self.store)

    def test_a_folder_that_an_engine_has(self) -> None:
        self.repo.reopen()
        with self.assertRaisesRegex(HistoryError, "another process works there"):
            doctor.examine(self.store, [self.copy])

    def test_the_command(self) -> None:
        self.assertEqual(self.command(), (0, f"{doctor.examine(self.store).objects} objects are read, and 0 flaws found\n"))
        self.spoil(self.page)
        status, said = self.command()
        self.assertEqual((status, said.splitlines()[0]), (1, f"objects/{self.page[:2]}/{self.page[2:]}: its bytes have another id"))
        self.assertEqual(said.splitlines()[1], f"  as notes/page in 1 commit: {self.first}")
        self.assertEqual(said.splitlines()[2], "  reached by 3 names: refs/heads/idea-2, refs/heads/main, refs/tags/v1")
        status, said = self.command("--json")
        self.assertEqual([it["id"] for it in json.loads(said)["flaws"]], [self.page])


class Mends(WithFlaws):
    def damage(self) -> None:
        """Leaves a commit garbled, its tree and a content missing, and another content empty."""
        with wunthavel.Repo(self.copy) as repo:
            tree = repo.show(self.second).tree
            page = repo.content("notes/page", self.second).id
        self.spoil(self.second)
        os.remove(self.place(tree))
        os.remove(self.place(page))
        os.truncate(self.place(self.page), 0)

    def expect_whole(self) -> None:
        wunthavel.Repo.check(self.store)
        for at, _, names in os.walk(os.path.join(self.copy, "objects")):
            for name in names:
                with open(os.path.join(at, name), "rb") as one, open(self.place(os.path.basename(at) + name), "rb") as other:
                    self.assertEqual(one.read(), other.read())

    def test_from_a_backup(self) -> None:
        self.damage()
        found = doctor.examine(self.store, [self.copy])
        self.assertEqual((len(found.put_back), found.flaws), (4, []))
        self.expect_whole()

    @unittest.skipUnless(shutil.which("git"), "there is no git")
    def test_from_a_git_repository(self) -> None:
        git = os.path.join(self.room, "copy.git")
        self.assertEqual(cli.main(["git-export", self.copy, git, "--quiet"]), 0)
        self.damage()
        self.assertEqual(doctor.examine(self.store, [git]).flaws, [])
        self.expect_whole()

    def test_from_two_places_that_have_flaws_too(self) -> None:
        other = os.path.join(self.room, "other")
        shutil.copytree(self.copy, other)
        self.damage()
        os.truncate(self.place(self.page, other), 0)
        self.assertEqual([it.id for it in doctor.examine(self.store, [other]).flaws], [self.page])
        self.assertEqual(doctor.examine(self.store, [other, self.copy]).flaws, [])
        self.expect_whole()

    def test_a_file_that_has_its_id_is_not_written(self) -> None:
        self.spoil(self.page)
        before = {it: os.stat(it).st_ino for it in self.files()}
        doctor.examine(self.store, [self.copy])
        self.assertEqual([it for it in self.files() if os.stat(it).st_ino != before[it]], [self.place(self.page)])

    def files(self) -> List[str]:
        return [os.path.join(at, it) for at, _, names in os.walk(self.store) for it in names]

    def test_nothing_is_changed_without_a_wish(self) -> None:
        self.damage()
        before = {it: os.stat(it).st_mtime_ns for it in self.files()}
        doctor.examine(self.store)
        self.assertEqual({it: os.stat(it).st_mtime_ns for it in self.files()}, before)


class SetsAside(WithFlaws):
    def test_what_nothing_needs_goes_and_the_rest_stays(self) -> None:
        self.repo.reopen()
        lost = self.repo.commit("Lost", name="lost").put("lost", b"lost\n").put("top", b"other\n").run()
        content = self.repo.content("lost", lost).id
        tree = self.repo.show(lost).tree
        self.repo.delete("lost")
        self.repo.close()
        self.spoil(content)
        self.spoil(self.page)
        with self.assertRaises(wunthavel.Refused):
            wunthavel.Repo.check(self.store)
        found = doctor.examine(self.store, aside=True)
        # The commit and its tree lead to the content.
        self.assertEqual(sorted(found.set_aside), sorted([lost, tree, content]))
        self.assertEqual([it.id for it in found.flaws], [self.page])
        self.assertEqual(sorted(os.listdir(self.store + ".set-aside")), sorted([lost, tree, content]))
        self.assertEqual(doctor.examine(self.store, [self.copy]).flaws, [])
        wunthavel.Repo.check(self.store)


class OfSha256(Mends):
    sha256 = True


if __name__ == "__main__":
    unittest.main()
