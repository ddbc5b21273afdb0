"""What a refused import says: the object, what reaches it, equal reasons once, and what to do; never a traceback, and nothing is written."""
import contextlib
import io
import os
import sys
import unittest
import zlib
from typing import Any, Dict, List
from unittest import mock

sys.path.insert(0, os.path.dirname(os.path.dirname(os.path.abspath(__file__))))

from tests.test_git_bridge import ACTOR, Case, commit_text, engine, git
from wunthavel import git_import

SIGNATURE = b"gpgsig -----BEGIN PGP SIGNATURE-----\n \n abc\n -----END PGP SIGNATURE-----"


class Refusals(Case):
    def setUp(self) -> None:
        super().setUp()
        self.init()
        self.first = self.commit("one", a="a", d__x="x")
        self.tree = git(self.source, "rev-parse", "HEAD^{tree}")

    def problems(self, *words: str) -> List[Dict[str, Any]]:
        said = self.bring(*words, status=1)
        self.assertFalse(os.path.exists(self.store))
        return list(said["cannot_hold"])

    def shown(self, *words: str) -> str:
        """Returns what a person reads."""
        said = io.StringIO()
        with contextlib.redirect_stderr(said):
            self.assertEqual(git_import.main([self.source, self.store, *words]), 1)
        return said.getvalue()

    def test_what_reaches_an_object(self) -> None:
        blob = git(self.source, "rev-parse", "HEAD:a")
        deep = self.object("tree", b"160000 sub\0" + bytes.fromhex(self.first))
        middle = self.object("tree", b"100644 f\0" + bytes.fromhex(blob) + b"40000 mid\0" + bytes.fromhex(deep))
        top = self.object("tree", b"40000 top\0" + bytes.fromhex(middle))
        bad = self.object("commit", commit_text(top, parents=[self.first]))
        later = self.object("commit", commit_text(self.tree, SIGNATURE, parents=[bad]))
        tag = self.object("tag", b"object " + bad.encode() + b"\ntype commit\ntag v\n\nm\n")
        git(self.source, "update-ref", "refs/heads/topic", later)
        git(self.source, "update-ref", "refs/tags/v", tag)
        found = {it["where"]: it for it in self.problems()}
        self.assertEqual(found.keys(), {f"tree {deep}", f"commit {later}", f"tag {tag}"})
        self.assertEqual(found[f"tree {deep}"]["by"], f"'top/mid' of commit {bad}, refs/heads/topic")
        self.assertEqual((found[f"commit {later}"]["by"], found[f"tag {tag}"]["by"]), ("refs/heads/topic", "refs/tags/v"))
        self.assertIn("fast-import --new-ids", found[f"commit {later}"]["hint"])

    def test_a_log_that_reaches_an_object(self) -> None:
        bad = self.object("commit", commit_text(self.tree, SIGNATURE, parents=[self.first]))
        git(self.source, "reset", "-q", "--hard", bad)
        git(self.source, "reset", "-q", "--hard", self.first)
        self.assertEqual([it["by"] for it in self.problems()], ["log of refs/heads/main"])
        self.assertEqual(self.bring("--no-logs")["objects"], 5)

    def test_a_root_folder_and_a_large_file(self) -> None:
        root = self.object("tree", b"160000 sub\0" + bytes.fromhex(self.first))
        bad = self.object("commit", commit_text(root))
        git(self.source, "update-ref", "refs/heads/bad", bad)
        self.commit("large", d__large="x" * (16_777_216 + 1))
        blob = git(self.source, "rev-parse", "HEAD:d/large")
        found = {it["where"]: it["by"] for it in self.problems()}
        self.assertEqual(found[f"tree {root}"], f"commit {bad}, refs/heads/bad")
        self.assertEqual(found[f"blob {blob}"], f"'d/large' of commit {git(self.source, 'rev-parse', 'HEAD')}, refs/heads/main")

    def test_equal_reasons_are_one_line(self) -> None:
        last = self.first
        for number in range(30):
            last = self.object("commit", commit_text(self.tree, SIGNATURE, parents=[last], message=b"%d" % number))
        git(self.source, "update-ref", "refs/heads/signed", last)
        self.assertEqual(len(self.problems()), 30)
        lines = [it for it in self.shown().splitlines() if "signature" in it]
        self.assertEqual(len(lines), 1)
        self.assertIn("(refs/heads/signed): it has a signature (gpgsig) (and 29 more like it)", lines[0])
        self.assertEqual(self.shown().count("fast-import --new-ids"), 1)

    def test_reasons_that_differ_in_their_own_case_are_equal(self) -> None:
        for number in range(3):
            bad = self.object("commit", commit_text(self.tree, author=b"O'Brien. <a@b> %d -0000" % number))
            git(self.source, "update-ref", f"refs/heads/offset{number}", bad)
            bad = self.object("commit", commit_text(self.tree, author=b" <a@b> %d +0000" % number))
            git(self.source, "update-ref", f"refs/heads/nobody{number}", bad)
            entry = b"100664 f%d\0" % number + bytes.fromhex(git(self.source, "rev-parse", "HEAD:a"))
            git(self.source, "update-ref", f"refs/heads/mode{number}", self.object("commit", commit_text(self.object("tree", entry))))
        self.assertEqual(len(self.problems()), 9)
        lines = self.shown().splitlines()[1:]
        self.assertEqual(len(lines), 3, lines)
        for what in ("the offset -0000 is none (and 2 more like it)", "the name is empty (and 2 more", "which none has that git writes today (and 2 more"):
            self.assertTrue(any(what in it for it in lines), (what, lines))

    def test_a_partial_clone(self) -> None:
        self.commit("two", a="b", b="c")
        git(self.source, "config", "uploadpack.allowFilter", "true")
        clone = os.path.join(self.room, "clone")
        git(self.room, "clone", "-q", "--mirror", "--filter=blob:none", "file://" + self.source, clone)
        git(clone, "config", "--unset", "remote.origin.promisor")
        self.source = clone
        self.assertEqual(len(self.shown().splitlines()), 2, self.shown())

    def test_a_plain_clone(self) -> None:
        git(self.source, "branch", "other")
        clone = os.path.join(self.room, "clone")
        git(self.room, "clone", "-q", self.source, clone)
        self.source = clone
        said = self.problems()
        self.assertEqual([it["where"] for it in said], ["refs/remotes/origin/HEAD"])
        self.assertIn("git clone --mirror", said[0]["hint"])
        self.assertIn("--as-clone", said[0]["hint"])
        said = [self.bring("--as-clone")]
        self.assertEqual((said[0]["skipped"], said[0]["notes"]), (["refs/remotes/origin/HEAD"], []))
        self.give()
        wanted = git(clone, "for-each-ref", "--format=%(objectname) %(refname)").splitlines()
        self.assertEqual(git(self.dest, "for-each-ref", "--format=%(objectname) %(refname)").splitlines(), [it for it in wanted if not it.endswith("origin/HEAD")])

    def test_only_what_names_and_logs_reach_is_brought(self) -> None:
        self.object("blob", b"nobody has this")
        self.object("commit", commit_text(self.tree, SIGNATURE))
        self.assertEqual(self.bring()["objects"], 5)
        self.assertEqual(self.bring("--unreached", status=1)["cannot_hold"][0]["by"], "no name and no log reaches it")
        git(self.source, "gc", "-q", "--prune=now")
        self.object("blob", b"nobody has this")
        self.assertEqual(self.bring("--unreached")["objects"], 1)

    def test_a_pattern_that_leaves_nothing_out(self) -> None:
        said = self.bring("--skip-refs", "refs/heads/none", "--skip-refs", "refs/heads/m*", status=1)
        self.assertIn("no name: refs/heads/none", said["error"])
        self.assertFalse(os.path.exists(self.store))
        self.bring()
        self.assertIn("no name: refs/tags", self.give("--skip-refs", "refs/tags", status=1)["error"])
        self.assertFalse(os.path.exists(self.dest))
        self.assertEqual(self.bring("--skip-refs", "refs", "--skip-refs", "refs/heads/main")["names"], 0)

    def test_lines_that_go_on_after_an_actor(self) -> None:
        for text in (
            commit_text(self.tree, author=ACTOR + b"\n more"),
            commit_text(self.tree, b" more"),
            b" " + commit_text(self.tree),
            commit_text(self.tree).replace(b"\nauthor", b"\n more\nauthor"),
        ):
            bad = self.object("commit", text)
            with open(os.path.join(self.source, ".git/refs/heads/bad"), "w", encoding="ascii") as it:
                it.write(bad + "\n")
            self.assertIn(f"commit {bad}", [it["where"] for it in self.problems()])
        bad = self.object("tag", b"object " + self.first.encode() + b"\ntype commit\ntag v\ntagger " + ACTOR + b"\n more\n\nm\n")
        os.remove(os.path.join(self.source, ".git/refs/heads/bad"))
        git(self.source, "update-ref", "refs/tags/v", bad)
        self.assertEqual([it["where"] for it in self.problems()], [f"tag {bad}"])

    def test_a_log_with_seconds_without_end(self) -> None:
        with open(os.path.join(self.source, ".git/logs/refs/heads/main"), "ab") as it:
            it.write(b"%s %s A <a@b> %s +0000\tm\n" % (self.first.encode(), self.first.encode(), b"9" * 5000))
        self.assertEqual([it["where"] for it in self.problems()], ["log of refs/heads/main, line 2"])

    def test_a_damaged_content(self) -> None:
        blob = git(self.source, "rev-parse", "HEAD:d/x")
        path = os.path.join(self.source, ".git/objects", blob[:2], blob[2:])
        os.chmod(path, 0o644)
        with open(path, "wb") as it:
            it.write(zlib.compress(b"blob 1\0y"))
        said = self.bring(status=1)["error"]
        self.assertIn(f"the object {blob} is damaged ('d/x' of commit {self.first}, refs/heads/main)", said)
        self.assertEqual(engine(self.store, b"names\n").split()[2], b"0")

    def test_an_object_of_no_bytes(self) -> None:
        blob = git(self.source, "rev-parse", "HEAD:a")
        for id in ("ab" * 20, blob):
            path = os.path.join(self.source, ".git/objects", id[:2], id[2:])
            os.makedirs(os.path.dirname(path), exist_ok=True)
            with contextlib.suppress(FileNotFoundError):
                os.chmod(path, 0o644)
            open(path, "wb").close()
            if id != blob:
                # Nothing names it.
                self.assertEqual(self.bring("--dry-run")["objects"], 5)
        said = self.problems()
        self.assertEqual([it["where"] for it in said], [f"tree {self.tree}"])
        self.assertIn(f"names blob {blob}, which isn't there", said[0]["why"])

    def test_a_history_as_the_source(self) -> None:
        self.bring()
        self.source, self.store = self.store, os.path.join(self.room, "other")
        self.assertIn("is a history's folder", self.bring(status=1)["error"])
        self.assertFalse(os.path.exists(self.store))

    def test_the_kind_of_ids_that_the_environment_wants(self) -> None:
        self.bring()
        with mock.patch.dict(os.environ, {"GIT_DEFAULT_HASH": "sha256"}):
            self.give()
        self.assertEqual(git(self.dest, "rev-parse", "main"), self.first)

    def test_what_git_cannot_take_back_is_said(self) -> None:
        zero = self.object("commit", commit_text(self.tree, message=b"title\n\nbo\0dy", parents=[self.first]))
        early = self.object("commit", commit_text(self.tree, author=b"Ada <a@b> 59 -0001", parents=[zero]))
        git(self.source, "update-ref", "refs/heads/main", early)
        odd = self.object("tree", b"100644 .GIT\0" + bytes.fromhex(git(self.source, "rev-parse", "HEAD:a")))
        git(self.source, "update-ref", "refs/heads/odd", self.object("commit", commit_text(odd)))
        tag = self.object("tag", b"object " + zero.encode() + b"\ntype commit\ntag early\ntagger Ada <a@b> 59 -0001\n\nm\n")
        git(self.source, "update-ref", "refs/tags/early", tag)
        with open(os.path.join(self.source, ".git/logs/refs/heads/odd"), "ab") as log:
            log.write(b"%s %s A <a@b> 5 +0000\tm\n" % (b"1" * 40, zero.encode()))
            log.write(b"%s %s A <a@b> 59 -0001\tm\n" % (zero.encode(), zero.encode()))
        git(self.source, "tag", "-a", "-m", "m", "v", zero)
        with open(os.path.join(self.source, ".git/refs/heads/tagged"), "w", encoding="ascii") as it:
            it.write(git(self.source, "rev-parse", "v") + "\n")
        notes = [it for it in self.bring()["notes"] if "git-export" in it]
        self.assertEqual(len(notes), 5)
        for what in (
            f"1 of these: its message holds a zero byte, as in commit {zero}",
            f"3 of these: the seconds 59 with the offset -0001 are outside git's range, as in commit {early}",
            "1 of these: a branch holds a tag, as in refs/heads/tagged",
            f"1 of these: '.GIT' is .git in a path, as in tree {odd}",
            f"1 of these: it names {'1' * 40}, which isn't there, as in log of refs/heads/odd, line 2",
        ):
            self.assertTrue(any(what in it for it in notes), (what, notes))
        refused = {it["where"] for it in self.give(status=1)["cannot_hold"]}
        lines = {f"log of refs/heads/odd, line {it}" for it in (2, 3)}
        self.assertEqual(refused, {f"commit {zero}", f"commit {early}", f"tree {odd}", f"tag {tag}", "refs/heads/tagged", *lines})

    def test_what_reaches_an_object_that_git_cannot_hold(self) -> None:
        self.bring()
        actor = b" 3 3 5 +0000\nAda\na@b\n"
        made = engine(self.store, b"commit refs/heads/odd new\nput file 15 1\nd/e/.git/config\nx\nauthor%scommitter%smessage 3\na\n\0\nend\n" % (actor, actor))
        id = made.split()[2].decode()
        said = self.give(status=1)["cannot_hold"]
        self.assertEqual(sorted((it["where"].split()[0], it["by"]) for it in said), [("commit", "refs/heads/odd"), ("tree", f"'d/e' of commit {id}, refs/heads/odd")])
        self.give("--skip-refs", "refs/heads/odd")

    def test_a_folder_with_a_name_that_holds_no_id(self) -> None:
        self.bring()
        os.makedirs(os.path.join(self.store, "refs/heads"))
        with open(os.path.join(self.store, "refs/heads/bad"), "w", encoding="ascii") as it:
            it.write("no id\n")
        self.commit("two", b="b")
        self.assertIn("refs/heads/bad holds no id", self.bring(status=1)["error"])
        self.assertIn("refs/heads/bad holds no id", self.give(status=1)["error"])
        self.assertIn(b"BadName", engine(self.store, b""))


del Case
if __name__ == "__main__":
    unittest.main()
