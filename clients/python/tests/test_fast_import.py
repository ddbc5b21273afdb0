"""Streams of git fast-export, imported: ids, names and tags are those of the git of the system."""
import contextlib
import io
import json
import os
import subprocess
import sys
import time
import unittest
from typing import Any, Dict, List
from unittest import mock

sys.path.insert(0, os.path.dirname(os.path.dirname(os.path.abspath(__file__))))

from tests.test_git_bridge import ACTOR, PACKAGE, Case, commit_text, engine, git, random_stream
from wunthavel import fast_import
from wunthavel.fast_import import EXPORT, read_path

WHO = b"committer Ada <a@b> 5 +0000\n"


class Streams(Case):
    def export(self, *more: str) -> bytes:
        done = subprocess.run(["git", "-C", self.source, *EXPORT, *more], stdout=subprocess.PIPE, stderr=subprocess.PIPE)
        self.assertEqual(done.returncode, 0, done.stderr)
        return done.stdout

    def load(self, stream: bytes, *words: str, status: int = 0) -> Dict[str, Any]:
        with mock.patch.object(sys, "stdin", mock.Mock(buffer=io.BytesIO(stream))):
            return self.call(fast_import, self.store, *words, status=status)

    def names(self, *flags: str) -> List[str]:
        rows = engine(self.store, b"names\n", *flags).decode("utf-8", "surrogateescape").splitlines()[1:]
        return [f"{it.split()[0]} {it.split()[2]}" for it in rows]

    def same(self, *flags: str) -> None:
        """The names hold the very ids of git's, and so all that they reach is the same."""
        self.assertEqual(self.names(*flags), git(self.source, "for-each-ref", "--format=%(objectname) %(refname)").splitlines())

    def whole(self, *words: str) -> Dict[str, Any]:
        said = self.load(self.export(), *words)
        self.same(*(["--sha256"] if "--sha256" in words else []))
        return said

    def history(self, *flags: str) -> None:
        self.grow('\u00e9 "q"\t', *flags)
        git(self.source, "tag", "light", "HEAD~1")
        git(self.source, "tag", "-a", "-m", "First\n\nWith two parts.", "v1", "HEAD~2")
        git(self.source, "notes", "add", "-m", "a note", "HEAD")
        git(self.source, "branch", "-D", "third")

    def test_merges_octopus_renames_tags_notes(self) -> None:
        self.history()
        self.whole()
        said = self.whole()
        self.assertEqual((said["commits"], said["tags"], said["known"]), (0, 0, 11))

    def test_sha256(self) -> None:
        self.history("--object-format=sha256")
        self.whole("--sha256")
        self.store += "2"
        self.call(fast_import, self.store, "--from", self.source)
        self.same("--sha256")

    def test_renames_copies_and_full_trees(self) -> None:
        self.history()
        stream = self.export("-M", "-C", "--find-copies-harder")
        self.assertIn(b"\nR d/b moved/b\n", stream)
        self.load(stream)
        self.same()
        self.store += "2"
        stream = self.export("--full-tree")
        self.assertIn(b"deleteall", stream)
        self.load(stream)
        self.same()

    def test_histories_made_at_random(self) -> None:
        for seed in range(3):
            with self.subTest(seed):
                self.source, self.store = (os.path.join(self.room, f"{it}{seed}") for it in ("source", "store"))
                self.init("--bare")
                git(self.source, "fast-import", "--quiet", given=random_stream(seed, 60))
                stream = self.export()
                said = self.load(stream)
                self.assertEqual((said["commits"], said["other_ids"]), (stream.count(b"\ncommitter "), 0))
                self.same()

    def test_without_original_ids(self) -> None:
        self.history()
        stream = b"".join(it for it in self.export().splitlines(True) if not it.startswith(b"original-oid"))
        self.load(stream)
        self.same()

    def test_from_a_repository(self) -> None:
        self.history()
        self.call(fast_import, self.store, "--from", self.source)
        self.same()

    def test_a_file_becomes_a_folder_and_a_folder_a_file(self) -> None:
        self.init()
        self.commit("one", a="file", d__x="1", d__y__z="2")
        self.commit("a folder", a=None)
        self.commit("there", a__b="in a folder", a__c="too")
        self.commit("back", a__b=None, a__c=None)
        self.commit("a file again", a="file")
        self.rename("at once a folder", lambda: (os.remove(self.path("a")), os.mkdir(self.path("a")), self.write("a/b", "x")))
        self.rename("at once a file", lambda: (os.remove(self.path("a/b")), os.rmdir(self.path("a")), self.write("a", "y")))
        stream = self.export()
        self.assertRegex(stream, rb"M 100644 :[0-9]+ a/b\nD a\n")
        self.whole()

    def path(self, name: str) -> str:
        return os.path.join(self.source, name)

    def write(self, name: str, text: str) -> None:
        with open(self.path(name), "w", encoding="utf-8") as it:
            it.write(text)

    def rename(self, message: str, change: Any) -> None:
        change()
        self.commit(message)

    def test_messages_without_a_last_line_feed(self) -> None:
        self.init()
        first = self.commit("one", a="a")
        tree = git(self.source, "rev-parse", "HEAD^{tree}")
        for message in (b"no end", b"title\n\nno end", b"ends\n\n\n", b" spaces ", b"data 3\nabc"):
            first = self.object("commit", commit_text(tree, message=message, parents=[first]))
        git(self.source, "update-ref", "refs/heads/main", first)
        tag = self.object("tag", b"object " + first.encode() + b"\ntype commit\ntag v\ntagger " + ACTOR + b"\n\nno end")
        git(self.source, "update-ref", "refs/tags/v", tag)
        self.whole()

    def test_a_reset_back_in_time_is_a_move(self) -> None:
        self.init()
        for number in range(4):
            self.commit(f"change {number}", a=str(number))
        git(self.source, "branch", "old", "HEAD~2")
        self.whole()
        git(self.source, "reset", "-q", "--hard", "HEAD~3")
        self.assertEqual(self.whole()["names"], 1)
        self.commit("another way", b="b")
        self.whole()
        self.assertIn(b"\tfast-import\n", engine(self.store, b"past main\n"))

    def test_a_root_on_a_branch_that_exists(self) -> None:
        self.init()
        self.commit("one", a="a")
        self.whole()
        git(self.source, "checkout", "-q", "--orphan", "new")
        self.commit("root", b="b")
        git(self.source, "branch", "-M", "new", "main")
        self.whole()
        self.assertNotIn("refs/wunthavel", "".join(self.names()))
        # Twice in one stream, on one branch.
        root = b"reset refs/heads/r\ncommit refs/heads/r\n" + WHO + b"data 1\n%d\nM 644 inline %d\ndata 1\nx\n\n"
        self.load(root % (1, 1) + root % (2, 2))
        self.assertIn(b"parents 0\n", engine(self.store, b"show refs/heads/r\n"))
        self.assertIn(b"ok files 1\n", engine(self.store, b"files refs/heads/r\n"))

    def test_a_tag_of_a_tag_is_refused_by_its_name(self) -> None:
        self.init()
        self.commit("one", a="a")
        git(self.source, "tag", "-a", "-m", "m", "inner")
        git(self.source, "tag", "-a", "-m", "m", "outer", "inner")
        inner, outer = (git(self.source, "rev-parse", it) for it in ("inner", "outer"))
        said = self.load(self.export(), status=1)
        self.assertIn(f"tag {outer} on refs/tags/outer: it is of the tag {inner}, and not of a commit", said["error"])
        stream = b"commit refs/heads/main\nmark :1\n%sdata 1\nm\ntag i\nmark :2\nfrom :1\ntagger A <a@b> 1 +0000\ndata 1\nm\n" % WHO
        said = self.load(stream + b"tag o\nfrom :2\ntagger A <a@b> 1 +0000\ndata 1\nm\n", status=1)
        self.assertIn("refs/tags/o: it is of the tag refs/tags/i", said["error"])

    def test_a_signed_tag_keeps_its_signature(self) -> None:
        self.init()
        first = self.commit("one", a="a")
        message = b"signed\n-----BEGIN PGP SIGNATURE-----\n\nabc\n-----END PGP SIGNATURE-----\n"
        tag = self.object("tag", b"object " + first.encode() + b"\ntype commit\ntag v\ntagger " + ACTOR + b"\n\n" + message)
        git(self.source, "update-ref", "refs/tags/v", tag)
        self.whole()

    def test_an_id_that_is_not_the_original_one_ends_it(self) -> None:
        self.init()
        self.commit("one", a="a")
        tree = git(self.source, "rev-parse", "HEAD^{tree}")
        id = self.object("commit", commit_text(tree, b"HG:extra x"))
        git(self.source, "update-ref", "refs/heads/bad", id)
        said = self.load(self.export(), status=1)
        self.assertIn(id, said["error"])
        self.store += "2"
        said = self.load(self.export(), "--new-ids")
        self.assertEqual((said["other_ids"], said["new_ids"]), (1, self.store + ".new-ids"))
        self.assertEqual([it.split()[0] for it in self.new_ids()], [id])

    def new_ids(self) -> List[str]:
        with open(self.store + ".new-ids", encoding="ascii") as it:
            return it.read().splitlines()

    def test_signed_commits_get_new_ids_and_are_known_by_them(self) -> None:
        self.init()
        first = self.commit("one", a="a")
        tree = git(self.source, "rev-parse", "HEAD^{tree}")
        signature = b"gpgsig -----BEGIN PGP SIGNATURE-----\n \n abc\n -----END PGP SIGNATURE-----"
        ids = [self.object("commit", commit_text(tree, signature, parents=[first]))]
        ids.append(self.object("commit", commit_text(tree, b"encoding ISO-8859-1", parents=ids, message=b"\xe9\n")))
        ids.append(self.object("commit", commit_text(tree, parents=[ids[-1]])))
        git(self.source, "update-ref", "refs/heads/main", ids[-1])
        git(self.source, "tag", "-a", "-m", "m", "v")
        ids.append(git(self.source, "rev-parse", "v"))
        said = self.call(fast_import, self.store, "--from", self.source, "--new-ids")
        self.assertEqual((said["commits"], said["tags"], said["other_ids"]), (4, 1, 4))
        pairs = [it.split() for it in self.new_ids()]
        self.assertEqual([it[0] for it in pairs], ids)
        self.assertEqual([it.split()[0] for it in self.names()], [pairs[2][1], pairs[3][1]])
        shown = engine(self.store, b"show %s\n" % pairs[1][1].encode())
        self.assertIn(b"parent %s\n" % pairs[0][1].encode(), shown)
        self.assertTrue(shown.endswith(b"message 3\n\xc3\xa9\n\n"), shown)
        again = self.call(fast_import, self.store, "--from", self.source, "--new-ids")
        self.assertEqual((again["commits"], again["tags"], again["known"], again["names"], again["other_ids"]), (0, 0, 5, 0, 0))
        self.assertEqual(len(self.new_ids()), 4)

    def test_a_cut_stream(self) -> None:
        self.init()
        self.commit("one", a="a")
        self.commit("two", a="b")
        stream = self.export()
        self.assertTrue(stream.startswith(b"feature done\n") and stream.endswith(b"done\n"))
        for at in (stream.rindex(b"done\n"), stream.rindex(b"reset"), stream.index(b"\ncommit") + 1, len(b"feature done\n")):
            judge = self.store + ".git"
            git(self.room, "init", "-q", "--bare", judge)
            done = subprocess.run(["git", "-C", judge, "fast-import", "--quiet", "--force"], input=stream[:at], stderr=subprocess.PIPE)
            self.assertNotEqual(done.returncode, 0)
            self.assertIn("cut", self.load(stream[:at], status=1)["error"])
        self.whole()

    def test_replaced_objects_are_not_followed(self) -> None:
        self.init()
        self.commit("one", a="a")
        self.commit("two", a="b")
        git(self.source, "replace", "--graft", "HEAD")
        self.call(fast_import, self.store, "--from", self.source)
        self.same()

    def test_the_branch_of_head_is_that_of_the_source(self) -> None:
        self.init()
        self.commit("one", a="a")
        git(self.source, "branch", "-m", "trunk")
        self.call(fast_import, self.store, "--from", self.source)
        self.assertEqual(engine(self.store, b"names\n").split(b"\n")[0], b"ok names 1 refs/heads/trunk")

    def test_a_detached_head_moves_no_branch(self) -> None:
        self.init()
        self.commit("one", a="a")
        first = self.commit("two", a="b")
        git(self.source, "checkout", "-q", "--detach", "HEAD~1")
        git(self.source, "worktree", "add", "-q", "--detach", os.path.join(self.room, "tree"), first)
        self.commit("on no branch", a="c")
        self.call(fast_import, self.store, "--from", self.source)
        self.same()
        self.store += "2"
        self.whole()

    def test_a_source_that_is_not_there_leaves_nothing(self) -> None:
        for place in (self.source, self.room):
            self.assertFalse(self.call(fast_import, self.store, "--from", place, status=1)["done"])
            self.assertFalse(os.path.exists(self.store))

    def test_numbers_without_end(self) -> None:
        for stream, why in ((b"blob\ndata " + b"9" * 5000 + b"\n", "in the place of data"), (b"blob\ndata 16777217\n", "over 16,777,216")):
            self.assertIn(why, self.load(stream, status=1)["error"])
        stream = b"commit refs/heads/x\ncommitter A <a@b> " + b"9" * 5000 + b" +0000\ndata 1\nm\n"
        self.assertIn("isn't 'Name", self.load(stream, status=1)["error"])

    def test_what_no_command_makes_is_named(self) -> None:
        self.init()
        self.commit("one", a="a")
        tree, blob = git(self.source, "rev-parse", "HEAD^{tree}"), git(self.source, "rev-parse", "HEAD:a")
        module = self.object("tree", b"160000 sub\0" + bytes.fromhex(blob))
        for text, why in (
            (commit_text(tree, message=b"\nno title"), "BadMessage"),
            (commit_text(tree, b"encoding ISO-8859-1"), "an encoding (ISO-8859-1)"),
            (commit_text(module), "'sub' is a submodule"),
            (commit_text(tree, author=b"Ada <a@b> 5 -0000"), "BadTime"),
        ):
            with self.subTest(why):
                id = self.object("commit", text)
                git(self.source, "update-ref", "refs/heads/bad", id)
                said = self.load(self.export(), status=1)
                self.assertIn(why, said["error"])
                self.assertIn(id, said["error"])

    def test_streams_that_are_none(self) -> None:
        head = b"commit refs/heads/x\nmark :1\n" + WHO
        for stream, why in (
            (b"hello\n", "'hello' is no command"),
            (b"blob\nmark :1\ndata 5\nab", "ends inside data"),
            (head + b"data 1\nm\nM 100644 :9 a\n", ":9 is no content"),
            (head + b"data 1\nm\nfrom :9\n", "no :9 before it"),
            (head + b"data 1\nm\nM 100664 inline a\ndata 0\n", "of the mode 100664"),
            (head + b"data 1\nm\nC a b\n", "has none"),
            (head + b"data 1\nm\nN inline :1\n", "a note as such"),
            (b"commit refs/heads/x\ndata 1\nm\n", "no committer"),
            (b"commit refs/heads/x\ncommitter x\ndata 1\nm\n", "isn't 'Name"),
            (b"feature import-marks=x\n", "needs the feature"),
            (b"tag v\nfrom refs/heads/none\ndata 1\nm\n", "no commit"),
        ):
            with self.subTest(why):
                self.assertIn(why, self.load(stream, status=1)["error"])

    def test_streams_by_others(self) -> None:
        stream = b"# comment\nfeature done\ncommit HEAD\n" + WHO + b"data <<E\nm\nE\n\nM 644 inline \"q\\303\\251\"\ndata 2\nhi\nM 755 inline x\ndata 0\n\n"
        stream += b"commit refs/heads/main\n" + WHO + b"data 1\nn\nD x\nC \"q\\303\\251\" c d\n\nreset refs/heads/old\nfrom refs/heads/main\n\nprogress here\n"
        stream += b"reset refs/heads/old\nfrom 0000000000000000000000000000000000000000\n\ndone\nrest"
        stream = stream.replace(b"done\nrest", b"commit refs/heads/old\n" + WHO + b"data 1\no\n\ndone\nrest")
        self.load(stream)
        self.assertIn(b"parents 0\n", engine(self.store, b"show refs/heads/old\n"))
        self.assertIn("c d\n", engine(self.store, b"files main\n").decode())
        self.load(b"reset refs/heads/old\nfrom 0000000000000000000000000000000000000000\n")
        self.assertEqual(len(self.names()), 1)

    def test_stopped_and_given_again(self) -> None:
        self.init()
        for number in range(40):
            self.commit(f"change {number}", **{f"a{number}": "x" * 2000})
        call = [sys.executable, "-c", "import sys; from wunthavel.fast_import import main; sys.exit(main(sys.argv[1:]))", self.store, "--from", self.source, "--json"]
        env = {**os.environ, "PYTHONPATH": PACKAGE}
        for number in range(5):
            process = subprocess.Popen(call, env=env, stdout=subprocess.DEVNULL, stderr=subprocess.DEVNULL)
            end = time.monotonic() + 20
            while time.monotonic() < end and process.poll() is None and self.made() < 10 * number:
                time.sleep(0.001)
            process.kill()
            process.wait()
            self.wait_for_others()
        done = subprocess.run(call, env=env, stdout=subprocess.PIPE, stderr=subprocess.PIPE)
        self.assertEqual(done.returncode, 0, done.stdout)
        said = json.loads(done.stdout)
        self.assertEqual(said["commits"] + said["known"], 40)
        self.same()

    def made(self) -> int:
        with contextlib.suppress(OSError):
            return len(os.listdir(os.path.join(self.store, "objects")))
        return 0

    def test_heads(self) -> None:
        self.init()
        self.commit("one", a="a")
        git(self.source, "branch", "-m", "trunk")
        self.assertIn("refs/heads/main", self.load(self.export())["notes"][0])
        self.assertEqual(self.load(self.export(), "--head", "refs/heads/trunk")["notes"], [])


class Paths(unittest.TestCase):
    def test_quotes(self) -> None:
        for text, path, rest in ((b"a b", b"a b", b""), (b'"a\\tb\\"\\\\" x', b'a\tb"\\', b"x"), (b'"\\303\\251"', "\u00e9".encode(), b"")):
            self.assertEqual(read_path(text), (path, rest))


del Case
if __name__ == "__main__":
    unittest.main()
