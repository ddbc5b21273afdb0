"""The bridge to git, judged by the git of the system: ids, names, tags and logs are the same on both sides, both ways."""
import io
import json
import os
import random
import shutil
import signal
import subprocess
import sys
import tempfile
import time
import unittest
from contextlib import redirect_stderr, redirect_stdout, suppress
from typing import Any, Callable, Dict, Optional, Sequence
from unittest import mock

sys.path.insert(0, os.path.dirname(os.path.dirname(os.path.abspath(__file__))))

from wunthavel import bridge_folder, bridge_git, git_export, git_import
from wunthavel.bridge_forms import Patterns, is_full_name
from wunthavel.engine import EngineError, act, find_engine
from wunthavel.progress import Progress
from tests.support import running, wait_until

PACKAGE = os.path.dirname(os.path.dirname(os.path.abspath(__file__)))
WHO = {"NAME": "Ada Lovelace", "EMAIL": "ada@example.org", "DATE": "1700000000 +0100"}
ACTOR = b"Ada <ada@example.org> 1700000000 +0100"
try:
    find_engine()
    MISSING: Optional[str] = None if shutil.which("git") else "there is no git"
except EngineError as error:
    MISSING = str(error)


def git(folder: str, *words: str, given: Optional[bytes] = None, **env: str) -> str:
    """Returns what git writes."""
    fixed = {f"GIT_{role}_{part}": it for role in ("AUTHOR", "COMMITTER") for part, it in WHO.items()}
    fixed.update(GIT_CONFIG_GLOBAL="/dev/null", GIT_CONFIG_SYSTEM="/dev/null", HOME=folder, LC_ALL="C")
    done = subprocess.run(["git", "-C", folder, *words], input=given, stdout=subprocess.PIPE, stderr=subprocess.PIPE, env={**os.environ, **fixed, **env})
    if done.returncode:
        raise AssertionError(f"git {words}: {done.stderr.decode()}")
    return done.stdout.decode("utf-8", "surrogateescape").strip()


def engine(folder: str, commands: bytes, *flags: str) -> bytes:
    """Returns what the engine replies."""
    done = subprocess.run([find_engine(), "run", *flags, folder], input=commands, stdout=subprocess.PIPE, stderr=subprocess.PIPE)
    return done.stdout + done.stderr


def all_of(folder: str) -> Dict[str, Any]:
    """Returns all that a git repository has: objects, names, logs, HEAD."""
    logs = {}
    top = os.path.join(folder, git(folder, "rev-parse", "--git-common-dir"))
    for at, _, names in os.walk(os.path.join(top, "logs", "refs")):
        for it in names:
            with open(os.path.join(at, it), "rb") as log:
                logs[os.path.relpath(os.path.join(at, it), top)] = log.read()
    objects = sorted(git(folder, "cat-file", "--batch-all-objects", "--batch-check").splitlines())
    return {"objects": objects, "names": git(folder, "for-each-ref"), "logs": logs, "head": git(folder, "symbolic-ref", "HEAD")}


def commit_text(tree: str, *more: bytes, author: bytes = ACTOR, message: bytes = b"m\n", parents: Sequence[str] = ()) -> bytes:
    lines = [b"tree " + tree.encode(), *(b"parent " + it.encode() for it in parents), b"author " + author, b"committer " + ACTOR, *more]
    return b"\n".join(lines) + b"\n\n" + message


def random_stream(seed: int, commits: int) -> bytes:
    """Returns a stream for git's own fast-import: branches, merges, roots, tags, files that become folders and folders that become files."""
    chance, parts, branches = random.Random(seed), [], ["main"]
    names = [b"a", b"b", b"a/b", b"a/b/c", b"a.b", b"a0", b"b/a", b"b/\\303\\251", b"c d", b"d/e/f/g"]
    who = b"%%s Ada %d <ada@example.org> %%d +0%d30\n"
    for mark in range(1, commits + 1):
        branch, line = chance.choice(branches), who % (chance.randrange(9), chance.randrange(9))
        if chance.random() < 0.15:
            branch = f"b{mark}"
            branches.append(branch)
        message = chance.choice([b"one line", b"title\n\nbody\n", b"no end", b"\303\251 \n\n\n", b"t\n\r\n"]) + b" %d" % mark
        parts.append(b"commit refs/heads/%s\nmark :%d\n" % (branch.encode(), mark) + line % (b"author", mark) + line % (b"committer", 5 * mark))
        parts.append(b"data %d\n%s\n" % (len(message), message))
        others = chance.sample(range(1, mark), min(mark - 1, chance.choice([0, 1, 1, 1, 2, 4])))
        parts += [b"%s :%d\n" % (b"merge" if at else b"from", it) for at, it in enumerate(others)]
        for _ in range(chance.randrange(4)):
            name, data = chance.choice(names), b"%d" % chance.randrange(20) * chance.choice([0, 1, 50])
            if chance.random() < 0.3:
                parts.append(b'D "%s"\n' % name)
            else:
                parts.append(b'M %s inline "%s"\ndata %d\n%s\n' % (chance.choice([b"100644", b"100755", b"120000"]), name, len(data), data))
        if chance.random() < 0.1:
            parts.append(b"tag v%d\nfrom :%d\n" % (mark, mark) + line % (b"tagger", mark) + b"data 6\nv\n\nend\n")
    return b"".join(parts)


@unittest.skipIf(MISSING, MISSING)
class Case(unittest.TestCase):
    """A folder for each test, and the two commands."""

    def setUp(self) -> None:
        room = tempfile.TemporaryDirectory(prefix="bridge-")
        self.addCleanup(room.cleanup)
        self.room = room.name
        self.source, self.store, self.dest = (os.path.join(self.room, it) for it in ("source", "store", "dest.git"))

    def wait_for_others(self) -> None:
        """What a killed process started may still work: an engine does what it was sent, and git holds its locks."""
        wait_until(lambda: not running(os.fsencode(self.room)))

    def init(self, *flags: str) -> str:
        os.makedirs(self.source)
        git(self.source, "init", "-q", "-b", "main", *flags)
        return self.source

    def init_other(self) -> str:
        """Makes another source, without commits."""
        other = os.path.join(self.room, "other")
        git(self.room, "init", "-q", "-b", "main", other)
        return other

    def commit(self, message: str, **files: Optional[str]) -> str:
        for name, text in files.items():
            path = os.path.join(self.source, name.replace("__", "/"))
            os.makedirs(os.path.dirname(path), exist_ok=True)
            if text is None:
                os.remove(path)
                with suppress(OSError):
                    os.removedirs(os.path.dirname(path))
            else:
                with open(path, "w", encoding="utf-8") as it:
                    it.write(text)
        git(self.source, "add", "-A")
        git(self.source, "commit", "-q", "--allow-empty", "-m", message)
        return git(self.source, "rev-parse", "HEAD")

    def grow(self, odd: str, *flags: str) -> None:
        """Makes the source: files, one with an odd name, a link, modes, a merge of two and one of three, and a folder that moves."""
        self.init(*flags)
        self.commit("first", a="one\n", d__b="two\n", **{odd: "three\n"})
        os.symlink("a", os.path.join(self.source, "link"))
        os.chmod(os.path.join(self.source, "a"), 0o755)
        self.commit("modes")
        for name in ("side", "other", "third"):
            git(self.source, "checkout", "-q", "-b", name, "main")
            self.commit(name, **{name: name})
        git(self.source, "checkout", "-q", "main")
        self.commit("more", a="one\nmore\n")
        git(self.source, "merge", "-q", "-m", "Merge side", "side")
        git(self.source, "merge", "-q", "-m", "Octopus", "other", "third")
        git(self.source, "mv", "d", "moved")
        self.commit("rename")

    def object(self, kind: str, text: bytes) -> str:
        return git(self.source, "hash-object", "-t", kind, "-w", "--stdin", "--literally", given=text)

    def call(self, command: Any, *words: str, status: int = 0) -> Dict[str, Any]:
        out, said = io.StringIO(), io.StringIO()
        with redirect_stdout(out), redirect_stderr(said):
            self.assertEqual(command.main([*words, "--json"]), status, said.getvalue() + out.getvalue())
        return json.loads(out.getvalue())

    def bring(self, *words: str, status: int = 0) -> Dict[str, Any]:
        return self.call(git_import, self.source, self.store, *words, status=status)

    def give(self, *words: str, status: int = 0) -> Dict[str, Any]:
        return self.call(git_export, self.store, self.dest, *words, status=status)

    def both_ways(self, *words: str) -> None:
        """Brings the source into a history and gives it to git again: all is the same, what nothing reaches too."""
        self.bring("--unreached", *words)
        said = self.give(*words)
        self.assertEqual((said["fsck"], said["check"]), ("whole", "whole"))
        self.assertEqual(all_of(self.dest), all_of(self.source))
        self.assertEqual(git(self.dest, "fsck", "--strict", "--no-dangling"), "")

    def refused(self, why: str, id: str, *words: str) -> None:
        """The import is refused with this object and reason, and nothing is written."""
        said = self.bring(*words, status=1)
        problems = [f"{it['where']}: {it['why']}" for it in said.get("cannot_hold", [])]
        self.assertTrue(any(id in it and why in it for it in problems), problems or said)
        self.assertFalse(os.path.exists(self.store))


class Histories(Case):
    def merges(self, *flags: str) -> None:
        self.grow("e x", *flags)
        git(self.source, "tag", "light")
        git(self.source, "tag", "-a", "-m", "First\n\nWith two parts.", "v1", "HEAD~2")
        git(self.source, "notes", "add", "-m", "a note", "HEAD")

    def test_merges_octopus_renames_tags(self) -> None:
        self.merges()
        self.both_ways()

    def test_sha256(self) -> None:
        self.merges("--object-format=sha256")
        self.both_ways()
        self.assertEqual(len(git(self.dest, "rev-parse", "HEAD")), 64)
        self.source = self.init_other()
        self.assertIn("leave out --sha256", self.bring("--sha256", status=1)["error"])

    def test_packed_names_and_packed_objects(self) -> None:
        self.merges()
        git(self.source, "pack-refs", "--all")
        git(self.source, "gc", "-q", "--aggressive")
        self.commit("after", f="4\n")
        git(self.source, "update-ref", "-d", "refs/heads/third")
        self.both_ways()

    def test_logs_of_resets_and_renamed_branches(self) -> None:
        self.init()
        for number in range(6):
            self.commit(f"change {number}", a=str(number))
        git(self.source, "reset", "-q", "--hard", "HEAD~3")
        git(self.source, "branch", "-m", "main", "trunk")
        git(self.source, "checkout", "-q", "-b", "folder/deep/name")
        self.commit("deep", b="b")
        self.both_ways()

    def test_several_roots_odd_files_and_an_unborn_branch(self) -> None:
        self.init()
        self.commit("root", **{"a.b": "1", "a0": "2", "a__c": "3", "\u00e9\n\t\"": "4", "-x": ""})
        self.commit("no files", **{"a.b": None, "a0": None, "a__c": None, "\u00e9\n\t\"": None, "-x": None})
        git(self.source, "checkout", "-q", "--orphan", "second-root")
        self.commit("another root\n\nbody without end of line \r\n", z="z\r\n")
        git(self.source, "merge", "-q", "--allow-unrelated-histories", "-m", "both", "main")
        git(self.source, "branch", "\u00fcber/\u00e4st")
        git(self.source, "symbolic-ref", "HEAD", "refs/heads/unborn")
        self.both_ways()

    def test_histories_made_at_random(self) -> None:
        for seed in range(3):
            with self.subTest(seed):
                self.source, self.store, self.dest = (os.path.join(self.room, f"{it}{seed}") for it in ("source", "store", "dest.git"))
                self.init("--bare")
                git(self.source, "fast-import", "--quiet", given=random_stream(seed, 60))
                self.both_ways()

    def test_an_empty_repository(self) -> None:
        self.init()
        self.both_ways()

    def test_made_by_the_engine_and_brought_back(self) -> None:
        os.makedirs(self.store)
        act("create", self.store)
        one = "author 3 15 17 +0100\nAda\nada@example.org\ncommitter 3 15 20018 -0230\nAda\nada@example.org\nmessage 3\nmsg\nend\n"
        commands = f"commit HEAD new\nput file 3 2\na/b\nhi\n{one}commit HEAD any\nremove 3\na/b\n{one}commit refs/heads/x new\nparent main\n{one}"
        commands += "tag refs/tags/v new main\ntagger 3 15 17 +0100\nAda\nada@example.org\nmessage 2\nv\n\nend\nrename refs/tags/v refs/tags/w\ndelete refs/heads/x any\npack\n"
        self.assertNotIn(b"refused", engine(self.store, commands.encode()))
        self.give()
        self.source, first = self.dest, self.store
        self.store = os.path.join(self.room, "again")
        self.bring("--unreached")
        for part in ("objects", "logs", "packed-refs", "HEAD"):
            self.assertEqual(subprocess.call(["diff", "-r", os.path.join(first, part), os.path.join(self.store, part)]), 0)


class Increments(Case):
    def test_only_what_is_new(self) -> None:
        self.init()
        for number in range(150):
            self.commit(f"change {number}", a=str(number))
        self.assertEqual(self.bring()["objects"], 450)
        self.assertEqual(self.give()["objects"], 450)
        self.assertEqual((self.bring()["objects"], self.give()["objects"]), (0, 0))
        self.commit("more", b="b")
        git(self.source, "tag", "-a", "-m", "tagged", "v2")
        said = self.bring()
        self.assertEqual((said["objects"], said["names"], said["kinds"]["tag"]), (4, 2, 1))
        self.assertEqual(self.give()["objects"], 4)
        self.assertEqual(all_of(self.dest), all_of(self.source))

    def test_a_dry_run_writes_nothing(self) -> None:
        self.init()
        self.commit("one", a="a")
        self.assertEqual(self.bring("--dry-run")["objects"], 3)
        self.assertFalse(os.path.exists(self.store))
        self.bring()
        self.assertEqual(self.give("--dry-run")["objects"], 3)
        self.assertFalse(os.path.exists(self.dest))

    def test_names_that_moved_on_both_sides(self) -> None:
        self.init()
        self.commit("one", a="a")
        self.bring()
        self.give()
        git(self.source, "commit", "-q", "--amend", "-m", "other")
        self.assertIn("--force", str(self.bring(status=1)["cannot_hold"]))
        self.assertEqual(self.bring("--force")["names"], 1)
        self.assertIn("--force", str(self.give(status=1)["cannot_hold"]))
        self.give("--force")
        self.assertEqual(git(self.dest, "for-each-ref"), git(self.source, "for-each-ref"))

    def test_names_of_the_other_side_stay_or_are_pruned(self) -> None:
        self.init()
        self.commit("one", a="a")
        git(self.source, "branch", "x")
        self.bring()
        self.give()
        git(self.source, "branch", "-D", "x")
        git(self.source, "branch", "x/y")
        self.assertIn("refs/heads/x exists", str(self.bring(status=1)["cannot_hold"]))
        self.assertEqual(self.bring("--prune")["deleted"], 1)
        self.assertIn("refs/heads/x exists", str(self.give(status=1)["cannot_hold"]))
        self.assertEqual(self.give("--prune")["deleted"], 1)
        self.assertEqual(all_of(self.dest), all_of(self.source))

    def test_one_at_a_time(self) -> None:
        self.init()
        self.commit("one", a="a")
        self.bring()
        with mock.patch.object(bridge_folder, "WAIT", 0.1), git_import.Store(self.store, False, None).held(alone=True):
            self.commit("two", b="b")
            self.assertIn("another process", self.bring(status=1)["error"])
            self.assertIn("another process", self.give(status=1)["error"])

    def test_a_lock_that_a_stopped_export_left_goes_and_git_s_own_stays(self) -> None:
        self.init()
        self.commit("one", a="a")
        self.bring()
        self.give()
        lock = os.path.join(self.dest, "logs/refs/heads/main.lock")
        os.symlink(bridge_git.MARK, os.fsencode(lock))
        self.commit("two", b="b")
        self.bring()
        self.assertEqual(self.give()["logs"], 1)
        self.assertFalse(os.path.lexists(lock))
        self.assertEqual(all_of(self.dest), all_of(self.source))
        open(lock, "x").close()
        self.commit("three", c="c")
        self.bring()
        self.assertIn("main.lock exists", self.give(status=1)["error"])
        self.assertTrue(os.path.lexists(lock))
        os.remove(lock)
        self.give()
        self.assertEqual(all_of(self.dest), all_of(self.source))

    def test_one_export_at_a_time(self) -> None:
        self.init()
        self.commit("one", a="a")
        self.bring()
        self.give()
        self.commit("two", b="b")
        self.bring()
        with mock.patch.object(bridge_folder, "WAIT", 0.1), bridge_folder.held(os.fsencode(self.dest), True):
            self.assertIn("another process", self.give(status=1)["error"])
        self.give()

    def killed(self, look: Callable[[], None], module: str, *words: str) -> None:
        """Kills the command at moments all along its work, looks at what it left each time, and lets it end at last."""
        call = [sys.executable, "-c", f"import sys; from wunthavel.{module} import main; sys.exit(main(sys.argv[1:]))", *words, "--quiet"]
        env, chance = {**os.environ, "PYTHONPATH": PACKAGE}, random.Random(7)
        began = time.monotonic()
        subprocess.run([*call[:-1], "--dry-run", "--quiet"], env=env, check=True, stdout=subprocess.DEVNULL)
        whole = time.monotonic() - began
        for _ in range(8):
            process = subprocess.Popen(call, env=env, stderr=subprocess.PIPE)
            time.sleep(whole * (0.4 + 1.2 * chance.random()))
            process.send_signal(signal.SIGKILL)
            process.communicate()
            self.wait_for_others()
            look()
        done = subprocess.run(call, env=env, stderr=subprocess.PIPE)
        self.assertEqual(done.returncode, 0, done.stderr)

    def test_killed_at_any_moment_and_given_again(self) -> None:
        self.init()
        for number in range(60):
            self.commit(f"change {number}", **{f"a{number}": str(number)})

        def store_is_whole() -> None:
            if os.path.exists(os.path.join(self.store, "HEAD")):
                # It recovers, and checks.
                git_import.Store(self.store, False, None).make(Progress("opening", quiet=True))

        def dest_is_whole() -> None:
            if os.path.exists(os.path.join(self.dest, "HEAD")):
                self.assertEqual(git(self.dest, "fsck", "--strict", "--no-dangling"), "")

        self.killed(store_is_whole, "git_import", self.source, self.store)
        self.killed(dest_is_whole, "git_export", self.store, self.dest)
        self.assertEqual(all_of(self.dest), all_of(self.source))
        # Names with logs: git adds its own lines to these before they are written.
        for number in range(5):
            self.commit(f"later {number}", **{f"b{number}": str(number)})
        self.bring()
        self.killed(dest_is_whole, "git_export", self.store, self.dest)
        self.assertEqual(all_of(self.dest), all_of(self.source))


class NotHeldByAHistory(Case):
    def setUp(self) -> None:
        super().setUp()
        self.init()
        self.first = self.commit("one", a="a")
        self.tree = git(self.source, "rev-parse", "HEAD^{tree}")
        self.blob = git(self.source, "rev-parse", "HEAD:a")

    def branch(self, id: str, name: str = "refs/heads/bad") -> str:
        git(self.source, "update-ref", name, id)
        return id

    def skipped(self, *words: str) -> None:
        """With the name left out the rest is brought."""
        said = self.bring("--skip-refs", "refs/heads/bad", *words)
        self.assertEqual((said["skipped"], said["objects"]), (["refs/heads/bad"], 3))

    def test_a_submodule(self) -> None:
        tree = self.object("tree", b"160000 sub\0" + bytes.fromhex(self.first))
        self.branch(self.object("commit", commit_text(tree)))
        self.refused("'sub' is a submodule", f"tree {tree}")
        self.skipped()

    def test_a_signature_an_encoding_and_other_headers(self) -> None:
        for header, why in (
            (b"gpgsig -----BEGIN PGP SIGNATURE-----\n \n abc\n -----END PGP SIGNATURE-----", "a signature"),
            (b"encoding ISO-8859-1", "an encoding (ISO-8859-1)"),
            (b"mergetag object " + self.first.encode() + b"\n type commit", "a merged tag"),
            (b"HG:rename-source hg", "a further header (HG:rename-source)"),
        ):
            with self.subTest(why):
                id = self.branch(self.object("commit", commit_text(self.tree, header)))
                self.refused(why, f"commit {id}")
        self.skipped()

    def test_actors_and_times(self) -> None:
        for author, why in (
            (b"Ada <a@b> -5 +0000", "negative"),
            (b" <a@b> 5 +0000", "the name is empty"),
            (b"<a@b> 5 +0000", "the name is empty"),
            (b"Ada <a@b> 5 -0000", "offset -0000"),
            (b"Ada <a@b> 5 +0160", "offset +0160"),
            (b"Ada <a@b> 05 +0000", "leading zero"),
            (b"Ada <a@b> 9223372036854775808 +0000", "over 9223372036854775807"),
            (b"Ada <a@b > 5 +0000", "begins or ends with a space"),
            (b"Ada  <a@b> 5 +0000", "begins or ends with a space"),
            (b"Ada <a<b> 5 +0000", "a byte that none may hold"),
            (b"A" * 513 + b" <a@b> 5 +0000", "over 512 bytes"),
            (b"Ada <a@b> 5", "isn't in the form"),
        ):
            with self.subTest(why):
                id = self.branch(self.object("commit", commit_text(self.tree, author=author)))
                self.refused(why, f"commit {id}")
        self.skipped()

    def test_parents_and_titles(self) -> None:
        roots = [self.object("commit", commit_text(self.tree, message=b"%d" % it)) for it in range(65)]
        for text, why in (
            (commit_text(self.tree, parents=roots), "65 parents"),
            (commit_text(self.tree, parents=[self.first, self.first]), "a parent twice"),
            (commit_text(self.tree, message=b"t" * 1025), "title has over 1024 bytes"),
            (commit_text(self.tree, parents=["0" * 39 + "1"]), "names commit"),
        ):
            with self.subTest(why):
                self.refused(why, f"commit {self.write_branch(self.object('commit', text))}")

    def write_branch(self, id: str) -> str:
        """Makes the branch also where git wouldn't."""
        with open(os.path.join(self.source, ".git/refs/heads/bad"), "w", encoding="ascii") as it:
            it.write(id + "\n")
        return id

    def test_trees(self) -> None:
        blob, tree = bytes.fromhex(self.blob), bytes.fromhex(self.tree)
        empty = bytes.fromhex("4b825dc642cb6eb9a060e54bf8d69288fbee4904")
        for text, why in (
            (b"100664 a\0" + blob, "mode 100664"),
            (b"040000 a\0" + tree, "mode 040000"),
            (b"40000 a\0" + empty, "a folder without files"),
            (b"100644 b\0" + blob + b"100644 a\0" + blob, "out of order"),
            (b"100644 a\0" + blob + b"40000 a\0" + tree, "there twice"),
            (b"100644 a/b\0" + blob, "no name of a file"),
            (b"40000 a\0" + blob, "which is a blob"),
        ):
            with self.subTest(why):
                bad = self.object("tree", text)
                self.write_branch(self.object("commit", commit_text(bad)))
                self.refused(why, f"tree {bad}")
        self.skipped()

    def test_a_path_over_the_limit(self) -> None:
        tree = self.tree
        for _ in range(17):
            tree = git(self.source, "mktree", given=b"040000 tree %s\t%s\n" % (tree.encode(), b"n" * 250))
        self.branch(self.object("commit", commit_text(tree)))
        self.refused("a path of 4,268 bytes", f"tree {tree}")

    def test_a_large_content(self) -> None:
        self.commit("large", large="x" * (16_777_216 + 1))
        self.refused("16,777,217 bytes", "blob " + git(self.source, "rev-parse", "HEAD:large"))
        self.commit("largest", large="x" * 16_777_216)
        git(self.source, "reset", "-q", "--soft", self.first)
        self.commit("largest")
        git(self.source, "reflog", "expire", "--expire=now", "--all")
        git(self.source, "gc", "-q", "--prune=now")
        self.both_ways()

    def test_heads(self) -> None:
        git(self.source, "checkout", "-q", "--detach")
        self.refused("detached", "HEAD")
        self.assertEqual(self.bring("--skip-refs", "HEAD")["names"], 1)
        shutil.rmtree(self.store)
        with open(os.path.join(self.source, ".git/HEAD"), "w", encoding="ascii") as it:
            it.write("ref: refs/elsewhere\n")
        self.refused("no branch", "HEAD")

    def test_symbolic_and_private_names(self) -> None:
        git(self.source, "symbolic-ref", "refs/remotes/origin/HEAD", "refs/heads/main")
        self.refused("the name is symbolic, for refs/heads/main", "refs/remotes/origin/HEAD")
        git(self.source, "update-ref", "refs/bisect/bad", self.first)
        self.refused("private", "refs/bisect/bad")
        said = self.bring("--skip-refs", "refs/remotes", "--skip-refs", "refs/bis*")
        self.assertEqual(said["skipped"], ["refs/bisect/bad", "refs/remotes/origin/HEAD"])

    def test_names_that_git_cannot_read(self) -> None:
        for name, text in (("bad", "no id\n"), ("dangling", "ref: refs/heads/none\n"), ("bad..name", self.first + "\n")):
            with self.subTest(name), open(os.path.join(self.source, ".git/refs/heads", name), "w", encoding="ascii") as it:
                it.write(text)
                it.flush()
                self.refused("can't read", f"refs/heads/{name}")
        self.assertEqual(self.bring("--skip-refs", "refs/heads/bad*", "--skip-refs", "refs/heads/dangling")["names"], 1)

    def test_names_that_are_not_utf8(self) -> None:
        git(self.source, "update-ref", os.fsdecode(b"refs/heads/\xff\xfe"), self.first)
        self.refused("isn't UTF-8", "refs/heads/\\xff\\xfe")
        self.assertEqual(self.bring("--skip-refs", os.fsdecode(b"refs/heads/\xff*"))["names"], 1)

    def test_tags(self) -> None:
        for kind, id in (("tree", self.tree), ("blob", self.blob)):
            git(self.source, "tag", "-f", "-a", "-m", "m", "bad", id)
            self.refused(f"a tag of a {kind}", "tag " + git(self.source, "rev-parse", "bad"))
        git(self.source, "tag", "-f", "-a", "-m", "m", "bad", self.first)
        git(self.source, "tag", "-a", "-m", "m", "worse", "bad")
        self.refused("a tag of a tag", "tag " + git(self.source, "rev-parse", "worse"))
        git(self.source, "tag", "-d", "bad", "worse")
        head = b"object " + self.first.encode() + b"\ntype commit\n"
        for text, why in (
            (head + b"tag bad\n\nmessage\n", "no tagger"),
            (head + b"tag bad\ntagger " + ACTOR + b"\n\n", "message is empty"),
            (head + b"tag -bad\ntagger " + ACTOR + b"\n\nm\n", "name '-bad'"),
            (head + b"tag b d\ntagger " + ACTOR + b"\n\nm\n", "name 'b d'"),
            (head + b"tag bad\ntagger Ada <a@b> -4 +0000\n\nm\n", "negative"),
            (head + b"tag bad\ntagger " + ACTOR + b"\ngpgsig x\n\nm\n", "a signature"),
        ):
            with self.subTest(why):
                id = self.object("tag", text)
                git(self.source, "update-ref", "refs/tags/bad", id)
                self.refused(why, f"tag {id}")
        git(self.source, "update-ref", "refs/tags/bad", self.blob)
        self.refused("the name holds a blob", "refs/tags/bad")
        self.assertEqual(self.bring("--skip-refs", "refs/tags/bad")["names"], 1)

    def test_a_signed_tag_is_held_since_its_signature_is_of_its_message(self) -> None:
        message = b"signed\n-----BEGIN PGP SIGNATURE-----\n\nabc\n-----END PGP SIGNATURE-----\n"
        id = self.object("tag", b"object " + self.first.encode() + b"\ntype commit\ntag v\ntagger " + ACTOR + b"\n\n" + message)
        git(self.source, "update-ref", "refs/tags/v", id)
        self.both_ways()

    def test_logs(self) -> None:
        log = os.path.join(self.source, ".git/logs/refs/heads/main")
        with open(log, "rb") as it:
            line = it.read()
        for text, why in (
            (line.rstrip(b"\n"), "no line feed"),
            (line[1:], "doesn't begin with two ids"),
            (line.rstrip(b"\n") + b"x" * 1025 + b"\n", "over 1024 bytes"),
            (line.replace(b"Ada Lovelace ", b""), "name is empty"),
        ):
            with self.subTest(why):
                with open(log, "wb") as it:
                    it.write(text)
                self.refused(why, "log of refs/heads/main")

    def test_what_no_name_reaches_is_brought_if_it_is_asked_for(self) -> None:
        id = self.object("commit", commit_text(self.tree, b"encoding x"))
        self.refused("an encoding", id, "--unreached")
        said = self.bring("--unreached", status=1)["cannot_hold"]
        self.assertEqual([(it["by"], "leave out --unreached" in it["hint"]) for it in said], [("no name and no log reaches it", True)])
        self.assertEqual(self.bring()["objects"], 3)

    def test_a_shallow_clone(self) -> None:
        self.commit("two", b="b")
        shallow = os.path.join(self.room, "shallow")
        git(self.room, "clone", "-q", "--depth=1", "--bare", "file://" + self.source, shallow)
        self.source = shallow
        self.refused("shallow", "commit ")

    def test_no_repository(self) -> None:
        self.assertIn("not a git repository", self.call(git_import, self.room, self.store, status=1)["error"])

    def test_a_damaged_object(self) -> None:
        git(self.source, "gc", "-q")
        folder = os.path.join(self.source, ".git/objects/pack")
        pack = os.path.join(folder, next(it for it in os.listdir(folder) if it.endswith(".pack")))
        os.chmod(pack, 0o644)
        with open(pack, "r+b") as it:
            it.seek(-40, 2)
            it.write(b"\xff" * 10)
        self.assertEqual(self.bring(status=1)["done"], False)


class NotHeldByGit(Case):
    def setUp(self) -> None:
        super().setUp()
        os.makedirs(self.store)
        act("create", self.store)

    def commit(self, path: bytes = b"a", message: bytes = b"m", seconds: int = 5, offset: str = "+0000", kind: str = "file", name: str = "main") -> str:  # type: ignore[override]
        author = b"author 1 3 %d %s\nA\na@b\n" % (seconds, offset.encode())
        lines = [b"commit refs/heads/%s any\nput %s %d 1\n%s\nx\n" % (name.encode(), kind.encode(), len(path), path), author]
        said = engine(self.store, b"".join(lines) + b"committer" + author[6:] + b"message %d\n%s\nend\n" % (len(message), message))
        self.assertTrue(said.startswith(b"ok commit "), said)
        return said.split()[2].decode()

    def refused(self, why: str, id: str, *words: str) -> None:
        said = self.give(*words, status=1)
        problems = [f"{it['where']}: {it['why']}" for it in said.get("cannot_hold", [])]
        self.assertTrue(any(id in it and why in it for it in problems), problems or said)
        self.assertFalse(os.path.exists(self.dest))

    def test_git_in_a_path(self) -> None:
        names = [".git", ".GIT", ".Git ", ".git...", "git~1", "GIT~1.", ".git::$INDEX_ALLOCATION", ".g\u200cit", "x\\.git", ".", ".."]
        for name in names:
            with self.subTest(name):
                self.commit(b"d/" + name.encode() + b"/config")
                self.refused("no name of a file in git" if name in (".", "..") else ".git in a path", "tree ")
                shutil.rmtree(self.store)
                os.makedirs(self.store)
                act("create", self.store)
        for name in (".gitx", ".git1", "git~2", ".gitignore", "agit~1", "x.git"):
            self.commit(name.encode())
        self.give()

    def test_modules_as_a_link_and_with_a_bad_address(self) -> None:
        self.commit(b".gitmodules", kind="link")
        self.refused("'.gitmodules' is a link", "tree ")

    def test_times(self) -> None:
        for seconds, offset in ((2**63 - 1, "+0001"), (0, "-0001"), (59, "-0001")):
            id = self.commit(seconds=seconds, offset=offset, name=f"t{seconds}")
            self.refused(f"the seconds {seconds} with the offset {offset} are outside git's range", f"commit {id}")
        skip = ["--skip-refs", "refs/heads/t*"]
        self.commit(seconds=2**63 - 1, name="last")
        self.give(*skip)
        self.assertEqual(git(self.dest, "log", "--format=%at", "last"), str(2**63 - 1))
        self.assertEqual(git(self.dest, "for-each-ref", "--format=%(refname)"), "refs/heads/last")

    def test_a_zero_byte_in_a_message(self) -> None:
        id = self.commit(message=b"title\n\nbo\0dy")
        self.refused("a zero byte", f"commit {id}")

    def test_a_branch_that_holds_a_tag(self) -> None:
        self.commit()
        engine(self.store, b"tag refs/tags/v new main\ntagger 1 3 5 +0000\nA\na@b\nmessage 1\nm\nend\nrename refs/tags/v refs/heads/v\n")
        self.refused("the branch holds a tag", "refs/heads/v")
        self.give("--skip-refs", "refs/heads/v")

    def test_a_log_whose_commit_is_nowhere(self) -> None:
        id = self.commit()
        with open(os.path.join(self.store, "logs/refs/heads/main"), "ab") as it:
            it.write(b"%s %s A <a@b> 5 +0000\tm\n" % (id.encode(), b"1" * 40))
        self.refused("it names " + "1" * 40, "log of refs/heads/main, line 2")

    def test_a_folder_that_is_not_whole(self) -> None:
        self.commit()
        with open(os.path.join(self.store, "HEAD.lock"), "w", encoding="ascii"):
            pass
        self.assertIn("Unfinished", self.give(status=1)["error"])
        self.assertFalse(os.path.exists(self.dest))

    def test_a_repository_with_files(self) -> None:
        self.commit()
        git(self.room, "init", "-q", self.dest)
        self.assertIn("isn't bare", self.give(status=1)["error"])

    def test_what_git_alone_knows_it_refuses_itself(self) -> None:
        lines = b"x" * 3000 + b"\n"
        author = b"author 1 3 5 +0000\nA\na@b\n"
        engine(self.store, b"commit refs/heads/main new\nput file 14 %d\n.gitattributes\n%s\n%scommitter%smessage 1\nm\nend\n" % (len(lines), lines, author, author[6:]))
        said = self.give(status=1)
        self.assertIn("fsck", said["error"])
        self.assertFalse(os.path.exists(self.dest))


class Forms(unittest.TestCase):
    def test_full_names_as_git_takes_them(self) -> None:
        names = "refs/heads/a refs/a refs/a.lock refs/.a refs/a. refs/a..b refs/a@{b refs/@ refs/a//b refs/a/ refs/a\x7f refs/a~ refs/a^ refs/a: refs/a? refs/a* refs/a[ refs/a\\ refs/-a refs/a.lock/b refs/a.b refs/\u00e9"
        for name in names.split(" ") + ["refs/a b", "refs/a\tb"]:
            done = subprocess.run(["git", "check-ref-format", name], stderr=subprocess.DEVNULL)
            self.assertEqual(is_full_name(name.encode()), done.returncode == 0, name)

    def test_patterns(self) -> None:
        patterns = Patterns(["refs/heads/a", "refs/x*", "refs/t?g"])
        for name, out in ((b"refs/heads/a", True), (b"refs/heads/a/b", True), (b"refs/heads/ab", False), (b"refs/xyz/d", True), (b"refs/tag", True), (b"refs/t/g", True)):
            self.assertEqual(patterns.has(name), out, name)


if __name__ == "__main__":
    unittest.main()
