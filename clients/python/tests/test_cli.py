"""`wunthavel` at a terminal, in a folder that a person works in."""
import contextlib
import hashlib
import io
import json
import os
import pty
import shutil
import subprocess
import sys
import tempfile
import unittest
from typing import Any, List, Tuple
from unittest import mock

import wunthavel
from wunthavel import cli, protocol, wire
from wunthavel.protocol import File
from wunthavel.worktree import WorkError, WorkTree, refuse_path
from tests.support import PATIENCE, all_shown

PACKAGE = os.path.dirname(os.path.dirname(os.path.abspath(__file__)))


class AtATerminal(unittest.TestCase):
    def setUp(self) -> None:
        self.room = os.path.realpath(tempfile.mkdtemp(prefix="wunthavel-test-"))
        self.addCleanup(shutil.rmtree, self.room)
        self.addCleanup(os.chdir, os.getcwd())
        os.chdir(self.room)
        patch = mock.patch.dict(os.environ, {"WUNTHAVEL_AUTHOR": "Ada Lovelace <ada@example.org>", "NO_COLOR": "1"})
        patch.start()
        self.addCleanup(patch.stop)

    def does(self, *words: str, status: int = 0) -> str:
        """Returns what a command writes, on standard error where it fails."""
        out, err = io.TextIOWrapper(io.BytesIO(), "utf-8", "surrogateescape", newline="", write_through=True), io.StringIO()
        with contextlib.redirect_stdout(out), contextlib.redirect_stderr(err):
            self.assertEqual(cli.main(list(words)), status, err.getvalue())
        written = out.buffer.getvalue().decode("utf-8", "surrogateescape")  # type: ignore[attr-defined]
        return err.getvalue() if status else str(written)

    def told(self, *words: str) -> List[Any]:
        """Returns the values that a command writes as JSON."""
        return [json.loads(it) for it in self.does(words[0], "--json", *words[1:]).splitlines()]

    def write(self, path: str, content: str = "", mode: int = 0o644) -> None:
        os.makedirs(os.path.dirname(os.path.abspath(path)), exist_ok=True)
        with open(path, "w", encoding="utf-8", errors="surrogateescape") as it:
            it.write(content)
        os.chmod(path, mode)

    def read(self, path: str) -> str:
        with open(path, encoding="utf-8") as it:
            return it.read()

    def begin(self) -> str:
        """Makes a history of one commit, whose id it returns."""
        self.does("init")
        self.write("page", "one\n")
        self.write("notes/a b", "two\n")
        self.write("run", "#!/bin/sh\n", 0o755)
        os.symlink("page", "link")
        return str(self.told("save", "Begin")[0]["commit"])

    def changed(self, *words: str) -> List[Tuple[str, str]]:
        return [(it["change"], it["path"]) for it in self.told("diff-names", *words)]


class Commands(AtATerminal):
    def test_saving(self) -> None:
        first = self.begin()
        self.assertEqual(self.changed(), [])
        self.assertEqual(self.told("save", "Nothing"), [{"commit": None, "changes": []}])
        self.write("page", "one\ntwo\n")
        os.unlink("run")
        self.write("link2/new", "x")
        self.assertEqual(self.changed(), [("added", "link2/new"), ("changed", "page"), ("removed", "run")])
        self.assertIn("M page", self.does("save", "Go on\n\nMore.\n"))
        self.assertEqual(self.changed(first, "HEAD"), [("added", "link2/new"), ("changed", "page"), ("removed", "run")])
        self.assertEqual(self.changed(first), self.changed(first, "HEAD"))
        log = self.told("log")
        self.assertEqual([it["message"] for it in log], ["Go on\n\nMore.\n", "Begin"])
        self.assertEqual(log[0]["author"]["name"], "Ada Lovelace")
        self.assertEqual([it["message"] for it in self.told("log", "-n", "1")], ["Go on\n\nMore.\n"])
        self.assertEqual([it["message"] for it in self.told("log", "notes")], ["Begin"])
        self.assertIn("(HEAD -> main)  Go on", self.does("log", "-n1"))
        shown = self.does("show")
        self.assertIn("    Go on\n\n    More.\n\nA link2/new\nM page\nD run\n", shown)
        self.assertEqual(self.told("show", first)[0]["id"], first)
        self.assertEqual([it["line"] for it in self.told("blame", "page")], ["one", "two"])
        self.assertEqual(self.told("blame", "page")[0]["commit"], first)

    def test_what_differs_here(self) -> None:
        first = self.begin()
        self.assertEqual((self.told("status"), self.does("diff")), ([], ""))
        self.write("page", "one\ntwo\x1b[2J")
        os.unlink("notes/a b")
        self.assertEqual([(it["change"], it["path"]) for it in self.told("status")], [("removed", "notes/a b"), ("changed", "page")])
        removed = "--- a/notes/a b\n+++ /dev/null\n@@ -1 +0,0 @@\n-two\n"
        changed = "--- a/page\n+++ b/page\n@@ -1 +1,2 @@\n one\n+two\\x1b[2J\n\\ No newline at end of file\n"
        self.assertEqual(self.does("diff"), removed + changed)
        self.assertEqual(self.does("diff", "page"), changed)
        self.assertEqual(self.does("diff", "notes"), removed)
        self.assertEqual(self.told("diff", "page")[0]["diff"], {"text": changed.replace("\\x1b", "\x1b")})
        self.does("save", "Go on")
        self.assertEqual((self.does("diff"), self.does("diff", "--old", first, "--new", "HEAD")), ("", removed + changed))

    def test_what_is_damaged_is_not_restored(self) -> None:
        self.begin()
        os.unlink("page")
        other = wunthavel.Content("file", "257cc5642cb1a054f08cc83f2d943e56fd3ebe99", b"other\n")
        with mock.patch.object(wunthavel.Repo, "batch", return_value=iter([other])):
            self.assertIn("isn't what was stored", self.does("restore", "HEAD", "page", status=1))
        self.assertFalse(os.path.exists("page"))

    def test_changed_files_alone_are_sent(self) -> None:
        self.begin()
        self.write("notes/a b", "three\n")
        with mock.patch.object(protocol, "put", wraps=protocol.put) as put:
            self.does("save", "One file")
        self.assertEqual([it.args[0] for it in put.call_args_list], ["notes/a b"])

    def test_files_that_are_known_arent_read_again(self) -> None:
        self.begin()
        for it in ("page", "notes/a b", "run"):
            os.utime(it, (1000, 1000))
        self.does("diff-names")
        tree = WorkTree(self.room)
        with mock.patch.object(hashlib, "new", side_effect=AssertionError):
            for file in tree.files():
                if file.kind != "link":
                    tree.id_of(file, False)
        self.write("page", "ONE\n")
        os.utime("page", (1000, 1000))
        self.assertEqual(self.changed(), [("changed", "page")])

    def test_a_folder_takes_a_files_place_and_back(self) -> None:
        first = self.begin()
        os.unlink("page")
        self.write("page/below", "x")
        second = self.told("save", "Folder")[0]["commit"]
        self.does("restore", first)
        self.assertEqual(self.read("page"), "one\n")
        self.does("restore", second)
        self.assertEqual(self.read("page/below"), "x")
        self.does("save", "Same")
        self.assertEqual(self.changed(second, "HEAD"), [])

    def test_cat(self) -> None:
        first = self.begin()
        self.write("page", "new\n")
        self.assertEqual(self.does("cat", "page"), "one\n")
        self.assertEqual(self.does("cat", f"{first}:notes/a b"), "two\n")
        self.assertEqual(self.told("cat", ":page")[0]["text"], "one\n")
        os.chdir("notes")
        self.assertEqual(self.does("cat", "a b"), "two\n")
        self.assertIn("NoSuchPath", self.does("cat", "none", status=1))

    def test_restore(self) -> None:
        first = self.begin()
        self.write("page", "two\n")
        self.write("later", "x")
        os.chmod("run", 0o644)
        self.does("save", "Go on")
        self.write("page", "not saved\n")
        self.assertIn("page", self.does("restore", first, status=1))
        self.assertEqual(self.read("page"), "not saved\n")
        self.does("restore", first, "page", "--force")
        self.assertEqual(self.read("page"), "one\n")
        self.does("restore", first)
        self.assertFalse(os.path.exists("later"))
        self.assertTrue(os.access("run", os.X_OK))
        self.assertEqual(self.changed(first), [])
        os.unlink("link")
        shutil.rmtree("notes")
        self.assertEqual(self.told("restore", "HEAD")[0]["removed"], [])
        self.assertEqual((os.readlink("link"), self.read("notes/a b")), ("page", "two\n"))
        self.assertIn("NoSuchPath", self.does("restore", "HEAD", "none", status=1))
        os.unlink("page")
        self.write("page/mine", "never saved")
        self.assertIn("page/mine", self.does("restore", "HEAD", status=1))
        self.assertEqual(self.read("page/mine"), "never saved")
        self.does("restore", "HEAD", "--force")
        self.assertEqual(self.read("page"), "two\n")

    def test_restore_refuses_paths_that_lead_elsewhere(self) -> None:
        self.begin()
        for path in ("../out", "a/../../out", "/tmp/out", ".git/hooks/x", "a/.GIT/x", ".wunthavel/store/HEAD", "a/.git./x", ".", "a/./b"):
            with self.subTest(path=path):
                with self.assertRaises(WorkError):
                    refuse_path(path)
                with wunthavel.Repo(os.path.join(self.room, ".wunthavel/store"), actor="A <a@b>") as repo:
                    try:
                        repo.commit("Bad", name="refs/heads/bad").put(path, b"bad").put("page", b"bad").run()
                    except wunthavel.Refused:
                        continue
                self.assertIn("isn't written", self.does("restore", "bad", status=1))
                self.does("branch", "-d", "bad")
        self.assertEqual(self.read("page"), "one\n")
        self.assertFalse(os.path.exists(os.path.join(os.path.dirname(self.room), "out")))

    def test_nothing_is_written_through_a_link(self) -> None:
        self.begin()
        self.write("d/x", "1")
        self.does("save", "Folder")
        shutil.rmtree("d")
        outside = tempfile.mkdtemp(prefix="wunthavel-test-")
        self.addCleanup(shutil.rmtree, outside)
        os.symlink(outside, "d")
        tree = WorkTree(self.room)
        with self.assertRaises(WorkError):
            tree.remove("d/x")
        with self.assertRaises(WorkError):
            tree.write(File("file", "", "d/x"), b"")
        with open(os.path.join(outside, "x"), "w", encoding="ascii") as it:
            it.write("not ours")
        self.assertEqual([it.path for it in tree.at(["d/x", "d/y", "d", "d/x"])], ["d"])
        os.unlink(os.path.join(outside, "x"))
        self.assertIn("d (save them", self.does("restore", "HEAD", status=1))
        self.does("restore", "HEAD", "--force")
        self.assertEqual((os.listdir(outside), self.read("d/x")), ([], "1"))

    def test_branches_and_tags(self) -> None:
        first = self.begin()
        self.does("branch", "idea")
        self.does("switch", "idea")
        self.write("page", "idea\n")
        self.does("save", "An idea")
        self.assertEqual([(it["branch"], it["head"]) for it in self.told("branch")], [("idea", True), ("main", False)])
        self.does("switch", "main")
        self.assertEqual(self.read("page"), "one\n")
        self.write("page", "not saved\n")
        self.does("switch", "idea", status=1)
        self.does("switch", "-c", "other")
        self.assertEqual(self.read("page"), "not saved\n")
        self.assertIn("* other", self.does("branch"))
        self.does("branch", "-d", "idea")
        self.does("tag", "v1", first, "-m", "First")
        self.does("tag", "v2")
        self.assertEqual([(it["tag"], it["commit"], it["annotated"]) for it in self.told("tag")], [("v1", first, True), ("v2", first, False)])
        self.assertIn("Taken", self.does("tag", "v1", status=1))
        self.does("tag", "-d", "v2")
        self.assertIn("NoSuchName", self.does("tag", "-d", "v2", status=1))

    def test_verify_and_recover(self) -> None:
        self.begin()
        self.assertEqual(self.does("verify"), "whole\n")
        self.write(".wunthavel/store/refs/heads/main.lock")
        self.assertIn("wunthavel recover", self.does("log", status=1))
        self.assertEqual(self.told("recover"), [{"recovered": True}])
        self.does("log")

    def test_odd_names(self) -> None:
        self.does("init")
        paths = ["\udcff", "new\nline", "-n", "\x1b[31m", ":", "ü"]
        for it in paths:
            self.write(it, it)
        self.write(".git/config", "not mine")
        self.assertEqual({it["path"] for it in self.told("save", "Odd \x1b[31m")[0]["changes"]}, set(paths))
        self.assertNotIn("\x1b", self.does("log") + self.does("show"))
        self.assertIn("new\\nline", self.does("show"))
        self.assertEqual(self.told("log", "--", "-n")[0]["message"], "Odd \x1b[31m")
        for it in paths:
            os.unlink(it)
        self.does("restore", "HEAD")
        self.assertEqual(self.changed(), [])

    def test_what_couldnt_be_restored_isnt_saved(self) -> None:
        self.does("init")
        self.write("a/.git./x")
        self.assertIn("isn't saved", self.does("save", "Begin", status=1))

    def test_ignored_files(self) -> None:
        self.does("init")
        self.write(".wunthavelignore", "# what isn't saved\n*.log\nbuild/\n")
        self.write("a.log")
        self.write("build/x")
        self.write("page")
        self.assertEqual([it["path"] for it in self.told("save", "Begin")[0]["changes"]], [".wunthavelignore", "page"])

    def test_before_the_first_commit_and_without_a_history(self) -> None:
        self.assertIn("wunthavel init", self.does("log", status=1))
        self.does("init", "--sha256")
        self.assertEqual(self.does("log"), "")
        self.assertEqual(self.does("diff-names"), "")
        self.assertIn("UnbornHead", self.does("show", status=1))
        self.assertIn("already", self.does("init", status=1))
        self.write("page")
        self.assertEqual(len(self.told("save", "Begin")[0]["commit"]), 64)
        self.assertEqual(len(self.told("save", "Again")), 1)

    def test_errors_as_json(self) -> None:
        self.begin()
        self.assertEqual(json.loads(self.does("cat", "none", "--json", status=1))["error"], "NoSuchPath")
        self.assertIn("large", self.large())

    def large(self) -> str:
        with open("large", "wb") as it:
            it.truncate(wire.LARGEST + 1)
        return self.does("save", "Large", status=1)

    def test_who_saves(self) -> None:
        self.begin()
        self.write("page", "2")
        self.assertEqual(len(self.told("save", "Two", "--author", "Grace <g@h>")), 1)
        self.assertEqual(self.told("log", "-n1")[0]["author"]["email"], "g@h")
        with mock.patch.dict(os.environ, {"WUNTHAVEL_AUTHOR": "", "GIT_AUTHOR_NAME": "G", "GIT_AUTHOR_EMAIL": "g@g"}):
            self.assertEqual(str(cli.author(None)), "G <g@g>")
        self.write("page", "3")
        self.assertIn("Name <email>", self.does("save", "Three", "--author", "nobody", status=1))


class Processes(AtATerminal):
    def run_words(self, *words: str, **options: Any) -> "subprocess.CompletedProcess[bytes]":
        env = {**os.environ, "PYTHONPATH": PACKAGE}
        return subprocess.run([sys.executable, "-m", "wunthavel", *words], stdout=subprocess.PIPE, stderr=subprocess.PIPE, env=env, timeout=PATIENCE, **options)

    def test_as_a_program(self) -> None:
        self.assertEqual(self.run_words("init", "there").returncode, 0)
        done = self.run_words("-C", "there", "save", "Nothing")
        self.assertEqual((done.returncode, done.stdout), (0, b"nothing has changed\n"))
        self.assertEqual(self.run_words("nonsense").returncode, 2)
        self.assertIn(b"wunthavel save", self.run_words().stdout)
        self.assertIn(b"example: wunthavel log", self.run_words("log", "--help").stdout)

    def test_another_directory(self) -> None:
        self.begin()
        os.chdir("/")
        self.assertIn("whole", self.does("-C", self.room, "verify"))
        os.chdir("/")
        self.assertIn("1 commit", self.does("-C", self.room, "html", ".", "pages"))
        os.chdir("/")
        self.assertEqual(json.loads(self.does("--json", "-C", self.room, "html", ".", "pages"))["commits"], 1)
        self.assertTrue(os.path.exists(os.path.join(self.room, "pages/index.html")))
        self.assertIn("nowhere", self.does("-C", "nowhere", "log", status=1))

    def test_a_reader_that_leaves(self) -> None:
        self.begin()
        code = f"{sys.executable} -m wunthavel log | true; exit ${{PIPESTATUS[0]}}"
        done = subprocess.run(["bash", "-c", code], env={**os.environ, "PYTHONPATH": PACKAGE}, stderr=subprocess.PIPE, timeout=PATIENCE)
        self.assertNotIn(b"Traceback", done.stderr)

    def test_colours_at_a_terminal_alone(self) -> None:
        self.begin()
        self.assertNotIn(b"\x1b[", self.run_words("log").stdout)
        self.assertIn(b"\x1b[33m", self.run_words("log", "--colour", "always").stdout)
        env = {**os.environ, "PYTHONPATH": PACKAGE, "TERM": "xterm"}
        del env["NO_COLOR"]
        master, slave = pty.openpty()
        process = subprocess.Popen([sys.executable, "-m", "wunthavel", "log"], stdout=slave, stderr=slave, env=env)
        os.close(slave)
        self.assertIn(b"\x1b[33m", all_shown(master))
        self.assertEqual(process.wait(PATIENCE), 0)

    def test_the_progress_bar(self) -> None:
        master, slave = pty.openpty()
        code = "import time; from wunthavel.progress import Progress\nwith Progress('objects', 8) as bar:\n    for _ in range(8): time.sleep(0.1); bar.step()"
        process = subprocess.Popen([sys.executable, "-c", code], stderr=slave, env={**os.environ, "PYTHONPATH": PACKAGE})
        os.close(slave)
        shown = all_shown(master)
        self.assertEqual(process.wait(PATIENCE), 0)
        self.assertIn(b"objects [", shown)
        self.assertTrue(shown.endswith(b"\r\x1b[K"))


class Stops(AtATerminal):
    def ended(self) -> int:
        """Returns the number of a process that has ended."""
        process = subprocess.Popen([sys.executable, "-c", ""])
        process.wait()
        return process.pid

    def test_what_a_stopped_command_was_writing_goes(self) -> None:
        self.begin()
        self.write(f"notes/.wunthavel-{self.ended()}", "half")
        self.write(f"notes/.wunthavel-{os.getpid()}", "being written")
        self.does("status")
        self.assertEqual(sorted(os.listdir("notes")), [f".wunthavel-{os.getpid()}", "a b"])

    def test_a_switch_that_is_stopped_is_noticed_and_goes_on_or_back(self) -> None:
        self.begin()
        self.does("switch", "-c", "idea")
        self.write("page", "other\n")
        self.write("new", "of idea\n")
        self.does("save", "Idea")
        self.does("switch", "main")
        for target, head in (("idea", "idea"), ("main", "main")):
            for stop in range(3):
                with self.subTest(target=target, stop=stop):
                    written, real = [], WorkTree.write

                    def write(tree: WorkTree, file: File, content: bytes) -> None:
                        written.append(file.path)
                        if len(written) > stop:
                            raise KeyboardInterrupt
                        real(tree, file, content)

                    switch = mock.patch.object(wunthavel.Repo, "switch", side_effect=KeyboardInterrupt)
                    with mock.patch.object(WorkTree, "write", write), switch:
                        self.does("switch", "idea", status=130)
                    self.assertIn("a switch to idea was stopped", self.does("save", "Mixed", status=1))
                    self.does("switch", target)
                    self.assertEqual(self.changed(), [])
                    self.assertEqual([it["branch"] for it in self.told("branch") if it["head"]], [head])
                    self.assertEqual(os.path.exists("new"), target == "idea")
                    if target == "idea":
                        self.does("switch", "main")

    def test_a_switch_that_is_refused_leaves_no_sign(self) -> None:
        self.begin()
        self.does("branch", "idea")
        self.write("page", "saved\n")
        self.does("save", "More")
        self.write("page", "not saved\n")
        self.does("switch", "idea", status=1)
        self.does("save", "Saved")


class Everywhere(AtATerminal):
    def test_a_working_folder_is_named_as_such(self) -> None:
        self.begin()
        self.assertEqual(self.does("verify", "."), "whole\n")
        self.assertIn("objects are digested", self.does("verify", ".", "--for", "60"))
        self.assertTrue(os.path.exists(os.path.join(".wunthavel", "store.verified")))
        with tempfile.TemporaryDirectory() as room:
            self.does("backup", ".", os.path.join(room, "copy"), "--quiet")
            wunthavel.Repo.check(os.path.join(room, "copy"))
            self.does("git-export", ".", os.path.join(room, "copy.git"), "--quiet")
        self.assertIn("0 flaws", self.does("doctor", "."))

    def test_common_words_anywhere(self) -> None:
        self.begin()
        for words in (["--json", "doctor", "."], ["doctor", ".", "--json"], ["--colour", "never", "--json", "doctor", "."], ["--json", "doctor", "--colour=always", "."]):
            self.assertEqual(json.loads(self.does(*words))["flaws"], [])
        for words in (["--json", "status"], ["status", "--json"], ["--json", "--colour", "always", "status"], ["--colour=always", "status", "--json"]):
            self.assertEqual(self.does(*words), "")

    def test_a_file_that_is_too_large(self) -> None:
        self.begin()
        with open("large", "wb") as it:
            it.truncate(wire.LARGEST + 1)
        self.write("small", "1")
        with mock.patch.object(WorkTree, "id_of", side_effect=AssertionError("it was read")):
            self.assertIn("large can't be saved", self.does("save", "All", status=1))
        saved = self.told("save", "All but one", "--skip-large")[0]
        self.assertEqual([it["path"] for it in saved["changes"]], ["small"])
        # One that grew stays as it was saved.
        with open("page", "wb") as it:
            it.truncate(wire.LARGEST + 1)
        self.assertIsNone(self.told("save", "Nothing", "--skip-large")[0]["commit"])


class WorkTrees(AtATerminal):
    def test_the_nearest_history_is_found(self) -> None:
        self.begin()
        os.makedirs("notes/deep")
        os.chdir("notes/deep")
        tree = WorkTree.find()
        self.assertEqual(tree.folder, self.room)
        self.assertEqual((tree.path_of("x"), tree.path_of("../../page"), tree.path_of("../..")), ("notes/deep/x", "page", ""))
        with self.assertRaises(WorkError):
            tree.path_of("../../../x")

    def test_a_file_is_replaced_whole(self) -> None:
        self.begin()
        tree = WorkTree(self.room)
        os.link("page", "other")
        tree.write(File("file", "", "page"), b"new")
        self.assertEqual((self.read("page"), self.read("other")), ("new", "one\n"))
        tree.write(File("link", "", "page"), b"run")
        self.assertEqual(os.readlink("page"), "run")
        tree.write(File("exec", "", "page"), b"x")
        self.assertTrue(os.access("page", os.X_OK) and not os.path.islink("page"))


if __name__ == "__main__":
    unittest.main()
