"""The worked programs and the README's examples do what they say."""
import doctest
import importlib.util
import os
import re
import subprocess
import sys
import threading
from typing import Any, List

import wunthavel
from tests.support import ADA, PATIENCE, WithRepo

PACKAGE = os.path.dirname(os.path.dirname(os.path.abspath(__file__)))


def example(name: str) -> Any:
    """Returns an example as a module."""
    spec = importlib.util.spec_from_file_location(name, os.path.join(PACKAGE, "examples", f"{name}.py"))
    assert spec and spec.loader
    module = importlib.util.module_from_spec(spec)
    spec.loader.exec_module(module)
    return module


class Programs(WithRepo):
    def setUp(self) -> None:
        super().setUp()
        self.folder = os.path.join(self.room, "examples")

    def runs(self, name: str, *words: str, given: str = "") -> List[str]:
        """Returns the lines that an example prints."""
        path = os.path.join(PACKAGE, "examples", f"{name}.py")
        env = {**os.environ, "PYTHONPATH": PACKAGE}
        done = subprocess.run([sys.executable, path, self.folder, *words], input=given.encode(), stdout=subprocess.PIPE, env=env, timeout=PATIENCE, check=True)
        return done.stdout.decode().splitlines()

    def test_wiki(self) -> None:
        first = self.runs("wiki", "edit", "Home", "Ada <ada@example.org>", given="Hello.\n")[0]
        self.runs("wiki", "edit", "Home", "Grace <grace@example.org>", given="Hello.\nWelcome.\n")
        self.assertEqual(self.runs("wiki", "show", "Home"), ["Hello.", "Welcome."])
        self.assertEqual(self.runs("wiki", "show", "Home", first), ["Hello."])
        self.assertEqual([it.split()[2:] for it in self.runs("wiki", "history", "Home")], [["Grace", "Edit", "Home"], ["Ada", "Edit", "Home"]])
        self.assertEqual([it.split() for it in self.runs("wiki", "who", "Home")], [["Ada", "Hello."], ["Grace", "Welcome."]])

    def test_wiki_conflicts(self) -> None:
        module = example("wiki")
        wiki = module.Wiki(self.repo)
        seen = wiki.edit("Home", b"1", "A <a@b>", None)
        wiki.edit("Other", b"2", "A <a@b>", seen)
        wiki.edit("Home", b"3", "A <a@b>", seen)
        with self.assertRaises(module.Conflict):
            wiki.edit("Home", b"4", "A <a@b>", seen)

    def test_settings(self) -> None:
        first = self.runs("settings", "set", "web/port=80", "web/host=localhost")[0]
        self.runs("settings", "set", "web/port=8080", "new=1")
        self.assertEqual(self.runs("settings", "get", "web/port"), ["8080"])
        self.runs("settings", "rollback", first)
        self.assertEqual(self.runs("settings", "get", "web/port"), ["80"])
        told = [it.split(" ", 1)[1] for it in self.runs("settings", "history")]
        self.assertEqual(told[0], f"Roll back to {first[:10]}: new removed, web/port changed")
        self.assertEqual(told[2], "Set web/port, web/host: web/host added, web/port added")

    def test_settings_of_several_writers(self) -> None:
        settings = example("settings").Settings(self.repo)
        threads = [threading.Thread(target=lambda name: [settings.set({f"{name}/{it}": "x"}) for it in range(10)], args=(name,)) for name in "abcd"]
        for it in threads:
            it.start()
        for it in threads:
            it.join()
        self.assertEqual(len(settings.all()), 40)
        with self.assertRaises(KeyError):
            settings.get("none")

    def test_releases(self) -> None:
        with wunthavel.Repo.create(self.folder, actor=ADA) as repo:
            for number in range(4):
                repo.commit(f"Page {number}").put(f"page{number}", b"").run()
                if number % 2:
                    repo.tag(f"v1.{number}", message=f"Release {number}", tagger=wunthavel.Actor("R", "r@r", 1700000000 + number))
        self.assertEqual(
            self.runs("releases", "log"),
            ["1.3: Release 3", "  - Page 3 (Ada Lovelace)", "  - Page 2 (Ada Lovelace)", "1.1: Release 1", "  - Page 1 (Ada Lovelace)", "  - Page 0 (Ada Lovelace)"],
        )
        self.assertEqual(self.runs("releases", "changed", "1.1", "1.3"), ["added page2", "added page3"])
        self.runs("releases", "release", "2.0", "Second")
        self.assertEqual(self.runs("releases", "log")[:2], ["2.0: Second", "1.3: Release 3"])

    def test_usage(self) -> None:
        for name in ("wiki", "settings", "releases"):
            path = os.path.join(PACKAGE, "examples", f"{name}.py")
            done = subprocess.run([sys.executable, path], env={**os.environ, "PYTHONPATH": PACKAGE}, stderr=subprocess.PIPE, timeout=PATIENCE)
            self.assertEqual(done.returncode, 1)
            self.assertIn(f"    {name}.py FOLDER ", done.stderr.decode())
            self.assertNotIn("Traceback", done.stderr.decode())


class Readme(WithRepo):
    def setUp(self) -> None:
        super().setUp()
        self.addCleanup(os.chdir, os.getcwd())
        os.chdir(self.room)
        self.repo.close()
        os.rename(self.store, self.store + ".away")
        with open(os.path.join(PACKAGE, "README.md"), encoding="utf-8") as it:
            self.text = it.read()

    def blocks(self, language: str) -> List[str]:
        return re.findall(rf"```{language}\n(.*?)```", self.text, re.DOTALL)

    def test_python(self) -> None:
        runner = doctest.DocTestRunner(verbose=False, optionflags=doctest.ELLIPSIS)
        found = doctest.DocTestParser().get_doctest("\n".join(self.blocks("python")), {}, "README", "README.md", 0)
        said: List[str] = []
        runner.run(found, out=said.append)
        self.assertGreater(runner.tries, 5)
        self.assertEqual("".join(said), "")

    def test_shell(self) -> None:
        env = {**os.environ, "PYTHONPATH": PACKAGE, "WUNTHAVEL_AUTHOR": "Ada <ada@example.org>"}
        code = f"set -e\nwunthavel() {{ {sys.executable} -m wunthavel \"$@\"; }}\nmkdir notes\necho Hello > notes/page\n" + "\n".join(self.blocks("sh"))
        done = subprocess.run(["bash", "-c", code], env=env, stdout=subprocess.PIPE, stderr=subprocess.STDOUT, timeout=PATIENCE)
        self.assertEqual(done.returncode, 0, done.stdout.decode())
