"""The pages of a history: what they hold, and, where a browser is, that it shows them."""
import contextlib
import io
import json
import os
import re
import shutil
import subprocess
import tempfile
import unittest
from typing import Any, Dict, List, Optional
from unittest import mock

import wunthavel
from wunthavel import cli, html
from tests import histories
from tests.support import ADA, PATIENCE, WithRepo

BROWSER = next(filter(None, map(shutil.which, ("chromium", "chromium-browser", "google-chrome", "chrome"))), None)


def held(out: str, name: str) -> Dict[str, Any]:
    """Returns what one of the page's two files holds."""
    with open(os.path.join(out, f"{name}.js"), encoding="utf-8") as it:
        found = re.fullmatch(r'received\("(\w+)", (.*)\);\n', it.read(), re.DOTALL)
    assert found and found[1] == name
    value: Dict[str, Any] = json.loads(json.loads(found[2]))
    return value


def synthetic(count: int) -> List[wunthavel.Commit]:
    """Commits as of a long history, newest first, with a merge in ten."""
    ids = [f"{it:040x}" for it in range(1, count + 1)]
    made = []
    for at, id in enumerate(ids):
        parents = [ids[at + 1]] if at + 1 < count else []
        if at % 10 == 0 and at + 7 < count:
            parents.append(ids[at + 7])
        who = wunthavel.Actor("Ada Lovelace", "ada@example.org", 1700000000 - at * 60, "+0100")
        made.append(wunthavel.Commit(id, "0" * 40, tuple(parents), who, who, f"Commit {count - at} <b>&amp;"))
    return made


class Layout(unittest.TestCase):
    def check(self, commits: List[wunthavel.Commit]) -> int:
        """Each edge goes from its child to its parent, and no other commit is on its way."""
        columns, edges = html.lay_out(commits)
        rows = {it.id: row for row, it in enumerate(commits)}
        self.assertEqual(len(columns), len(commits))
        wanted = [(row, rows.get(one, len(commits))) for row, it in enumerate(commits) for one in it.parents]
        self.assertEqual([(row, to) for row, _, to, _ in edges], wanted)
        for row, column, to, into in edges:
            self.assertEqual(columns[row], column)
            if to < len(commits):
                self.assertEqual(columns[to], into)
            self.assertNotIn(into, columns[row + 1 : to])
        return max(columns) + 1

    def test_a_line_has_one_column(self) -> None:
        self.assertEqual(self.check([it for it in synthetic(8) if len(it.parents) < 2][1:]), 1)

    def test_merges(self) -> None:
        self.assertLess(self.check(synthetic(500)), 10)

    def test_a_part_of_a_history(self) -> None:
        self.check(synthetic(500)[:77])

    def test_order(self) -> None:
        commits = synthetic(300)
        self.assertEqual(html.in_order({it.id: it for it in reversed(commits)}), commits)


class Pages(WithRepo):
    def setUp(self) -> None:
        super().setUp()
        self.out = os.path.join(self.room, "pages")

    def test_what_they_hold(self) -> None:
        first = self.repo.commit("Begin\n\n</script><script>alert(1)</script>").put("a", b"").put("d/\udcff", b"").put("x", b"").run()
        second = self.repo.commit("Go on").put("a", b"2").remove("x").put("x/y", b"", "exec").run()
        self.repo.tag("v1", first, "First")
        self.repo.close()
        self.assertEqual(html.write(self.store, self.out), 2)
        told, changes = held(self.out, "history"), held(self.out, "changes")
        self.assertEqual([it[0] for it in told["commits"]], [second, first])
        self.assertEqual([it[7] for it in told["commits"]], [[1], []])
        self.assertEqual(told["names"], [["refs/heads/main", 0, False], ["refs/tags/v1", 1, True]])
        self.assertEqual(told["edges"], [[0, 0, 1, 0]])
        named = [sorted((mark, changes["paths"][path]) for mark, path in it[1:]) for it in changes["changes"]]
        self.assertEqual(named, [[("A", "x/y"), ("D", "x"), ("M", "a")], [("A", "a"), ("A", "d/\udcff"), ("A", "x")]])
        self.assertEqual([(it[0], changes["paths"][it[2]]) for it in changes["files"]], [("file", "a"), ("file", "d/\udcff"), ("exec", "x/y")])
        with open(os.path.join(self.out, "history.js"), encoding="utf-8") as it:
            self.assertEqual(it.read().count("\n"), 1)

    def test_the_same_changes_as_by_the_engine(self) -> None:
        histories.make(self.repo, 120)
        self.assertGreater(len(self.repo.log_ids()), 20)
        trees = html.Trees(self.store)
        for commit in list(self.repo.log()):
            parent = self.repo.show(commit.parents[0]).tree if commit.parents else None
            marks = {"added": "A", "removed": "D", "changed": "M"}
            self.assertEqual(list(trees.changed(parent, commit.tree)), [(marks[it.kind], it.path) for it in self.repo.changed_by(commit.id)])

    def test_more_names_than_go_on_a_line(self) -> None:
        histories.make(self.repo, 5)
        self.repo.move([(f"refs/heads/n{it}", wunthavel.NEW, "HEAD") for it in range(300)], actor=ADA)
        for it in range(300):
            self.repo.commit(f"On {it}", name=f"refs/heads/n{it}").put("a", b"%d" % it).run()
        self.assertEqual(len(html.read_commits(self.repo, None)), 300 + len(self.repo.log_ids()))
        self.repo.close()
        self.assertEqual(html.write(self.store, self.out, limit=200), 200)

    def test_a_new_repository(self) -> None:
        self.repo.close()
        self.assertEqual(html.write(self.store, self.out), 0)

    def test_the_command(self) -> None:
        self.repo.commit("Begin").run()
        self.repo.close()
        said = io.StringIO()
        with contextlib.redirect_stdout(said):
            self.assertEqual(cli.main(["html", self.store, self.out, "--json"]), 0)
        self.assertEqual(json.loads(said.getvalue())["commits"], 1)
        with contextlib.redirect_stderr(io.StringIO()) as complaint:
            self.assertEqual(cli.main(["html", self.room, self.out]), 1)
        self.assertIn("NoHead", complaint.getvalue())


@unittest.skipUnless(BROWSER, "there is no Chromium")
class InABrowser(unittest.TestCase):
    """Ten thousand commits in headless Chromium."""

    COUNT = 10000
    room: str

    @classmethod
    def setUpClass(cls) -> None:
        cls.room = tempfile.mkdtemp(prefix="wunthavel-test-")
        cls.addClassCleanup(shutil.rmtree, cls.room, ignore_errors=True)
        if cls.document("about:blank") is None:
            raise unittest.SkipTest("the browser doesn't run here")
        commits = synthetic(cls.COUNT)
        names = wunthavel.Names("refs/heads/main", (wunthavel.Name(commits[0].id, commits[0].id, "refs/heads/main"), wunthavel.Name("f" * 40, commits[5].id, "refs/tags/v1")))
        first = html.history(mock.Mock(names=lambda: names), commits, "Many")
        paths = [f"folder/page {it}" for it in range(1000)] + ["odd/\udcff", "row1"]
        changes = [[1, ["M", at % 1002]] for at in range(cls.COUNT)]
        html.write_pages(cls.room, first, {"paths": paths, "changes": changes, "files": [["file", "a" * 40, it] for it in range(1001)]})

    @classmethod
    def document(cls, address: str) -> Optional[str]:
        """Returns the document as the browser has it after the scripts."""
        profile = tempfile.mkdtemp(dir=cls.room)
        words = [str(BROWSER), "--headless", "--no-sandbox", "--disable-gpu", "--window-size=1400,900", "--virtual-time-budget=4000", "--dump-dom"]
        done = subprocess.run([*words, f"--user-data-dir={profile}", address], stdout=subprocess.PIPE, stderr=subprocess.DEVNULL, timeout=PATIENCE)
        return None if done.returncode else done.stdout.decode()

    def page(self, place: str = "") -> str:
        found = self.document(f"file://{self.room}/index.html{place}")
        assert found is not None
        return found

    def test_the_first_view(self) -> None:
        page = self.page()
        ready = re.search(r'data-ready="(\d+)"', page)
        self.assertIsNotNone(ready)
        self.assertIn("10,000 commits", page)
        # Texts are shown as they are, and never read as elements.
        self.assertIn("Commit 10000 &lt;b&gt;&amp;amp;", page)
        shown = page.count('role="option"')
        self.assertTrue(20 < shown < 80, shown)
        self.assertGreaterEqual(page.count("<circle"), shown)
        self.assertGreaterEqual(page.count("<path"), shown)
        self.assertIn("folder/page 0", page)

    def test_a_commit_by_its_address(self) -> None:
        page = self.page("#" + f"{9000:040x}")
        self.assertIn("Commit 1001 &lt;b&gt;", page)
        self.assertIn("row chosen", page)
        self.assertIn(f'href="#{9001:040x}"', page)

    def test_search_files_and_paths(self) -> None:
        self.assertIn("1 of 10,000 commits", self.page("#q=" + f"{77:040x}"))
        self.assertIn("1,001 files", self.page("#files"))
        self.assertIn("10 of 10,000 commits changed folder/page 3<", self.page("#path=folder%2Fpage%203"))
        self.assertIn("9 of 10,000 commits changed odd/", self.page("#number=1000"))
        # A path that looks like a number of one is that path.
        self.assertIn("9 of 10,000 commits changed row1<", self.page("#path=row1"))
        self.assertIn("Nothing is found", self.page("#q=zzzz"))


if __name__ == "__main__":
    unittest.main()
