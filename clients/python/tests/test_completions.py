"""The shells' completions are those that the parsers give, and offer what a command takes."""
import os
import subprocess
import sys
from typing import List

import wunthavel
from tests.support import ADA, PATIENCE, WithRepo

PACKAGE = os.path.dirname(os.path.dirname(os.path.abspath(__file__)))
SHELLS = os.path.join(os.path.dirname(os.path.dirname(PACKAGE)), "package")
# Prints what bash offers for the last of the words, a line each.
OFFER = f"""
wunthavel() {{ "{sys.executable}" -m wunthavel "$@"; }}
source "{SHELLS}/completions/wunthavel.bash"
COMP_WORDS=(wunthavel "$@") COMP_CWORD=$#
_wunthavel
printf '%s\\n' "${{COMPREPLY[@]}}"
"""


class Completions(WithRepo):
    def offered(self, *words: str) -> List[str]:
        """Returns what bash offers for the last word."""
        env = {**os.environ, "PYTHONPATH": PACKAGE}
        done = subprocess.run(["bash", "-c", OFFER, "bash", *words], cwd=self.room, env=env, stdout=subprocess.PIPE, timeout=PATIENCE, check=True)
        return done.stdout.decode().split()

    def test_files_are_made_from_the_parsers(self) -> None:
        done = subprocess.run([sys.executable, os.path.join(SHELLS, "make-completions"), "--check"], stdout=subprocess.PIPE, timeout=PATIENCE)
        self.assertEqual(done.stdout.decode(), "")
        self.assertEqual(done.returncode, 0)

    def test_commands_and_flags(self) -> None:
        self.assertEqual(self.offered("sw"), ["switch"])
        self.assertEqual(self.offered("html", "--li"), ["--limit"])
        self.assertEqual(self.offered("html", "--ti"), ["--title"])
        self.assertIn("-C", self.offered("-"))
        self.assertEqual(self.offered("--colour", "al"), ["always"])

    def test_names(self) -> None:
        store = os.path.join(self.room, "notes", ".wunthavel", "store")
        with wunthavel.Repo.create(store, actor=ADA) as repo:
            repo.commit("Begin").run()
            repo.move([("refs/heads/idea", wunthavel.protocol.NEW, "HEAD")], "branch")
            repo.tag("v1")
        self.assertEqual(self.offered("-C", "notes", "switch", ""), ["idea", "main"])
        self.assertEqual(self.offered("-C", "notes", "switch", "i"), ["idea"])
        self.assertEqual(self.offered("-C", "notes", "tag", "-d", ""), ["v1"])
        self.assertEqual(self.offered("-C", "notes", "show", ""), ["idea", "main", "v1"])
        self.assertCountEqual(self.offered("-C", ""), ["notes", os.path.basename(self.store)])
