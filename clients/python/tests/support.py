"""What the tests share: a repository in a temporary folder, engines that misbehave, and waiting for other processes."""
import contextlib
import os
import shutil
import stat
import sys
import tempfile
import time
import unittest
from typing import Any, Callable, Iterable, List, Optional

import wunthavel

ADA = wunthavel.Actor("Ada Lovelace", "ada@example.org", 1700000000, "+0100")
# How many seconds anything may take, on a slow machine that has much else to do.
PATIENCE = 300.0
# Reads the line of the question that opens a repository, answers it, and goes on with what a test says.
FAKE = """#!{python}
import os, sys, time
folder = sys.argv[-1]
sys.stdin.buffer.readline()
os.write(1, b"ok names 0 refs/heads/main\\n")
{body}
"""


def wait_until(what: Callable[[], object]) -> None:
    """Waits until this holds."""
    end = time.monotonic() + PATIENCE
    while not what():
        if time.monotonic() > end:
            raise AssertionError("it was waited for in vain")
        time.sleep(0.01)


def running(words: bytes, among: Optional[Iterable[str]] = None) -> List[int]:
    """Returns the processes, of these or of all, whose command lines have this in them; one that has ended has none."""
    found = []
    for pid in filter(str.isdigit, os.listdir("/proc")) if among is None else among:
        with contextlib.suppress(OSError), open(f"/proc/{pid}/cmdline", "rb") as it:
            if words in it.read():
                found.append(int(pid))
    return found


def all_shown(terminal: int) -> bytes:
    """Returns all that was written to a terminal until its last process ended."""
    shown = b""
    # Its end is an error.
    with contextlib.suppress(OSError):
        while True:
            shown += os.read(terminal, 4096)
    os.close(terminal)
    return shown


class WithRepo(unittest.TestCase):
    """A test with an open repository, `repo`, in the folder `store`."""

    sha256 = False

    def setUp(self) -> None:
        self.room = tempfile.mkdtemp(prefix="wunthavel-test-")
        self.addCleanup(shutil.rmtree, self.room)
        self.store = os.path.join(self.room, "store")
        self.repo = self.create()

    def create(self, **options: Any) -> wunthavel.Repo:
        repo = wunthavel.Repo.create(self.store, actor=ADA, sha256=self.sha256, **options)
        self.addCleanup(lambda: self.repo.close())
        return repo

    def refused(self, cause: str) -> Any:
        """Expects a refusal of this cause in the block."""
        return _Refused(self, cause)

    def fake(self, body: str) -> str:
        """Returns a program that opens as an engine does and then does this."""
        path = os.path.join(self.room, "fake")
        with open(path, "w", encoding="utf-8") as it:
            it.write(FAKE.format(python=sys.executable, body=body))
        os.chmod(path, os.stat(path).st_mode | stat.S_IXUSR)
        return path

    def chain(self, count: int, path: str = "page") -> List[str]:
        """Makes commits on HEAD's branch, each of which writes its number."""
        return list(self.repo.batch(self.repo.commit(f"Page {it}").put(path, b"%d\n" % it).command() for it in range(count)))


class _Refused:
    def __init__(self, test: unittest.TestCase, cause: str) -> None:
        self.test, self.cause = test, cause

    def __enter__(self) -> None:
        pass

    def __exit__(self, kind: Any, error: Any, trace: Any) -> bool:
        self.test.assertIsInstance(error, wunthavel.Refused)
        self.test.assertEqual(error.cause, self.cause)
        return True
