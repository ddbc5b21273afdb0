"""What a full disk leaves. The greatest size of a file is in its place: a writing that crosses it ends there and fails, as one does that finds
no more room."""
import os
import resource
import shutil
import signal
import subprocess
import tempfile
import unittest
from typing import Optional

from tests.support import ADA
from wunthavel import protocol

ENGINE = os.environ.get("WUNTHAVEL_ENGINE", "wunthavel-history")
MAIN = "refs/heads/main"


def commit(text: bytes) -> bytes:
    return protocol.commit(MAIN, "Change", ADA, edits=[protocol.put("file", text)]).data


class OnAFullDisk(unittest.TestCase):
    def setUp(self) -> None:
        self.folder = tempfile.mkdtemp(prefix="wunthavel-test-")
        self.addCleanup(shutil.rmtree, self.folder)
        self.log = os.path.join(self.folder, "logs", MAIN)
        self.assertEqual(self.engine("create"), b"created\n")
        # The log is longer than any other file will be.
        self.engine("run", b"".join(commit(b"%d" % it) for it in range(20)))
        self.whole = self.log_bytes()

    def engine(self, action: str, stream: bytes = b"", most: Optional[int] = None) -> bytes:
        """Returns what the action writes, where no file grows beyond so many bytes."""
        def bound() -> None:
            if most is not None:
                # The signal would end the process.
                signal.signal(signal.SIGXFSZ, signal.SIG_IGN)
                resource.setrlimit(resource.RLIMIT_FSIZE, (most, most))
        made = subprocess.run([ENGINE, action, self.folder], input=stream, stdout=subprocess.PIPE, stderr=subprocess.DEVNULL, preexec_fn=bound, check=False)
        return made.stdout

    def log_bytes(self) -> bytes:
        with open(self.log, "rb") as it:
            return it.read()

    def test_a_line_that_finds_no_room_leaves_the_log_as_it_was(self) -> None:
        for room in 0, 1, 60:
            with self.subTest(room=room):
                self.assertIn(b"fault File", self.engine("run", commit(b"more"), most=len(self.whole) + room))
                self.assertEqual(self.log_bytes(), self.whole)
                self.assertEqual(self.engine("check"), b"whole\n")
        self.assertIn(b"ok commit", self.engine("run", commit(b"more")))

    def test_recovery_cuts_a_log_without_room(self) -> None:
        with open(self.log, "ab") as it:
            it.write(self.whole[:50])
        self.assertNotEqual(self.engine("check"), b"whole\n")
        self.assertEqual(self.engine("recover", most=0), b"recovered\n")
        self.assertEqual(self.log_bytes(), self.whole)
        self.assertEqual(self.engine("check"), b"whole\n")
