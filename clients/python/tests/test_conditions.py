"""What the surroundings do: a disk that is full, readers at the same time, and a command line beside a server."""
import errno
import os
import shutil
import subprocess
import sys
import unittest

import wunthavel
from tests.support import PATIENCE, WithRepo, wait_until
from wunthavel.bridge_folder import held

PACKAGE = os.path.dirname(os.path.dirname(os.path.abspath(__file__)))
ENV = {**os.environ, "PYTHONPATH": PACKAGE}
# Runs a script of Python on a file system of its own that has little room.
SMALL = ["unshare", "--user", "--map-root-user", "--mount", "sh", "-c", 'mount -t tmpfs -o size=400k none "$1" && exec "$2" -c "$3" "$1"', "sh"]
FILL = """
import os, sys, wunthavel
store = sys.argv[1] + "/store"
repo = wunthavel.Repo.create(store, actor="Ada <ada@example.org>")
kept = repo.commit("Kept").put("page", b"kept").run()
try:
    for number in range(1000):
        repo.commit("Fill").put(f"page {number}", os.urandom(20000)).run()
        kept = repo.resolve()
except wunthavel.Fault as fault:
    print(fault.cause, fault.errno, repo.closed)
os.remove(sys.argv[1] + "/room")
repo.reopen()
assert repo.resolve() == kept and repo.read("page") == b"kept"
print(repo.commit("Later").put("later", b"1").run() == repo.resolve())
"""


def may_mount() -> bool:
    """Returns whether a user may have a file system of its own here."""
    try:
        return subprocess.run([*SMALL, "/mnt", sys.executable, ""], stderr=subprocess.DEVNULL).returncode == 0
    except OSError:
        return False


class Conditions(WithRepo):
    @unittest.skipUnless(may_mount(), "no file system can be mounted here")
    def test_a_full_disk(self) -> None:
        place = os.path.join(self.room, "small")
        os.mkdir(place)
        script = "import sys\nopen(sys.argv[1] + '/room', 'wb').write(bytes(100000))\n" + FILL
        done = subprocess.run([*SMALL, place, sys.executable, script], env=ENV, stdout=subprocess.PIPE, timeout=PATIENCE)
        self.assertEqual((done.returncode, done.stdout.decode().splitlines()), (0, [f"File {errno.ENOSPC} True", "True"]))

    def test_two_readers(self) -> None:
        self.repo.commit("Begin").put("page", b"1").run()
        self.repo.close()
        with held(os.fsencode(self.store), alone=False):
            wunthavel.Repo.check(self.store)
            with self.assertRaises(wunthavel.Busy):
                wunthavel.Repo(self.store, wait=0.1)

    def test_a_command_line_beside_a_server(self) -> None:
        self.repo.commit("Begin").put("page", b"1").run()
        self.repo.close()
        folder = os.path.join(self.room, "work")
        os.makedirs(os.path.join(folder, ".wunthavel"))
        shutil.move(self.store, os.path.join(folder, ".wunthavel", "store"))
        socket = os.path.join(self.room, "s")
        server = subprocess.Popen([sys.executable, "-m", "wunthavel", "serve", socket, os.path.join(folder, ".wunthavel", "store"), "--quiet"], env=ENV)
        self.addCleanup(server.wait)
        self.addCleanup(server.terminate)
        wait_until(lambda: os.path.exists(socket))
        done = subprocess.run([sys.executable, "-m", "wunthavel", "log"], cwd=folder, env=ENV, stdout=subprocess.PIPE, stderr=subprocess.PIPE, timeout=PATIENCE)
        self.assertEqual((done.returncode, done.stdout), (1, b""))
        self.assertIn(b"another process works there", done.stderr)
        with wunthavel.connect(socket) as repo:
            self.assertEqual(repo.show().title, "Begin")


if __name__ == "__main__":
    unittest.main()
