"""`wunthavel verify --for`: each object is digested once before any is again, and each that is damaged is listed."""
import json
import os
import subprocess
import sys
from typing import Any, List, Tuple
from unittest import mock

import wunthavel
from tests.support import PATIENCE, WithRepo
from wunthavel import verify

PACKAGE = os.path.dirname(os.path.dirname(os.path.abspath(__file__)))


class Verify(WithRepo):
    def setUp(self) -> None:
        super().setUp()
        self.chain(10)
        self.place = os.path.join(self.room, "place")
        self.objects = os.path.join(self.store, "objects")

    def paths(self) -> List[str]:
        return sorted(f"{it}/{rest}" for it in os.listdir(self.objects) if len(it) == 2 for rest in os.listdir(os.path.join(self.objects, it)))

    def spoil(self, path: str) -> None:
        file = os.path.join(self.objects, path)
        with open(file, "rb") as it:
            data = bytearray(it.read())
        data[-1] ^= 1
        os.chmod(file, 0o644)
        with open(file, "wb") as it:
            it.write(data)

    def test_all_at_once(self) -> None:
        found = verify.verify(self.store, PATIENCE, self.place)
        self.assertEqual((found.objects, found.damaged, found.is_whole), (len(self.paths()), [], True))

    def test_each_object_that_is_damaged_is_listed(self) -> None:
        paths = self.paths()
        for it in (paths[3], paths[7]):
            self.spoil(it)
        os.truncate(os.path.join(self.objects, paths[11]), 0)
        found = verify.verify(self.store, PATIENCE, self.place)
        self.assertEqual([(it.path, it.id) for it in found.damaged], [(f"objects/{it}", it.replace("/", "")) for it in (paths[3], paths[7], paths[11])])
        self.assertEqual(found.objects, len(paths))

    def test_it_goes_on_where_it_stopped(self) -> None:
        paths, seen, counts = self.paths(), [], []
        real = verify._damage

        def damage(file: str, path: str) -> Any:
            seen.append(path)
            clock[0] += 1.0
            return real(file, path)

        clock = [0.0]
        with mock.patch.object(verify, "_damage", damage), mock.patch("wunthavel.verify.time.monotonic", lambda: clock[0]):
            for _ in range(-(-len(paths) // 4)):
                counts.append(verify.verify(self.store, 4.0, self.place).objects)
        self.assertEqual(seen, paths)
        self.assertEqual(max(counts), 4)
        self.assertEqual([it for it in os.listdir(self.store) if "place" in it or "verif" in it], [])

    def test_the_command(self) -> None:
        said = self.wunthavel("verify", self.store, "--for", "600", "--socket", self.place)
        self.assertEqual(said, (0, [{"objects": len(self.paths()), "damaged": [], "whole": True}]))
        self.assertTrue(os.path.exists(self.place + ".verified"))
        self.spoil(self.paths()[0])
        status, lines = self.wunthavel("verify", self.store, "--for", "600", "--socket", self.place)
        self.assertEqual((status, lines[-1]["damaged"]), (1, [{"path": f"objects/{self.paths()[0]}", "id": self.paths()[0].replace("/", "")}]))

    def wunthavel(self, *words: str) -> Tuple[int, List[Any]]:
        """Returns the status of a command, and the lines of JSON that it writes."""
        env = {**os.environ, "PYTHONPATH": PACKAGE}
        done = subprocess.run([sys.executable, "-m", "wunthavel", *words, "--json"], env=env, stdout=subprocess.PIPE, timeout=PATIENCE)
        return done.returncode, [json.loads(it) for it in done.stdout.splitlines()]


class Beside(WithRepo):
    def test_it_runs_beside_an_engine(self) -> None:
        self.chain(3)
        found = verify.verify(self.store, PATIENCE, os.path.join(self.room, "place"))
        self.assertTrue(found.is_whole and found.objects)
        self.assertIsInstance(self.repo, wunthavel.Repo)
        self.assertEqual(self.repo.show().title, "Page 2")
