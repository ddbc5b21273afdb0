"""The package as it is installed: a wheel and a source archive are made without a network, have all that belongs to them, and work elsewhere."""
import importlib.util
import os
import shutil
import subprocess
import sys
import tarfile
import tempfile
import unittest

import wunthavel
from tests.support import PATIENCE
from wunthavel import engine

PACKAGE = os.path.dirname(os.path.dirname(os.path.abspath(__file__)))
SOURCES = sorted(it for it in os.listdir(os.path.join(PACKAGE, "wunthavel")) if it != "__pycache__")


class Packaging(unittest.TestCase):
    def setUp(self) -> None:
        self.room = tempfile.mkdtemp(prefix="wunthavel-test-")
        self.addCleanup(shutil.rmtree, self.room)

    def run_python(self, *words: str, **env: str) -> str:
        given = {name: it for name, it in os.environ.items() if name != "PYTHONPATH"}
        done = subprocess.run([sys.executable, *words], cwd=self.room, env={**given, **env}, stdout=subprocess.PIPE, stderr=subprocess.STDOUT, timeout=PATIENCE)
        self.assertEqual(done.returncode, 0, done.stdout)
        return done.stdout.decode()

    def install(self, what: str) -> str:
        """Installs something by pip, which may fetch nothing, and returns the folder."""
        if importlib.util.find_spec("pip") is None:
            self.skipTest("there is no pip")
        place = os.path.join(self.room, "place")
        self.run_python("-m", "pip", "--disable-pip-version-check", "install", "--no-index", "--quiet", "--target", place, what)
        return place

    def expect_installed(self, place: str) -> None:
        self.assertEqual(sorted(it for it in os.listdir(os.path.join(place, "wunthavel")) if it != "__pycache__"), SOURCES)
        info = os.path.join(place, f"wunthavel-{wunthavel.__version__}.dist-info")
        self.assertEqual(sorted(os.listdir(os.path.join(info, "licenses"))), ["LICENSE-APACHE", "LICENSE-MIT"])
        with open(os.path.join(info, "METADATA"), encoding="utf-8") as it:
            self.assertIn(f"\nVersion: {wunthavel.__version__}\n", it.read())
        said = self.run_python("-m", "wunthavel", "--version", PYTHONPATH=place)
        self.assertTrue(said.startswith(f"wunthavel {wunthavel.__version__}"), said)
        self.assertTrue(os.access(os.path.join(place, "bin", "wunthavel"), os.X_OK))

    def test_a_wheel(self) -> None:
        wheel = self.run_python(os.path.join(PACKAGE, "backend.py"), self.room).strip()
        self.expect_installed(self.install(wheel))

    def test_the_sources(self) -> None:
        self.run_python("-c", f"import backend; print(backend.build_sdist({self.room!r}))", PYTHONPATH=PACKAGE)
        (archive,) = [it for it in os.listdir(self.room) if it.endswith(".tar.gz")]
        with tarfile.open(os.path.join(self.room, archive)) as it:
            it.extractall(self.room)
        top = os.path.join(self.room, archive[: -len(".tar.gz")])
        self.assertEqual(sorted(it for it in os.listdir(os.path.join(top, "tests"))), sorted(it for it in os.listdir(os.path.join(PACKAGE, "tests")) if it != "__pycache__"))
        self.expect_installed(self.install(top))
        # The tests don't need the checkout.
        self.run_python("-m", "unittest", "tests.test_serve.Wire", "tests.test_protocol", PYTHONPATH=top)

    @unittest.skipIf(importlib.util.find_spec("mypy") is None, "there is no mypy")
    def test_types(self) -> None:
        self.run_python("-m", "mypy", "--config-file", os.path.join(PACKAGE, "pyproject.toml"), "--cache-dir", os.path.join(self.room, "cache"), os.path.join(PACKAGE, "wunthavel"))


class Versions(unittest.TestCase):
    def setUp(self) -> None:
        self.room = tempfile.mkdtemp(prefix="wunthavel-test-")
        self.addCleanup(shutil.rmtree, self.room)

    def program(self, says: str) -> str:
        path = os.path.join(self.room, "program")
        with open(path, "w", encoding="utf-8") as it:
            it.write(f"#!/bin/sh\n{says}\n")
        os.chmod(path, 0o755)
        return path

    def test_the_engine_s_version(self) -> None:
        self.assertRegex(engine.engine_version(), r"^[0-9]+\.[0-9]+\.[0-9]+$")
        self.assertEqual(engine.engine_version(self.program("echo 'wunthavel-history 7.8.9 (proved)'")), "7.8.9")
        with self.assertRaises(wunthavel.EngineError):
            engine.engine_version(self.program("echo nothing"))

    def test_an_engine_of_another_version_is_named_where_it_fails(self) -> None:
        other = self.program('[ "$1" = --version ] && echo "wunthavel-history 7.8.9 (proved)" || exit 3')
        done = subprocess.run(
            [sys.executable, "-m", "wunthavel", "init", self.room],
            env={**os.environ, "PYTHONPATH": PACKAGE, "WUNTHAVEL_ENGINE": other},
            stderr=subprocess.PIPE,
            timeout=PATIENCE,
        )
        self.assertEqual(done.returncode, 1)
        self.assertIn(f"the engine is of version 7.8.9, and this package of {wunthavel.__version__}", done.stderr.decode())


if __name__ == "__main__":
    unittest.main()
