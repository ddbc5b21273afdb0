"""Builds the package: a wheel and a source archive, with Python's own library alone, so that nothing is fetched for it. pip calls this (PEP 517).

usage: python3 backend.py FOLDER    writes the wheel into FOLDER, and prints its name
"""
import base64
import gzip
import hashlib
import io
import os
import re
import sys
import tarfile
import zipfile
from typing import Any, Dict, Iterator, List, Optional

HERE = os.path.dirname(os.path.abspath(__file__))
LICENCES = ("LICENSE-MIT", "LICENSE-APACHE")
# What the source archive has besides the package.
SOURCES = ("README.md", "backend.py", "pyproject.toml", "run-tests", "bench.py", "bench_bridge.py", "bench_commits.py", "docs", "examples", "tests")
# The time of each file, so that the same sources make the same archive.
TIME = (2020, 1, 1, 0, 0, 0)
METADATA = """\
Metadata-Version: 2.1
Name: wunthavel
Version: {version}
Summary: Wunthavel's version store from Python and at a terminal
License: MIT OR Apache-2.0
License-File: LICENSE-MIT
License-File: LICENSE-APACHE
Requires-Python: >=3.9
Classifier: Development Status :: 4 - Beta
Classifier: Environment :: Console
Classifier: License :: OSI Approved :: Apache Software License
Classifier: License :: OSI Approved :: MIT License
Classifier: Operating System :: POSIX
Classifier: Programming Language :: Python :: 3 :: Only
Classifier: Programming Language :: Python :: 3.9
Classifier: Topic :: Software Development :: Version Control :: Git
Classifier: Typing :: Typed
Description-Content-Type: text/markdown

{readme}"""
WHEEL = "Wheel-Version: 1.0\nGenerator: wunthavel\nRoot-Is-Purelib: true\nTag: py3-none-any\n"
SCRIPTS = "[console_scripts]\nwunthavel = wunthavel.cli:main\n"


def _read(path: str) -> bytes:
    with open(os.path.join(HERE, path), "rb") as it:
        return it.read()


def _version() -> str:
    found = re.search(rb'^__version__ = "([^"]+)"$', _read("wunthavel/__init__.py"), re.MULTILINE)
    assert found
    return found[1].decode()


def _metadata() -> bytes:
    return METADATA.format(version=_version(), readme=_read("README.md").decode()).encode()


def _licence(name: str) -> bytes:
    """Returns a licence: beside the package in its source archive, and else at the top of the checkout."""
    return _read(name if os.path.exists(os.path.join(HERE, name)) else f"../../{name}")


def _files(path: str) -> Iterator[str]:
    """Gives the files at or below a path, ascending."""
    place = os.path.join(HERE, path)
    if not os.path.isdir(place):
        yield path
        return
    for name in sorted(os.listdir(place)):
        if name != "__pycache__":
            yield from _files(f"{path}/{name}")


def build_wheel(folder: str, config_settings: Optional[Dict[str, Any]] = None, metadata_directory: Optional[str] = None) -> str:
    """Writes the wheel into a folder, and returns its name."""
    info = f"wunthavel-{_version()}.dist-info"
    files = {it: _read(it) for it in _files("wunthavel")}
    files.update({f"{info}/licenses/{it}": _licence(it) for it in LICENCES})
    files.update({f"{info}/METADATA": _metadata(), f"{info}/WHEEL": WHEEL.encode(), f"{info}/entry_points.txt": SCRIPTS.encode()})
    rows = [f"{path},sha256={_digest(data)},{len(data)}\n" for path, data in files.items()]
    files[f"{info}/RECORD"] = "".join([*rows, f"{info}/RECORD,,\n"]).encode()
    name = f"wunthavel-{_version()}-py3-none-any.whl"
    with zipfile.ZipFile(os.path.join(folder, name), "w", zipfile.ZIP_DEFLATED) as wheel:
        for path, data in files.items():
            about = zipfile.ZipInfo(path, TIME)
            about.external_attr, about.compress_type = 0o100644 << 16, zipfile.ZIP_DEFLATED
            wheel.writestr(about, data)
    return name


def _digest(data: bytes) -> str:
    return base64.urlsafe_b64encode(hashlib.sha256(data).digest()).rstrip(b"=").decode()


def build_sdist(folder: str, config_settings: Optional[Dict[str, Any]] = None) -> str:
    """Writes the source archive into a folder, and returns its name."""
    top = f"wunthavel-{_version()}"
    files = {it: _read(it) for path in ("wunthavel", *SOURCES) for it in _files(path)}
    files.update({it: _licence(it) for it in LICENCES})
    files["PKG-INFO"] = _metadata()
    with open(os.path.join(folder, f"{top}.tar.gz"), "wb") as out, gzip.GzipFile("", "wb", fileobj=out, mtime=0) as packed:
        with tarfile.open(fileobj=packed, mode="w", format=tarfile.PAX_FORMAT) as archive:
            for path in sorted(files):
                about = tarfile.TarInfo(f"{top}/{path}")
                about.size = len(files[path])
                about.mode = 0o755 if path == "run-tests" else 0o644
                archive.addfile(about, io.BytesIO(files[path]))
    return f"{top}.tar.gz"


def get_requires_for_build_wheel(config_settings: Optional[Dict[str, Any]] = None) -> List[str]:
    """Nothing is needed."""
    return []


if __name__ == "__main__":
    os.makedirs(sys.argv[1], exist_ok=True)
    print(os.path.join(sys.argv[1], build_wheel(sys.argv[1])))
