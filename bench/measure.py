"""Runs ways to do a workload on folders of their own, and keeps the least of three runs' processor time."""
import functools
import os
import shutil
import subprocess
import tempfile
from dataclasses import dataclass, field
from pathlib import Path
from typing import Callable, Dict, List, Optional, Tuple, Union

HERE = Path(__file__).resolve().parent
RUNS, BASE_TIMES = 3, 3
# Git reads no settings but those of the folder.
ENVIRONMENT = {**os.environ, "GIT_CONFIG_NOSYSTEM": "1", "GIT_CONFIG_GLOBAL": "/dev/null", "GIT_COMMITTER_NAME": "Ada", "LC_ALL": "C",
               "GIT_COMMITTER_EMAIL": "ada@example.org"}


class Wrong(Exception):
    """A measurement would say nothing: something failed, or ways didn't do the same."""


@dataclass
class Result:
    """What the last run left."""
    folder: Path
    output: bytes
    seconds: float = 0.0
    memory: int = 0


@dataclass
class Way:
    """One way to do a workload, by a command run so many times. `FOLDER` in it is the folder, which begins as a copy of `start`, or empty. What
    `less` takes, a command and its input, is taken off, and the time is divided by `parts`. `says` are facts in which ways have to agree."""
    label: str
    command: List[str]
    says: Dict[str, Callable[[Result], object]]
    given: Union[bytes, Callable[[Result], bytes]] = b""
    start: Optional[Path] = None
    less: Optional[Tuple[List[str], bytes]] = None
    times: int = 1
    parts: int = 1
    # What is given before, in the same run; what is taken until its reply, of one line, isn't counted.
    first: bytes = b""


@dataclass
class Workload:
    name: str
    size: int
    ours: Way
    peers: List[Way] = field(default_factory=list)


def without_first(replies):
    """The output of runs that began with the same line."""
    return replies.replace(replies.partition(b"\n")[0] + b"\n", b"")


class Room:
    """A folder in memory, with all that is measured in it."""

    def __init__(self):
        place = "/dev/shm" if os.access("/dev/shm", os.W_OK) else None
        self._held = tempfile.TemporaryDirectory(prefix="bench-", dir=place)
        self.path = Path(self._held.name)
        self._bases = {}

    def close(self):
        self._held.cleanup()

    def compiled(self, name, *flags):
        """A program of bench/, compiled."""
        command = ["cc", "-O2", "-o", self.path / name, HERE / f"{name}.c", *flags]
        if subprocess.run(command, stdout=subprocess.DEVNULL, stderr=subprocess.DEVNULL).returncode:
            raise Wrong(f"not compiled: {' '.join(map(str, command))}")
        return str(self.path / name)

    @functools.cached_property
    def spent(self):
        """The program that measures."""
        return self.compiled("spent")

    def copy(self, start):
        """A folder for a run: a copy of `start`, or empty."""
        folder = self.path / "run"
        shutil.rmtree(folder, ignore_errors=True)
        if start:
            subprocess.run(["cp", "-a", start, folder], check=True)
        else:
            folder.mkdir()
        return folder

    def spend(self, command, folder, given, times, first=b""):
        """Runs a command so often, and returns what it left and took."""
        stream, output, told = self.path / "given", self.path / "output", self.path / "told"
        stream.write_bytes(first + given)
        words = [self.spent, str(times), str(len(first)), *(word.replace("FOLDER", str(folder)) for word in command)]
        script = 'told=$1; shift; exec "$@" 3> "$told"'
        with stream.open("rb") as reader, output.open("wb") as writer:
            subprocess.run(["sh", "-c", script, "sh", told, *words], stdin=reader, stdout=writer, cwd=folder, env=ENVIRONMENT, check=True)
        status, microseconds, memory = map(int, told.read_bytes().split())
        if status:
            raise Wrong(f"status {status} of {' '.join(words[3:])}: {output.read_bytes()[-300:]}")
        replies = output.read_bytes()
        return Result(folder, without_first(replies) if first else replies, microseconds / 1e6, memory)

    def least(self, way, given):
        """The last run's result, with the least time of all runs, and without what is taken off."""
        base = self.base(way)
        runs = [self.spend(way.command, self.copy(way.start), given, way.times, way.first) for _ in range(RUNS)]
        result = runs[-1]
        result.seconds = (min(it.seconds for it in runs) - base * way.times) / way.parts
        return result

    def base(self, way):
        """What is taken off of each run."""
        if not way.less:
            return 0.0
        command, given = way.less
        key = (*command, given, way.start)
        if key not in self._bases:
            folder = self.copy(way.start)
            self._bases[key] = min(self.spend(command, folder, given, BASE_TIMES).seconds for _ in range(RUNS)) / BASE_TIMES
        return self._bases[key]


def agree(label, ours, theirs):
    """Refuses a way that didn't do the same."""
    common = ours.keys() & theirs.keys()
    if not common:
        raise Wrong(f"nothing shows that {label} did the same")
    for fact in sorted(common):
        if ours[fact] != theirs[fact]:
            raise Wrong(f"{label} has another {fact}: {str(theirs[fact])[:200]} and not {str(ours[fact])[:200]}")
