#!/usr/bin/env python3
"""Measures the server and the bridge, and writes a table in Markdown: commands a second through serve, and the bridge against git.

    WUNTHAVEL_ENGINE=.. clients/python/bench_bridge.py [--commits N] [--repository FOLDER]

It is a report, no test; `bench.py` has `Repo` and `batch()` without a server. All is done in a temporary folder. Git's own rows are
`git cat-file --batch` and `git fast-export | git fast-import` over the same objects, and `git fast-import` of the same stream. `--repository` takes
the bridge's rows over a git repository of yours, in the place of a made one.
"""
import argparse
import os
import shlex
import subprocess
import sys
import tempfile
import time
from typing import Any, Callable, Dict, List, Optional, Tuple

sys.path.insert(0, os.path.dirname(os.path.abspath(__file__)))

from wunthavel import Actor, Repo, connect, protocol
from wunthavel.fast_import import EXPORT, fast_import
from wunthavel.git_export import git_export
from wunthavel.git_import import git_import

ADA = Actor("Ada", "ada@example.org", 1700000000, "+0000")
Spent = Tuple[float, float]
Row = Tuple[str, str, int, Spent]
# Processes that live on beside a measurement, whose work counts.
LIVE: List[int] = []


def worked() -> float:
    """Returns the seconds that processors worked for this process, its children, and those that live on."""
    seconds = sum(os.times()[:4])
    for pid in LIVE:
        for it in [str(pid), *read(f"/proc/{pid}/task/{pid}/children").split()]:
            fields = read(f"/proc/{it}/stat").rpartition(")")[2].split()
            seconds += (int(fields[11]) + int(fields[12])) / os.sysconf("SC_CLK_TCK")
    return seconds


def read(path: str) -> str:
    """Returns a file's text."""
    with open(path, encoding="ascii", errors="replace") as it:
        return it.read()


def timed(call: Callable[[], Any]) -> Spent:
    """Returns how many seconds a call takes, and how many of them processors worked for it."""
    began, before = time.monotonic(), worked()
    call()
    return time.monotonic() - began, worked() - before


def made(number: int) -> "protocol.Command[str]":
    """Returns a commit that changes one of a hundred files."""
    path = f"folder {number % 10}/page {number % 100}"
    return protocol.commit("refs/heads/main", f"change {number}", ADA, edits=[protocol.put(path, b"text %d\n" % number * 20)])


def stream(commits: int) -> bytes:
    """Returns a fast-import stream of such commits."""
    parts = [b"feature done\n"]
    for it in range(commits):
        data, message = b"text %d\n" % it * 20, b"change %d" % it
        head = b"commit refs/heads/main\ncommitter Ada <ada@example.org> 1700000000 +0000\ndata %d\n%s\n" % (len(message), message)
        parts.append(head + b'M 644 inline "folder %d/page %d"\ndata %d\n%s\n' % (it % 10, it % 100, len(data), data))
    return b"".join([*parts, b"done\n"])


class Bench:
    """The measurements, in a folder of their own."""

    def __init__(self, room: str, commits: int, repository: Optional[str]) -> None:
        self.room, self.commits, self.rows = room, commits, []  # type: str, int, List[Row]
        self.git = repository or self.path("made.git")
        self.is_own = repository is None

    def path(self, name: str) -> str:
        """Returns a path in the folder."""
        return os.path.join(self.room, name)

    def add(self, what: str, how: str, count: int, spent: Spent) -> None:
        """Adds a row, and says it."""
        self.rows.append((what, how, count, spent))
        print(f"{what}, {how}: {count / spent[0]:,.0f} a second", file=sys.stderr, flush=True)

    def served(self) -> None:
        """Commits and questions through a server, by one client and by many."""
        Repo.create(self.path("served")).close()
        socket, program = self.path("socket"), [sys.executable, "-m", "wunthavel", "serve"]
        env = {**os.environ, "PYTHONPATH": os.path.dirname(os.path.abspath(__file__))}
        server = subprocess.Popen([*program, socket, self.path("served"), "--quiet", "--json"], env=env, stdout=subprocess.PIPE)
        assert server.stdout
        server.stdout.readline()
        LIVE.append(server.pid)
        count, few = self.commits, max(self.commits // 10, 100)
        try:
            with connect(socket) as repo:
                self.add("commits", "serve, one client, one after another", few, timed(lambda: [repo.run(made(it)) for it in range(few)]))
                self.add("commits", "serve, one client, batch()", count, timed(lambda: list(repo.batch(made(it) for it in range(count)))))
                shows = (protocol.content("main", "folder 1/page 1") for _ in range(5 * count))
                self.add("shows of a content", "serve, one client, batch()", 5 * count, timed(lambda: [None for _ in repo.batch(shows)]))
            self.add("shows of a content", "serve, 8 clients, one after another", count // 8 * 8, self.together(socket, 8, count // 8))
        finally:
            LIVE.clear()
            server.terminate()
            server.wait()

    def together(self, socket: str, clients: int, each: int) -> Spent:
        """Has so many processes ask at once, and returns the seconds from when all are connected."""
        package = os.path.dirname(os.path.abspath(__file__))
        lines = [f"import sys; sys.path.insert(0, {package!r}); from wunthavel import connect", f"with connect({socket!r}) as repo:"]
        lines += ["  print('ready', flush=True); sys.stdin.readline()", f"  for _ in range({each}): repo.read('folder 1/page 1', 'main')"]
        pipe = subprocess.PIPE
        asking = [subprocess.Popen([sys.executable, "-c", "\n".join(lines)], stdin=pipe, stdout=pipe) for _ in range(clients)]
        for it in asking:
            assert it.stdout
            it.stdout.readline()

        def ask() -> None:
            for it in asking:
                it.communicate()
                if it.returncode:
                    raise SystemExit("a client failed")

        for it in asking:
            assert it.stdin
            it.stdin.write(b"\n")
            it.stdin.flush()
        return timed(ask)

    def run_git(self, *words: str, given: Optional[bytes] = None, folder: str = "") -> bytes:
        """Returns what git writes."""
        return subprocess.run(["git", "-C", folder or self.git, *words], input=given, stdout=subprocess.PIPE, stderr=subprocess.DEVNULL, check=True).stdout

    def bare(self, name: str) -> str:
        """Makes a bare repository of git, and returns its path."""
        os.mkdir(self.path(name))
        self.run_git("init", "-q", "--bare", "-b", "main", folder=self.path(name))
        return self.path(name)

    def bridge(self) -> None:
        """The bridge's ways, against git's own."""
        if self.is_own:
            self.bare("made.git")
            self.run_git("fast-import", "--quiet", given=stream(self.commits))
        objects = len(self.run_git("cat-file", "--batch-all-objects", "--batch-check").splitlines())
        reading = timed(lambda: self.run_git("cat-file", "--batch", "--batch-all-objects", "--buffer"))
        self.add("objects", "git cat-file --batch (reads them)", objects, reading)
        both = f"git -C {shlex.quote(self.git)} fast-export --all | git -C {shlex.quote(self.bare('both.git'))} fast-import --quiet"
        self.add("objects", "git fast-export | git fast-import", objects, timed(lambda: subprocess.run(both, shell=True, check=True)))
        how: Dict[str, Any] = {} if self.is_own else {"skip_refs": ["HEAD"], "as_clone": True}
        self.add("objects", "git-import", objects, timed(lambda: git_import(self.git, self.path("brought"), **how)))
        self.add("objects", "git-import again, with nothing new", objects, timed(lambda: git_import(self.git, self.path("brought"), **how)))
        self.add("objects", "git-export", objects, timed(lambda: git_export(self.path("brought"), self.path("given.git"))))
        self.add("objects", "git-export again, with nothing new", objects, timed(lambda: git_export(self.path("brought"), self.path("given.git"))))
        exported = self.run_git(*EXPORT)
        commits = exported.count(b"\noriginal-oid ") - exported.count(b"\nblob\n")
        theirs = self.bare("theirs.git")
        spent = timed(lambda: self.run_git("fast-import", "--quiet", "--force", given=exported, folder=theirs))
        self.add("commits and tags", "git fast-import", commits, spent)
        with open(self.path("stream"), "wb") as it:
            it.write(exported)
        with open(self.path("stream"), "rb") as it:
            self.add("commits and tags", "wunthavel fast-import", commits, timed(lambda: fast_import(self.path("made"), it)))

    def table(self) -> str:
        """Returns the rows as Markdown."""
        rows = [f"| {what} | {how} | {count:,} | {count / wall:,.0f} | {count / work:,.0f} |" for what, how, count, (wall, work) in self.rows]
        return "\n".join(["| What | By | How many | A second | A second of processors' work |", "|---|---|---:|---:|---:|", *rows])


def main() -> int:
    """Measures, and prints the table."""
    parser = argparse.ArgumentParser(description=__doc__, formatter_class=argparse.RawDescriptionHelpFormatter)
    parser.add_argument("--commits", metavar="N", type=int, default=5000, help="how many commits are made (5000)")
    parser.add_argument("--repository", metavar="FOLDER", help="a git repository for the bridge's rows")
    asked = parser.parse_args()
    with tempfile.TemporaryDirectory(prefix="bench-bridge-") as room:
        bench = Bench(room, asked.commits, asked.repository)
        bench.served()
        bench.bridge()
        print(bench.table())
    return 0


if __name__ == "__main__":
    sys.exit(main())
