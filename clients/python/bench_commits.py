#!/usr/bin/env python3
"""Measures how long a commit of one small file takes, and writes a table in Markdown: by `Repo`, `batch()` and `serve`, beside `git commit` and a
transaction of SQLite, on a disk and in memory, with and without syncing. It is a report, no test.

    WUNTHAVEL_ENGINE=.. clients/python/bench_commits.py [--commits N] [--disk FOLDER] [--memory FOLDER]

Git and SQLite sync by what each has by default, and where it says so by all that they can or by nothing. The engine syncs nothing.
"""
import argparse
import contextlib
import os
import sqlite3
import subprocess
import sys
import tempfile
import time
from typing import Callable, Iterator, List, Tuple

PACKAGE = os.path.dirname(os.path.abspath(__file__))
sys.path.insert(0, PACKAGE)

from wunthavel import Actor, Command, Repo, connect, protocol

ADA = Actor("Ada", "ada@example.org", 1700000000, "+0000")


def made(number: int) -> "Command[str]":
    """Returns a commit that changes one of a hundred files."""
    return protocol.commit("refs/heads/main", f"change {number}", ADA, edits=[protocol.put(f"page {number % 100}", b"text %d\n" % number)])


def by_repo(room: str, count: int) -> Iterator[None]:
    """Commits one after another."""
    with Repo.create(os.path.join(room, "store")) as repo:
        for it in range(count):
            repo.run(made(it))
            yield


def by_batch(room: str, count: int) -> Iterator[None]:
    """Commits sent ahead."""
    with Repo.create(os.path.join(room, "store")) as repo:
        for _ in repo.batch(made(it) for it in range(count)):
            yield


def by_serve(room: str, count: int) -> Iterator[None]:
    """Commits of one client of a server, one after another."""
    Repo.create(os.path.join(room, "store")).close()
    socket = os.path.join(room, "socket")
    words = [sys.executable, "-m", "wunthavel", "serve", socket, os.path.join(room, "store"), "--quiet", "--json"]
    with subprocess.Popen(words, env={**os.environ, "PYTHONPATH": PACKAGE}, stdout=subprocess.PIPE) as server:
        assert server.stdout
        server.stdout.readline()
        with contextlib.closing(connect(socket)) as repo:
            for it in range(count):
                repo.run(made(it))
                yield
        server.terminate()


def by_git(*settings: str) -> Callable[[str, int], Iterator[None]]:
    """Returns what commits a changed file by `git commit`, with these settings."""

    def commits(room: str, count: int) -> Iterator[None]:
        options = [word for it in ("user.name=Ada", "user.email=ada@example.org", "gc.auto=0", *settings) for word in ("-c", it)]
        git = ["git", "-C", room, *options]
        subprocess.run([*git, "init", "-q"], check=True)
        for it in range(count):
            with open(os.path.join(room, f"page {it % 100}"), "w", encoding="ascii") as page:
                page.write(f"text {it}\n")
            subprocess.run([*git, "add", f"page {it % 100}"], check=True)
            subprocess.run([*git, "commit", "-q", "-m", f"change {it}"], check=True)
            yield

    return commits


def by_sqlite(*pragmas: str) -> Callable[[str, int], Iterator[None]]:
    """Returns what stores a page by one transaction of SQLite, with these pragmas."""

    def transactions(room: str, count: int) -> Iterator[None]:
        with contextlib.closing(sqlite3.connect(os.path.join(room, "database"), isolation_level=None)) as database:
            for it in pragmas:
                database.execute(f"pragma {it}")
            database.execute("create table pages (path, version integer, content, primary key (path, version))")
            for it in range(count):
                database.execute("insert into pages values (?, ?, ?)", (f"page {it % 100}", it, b"text %d\n" % it))
                yield

    return transactions


WAYS: List[Tuple[str, Callable[[str, int], Iterator[None]]]] = [
    ("`Repo`, one after another", by_repo),
    ("`Repo.batch()`", by_batch),
    ("`serve`, one client, one after another", by_serve),
    ("`git add` and `git commit`", by_git()),
    ("the same, all synced", by_git("core.fsync=all")),
    ("the same, nothing synced", by_git("core.fsync=none")),
    ("SQLite, an insertion, synced", by_sqlite()),
    ("the same, nothing synced", by_sqlite("synchronous=off")),
]


def milliseconds(way: Callable[[str, int], Iterator[None]], folder: str, count: int) -> float:
    """Returns how long one commit takes, where a tenth of them went before."""
    before = count // 10
    with tempfile.TemporaryDirectory(dir=folder) as room:
        times = [time.perf_counter() for _ in way(room, before + count)]
        return (times[-1] - times[-1 - count]) * 1000 / count


def main() -> int:
    """Measures, and prints the table."""
    parser = argparse.ArgumentParser(description=__doc__, formatter_class=argparse.RawDescriptionHelpFormatter)
    parser.add_argument("--commits", metavar="N", type=int, default=500, help="how many commits each makes (500)")
    parser.add_argument("--disk", metavar="FOLDER", default=tempfile.gettempdir(), help="a folder on a disk")
    parser.add_argument("--memory", metavar="FOLDER", default="/dev/shm", help="a folder in memory")
    asked = parser.parse_args()
    print("| A commit by | milliseconds on a disk | in memory |\n|---|---:|---:|")
    for name, way in WAYS:
        cells: List[str] = [f"{milliseconds(way, folder, asked.commits):.2f}" for folder in (asked.disk, asked.memory)]
        print(f"| {name} | {' | '.join(cells)} |", flush=True)
    return 0


if __name__ == "__main__":
    sys.exit(main())
