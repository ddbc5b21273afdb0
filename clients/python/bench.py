#!/usr/bin/env python3
"""Measures commands a second, and writes a table in Markdown: one at a time by `Repo`, in a batch, and the engine's own speed, where nobody reads
what the replies say. It is a report, no test; `bench_bridge.py` has the server, the bridge and git.

    WUNTHAVEL_ENGINE=.. clients/python/bench.py [COUNT]
"""
import os
import subprocess
import sys
import tempfile
import time
from typing import Any, Callable, Iterator, List, Tuple

sys.path.insert(0, os.path.dirname(os.path.abspath(__file__)))

from wunthavel import Actor, Command, Repo, protocol
from wunthavel.engine import command_line, find_engine

ADA = Actor("Ada Lovelace", "ada@example.org", 1700000000, "+0100")
Make = Callable[[int], "Command[Any]"]


def commit(number: int) -> "Command[str]":
    """A commit of one file."""
    return protocol.commit("refs/heads/main", f"Page {number}", ADA, edits=[protocol.put(f"{number % 10}/page", b"%d\n" % number)])


def engine_alone(folder: str, commands: List["Command[Any]"]) -> float:
    """Returns how many seconds an engine that is open takes for these commands, whose replies are read and not looked at."""
    given = b"".join(it.data for it in commands)
    with subprocess.Popen(command_line("run", folder, False, None), stdin=subprocess.PIPE, stdout=subprocess.PIPE) as engine:
        assert engine.stdin and engine.stdout
        engine.stdin.write(protocol.names("refs/none").data)
        engine.stdin.flush()
        engine.stdout.readline()
        begun = time.perf_counter()
        engine.communicate(given)
        return time.perf_counter() - begun


def rates(folder: str, make: Make, count: int) -> Iterator[float]:
    """Gives commands a second: one at a time, in a batch, and of the engine alone."""
    with Repo(folder) as repo:
        begun = time.perf_counter()
        for it in range(count // 4):
            repo.run(make(it))
        yield count // 4 / (time.perf_counter() - begun)
        begun = time.perf_counter()
        for _ in repo.batch(make(count + it) for it in range(count)):
            pass
        yield count / (time.perf_counter() - begun)
    yield count / engine_alone(folder, [make(2 * count + it) for it in range(count)])


def main(count: int) -> None:
    """Prints the table."""
    print(f"{count:,} commands each, by {find_engine()}\n")
    print("| Command | `Repo`, one at a time | `batch()` | the engine alone |\n|---|---:|---:|---:|")
    rows: List[Tuple[str, Make, int]] = [
        ("commit of a file", commit, count),
        ("show of a commit", lambda _: protocol.show("main"), count),
        ("show of a content", lambda it: protocol.content("main", f"{it % 10}/page"), count),
        ("files, of ten", lambda _: protocol.files("main"), count),
        ("names", lambda _: protocol.names("refs/heads"), count),
    ]
    with tempfile.TemporaryDirectory() as room:
        folder = os.path.join(room, "store")
        Repo.create(folder).close()
        for name, make, some in rows:
            told = " | ".join(f"{it:,.0f}" for it in rates(folder, make, some))
            print(f"| {name} | {told} |", flush=True)


if __name__ == "__main__":
    main(int(sys.argv[1]) if len(sys.argv) > 1 else 4000)
