#!/usr/bin/env python3
"""Writes cases of walks over objects in memory, whose answers come from git, for the family `walk` of gix_traverse_cases.

usage: object_walks.py stdin|stdout

The histories and walks are those of commit_walks.py, and `git rev-list` gives the answers. Each walk is there in all five orders,
as the set that all of them list; along first parents, or if git's order by time is the only one, as it comes.
"""

import sys
import tempfile

from commit_walks import HISTORIES, git, made, numbers


def listed(folder, ids, along, tips, hidden):
    words = ["rev-list"] + (["--first-parent"] if along == "first" else [])
    found = git(folder, *words, *(ids[it] for it in tips), *("^" + ids[it] for it in hidden)).split()
    number_of = {it: number for number, it in ids.items()}
    return [number_of[it] for it in found]


def cases(commits, walks):
    """Each line and its answer."""
    yield "history", "history"
    for number, (time, parents) in commits.items():
        yield f"commit {number} {time} {numbers(parents)}", "commit"
    with tempfile.TemporaryDirectory() as folder:
        ids = made(folder, commits)
        for along, tips, hidden, how in walks:
            found = listed(folder, ids, along, tips, hidden)
            text = "".join(f"{it} " for it in found)
            asked = f"simple {numbers(tips)}"
            hide = f"hide={numbers(hidden)}"
            if along == "all":
                yield f"orders {numbers(tips)} {numbers(hidden)}", numbers(sorted(found))
            elif how == "order":
                yield f"{asked} first {hide} end", f"first {hide} {text}end"
            if how == "newest":
                yield f"{asked} newest {hide} end", f"newest {hide} {text}end"


def main(wanted):
    for commits, walks in HISTORIES:
        for line, answer in cases(commits, walks):
            print(f"walk {line}" if wanted == "stdin" else answer)


if __name__ == "__main__":
    main(sys.argv[1])
