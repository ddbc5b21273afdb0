#!/usr/bin/env python3
"""Writes cases of walks over commits, whose answers come from git, for the family `commit` of gix_traverse_cases.

usage: commit_walks.py stdin|stdout

Each history is made in a repository of its own by `git fast-import`, with the times that are given. Its rows come first, then the
walks, whose answers are what `git rev-list` prints. Git lists by time if no option says otherwise, the newest first. So its list
is compared as it is with a walk by time, if no two commits are of one time; with other walks as a set, in ascending order; and as
it is if each commit has one parent at most that is wanted, and there is one tip. Along first parents `Simple` goes in breadth
order, so that from several tips a walk by time is tried only if both orders are the same. Numbers mean commits.
"""

import subprocess
import sys
import tempfile


def ladder(rungs):
    """Two lines of commits, which merge with one another at each rung."""
    commits = {1: (1, []), 2: (2, [1]), 3: (2, [1])}
    for rung in range(rungs):
        left, right = 2 + 2 * rung, 3 + 2 * rung
        commits[left + 2] = (rung + 3, [left, right])
        commits[right + 2] = (rung + 3, [right, left])
    return commits


def octopus(arms):
    """A commit with many parents, which have one parent."""
    commits = {1: (1, [])}
    for arm in range(arms):
        commits[arm + 2] = (2, [1])
    commits[arms + 2] = (3, list(range(2, arms + 2)))
    return commits


def skewed(count):
    """A line with merges whose clocks are wrong."""
    commits = {1: (500, [])}
    for number in range(2, count + 1):
        parents = [number - 1] + ([number - 3] if number % 4 == 0 else [])
        commits[number] = ((number * 37) % 101, parents)
    return commits


def unrelated():
    """Three roots, of which two are merged."""
    return {1: (5, []), 2: (4, []), 3: (9, []), 4: (6, [1]), 5: (6, [2]), 6: (7, [4, 5]), 7: (1, [3])}


def apart(commits):
    """The same history, whose times differ: equal ones are kept apart by the numbers."""
    return {number: (time * 200 + number, parents) for number, (time, parents) in commits.items()}


HISTORIES = [
    (ladder(20), [("all", [42], [], "set"), ("all", [42, 43], [20], "set"), ("all", [43], [42], "set"),
                  ("first", [42], [], "order"), ("first", [43], [20], "order"), ("all", [42], [43, 1], "set")]),
    (octopus(64), [("all", [66], [], "set"), ("all", [66], [2, 30, 65], "set"), ("first", [66], [], "order"),
                   ("all", [66], [1], "set"), ("all", [66, 5, 66], [6], "set")]),
    (skewed(60), [("all", [60], [], "set"), ("all", [60], [41], "set"), ("all", [57, 60, 30], [13, 29], "set"),
                  ("first", [60], [], "order"), ("first", [59], [40], "order"), ("all", [60], [], "newest"),
                  ("all", [60], [41], "newest"), ("all", [57, 60, 30], [13, 29], "newest"), ("all", [59, 44], [], "newest"),
                  ("first", [60], [], "newest"), ("first", [59], [40], "newest")]),
    (unrelated(), [("all", [6, 7], [], "set"), ("all", [6, 7], [1], "set"), ("all", [7], [6], "order"),
                   ("all", [7], [], "order"), ("all", [6], [7], "set"), ("first", [6], [2], "order"),
                   ("all", [7], [6], "newest")]),
    (apart(ladder(20)), [("all", [42], [], "newest"), ("all", [42, 43], [20], "newest"), ("first", [43, 42], [20], "newest")]),
    (apart(octopus(64)), [("all", [66], [], "newest"), ("all", [66, 5, 66], [6], "newest"), ("all", [66], [2, 30, 65], "newest"),
                          ("first", [66, 9], [2], "newest")]),
]


def git(folder, *words, stdin=None):
    """Runs git there and returns what it prints."""
    ran = subprocess.run(["git", "-C", folder, *words], input=stdin, capture_output=True, text=True, check=True)
    return ran.stdout


def made(folder, commits):
    """Makes these commits, and returns the id of each number."""
    git(folder, "init", "--quiet", "--bare")
    lines = []
    for number, (time, parents) in commits.items():
        lines += [f"commit refs/heads/c{number}", f"mark :{number}", f"committer A <a@b> {time} +0000"]
        text = str(number)
        lines += [f"data {len(text)}", text]
        if parents:
            lines.append(f"from :{parents[0]}")
        lines += [f"merge :{parent}" for parent in parents[1:]]
        lines.append("")
    git(folder, "fast-import", "--quiet", stdin="\n".join(lines) + "\n")
    names = git(folder, "for-each-ref", "--format=%(refname:short) %(objectname)", "refs/heads").split("\n")
    return {int(name.split()[0][1:]): name.split()[1] for name in names if name}


def generations(commits):
    """The generation of each commit, whose parents come before it."""
    found = {}
    for number, (_, parents) in commits.items():
        found[number] = 1 + max((found[parent] for parent in parents), default=0)
    return found


def numbers(values):
    return ",".join(map(str, values)) or "-"


def main(wanted):
    for commits, walks in HISTORIES:
        generation = generations(commits)
        with tempfile.TemporaryDirectory() as folder:
            ids = made(folder, commits)
            number_of = {it: number for number, it in ids.items()}
            for number, (time, parents) in commits.items():
                print(f"commit row {number} {time} {generation[number]} {numbers(parents)}" if wanted == "stdin" else "row")
            print("commit graph" if wanted == "stdin" else "graph")
            for along, tips, hidden, how in walks:
                if wanted == "stdin":
                    asked = "newest order -" if how == "newest" else f"new {how}"
                    print(f"commit simple {along} {numbers(tips)} {numbers(hidden)} {asked}")
                    continue
                words = ["rev-list"] + (["--first-parent"] if along == "first" else [])
                listed = git(folder, *words, *(ids[it] for it in tips), *("^" + ids[it] for it in hidden)).split()
                found = [number_of[it] for it in listed]
                print("".join(f"{it} " for it in (sorted(found) if how == "set" else found)))


if __name__ == "__main__":
    main(sys.argv[1])
