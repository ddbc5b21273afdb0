#!/usr/bin/env python3
"""Writes cases of walks by topology, whose answers come from git, for the family `topo` of gix_traverse_cases.

usage: topo_walks.py stdin|stdout

As commit_walks.py does, it makes each history by `git fast-import`; the answers are what `git rev-list` prints under
`--topo-order` or `--date-order`. Which of equal times comes first by date is open, so that a walk by date is tried only if
all times of a history differ. Without a commit-graph git 2.39 counts the children along all parents, under `--first-parent` too, so
one is written. With it a commit whose first parent is hidden is counted off its next parent that isn't, which on another tip's line
may then come before its child. So along first parents from several tips with ends one walk alone is tried, from 57 and 60: 57
is on the line of 60, so that only one order is right. Numbers mean commits.
"""

import random
import sys
import tempfile

import commit_walks as walks


def by_chance(seed, count):
    """A history whose parents and times are drawn."""
    chance = random.Random(seed)
    times = chance.sample(range(1, 1000), count)
    commits = {1: (times[0], [])}
    for number in range(2, count + 1):
        near = range(max(1, number - 8), number)
        commits[number] = (times[number - 1], chance.sample(near, min(len(near), chance.choice([1, 1, 1, 2, 2, 3]))))
    return commits


BOTH, TOPO = ["topo", "date"], ["topo"]
HISTORIES = [
    (walks.ladder(20), TOPO, [("all", [42], []), ("all", [42], [20]), ("all", [43], [42]), ("first", [43], [])]),
    (walks.octopus(64), TOPO, [("all", [66], []), ("all", [66], [2, 30, 65]), ("first", [66], []), ("all", [66], [66])]),
    (walks.apart(walks.ladder(20)), BOTH, [("all", [42], []), ("all", [42, 43], [20]), ("first", [42], [])]),
    (walks.apart(walks.octopus(64)), BOTH, [("all", [66], []), ("all", [66, 5, 66], [6]), ("all", [66], [1])]),
    (walks.apart(walks.skewed(60)), BOTH, [("all", [60], []), ("all", [57, 60, 30], [13, 29]), ("first", [60], []),
                                             ("first", [59], [40]), ("first", [57, 60], [13, 29])]),
    (walks.apart(walks.unrelated()), BOTH, [("all", [6, 7], []), ("all", [7, 6], [1]), ("all", [6], [7]), ("all", [2, 3, 1], [])]),
] + [(by_chance(seed, 30), BOTH, [("all", [30], []), ("all", [30, 25], []), ("all", [30], [20]), ("all", [29, 28], [15, 11]),
                                 ("first", [29], []), ("first", [29], [21]), ("first", [30, 29], [])]) for seed in range(8)]


def main(wanted):
    for commits, orders, asked in HISTORIES:
        generation = walks.generations(commits)
        with tempfile.TemporaryDirectory() as folder:
            ids = walks.made(folder, commits)
            walks.git(folder, "commit-graph", "write", "--reachable")
            number_of = {it: number for number, it in ids.items()}
            for number, (time, parents) in commits.items():
                row = f"topo row {number} {time} {generation[number]} {walks.numbers(parents)}"
                print(row if wanted == "stdin" else "row")
            print("topo graph" if wanted == "stdin" else "graph")
            for order, (along, tips, ends) in ((order, walk) for walk in asked for order in orders):
                if wanted == "stdin":
                    print(f"topo {order} {along} {walks.numbers(tips)} {walks.numbers(ends)}")
                    continue
                words = ["rev-list", f"--{order}-order"] + (["--first-parent"] if along == "first" else [])
                listed = walks.git(folder, *words, *(ids[it] for it in tips), *("^" + ids[it] for it in ends)).split()
                print("".join(f"{number_of[it]} " for it in listed) + "after 0")


if __name__ == "__main__":
    main(sys.argv[1])
