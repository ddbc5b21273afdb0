"""Makes a long history with branches, merges and tags, for tests and for whoever wants to look at one.

usage: python3 -m tests.histories FOLDER COMMITS
"""
import random
import sys
from typing import Any, Dict, Iterator

import wunthavel
from wunthavel import Command, protocol

PEOPLE = [("Ada Lovelace", "ada@example.org"), ("Grace Hopper", "grace@example.org"), ("Zoë Ørsted", "zoe@example.org")]
WORDS = "page index menu colour search table picture letter number title answer question order parser writer reader".split()


def commands(count: int, seed: int) -> Iterator["Command[Any]"]:
    """Gives the commands of a history: a main line and branches that are merged into it."""
    chance = random.Random(seed)
    # Of each branch the number of its last commit.
    tips: Dict[str, int] = {"refs/heads/main": 0}
    for number in range(count):
        actor = wunthavel.Actor(*chance.choice(PEOPLE), 1600000000 + number * 3600 + chance.randrange(3600), "+0100")
        name = chance.choice(sorted(tips))
        title = f"{chance.choice(['Add', 'Mend', 'Sort', 'Rename'])} the {chance.choice(WORDS)} of {chance.choice(WORDS)}s"
        message = f"{title}\n\nThe {chance.choice(WORDS)} needs it.\n" if chance.random() < 0.3 else title
        edits = [
            protocol.put(f"{chance.choice(WORDS)}/{chance.choice(WORDS)}{chance.randrange(12)}.txt", b"%d\n" % number)
            for _ in range(chance.randrange(1, 4))
        ]
        parents = []
        others = sorted(it for it in tips if tips[it] != tips["refs/heads/main"])
        if name == "refs/heads/main" and others and chance.random() < 0.35:
            parents = [chance.choice(others)]
            message = f"Merge {parents[0][11:]}"
        yield protocol.commit(name, message, actor, edits=edits, parents=parents)
        tips[name] = number
        for it in parents:
            del tips[it]
            yield protocol.delete(it)
        if number and len(tips) < 5 and chance.random() < 0.12:
            fork = f"refs/heads/topic-{number}"
            tips[fork] = tips[name]
            yield protocol.move([(fork, wunthavel.ANY, name)], "branch", actor)
        if number % 500 == 400:
            yield protocol.tag(f"refs/tags/v{number // 500}", "refs/heads/main", f"Release {number // 500}", actor)


def make(repo: wunthavel.Repo, count: int, seed: int = 1) -> None:
    """Makes a history of so many commits."""
    for _ in repo.batch(commands(count, seed)):
        pass


if __name__ == "__main__":
    with wunthavel.Repo.create(sys.argv[1]) as made:
        make(made, int(sys.argv[2]))
