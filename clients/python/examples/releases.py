#!/usr/bin/env python3
"""A release log: what came with each release, from tags and what lies between them.

    releases.py FOLDER release 1.2 'Faster searches'
    releases.py FOLDER log
    releases.py FOLDER changed 1.1 1.2
"""
import sys
from typing import Iterator, List, Tuple

from wunthavel import Commit, Name, Repo

TAGS = "refs/tags/v"


class Releases:
    """The releases of a repository: annotated tags named `v` and a version."""

    def __init__(self, repo: Repo) -> None:
        self.repo = repo

    def release(self, version: str, notes: str) -> str:
        """Makes a release of what HEAD has."""
        return self.repo.tag(f"v{version}", message=notes)

    def tags(self) -> List[Name]:
        """The releases' tags, newest first."""
        tags = [it for it in self.repo.names("tags") if it.name.startswith(TAGS)]
        return sorted(tags, key=lambda it: (self.repo.past(it.name)[0].actor.seconds, it.name), reverse=True)

    def log(self) -> Iterator[Tuple[str, str, List[Commit]]]:
        """Gives each release, newest first: its version, the title of its notes, and the commits that came with it."""
        tags = self.tags()
        for tag, before in zip(tags, [*tags[1:], None]):
            yield tag.name[len(TAGS) :], self.repo.past(tag.name)[0].title, list(self.repo.log(at=tag.name, hidden=before.name if before else ()))


def main(folder: str, action: str, *words: str) -> None:
    with Repo(folder, actor="Release <release@example.org>") as repo:
        releases = Releases(repo)
        if action == "release":
            print(releases.release(*words))
        elif action == "log":
            for version, notes, commits in releases.log():
                print(f"{version}: {notes}")
                for commit in commits:
                    print(f"  - {commit.title} ({commit.author.name})")
        elif action == "changed":
            for change in repo.diff_names(TAGS + words[0], TAGS + words[1]):
                print(change.kind, change.path)


if __name__ == "__main__":
    if len(sys.argv) < 3:
        sys.exit(__doc__)
    main(*sys.argv[1:])
