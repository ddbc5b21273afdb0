#!/usr/bin/env python3
"""A wiki page with its history: pages are files, each edit is a commit, and nobody's edit is lost.

    wiki.py FOLDER edit Home 'Ada <ada@example.org>' < page.md
    wiki.py FOLDER show Home [COMMIT]
    wiki.py FOLDER history Home
    wiki.py FOLDER who Home
"""
import os
import sys
from typing import Iterator, Optional, Sequence

from wunthavel import Commit, CommitBuilder, Line, NoSuchPath, Repo

HEAD = "refs/heads/main"


class Conflict(Exception):
    """Somebody else saved the page meanwhile."""


class Wiki:
    """Pages in a repository."""

    def __init__(self, repo: Repo) -> None:
        self.repo = repo

    def edit(self, page: str, content: bytes, who: str, seen: Optional[str]) -> str:
        """Saves a page, as its editor began from the commit `seen`, or from nothing.

        Another page's edit may have come between; then this one is made over it. An edit of the same page is a conflict.
        """

        def change(edit: CommitBuilder) -> None:
            if self.version(page, edit.base) != self.version(page, seen):
                raise Conflict(page)
            edit.put(f"pages/{page}.md", content)

        return self.repo.update(HEAD, change, f"Edit {page}", author=who)

    def version(self, page: str, commit: Optional[str]) -> Optional[str]:
        """The id of the page's content in a commit, if it has one."""
        try:
            return self.repo.content(f"pages/{page}.md", commit).id if commit else None
        except NoSuchPath:
            return None

    def show(self, page: str, commit: str = HEAD) -> bytes:
        """The page, as it is or as it was."""
        return self.repo.read(f"pages/{page}.md", commit)

    def history(self, page: str) -> Iterator[Commit]:
        """The page's edits, newest first."""
        return self.repo.log(f"pages/{page}.md")

    def who(self, page: str) -> Sequence[Line]:
        """Who wrote each line."""
        return self.repo.blame(f"pages/{page}.md")


def main(folder: str, action: str, page: str, *rest: str) -> None:
    with Repo(folder, recover=True) if os.path.exists(os.path.join(folder, "HEAD")) else Repo.create(folder) as repo:
        wiki = Wiki(repo)
        if action == "edit":
            print(wiki.edit(page, sys.stdin.buffer.read(), rest[0], repo.resolve(HEAD)))
        elif action == "show":
            sys.stdout.buffer.write(wiki.show(page, *rest))
        elif action == "history":
            for commit in wiki.history(page):
                print(commit.id[:10], commit.author.when.date(), commit.author.name, commit.title)
        elif action == "who":
            for line in wiki.who(page):
                print(f"{line.commit.author.name:16} {line.data.decode().rstrip()}")


if __name__ == "__main__":
    if len(sys.argv) < 4:
        sys.exit(__doc__)
    main(*sys.argv[1:])
