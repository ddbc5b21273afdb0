#!/usr/bin/env python3
"""A store of settings with rollback: each change is whole or isn't, programs may write at once, and any earlier state comes back.

    settings.py FOLDER set web/port=8080 web/host=localhost
    settings.py FOLDER get web/port
    settings.py FOLDER history
    settings.py FOLDER rollback COMMIT
"""
import getpass
import os
import sys
from typing import Dict

from wunthavel import NoSuchPath, Repo

HEAD = "refs/heads/main"
FOLDER = "settings"


class Settings:
    """Settings in a repository: a file each."""

    def __init__(self, repo: Repo) -> None:
        self.repo = repo

    def get(self, key: str, at: str = HEAD) -> str:
        """A setting's value, now or in a commit; `KeyError` if it has none."""
        try:
            return self.repo.read(f"{FOLDER}/{key}", at).decode()
        except NoSuchPath as error:
            raise KeyError(key) from error

    def all(self, at: str = HEAD) -> Dict[str, str]:
        """All settings, fetched in one batch."""
        return {file.path[len(FOLDER) + 1 :]: value.data.decode() for file, value in self.repo.contents(FOLDER, at)}

    def set(self, values: Dict[str, str]) -> str:
        """Sets all these values at once, over whatever others changed meanwhile."""
        puts = [(f"{FOLDER}/{key}", value.encode()) for key, value in values.items()]
        return self.repo.update(HEAD, lambda change: [change.put(*it) for it in puts], "Set " + ", ".join(values))

    def rollback(self, commit: str) -> str:
        """Makes the settings what they were in a commit. The history goes on: a rollback can be rolled back too."""
        return self.repo.update(HEAD, lambda change: change.graft(FOLDER, FOLDER, commit), f"Roll back to {commit[:10]}")


def main(folder: str, action: str, *words: str) -> None:
    actor = f"{getpass.getuser()} <>"
    with Repo(folder, actor=actor, recover=True) if os.path.exists(os.path.join(folder, "HEAD")) else Repo.create(folder, actor=actor) as repo:
        settings = Settings(repo)
        if action == "set":
            print(settings.set(dict(it.split("=", 1) for it in words)))
        elif action == "get":
            print(settings.get(*words))
        elif action == "rollback":
            print(settings.rollback(*words))
        elif action == "history":
            for commit in repo.log():
                changed = ", ".join(f"{it.path[len(FOLDER) + 1 :]} {it.kind}" for it in repo.changed_by(commit.id))
                print(f"{commit.id[:10]} {commit.title}: {changed or 'nothing changed'}")


if __name__ == "__main__":
    if len(sys.argv) < 3:
        sys.exit(__doc__)
    main(*sys.argv[1:])
