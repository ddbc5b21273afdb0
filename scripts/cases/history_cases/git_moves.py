"""Names and HEAD as git moves and deletes them: the rows of moves are held against `git update-ref --stdin`, one transaction for each
command, and against the logs that git writes then; those of renames against one such transaction, which makes one name and
deletes the other; those of deletions against `git update-ref -d`, those of switches against
`git symbolic-ref HEAD`, the tags of those of tags against `git tag -a` and `git mktag`, and `packed-refs` and the names' own files
against `git pack-refs --all`."""
import os
import subprocess
import sys
from pathlib import Path

sys.path.insert(0, str(Path(__file__).resolve().parents[1]))
from git_repository import Git


class Moved(Git):
    """A repository of git with the objects, names and logs of a plain one."""

    def __init__(self, plain):
        super().__init__(plain.kind)
        self.folder = Path(self.env["GIT_DIR"])
        for text in plain.objects.values():
            header, _, content = text.partition(b"\0")
            self.run("hash-object", "-w", "-t", header.split()[0].decode(), "--stdin", data=content)
        if plain.records is not None:
            (self.folder / "packed-refs").write_bytes(plain.packed_text())
        for name, digits in plain.names.items():
            for front, text in ((b"", digits + b"\n"), (b"logs/", plain.logs.get(name, b""))):
                if front or name not in plain.packed_alone:
                    path = self.folder / (front + name).decode()
                    path.parent.mkdir(parents=True, exist_ok=True)
                    path.write_bytes(text)

    def by(self, actor):
        """The environment in which git signs as this actor."""
        name, email, seconds, offset = actor
        return dict(self.env, GIT_COMMITTER_NAME=name.decode(), GIT_COMMITTER_EMAIL=email.decode(),
                    GIT_COMMITTER_DATE=f"@{seconds.decode()} {offset.decode()}")

    def move(self, lines, actor, message):
        """Whether git makes a transaction of these: a name, the id that it must hold or none, and the id that it is to hold."""
        env = self.by(actor)
        text = b"".join(b"update %s\0%s\0%s\0" % (name, new, old) for name, old, new in lines)
        made = subprocess.run(["git", "update-ref", "--create-reflog", "-m", message, "-z", "--stdin"], input=text,
                              capture_output=True, env=env)
        return made.returncode == 0

    def rename(self, old, new, held):
        """Whether git makes the new name at this id and deletes the old one, which must hold it, in one transaction."""
        env = dict(self.env, GIT_COMMITTER_NAME="history", GIT_COMMITTER_EMAIL="", GIT_COMMITTER_DATE="@0 +0000")
        text = b"create %s\0%s\0delete %s\0%s\0" % (new, held, old, held)
        made = subprocess.run(["git", "update-ref", "--create-reflog", "-m", "rename", "-z", "--stdin"], input=text, capture_output=True,
                              env=env)
        return made.returncode == 0

    def delete(self, name, held):
        """Whether git deletes a name that must hold this id, or any."""
        made = subprocess.run(["git", "update-ref", "-d", name.decode(), *([held.decode()] if held else [])], capture_output=True,
                              env=self.env)
        return made.returncode == 0

    def tagged(self, own, commit, actor, message):
        """The id of the tag that git makes under a name below `refs/tags/`, or none; its log is written anew afterwards."""
        made = subprocess.run(["git", "tag", "-a", "-f", "--cleanup=verbatim", "-F", "-", "--", own, commit.decode()], input=message,
                              capture_output=True, env=self.by(actor))
        return self.names()[b"refs/tags/" + own] if made.returncode == 0 else None

    def spelled(self, text):
        """The id that `git mktag` prints of a tag's text, or none."""
        made = subprocess.run(["git", "mktag"], input=text, capture_output=True, env=self.env)
        return made.stdout.strip() if made.returncode == 0 else None

    def names(self):
        found = self.run("for-each-ref", "--format=%(refname) %(objectname)").split(b"\n")[:-1]
        return dict(line.split() for line in found)

    def switch(self, name):
        """What is in HEAD if git makes it name this branch. The log of HEAD itself, which git keeps too, isn't looked at."""
        self.run("symbolic-ref", "HEAD", name.decode())
        return (self.folder / "HEAD").read_bytes()

    def pack(self):
        self.run("pack-refs", "--all")

    def holds(self, plain):
        """Whether the names and logs are those of the plain repository, and `packed-refs` and the names with files of their own, too."""
        names = self.names()
        logs = {name: (self.folder / b"logs".decode() / name.decode()).read_bytes() for name in names}
        packed = self.folder / "packed-refs"
        records = packed.read_bytes() if packed.exists() else None
        own = {name for name in names if (self.folder / name.decode()).is_file()}
        return (names == plain.names and logs == plain.logs and own == set(plain.names) - plain.packed_alone
                and records == (None if plain.records is None else plain.packed_text()))
