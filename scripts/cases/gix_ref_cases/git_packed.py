"""git in a folder, and the file `packed-refs` that it leaves there, for the rows of references."""
import os
import subprocess

WHO = {f"GIT_{who}_{what}": value for who in ["AUTHOR", "COMMITTER"] for what, value in [("NAME", "a"), ("EMAIL", "b"), ("DATE", "@1 +0000")]}


def git(room, *words, text=b""):
    """What this command of git prints in the folder."""
    return subprocess.run(["git", "-C", room, *words], input=text, capture_output=True, check=True, env={**os.environ, **WHO}).stdout.strip().decode()


def packed(room):
    """The bytes of its `packed-refs`."""
    return open(os.path.join(room, ".git/packed-refs"), "rb").read()
