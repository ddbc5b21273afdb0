"""`wunthavel mirror FOLDER REMOTE`: has a git repository anywhere be as a history, so that many machines read that by git's own transport.

The history is exported into a bare repository beside its folder, which is kept, so that only what is new is exported; from there git pushes it.
"""
import argparse
import os
from typing import Any, Dict, Optional, Sequence

from .bridge import Bars, add_common_words, report
from .bridge_git import Git
from .git_export import git_export
from .worktree import store_of


def mirror(folder: str, remote: str, sha256: bool = False, engine: Optional[str] = None, bars: Optional[Bars] = None) -> Dict[str, Any]:
    """Exports a history into `FOLDER.mirror.git`, has git push its names to the remote, and returns a summary."""
    bars = bars or Bars(quiet=True)
    between = store_of(folder).rstrip("/") + ".mirror.git"
    summary = git_export(folder, between, sha256, engine, bars, no_logs=True, force=True, prune=True)
    git = Git(between)
    git.open()
    if not git.names()[0]:
        # Git pushes no such thing.
        return {**summary, "by": between, "notes": ["the history has no names, so nothing was pushed"]}
    with bars.during("pushing") as bar:
        # Git would read a path from the repository on.
        git.push(os.path.abspath(remote) if os.path.exists(remote) else remote, bar)
    return {**summary, "by": between, "remote": remote}


def main(argv: Sequence[str]) -> int:
    """Does what the words say."""
    text = "Gives what is new in a history to a git repository, whose names become those of the history: others there are deleted. Git pushes it."
    example = "example:\n  wunthavel mirror store ssh://example.org/project.git"
    parser = argparse.ArgumentParser(prog="wunthavel mirror", description=text, epilog=example, formatter_class=argparse.RawDescriptionHelpFormatter)
    parser.add_argument("folder", metavar="FOLDER", help="the history's folder; beside it FOLDER.mirror.git is made and kept")
    parser.add_argument("remote", metavar="REMOTE", help="where git pushes to: a URL, or the path of a bare repository")
    parser.add_argument("--sha256", action="store_true", help="the ids are of SHA-256; objects that exist show it without this")
    add_common_words(parser)
    asked = parser.parse_args(argv)
    return report(lambda bars: mirror(asked.folder, asked.remote, asked.sha256, asked.engine, bars), asked)
