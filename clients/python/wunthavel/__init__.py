"""Wunthavel's version store from Python.

>>> import wunthavel
>>> with wunthavel.Repo.create("store", actor="Ada Lovelace <ada@example.org>") as repo:     # doctest: +SKIP
...     repo.commit("Begin").put("README", b"Hello.").run()
...     [commit.title for commit in repo.log()]
['Begin']
"""
from . import errors, protocol
from .aio import AsyncRepo
from .builder import CommitBuilder
from .engine import Pending, engine_version, find_engine
from .errors import *  # noqa: F403
from .plans import AsOf, Change, Entry, Line, changes
from .protocol import ANY, NEW, Actor, Command, Commit, Content, Expect, File, Ids, LogEntry, Name, Names
from .repo import Repo
from .served import ServedRepo, connect

__version__ = "0.2.0"


__all__ = [
    *errors.__all__,
    "ANY",
    "Actor",
    "AsOf",
    "AsyncRepo",
    "Change",
    "Command",
    "Commit",
    "CommitBuilder",
    "Content",
    "Entry",
    "Expect",
    "File",
    "Ids",
    "Line",
    "LogEntry",
    "NEW",
    "Name",
    "Names",
    "Pending",
    "Repo",
    "ServedRepo",
    "changes",
    "connect",
    "engine_version",
    "find_engine",
    "protocol",
]
