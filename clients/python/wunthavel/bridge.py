"""What both ways of the bridge do: what reaches what, which names and logs differ, progress, and the words and reports of commands."""
import argparse
import contextlib
import json
import sys
from dataclasses import dataclass, fields
from typing import Any, Callable, Dict, Iterable, Iterator, List, NamedTuple, Optional, Sequence, Set, Tuple, TypeVar

from .bridge_forms import CannotHold, Hashing, Patterns, Problem, collisions, log_ids, log_lines, read_commit, read_tag, read_tree, shown
from .progress import Progress
from .errors import HistoryError

T = TypeVar("T")
# So many problems are shown to a person.
SHOWN = 50


def links_of(kind: str, content: bytes, hashing: Hashing) -> Sequence[bytes]:
    """Returns the ids that an object of a history names."""
    if kind == "tree":
        return [id for _, _, id in read_tree(content, hashing)]
    if kind == "commit":
        commit = read_commit(content, hashing)
        return [commit.tree, *commit.parents]
    return [read_tag(content, hashing).target] if kind == "tag" else []


def reached(tips: Iterable[bytes], links: Callable[[bytes], Iterable[bytes]]) -> Set[bytes]:
    """Returns all that these objects reach, themselves too."""
    found: Set[bytes] = set()
    left = list(tips)
    while left:
        id = left.pop()
        if id not in found:
            found.add(id)
            left.extend(links(id))
    return found


def is_reached(old: bytes, new: bytes, parents: Callable[[bytes], Iterable[bytes]]) -> bool:
    """Returns whether the commit `new` is `old` or comes after it."""
    seen, left = {new}, [new]
    while left:
        id = left.pop()
        if id == old:
            return True
        for it in parents(id):
            if it not in seen:
                seen.add(it)
                left.append(it)
    return False


@dataclass(frozen=True)
class Options:
    """What the two commands are to do; `as_clone` and `unreached` are of an import."""

    skip_refs: Sequence[str] = ()
    no_logs: bool = False
    force: bool = False
    force_logs: bool = False
    prune: bool = False
    dry_run: bool = False
    as_clone: bool = False
    unreached: bool = False


class Side(NamedTuple):
    """The names and logs of one side."""

    names: Dict[bytes, bytes]
    logs: Dict[bytes, bytes]

    def without(self, skipped: Callable[[bytes], bool], logs: bool) -> "Side":
        """Returns it without the names that are skipped and their logs, or without all logs."""
        names = {name: id for name, id in self.names.items() if not skipped(name)}
        return Side(names, {name: log for name, log in self.logs.items() if logs and name in names})

    def tips(self, hashing: Hashing) -> Set[bytes]:
        """Returns the objects that the names hold or the logs name."""
        return {*self.names.values(), *(id for log in self.logs.values() for id in log_ids(log, hashing))}


class Changes(NamedTuple):
    """What is to be changed on the side that is written."""

    names: Dict[bytes, bytes]
    logs: Dict[bytes, bytes]
    gone: Set[bytes]
    left: List[str]

    def __bool__(self) -> bool:
        return bool(self.names or self.logs or self.gone)


def compared(new: Side, old: Side, prune: bool, skip: Patterns) -> Changes:
    """Returns what the new side has otherwise than the old one, whose skipped names stay as they are."""
    names = {name: id for name, id in new.names.items() if old.names.get(name) != id}
    logs = {name: log for name, log in new.logs.items() if old.logs.get(name) != log}
    gone = {name for name in old.names.keys() - new.names.keys() if not skip.has(name)}
    return Changes(names, logs, gone if prune else set(), [] if prune else sorted(map(shown, gone)))


def without_own_lines(log: bytes) -> bytes:
    """Returns a log without the lines at its end that have no message. Git adds one whenever a name moves, before an export writes the log."""
    lines = log_lines(log)
    while lines and b"\t" not in lines[-1]:
        lines.pop()
    return b"".join(lines)


def goes_on(old: bytes, new: bytes) -> bool:
    """Returns whether a log's new text has what was last logged in the old one, or goes on from there. Git drops earlier lines (`git gc`, `git
    stash drop`), and then makes the old id of a line that of the line before it."""
    before, now = log_lines(without_own_lines(old)), log_lines(new)
    if not before or not now:
        return True
    id, _, moved = before[-1].partition(b" ")
    return any(it.partition(b" ")[2] == moved for it in now) or now[0].startswith(moved.partition(b" ")[0] + b" ")


def test_changes(now: Changes, old: Side, follows: Callable[[bytes, bytes], bool], asked: Options, where: str) -> None:
    """Names what was changed on the side that is written alone, and would be lost; and names that can't be beside each other."""
    problems = []
    for name in sorted(set() if asked.force else now.names.keys() & old.names.keys()):
        if not follows(old.names[name], now.names[name]):
            ids = f"at {old.names[name].hex()}, which {now.names[name].hex()} doesn't come after"
            problems.append(Problem(shown(name), f"{where} has the name {ids}", hint="--force moves it"))
    for name in sorted(set() if asked.force_logs else now.logs.keys() & old.logs.keys()):
        if not goes_on(old.logs[name], now.logs[name]):
            problems.append(Problem(f"log of {shown(name)}", f"{where} has other lines at its end", hint="--force-logs replaces the log"))
    problems += collisions({*now.names, *(old.names.keys() - now.gone)})
    if problems:
        raise CannotHold(problems)


class Bars:
    """Says at a terminal how far the work is."""

    def __init__(self, quiet: bool = False) -> None:
        self._quiet = quiet

    def over(self, items: Iterable[T], title: str, total: Optional[int] = None) -> Iterator[T]:
        """Returns the items, and shows meanwhile how many of them were taken."""
        with Progress(title, total, quiet=self._quiet) as bar:
            yield from bar.each(items)

    @contextlib.contextmanager
    def during(self, title: str) -> Iterator[Progress]:
        """Shows what is done in the block, as far as the block says it."""
        with Progress(title, quiet=self._quiet) as bar:
            yield bar


def words_of(name: str, text: str, example: str, places: Sequence[Tuple[str, str]]) -> argparse.ArgumentParser:
    """Returns what reads the words of one of the two commands."""
    shape = argparse.RawDescriptionHelpFormatter
    parser = argparse.ArgumentParser(prog=f"wunthavel {name}", description=text, epilog=f"example:\n  {example}", formatter_class=shape)
    for place, what in places:
        parser.add_argument(place.split(".")[0].lower(), metavar=place, help=what)
    parser.add_argument("--sha256", action="store_true", help="the ids are of SHA-256; objects that exist show it without this")
    skipped = "leave names out, with what they alone reach, on both sides: one, a folder of them, or with * and ?; HEAD too. May be given again"
    parser.add_argument("--skip-refs", metavar="PATTERN", action="append", default=[], help=skipped)
    parser.add_argument("--no-logs", action="store_true", help="leave the logs of names out")
    parser.add_argument("--force", action="store_true", help="also move names that were moved on the other side alone")
    parser.add_argument("--force-logs", action="store_true", help="also replace logs that have other lines at their end there")
    parser.add_argument("--prune", action="store_true", help="delete the names of the other side that are none here")
    parser.add_argument("--dry-run", action="store_true", help="say what would be done or can't be, and write nothing")
    add_common_words(parser)
    return parser


def add_common_words(parser: argparse.ArgumentParser) -> None:
    """Adds the words that all commands of the bridge have."""
    parser.add_argument("--engine", metavar="PROGRAM", help="the engine (else WUNTHAVEL_ENGINE, or wunthavel-history on PATH)")
    parser.add_argument("--json", action="store_true", help="a summary as JSON on standard output")
    parser.add_argument("--quiet", action="store_true", help="no progress and no summary")


def options_of(asked: argparse.Namespace) -> Dict[str, Any]:
    """Returns the options, by their names, as they were given."""
    return {it.name: getattr(asked, it.name) for it in fields(Options) if hasattr(asked, it.name)}


def report(work: Callable[[Bars], Dict[str, Any]], asked: argparse.Namespace) -> int:
    """Does the work, prints its summary, and returns the status: 0 done, 1 it can't be done."""
    try:
        summary = work(Bars(asked.quiet))
    except CannotHold as error:
        summary = {"done": False, "cannot_hold": [it._asdict() for it in error.problems]}
        if not asked.json:
            lines = list(error.lines())
            more = len(lines) - SHOWN
            lines[SHOWN:] = [f"  and {more:,} more lines; --json lists all"] if more > 0 else []
            print("wunthavel: nothing was written, since the other side can't hold:", *lines, sep="\n", file=sys.stderr)
    except (HistoryError, OSError) as error:
        summary = {"done": False, "error": str(error)}
        if not asked.json:
            print(f"wunthavel: {error}", file=sys.stderr)
    if asked.json:
        print(json.dumps(summary))
    elif not asked.quiet and summary.get("done"):
        print(*(f"{key.replace('_', ' ')}: {_plain(it)}" for key, it in summary.items() if key != "done" and it not in ([], {})), sep="\n")
    return 0 if summary.get("done") else 1


def _plain(value: Any) -> str:
    if isinstance(value, dict):
        return ", ".join(f"{it} {key}" for key, it in value.items())
    return ", ".join(map(str, value)) if isinstance(value, list) else str(value)
