"""The forms of objects, names and logs that a history and git share, and why one of the two can't hold what the other has."""
import hashlib
import itertools
import re
from dataclasses import dataclass
from typing import Callable, Dict, Iterable, Iterator, List, NamedTuple, Optional, Sequence, Tuple

from .errors import HistoryError
from .texts import shown as shown
from .wire import LARGEST, LONGEST_NAME, LONGEST_PATH

MAX_CONTENT, MAX_PATH, MAX_NAME, MAX_PARENTS = LARGEST, LONGEST_PATH, LONGEST_NAME, 64
MAX_TITLE, MAX_ACTOR_PART, MAX_SECONDS = 1_024, 512, 2**63 - 1
PRIVATE = (b"refs/bisect/", b"refs/worktree/", b"refs/rewritten/")
FOLDER, LINK, COMMIT = b"40000", b"120000", b"160000"
MODES = (FOLDER, b"100644", b"100755", LINK)


_DIGESTS = {"sha1": hashlib.sha1, "sha256": hashlib.sha256}


@dataclass(frozen=True)
class Hashing:
    """A kind of ids: its name in git and how many bytes an id has."""

    name: str
    width: int

    def id_of(self, kind: str, content: bytes) -> bytes:
        """Returns the object's id."""
        digest = _DIGESTS[self.name](b"%s %d\0" % (kind.encode(), len(content)))
        digest.update(content)
        return digest.digest()

    @property
    def null(self) -> bytes:
        """The id that no object has."""
        return bytes(self.width)

    @property
    def empty_tree(self) -> bytes:
        """The id of the folder without files."""
        return _EMPTY[self.name]


# The ids of the folder without files.
_EMPTY = {name: digest(b"tree 0\0").digest() for name, digest in _DIGESTS.items()}
SHA1, SHA256 = Hashing("sha1", 20), Hashing("sha256", 32)


class Problem(NamedTuple):
    """What one side can't hold: the object, name or line, the reason, what reaches the object, and what to do."""

    where: str
    why: str
    by: str = ""
    hint: str = ""

    def __str__(self) -> str:
        return f"{self.where}{self.by and ' (' + self.by + ')'}: {self.why}"


# What a reason says of its own case: what it quotes, ids and numbers.
_OWN = re.compile(r"(?<!\w)'.*?'(?!\w)|\b[0-9a-f]{40,64}\b|\b[0-9][0-9,]*\b", re.S)


def alike(problems: Iterable[Problem]) -> Iterable[List[Problem]]:
    """Returns the problems whose reasons differ at most in what they say of their own case, together."""
    found: Dict[Tuple[str, str], List[Problem]] = {}
    for it in problems:
        found.setdefault((_OWN.sub("", it.why), it.hint), []).append(it)
    return found.values()


class CannotHold(HistoryError):
    """One side can't hold what the other one has. Nothing was written."""

    def __init__(self, problems: Sequence[Problem]) -> None:
        self.problems = list(problems)
        super().__init__("\n".join(map(str, self.problems)))

    def lines(self) -> Iterator[str]:
        """Returns the problems as a person reads them: those with one reason together, as their count and the first of them."""
        for them in alike(self.problems):
            more = f" (and {len(them) - 1:,} more like it)" if len(them) > 1 else ""
            yield f"  {them[0]}{more}"
            if them[0].hint:
                yield f"    {them[0].hint}"


class BridgeError(HistoryError):
    """The bridge can't go on, for the reason that its text says."""


class Damaged(BridgeError):
    """An object of a git repository has other bytes than its id says."""

    def __init__(self, folder: str, id: bytes) -> None:
        self.id = id
        super().__init__(f"{folder}: the object {id.hex()} is damaged")


# Names.


def is_full_name(name: bytes) -> bool:
    """Returns whether `git check-ref-format` takes the name, and it is below `refs/`."""
    if not name.startswith(b"refs/") or name.endswith((b"/", b".")) or b"//" in name or b".." in name or b"@{" in name:
        return False
    if any(byte < 33 or byte == 127 or byte in b"~^:?*[\\" for byte in name):
        return False
    return not any(part.startswith(b".") or part.endswith(b".lock") for part in name.split(b"/"))


def name_problem(name: bytes) -> Optional[str]:
    """Returns why a history can't hold the name."""
    if name.startswith(PRIVATE):
        return "the name is private to one working tree"
    if len(name) > MAX_NAME:
        return f"the name has {len(name)} bytes, over {MAX_NAME}"
    try:
        name.decode("utf-8")
    except UnicodeDecodeError:
        return "the name isn't UTF-8"
    return None if is_full_name(name) else "the name isn't one"


def collisions(names: Iterable[bytes]) -> Iterator[Problem]:
    """Names each of these names that is a folder of another one."""
    every = set(names)
    for name in sorted(every):
        at = name.find(b"/", 5)
        while at > 0:
            if name[:at] in every:
                yield Problem(shown(name), f"{shown(name[:at])} exists, and the name lies below it")
            at = name.find(b"/", at + 1)


class Patterns:
    """Names that are left out: whole, as a folder of them, or with `*` and `?` as in a shell."""

    def __init__(self, patterns: Iterable[str]) -> None:
        self._tests: List[Tuple[str, "re.Pattern[bytes]"]] = []
        for it in patterns:
            parts = "".join(".*" if c == "*" else "." if c == "?" else re.escape(c) for c in it.rstrip("/"))
            self._tests.append((it, re.compile(parts.encode("utf-8", "surrogateescape") + rb"(?:/.*)?\Z", re.S)))
        self._unused = {it for it, _ in self._tests}

    def has(self, name: bytes) -> bool:
        """Returns whether the name is left out."""
        found = {it for it, test in self._tests if test.match(name)}
        self._unused -= found
        return bool(found)

    def test_use(self, others: Iterable[bytes]) -> None:
        """Refuses patterns that left out no name so far, and none of these others."""
        for name in others:
            self.has(name)
        if self._unused:
            raise BridgeError(f"--skip-refs leaves out no name: {', '.join(sorted(self._unused))}")


# Actors.

_ACTOR = re.compile(rb"([^<\n]*)<([^\n]*)> (-?[0-9]+) ([+-][0-9]{4})\Z")
_BARRED = re.compile(rb"[<>\0\t\r\n]")


def _part_problem(part: bytes, what: str) -> Optional[str]:
    if len(part) > MAX_ACTOR_PART:
        return f"the {what} has over {MAX_ACTOR_PART} bytes"
    if part != part.strip(b" "):
        return f"the {what} begins or ends with a space"
    return f"the {what} holds a byte that none may hold" if _BARRED.search(part) else None


def actor_problem(text: bytes) -> Optional[str]:
    """Returns why a history can't hold `Name <email> seconds offset`."""
    found = _ACTOR.match(text)
    if not found:
        return "it isn't in the form 'Name <email> seconds offset'"
    name, email, seconds, offset = found.groups()
    if name in (b"", b" "):
        return "the name is empty"
    if not name.endswith(b" "):
        return "no space is between name and email"
    problem = _part_problem(name[:-1], "name") or _part_problem(email, "email")
    if problem:
        return problem
    if seconds.startswith(b"-"):
        return f"the time is negative ({shown(seconds[:20])})"
    if len(seconds) > 1 and seconds.startswith(b"0") or len(seconds) > 19 or int(seconds) > MAX_SECONDS:
        return f"the seconds {shown(seconds[:20])} have a leading zero or are over {MAX_SECONDS}"
    if offset == b"-0000" or offset[3:4] > b"5":
        return f"the offset {offset.decode()} is none"
    return None


def git_time_problem(actor: bytes) -> Optional[str]:
    """Returns why git can't show the time of an actor that a history holds: git adds the offset to the seconds, and then ends with an error."""
    _, seconds, offset = actor.rsplit(b" ", 2)
    shift = (int(offset[1:3]) * 60 + int(offset[3:5])) * (-60 if offset.startswith(b"-") else 60)
    if 0 <= int(seconds) + shift <= MAX_SECONDS:
        return None
    return f"the seconds {seconds.decode()} with the offset {offset.decode()} are outside git's range"


def git_commit_problem(commit: "Commit") -> Optional[str]:
    """Returns why git can't hold a commit that a history holds."""
    if b"\0" in commit.message:
        return "its message holds a zero byte"
    return git_time_problem(commit.author) or git_time_problem(commit.committer)


def git_tag_problem(tag: "Tag") -> Optional[str]:
    """Returns why git can't hold a tag that a history holds."""
    return git_time_problem(tag.tagger or b"  0 +0000")


# Objects.


class Commit(NamedTuple):
    """A commit's parts. `more` holds the headers that a history doesn't have."""

    tree: bytes
    parents: List[bytes]
    author: bytes
    committer: bytes
    more: List[bytes]
    message: bytes


class Tag(NamedTuple):
    """A tag's parts."""

    target: bytes
    kind: bytes
    name: bytes
    tagger: Optional[bytes]
    more: List[bytes]
    message: bytes


def _header_lines(content: bytes) -> Tuple[List[bytes], bytes]:
    """Returns the lines before the empty one, and what follows it. A line that begins with a space goes on with a header that no history has."""
    head, found, message = content.partition(b"\n\n")
    if not found:
        raise ValueError("it has no empty line before a message")
    return head.split(b"\n"), message


def _id_in(line: bytes, word: bytes, hashing: Hashing) -> bytes:
    digits = line[len(word) + 1 :]
    if not line.startswith(word + b" ") or len(digits) != 2 * hashing.width or digits.strip(b"0123456789abcdef"):
        raise ValueError(f"its line '{shown(line[:100])}' is no line '{word.decode()} <id>'")
    return bytes.fromhex(digits.decode())


def _rest(lines: List[bytes], word: bytes) -> bytes:
    if not lines or not lines[0].startswith(word + b" "):
        raise ValueError(f"it has no line '{word.decode()}' at the place of one")
    return lines.pop(0)[len(word) + 1 :]


def read_commit(content: bytes, hashing: Hashing) -> Commit:
    """Reads a commit; a ValueError says why it is none."""
    lines, message = _header_lines(content)
    tree = _id_in(lines.pop(0), b"tree", hashing)
    parents = []
    while lines and lines[0].startswith(b"parent "):
        parents.append(_id_in(lines.pop(0), b"parent", hashing))
    return Commit(tree, parents, _rest(lines, b"author"), _rest(lines, b"committer"), lines, message)


def read_tag(content: bytes, hashing: Hashing) -> Tag:
    """Reads a tag; a ValueError says why it is none."""
    lines, message = _header_lines(content)
    target = _id_in(lines.pop(0), b"object", hashing)
    kind, name = _rest(lines, b"type"), _rest(lines, b"tag")
    tagger = _rest(lines, b"tagger") if lines and lines[0].startswith(b"tagger ") else None
    return Tag(target, kind, name, tagger, lines, message)


_ENTRIES = {width: re.compile(rb"([0-7]+) ([^\0]*)\0([\s\S]{%d})" % width) for width in (20, 32)}


def read_tree(content: bytes, hashing: Hashing) -> List[Tuple[bytes, bytes, bytes]]:
    """Returns mode, name and id of each entry; a ValueError says that it is no tree."""
    entries = _ENTRIES[hashing.width].findall(content)
    if sum(map(len, itertools.chain.from_iterable(entries))) + 2 * len(entries) != len(content):
        raise ValueError("it isn't a tree's text")
    return entries


_HEADERS = {b"gpgsig": "a signature (gpgsig)", b"gpgsig-sha256": "a signature (gpgsig-sha256)", b"mergetag": "a merged tag (mergetag)"}


def _more_problem(lines: List[bytes]) -> str:
    word, _, rest = lines[0].partition(b" ")
    if word == b"encoding":
        return f"it has an encoding ({shown(rest)})"
    return f"it has {_HEADERS.get(word) or 'a further header (' + shown(word) + ')'}"


def _title_problem(message: bytes) -> Optional[str]:
    return f"its title has over {MAX_TITLE} bytes" if len(message.partition(b"\n")[0]) > MAX_TITLE else None


def commit_problem(commit: Commit) -> Optional[str]:
    """Returns why a history can't hold the commit."""
    if commit.more:
        return _more_problem(commit.more)
    for role, who in (("author", commit.author), ("committer", commit.committer)):
        problem = actor_problem(who)
        if problem:
            return f"its {role} '{shown(who[:200])}': {problem}"
    if len(commit.parents) > MAX_PARENTS:
        return f"it has {len(commit.parents)} parents, over {MAX_PARENTS}"
    if len(set(commit.parents)) < len(commit.parents):
        return "it has a parent twice"
    return _title_problem(commit.message)


def tag_problem(tag: Tag) -> Optional[str]:
    """Returns why a history can't hold the tag."""
    if tag.kind != b"commit":
        return f"it is a tag of a {shown(tag.kind)}, and not of a commit"
    if tag.more:
        return _more_problem(tag.more)
    if tag.tagger is None:
        return "it has no tagger"
    problem = actor_problem(tag.tagger)
    if problem:
        return f"its tagger '{shown(tag.tagger[:200])}': {problem}"
    if tag.name == b"@" or tag.name.startswith(b"-") or name_problem(b"refs/tags/" + tag.name):
        return f"its name '{shown(tag.name)}' is none of a tag"
    return _title_problem(tag.message) if tag.message else "its message is empty"


def tree_problem(entries: Sequence[Tuple[bytes, bytes, bytes]], hashing: Hashing) -> Optional[str]:
    """Returns why a history can't hold the tree. A repository may have millions of entries, so all of a tree are tested together."""
    names = [name for _, name, _ in entries]
    order = [name + b"/" if mode == FOLDER else name for mode, name, _ in entries]
    empty = any(id == hashing.empty_tree for mode, _, id in entries if mode == FOLDER)
    if empty or b"" in names or b"/" in b"".join(names) or not {mode for mode, _, _ in entries}.issubset(MODES):
        return next(filter(None, (_entry_problem(*it, hashing) for it in entries)))
    if len(set(names)) < len(names) or order != sorted(order):
        twice = (name for at, name in enumerate(names) if name in names[:at] or order[at] < max(order[:at], default=b""))
        return f"'{shown(next(twice))}' is out of order or there twice"
    return None


def _entry_problem(mode: bytes, name: bytes, id: bytes, hashing: Hashing) -> Optional[str]:
    if mode == COMMIT:
        return f"'{shown(name)}' is a submodule"
    if mode not in MODES:
        return f"'{shown(name)}' has the mode {mode.decode()}, which none has that git writes today"
    if not name or b"/" in name:
        return f"'{shown(name)}' is no name of a file"
    return f"'{shown(name)}' is a folder without files" if mode == FOLDER and id == hashing.empty_tree else None


# What git refuses in a path (git-fsck(1)): `.git` in the forms in which file systems read it.

_NTFS = re.compile(rb"(?i)(?:\A|\\)(?:\.git|git~1)[. ]*(?:\Z|[\\:])")
_HFS_IGNORED = re.compile("[\u200c-\u200f\u202a-\u202e\u206a-\u206f\ufeff]")


def _as_hfs(name: bytes) -> str:
    try:
        return _HFS_IGNORED.sub("", name.decode("utf-8")).lower()
    except UnicodeDecodeError as error:
        return _as_hfs(name[: error.start])


def git_entry_problem(mode: bytes, name: bytes) -> Optional[str]:
    """Returns why git can't hold this entry of a tree."""
    if name in (b".", b".."):
        return f"'{name.decode()}' is no name of a file in git"
    if _NTFS.search(name) or _as_hfs(name) == ".git":
        return f"'{shown(name)}' is .git in a path"
    if mode == LINK and _as_hfs(name) == ".gitmodules":
        return f"'{shown(name)}' is a link"
    return None


# What a name has that isn't one for git. Few names do, so names are first tested together.
_SUSPECT = re.compile(rb"(?i)git|[\xe2\xef]|(?:\A|/)\.\.?(?:/|\Z)")


def git_tree_problem(entries: Sequence[Tuple[bytes, bytes, bytes]]) -> Optional[str]:
    """Returns why git can't hold a tree that a history holds."""
    if not _SUSPECT.search(b"/".join(name for _, name, _ in entries)):
        return None
    return next(filter(None, (git_entry_problem(mode, name) for mode, name, _ in entries)), None)


# Logs.


def log_lines(log: bytes) -> List[bytes]:
    """Returns the whole lines of a log, with their line feeds."""
    return log[: log.rfind(b"\n") + 1].splitlines(True) if b"\r" not in log else re.findall(rb"[^\n]*\n", log)


def _log_line_problem(line: bytes, hashing: Hashing) -> Optional[str]:
    moved, _, message = line[:-1].partition(b"\t")
    width = 2 * hashing.width
    ids = moved[:width] + moved[width + 1 : 2 * width + 1]
    if len(ids) != 2 * width or ids.strip(b"0123456789abcdef") or moved[width : width + 1] != b" " or moved[2 * width + 1 : 2 * width + 2] != b" ":
        return "it doesn't begin with two ids"
    if len(message) > MAX_TITLE:
        return f"its message has over {MAX_TITLE} bytes"
    return actor_problem(moved[2 * width + 2 :])


def log_problems(name: bytes, log: bytes, hashing: Hashing) -> Iterator[Problem]:
    """Names the lines of a log that a history can't hold."""
    if log and not log.endswith(b"\n"):
        yield Problem(f"log of {shown(name)}", "its last line has no line feed")
    for number, line in enumerate(log_lines(log), 1):
        problem = _log_line_problem(line, hashing)
        if problem:
            yield Problem(f"log of {shown(name)}, line {number}", problem)


def git_log_problems(name: bytes, log: bytes, is_there: Callable[[bytes], bool], hashing: Hashing) -> Iterator[Problem]:
    """Names the lines of a history's log that git can't hold."""
    for number, line in enumerate(log_lines(log), 1):
        gone = [id.hex() for id in log_ids(line, hashing) if not is_there(id)]
        why = f"it names {gone[0]}, which isn't there" if gone else git_time_problem(line.partition(b"\t")[0])
        if why:
            yield Problem(f"log of {shown(name)}, line {number}", why)


def with_titles(log: bytes) -> bytes:
    """Returns a log as a history has it: git reads a line without a tab, as it writes for a move without a message, as one with an empty title."""
    return re.sub(rb"(?m)^([^\t\n]*)\n", rb"\1\t\n", log)


def log_ids(log: bytes, hashing: Hashing) -> Iterator[bytes]:
    """Returns the ids that a log's lines name, the null one left out."""
    width = 2 * hashing.width
    for line in log_lines(log):
        for digits in (line[:width], line[width + 1 : 2 * width + 1]):
            try:
                id = bytes.fromhex(digits.decode())
            except ValueError:
                continue
            if len(id) == hashing.width and id != hashing.null:
                yield id
