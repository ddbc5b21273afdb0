"""The pages of a history: commits with their graph, what a commit changed, files, a file's text, its history, who wrote its lines, names, and a search.

They are made of what a `Repo` replies, for `wunthavel web` and `wunthavel html`. They have no script.
"""
import os
from dataclasses import dataclass
from typing import Callable, Dict, List, Optional, Sequence, Union
from urllib.parse import quote

from . import protocol
from .bridge_forms import SHA1, SHA256, read_tag
from .bridge_folder import read_file
from .errors import IsFolder, UnbornHead
from .graph import lay_out
from .markup import Html, element, escaped, joined
from .objects import place_of
from .plans import Change, unified
from .protocol import Actor, Commit, Name
from .repo import Repo
from .texts import Text, raw, text

# So many commits are on a page, so many tips does one log begin at, and so many commits are searched.
PAGE, TIPS, SEARCHED = 50, 80, 5000
# So many bytes of a content are compared or shown, and so many changes of a commit, and bytes of them together.
LONG, SHOWN, TOGETHER, MOST_CHANGES = 200_000, 1_000_000, 1_000_000, 200
# A row of commits is so high, and a column of the graph so wide, of which there are so many.
ROW, COLUMN, COLUMNS = 52, 14, 8
MARKS = {"added": "A", "removed": "D", "changed": "M"}
# Where a page is: its kind, the commit's id, and a path; None if there is none.
Address = Callable[[str, str, str], Optional[str]]


def live(kind: str, id: str = "", path: str = "") -> str:
    """Returns where a server has a page. It stays as long as the history is there."""
    return "/".join(["", kind, *([quote(id, safe="")] if id else []), *([quote(raw(path))] if path else [])])


@dataclass
class Page:
    """A page: its title, and what is in it."""

    title: str
    body: Html


def document(page: Page, history: str, style: str, is_live: bool = True) -> bytes:
    """Returns a whole page; `style` is where its style is. A page of files has no search, and is where its links say."""
    head = joined(
        Html('<meta charset="utf-8"><meta name="viewport" content="width=device-width, initial-scale=1">'),
        Html("") if is_live else Html('<meta http-equiv="Content-Security-Policy" content="default-src \'none\'; style-src \'self\' file:">'),
        element("title", f"{page.title} - {history}"),
        Html(f'<link rel="stylesheet" href="{escaped(style)}">'),
    )
    links = [("Commits", "/"), ("Files", "/files/HEAD"), ("Names", "/names")] if is_live else [("Commits", "../index.html")]
    search = element(
        "form",
        Html('<input type="search" name="q" aria-label="Search" placeholder="Search messages, people, ids, paths">'),
        action="/search",
        role="search",
    )
    header = element("header", element("a", history, href=links[0][1], class_="title"), element("nav", *(element("a", it, href=to) for it, to in links)))
    top = Html(header[: -len("</header>")] + (search if is_live else "") + "</header>")
    skip = Html('<a class="skip" href="#main">Skip to the content</a>')
    body = element("body", skip, top, element("main", page.body, id="main"))
    return ("<!DOCTYPE html>\n" + element("html", element("head", head), body, lang="en")).encode("utf-8", "backslashreplace")


def when(actor: Actor) -> str:
    """Returns when somebody did something, or the bare seconds if that is no date."""
    try:
        return actor.when.strftime("%Y-%m-%d %H:%M")
    except (ValueError, OverflowError):
        return f"{actor.seconds} s"


class Pages:
    """Makes the pages of a repository; `address` says where each of them is."""

    def __init__(self, repo: Repo, folder: str, address: Address = live) -> None:
        self.repo, self._folder, self._address = repo, folder, address

    def _link(self, content: Union[Html, Text], kind: str, id: str, path: str = "", class_: Optional[str] = None) -> Html:
        to = self._address(kind, id, path)
        return element("a", content, href=to, class_=class_) if to is not None else element("span", content, class_=class_)

    # Commits.

    def commits(self, at: str = "", start: int = 0) -> Page:
        """The commits that a name reaches, or all names, newest first."""
        ids = self._ids(at)
        names = self._names_by_commit()
        found = list(self.repo.batch(protocol.show(it) for it in ids[start : start + PAGE]))
        about = element("p", f"{len(ids):,} commits", f" of {at}" if at else "", class_="soft")
        return Page(at or "Commits", joined(about, self._list(found, names), _steps(f"/?at={quote(raw(at))}&from=", start, len(ids))))

    def _ids(self, at: str) -> Sequence[str]:
        tips = [at] if at else list(dict.fromkeys(it.commit for it in self.repo.names()))[:TIPS]
        try:
            return self.repo.log_ids(tips, order="date") if tips else []
        except UnbornHead:
            return []

    def _names_by_commit(self) -> Dict[str, List[Name]]:
        found: Dict[str, List[Name]] = {}
        for it in self.repo.names():
            found.setdefault(it.commit, []).append(it)
        return found

    def _list(self, commits: Sequence[Commit], names: Dict[str, List[Name]]) -> Html:
        """Returns commits as rows beside their graph."""
        columns, edges = lay_out(commits)
        width = COLUMN * (min(max(columns, default=0), COLUMNS) + 2)
        rows = []
        for it in commits:
            labels = [element("span", _short(one.name), class_="label") for one in names.get(it.id, ())]
            about = element("div", element("code", it.id[:10]), " ", it.author.name, " ", when(it.author), class_="soft line")
            rows.append(element("li", element("div", self._link(it.title or "(no title)", "commit", it.id), *labels, class_="line"), about))
        drawn = _drawn(columns, edges, width, len(commits))
        return element("div", drawn, element("ol", *rows), class_="commits")

    def commit(self, word: str) -> Page:
        """A commit, and what it changed as text."""
        it = self.repo.show(word)
        parents = joined(*(joined(self._link(one[:10], "commit", one), " ") for one in it.parents)) if it.parents else Html("none")
        rows = [("Author", f"{it.author} {when(it.author)}"), ("Committer", f"{it.committer} {when(it.committer)}"), ("Parents", parents)]
        rows += [("Id", element("code", it.id)), ("Files", self._link("all files", "files", it.id))]
        facts = element("dl", *(joined(element("dt", name), element("dd", value)) for name, value in rows))
        _, _, rest = it.message.partition("\n")
        message = element("pre", *_lines(rest.strip("\n")), class_="message") if rest.strip() else Html("")
        return Page(it.title, joined(element("h1", it.title), message, facts, self._changes(it)))

    def _changes(self, commit: Commit) -> Html:
        found = self.repo.changed_by(commit.id)
        parent = commit.parents[0] if commit.parents else None
        parts, left = [], TOGETHER
        for it in found[:MOST_CHANGES]:
            part = self._change(it, parent, commit.id) if left > 0 else _told("It isn't shown, since the changes of this commit are long together.")
            left -= len(part)
            at = commit.id if it.new is not None else parent or ""
            title = element("h2", element("span", MARKS[it.kind], class_=f"mark {MARKS[it.kind]}"), " ", self._link(it.path, "file", at, it.path))
            parts.append(element("section", title, part))
        more = [_told(f"{len(found) - MOST_CHANGES:,} more paths are changed.")] if len(found) > MOST_CHANGES else []
        count = f"{len(found):,} path{'s' * (len(found) != 1)} changed"
        return joined(element("p", count, " against the first parent" if len(commit.parents) > 1 else "", class_="soft"), *parts, *more)

    def _change(self, change: Change, parent: Optional[str], id: str) -> Html:
        """Returns how a file was changed."""
        old = self.repo.read(change.path, parent) if change.old is not None and parent is not None else None
        new = self.repo.read(change.path, id) if change.new is not None else None
        kinds = [it.kind for it in (change.old, change.new) if it is not None]
        about = [_told(f"It was {_kind(kinds[0])}, and is {_kind(kinds[1])}.")] if len(set(kinds)) > 1 else []
        if old == new:
            return joined(*about)
        sides = [it for it in (old, new) if it is not None]
        sizes = " and ".join(f"{len(it):,}" for it in sides)
        if any(_is_binary(it) for it in sides):
            return joined(*about, _told(f"It isn't text ({sizes} bytes)."))
        if any(len(it) > LONG for it in sides):
            return joined(*about, _told(f"It is too long to be compared here ({sizes} bytes)."))
        return joined(*about, _diff(unified(old, new, change.path)))

    # Files.

    def files(self, word: str, path: str) -> Page:
        """What a folder of a commit has."""
        id = self.repo.resolve(word)
        if id is None:
            return Page("Files", _told("There is no commit yet."))
        rows = []
        for it in self.repo.list(path, id):
            name = self._link(it.name + "/", "files", id, it.path) if it.kind == "folder" else self._link(it.name, "file", id, it.path)
            rows.append(element("li", name, element("span", "" if it.kind in ("file", "folder") else f" {it.kind}", class_="soft")))
        return Page(path or "Files", joined(self._where(id, path), element("ul", *rows, class_="files")))

    def _where(self, id: str, path: str) -> Html:
        """Returns the folders that a path lies in, as links, below the commit."""
        parts = path.split("/") if path else []
        folders = [joined(self._link(it, "files", id, "/".join(parts[: at + 1])), " / ") for at, it in enumerate(parts[:-1])]
        last = [element("strong", parts[-1])] if parts else []
        return element("p", self._link(id[:10], "commit", id), " : ", self._link("files", "files", id), " / ", *folders, *last, class_="where")

    def _about(self, id: str, path: str, here: str) -> Html:
        kinds = (("file", "Text"), ("history", "History"), ("blame", "Blame"), ("raw", "Bytes"))
        return joined(
            self._where(id, path),
            element("p", *(joined(element("strong", name) if kind == here else self._link(name, kind, id, path), " ") for kind, name in kinds)),
        )

    def file(self, word: str, path: str) -> Page:
        """A file's text."""
        id = self.repo.show(word).id
        try:
            found = self.repo.content(path, id)
        except IsFolder:
            return self.files(id, path)
        about = element("p", f"{_kind(found.kind)}, {len(found.data):,} bytes, ", element("code", found.id), class_="soft")
        if _is_binary(found.data):
            body = _told("It isn't text.")
        elif len(found.data) > SHOWN:
            body = _told("It is too long to be shown here.")
        else:
            body = element("ol", *(element("li", it or Html("&#8203;")) for it in _rows(found.data)), class_="text")
        return Page(path, joined(self._about(id, path, "file"), about, body))

    def history(self, word: str, path: str) -> Page:
        """The commits that changed a file or what is in a folder."""
        id = self.repo.show(word).id
        found = list(self.repo.log(path, SEARCHED, at=id))
        rows = [element("li", self._link(it.title or "(no title)", "commit", it.id), element("div", it.author.name, " ", when(it.author), " ", self._link("text then", "file", it.id, path), class_="soft")) for it in found]
        return Page(f"History of {path}", joined(self._about(id, path, "history"), element("ol", *rows, class_="plain")))

    def blame(self, word: str, path: str) -> Page:
        """Of each line of a file the commit that it is from."""
        id = self.repo.show(word).id
        data = self.repo.read(path, id)
        if _is_binary(data) or len(data) > LONG:
            return Page(path, joined(self._about(id, path, "blame"), _told("It isn't text, or is too long for this.")))
        rows, last = [], ""
        for it in self.repo.blame(path, id):
            who = joined(self._link(it.commit.id[:8], "commit", it.commit.id), " ", it.commit.author.name) if it.commit.id != last else Html("")
            last = it.commit.id
            rows.append(element("tr", element("td", who, class_="who"), element("td", str(it.number), class_="number"), element("td", it.data.rstrip(b"\n"), class_="code")))
        return Page(f"Blame of {path}", joined(self._about(id, path, "blame"), element("table", element("tbody", *rows), class_="blame")))

    # Names and the search.

    def names(self) -> Page:
        """Branches and tags, these with their messages."""
        found = self.repo.names()
        rows = []
        for it in found:
            head = element("span", "HEAD", class_="label") if it.name == found.head else Html("")
            log = element("a", "its commits", href=f"/?at={quote(raw(it.name))}")
            message = element("pre", *_lines(self._message(it)), class_="message") if it.is_tag else Html("")
            rows.append(element("li", self._link(_short(it.name), "commit", it.commit), " ", head, element("div", element("code", it.commit[:10]), " ", log, class_="soft"), message))
        return Page("Names", element("ul", *rows, class_="plain") if rows else _told("There are none yet."))

    def _message(self, name: Name) -> str:
        """Returns a tag's message, which the engine doesn't show, from its object's file."""
        data = read_file(place_of(os.fsencode(self._folder), bytes.fromhex(name.id)))
        if data is None:
            return ""
        return text(read_tag(data.partition(b"\0")[2], SHA256 if len(name.id) == 64 else SHA1).message)

    def search(self, words: str) -> Page:
        """The commits whose messages, people or ids have these words, and the paths of HEAD."""
        wanted = words.lower()
        ids = self._ids("")[:SEARCHED] if wanted else []
        found = [it for it in self.repo.batch(map(protocol.show, ids)) if wanted in f"{it.message}\n{it.author}\n{it.id}".lower()]
        head = self.repo.resolve() if wanted else None
        paths = [it.path for it in self.repo.files(head) if wanted in it.path.lower()][:PAGE] if head else []
        rows = [element("li", self._link(it, "file", head or "", it)) for it in paths]
        told = f"{len(found):,} of the newest {len(ids):,} commits, and {len(paths):,} paths, have '{words}'."
        return Page(f"Search: {words}", joined(_told(told), element("ul", *rows, class_="files"), self._list(found[: 2 * PAGE], self._names_by_commit())))


# Parts of pages.


def _short(name: str) -> str:
    for it in ("refs/heads/", "refs/tags/"):
        if name.startswith(it):
            return name[len(it) :]
    return name


def _kind(kind: str) -> str:
    return {"file": "a file", "exec": "a program", "link": "a link"}[kind]


def _told(what: str) -> Html:
    return element("p", what, class_="soft")


def _is_binary(data: bytes) -> bool:
    return b"\0" in data


def _rows(data: bytes) -> List[bytes]:
    return (data[:-1] if data.endswith(b"\n") else data).split(b"\n") if data else []


def _lines(what: Text) -> List[Html]:
    """Returns the lines of a text, each escaped, which line feeds separate."""
    return [joined(it, Html("\n")) for it in (what.split("\n") if isinstance(what, str) else what.split(b"\n"))]


def _diff(found: bytes) -> Html:
    """Returns a unified difference, each line with its colour."""
    kinds = {b"+": "added", b"-": "removed", b"@": "place"}
    rows = [element("span", it or Html(" "), class_=kinds.get(it[:1])) for it in _rows(found)[2:]]
    return element("pre", *rows, class_="diff", tabindex="0")


def _steps(before: str, start: int, count: int) -> Html:
    newer = element("a", "Newer", href=f"{before}{max(0, start - PAGE)}", rel="prev") if start else Html("")
    older = element("a", "Older", href=f"{before}{start + PAGE}", rel="next") if start + PAGE < count else Html("")
    return element("p", newer, " ", older)


def _drawn(columns: Sequence[int], edges: Sequence[Sequence[int]], width: int, count: int) -> Html:
    """Returns the graph of rows of commits."""

    def x(column: int) -> int:
        return COLUMN * (min(column, COLUMNS) + 1)

    def y(row: int) -> int:
        return ROW * row + ROW // 2

    parts = []
    for row, column, to, into in edges:
        way = f"M{x(column)} {y(row)} L{x(into)} {y(row + 1)} V{y(to) if to < count else ROW * count}"
        parts.append(element("path", d=way, class_=f"c{into % 6}"))
    parts += [element("circle", cx=x(it), cy=y(row), r=4, class_=f"c{it % 6}") for row, it in enumerate(columns)]
    return element("svg", *parts, width=width, height=ROW * count, aria_hidden="true")
