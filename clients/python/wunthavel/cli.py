"""`wunthavel`: the history of a folder at a terminal."""
import argparse
import base64
import contextlib
import getpass
import importlib
import json
import os
import re
import signal
import socket
import subprocess
import sys
from typing import Any, Callable, Container, Dict, Iterable, List, Optional, Sequence, Set, Tuple, Union

from . import protocol
from .engine import act, engine_version, is_sha256
from .errors import EngineError, HistoryError, NothingMoves, ProtocolError, Refused, Syntax, Unfinished
from .plans import Change, changes, checked, unified
from .progress import Progress
from .protocol import NEW, Commit, File, Names, raw, text
from .repo import Repo
from .texts import shown
from .verify import verify as digest
from .wire import LARGEST
from .worktree import IGNORED, Here, WorkError, WorkTree, refuse_path, store_of

# Commands with words of their own, each in its module.
APART = {"serve": "serve", "git-export": "git_export", "git-import": "git_import", "fast-import": "fast_import", "mirror": "git_mirror", "html": "html", "backup": "backup", "doctor": "doctor", "web": "web"}
COLOURS = {"yellow": "33", "green": "32", "red": "31", "blue": "34", "bold": "1", "dim": "2"}
MARKS = {"added": ("A", "green"), "removed": ("D", "red"), "changed": ("M", "yellow")}
ABOUT = """\
wunthavel keeps the history of a folder.

  wunthavel init                      begins a history here
  wunthavel save 'First pages'        saves what changed
  wunthavel diff-names                lists what changed since
  wunthavel log -n 5 notes            lists who changed something in notes
  wunthavel restore HEAD notes/page   brings back a file as it was saved
"""


class Output:
    """What a command says: as text for a person, or as JSON, a value a line."""

    def __init__(self, as_json: bool, colour: str) -> None:
        self.as_json = as_json
        terminal = sys.stdout.isatty() and not os.environ.get("NO_COLOR") and os.environ.get("TERM") != "dumb"
        self._colours = not as_json and (colour == "always" or colour == "auto" and terminal)
        reconfigure = getattr(sys.stdout, "reconfigure", None)
        if reconfigure:
            reconfigure(errors="surrogateescape")

    def paint(self, colour: str, what: str) -> str:
        """Returns the text in a colour, if colours are shown."""
        return f"\x1b[{COLOURS[colour]}m{what}\x1b[0m" if self._colours and what else what

    def say(self, what: str) -> None:
        """Writes a line for a person."""
        if not self.as_json:
            print(what)

    def tell(self, value: Any) -> None:
        """Writes a value as a line of JSON, if that is wanted."""
        if self.as_json:
            print(json.dumps(value))


def plain(value: Union[Commit, File, None]) -> Any:
    """Returns a commit or file as a value of JSON."""
    if value is None:
        return None
    if isinstance(value, File):
        return {"kind": value.kind, "id": value.id, "path": value.path}
    actors = {role: vars(actor) for role, actor in (("author", value.author), ("committer", value.committer))}
    return {"id": value.id, "tree": value.tree, "parents": list(value.parents), **actors, "message": value.message}


def plain_change(change: Change) -> Dict[str, Any]:
    """Returns a change as a value of JSON."""
    return {"path": change.path, "change": change.kind, "old": plain(change.old), "new": plain(change.new)}


def when(commit: Commit, form: str = "%Y-%m-%d %H:%M") -> str:
    """Returns when a commit was made, or the bare seconds if that is no date."""
    try:
        return commit.author.when.strftime(form)
    except (ValueError, OverflowError):
        return f"{commit.author.seconds} s"


def author(given: Optional[str]) -> protocol.Actor:
    """Returns who saves: as given, as WUNTHAVEL_AUTHOR says, as git's environment or settings say, or the user of this machine."""
    said = given or os.environ.get("WUNTHAVEL_AUTHOR")
    if said:
        return protocol.Actor.parse(said)
    name, email = os.environ.get("GIT_AUTHOR_NAME"), os.environ.get("GIT_AUTHOR_EMAIL")
    if not (name and email):
        name, email = name or _of_git("user.name"), email or _of_git("user.email")
    user = getpass.getuser()
    return protocol.Actor.now(name or user, email or f"{user}@{socket.gethostname()}")


def _of_git(key: str) -> str:
    try:
        done = subprocess.run(["git", "config", "--get", key], stdin=subprocess.DEVNULL, stdout=subprocess.PIPE, stderr=subprocess.DEVNULL, cwd="/")
    except OSError:
        return ""
    return text(done.stdout).strip()


class Session:
    """A command's folder, its history, and where it writes."""

    def __init__(self, asked: argparse.Namespace, out: Output) -> None:
        self.asked, self.out = asked, out
        self.tree = WorkTree.find()
        self._tell_of_stop()
        self.repo = Repo(self.tree.store, sha256=self.tree.sha256)

    def _tell_of_stop(self) -> None:
        """Says that the files here are those of two branches, and saves them in none."""
        branch = self.tree.stopped_switch
        if branch is not None and self.asked.command != "switch":
            name = shown(branch[len("refs/heads/") :])
            told = f"a switch to {name} was stopped, and some files are its already: wunthavel switch {name} goes on, and a switch to another branch goes there"
            if self.asked.command == "save":
                raise WorkError(told)
            print(f"wunthavel: {told}", file=sys.stderr)

    def tip(self) -> Optional[str]:
        """The commit that HEAD's branch is at, or `None` if it has none yet."""
        return self.repo.resolve("HEAD")

    def saved(self, word: Optional[str]) -> List[File]:
        """The files of a commit, or none without a word."""
        return self.repo.files(word) if word is not None else []

    def present(self, without: Container[str] = ()) -> Tuple[List[File], Dict[str, Here]]:
        """The files on disk but those at these paths, ascending, with the ids that their contents have."""
        here = {it.path: it for it in self.tree.files() if it.path not in without}
        with Progress("reading files", len(here)) as bar:
            files = [File(it.kind, self.tree.id_of(it, self.repo.sha256), it.path) for it in bar.each(here[one] for one in sorted(here, key=raw))]
        self.tree.remember()
        return files, here


def init(asked: argparse.Namespace, out: Output) -> int:
    """Begins a history of a folder."""
    folder = os.path.abspath(asked.folder)
    tree = WorkTree(folder)
    if os.path.exists(os.path.join(tree.store, "HEAD")):
        raise WorkError(f"{folder} has a history already")
    Repo.create(tree.store, sha256=asked.sha256).close()
    if asked.sha256:
        tree.mark_sha256()
    out.say(f"{folder} has a history now, in {os.path.relpath(tree.store, folder)}")
    out.tell({"folder": folder, "store": tree.store})
    return 0


def save(at: Session) -> int:
    """Saves what changed."""
    tip = at.tip()
    large = _large(at)
    present, here = at.present(large)
    found = [it for it in changes(at.saved(tip), present) if it.path not in large]
    if not found:
        at.out.say("nothing has changed")
        at.out.tell({"commit": None, "changes": []})
        return 0
    # What goes goes first, so that a folder can come to where a file was.
    edits = [protocol.remove(it.path) for it in found if it.new is None]
    with Progress("saving", len(found)) as bar:
        edits += [_put(at, here[it.path], it.new) for it in bar.each(found) if it.new is not None]
        who = author(at.asked.author)
        id = at.repo.run(protocol.commit("HEAD", at.asked.message, who, edits=edits, expect=NEW if tip is None else tip))
    at.out.say(f"{at.out.paint('yellow', id[:10])} {shown(at.asked.message.splitlines()[0])}")
    _say_changes(at.out, found)
    at.out.tell({"commit": id, "changes": [plain_change(it) for it in found]})
    return 0


def _large(at: Session) -> Set[str]:
    """Returns the files that are too large to be saved, which are left out, and named, if that is wanted. Nothing is read before."""
    large = sorted((it.path for it in at.tree.files() if it.size > LARGEST), key=raw)
    if large and not at.asked.skip_large:
        raise WorkError(f"{_few(large)} can't be saved: a file has {LARGEST:,} bytes at most (--skip-large leaves it out, and {IGNORED} can name it)")
    for it in large:
        print(f"wunthavel: {shown(it)} is too large, and left out", file=sys.stderr)
    return set(large)


def _few(paths: Sequence[str]) -> str:
    return ", ".join(map(shown, paths[:5])) + (", .." if len(paths) > 5 else "")


def _put(at: Session, here: Here, file: File) -> bytes:
    """Returns the edit that saves a file."""
    refuse_path(here.path, "saved")
    return protocol.put(here.path, at.tree.read(here), file.kind)


def _say_changes(out: Output, found: Iterable[Change]) -> None:
    for it in found:
        mark, colour = MARKS[it.kind]
        out.say(f"{out.paint(colour, mark)} {shown(it.path)}")


def _labels(names: Names) -> Dict[str, List[str]]:
    """The names at each commit, in short."""
    found: Dict[str, List[str]] = {}
    for it in names:
        short = re.sub("^refs/(heads|tags)/", "", it.name)
        found.setdefault(it.commit, []).append(f"HEAD -> {short}" if it.name == names.head else short)
    return found


def log(at: Session) -> int:
    """Lists the commits, newest first."""
    labels = _labels(at.repo.names()) if not at.out.as_json else {}
    paths = [at.tree.path_of(it) for it in at.asked.paths]
    for it in at.repo.log([one for one in paths if one], at.asked.number, at=at.asked.word):
        at.out.tell(plain(it))
        told = "".join(f" ({', '.join(map(shown, labels[it.id]))})" for _ in [0] if it.id in labels)
        line = f"{at.out.paint('yellow', it.id[:10])} {at.out.paint('dim', when(it))} {shown(it.author.name)}{at.out.paint('green', told)}"
        at.out.say(f"{line}  {shown(it.title)}")
    return 0


def show(at: Session) -> int:
    """Shows a commit, and what it changed."""
    commit = at.repo.show(at.asked.word)
    found = at.repo.changed_by(commit.id)
    at.out.tell({**plain(commit), "changes": [plain_change(it) for it in found]})
    at.out.say(at.out.paint("yellow", f"commit {commit.id}"))
    if len(commit.parents) > 1:
        at.out.say(f"Merge:  {' '.join(it[:10] for it in commit.parents)}")
    at.out.say(f"Author: {shown(str(commit.author))}\nDate:   {when(commit, '%a %b %d %H:%M:%S %Y %z')}\n")
    for line in commit.message.rstrip("\n").split("\n"):
        at.out.say(f"    {shown(line)}".rstrip())
    at.out.say("")
    _say_changes(at.out, found)
    return 0


def diff_names(at: Session) -> int:
    """Lists the paths at which a commit differs from the files here, or two commits do."""
    return _list_changes(at, at.asked.old, at.asked.new)


def status(at: Session) -> int:
    """Lists what differs here from what was saved last."""
    return _list_changes(at, None, None)


def _list_changes(at: Session, old: Optional[str], new: Optional[str]) -> int:
    for it in changes(at.saved(old or at.tip()), at.present()[0] if new is None else at.saved(new)):
        at.out.tell(plain_change(it))
        _say_changes(at.out, [it])
    return 0


def diff(at: Session) -> int:
    """Shows how a commit differs from the files here, or two commits do."""
    asked = at.asked
    old = asked.old or at.tip()
    new, here = at.present() if asked.new is None else (at.saved(asked.new), {})
    paths = [at.tree.path_of(it) for it in asked.paths] or [""]
    for it in changes(at.saved(old), new):
        if any(_is_below(it.path, path) for path in paths):
            before = at.repo.read(it.path, old) if it.old is not None and old is not None else None
            after = None if it.new is None else at.tree.read(here[it.path]) if asked.new is None else at.repo.read(it.path, asked.new)
            _show_diff(at.out, it, unified(before, after, it.path))
    return 0


def _show_diff(out: Output, change: Change, found: bytes) -> None:
    out.tell({**plain_change(change), "diff": _kept(found)})
    for line in text(found).splitlines():
        colour = "bold" if line.startswith(("---", "+++")) else {"-": "red", "+": "green", "@": "blue"}.get(line[:1])
        out.say(out.paint(colour, shown(line)) if colour else shown(line))


def cat(at: Session) -> int:
    """Writes a file's content as it was saved."""
    word, colon, path = at.asked.path.partition(":")
    if not colon:
        word, path = "", at.tree.path_of(at.asked.path)
    found = at.repo.content(path, word or "HEAD")
    if at.out.as_json:
        at.out.tell({"kind": found.kind, "id": found.id, **_kept(found.data)})
    else:
        sys.stdout.flush()
        sys.stdout.buffer.write(found.data)
    return 0


def _kept(data: bytes) -> Dict[str, str]:
    """Returns a content as JSON can hold it."""
    try:
        return {"text": data.decode()}
    except UnicodeDecodeError:
        return {"base64": base64.b64encode(data).decode()}


def restore(at: Session) -> int:
    """Makes the files here, or those at a path, as they are in a commit."""
    path = at.tree.path_of(at.asked.path) if at.asked.path else ""
    saved = {it.path: it for it in at.saved(at.tip()) if _is_below(it.path, path)}
    wanted = {it.path: it for it in at.repo.files(at.asked.word) if _is_below(it.path, path)}
    if path and not wanted and not saved:
        raise Refused("NoSuchPath", values=[path])
    written, removed = _restore(at, saved, wanted, at.asked.force)
    for mark, colour, paths in (("D", "red", removed), ("M", "yellow", written)):
        for it in paths:
            at.out.say(f"{at.out.paint(colour, mark)} {shown(it)}")
    at.out.tell({"written": written, "removed": removed})
    return 0


def _is_below(path: str, folder: str) -> bool:
    return not folder or path == folder or path.startswith(folder + "/")


def _restore(at: Session, saved: Dict[str, File], wanted: Dict[str, File], force: bool) -> Tuple[List[str], List[str]]:
    """Writes the wanted files, and removes the saved ones that aren't wanted and what is in the way; refuses to lose what was never saved."""
    written, removed = _needed(at, saved, wanted, force)
    _write(at, wanted, written, removed)
    return written, removed


def _needed(at: Session, saved: Dict[str, File], wanted: Dict[str, File], force: bool) -> Tuple[List[str], List[str]]:
    """Returns which files are to be written, and which removed; refuses to lose what was never saved."""
    for it in wanted:
        refuse_path(it)
    here = {it.path: it for it in at.tree.at(saved.keys() | wanted.keys())}
    present = {path: File(it.kind, at.tree.id_of(it, at.repo.sha256), path) for path, it in here.items()}
    written = [it for it in wanted if present.get(it) != wanted[it]]
    removed = sorted((it for it in present if it not in wanted), key=raw)
    _refuse_loss(at, [present[it] for it in (*written, *removed) if it in present], saved, force)
    return written, removed


def _write(at: Session, wanted: Dict[str, File], written: List[str], removed: List[str]) -> None:
    """Writes and removes files."""
    for it in removed:
        at.tree.remove(it)
    word = at.repo.resolve(at.asked.word)
    assert word is not None
    with Progress("restoring", len(written)) as bar:
        contents = at.repo.batch(protocol.content(word, it) for it in written)
        for path, content in zip(written, bar.each(contents)):
            at.tree.write(wanted[path], checked(content, path).data)
    at.tree.remember()


def _refuse_loss(at: Session, files: List[File], saved: Dict[str, File], force: bool) -> None:
    """Refuses if a content is in no commit: an id that means no stored object is an unknown word."""
    if not force:
        asked = [it for it in files if it != saved.get(it.path)]
        replies = at.repo.results(protocol.show(it.id) for it in asked)
        lost = [it.path for it, reply in zip(asked, replies) if isinstance(reply, Refused) and reply.cause == "UnknownWord"]
        if lost:
            raise WorkError(f"these have changes that aren't saved: {_few(lost)} (save them, or add --force)")


def branch(at: Session) -> int:
    """Lists branches, or makes or deletes one."""
    asked = at.asked
    if asked.delete:
        at.repo.delete("refs/heads/" + asked.delete)
        at.out.say(f"{shown(asked.delete)} is deleted")
        at.out.tell({"deleted": asked.delete})
    elif asked.name:
        at.repo.move([("refs/heads/" + asked.name, NEW, asked.word)], "branch", actor=author(None))
        at.out.say(f"{shown(asked.name)} is made at {at.out.paint('yellow', (at.repo.resolve(asked.word) or '')[:10])}")
        at.out.tell({"branch": asked.name, "commit": at.repo.resolve(asked.word)})
    else:
        names = at.repo.names("refs/heads")
        for it in names:
            here = it.name == names.head
            at.out.tell({"branch": it.name[11:], "commit": it.commit, "head": here})
            mark = at.out.paint("green", "* " + shown(it.name[11:])) if here else "  " + shown(it.name[11:])
            at.out.say(f"{mark} {at.out.paint('yellow', it.commit[:10])}")
    return 0


def switch(at: Session) -> int:
    """Goes over to another branch: the files here become those that it has."""
    full = "refs/heads/" + at.asked.name
    tip = at.tip()
    if at.asked.create:
        if tip is not None:
            at.repo.move([(full, NEW, "HEAD")], "branch", actor=author(None))
        at.repo.switch(full)
    else:
        _go_over(at, full, tip)
    at.out.say(f"this is {shown(at.asked.name)} now")
    at.out.tell({"branch": at.asked.name})
    return 0


def _go_over(at: Session, full: str, tip: Optional[str]) -> None:
    """Makes the files here those of a branch, and then HEAD name it. Until then a file says so, since a stop leaves files of both branches."""
    at.asked.word = full
    # What a switch that was stopped wrote is saved in its branch, so it can go.
    stopped, is_there = at.tree.stopped_switch, at.repo.head == full
    if is_there and stopped is None:
        raise NothingMoves("NothingMoves", values=[full])
    before = at.repo.resolve(stopped) if stopped else None
    saved = {it.path: it for word in (before, tip) for it in at.saved(word)}
    wanted = {it.path: it for it in at.repo.files(full)}
    written, removed = _needed(at, saved, wanted, at.asked.force)
    with at.tree.switching(full):
        _write(at, wanted, written, removed)
        if not is_there:
            at.repo.switch(full)


def tag(at: Session) -> int:
    """Lists tags, or makes or deletes one."""
    asked = at.asked
    if asked.delete:
        at.repo.delete("refs/tags/" + asked.delete)
        at.out.say(f"{shown(asked.delete)} is deleted")
        at.out.tell({"deleted": asked.delete})
    elif asked.name:
        full = "refs/tags/" + asked.name
        if asked.message:
            at.repo.tag(full, asked.word, asked.message, tagger=author(asked.author))
        else:
            at.repo.move([(full, NEW, asked.word)], "tag", actor=author(asked.author))
        at.out.say(f"{shown(asked.name)} is made at {at.out.paint('yellow', (at.repo.resolve(full) or '')[:10])}")
        at.out.tell({"tag": asked.name, "commit": at.repo.resolve(full)})
    else:
        for it in at.repo.names("refs/tags"):
            at.out.tell({"tag": it.name[10:], "commit": it.commit, "annotated": it.is_tag})
            at.out.say(f"{shown(it.name[10:])} {at.out.paint('yellow', it.commit[:10])}")
    return 0


def blame(at: Session) -> int:
    """Shows for each line of a file which commit it is from."""
    for it in at.repo.blame(at.tree.path_of(at.asked.path), at.asked.word):
        line = text(it.data.rstrip(b"\n"))
        at.out.tell({"number": it.number, "commit": it.commit.id, "author": vars(it.commit.author), "line": line})
        about = f"{shown(it.commit.author.name)[:16]:16} {when(it.commit)}"
        at.out.say(f"{at.out.paint('yellow', it.commit.id[:10])} {at.out.paint('dim', about)} {it.number:5} {shown(line)}")
    return 0


def verify(asked: argparse.Namespace, out: Output) -> int:
    """Reads all of the history, and reports whether it is whole; with --for digests objects for so long, from where it stopped the last time."""
    if asked.seconds is None:
        return _act("check", "whole", asked, out)
    tree = None if asked.folder else WorkTree.find()
    beside = asked.socket or (tree.store if tree else store_of(asked.folder).rstrip("/"))
    found = digest(tree.store if tree else store_of(asked.folder), asked.seconds, beside + ".verified")
    for it in found.damaged:
        out.say(out.paint("red", str(it)))
    out.say(f"{found.objects:,} objects are digested" + (", and that is all" if found.is_whole else ""))
    out.tell({"objects": found.objects, "damaged": [{"path": it.path, "id": it.id} for it in found.damaged], "whole": found.is_whole})
    return 1 if found.damaged else 0


def recover(asked: argparse.Namespace, out: Output) -> int:
    """Removes what a stopped run left. Nothing that was saved goes."""
    return _act("recover", "recovered", asked, out)


def _act(action: str, done: str, asked: argparse.Namespace, out: Output) -> int:
    folder = getattr(asked, "folder", None)
    tree = None if folder else WorkTree.find()
    with Progress(action) as bar:
        act(action, tree.store if tree else store_of(folder), tree.sha256 if tree else is_sha256(store_of(folder)), waiting=lambda: bar.step(0))
    out.say(done)
    out.tell({done: True})
    return 0


def _colour() -> argparse.ArgumentParser:
    colour = argparse.ArgumentParser(add_help=False, allow_abbrev=False)
    colour.add_argument("--colour", "--color", choices=["auto", "always", "never"], default=argparse.SUPPRESS, help="when to use colours")
    return colour


def _common() -> argparse.ArgumentParser:
    common = argparse.ArgumentParser(add_help=False, allow_abbrev=False, parents=[_colour()])
    common.add_argument("--json", action="store_true", default=argparse.SUPPRESS, help="write JSON, a value a line")
    return common


def _parser() -> argparse.ArgumentParser:
    common = _common()
    parser = argparse.ArgumentParser("wunthavel", description=ABOUT, parents=[common], formatter_class=argparse.RawDescriptionHelpFormatter)
    parser.add_argument("--version", action="version", version=f"wunthavel {_version()}")
    parser.add_argument("-C", dest="directory", metavar="DIR", help="work as if started in this directory")
    _add_commands(parser.add_subparsers(dest="command", metavar="COMMAND"), common)
    return parser


Adder = Callable[..., None]
WORD = (["word"], {"nargs": "?", "default": "HEAD", "metavar": "WORD", "help": "a name or an id (HEAD by default)"})
AUTHOR = (["--author"], {"metavar": "'NAME <EMAIL>'", "help": "who saves this"})
LARGE = (["--skip-large"], {"action": "store_true", "help": f"leave out files of over {LARGEST:,} bytes, which are named"})
FORCE = (["--force"], {"action": "store_true", "help": "lose changes that aren't saved"})
DELETE = (["-d", "--delete"], {"metavar": "NAME", "help": "delete this one"})
NAME = (["name"], {"nargs": "?", "metavar": "NAME", "help": "make this one"})


def _add_commands(commands: Any, common: argparse.ArgumentParser) -> None:
    def add(name: str, does: Callable[..., int], example: str, *arguments: Tuple[Sequence[str], Dict[str, Any]]) -> None:
        about = (does.__doc__ or "").strip()
        it = commands.add_parser(name, help=about, description=about, epilog=f"example: {example}", parents=[common])
        it.set_defaults(does=does)
        for words, options in arguments:
            it.add_argument(*words, **options)

    _add_saving(add)
    _add_asking(add)
    _add_naming(add)
    _add_keeping(add)
    for name_apart, module in APART.items():
        commands.add_parser(name_apart, help=f"see wunthavel {name_apart} --help", add_help=False)


def _add_saving(add: Adder) -> None:
    folder = (["folder"], {"nargs": "?", "default": ".", "metavar": "FOLDER"})
    add("init", init, "wunthavel init notes", folder, (["--sha256"], {"action": "store_true", "help": "ids of SHA-256"}))
    add("save", save, "wunthavel save 'First pages'", (["message"], {"metavar": "MESSAGE", "help": "what was done"}), AUTHOR, LARGE)
    restored = (["path"], {"nargs": "?", "metavar": "PATH", "help": "this file, or what is in this folder"})
    add("restore", restore, "wunthavel restore HEAD notes", (["word"], {"metavar": "WORD"}), restored, FORCE)


def _add_asking(add: Adder) -> None:
    add(
        "log",
        log,
        "wunthavel log -n 5 notes",
        (["paths"], {"nargs": "*", "metavar": "PATH", "help": "commits that changed something there"}),
        (["-n", "--number"], {"type": _count, "metavar": "N", "help": "so many at most"}),
        (["--word"], {"default": "HEAD", "metavar": "WORD", "help": "begin at this commit"}),
    )
    add("show", show, "wunthavel show v1", WORD)
    add("diff-names", diff_names, "wunthavel diff-names v1 main", (["old"], {"nargs": "?", "metavar": "OLD"}), (["new"], {"nargs": "?", "metavar": "NEW"}))
    add("status", status, "wunthavel status")
    add(
        "diff",
        diff,
        "wunthavel diff notes",
        (["paths"], {"nargs": "*", "metavar": "PATH", "help": "this file, or what is in this folder"}),
        (["--old"], {"metavar": "WORD", "help": "the commit before (HEAD)"}),
        (["--new"], {"metavar": "WORD", "help": "the commit after (the files here)"}),
    )
    add("cat", cat, "wunthavel cat v1:notes/page", (["path"], {"metavar": "[WORD:]PATH"}))
    add("blame", blame, "wunthavel blame notes/page", (["path"], {"metavar": "PATH"}), WORD)


def _add_naming(add: Adder) -> None:
    add("branch", branch, "wunthavel branch idea v1", NAME, WORD, DELETE)
    create = (["-c", "--create"], {"action": "store_true", "help": "make the branch here"})
    add("switch", switch, "wunthavel switch idea", (["name"], {"metavar": "NAME"}), create, FORCE)
    message = (["-m", "--message"], {"metavar": "MESSAGE", "help": "make an annotated tag"})
    add("tag", tag, "wunthavel tag v1 -m 'First release'", NAME, WORD, DELETE, message, AUTHOR)


def _add_keeping(add: Adder) -> None:
    add(
        "verify",
        verify,
        "wunthavel verify --for 60",
        (["folder"], {"nargs": "?", "metavar": "FOLDER", "help": "a history's own folder, as a server has it (that of the folder here)"}),
        (["--for"], {"dest": "seconds", "type": float, "metavar": "SECONDS", "help": "digest objects for so long, from where this stopped the last time"}),
        (["--socket"], {"metavar": "SOCKET", "help": "keep the place where it stops in SOCKET.verified (beside the folder)"}),
    )
    add("recover", recover, "wunthavel recover")


def _count(word: str) -> int:
    count = int(word)
    if count < 0:
        raise ValueError
    return count


def main(argv: Optional[Sequence[str]] = None) -> int:
    """Does what the words say, and returns the exit status: 0, 1 if it can't be done, 2 if the words are none."""
    words = list(sys.argv[1:] if argv is None else argv)
    common, _ = _common().parse_known_args(words)
    at = 0
    while at < len(words) and words[at].startswith("-"):
        at += 2 if words[at] in ("-C", "--colour", "--color") else 1
    if at < len(words) and words[at] in APART:
        _, rest = _colour().parse_known_args(words[at + 1 :])
        return _guarded(lambda: _run_apart(words[:at], words[at], rest), hasattr(common, "json"))
    parser = _parser()
    asked = parser.parse_args(words)
    if asked.command is None:
        parser.print_help()
        return 0
    as_json = getattr(asked, "json", False)
    return _guarded(lambda: _run(asked, Output(as_json, getattr(asked, "colour", "auto"))), as_json)


def _run_apart(before: List[str], name: str, rest: List[str]) -> int:
    """Runs a command that reads its words itself, after the common ones."""
    module = importlib.import_module(f"wunthavel.{APART[name]}")
    if "-C" in before:
        os.chdir(before[before.index("-C") + 1])
    return int(module.main([*(["--json"] if "--json" in before else []), *rest]) or 0)


def _run(asked: argparse.Namespace, out: Output) -> int:
    does = asked.does
    if asked.directory:
        os.chdir(asked.directory)
    if does in (init, verify, recover):
        return int(does(asked, out))
    at = Session(asked, out)
    with at.repo:
        return int(does(at))


def _guarded(does: Callable[[], int], as_json: bool) -> int:
    try:
        status = does()
        sys.stdout.flush()
        return status
    except BrokenPipeError:
        # Who reads has seen enough.
        os.dup2(os.open(os.devnull, os.O_WRONLY), 1)
        return 1
    except KeyboardInterrupt:
        return 128 + signal.SIGINT
    except (HistoryError, OSError, ValueError) as error:
        return _complain(error, as_json)


def _version() -> str:
    return str(importlib.import_module("wunthavel").__version__)


def _other_version() -> str:
    """Returns a line about an engine of another version, which may not know what it is asked, or reply otherwise."""
    with contextlib.suppress(EngineError):
        found = engine_version()
        if found != _version():
            return f"\nthe engine is of version {found}, and this package of {_version()}"
    return ""


def _complain(error: Exception, as_json: bool) -> int:
    said = str(error)
    if isinstance(error, Unfinished):
        said += "\nwunthavel recover removes it"
    if isinstance(error, (EngineError, ProtocolError, Syntax)):
        said += _other_version()
    if as_json:
        about = {"error": getattr(error, "cause", type(error).__name__), "values": list(getattr(error, "values", ())), "message": said}
        print(json.dumps(about), file=sys.stderr)
    else:
        print(f"wunthavel: {said}", file=sys.stderr)
    return 1
