#!/usr/bin/env python3
"""Writes the cases of history_actions and its command line, and the answers that are wanted.

Texts and statuses are those of docs/PROTOCOL.md, ids those of Git's object format by hashlib, and what is on a bad line is what
clap 4 prints. No answer is taken from the program.
"""

import hashlib
import os
import sys
from pathlib import Path

sys.path.append(str(Path(__file__).resolve().parents[1]))
from case_sizes import row as sized
from case_words import word, write
from folder_causes import as_line, causes, place
from small_folder import Few, judged

ROWS = []
ZERO = b"\0"
NULL = {"sha1": b"0" * 40, "sha256": b"0" * 64}


class Kind:
    """A hash function, with the objects of the first commit."""

    def __init__(self, name, where=None):
        self.name, self.where = name, where or name
        self.tree = self.id(b"tree", b"")
        actor = b"A <a@b> 1 +0000\n"
        self.commit_text = b"tree " + self.tree + b"\nauthor " + actor + b"committer " + actor + b"\none"
        self.commit = self.id(b"commit", self.commit_text)
        self.blob = self.id(b"blob", b"hello")

    def text(self, kind, content):
        return kind + b" " + str(len(content)).encode() + ZERO + content

    def id(self, kind, content):
        return hashlib.new(self.name, self.text(kind, content)).hexdigest().encode()

    def place(self, id):
        return b"objects/" + id[:2] + b"/" + id[2:]

    def put(self, kind, content):
        """Words that write an object's file, and their answers."""
        return self.put_text(self.id(kind, content), self.text(kind, content))

    def put_text(self, id, text):
        place = self.place(id)
        folder = place.rsplit(b"/", 1)[0]
        return [("objects:folder:" + word(folder), "done"), (f"objects:write:{word(place)}:{word(text)}", "done")]


FIRST = b"commit refs/heads/main new\nauthor 1 3 1 +0000\nA\na@b\ncommitter 1 3 1 +0000\nA\na@b\nmessage 3\none\nend\n"


def answer(status, written=b"", told=b""):
    return f"{status}:{word(written)}:{word(told)}"


def row(kind, *steps):
    """A line of words, each with its answer; a word without one has the answer None."""
    ROWS.append((" ".join([kind, *(it for it, _ in steps)]), " ".join(it for _, it in steps if it is not None)))


CREATE = ("create", answer(0, b"created\n"))
CHECK = ("check", answer(0, b"whole\n"))
RECOVER = ("recover", answer(0, b"recovered\n"))


def refused(action, *values, note=b""):
    return (action, answer(1, b"", b"refused " + b" ".join(values) + b"\n" + note))


def fault(action, cause, written=b""):
    return (action, answer(1, written, b"fault " + cause + b"\n"))


def files(part, call, *values, told="done"):
    return (":".join([part, call, *(word(it) for it in values)]), told)


def actions(kind):
    k = kind.name
    first = ("run:" + word(FIRST), answer(0, b"ok commit " + kind.commit + b"\n"))
    names = b"ok names 1 refs/heads/main\n" + kind.commit + b" " + kind.commit + b" refs/heads/main\n"
    log = NULL[k] + b" " + kind.commit + b" A <a@b> 1 +0000\tone\n"
    # Each action, done.
    row(k, CREATE)
    row(k, CREATE, CHECK)
    row(k, CREATE, CHECK, CHECK, RECOVER, CHECK)
    row(k, CREATE, first, CHECK, ("run:names%0a", answer(0, names)), ("run", answer(0)))
    # What a new repository can't be made of, and what goes.
    row(k, CREATE, refused("create", b"NotEmpty", b"HEAD"), CHECK)
    row(k, CREATE, first, refused("create", b"NotEmpty", kind.place(min(kind.tree, kind.commit))))
    row(k, files("names", "write", b"README", b"hello"), refused("create", b"NotEmpty", b"README"), files("names", "kind", b"HEAD", told="absent"))
    row(k, files("names", "folder", b"a b"), refused("create", b"NotEmpty", b"a b"))
    row(
        k,
        files("objects", "folder", b"objects"),
        files("objects", "write", b"objects/unfinished", b"x"),
        files("names", "write", b"HEAD.lock", b"x"),
        CREATE,
        files("objects", "kind", b"objects/unfinished", told="absent"),
        files("names", "kind", b"HEAD.lock", told="absent"),
        files("names", "read", b"HEAD", told="21:" + word(b"so ref: refs/heads/main\n")),
        CHECK,
    )
    # How a run ends, which nothing but its replies says.
    for stream, reply in (
        (b"hello\n", b"refused Syntax\n"),
        (b"commit refs/heads/main new\n", b"refused Truncated\n"),
        (b"x" * 4097, b"refused LineTooLong\n"),
        (b"names\nhello\n", b"ok names 0 refs/heads/main\nrefused Syntax\n"),
    ):
        row(k, CREATE, ("run:" + word(stream), answer(1, reply)), CHECK)
    row(k, CREATE, ("run:show%20HEAD%0anames%0a", answer(0, b"refused UnbornHead\nok names 0 refs/heads/main\n")))
    # Files, readers and writers that fail.
    for part in ("objects", "names"):
        row(k, (f"{part}:fail:1:-", None), fault("create", b"File"))
        for action in ("check", "recover", "run:names%0a"):
            row(k, CREATE, (f"{part}:fail:1:-", None), fault(action, b"File"), (f"{part}:sound", None), CHECK)
    row(k, CREATE, ("drops:0:names%0a", fault("", b"Read")[1]), CHECK)
    row(k, CREATE, ("drops:6:names%0anames%0a", fault("", b"Read", b"ok names 0 refs/heads/main\n")[1]), CHECK)
    row(k, ("narrow:0:create", fault("", b"Write")[1]), CHECK)
    row(k, ("narrow:3:create", fault("", b"Write", b"cre")[1]), CHECK)
    row(k, CREATE, ("narrow:5:check", fault("", b"Write", b"whole")[1]), CHECK)
    row(k, CREATE, ("narrow:9:recover", fault("", b"Write", b"recovered")[1]), ("narrow:10:recover", answer(0, b"recovered\n")))
    row(k, CREATE, ("narrow:2:run", fault("", b"Write", b"ok")[1]), CHECK)
    # All in one call, and errors that can't be told whole.
    row(k, ("last:create:0", answer(0, b"created\n")), refused("check", b"NoHead"))
    row(k, CREATE, ("last:check:0", answer(0, b"whole\n")))
    row(k, CREATE, ("last:run:0", answer(0, b"ok names 0 refs/heads/main\n")))
    row(k, CREATE, ("last:recover:0", answer(0, b"recovered\n")))
    for room in (0, 5, 12, 14, 15, 40):
        row(k, (f"last:check:{room}", answer(1, b"", b"refused NoHead\n"[:room])))
    # Why a folder isn't opened: by check, and by run, which then reads and writes nothing; no file is changed.
    flaws(kind, first, log)


def flaws(kind, first, log):
    looks(kind, first, log)
    k = kind.where

    def unopened(cause, *steps, then=()):
        row(k, CREATE, first, *steps, refused("check", *cause), refused("run:names%0a", *cause), *then)

    back = (RECOVER, CHECK)
    row(k, refused("check", b"NoHead"), refused("run:names%0a", b"NoHead"), refused("recover", b"NoHead"))
    unopened([b"BadHead"], files("names", "write", b"HEAD", kind.commit + b"\n"))
    unopened([b"Stray", b"README"], files("names", "write", b"README", b"hello"), then=(refused("recover", b"Stray", b"README"), refused("check", b"Stray", b"README")))
    unopened([b"Stray", b"a b\nc"], files("names", "write", b"a b\nc", b""))
    unopened([b"Stray", b"refs/heads/q.lock"], files("names", "folder", b"refs/heads/q.lock"))
    row(k, CREATE, first, files("names", "folder", b"refs/heads/q"), CHECK)
    unopened([b"Unfinished", b"refs/heads/main.lock"], files("names", "write", b"refs/heads/main.lock", b""), then=back)
    unopened([b"Unfinished", b"objects/unfinished"], files("objects", "write", b"objects/unfinished", b""), then=back)
    unopened(
        [b"BadLog", b"logs/refs/heads/main", b"2"],
        files("names", "append", b"logs/refs/heads/main", b"0000"),
        then=(*back, files("names", "kind", b"logs/refs/heads/main", told=f"file:{len(log)}")),
    )
    unopened([b"LongLogLine", b"logs/refs/heads/main", b"2"], files("names", "append", b"logs/refs/heads/main", b"x" * 4097))
    unopened([b"LogWithoutName", b"logs/refs/heads/gone"], files("names", "write", b"logs/refs/heads/gone", log), then=back)
    unopened([b"Symbolic", b"refs/heads/x"], files("names", "write", b"refs/heads/x", b"ref: refs/heads/main\n"))
    unopened([b"BadName", b"refs/heads/x"], files("names", "write", b"refs/heads/x", b"hello\n"))
    unopened([b"BadName", b"refs/heads/a..b"], files("names", "write", b"refs/heads/a..b", kind.commit + b"\n"))
    unopened([b"PrivateName", b"refs/bisect/x"], files("names", "folder", b"refs/bisect"), files("names", "write", b"refs/bisect/x", kind.commit + b"\n"))
    # Packed names.
    header = b"# pack-refs with: peeled fully-peeled sorted \n"
    packed, again = kind.commit + b" refs/heads/b\n", kind.commit + b" refs/heads/a\n"
    for text in (b"", header, header + again + packed, packed + again, kind.commit.upper() + b" refs/heads/b\n", header + kind.blob + b" refs/heads/main\n"):
        row(k, CREATE, first, files("names", "write", b"packed-refs", text), CHECK, RECOVER, CHECK)
    row(k, CREATE, first, files("names", "write", b"packed-refs", header + kind.commit + b" refs/heads/main\n"), files("names", "remove", b"refs/heads/main"), CHECK, RECOVER, CHECK)
    for number, text in ((b"1", b"hello\n"), (b"2", packed + packed), (b"3", header + packed + again), (b"2", packed + b"^" + kind.commit), (b"1", kind.commit + b" HEAD\n")):
        unopened([b"BadPacked", number], files("names", "write", b"packed-refs", text))
    # A carriage return, before the line feed or within a line: the first such line is reported, if none before it is bad.
    ended, lines = (lambda text: text.replace(b"\n", b"\r\n")), header + again + packed
    for number, text in ((b"1", ended(packed)), (b"1", ended(lines)), (b"2", header + ended(again) + packed), (b"3", header + again + ended(packed)), (b"3", header + packed + ended(b"hello\n")),
                         (b"2", header + b"hello\n" + ended(packed)), (b"2", header + b"\r" + packed), (b"3", header + packed + ended(b"^" + kind.commit + b"\n")), (b"2", packed + b"\r")):
        unopened([b"BadPacked", number], files("names", "write", b"packed-refs", text))
    unopened([b"PrivateName", b"refs/bisect/x"], files("names", "write", b"packed-refs", kind.commit + b" refs/bisect/x\n"))
    unopened([b"BadPeeled", b"refs/heads/b"], files("names", "write", b"packed-refs", packed + b"^" + kind.commit + b"\n"))
    unopened([b"Collides", b"refs/heads/main", b"refs/heads/main/x"], files("names", "write", b"packed-refs", kind.commit + b" refs/heads/main/x\n"))
    unopened([b"Missing", kind.blob, b"refs/heads/b"], files("names", "write", b"packed-refs", kind.blob + b" refs/heads/b\n"))
    # Objects, and what names them.
    empty = kind.id(b"blob", b"")
    row(k, CREATE, first, *kind.put(b"blob", b""), CHECK)
    unopened([b"WrongId", kind.place(empty)], *kind.put_text(empty, kind.text(b"blob", b"x")))
    unopened([b"BadObject", kind.place(empty)], *kind.put_text(empty, b"hello"))
    unopened([b"BadTree", kind.id(b"tree", b"hello")], *kind.put(b"tree", b"hello"))
    # A time before 1970, and a tag of something other than a commit; a zero before the seconds is neither.
    author, both = (b"author A <a@b> 1 ", b"author A <a@b> -1 "), (b" 1 +0000\n", b" -1 +0000\n")
    for old, new in (author, both, (b"committer A <a@b> 1 ", b"committer A <a@b> -0 ")):
        before = kind.commit_text.replace(old, new)
        unopened([b"BadTime", kind.id(b"commit", before)], *kind.put(b"commit", before))
    later = kind.commit_text.replace(*author).replace(b"-1", b"01")
    unopened([b"BadObject", kind.place(kind.id(b"commit", later))], *kind.put(b"commit", later))
    for of, seconds, cause in ((b"commit", b"-1", b"BadTime"), (b"tree", b"1", b"BadTag"), (b"blob", b"-1", b"BadTag"), (b"tag", b"01", b"BadTag")):
        tag = b"object " + kind.commit + b"\ntype " + of + b"\ntag v\ntagger A <a@b> " + seconds + b" +0000\n\none"
        unopened([cause, kind.id(b"tag", tag)], *kind.put(b"tag", tag))
    file = b"100644 a" + ZERO + bytes.fromhex(kind.blob.decode())
    tree = kind.id(b"tree", file)
    unopened([b"Missing", kind.blob, tree], *kind.put(b"tree", file))
    row(k, CREATE, first, *kind.put(b"tree", file), *kind.put(b"blob", b"hello"), CHECK)
    folder = b"40000 a" + ZERO + bytes.fromhex(kind.blob.decode())
    above = kind.id(b"tree", folder)
    unopened([b"WrongKind", kind.blob, above], *kind.put(b"tree", folder), *kind.put(b"blob", b"hello"))
    unopened([b"Missing", kind.blob, b"refs/heads/x"], files("names", "write", b"refs/heads/x", kind.blob + b"\n"))
    unopened([b"WrongKind", kind.blob, b"refs/heads/x"], files("names", "write", b"refs/heads/x", kind.blob + b"\n"), *kind.put(b"blob", b"hello"))


def looks(kind, first, log):
    """What is recovered and what isn't: a folder that isn't a repository's stays as it is."""
    k = kind.where

    def there(path, part="names"):
        return files(part, "kind", path, told="file:5")

    def put(*paths, part="names", made=()):
        folders = sorted({path[:at] for path in paths for at, byte in enumerate(path) if byte == 47} - {*made})
        return [*(files(part, "folder", it) for it in folders), *(files(part, "write", it, b"hello") for it in paths)]

    def stays(cause, *paths, head=None):
        kept = [*put(*paths), *([files("names", "write", b"HEAD", head)] if head is not None else [])]
        row(k, *kept, refused("recover", *cause), *(there(it) for it in paths))

    branch, made = b"ref: refs/heads/main\n", (b"objects", b"refs", b"refs/heads", b"logs", b"logs/refs", b"logs/refs/heads")
    # No repository's: any folder, a project, one of git.
    stays([b"NoHead"], b"logs/x.log")
    stays([b"NoHead"], b"Cargo.lock", b"Cargo.toml", b"src/main.rs")
    stays([b"Stray", b"config"], b"config", b"description", b"info/exclude", b"logs/HEAD", head=branch)
    stays([b"Stray", b"index.lock"], b"index.lock", b"logs/HEAD", head=branch)
    stays([b"Stray", b"logs/HEAD"], b"logs/HEAD", head=branch)
    stays([b"Stray", b"logs/x.log"], b"logs/x.log", head=branch)
    stays([b"Stray", b"Cargo.lock"], b"Cargo.lock", head=branch)
    stays([b"Stray", b"refs/heads/a..b.lock"], b"refs/heads/a..b.lock", head=branch)
    # The longest name of a branch makes the longest HEAD.
    longest = b"ref: refs/heads/" + b"w" * 1013
    row(k, CREATE, files("names", "write", b"HEAD", longest + b"\n"), CHECK, RECOVER, CHECK)
    for head in (b"", b"hello", branch[:-1], branch + b"\n", b"ref: refs/tags/v\n", b"ref: HEAD\n", kind.commit + b"\n", longest + b"w\n", longest * 4):
        stays([b"BadHead"], b"logs/x.log", b"refs/heads/main.lock", head=head)
    for path in (b"objects/pack/x", b"objects/info", b"objects/" + b"0" * 40, b"objects/0a/" + kind.blob[3:], b"objects/0g/" + kind.blob[2:], b"objects/0A/" + kind.blob[2:]):
        row(k, CREATE, first, *put(path, part="objects", made=made), refused("recover", b"Stray", path), there(path, "objects"))
    # A stopped run's.
    for path in (b"HEAD.lock", b"packed-refs.lock", b"refs/heads/main.lock", b"refs/heads/a/b.lock", b"logs/refs/heads/main.lock", b"logs/refs/heads/gone"):
        row(k, CREATE, first, *put(path, made=made), RECOVER, files("names", "kind", path, told="absent"), CHECK)
    row(k, CREATE, first, files("objects", "write", b"objects/unfinished", b"x"), RECOVER, CHECK)
    # An object's file of the other hash function.
    other, flag = (64, b"SHA-256 repository? (--sha256)") if kind.name == "sha1" else (40, b"SHA-1 repository? (no --sha256)")
    path = b"objects/0a/" + b"0" * (other - 2)
    told = {"note": b"note: is this a " + flag + b"\n"}
    row(k, CREATE, first, *put(path, part="objects", made=made), *(refused(it, b"Stray", path, **told) for it in ("check", "run:names%0a", "recover")))
    for path in (path + b"0", path[:-1], path[:-1] + b"g", b"objects/0a-" + b"0" * (other - 2)):
        row(k, CREATE, first, *put(path, part="objects", made=made), refused("check", b"Stray", path))


MORE = "\nFor more information, try '--help'.\n"
NAME = "wunthavel-history"
WHOLE = f"\nUsage: {NAME} <COMMAND>\n"


def words(*given):
    return "words:" + ",".join(word(it.encode()) for it in (NAME, *given))


def asks(given, action, folder, kind="sha1"):
    ROWS.append((f"sha1 {words(*given)}", f"{action} {kind}:{word(folder.encode())}"))


def bad(given, text):
    ROWS.append((f"sha1 {words(*given)}", f"line:{word(text.encode())}"))


def unexpected(given, usage, tip=None):
    """What clap says of an argument that a line may not have there."""
    return f"error: unexpected argument '{given}' found\n" + (f"\n  tip: {tip}\n" if tip else "") + f"\nUsage: {usage}\n" + MORE


# The frame is that of a text in the tests of the kit's clap, if the kit is here; the words of a tip are in none of them.
CLAP = Path("/opt/rattle/rattle/clap/src/tests/errors.rt")
FRAMED = unexpected("--verbos", "t --verbose", "a similar argument exists: '--verbose'")
assert not CLAP.exists() or FRAMED.replace("\n", "\\n") in CLAP.read_text()


def lines():
    for action in ("create", "run", "check", "recover"):
        asks((action, "there"), action, "there")
        asks((action, "there", "--sha256"), action, "there", "sha256")
        asks((action, "--sha256", "there"), action, "there", "sha256")
        asks((action, "--", "--sha256"), action, "--sha256")
        asks((action, "a b/ü"), action, "a b/ü")
        usage = f"\nUsage: {NAME} {action} [OPTIONS] <folder>\n" + MORE
        lacking = "error: the following required arguments were not provided:\n  <folder>\n"
        bad((action,), lacking + f"\nUsage: {NAME} {action} <folder>\n" + MORE)
        bad((action, "--sha256"), lacking + f"\nUsage: {NAME} {action} --sha256 <folder>\n" + MORE)
        bad((action, "a", "b"), unexpected("b", f"{NAME} {action} [OPTIONS] <folder>"))
        bad((action, "a", "--sha256", "--sha256"), "error: the argument '--sha256' cannot be used multiple times\n" + usage)
        bad((action, "a", "--sha256=x"), "error: unexpected value 'x' for '--sha256' found; no more were expected\n" + f"\nUsage: {NAME} {action} --sha256 <folder>\n" + MORE)
        ROWS.append((f"sha1 {words(action, '-h')}", f"help:{word(help_of(action).encode())}"))
    bad((), f"error: '{NAME}' requires a subcommand but one was not provided\n  [subcommands: create, run, check, recover, help]\n" + WHOLE + MORE)
    bad(("frobnicate",), "error: unrecognized subcommand 'frobnicate'\n" + WHOLE + MORE)
    bad(("--sha256", "create", "there"), unexpected("--sha256", f"{NAME} <COMMAND>", "'create --sha256' exists"))
    ROWS.append((f"sha1 {words('--help')}", f"help:{word(HELP.encode())}"))
    ROWS.append((f"sha1 {words('help')}", f"help:{word(HELP.encode())}"))
    for flag in ("-V", "--version"):
        ROWS.append((f"sha1 {words(flag)}", f"help:{word(f'{NAME} {VERSION}'.encode())}"))
        bad(("check", flag), unexpected(flag, f"{NAME} check [OPTIONS] <folder>", f"to pass '{flag}' as a value, use '-- {flag}'"))


def sizes():
    """A folder's name as long, and as many words that a line has no place for."""
    yield sized(words("run", "a") + "[f]", lambda size: "run sha1:a" + "f" * size)
    beyond = "line:" + word(unexpected("b", f"{NAME} run [OPTIONS] <folder>").encode())
    yield sized(words("run", "a") + "[,b]", lambda size: beyond if size else "run sha1:a")


ABOUT = {
    "create": "Makes a repository",
    "run": "Runs the commands of standard input, and answers them on standard output",
    "check": "Finds whether a repository is whole",
    "recover": "Removes what a stopped run left",
}

EXAMPLES = {
    "create": f"Example, where the folder pages is empty or doesn't exist:\n  {NAME} create pages",
    "run": f"Example, with the protocol's commands in a file:\n  {NAME} run pages < commands > replies",
    "check": f"Example, which changes no file:\n  {NAME} check pages && echo well",
    "recover": f"Example, after check said refused Unfinished:\n  {NAME} recover pages",
}

VERSION = "0.2.0 (proved)\n"

HELP = (
    f"A version store with Git's object ids, reference names and logs\n\nUsage: {NAME} <COMMAND>\n\nCommands:\n"
    + "".join(f"  {name:<7}  {about}\n" for name, about in ABOUT.items())
    + "  help     Print this message or the help of the given subcommand(s)\n\nOptions:\n  -h, --help     Print help\n  -V, --version  Print version\n\n"
    f"Without words it runs the commands of standard input on a new repository in memory.\n\nExample:\n  {NAME} create pages\n  {NAME} run pages < commands\n"
)


def help_of(action):
    return (
        f"{ABOUT[action]}\n\nUsage: {NAME} {action} [OPTIONS] <folder>\n\nArguments:\n  <folder>  The repository's folder\n\n"
        "Options:\n      --sha256  Takes SHA-256 in place of SHA-1\n  -h, --help    Print help\n\n"
        f"{EXAMPLES[action]}\n"
    )


def real(kind):
    """The same on a real folder, which the program makes."""
    run = ("run:" + word(FIRST), answer(0, b"ok commit " + kind.commit + b"\n"))
    names = b"ok names 1 refs/heads/main\n" + kind.commit + b" " + kind.commit + b" refs/heads/main\n"
    row("real", refused("check", b"NoHead"), CREATE, CHECK, run, CHECK, ("run:names%0a", answer(0, names)))
    row("real", CREATE, run, files("names", "write", b"README", b"hello"), refused("check", b"Stray", b"README"), refused("run:names%0a", b"Stray", b"README"))
    row(
        "real",
        CREATE,
        run,
        files("names", "append", b"logs/refs/heads/main", b"0000"),
        refused("check", b"BadLog", b"logs/refs/heads/main", b"2"),
        RECOVER,
        CHECK,
        files("names", "kind", b"logs/refs/heads/main", told="file:102"),
        files("names", "write", b"refs/heads/main.lock", b""),
        refused("check", b"Unfinished", b"refs/heads/main.lock"),
        RECOVER,
        CHECK,
        files("names", "kind", b"refs/heads/main.lock", told="absent"),
    )
    row("real", CREATE, ("run:hello%0a", answer(1, b"refused Syntax\n")), refused("create", b"NotEmpty", b"HEAD"))
    flaws(kind, run, NULL["sha1"] + b" " + kind.commit + b" A <a@b> 1 +0000\tone\n")


def several(name):
    """A file that has other bytes, for which several causes hold: if only as many bytes are taken of the report as all of them begin with, it
    is the beginning of each, and no cause of another beginning and no fault."""
    few = Few(name)
    made = [CREATE, ("run:" + word(few.STREAM), answer(0, few.replies))]
    assert not causes(name, few.objects, few.names)

    def told(found, *steps):
        begun = os.path.commonprefix([as_line(it) for it in found])
        row(name, *made, *steps, (f"last:check:{len(begun)}", answer(1, b"", begun)))

    for path in [*few.changed, b"HEAD", b"refs/heads/main", b"refs/tags/v", b"logs/refs/heads/main"]:
        part = "objects" if path in few.objects else "names"
        for text, found in judged(few, path):
            if len(found) > 1:
                told(found, (f"{part}:write:{word(path)}:{long_word(text)}", "done"))
    # Packed names that exist no more, or may not, beside their logs.
    pack = ("run:pack%0a", answer(0, b"ok pack\n"))
    for text in [few.packed[:60], b"\xff" * 4097, *(few.packed[:at] + b"x" + few.packed[at + 1:] for at, it in enumerate(few.packed) if few.packed[at - 1] == 10)]:
        found = causes(name, few.objects, {**without(few.names, b"refs/heads/main", b"refs/tags/v"), b"packed-refs": text})
        assert len(found) > 1, text
        told(found, pack, (f"names:write:packed-refs:{long_word(text)}", "done"))
    # Objects under reserved ids, which no text has or the empty tree's alone.
    empty = hashlib.new(name, b"tree 0" + ZERO).hexdigest().encode()
    for digits, text in [(NULL[name], b"blob 0" + ZERO), (NULL[name], b"tree 0" + ZERO), (empty, b"blob 0" + ZERO), (empty, b"blob 5" + ZERO + b"hello")]:
        path = place(digits)
        told(causes(name, {**few.objects, path: text}, few.names), *([] if any(it.startswith(path[:10]) for it in few.objects) else
             [("objects:folder:" + word(path[:10]), "done")]), (f"objects:write:{word(path)}:{word(text)}", "done"))


def without(files, *gone):
    return {path: text for path, text in files.items() if path not in gone}


def long_word(text):
    return f"%ff*{len(text)}" if len(text) > 4096 else word(text)


def narrow(k):
    """A writer that fails after each byte, and a reader that does."""
    names, stream = b"ok names 0 refs/heads/main\n", b"names\nhello\nnames\n"
    whole = {"run": names, "check": b"whole\n", "recover": b"recovered\n"}
    for action, text in whole.items():
        cut = [(f"narrow:{room}:{action}", fault("", b"Write", text[:room])[1]) for room in range(len(text))]
        row(k, CREATE, *cut, (f"narrow:{len(text)}:{action}", answer(0, text)), CHECK)
    for room in range(len(b"created\n")):
        row(k, (f"narrow:{room}:create", fault("", b"Write", b"created\n"[:room])[1]), CHECK)
    # The second line is no command, if it comes whole.
    cut = [(f"drops:{good}:{word(stream)}", answer(1, names + b"refused Syntax\n") if good >= 12 else fault("", b"Read", names if good >= 6 else b"")[1])
           for good in range(len(stream) + 2)]
    row(k, CREATE, *cut, CHECK)


for name in ("sha1", "sha256"):
    actions(Kind(name))
    several(name)
    narrow(name)
lines()
real(Kind("sha1", "real"))
write(Path(__file__), ROWS + [(f"sizes sha1 {line}", answers) for line, answers in sizes()])
