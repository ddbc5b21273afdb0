"""What rows are made of: streams of commands, what a run over the plain repository replies to them, and the files that it leaves."""

import hashlib

import by_git
import reads
from case_words import word
from plain import Plain

ROWS = []
KINDS = {"sha1": by_git.SHA1, "sha256": by_git.SHA256}
SIGNED = b"author 1 3 %d +0000\nA\na@b\ncommitter 1 3 %d +0000\nA\na@b\nmessage %d\n%s\nend\n"
ONE = SIGNED % (1, 1, 3, b"one")
HEAD = b"ref: refs/heads/main\n"
LIMIT = 2 ** 24
NEW_LINE, ZERO = b"\n", b"\0"


class Long:
    """So many of one byte, which a word needn't spell."""

    def __init__(self, byte, count):
        self.byte, self.count = byte, count


def spelled(stream):
    """The word of a stream, and its bytes."""
    parts = stream if isinstance(stream, list) else [stream]
    words = [f"{it.byte.decode()}*{it.count}" if isinstance(it, Long) else word(it) for it in parts]
    return "+".join(words), b"".join(it.byte * it.count if isinstance(it, Long) else it for it in parts)


def told(end, replies):
    return f"{end}:{word(b''.join(reply for reply, _ in replies))}"


def known(kind, text):
    """Stops if a commit, a tree or a tag is reported that git didn't print."""
    for line in text.split(b"\n"):
        if line.startswith((b"ok commit ", b"ok tag ", b"tree ")):
            assert line.split()[-1].decode() in KINDS[kind], line


def answer(stream, *causes, end="Input", kinds=KINDS):
    """A stream over a new repository; its refusals are these, in order."""
    text, data = spelled(stream)
    for kind in kinds:
        ended, replies = Plain(kind).run(data)
        assert (ended, refusals(replies)) == (end, list(causes)), (ended, replies)
        known(kind, b"".join(reply for reply, _ in replies))
        ROWS.append((f"{kind} answer:{text}", told(ended, replies)))


def refusals(replies):
    return [reply.split()[1].decode() for reply, _ in replies if reply.startswith(b"refused")]


def runs(*streams, by_git_alone=True, kinds=KINDS):
    """Streams, one after another, on one repository; a pair is one and what it is refused for, or nothing."""
    for kind in kinds:
        plain, words, answers = Plain(kind), ["create", "open"], ["created", "opened"]
        for stream, *causes in streams:
            text, data = spelled(stream)
            ended, replies = plain.run(data)
            assert (ended, refusals(replies)) == ("Input", causes), (stream, ended, replies)
            if by_git_alone:
                known(kind, b"".join(reply for reply, _ in replies))
            words.append(f"run:{text}")
            answers.append(told(ended, replies))
        ROWS.append((" ".join([kind, *words, "failed", "left"]), " ".join([*answers, "sound", left(plain)])))


def listed(files):
    """Files by their paths, in the order of a walk that goes into the last of the folders first."""
    found, folders = [], [b""]
    while folders:
        folder = folders.pop()
        front = folder + b"/" if folder else b""
        inside = {path[len(front):].partition(b"/")[0] for path in files if path.startswith(front)}
        for name in sorted(inside):
            if front + name in files:
                found.append(f" {word(front + name)}:{word(files[front + name])}")
            else:
                folders.append(front + name)
    return "".join(found)


def left(plain, objects=None, names=True):
    """The files of a repository, or of one with its first objects alone and without names."""
    texts = list(plain.objects.items())[:objects]
    stored = {b"objects/" + digits[:2] + b"/" + digits[2:]: text for digits, text in texts}
    named = {b"HEAD": b"ref: %s\n" % plain.branch}
    if names and plain.records is not None:
        named[b"packed-refs"] = plain.packed_text()
    for name, digits in plain.names.items() if names else ():
        if name not in plain.packed_alone:
            named[name] = digits + b"\n"
        if name in plain.logs:
            named[b"logs/" + name] = plain.logs[name]
    return f"objects{listed(stored)} names{listed(named)}"


PUT_HELLO = b"commit refs/heads/main new\nput file 1 5\na\nhello\n" + ONE
INPUT = PUT_HELLO + b"files main\nshow main path 1\na\n"


def branch(name, number, more=b""):
    title = b"%d" % number
    return b"commit %s\n" % name + more + SIGNED % (number, number, len(title), title)


BY = b"actor 1 3 %d +0000\nA\na@b\nmessage %d\n%s\nend\n"


def move(*lines, seconds=9, message=b"all"):
    return b"move\n" + b"".join(b"to %s\n" % line for line in lines) + BY % (seconds, len(message), message)


def tag(target, seconds=9, message=b"x", tagger=None):
    signed = tagger or b"tagger 1 3 %d +0000\nA\na@b\n" % seconds
    return b"tag %s\n" % target + signed + b"message %d\n%s\nend\n" % (len(message), message)


def reading(kind, before, command, count):
    """How many objects a command reads after these: as many as it must, listed in reads.py."""
    assert len(reads.behind(kind, before, command)) == count, (command, count)
    ROWS.append((f"{kind} reads:{word(before)}:{word(command)}", f"reads:{count}"))


def log_at(words, *paths):
    return b"log %s%s\n" % (words, b"".join(b" path %d" % len(it) for it in paths)) + b"".join(it + b"\n" for it in paths)


def object_file(kind, text):
    """Where the object of this text is."""
    digits = hashlib.new(kind, text).hexdigest().encode()
    return b"objects/" + digits[:2] + b"/" + digits[2:]


def shows_line(kept):
    """Whether a call that keeps so much may leave a log's line without its move: the next call is the rename, which is made or isn't, so only one
    that keeps nothing, or the whole line, does."""
    return kept in ("-", 1000)


def reopen_between(streams):
    """These streams in a row, each accepted whole, with the folder closed and opened again after each."""
    for kind in KINDS:
        plain, words, answers = Plain(kind), ["create", "open"], ["created", "opened"]
        for stream in streams:
            ended, replies = plain.run(stream)
            assert (ended, refusals(replies)) == ("Input", []), (stream, ended, replies)
            words += [f"run:{word(stream)}", "close", "open"]
            answers += [told(ended, replies), "opened"]
        ROWS.append((" ".join([kind, *words, "left"]), " ".join([*answers, left(plain)])))


FEW = b"commit refs/heads/main new\nput file 5 1\na/b/c\n1\nput file 1 1\nd\n2\n"
MANY = (b"commit refs/heads/main new\nput file 5 1\na/b/c\n1\nput file 5 1\na/b/d\n2\nput exec 5 1\na/b/e\n3\nput link 3 1\na/f\n4\n"
        b"put file 1 1\nd\n5\nput file 1 1\ng\n6\n")


def each(limit, kind, words, answers):
    ROWS.append((f"each:{limit} {kind} {words}", " | ".join(answers)))


PACK = b"pack\n"


def listing(own, folders, front=b"refs/"):
    """The calls of a listing of the names that begin so, over names with files of their own in these folders, in order: whether a call lists a
    folder, else it reads what may be such a name. The folder that they are in is listed, and those below it."""
    def below(folder):
        calls = [True]
        for it in sorted({*own, *folders}):
            if it.rpartition(b"/")[0] == folder:
                calls += [False] + (below(it) if it in folders else [])
        return calls
    return below(front.rpartition(b"/")[0])


def each_failing(calls, fault, whole):
    """What comes of a listing of which each call fails in turn, once for calls in a row of which the same comes: a folder that can't be listed is
    a fault, while a name's file is read once more, so that nothing comes of one failed reading."""
    ends = [fault if lists else whole for lists in calls]
    return [it for at, it in enumerate(ends) if ends[at - 1:at] != [it]]


def in_turn(answers):
    """These answers, of equal ones in a row the first."""
    return [it for at, it in enumerate(answers) if answers[at - 1:at] != [it]]


def left_with(plain, first, count):
    """The first so many objects of one repository, under the names of another."""
    return left(plain, count).partition(" names")[0] + " names" + left(first).partition(" names")[2]


def left_logged(plain, first):
    """All objects, and the second line in the log of a name that exists as after the first commit."""
    both = Plain(plain.kind)
    both.objects, both.names, both.logs = plain.objects, first.names, plain.logs
    return left(both)


def creation(kind):
    """A creation that stops or fails at each call: nothing is left but its leftovers, or the new repository, and a second call finds it."""
    none, made = "objects names", f"objects names{listed({b'HEAD': HEAD})}"
    ended, replies = Plain(kind).run(PUT_HELLO)
    again = f"opened {told(ended, replies)}"
    for how, kept in [*(("stop", kept) for kept in ["-", 0, 3, 20, 50, 1000]), ("fail", "-"), ("fail", 10), ("fail", 1000)]:
        for part in ("objects", "names"):
            renamed = [f"File {made} NotEmpty:HEAD"] if part == "names" and kept != "-" else []
            each(20, kind, f"{part}:{how}:#:{kept} create left create",
                 [f"File {none} created", *renamed, f"created {made} NotEmpty:HEAD"])
            # Without a recovery, and then a first round.
            each(20, kind, f"{part}:{how}:#:{kept} create {part}:sound create open run:{word(PUT_HELLO)}",
                 [f"File created {again}", *[f"File NotEmpty:HEAD {again}" for _ in renamed], f"created NotEmpty:HEAD {again}"])


def placed(part, files):
    """Words that write these files of a part, each folder before what is in it."""
    folders = sorted({path[:at] for path in files for at in range(len(path)) if path[at:at + 1] == b"/"})
    return [*(f"{part}:folder:{word(it)}" for it in folders), *(f"{part}:write:{word(path)}:{word(text)}" for path, text in files.items())]
