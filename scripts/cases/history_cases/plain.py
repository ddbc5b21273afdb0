"""The plain repository of docs/PROTOCOL.md, written once more: commands are read, refused or answered, with ids by hashlib. The cases
of history have their answers from here, and from what git printed (cases.py)."""

import hashlib
import re
from bisect import bisect_left
from collections import Counter

MODES = {b"file": b"100644", b"exec": b"100755", b"link": b"120000"}
ORDERS = (b"breadth", b"newest", b"oldest", b"newest-since", b"oldest-since", b"date", b"topological")
PRIVATE = (b"refs/bisect/", b"refs/worktree/", b"refs/rewritten/")
LIMIT = 2 ** 24


class Refused(Exception):
    """A command that is refused, or a rest that is none."""


def refuse_where(holds, cause):
    if holds:
        raise Refused(cause)


class Reader:
    """Commands in an input."""

    def __init__(self, data):
        self.data, self.at = data, 0

    def line(self):
        end = self.data.find(b"\n", self.at, self.at + 4097)
        if end < 0:
            raise Refused("LineTooLong" if len(self.data) - self.at > 4096 else "Truncated")
        words = self.data[self.at:end].split(b" ")
        self.at = end + 1
        refuse_where(b"" in words, "Syntax")
        return words

    def field(self, length):
        end = self.at + length
        refuse_where(end >= len(self.data), "Truncated")
        refuse_where(self.data[end:end + 1] != b"\n", "Syntax")
        found, self.at = self.data[self.at:end], end + 1
        return found

    def fields(self, words):
        refuse_where(any(not re.fullmatch(rb"0|[1-9]\d*", it) or int(it) >= 2 ** 64 for it in words), "Syntax")
        return [self.field(int(it)) for it in words]

    def command(self):
        words = self.line()
        if words[0] == b"files" and len(words) == 2:
            return ("files", words[1])
        if words[0] == b"show" and len(words) == 2:
            return ("show", words[1], None)
        if words[0] == b"show" and len(words) == 4 and words[2] == b"path":
            return ("show", words[1], self.fields(words[3:])[0])
        if words[0] in (b"names", b"past", b"log"):
            return getattr(self, words[0].decode())(words[1:])
        if words == [b"move"]:
            return self.move()
        if words[0] == b"tag":
            return self.tag(words)
        if words[0] == b"delete":
            refuse_where(words[2:3] != ([b"any"] if len(words) == 3 else [b"at"]) or len(words) > 4, "Syntax")
            return ("delete", words[1], words[2:])
        if words[0] == b"rename" and len(words) == 3:
            return ("rename", *words[1:])
        if words[0] == b"switch" and len(words) == 2:
            return ("switch", words[1])
        if words in ([b"pack"], [b"index"]):
            return (words[0].decode(),)
        refuse_where(words[0] != b"commit" or len(words) not in (3, 4), "Syntax")
        refuse_where((len(words) == 4) != (words[2] == b"at") or words[2] not in (b"at", b"any", b"new"), "Syntax")
        return self.commit(words[1], words[2:])

    def move(self):
        lines, words = [], self.line()
        while words[0] == b"to" or not lines:
            refuse_where(len(words) not in (4, 5) or words[0] != b"to" or words[2] not in (b"at", b"any", b"new"), "Syntax")
            refuse_where((len(words) == 5) != (words[2] == b"at"), "Syntax")
            lines.append((words[1], words[2:-1], words[-1]))
            words = self.line()
        actor, message = self.actor(b"actor", words), self.message()
        return ("move", lines, actor, message)

    def tag(self, words):
        refuse_where(len(words) != (5 if words[2:3] == [b"at"] else 4) or words[2] not in (b"at", b"any", b"new"), "Syntax")
        tagger, message = self.actor(b"tagger", self.line()), self.message()
        return ("tag", words[1], words[2:-1], words[-1], tagger, message)

    def names(self, words):
        refuse_where(len(words) > 1, "Syntax")
        return ("names_in", words[0] if words else None)

    def past(self, words):
        refuse_where(len(words) != 1, "Syntax")
        return ("past", words[0])

    def log(self, words):
        """A log: its order, the seconds after it or none, whether it follows first parents alone, its items, and its paths."""
        order, words = words[0] if words else b"", words[1:]
        refuse_where(order not in ORDERS, "Syntax")
        since, words = (words[0] if words else None, words[1:]) if order.endswith(b"-since") else (None, words)
        refuse_where(not words or words[0] not in (b"all", b"first"), "Syntax")
        first = words[0] == b"first"
        words, sizes = words[1:], []
        while words[-2:-1] == [b"path"]:
            words, sizes = words[:-2], [words[-1], *sizes]
        items = [(it[:1], it[1:]) for it in words]
        refuse_where(any(sign not in (b"+", b"-") or not target for sign, target in items), "Syntax")
        refuse_where(all(sign != b"+" for sign, _ in items), "Syntax")
        return ("log", order.partition(b"-")[0], since, first, items, self.fields(sizes))

    def commit(self, name, expect):
        parents, edits, words = [], [], self.line()
        while words[0] == b"parent" and len(words) == 2:
            parents.append(words[1])
            words = self.line()
        while True:
            if words[0] == b"put" and len(words) == 4 and words[1] in MODES:
                edits.append((words[1], *self.fields(words[2:])))
            elif words[0] in (b"remove", b"remove-file") and len(words) == 2:
                edits.append((words[0], *self.fields(words[1:])))
            elif words[0] == b"graft" and len(words) == 4:
                path, source = self.fields([words[1], words[3]])
                edits.append((words[0], path, words[2], source))
            else:
                break
            words = self.line()
        author, words = self.actor(b"author", words), self.line()
        committer, message = self.actor(b"committer", words), self.message()
        return ("commit", name, expect, parents, edits, author, committer, message)

    def message(self):
        words = self.line()
        refuse_where(words[0] != b"message" or len(words) != 2, "Syntax")
        message = self.fields(words[1:])[0]
        refuse_where(self.line() != [b"end"], "Syntax")
        return message

    def actor(self, who, words):
        refuse_where(words[0] != who or len(words) != 5, "Syntax")
        return (*self.fields(words[1:3]), words[3], words[4])


def is_name(name):
    try:
        name.decode()
    except UnicodeDecodeError:
        return False
    parts = name.split(b"/")
    bad = re.search(rb"[\0-\x20\x7f~^:?*\[\\]|\.\.|@\{", name) or name.endswith(b".") or not name.startswith(b"refs/")
    return not bad and len(name) <= 1024 and not any(it == b"" or it.startswith(b".") or it.endswith(b".lock") for it in parts)


def is_path(path):
    return len(path) <= 4096 and b"\0" not in path and b"" not in path.split(b"/")


def fronts(path):
    """The folders that a path or a name leads through."""
    names = path.split(b"/")
    return [b"/".join(names[:count]) for count in range(1, len(names))]


def at_paths(files, paths):
    """The files at one of the paths or below it."""
    return {it: file for it, file in files.items() if any((it + b"/").startswith(path + b"/") for path in paths)}


def with_rest(path, rest):
    return path + b"/" + rest if rest else path


def carried(files, path, source):
    """What a graft puts at a path: what these files have at or below a source, or all of them at an empty one."""
    found = at_paths(files, [source]) if source else files
    return {with_rest(path, it[len(source):].lstrip(b"/")): file for it, file in found.items()}


def is_part(part):
    return len(part) <= 512 and part.strip(b" ") == part and not re.search(rb"[<>\0\t\r\n]", part)


def is_time(seconds, offset):
    good = re.fullmatch(rb"0|[1-9]\d*", seconds) and int(seconds) < 2 ** 63 and re.fullmatch(rb"[+-]\d\d[0-5]\d", offset)
    return bool(good) and offset != b"-0000"


def is_title(title):
    return 0 < len(title) <= 1024 and not re.search(rb"[\t\r\0]", title)


class Walk:
    """Commits along their parents, or their first parents alone."""

    def __init__(self, commits, first_parents):
        self.parents = {it: commit["parents"][:1] if first_parents else commit["parents"] for it, commit in commits.items()}
        self.times = {it: int(commit["committer"][2]) for it, commit in commits.items()}

    def reached(self, tips, since):
        """What is reached from the tips, if each commit on the way is no older."""
        found, left = set(), list(tips)
        while left:
            at = left.pop()
            if at not in found and self.times[at] >= since:
                found.add(at)
                left += self.parents[at]
        return found

    def listed(self, order, tips, inside):
        """All that are inside, in this order. If two of one time might both come next, either may be listed: then this stops. By topology
        the tip that was given last comes first then."""
        found, left, opened = [], set(inside), {it: None for it in tips if it in inside}
        children = Counter(at for it in inside for at in self.parents[it])
        while left:
            it = self.following(order, tips, opened, children)
            del opened[it]
            left.remove(it)
            found.append(it)
            for number, at in enumerate(self.parents[it]):
                children[at] -= 1
                if at in left:
                    opened[at] = (len(found), number)
        return found

    def following(self, order, tips, opened, children):
        """The next of the opened ones, which have the place and the number by which they were named last, if they were; `children` counts
        those that are still to come."""
        if order == b"breadth":
            return next(iter(opened))
        if order in (b"newest", b"oldest"):
            return self.only(min if order == b"oldest" else max, opened)
        ready = [it for it in opened if not children[it]]
        if order == b"date":
            return self.only(max, ready)
        named = [it for it in ready if opened[it]]
        return max(named, key=opened.get) if named else max(ready, key=lambda it: (self.times[it], tips.index(it)))

    def only(self, choose, some):
        time = choose(self.times[it] for it in some)
        (one,) = {it for it in some if self.times[it] == time}
        return one


class Plain:
    """A repository: objects by id, names, logs, and HEAD's branch. Its tags say the commits that they are of. Of its files it knows which
    names have a record alone, and the records of `packed-refs`, if that exists."""

    def __init__(self, kind):
        self.kind, self.objects, self.names, self.logs, self.commits, self.tags = kind, {}, {}, {}, {}, {}
        self.branch, self.packed_alone, self.records = b"refs/heads/main", set(), None
        self.null = b"0" * (40 if kind == "sha1" else 64)

    def id(self, object, content):
        text = b"%s %d\0" % (object, len(content)) + content
        return hashlib.new(self.kind, text).hexdigest().encode(), text

    def put(self, object, content):
        refuse_where(len(content) > LIMIT, "TooLarge")
        digits, text = self.id(object, content)
        self.objects[digits] = text
        return digits

    def tree(self, files):
        """Stores the trees of these files, from paths to modes and ids."""
        entries, below = [], {}
        for path, (mode, digits) in files.items():
            first, slash, rest = path.partition(b"/")
            if slash:
                below.setdefault(first, {})[rest] = (mode, digits)
            else:
                entries.append((first, first, mode, digits))
        entries += [(first + b"/", first, b"40000", self.tree(rest)) for first, rest in below.items()]
        return self.put(b"tree", b"".join(b"%s %s\0" % (mode, name) + bytes.fromhex(digits.decode())
                                          for _, name, mode, digits in sorted(entries)))

    def resolve(self, word):
        return self.resolved([word])[0]

    def read(self, word):
        """The commit that a word means, or why it means none."""
        if word == b"HEAD":
            return self.held(self.branch) or "UnbornHead"
        name = self.candidate(word)
        if name is not None:
            return self.held(name)
        found = self.begun(word)
        if len(found) != 1:
            return "AmbiguousWord" if found else "UnknownWord"
        return self.peeled(found[0]) or "NotACommit"

    def peeled(self, digits):
        """The commit that an id means, if it does: a commit for itself, a tag for the one that it is of."""
        return digits if digits in self.commits else self.tags.get(digits)

    def held(self, name):
        """The commit that a name means, if it exists."""
        return self.peeled(self.names.get(name))

    def begun(self, word):
        """The ids that begin with a word, where it is a short id."""
        is_short = 4 <= len(word) <= len(self.null) and re.fullmatch(rb"[0-9a-fA-F]+", word)
        return [it for it in self.objects if it.startswith(word.lower())] if is_short else []

    def candidate(self, word):
        """The first of a word's names that exists, if one does."""
        names = [b"refs/%s", b"refs/tags/%s", b"refs/heads/%s", b"refs/remotes/%s", b"refs/remotes/%s/HEAD"]
        found = ([word] if word.startswith(b"refs/") else []) + [it % word for it in names]
        return next((name for name in found if name in self.names), None)

    def resolved(self, words):
        """The commits of some words: all of them are tested for one cause before the next one."""
        found = [self.read(word) for word in words]
        for cause in ("UnknownWord", "AmbiguousWord", "UnbornHead", "NotACommit"):
            refuse_where(cause in found, cause)
        return found

    def commit(self, name, expect, parents, edits, author, committer, message):
        name = self.branch if name == b"HEAD" else name
        refuse_where(not is_name(name), "BadName")
        refuse_where(name.startswith(PRIVATE), "PrivateName")
        words = expect[1:] + parents
        *at, = self.resolved(words + [it[2] for it in edits if it[0] == b"graft"])
        sources, at = at[len(words):], at[:len(words)]
        wanted, at = (at[0], at[1:]) if expect[1:] else (None, at)
        self.expected(name, expect, wanted)
        stands = self.held(name)
        refuse_where(self.in_the_way(name), "Collides")
        refuse_where(stands != self.names.get(name), "HoldsTag")
        parents = ([stands] if stands else []) + at
        refuse_where(len(parents) > 64, "TooManyParents")
        refuse_where(len(set(parents)) < len(parents), "DuplicateParent")
        refuse_where(any(not is_path(it[1]) for it in edits), "BadPath")
        refuse_where(any(it[3] and not is_path(it[3]) for it in edits if it[0] == b"graft"), "BadPath")
        edits = self.found(edits, sources)
        refuse_where(any(not is_path(path) for it in edits if it[0] == b"graft" for path in it[2]), "BadPath")
        kept = dict(self.objects)
        try:
            return self.make(name, parents, edits, author, committer, message)
        except Refused:
            self.objects = kept
            raise

    def expected(self, name, expect, wanted):
        """Refuses if the name isn't as it is expected: new, or at this commit."""
        stands = self.held(name)
        refuse_where(wanted and not stands, "NoSuchName")
        refuse_where(expect == [b"new"] and stands, "Taken")
        refuse_where(wanted and wanted != stands, "NotExpected")

    def found(self, edits, sources):
        """The edits, and of each graft, in place of its word and its source, the files that it puts."""
        sources = iter(sources)
        return [(it[0], it[1], carried(self.commits[next(sources)]["files"], it[1], it[3])) if it[0] == b"graft" else it
                for it in edits]

    def make(self, name, parents, edits, author, committer, message):
        files = dict(self.commits[parents[0]]["files"]) if parents else {}
        folders = {front for it in files for front in fronts(it)}
        for kind, path, *content in edits:
            below = [it for it in files if it.startswith(path + b"/")] if path in folders else []
            refuse_where(kind == b"remove-file" and below, "IsFolder")
            above = [it for it in fronts(path) if it in files] if content else []
            for gone in below + above + [path]:
                files.pop(gone, None)
            if kind == b"graft":
                files.update(content[0])
            elif content:
                files[path] = (MODES[kind], self.id(b"blob", content[0])[0])
            folders.update(front for it in (content[0] if kind == b"graft" else [path]) for front in fronts(it))
        refuse_where(any(it[0] == b"graft" and not it[2] for it in edits), "NoSuchPath")
        refuse_where(any(it[0] == b"" or not is_part(it[0]) or not is_part(it[1]) for it in (author, committer)), "BadActor")
        refuse_where(any(not is_time(*it[2:]) for it in (author, committer)), "BadTime")
        title = message.partition(b"\n")[0]
        refuse_where(not is_title(title), "BadMessage")
        for kind, _, *content in edits:
            for it in content if kind != b"graft" else ():
                self.put(b"blob", it)
        lines = [b"tree " + self.tree(files)] + [b"parent " + it for it in parents]
        lines += [b"%s %s <%s> %s %s" % (who, *actor) for who, actor in ((b"author", author), (b"committer", committer))]
        found = self.put(b"commit", b"\n".join(lines) + b"\n\n" + message)
        self.commits[found] = {"files": files, "tree": lines[0][5:], "parents": parents, "author": author, "committer": committer,
                               "message": message}
        self.hold(name, found, committer, title)
        return b"ok commit %s\n" % found

    def hold(self, name, digits, actor, title):
        """The name holds this id from now on, and its log says so."""
        before = self.names.get(name, self.null)
        if digits != before:
            line = b"%s %s %s <%s> %s %s\t%s\n" % (before, digits, *actor, title)
            self.logs[name] = self.logs.get(name, b"") + line
        self.names[name] = digits
        self.packed_alone.discard(name)

    def forget(self, name):
        """The name goes, with its log and its record."""
        del self.names[name]
        self.logs.pop(name, None)
        self.packed_alone.discard(name)
        (self.records or {}).pop(name, None)

    def pack(self):
        """All names are packed. If all were, as where there are none, nothing is written."""
        if set(self.names) != self.packed_alone:
            self.records, self.packed_alone = dict(self.names), set(self.names)
        return b"ok pack\n"

    def packed_text(self):
        """What `packed-refs` has in it: a record for each name, and after that of a tag the commit that it is of."""
        text = b"# pack-refs with: peeled fully-peeled sorted \n"
        for name, digits in sorted(self.records.items()):
            text += b"%s %s\n" % (digits, name) + (b"^%s\n" % self.tags[digits] if digits in self.tags else b"")
        return text

    def delete(self, name, expect):
        refuse_where(not is_name(name), "BadName")
        refuse_where(name.startswith(PRIVATE), "PrivateName")
        wanted = self.resolved(expect[1:])
        refuse_where(name not in self.names, "NoSuchName")
        refuse_where(wanted not in ([], [self.held(name)]), "NotExpected")
        self.forget(name)
        return b"ok delete\n"

    def rename(self, old, new):
        refuse_where(not is_name(old) or not is_name(new), "BadName")
        refuse_where(old.startswith(PRIVATE) or new.startswith(PRIVATE), "PrivateName")
        refuse_where(old == new, "NameTwice")
        refuse_where(old not in self.names, "NoSuchName")
        refuse_where(new in self.names, "Taken")
        refuse_where(self.in_the_way(new), "Collides")
        self.hold(new, self.names[old], (b"history", b"", b"0", b"+0000"), b"rename")
        self.forget(old)
        return b"ok rename\n"

    def move(self, lines, actor, message):
        names = [name for name, _, _ in lines]
        refuse_where(not all(is_name(name) for name in names), "BadName")
        refuse_where(any(name.startswith(PRIVATE) for name in names), "PrivateName")
        refuse_where(len(set(names)) < len(names), "NameTwice")
        self.resolved([it for _, expect, target in lines for it in expect[1:] + [target]])
        wanted = [(name, self.resolve(expect[1])) for name, expect, _ in lines if expect[1:]]
        refuse_where(any(name not in self.names for name, _ in wanted), "NoSuchName")
        refuse_where(any(name in self.names for name, expect, _ in lines if expect == [b"new"]), "Taken")
        refuse_where(any(self.held(name) != digits for name, digits in wanted), "NotExpected")
        refuse_where(self.in_the_way(*names), "Collides")
        refuse_where(actor[0] == b"" or not is_part(actor[0]) or not is_part(actor[1]), "BadActor")
        refuse_where(not is_time(*actor[2:]), "BadTime")
        refuse_where(not is_title(message) or b"\n" in message, "BadMessage")
        targets = [(name, self.resolve(target)) for name, _, target in lines]
        refuse_where(any(self.names.get(name) == digits for name, digits in targets), "NothingMoves")
        for name, digits in targets:
            self.hold(name, digits, actor, message)
        return b"ok move\n"

    def tag(self, name, expect, target, tagger, message):
        own = name[len(b"refs/tags/"):]
        refuse_where(not is_name(name) or not name.startswith(b"refs/tags/") or own == b"@" or own.startswith(b"-"), "BadName")
        *wanted, commit = self.resolved(expect[1:] + [target])
        self.expected(name, expect, wanted[0] if wanted else None)
        refuse_where(self.in_the_way(name), "Collides")
        refuse_where(tagger[0] == b"" or not is_part(tagger[0]) or not is_part(tagger[1]), "BadActor")
        refuse_where(not is_time(*tagger[2:]), "BadTime")
        title = message.partition(b"\n")[0]
        refuse_where(not is_title(title), "BadMessage")
        text = b"object %s\ntype commit\ntag %s\ntagger %s <%s> %s %s\n\n" % (commit, own, *tagger) + message
        refuse_where(len(text) > LIMIT, "TooLarge")
        refuse_where(self.names.get(name) == self.id(b"tag", text)[0], "NothingMoves")
        found = self.put(b"tag", text)
        self.tags[found] = commit
        self.hold(name, found, tagger, title)
        return b"ok tag %s\n" % found

    def switch(self, name):
        refuse_where(not is_name(name) or not name.startswith(b"refs/heads/"), "BadName")
        refuse_where(name == self.branch, "NothingMoves")
        self.branch = name
        return b"ok switch\n"

    def index(self):
        return b"ok index %d\n" % len(self.commits)

    def row(self, digits):
        """The tree, the parents, the seconds and the generation of a commit."""
        commit, reached = self.commits[digits], {}
        for at in self.commits:
            reached[at] = 1 + max((reached[it] for it in self.commits[at]["parents"]), default=0)
        return commit["tree"], commit["parents"], commit["committer"][2], reached[digits]

    def in_the_way(self, *names):
        """Whether one of these names that doesn't exist is a folder of one that exists or of another of these, or the other way round."""
        all_ = {*self.names, *names}
        listed = sorted(all_)

        def is_folder(name):
            return any(it.startswith(name + b"/") for it in listed[bisect_left(listed, name + b"/"):][:1])

        return any(is_folder(it) or not all_.isdisjoint(fronts(it)) for it in names if it not in self.names)

    def files(self, word):
        files = self.commits[self.resolve(word)]["files"]
        kinds = {mode: kind for kind, mode in MODES.items()}
        lines = [b"%s %s %d\n%s\n" % (kinds[mode], digits, len(path), path) for path, (mode, digits) in sorted(files.items())]
        return b"ok files %d\n" % len(files) + b"".join(lines)

    def show(self, word, path):
        found = self.resolve(word)
        commit = self.commits[found]
        if path is not None:
            return self.content(commit["files"], path)
        lines = [b"ok show commit " + found, b"tree " + commit["tree"], b"parents %d" % len(commit["parents"])]
        lines += [b"parent " + it for it in commit["parents"]]
        for who in ("author", "committer"):
            name, email, seconds, offset = commit[who]
            lines += [b"%s %d %d %s %s" % (who.encode(), len(name), len(email), seconds, offset), name, email]
        return b"\n".join(lines + [b"message %d" % len(commit["message"]), commit["message"], b""])

    def content(self, files, path):
        refuse_where(not is_path(path), "BadPath")
        refuse_where(any(it.startswith(path + b"/") for it in files), "IsFolder")
        refuse_where(path not in files, "NoSuchPath")
        mode, digits = files[path]
        content = self.objects[digits].partition(b"\0")[2]
        kind = {it: kind for kind, it in MODES.items()}[mode]
        return b"ok show content %s %s %d\n%s\n" % (kind, digits, len(content), content)

    def names_in(self, folder):
        refuse_where(folder not in (None, b"refs") and not is_name(folder), "BadName")
        refuse_where((folder or b"").startswith(PRIVATE), "PrivateName")
        found = [it for it in sorted(self.names) if folder is None or it.startswith(folder + b"/")]
        lines = [b"%s %s %s\n" % (self.names[name], self.held(name), name) for name in found]
        return b"ok names %d %s\n" % (len(found), self.branch) + b"".join(lines)

    def past(self, word):
        name = self.branch if word == b"HEAD" else word if is_name(word) else self.candidate(word) or word
        refuse_where(not is_name(name), "BadName")
        refuse_where(name.startswith(PRIVATE), "PrivateName")
        refuse_where(name not in self.names, "NoSuchName")
        moves = [line + b"\n" for line in self.logs.get(name, b"").split(b"\n")[:-1]]
        return b"ok past %d\n" % len(moves) + b"".join(reversed(moves))

    def differs(self, digits, paths):
        """Whether a commit's files at some paths or below them aren't those of its first parent; without one, whether it has some there."""
        commit = self.commits[digits]
        before = self.commits[commit["parents"][0]]["files"] if commit["parents"] else {}
        return at_paths(commit["files"], paths) != at_paths(before, paths)

    def log(self, order, since, first_parents, items, paths):
        targets = self.resolved([target for _, target in items])
        refuse_where(any(not is_path(it) for it in paths), "BadPath")
        refuse_where(since is not None and not is_time(since, b"+0000"), "BadTime")
        hidden = [it for it, (sign, _) in zip(targets, items) if sign == b"-"]
        refuse_where(first_parents and order != b"breadth" and (hidden or order in (b"newest", b"oldest")), "OrderWithParents")
        tips = list(dict.fromkeys(it for it, (sign, _) in zip(targets, items) if sign == b"+"))
        walk = Walk(self.commits, first_parents)
        hides = Walk(self.commits, False).reached(hidden, 0)
        walked = walk.listed(order, tips, walk.reached(tips, int(since or 0)) - hides)
        listed = [it for it in walked if not paths or self.differs(it, paths)]
        return b"ok log %d\n" % len(listed) + b"".join(it + b"\n" for it in listed)

    def run(self, data):
        """How the run ends, and the reply to each command, with where in the input the command ends."""
        reader, replies = Reader(data), []
        while reader.at < len(data):
            try:
                name, *parts = reader.command()
            except Refused as cause:
                return "Refused", replies + [(b"refused %s\n" % str(cause).encode(), len(data))]
            try:
                reply = getattr(self, name)(*parts)
            except Refused as cause:
                reply = b"refused %s\n" % str(cause).encode()
            replies.append((reply, reader.at))
        return "Input", replies
