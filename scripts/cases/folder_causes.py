"""Which causes hold of a folder, by docs/PROTOCOL.md and Git's formats alone: the judge of rows over changed files. It shares no code with
the plain repository of history_cases/plain.py.

A cause is its name and its values, as `history check` reports them. If an object's file is damaged, what its content says counts all the same,
so several causes may hold; and an object is missing only if no file is at its place. Names count if the objects have no cause,
since those are surveyed first."""

import hashlib
import re

LIMIT = 2 ** 24
KINDS = (b"blob", b"tree", b"commit", b"tag")
ENTRY_KINDS = {b"40000": b"tree", b"100644": b"blob", b"100755": b"blob", b"120000": b"blob"}
PRIVATE = (b"refs/bisect/", b"refs/worktree/", b"refs/rewritten/")
SIZES = {"sha1": 40, "sha256": 64}
PACKED_HEADER = b"# pack-refs with:"


class Unclear(Exception):
    """The rules don't say what is to be made of a file."""


def causes(kind, objects, names, folders=()):
    """The causes that hold of the two parts: files by their paths, and paths of folders of both."""
    found = of_objects(kind, objects) | {(b"Stray", it) for part, it in folders if part == "objects" and not is_object_folder(it)}
    stored = {} if found else {digits: header(objects[place(digits)])[0] for digits in map(digits_at, objects)}
    return found or Names(kind, names, stored, objects).causes() | {(b"Stray", it) for part, it in folders
                                                                     if part == "names" and not is_name_folder(it)}


def place(digits):
    return b"objects/" + digits[:2] + b"/" + digits[2:]


def digits_at(path):
    return path[8:10] + path[11:]


def is_object_folder(path):
    return bool(re.fullmatch(rb"objects(/[0-9a-f]{2})?", path))


def is_name_folder(path):
    return bool(re.fullmatch(rb"(refs|logs)(/.*)?", path, re.S)) and not path.endswith(b".lock")


# ---- objects

def header(text):
    """The kind and the content of an object's text, or none."""
    front, zero, content = text.partition(b"\0")
    kind, space, length = front.partition(b" ")
    good = zero and space and kind in KINDS and length == b"%d" % len(content)
    return (kind, content) if good else None


def of_objects(kind, files):
    found = set()
    for path, text in files.items():
        if path == b"objects/unfinished":
            found.add((b"Unfinished", path))
        elif not re.fullmatch(rb"objects/[0-9a-f]{2}/[0-9a-f]{%d}" % (SIZES[kind] - 2), path):
            found.add((b"Stray", path))
        else:
            found |= of_object(kind, files, path, text)
    return found


def of_object(kind, files, path, text):
    digits = digits_at(path)
    object_, content = header(text) or (None, text)
    found = {(b"TooLarge", path)} if len(content) > LIMIT else set()
    if object_ is None:
        return found | {(b"BadObject", path)}
    found |= {(b"WrongId", path)} if hashlib.new(kind, text).hexdigest().encode() != digits else set()
    empty = hashlib.new(kind, b"tree 0\0").hexdigest().encode()
    if digits.strip(b"0") == b"" or digits == empty and text != b"tree 0\0":
        found.add((b"IdReserved",))
    named = {b"blob": lambda *_: [], b"tree": of_tree, b"commit": of_commit, b"tag": of_tag}[object_](kind, content)
    if named is None:
        return found | {malformed(kind, object_, content, digits, path)}
    for other, as_kind in named:
        there = files.get(place(other))
        if there is None:
            found.add((b"Missing", other, digits))
        elif header(there) and header(there)[0] != as_kind:
            found.add((b"WrongKind", other, digits))
    return found | ({(b"BadTree", digits)} if object_ == b"tree" and longest(kind, files, content) > 4096 else set())


def malformed(kind, object_, content, digits, path):
    """The cause of an object that isn't in written form."""
    if object_ == b"tree":
        return (b"BadTree", digits)
    if is_before_1970(kind, object_, content):
        return (b"BadTime", digits)
    if object_ == b"tag" and re.match(rb"object .*\ntype (blob|tree|tag)\n", content):
        return (b"BadTag", digits)
    return (b"BadObject", path)


def is_before_1970(kind, object_, content):
    """Whether it is a commit by Git's format, or has the lines of a tag of a commit, and the seconds of a time have a minus."""
    digits, actor = b"[0-9a-fA-F]{%d}" % SIZES[kind], rb"[^<\n]* <[^\n]*> (-?\d+) [+-]\d{4}"
    header = rb"[^ \n]+ [^\n]*\n(?: [^\n]*\n)*"
    forms = {
        b"commit": rb"tree %s\n(?:parent %s\n)*author %s\ncommitter %s\n(?:%s)*\n(?s:.*)" % (digits, digits, actor, actor, header),
        b"tag": rb"object .*\ntype commit\ntag .*\ntagger %s\n\n(?s:.*)" % actor,
    }
    found = re.fullmatch(forms[object_], content) if object_ in forms else None
    seconds = found.groups() if found else ()
    return any(it.startswith(b"-") for it in seconds) and all(-2 ** 63 <= int(it) < 2 ** 63 for it in seconds)


def longest(kind, files, content):
    """The length of the longest path below a tree, whose trees aren't below themselves."""
    found = 0
    for name, mode, digits in entries(kind, content) or []:
        _, below = header(files.get(place(digits), b"")) or (None, b"")
        more = longest(kind, files, below) if mode == b"40000" else 0
        found = max(found, len(name) + (more and more + 1))
    return found


def entries(kind, content):
    """A tree's names, modes and ids; none if it isn't a run of entries."""
    found, size = [], SIZES[kind] // 2
    while content:
        entry = re.match(rb"(\d+) ([^\0/]+)\0(?=.{%d})" % size, content, re.S)
        if not entry:
            return None
        found.append((entry[2], entry[1], content[entry.end():entry.end() + size].hex().encode()))
        content = content[entry.end() + size:]
    return found


def of_tree(kind, content):
    """The objects that a tree names, or none if it isn't in written form."""
    found = entries(kind, content)
    if found is None or any(mode not in ENTRY_KINDS for _, mode, _ in found):
        return None
    keys = [name + (b"/" if mode == b"40000" else b"") for name, mode, _ in found]
    named = [(digits, ENTRY_KINDS[mode]) for _, mode, digits in found]
    empty = (hashlib.new(kind, b"tree 0\0").hexdigest().encode(), b"tree")
    twice = len({name for name, _, _ in found}) < len(found)
    return None if keys != sorted(keys) or twice or empty in named else named


def of_commit(kind, content):
    digits = b"[0-9a-f]{%d}" % SIZES[kind]
    found = re.fullmatch(rb"tree (%s)\n((?:parent %s\n)*)author (.*)\ncommitter (.*)\n\n((?s:.*))" % (digits, digits), content)
    if not found or not is_actor(found[3]) or not is_actor(found[4]) or len(found[5].partition(b"\n")[0]) > 1024:
        return None
    parents = re.findall(digits, found[2])
    return None if len(set(parents)) < len(parents) or len(parents) > 64 else [(found[1], b"tree"), *((it, b"commit") for it in parents)]


def of_tag(kind, content):
    found = re.fullmatch(rb"object ([0-9a-f]{%d})\ntype commit\ntag (.*)\ntagger (.*)\n\n((?s:.+))" % SIZES[kind], content)
    if not found or not is_name(b"refs/tags/" + found[2]) or found[2] == b"@" or found[2].startswith(b"-"):
        return None
    return [(found[1], b"commit")] if is_actor(found[3]) and len(found[4].partition(b"\n")[0]) <= 1024 else None


def is_actor(text):
    found = re.fullmatch(rb"([^<>\0\t\r\n]+) <([^<>\0\t\r\n]*)> (0|[1-9]\d*) ([+-]\d\d[0-5]\d)", text)
    if not found or int(found[3]) >= 2 ** 63 or found[4] == b"-0000":
        return False
    return all(len(it) <= 512 and it == it.strip(b" ") for it in (found[1], found[2]))


# ---- names

def is_name(name):
    return is_full_name(name) and name.startswith(b"refs/")


def is_full_name(name):
    """The rules of git check-ref-format, over UTF-8 text of at most 1,024 bytes; a name of one part is of capital letters."""
    try:
        name.decode()
    except UnicodeDecodeError:
        return False
    if len(name) > 1024 or re.search(rb"[\0-\x20\x7f~^:?*\[\\]|\.\.|@\{", name) or name.endswith(b".") or name == b"@":
        return False
    parts = name.split(b"/")
    good = all(it and not it.startswith(b".") and not it.endswith(b".lock") for it in parts)
    return good and (len(parts) > 1 or bool(re.fullmatch(rb"[A-Z_]+", name)))


class Names:
    """The names part over a store of ids and kinds."""

    def __init__(self, kind, files, stored, objects):
        self.kind, self.files, self.stored, self.objects = kind, files, stored, objects
        self.hex = rb"[0-9a-fA-F]{%d}" % SIZES[kind]
        self.records, self.bad = self.packed(files.get(b"packed-refs", b""))
        self.loose = {it for it in files if it.startswith(b"refs/") and not it.endswith(b".lock")}
        self.standing = self.loose | set(self.records)

    def packed(self, text):
        """The records before the first line that may not be there, and that line's number or none."""
        records, last, sorted_ = {}, None, False
        for number, line in enumerate(text.split(b"\n")[:-1], 1):
            if b"\r" in line:
                return records, number
            if number == 1 and line.startswith(b"#"):
                if not line.startswith(PACKED_HEADER):
                    return records, number
                words = line.removeprefix(PACKED_HEADER).split(b" ")
                if set(words) - {b"", b"peeled", b"fully-peeled", b"sorted"}:
                    raise Unclear
                sorted_ = b"sorted" in words
                continue
            peeled, record = re.fullmatch(rb"\^(%s)" % self.hex, line), re.fullmatch(rb"(%s) (\S.*)" % self.hex, line, re.S)
            if peeled and last and records[last][1] is None:
                records[last] = (records[last][0], peeled[1].lower())
            elif not record or not is_name(record[2]) or record[2] in records or sorted_ and last and record[2] < last:
                return records, number
            else:
                last = record[2]
                records[last] = (record[1].lower(), None)
        return records, text.count(b"\n") + 1 if text and not text.endswith(b"\n") else None

    def causes(self):
        found = self.of_head() | ({(b"BadPacked", b"%d" % self.bad)} if self.bad else set())
        for path in set(self.files) - {b"HEAD", b"packed-refs"}:
            if path.endswith(b".lock"):
                found.add((b"Unfinished", path))
            elif path.startswith(b"refs/"):
                found |= self.of_name(path, self.files[path])
            elif path.startswith(b"logs/"):
                found |= self.of_log(path, self.files[path])
            else:
                found.add((b"Stray", path))
        for name, (digits, peeled) in self.records.items():
            found |= self.of_record(name, digits, peeled)
        fronts = ((other[:it.start()], other) for other in self.standing for it in re.finditer(b"/", other))
        return found | {(b"Collides", one, other) for one, other in fronts if one in self.standing}

    def of_head(self):
        text = self.files.get(b"HEAD")
        branch = re.fullmatch(rb"ref: (refs/heads/.*)\n", text or b"", re.S)
        return {(b"NoHead",)} if text is None else set() if branch and is_name(branch[1]) else {(b"BadHead",)}

    def of_name(self, name, text):
        found = set() if is_name(name) else {(b"BadName", name)}
        found |= {(b"PrivateName", name)} if name.startswith(PRIVATE) else set()
        symbolic, held = re.fullmatch(rb"ref: (.*)\n", text, re.S), re.fullmatch(rb"(%s)\n" % self.hex, text)
        if symbolic and is_full_name(symbolic[1]):
            return found | {(b"Symbolic", name)} | (set() if is_name(symbolic[1]) else {(b"BadName", name)})
        return found | (self.held(name, held[1].lower()) if held else {(b"BadName", name)})

    def held(self, name, digits):
        kind = self.stored.get(digits)
        return {(b"Missing", digits, name)} if kind is None else set() if kind in (b"commit", b"tag") else {(b"WrongKind", digits, name)}

    def of_record(self, name, digits, peeled):
        found = {(b"PrivateName", name)} if name.startswith(PRIVATE) else set()
        found |= set() if name in self.loose else self.held(name, digits)
        if peeled is None:
            return found
        tag = self.stored.get(digits) == b"tag" and header(self.objects[place(digits)])[1].startswith(b"object " + peeled + b"\n")
        return found if tag else found | {(b"BadPeeled", name)}

    def of_log(self, path, text):
        standing = self.loose if self.bad else self.standing
        found = set() if path[5:] in standing and is_name(path[5:]) else {(b"LogWithoutName", path)}
        lines = text.split(b"\n")
        for number, line in enumerate(lines, 1):
            if len(line) >= 4096 and (number < len(lines) or len(line) > 4096):
                found |= {(cause, path, b"%d" % number) for cause in (b"BadLog", b"LongLogLine")}
            elif number < len(lines) and not self.is_log_line(line) or number == len(lines) and line:
                found.add((b"BadLog", path, b"%d" % number))
        return found

    def is_log_line(self, line):
        found = re.fullmatch(rb"[0-9a-f]{%d} [0-9a-f]{%d} ([^\t]*)\t(.*)" % (SIZES[self.kind], SIZES[self.kind]), line, re.S)
        return bool(found) and is_actor(found[1]) and len(found[2]) <= 1024


# ---- how a cause is reported

def as_word(cause, word):
    """As `open` reports it in a case: lines and ids as they are."""
    return ":".join([cause[0].decode(), *(word(it) for it in cause[1:])])


def as_line(cause):
    """As `history check` reports it."""
    return b"refused " + b" ".join(cause) + b"\n"
