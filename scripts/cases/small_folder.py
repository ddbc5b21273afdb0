"""A small folder that commands make, by Git's formats and hashlib alone: with each kind of object, names of their own and packed ones, a
name that is both, and logs. The rows over changed files begin with it."""

import hashlib

from folder_causes import Unclear, causes, place

HEADER = b"# pack-refs with: peeled fully-peeled sorted \n"
ONE, TWO = b"A <a@b> 1 +0000", b"Bc <c@d> 23 -0130"
BY_ONE = b"author 1 3 1 +0000\nA\na@b\ncommitter 1 3 1 +0000\nA\na@b\n"
BY_TWO = b"author 1 3 1 +0000\nA\na@b\ncommitter 2 3 23 -0130\nBc\nc@d\n"
STREAM = (b"commit refs/heads/main new\nput file 1 5\na\nhello\nput exec 3 1\nd/b\n1\n" + BY_ONE + b"message 3\none\nend\n"
          b"commit refs/heads/x new\nparent main\n" + BY_ONE + b"message 3\ntwo\nend\n"
          b"tag refs/tags/v new main\ntagger 2 3 23 -0130\nBc\nc@d\nmessage 6\nfirst\n\nend\npack\n"
          b"commit refs/heads/main any\nput link 1 1\na\nd\n" + BY_TWO + b"message 12\nthree\n\nmore\n\nend\n")
LOGS = (b"logs/refs/heads/x", b"logs/refs/tags/v")


class Small:
    """The files of both parts, and the replies."""

    def __init__(self, kind):
        self.kind, self.objects = kind, {}
        hello, one, link = (self.put(b"blob", it) for it in (b"hello", b"1", b"d"))
        inner = self.put(b"tree", self.entry(b"100755 b", one))
        tree = self.put(b"tree", self.entry(b"100644 a", hello) + self.entry(b"40000 d", inner))
        other = self.put(b"tree", self.entry(b"120000 a", link) + self.entry(b"40000 d", inner))
        first = self.put(b"commit", b"tree %s\nauthor %s\ncommitter %s\n\none" % (tree, ONE, ONE))
        side = self.put(b"commit", b"tree %s\nparent %s\nauthor %s\ncommitter %s\n\ntwo" % (tree, first, ONE, ONE))
        tag = self.put(b"tag", b"object %s\ntype commit\ntag v\ntagger %s\n\nfirst\n" % (first, TWO))
        last = self.put(b"commit", b"tree %s\nparent %s\nauthor %s\ncommitter %s\n\nthree\n\nmore\n" % (other, first, ONE, TWO))
        null = b"0" * len(hello)
        self.names = {
            b"HEAD": b"ref: refs/heads/main\n", b"refs/heads/main": last + b"\n",
            b"packed-refs": HEADER + b"%s refs/heads/main\n%s refs/heads/x\n%s refs/tags/v\n^%s\n" % (first, side, tag, first),
            b"logs/refs/heads/main": b"%s %s %s\tone\n%s %s %s\tthree\n" % (null, first, ONE, first, last, TWO),
            LOGS[0]: b"%s %s %s\ttwo\n" % (null, side, ONE), LOGS[1]: b"%s %s %s\tfirst\n" % (null, tag, TWO)}
        self.replies = b"ok commit %s\nok commit %s\nok tag %s\nok pack\nok commit %s\n" % (first, side, tag, last)
        self.first, self.side, self.last, self.tag = first, side, last, tag
        self.changed = [place(it) for it in (hello, tree, last, tag)]

    def entry(self, front, digits):
        return front + b"\0" + bytes.fromhex(digits.decode())

    def put(self, object_, content):
        text = b"%s %d\0" % (object_, len(content)) + content
        digits = hashlib.new(self.kind, text).hexdigest().encode()
        self.objects[place(digits)] = text
        return digits


class Few(Small):
    """A folder of one commit with one file, and a tag."""

    STREAM = (b"commit refs/heads/main new\nput file 1 5\na\nhello\n" + BY_ONE + b"message 3\none\nend\n"
              b"tag refs/tags/v new main\ntagger 1 3 1 +0000\nA\na@b\nmessage 3\ntwo\nend\n")

    def __init__(self, kind):
        self.kind, self.objects = kind, {}
        hello = self.put(b"blob", b"hello")
        tree = self.put(b"tree", self.entry(b"100644 a", hello))
        commit = self.put(b"commit", b"tree %s\nauthor %s\ncommitter %s\n\none" % (tree, ONE, ONE))
        tag = self.put(b"tag", b"object %s\ntype commit\ntag v\ntagger %s\n\ntwo" % (commit, ONE))
        null = b"0" * len(hello)
        self.names = {b"HEAD": b"ref: refs/heads/main\n", b"refs/heads/main": commit + b"\n", b"refs/tags/v": tag + b"\n",
                      b"logs/refs/heads/main": b"%s %s %s\tone\n" % (null, commit, ONE),
                      b"logs/refs/tags/v": b"%s %s %s\ttwo\n" % (null, tag, ONE)}
        self.packed = HEADER + b"%s refs/heads/main\n%s refs/tags/v\n^%s\n" % (commit, tag, commit)
        self.replies = b"ok commit %s\nok tag %s\n" % (commit, tag)
        self.changed = [place(it) for it in (hello, tree, commit, tag)]


def texts(text, choose):
    """What a file is replaced by: nothing, its first half, itself with each byte in turn changed to one of those that `choose` takes, in
    its order, and 4,097 bytes of 255. Each comes with the place that was changed, or none."""
    yield None, b""
    yield None, text[:len(text) // 2]
    for at, byte in enumerate(text):
        for other in choose(at, byte):
            yield at, text[:at] + bytes([other]) + text[at + 1:]
    yield None, b"\xff" * 4097


def other_bytes(at, byte):
    """Bytes in place of one, from place to place another one first: those that are near it, and those that formats are made of."""
    near = [byte ^ 1, byte ^ 32, byte ^ 128, (byte + 1) % 256]
    made_of = list(b"\0\t\n\r x0f/.-<>^~#")
    turned = near[at % 4:] + near[:at % 4] + [made_of[at % len(made_of)], made_of[(at + 5) % len(made_of)]]
    return [it for it in dict.fromkeys(turned) if it != byte]


def judged(small, path, more_of=lambda part: part):
    """What a file is replaced by, with the causes that hold then: for each byte the first change that leaves one cause or none, else the
    first that the rules are clear about. A change that they say nothing of is left out."""
    part = small.objects if path in small.objects else small.names
    objects, names = dict(small.objects), more_of(dict(small.names))
    into, chosen = objects if part is small.objects else names, {}
    for number, (at, text) in enumerate(texts(part[path], other_bytes)):
        key = number if at is None else -1 - at
        if key in chosen and len(chosen[key][1]) < 2:
            continue
        into[path] = text
        try:
            found = causes(small.kind, objects, names)
        except Unclear:
            continue
        if key not in chosen or len(found) < 2:
            chosen[key] = text, found
    return list(chosen.values())


def without_packed_logs(names):
    """The names part in which no log is of a name that has a record alone: a line that goes from `packed-refs` then leaves none over."""
    return {path: text for path, text in names.items() if path not in LOGS}
