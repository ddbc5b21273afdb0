"""Writes the rows of `entries` in stdin and stdout. Trees, their ids and listings, the order of names and what is well-formed come from
git (mktree, cat-file, ls-tree, hash-object, fsck); the error of an entry that isn't one from a reader of git's format in this script."""
import hashlib, itertools, os, re, subprocess, sys, tempfile
from pathlib import Path

sys.path.append(str(Path(__file__).resolve().parents[1]))
from families import write

LENGTH = {"sha1": 20, "sha256": 32}
VARIANTS = {"tree": "Tree", "blob": "Blob", "exe": "BlobExecutable", "link": "Link", "commit": "Commit"}
rows, seen = [], set()


def row(operation, kind, words, answer):
    line = " ".join([operation, kind] + [word.hex() or "-" for word in words])
    if line not in seen:
        seen.add(line)
        rows.append((line, answer))


def shown(data):
    return "".join("\\n" if c == 10 else "\\\\" if c == 92 else chr(c) if 32 <= c <= 126 else "\\x%02x" % c for c in data)


class Git:
    """A repository of one hash function."""

    def __init__(self, kind):
        self.kind = kind
        self.folder = tempfile.mkdtemp()
        self.env = dict(os.environ, GIT_DIR=self.folder + "/.git")
        subprocess.run(["git", "init", "-q", "--object-format=" + kind, self.folder], check=True)
        self.blob = self.run("hash-object", "-w", "--stdin", data=b"hello").decode().strip()
        self.empty = self.run("mktree").decode().strip()
        self.commit = "1" * len(self.blob)

    def run(self, *words, data=b"", check=True):
        done = subprocess.run(["git", *words], input=data, capture_output=True, env=self.env)
        if check and done.returncode:
            raise RuntimeError(done.stderr)
        return done.stdout if check else (done.returncode, done.stdout, done.stderr)

    def line(self, mode, name):
        kind, oid = {"40000": ("tree", self.empty), "160000": ("commit", self.commit)}.get(mode.lstrip("0"), ("blob", self.blob))
        return f"{mode.zfill(6)} {kind} {oid}\t".encode() + name + b"\0"

    def tree(self, entries):
        """The id and the content of the tree that git makes of these modes and names."""
        lines = b"".join(self.line(mode, name) for mode, name in entries)
        oid = self.run("mktree", "-z", "--missing", data=lines).decode().strip()
        return oid, self.run("cat-file", "tree", oid)

    def stored(self, content):
        """The id of a content that git stores as a tree without looking at it."""
        return self.run("hash-object", "-t", "tree", "--literally", "-w", "--stdin", data=content).decode().strip()

    def complaints(self, oid):
        """What git fsck prints of a tree, by the names of its messages."""
        code, out, err = self.run("fsck", "--no-dangling", oid, check=False)
        return set(re.findall(rb"in tree %s: (\w+):" % oid.encode(), out + err))

    def listed(self, oid):
        """The entries as git-ls-tree prints them."""
        out = self.run("ls-tree", "-z", oid)
        return [re.fullmatch(rb"(\d+) \w+ ([0-9a-f]+)\t(.*)", part, re.S).groups() for part in out.split(b"\0")[:-1]]


def read_mode(text):
    if not text or len(text) > 7 or any(c not in b"01234567" for c in text):
        return None
    value = int(text, 8)
    return (value, value == 0o40000 and text[:1] == b"0") if value < 65536 else None


def mode_text(mode):
    return b"0" * mode[1] + b"%o" % mode[0]


def kind_name(value):
    first = value >> 12
    if first == 4:
        return "tree"
    if first == 8:
        return "exe" if value & 0o100 else "blob"
    return "link" if first == 10 else "commit"


def read(kind, content):
    """The entries that begin a content, each with its mode, name and id, and the error of what comes after them."""
    entries = []
    while content:
        text, space, rest = content.partition(b" ")
        mode = read_mode(text) if space else None
        if mode is None:
            return entries, "FieldName"
        name, zero, rest = rest.partition(b"\0")
        if not zero:
            return entries, "LineEnd"
        if len(rest) < LENGTH[kind]:
            return entries, "HexDigits"
        entries.append((mode, name, rest[: LENGTH[kind]]))
        content = rest[LENGTH[kind] :]
    return entries, None


def entry_shown(entry):
    mode, name, oid = entry
    return f"{mode_text(mode).decode()} {kind_name(mode[0])} {oid.hex()} {shown(name)}"


def written(kind, entries):
    content = b"".join(mode_text(m) + b" " + n + b"\0" + i for m, n, i in entries)
    return f"tree {len(content)} " + hashlib.new(kind, b"tree %d\0" % len(content) + content).hexdigest()


def mode_shown(mode):
    value, kind = mode[0], kind_name(mode[0])
    tests = [("tree", kind == "tree"), ("no-tree", kind != "tree"), ("commit", kind == "commit"), ("link", kind == "link"), ("file", value >> 12 == 8), ("executable", kind == "exe"), ("file-or-link", value >> 12 == 8 or kind == "link")]
    text = mode_text(mode).decode()
    return f"{value} {text} {text} {kind} {VARIANTS[kind]}" + "".join(f" {word}{'+' if passes else '-'}" for word, passes in tests)


BAD = {b"badTree", b"treeNotSorted", b"duplicateEntries", b"emptyName", b"fullPathname"}


def tree_rows(git, content):
    """A content as git reads it, if it does."""
    kind = git.kind
    entries, error = read(kind, content)
    if error:
        row("tree", kind, [content], f"refused {error}")
        row("owned", kind, [content], "not owned")
        return
    oid = git.stored(content)
    complaints = git.complaints(oid)
    fine = not complaints & BAD
    if all(e[1] for e in entries):
        listed = git.listed(oid)
        assert [(n, i.hex()) for _, n, i in entries] == [(n, i.decode()) for _, i, n in listed], content
    sign = "+" if fine else "-"
    empty = "+" if not entries else "-"
    listing = "".join("; " + entry_shown(e) for e in entries)
    out = written(kind, entries)
    if all(mode_text(m) == t for (m, _, _), t in zip(entries, texts(content, kind))):
        assert out.split()[2] == oid
    row("tree", kind, [content], f"{len(entries)} entries{listing}; well-formed{sign}; empty{empty}; {out}")
    row("owned", kind, [content], f"{len(entries)} entries; well-formed{sign}; empty{empty}; {out}; alike+")


def texts(content, kind):
    while content:
        text, _, rest = content.partition(b" ")
        yield text
        content = rest.partition(b"\0")[2][LENGTH[kind] :]


def good_trees(git):
    modes = ["100644", "100755", "120000", "40000", "160000"]
    yield []
    for mode in modes:
        yield [(mode, b"a")]
    yield list(zip(modes, [b"a", b"b", b"c", b"d", b"e"]))
    yield [("100644", b"a-b"), ("40000", b"a"), ("100644", b"a.b"), ("100644", b"a0")]
    yield [("100644", b"a"), ("100644", b"a.b"), ("40000", b"a0"), ("40000", b"a.c")]
    yield [("100644", b"with space"), ("100644", b"\xe4\xff"), ("100644", b"tab\there"), ("100644", b"line\nfeed"), ("40000", b"back\\slash")]
    yield [("100644", b"name%d" % n) for n in range(40)] + [("40000", b"tree%d" % n) for n in range(24)]


def malformed(git, entry):
    x, y = bytes.fromhex(git.blob), bytes.fromhex(git.empty)
    one = b"100644 a\0" + x
    yield from [one[:-1], one[:9], one[:8], one[:6], one[:3], b" ", b"100644", b"100644 ", b"100644a\0" + x, b" a\0" + x, b"8 a\0" + x, b"10064x a\0" + x, b"-1 a\0" + x]
    yield from [b"00100644 a\0" + x, b"01006440 a\0" + x, b"200000 a\0" + x, b"777777 a\0" + x, b"1777777 a\0" + x]
    for cut in range(1, len(one), 7):
        yield entry + one[:cut]
    yield one + b"\0"
    yield one + b"40000 d" + y


def odd(git):
    x, y = bytes.fromhex(git.blob), bytes.fromhex(git.empty)
    f = lambda name, mode=b"100644": mode + b" " + name + b"\0" + x
    d = lambda name, mode=b"40000": mode + b" " + name + b"\0" + y
    yield from [f(b""), f(b"a/b"), f(b"/"), f(b"b") + f(b"a"), f(b"a") + f(b"a"), d(b"a") + d(b"a")]
    yield from [f(b"a") + d(b"a"), d(b"a") + f(b"a"), f(b"a") + f(b"a.b") + d(b"a"), f(b"a") + f(b"a-b") + f(b"a.b") + d(b"a") + f(b"a0")]
    yield from [d(b"a") + f(b"a.b"), f(b"a.b") + d(b"a"), f(b"a") + f(b"A"), f(b"") + f(b"a"), f(b"x") + f(b"y") + f(b"x")]
    yield from [d(b"a", b"040000"), d(b"a", b"0040000"), f(b"a", b"0100644"), f(b"a", b"100664"), f(b"a", b"100600"), f(b"a", b"0"), f(b"a", b"177777")]


for kind in LENGTH:
    git = Git(kind)
    for entries in good_trees(git):
        oid, content = git.tree(entries)
        assert not git.complaints(oid) & BAD
        tree_rows(git, content)
        tree_rows(git, content + b"100644") if content else None
    first = git.tree([("100644", b"a")])[1]
    for content in malformed(git, first):
        assert read(kind, content)[1], content
        tree_rows(git, content)
    for content in odd(git):
        tree_rows(git, content)

# ---- the order of names: git sorts what mktree is given
git = Git("sha1")
names = [b"a", b"b", b"a.b", b"a-b", b"a0", b"ab", b"a ", b"a\xff", b"aa", b"A"]
for (a, a_tree), (b, b_tree) in itertools.product(itertools.product(names, (False, True)), repeat=2):
    if a == b and a_tree == b_tree:
        answer = "Equal"
    else:
        content = git.tree([("40000" if a_tree else "100644", a), ("40000" if b_tree else "100644", b)])[1]
        head = (b"40000 " if a_tree else b"100644 ") + a + b"\0"
        answer = "Less" if content.startswith(head) else "Greater"
    row("order", "sha1", [a, b"d" if a_tree else b"", b, b"d" if b_tree else b""], answer)
for one, other, answer in [(b"", b"", "Equal"), (b"", b"a", "Less"), (b"a", b"", "Greater")]:
    row("order", "sha1", [one, b"", other, b""], answer)

# ---- modes
numbers = [0, 1, 0o644, 0o40000, 0o40001, 0o47777, 0o50000, 0o77777, 0o100000, 0o100644, 0o100664, 0o100755, 0o100600, 0o100700, 0o107777, 0o110000, 0o120000, 0o120777, 0o130000, 0o140000, 0o160000, 0o160001, 0o177777]
for number in numbers:
    for text in ("%o" % number, "0%o" % number, "00%o" % number):
        for text in (text.encode(), text.encode() + b" name", text.encode() + b" "):
            mode = read_mode(text.partition(b" ")[0])
            row("mode", "sha1", [text], f"{mode_shown(mode)}; {mode_shown(mode)}" if mode else "none; back " + shown(text))
for text in [b"", b" ", b" 100644", b"8", b"1x", b"100644\n", b"-100644", b"+100644", b"200000", b"777777", b"7777777", b"0000000", b"00000000", b"10064\xb4"]:
    mode = read_mode(text.partition(b" ")[0])
    row("mode", "sha1", [text], f"{mode_shown(mode)}; {mode_shown(mode)}" if mode else "none; back " + shown(text))

# ---- trees that no content spells
for kind, length in LENGTH.items():
    null = b"\0" * length
    for names in [[], [b"a"], [b"a", b"b"], [b"b", b"a"], [b"a", b"a"], [b""], [b"a/b"], [b"a", b"b\0"], [b"\0"], [b"a\0b", b"c"], [b"a", b"b", b"c\0", b"d"]]:
        fine = names == sorted(set(names)) and all(n and b"/" not in n and b"\0" not in n for n in names)
        before = list(itertools.takewhile(lambda n: b"\0" not in n, names))
        entries = [((0o100644, False), n, null) for n in names]
        if before == names:
            end = written(kind, entries)
        else:
            end = f"{sum(len(b'100644 ' + n + b'|' + null) for n in before)} bytes, then refused Filename(NullbyteInFilename)"
        row("made", kind, names, f"{len(names)} entries; well-formed{'+' if fine else '-'}; {end}")

write(__file__, rows)
