"""Writes the rows of `find` in stdin and stdout. Objects, their ids, kinds, sizes, contents and the entries of paths come from git
(hash-object, mktree, commit-tree, mktag, cat-file, ls-tree); what a store that fails and one of none answer is in the README."""
import os, subprocess, sys, tempfile
from pathlib import Path

sys.path.append(str(Path(__file__).resolve().parents[1]))
from families import write

NAMES = {"040000": "tree", "100644": "blob", "100755": "exe", "120000": "link", "160000": "commit"}
rows = []


def shown(data):
    return "".join("\\n" if c == 10 else "\\\\" if c == 92 else chr(c) if 32 <= c <= 126 else "\\x%02x" % c for c in data)


class Git:
    """A repository of one hash function, and the objects that were put into it."""

    def __init__(self, kind):
        self.kind, self.folder, self.objects = kind, tempfile.mkdtemp(), {}
        who = {"NAME": "A U Thor", "EMAIL": "a@example.org", "DATE": "1700000000 +0100"}
        more = {f"GIT_{role}_{word}": text for role in ("AUTHOR", "COMMITTER") for word, text in who.items()}
        self.env = dict(os.environ, GIT_DIR=self.folder + "/.git", **more)
        subprocess.run(["git", "init", "-q", "--object-format=" + kind, self.folder], check=True, capture_output=True)

    def run(self, *words, data=b""):
        return subprocess.run(["git", *words], input=data, capture_output=True, env=self.env, check=True).stdout

    def put(self, *words, data=b""):
        """The id of what this command of git stores."""
        oid = self.run(*words, data=data).decode().strip()
        kind = self.run("cat-file", "-t", oid).decode().strip()
        return self.keep(oid, kind, self.run("cat-file", kind, oid))

    def keep(self, oid, kind, content):
        self.objects[oid] = (kind, content)
        return oid

    def literal(self, kind, content):
        """The id of a content that git stores as an object of the kind without looking at it."""
        words = ("hash-object", "-t", kind, "--literally", "-w", "--stdin")
        return self.keep(self.run(*words, data=content).decode().strip(), kind, content)

    def blob(self, content):
        return self.put("hash-object", "-w", "--stdin", data=content)

    def tree(self, *entries):
        lines = b"".join(f"{mode} {kind} {oid}\t".encode() + name + b"\0" for mode, kind, oid, name in entries)
        return self.put("mktree", "-z", "--missing", data=lines)

    def loose(self, oid):
        kind, content = self.objects[oid]
        return f"{kind} {len(content)}\0".encode() + content

    def entries(self, tree):
        """What is at each path, as git ls-tree prints it, and where it ends for want of a tree."""
        found = {}
        for part in self.run("ls-tree", "-r", "-t", "-z", tree).split(b"\0")[:-1]:
            head, name = part.split(b"\t", 1)
            mode, _, oid = head.decode().split()
            found[name] = f"{NAMES[mode]} {oid} {shown(name.split(b'/')[-1])}"
        return found


def row(operation, git, oid, path, given, answer, broken, never):
    words = [bytes.fromhex(oid), path] + [git.loose(it) for it in given]
    line = " ".join([operation, git.kind] + [word.hex() or "-" for word in words])
    rows.append((line, " | ".join([answer, answer, broken, never, answer])))


def absent(oid):
    return f"refused NotFound {oid}"


FAILED = "refused Failed"


def plain(git, oid, given):
    """Any object: its header, and the object."""
    kind, content = git.objects[oid] if oid in given else (None, None)
    told = f"exists+ {len(content)}; {kind} {len(content)}" if kind else f"exists- none; {absent(oid)}"
    exists = "exists+" if kind else "exists-"
    row("header", git, oid, b"", given, told, f"{exists} {FAILED}; {FAILED}", f"exists- none; {absent(oid)}")
    told = f"{len(content)}; {kind} of {git.kind} {shown(content)}" if kind else f"none; {absent(oid)}"
    row("find", git, oid, b"", given, told, f"{FAILED}; {FAILED}", f"none; {absent(oid)}")


def of_kind(git, oid, given, told):
    """The object looked up as each kind: `told` is what is said of it as its own."""
    kind = git.objects[oid][0] if oid in given else None
    for asked in ("blob", "tree", "commit", "tag"):
        parts = 1 if asked == "blob" else 2
        other = absent(oid) if kind is None else f"refused ObjectKind {oid} is {kind}, not {asked}"
        answer = told if asked == kind else "; ".join([other] * parts)
        row(asked, git, oid, b"", given, answer, "; ".join([FAILED] * parts), "; ".join([absent(oid)] * parts))


def paths(git, tree, given, found, asked, missing={}):
    for path in asked:
        names = [name for name in path.split(b"/") if name]
        whole = b"/".join(names)
        answer = missing.get(whole) or found.get(whole, "none")
        row("path", git, tree, path, given, answer, FAILED, absent(tree))
        told = answer if names == path.split(b"/") else "none"
        row("names", git, tree, path.replace(b"/", b"\n"), given, told, FAILED, absent(tree))


def keep(git, oid):
    kind, content = git.objects[oid]
    null = "0" * len(oid)
    kept = f"{oid}; {oid}; {null}; {oid}; {null}; refused Read; refused Read; " + f"{kind} {len(content)} " * 5
    failed, early = f"{FAILED}; " * 5, "refused Read; " * 2
    words = [b"", b"", git.loose(oid)]
    rows.append((" ".join(["keep", git.kind] + [word.hex() or "-" for word in words]), f"{kept}| {failed}{early}| {failed}{early}"))


def cases(kind):
    git = Git(kind)
    blobs = [git.blob(content) for content in (b"", b"hello", b"a\nb\\\x00\xff", b"x" * 40)]
    empty, hello = blobs[:2]
    link = git.blob(b"target")
    none = git.tree()
    deep = git.tree(("100644", "blob", hello, b"c"), ("100755", "blob", hello, b"run"))
    folder = git.tree(("040000", "tree", deep, b"b"), ("120000", "blob", link, b"l"), ("100644", "blob", empty, b"\xff"))
    root = git.tree(("040000", "tree", folder, b"a"), ("100644", "blob", hello, b"a.b"), ("100644", "blob", hello, b"file"), ("040000", "tree", none, b"none"))
    first = git.put("commit-tree", root, data=b"one\n\nbody\n")
    second = git.put("commit-tree", none, "-p", first, data=b"two")
    merge = git.put("commit-tree", root, "-p", first, "-p", second, data=b"")
    tag = git.put("mktag", data=f"object {first}\ntype commit\ntag v1.0\ntagger A <a@b> 1 +0000\n\nthe tag\n".encode())
    of_tree = git.put("mktag", data=f"object {root}\ntype tree\ntag t\ntagger A <a@b> 1 +0000\n\n".encode())
    all_ = list(git.objects)
    unread = git.literal("tree", b"nothing"), git.literal("commit", b"nothing"), git.literal("tag", b"nothing")
    away = "7" * len(empty)
    for given in (all_, all_[::-1], all_[::2], []):
        for oid in all_ + [away]:
            if oid in git.objects or not given:
                plain(git, oid, given) if oid in git.objects else None
    git.objects[away] = ("blob", b"")
    plain(git, away, all_)
    of_kind(git, away, all_, "")
    del git.objects[away]
    for oid in all_:
        what, content = git.objects[oid]
        if what == "blob":
            told = shown(content)
        elif what == "tree":
            names = [part.split(b"\t", 1)[1] for part in git.run("ls-tree", "-z", oid).split(b"\0")[:-1]]
            told = "".join(shown(name) + " " for name in names) + f"; {len(names)} read"
        elif what == "commit":
            message = content.split(b"\n\n", 1)[1]
            told = f"{shown(message)}; {content.split(bytes([10, 10]), 1)[0].count(bytes([10])) + 2} read"
        else:
            told = f"{content.split(bytes([10]))[2][4:].decode()}; 5 read"
        of_kind(git, oid, all_, told)
        of_kind(git, oid, [], "")
    for oid in all_:
        keep(git, oid)
    for oid in unread:
        of_kind(git, oid, [oid], f"refused Decode {oid} FieldName; 1 read")
    asked = [b"a", b"a.b", b"a/b", b"a/b/c", b"a/b/run", b"a/l", b"a/\xff", b"file", b"none", b"none/x", b"file/x", b"a/l/x", b"a/b/c/d", b"a/x", b"x", b"x/a", b"b", b"", b"/", b"/a/b", b"a//b", b"a/b/", b"//a", b"A"]
    found = git.entries(root)
    paths(git, root, all_, found, asked)
    paths(git, deep, all_, git.entries(deep), [b"c", b"run", b"c/d", b"a", b"run/"])
    paths(git, none, all_, {}, [b"c", b"", b"a/b"])
    missing = {path: absent(deep) for path in (b"a/b/c", b"a/b/run", b"a/b/x")}
    paths(git, root, [it for it in all_ if it != deep], found, [b"a", b"a/b", b"a/b/c", b"a/b/run", b"a/b/x", b"file"], missing)
    wrong = git.tree(("040000", "tree", unread[0], b"bad"), ("100644", "blob", hello, b"x"))
    missing = {b"bad/x": "refused FieldName", b"bad": f"tree {unread[0]} bad", b"x": f"blob {hello} x"}
    paths(git, wrong, [wrong, unread[0]], {}, [b"bad", b"bad/x", b"x", b"y"], missing)
    row("path", git, blobs[1], b"a", all_, f"refused ObjectKind {blobs[1]} is blob, not tree", FAILED, absent(blobs[1]))


for each in ("sha1", "sha256"):
    cases(each)
write(__file__, dict(rows).items())
