"""Writes the rows of `tree` in stdin and stdout. Trees and their ids come from git (mktree, hash-object); the entries of a walk
in depth order are those of `git ls-tree -r -t`, which prints a tree before what lies in it, and those of a walk in breadth order of
`git ls-tree` of each tree in turn."""
import os, random, subprocess, sys, tempfile
from pathlib import Path

sys.path.append(str(Path(__file__).resolve().parents[1]))
from families import write

MODES = {"040000": "tree", "100644": "blob", "100755": "exe", "120000": "link", "160000": "commit"}
KINDS = {"040000": "tree", "160000": "commit"}
rows = []


def shown(data):
    return "".join("\\n" if c == 10 else "\\\\" if c == 92 else chr(c) if 32 <= c <= 126 else "\\x%02x" % c for c in data)


class Git:
    """A repository of one hash function."""

    def __init__(self, kind):
        self.kind, self.folder = kind, tempfile.mkdtemp()
        self.env = dict(os.environ, GIT_DIR=self.folder + "/.git", GIT_CONFIG_GLOBAL="/dev/null", GIT_CONFIG_NOSYSTEM="1")
        subprocess.run(["git", "init", "-q", "--object-format=" + kind, self.folder], check=True, capture_output=True, env=self.env)

    def run(self, *words, data=b""):
        return subprocess.run(["git", *words], input=data, capture_output=True, env=self.env, check=True).stdout

    def blob(self, content):
        return self.run("hash-object", "-w", "--stdin", data=content).decode().strip()

    def tree(self, entries):
        """The tree of these names, each with a mode and an id, or with a further such tree."""
        lines = []
        for name, it in entries.items():
            mode, oid = ("040000", self.tree(it)) if isinstance(it, dict) else it
            lines.append(f"{mode} {KINDS.get(mode, 'blob')} {oid}\t".encode() + name + b"\0")
        return self.run("mktree", "-z", "--missing", data=b"".join(lines)).decode().strip()

    def listed(self, tree, *flags):
        """Mode, id and path of each entry that git-ls-tree says."""
        for part in self.run("ls-tree", "-z", "--full-tree", *flags, tree).split(b"\0")[:-1]:
            head, path = part.split(b"\t", 1)
            mode, kind, oid = head.decode().split()
            yield mode, oid, path

    def depth(self, tree):
        return list(self.listed(tree, "-r", "-t"))

    def breadth(self, tree):
        found, folders = [], [(tree, b"")]
        while folders:
            tree, front = folders.pop(0)
            for mode, oid, path in self.listed(tree):
                found.append((mode, oid, front + path))
                if mode == "040000":
                    folders.append((oid, front + path + b"/"))
        return found

    def trees(self, tree):
        """Each tree at or below it, its id before its content, in hexadecimal digits."""
        ids = dict.fromkeys([tree, *(oid for mode, oid, _ in self.depth(tree) if mode == "040000")])
        return [oid + self.run("cat-file", "tree", oid).hex() for oid in ids]


def told(entries, part):
    return "".join(f" {MODES[mode]} {shown(part(path))} {oid}" for mode, oid, path in entries)


def add(operation, git, root, trees, answer):
    rows.append((" ".join([operation, git.kind, root, *trees]), answer))


def add_walks(git, root):
    trees = git.trees(root)
    for order, entries in (("breadth", git.breadth(root)), ("depth", git.depth(root))):
        add(order, git, root, trees, "whole" + told(entries, lambda path: path))
        add(order + "-names", git, root, trees, "whole" + told(entries, lambda path: path.split(b"/")[-1]))
        add(order + "-untracked", git, root, trees, "whole" + told(entries, lambda path: b""))


def add_asked(git, root):
    """How many trees a walk looks up: the root, and each folder as often as it is named."""
    trees = git.trees(root)
    for order, entries in (("breadth", git.breadth(root)), ("depth", git.depth(root))):
        count = 1 + sum(mode == "040000" for mode, _, _ in entries)
        add(order + "-asked", git, root, trees, f"whole asked {count}" + told(entries, lambda path: b""))


def names(path):
    return tuple(path.split(b"/"))


def add_paths(git, root, paths):
    """The entry at each path, and how many trees are looked up: those that something longer among the paths begins with."""
    there = {names(path): f" {MODES[mode]} {oid}" for mode, oid, path in git.depth(root)}
    folders = {()} | {names(path) for mode, oid, path in git.depth(root) if mode == "040000"}
    fronts = {names(path)[:k] for path in paths for k in range(len(names(path)))} & folders
    answer = f"{len(fronts)} of {len(fronts)}" + "".join(there.get(names(path), " none") for path in paths)
    words = b"".join(path + b"\0" for path in paths).hex() or "-"
    rows.append((" ".join(["paths", git.kind, root, words, *git.trees(root)]), answer + " again " + answer))


def any_paths(git, root, chance):
    """Paths that exist, what begins them, and such as don't exist, in any order, some of them twice."""
    stand = [path for _, _, path in git.depth(root)]
    some = [chance.choice(stand) for _ in range(chance.randint(0, 6))] if stand else []
    some += [chance.choice(stand) + chance.choice([b"/a", b"/lib/a", b"a", b"/", b"//b"]) for _ in range(2 if stand else 0)]
    some += [chance.choice([b"a", b"a/b", b"nope", b"", b"/", b"a//b", b"lib/src/a", b"z/z/z"]) for _ in range(chance.randint(0, 3))]
    chance.shuffle(some)
    return some


def any_tree(git, blobs, chance, depth):
    names = [b"a", b"b", b"a.b", b"a0", b"a-b", b"z", b"\xc3\xa4", b"with space", b"A", b"lib", b"src"]
    entries = {}
    for name in chance.sample(names, chance.randint(0, 5)):
        if depth and chance.random() < 0.5:
            below = any_tree(git, blobs, chance, depth - 1)
            entries[name] = below if below else (chance.choice(["100644", "100755", "120000"]), chance.choice(blobs))
        else:
            mode = chance.choice(["100644", "100755", "120000", "160000"])
            entries[name] = (mode, "d" * len(blobs[0]) if mode == "160000" else chance.choice(blobs))
    return entries


def main():
    for kind in ("sha1", "sha256"):
        git, chance = Git(kind), random.Random(7)
        blobs = [git.blob(text) for text in (b"", b"1", b"hello\n")]
        file = ("100644", blobs[1])
        nested = {b"a": {b"x": file}, b"b": file}
        for entries in ({}, {b"a": file}, nested, {b"a": {b"b": {b"c": {b"d": file}}}}, {b"a": {b"x": file}, b"b": {b"x": file}}):
            add_walks(git, git.tree(entries))
            add_asked(git, git.tree(entries))
        for _ in range(40):
            add_walks(git, git.tree(any_tree(git, blobs, chance, 4)))
        # what is at several paths
        for paths in ([], [b""], [b"a"], [b"a", b"b"], [b"a/x", b"a", b"a/y", b"a/x"], [b"a/x/q", b"b/q", b"c/q"]):
            add_paths(git, git.tree(nested), paths)
            add_paths(git, git.tree({}), paths)
        for _ in range(60):
            root = git.tree(any_tree(git, blobs, chance, 4))
            add_paths(git, root, any_paths(git, root, chance))
        root = git.tree({b"a": {b"shut": {b"x": file}, b"y": file, b"z": file}, b"b": file})
        depth, breadth = git.depth(root), git.breadth(root)
        add_walks(git, root)
        add_asked(git, root)
        # copies say the same: the path `a`, `a/b` that is queued, and the entries; buffers are empty when they are taken
        add("depth-copied", git, root, git.trees(root), "0 0 a a/b" + told(depth, lambda path: path))
        add("breadth-copied", git, root, git.trees(root), "a a/b" + told(breadth, lambda path: path))
        # a tree that isn't there comes at its turn
        root = git.tree({b"a": {b"x": file}, b"b": file})
        whole = git.trees(root)
        missing = f"refused Find(NotFound {{ oid: {'Sha1' if kind == 'sha1' else 'Sha256'}({git.depth(root)[0][1]}) }})"
        add("depth", git, root, whole[:1], missing + told(git.depth(root)[:1], lambda path: path))
        add("breadth", git, root, whole[:1], missing + told([it for it in git.breadth(root)][:2], lambda path: path))
        again = missing.replace("refused", "2 of 2 refused")
        rows.append((" ".join(["paths", kind, root, b"b\0a/x\0a/y\0".hex(), whole[0]]), again + " again " + again))
        # a tree under itself, which no digest has: the content of one tree exists under the id that it names
        inner = git.depth(root)[0][1]
        content = git.run("cat-file", "tree", root).hex()
        add("depth", git, inner, [inner + content], "refused Cycle" + told([("040000", inner, b"a")], lambda path: path))
        looped = [("040000", inner, b"a"), ("100644", blobs[1], b"b"), ("040000", inner, b"a/a"), ("100644", blobs[1], b"a/b")]
        add("breadth", git, inner, [inner + content], "refused Cycle" + told(looped, lambda path: path))
        # an entry cut short
        cut = git.trees(git.tree({b"a": file, b"b": file}))[0]
        first = [("100644", blobs[1], b"a")]
        end = "1 of 1 refused ObjectDecode(HexDigits)"
        rows.append((" ".join(["paths", kind, cut[: 2 * (20 if kind == "sha1" else 32)], b"a\0".hex(), cut[:-2]]), end + " again " + end))
        add("depth", git, cut[: 2 * (20 if kind == "sha1" else 32)], [cut[:-2]], "refused ObjectDecode(HexDigits)" + told(first, lambda path: path))
    write(__file__, rows)


main()
