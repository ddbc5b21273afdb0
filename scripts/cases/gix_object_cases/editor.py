"""Writes the rows of `editor` in stdin and stdout. Trees and their ids come from git (update-index, write-tree, mktree, cat-file,
ls-tree). An edit is made on a map from paths to modes and ids, as git's glossary speaks of files in folders, and git writes the tree."""
import os, random, sys

sys.path.append(os.path.dirname(os.path.dirname(os.path.abspath(__file__))))
import git_repository
from families import write

KINDS = {"100644": "blob", "100755": "exe", "120000": "link", "160000": "commit", "40000": "tree"}
rows = []


class Git(git_repository.Git):
    """A repository whose paths are tuples of names."""

    def __init__(self, kind):
        super().__init__(kind)
        self.empty = self.id("mktree")

    def tree(self, files):
        return super().tree({b"/".join(path): file for path, file in files.items()})

    def trees(self, oid):
        """The contents of the trees below one."""
        return {self.content(found) for mode, found, _ in self.listed(oid) if mode == "040000"}

    def entry(self, oid, path):
        mode, found = super().entry(oid, b"/".join(path)) or ("none", "")
        return f"{mode.lstrip('0')} {found}".strip()


def begins(p, q):
    return q[: len(p)] == p


def removed(files, path):
    return {q: file for q, file in files.items() if not begins(path, q)}


def put(files, path, below):
    kept = {q: file for q, file in files.items() if not begins(path, q) and not begins(q, path)}
    kept.update({path + q: file for q, file in below.items()})
    return kept


def path_word(path):
    return "/".join(name.hex() for name in path) if path else "-"


def upsert(path, mode, oid):
    return f"upsert:{path_word(path)}:{KINDS[mode]}:{oid}"


def below(files, base):
    """The files below a folder."""
    return {q[len(base) :]: file for q, file in files.items() if begins(base, q) and q != base}


def cleared(files, base):
    """Without the files at a beginning of a path."""
    return {q: file for q, file in files.items() if not begins(q, base)}


def row(git, root, more, edits, answers):
    trees = ",".join(sorted(content.hex() for content in git.trees(root) | set().union(*[git.trees(t) | {git.content(t)} for t in more])))
    rows.append((" ".join([git.kind, git.content(root).hex() or "-", trees or "-"] + edits), " ".join(answers)))


NAMES = [b"a", b"a.b", b"a0", b"a-b", b"b", b"c", b"\xff", b"a b", b"A"]


def some_path(chance, names):
    return tuple(chance.choice(names) for _ in range(chance.choice([1, 1, 2, 2, 2, 3, 4])))


def some_files(git, chance, names, most):
    files = {}
    for _ in range(chance.randrange(most)):
        files = put(files, some_path(chance, names), {(): (chance.choice(list(KINDS)[:4]), chance.choice(git.blobs))})
    return files


def random_edits(git, chance, names, files, edits, answers, more):
    """Edits of these files, one after another, which are answered as they are then."""
    for _ in range(chance.randrange(1, 8)):
        path = some_path(chance, names)
        what = chance.choice(["put", "put", "put", "null", "tree", "remove", "leaf", "write"])
        if what == "put":
            mode, oid = chance.choice(list(KINDS)[:4]), chance.choice(git.blobs)
            files = put(files, path, {(): (mode, oid)})
            edits.append(upsert(path, mode, oid))
        elif what == "null":
            files = put(files, path, {})
            edits.append(upsert(path, chance.choice(list(KINDS)), git.null))
        elif what == "tree":
            below = some_files(git, chance, names, 5)
            tree = git.tree(below)
            if tree == git.empty:
                continue
            more.append(tree)
            files = put(files, path, below)
            edits.append(upsert(path, "40000", tree))
        elif what == "remove":
            files = removed(files, path)
            edits.append(f"remove:{path_word(path)}")
        elif what == "leaf":
            edits.append(f"remove_leaf:{path_word(path)}")
            if any(begins(path, q) and q != path for q in files):
                answers.append(f"CannotRemoveNonLeaf({path[-1].hex()})")
                continue
            files = removed(files, path)
        else:
            edits.append("write")
            answers.append(f"{git.tree(files)} known+")
            continue
        answers.append("ok")
    return files


def random_row(git, chance):
    names = chance.sample(NAMES, chance.choice([2, 3, 5]))
    files = some_files(git, chance, names, 12)
    root = git.tree(files)
    edits, answers, more = [], [], []
    files = random_edits(git, chance, names, files, edits, answers, more)
    row(git, root, more, edits + ["write"], answers + [f"{git.tree(files)} known+"])


def root_row(git, chance):
    """Edits of one tree, and then of others."""
    names = chance.sample(NAMES, chance.choice([2, 3, 5]))
    files = some_files(git, chance, names, 12)
    root = git.tree(files)
    edits, answers, more = [], [], []
    for _ in range(chance.choice([1, 2])):
        random_edits(git, chance, names, files, edits, answers, more)
        files = some_files(git, chance, names, 12)
        more.append(git.tree(files))
        edits.append(f"root:{git.content(more[-1]).hex() or '-'}")
        answers.append("ok")
    files = random_edits(git, chance, names, files, edits, answers, more)
    row(git, root, more, edits + ["write"], answers + [f"{git.tree(files)} known+"])


def cursor_row(git, chance):
    """Edits below cursors, each of which is at some folder."""
    names = chance.sample(NAMES, chance.choice([2, 3]))
    files = some_files(git, chance, names, 12)
    root = git.tree(files)
    edits, answers = [], []
    for _ in range(chance.randrange(1, 7)):
        base = chance.choice([(), some_path(chance, names)[:2]])
        path = some_path(chance, names)[:2]
        what = chance.choice(["put", "put", "remove", "leaf", "get", "write"])
        if what == "get" and base + path[:1] not in files:
            continue
        files = cleared(files, base)
        if what == "put":
            mode, oid = chance.choice(list(KINDS)[:4]), chance.choice(git.blobs)
            files = put(files, base + path, {(): (mode, oid)})
            edits.append(f"at:{path_word(base)}:{upsert(path, mode, oid)}")
            answers.append("ok")
        elif what == "remove":
            files = removed(files, base + path)
            edits.append(f"at:{path_word(base)}:remove:{path_word(path)}")
            answers.append("ok")
        elif what == "leaf":
            edits.append(f"at:{path_word(base)}:remove_leaf:{path_word(path)}")
            if below(files, base + path):
                answers.append(f"CannotRemoveNonLeaf({path[-1].hex()})")
                continue
            files = removed(files, base + path)
            answers.append("ok")
        elif what == "get":
            mode, oid = files[base + path[:1]]
            edits.append(f"at:{path_word(base)}:get:{path_word(path[:1])}")
            answers.append(f"{mode} {oid}")
        else:
            edits.append(f"at:{path_word(base)}:write:-")
            answers.append(git.tree(below(files, base)))
    row(git, root, [], edits + ["write"], answers + [f"{git.tree(files)} known+"])


def count_rows(git):
    """How many trees are handed out: those of edited folders, and the root."""
    x, y = git.blobs[0], git.blobs[1]
    nested = git.tree({(b"a", b"b", b"e"): ("100644", x), (b"a", b"f"): ("100644", y), (b"g",): ("100755", x), (b"h", b"i"): ("100755", y)})
    deep, flat = upsert((b"a", b"b", b"c"), "100644", x), upsert((b"g",), "100644", y)
    leaf, nothing = "remove_leaf:" + path_word((b"a", b"b")), "remove:" + path_word((b"a", b"b", b"z"))
    row(git, nested, [], ["written", deep, "written", "written"], ["1", "ok", "3", "3"])
    row(git, nested, [], [leaf, "written", nothing, "written", flat, "written"], [f"CannotRemoveNonLeaf({b'b'.hex()})", "1", "ok", "1", "ok", "1"])
    again = [upsert((b"a", b"b", b"e"), "100644", x), upsert((b"a", b"f"), "100644", y), upsert((b"h",), "40000", git.entry(nested, (b"h",)).split()[1])]
    row(git, nested, [], again + ["written", upsert((b"a", b"f"), "100755", y), "written"], ["ok"] * 3 + ["1", "ok", "2"])
    row(git, nested, [], [f"at:{path_word((b'a',))}:{upsert((b'f',), '100644', y)}", "written"], ["ok", "1"])
    row(git, nested, [], [f"at:{path_word((b'a',))}:get:{path_word((b'f',))}", "written"], [f"100644 {y}", "1"])
    row(git, nested, [], [f"at:{path_word((b'a',))}:remove:{path_word((b'f',))}", "written"], ["ok", "2"])
    row(git, nested, [], [f"at:{path_word((b'n', b'm'))}:{upsert((b'f',), '100644', x)}", "written"], ["ok", "3"])
    row(git, nested, [], [nothing.replace(b"z".hex(), b"e".hex()), "written", "write"], ["ok", "2", f"{git.tree({(b'a', b'f'): ('100644', y), (b'g',): ('100755', x), (b'h', b'i'): ('100755', y)})} known+"])
    a, b, e, f, g, m, n = (name.encode() for name in "abefgmn")
    null = lambda *path: upsert(path, "100644", git.null)
    get, at = lambda *path: "get:" + path_word(path), lambda *path: "at:" + path_word(path)
    row(git, nested, [], [null(a, b, m), null(n, m, e), "written", get(n), "write"], ["ok", "ok", "1", "none", f"{nested} known+"])
    row(git, nested, [], [null(a, b, e), get(a, b, e), "written"], ["ok", "none", "2"])
    row(git, nested, [], [null(g, m), get(g), "written", "write"], ["ok", "none", "1", f"{git.tree({(a, b, e): ('100644', x), (a, f): ('100644', y), (b'h', b'i'): ('100755', y)})} known+"])
    row(git, nested, [], [f"{at(a, n, m)}:{get(f)}", f"{at(n, m)}:{get(f)}", f"{at(a, b)}:{get(m)}", "written", "write"], ["none"] * 3 + ["1", f"{nested} known+"])
    row(git, nested, [], [f"{at(a, f, m)}:{get(n)}", get(a, f, m), "written"], ["none", f"40000 {git.null}", "2"])
    row(git, nested, [], [f"{at(a, n)}:{upsert((m,), '100644', x)}", get(a, n, m), "written"], ["ok", f"100644 {x}", "3"])
    unchanged_rows(git, nested)


def unchanged_rows(git, nested):
    """Edits that find nothing to change hand out the root alone."""
    x, y = git.blobs[0], git.blobs[1]
    a, b, e, f, g, h, i, m, n = (name.encode() for name in "abefghimn")
    null = lambda *path: upsert(path, "100644", git.null)
    at = lambda *path: "at:" + path_word(path)
    remove, leaf = lambda *path: "remove:" + path_word(path), lambda *path: "remove_leaf:" + path_word(path)
    tree = upsert((h,), "40000", git.entry(nested, (h,)).split()[1])
    still = lambda edits, answers: row(git, nested, [], edits + ["written", "write"], answers + ["1", f"{nested} known+"])
    for path in [(n,), (n, m), (a, m), (a, b, m), (a, b, m, n), (a, f, m), (g, m), (h, i, m)]:
        still([remove(*path), leaf(*path)], ["ok", "ok"])
    for path in [(n,), (n, m), (a, m), (a, b, m), (a, b, m, n), (h, m, n)]:
        still([null(*path)], ["ok"])
    still([f"{at(a)}:{remove(m)}", f"{at(a)}:{leaf(b, m)}", f"{at(a, b)}:{null(m, n)}"], ["ok"] * 3)
    still([tree, upsert((a, b, e), "100644", x), f"{at(a)}:{upsert((f,), '100644', y)}"], ["ok"] * 3)
    made = f"{at(a, n, m)}:get:{path_word((f,))}"
    for edit in [remove(a, n), leaf(a, n), null(a, n), remove(a, n, m), leaf(a, n, m), null(a, n, m), f"{at(a)}:{remove(n)}", f"{at(a, n)}:{null(m)}"]:
        still([made, edit], ["none", "ok"])
    still([made, remove(a, n, m), remove(a, n), "get:" + path_word((a, n))], ["none", "ok", "ok", "none"])
    still([made, remove(a, n, m, f), null(a, n, f)], ["none", "ok", "ok"])
    row(git, nested, [], [f"{at(a, n)}:{upsert((m,), '100644', x)}", remove(a, n), "written", "write"], ["ok", "ok", "2", f"{nested} known+"])
    row(git, nested, [], [null(a, f, m), "written"], ["ok", "2"])


def root_rows(git):
    """A new root: nothing is left of what was edited, opened or counted before."""
    x, y = git.blobs[0], git.blobs[1]
    a, b, c, e, f, g = (name.encode() for name in "abcefg")
    first = git.tree({(a, b, e): ("100644", x), (a, f): ("100644", y), (g,): ("100755", x)})
    second = git.tree({(a, b, c): ("100755", y), (f,): ("120000", x)})
    set_root = lambda tree: f"root:{git.content(tree).hex() or '-'}"
    get, deep = lambda *path: "get:" + path_word(path), upsert((a, b, c), "100644", x)
    row(git, first, [second], [deep, "lookups", set_root(second), "lookups", get(a, b, c), get(f), "written", "write"], ["ok", "2 asked 2", "ok", "0 asked 2", "none", f"120000 {x}", "1", f"{second} known+"])
    row(git, first, [second], [set_root(second), deep, "lookups", "written", "write"], ["ok", "ok", "2 asked 2", "3", f"{git.tree({(a, b, c): ('100644', x), (f,): ('120000', x)})} known+"])
    row(git, first, [], [deep, set_root(first), "written", deep, "lookups", "write"], ["ok", "ok", "1", "ok", "2 asked 4", f"{git.tree({(a, b, c): ('100644', x), (a, b, e): ('100644', x), (a, f): ('100644', y), (g,): ('100755', x)})} known+"])
    row(git, first, [], [set_root(git.empty), get(a), "written", "write", deep, "write"], ["ok", "none", "1", f"{git.empty} known+", "ok", f"{git.tree({(a, b, c): ('100644', x)})} known+"])


def failing_rows(git):
    """A tree for which an error is answered ends what is handed out, and the files are as they were."""
    x, y = git.blobs[0], git.blobs[1]
    a, b, c, e, f = (name.encode() for name in "abcef")
    root = git.tree({(a, b, e): ("100644", x), (a, f): ("100644", y)})
    edited = git.tree({(a, b, c): ("100644", x), (a, b, e): ("100644", x), (a, f): ("100644", y)})
    deep = upsert((a, b, c), "100644", x)
    for most in range(3):
        row(git, root, [], [deep, f"failing:{most}", "write"], ["ok", f"Out {most}", f"{edited} known+"])
    row(git, root, [], [deep, "failing:3", "failing:1", "written"], ["ok", f"{edited} 3", "Out 1", "3"])


def grafted(git, root, path, mode, oid):
    """The tree that git writes once it has read one into the index at a folder, or a file: the paths on the way and below go first."""
    git.run("read-tree", "--empty")
    git.run("read-tree", root)
    for _, _, q in git.listed(root):
        names = tuple(q.split(b"/"))
        if begins(path, names) or begins(names, path):
            git.run("update-index", "-z", "--force-remove", "--stdin", data=q + b"\0")
    where = b"/".join(path)
    if mode == "40000":
        git.run("read-tree", b"--prefix=" + where + b"/", oid)
    else:
        git.run("update-index", "-z", "--index-info", data=f"{mode} {oid}\t".encode() + where + b"\0")
    made = git.id("write-tree")
    if mode == "40000":
        assert git.run("ls-tree", "-z", "-r", "-t", made + ":" + where.decode("utf-8", "surrogateescape")) == git.run("ls-tree", "-z", "-r", "-t", oid)
    return made


def graft(path, mode, oid):
    return f"graft:{path_word(path)}:{KINDS[mode]}:{oid}"


def random_graft_row(git, chance):
    """Trees and files grafted one after another, from the root and from cursors."""
    names = chance.sample(NAMES, chance.choice([2, 3, 5]))
    root = made = git.tree(some_files(git, chance, names, 12))
    edits, answers, more = [], [], []
    for _ in range(chance.randrange(1, 6)):
        path = some_path(chance, names)
        mode, oid = chance.choice([("40000", git.tree(some_files(git, chance, names, 6)))] * 3 + [(chance.choice(list(KINDS)[:4]), chance.choice(git.blobs))])
        way = chance.randrange(len(path)) if oid != git.empty else 0
        edits.append(f"at:{path_word(path[:way])}:{graft(path[way:], mode, oid)}" if way else graft(path, mode, oid))
        answers.append("EmptyTree" if oid == git.empty else "ok")
        if oid != git.empty:
            made = grafted(git, made, path, mode, oid)
            more.extend([oid] if mode == "40000" else [])
    row(git, root, more, edits + ["write"], answers + [f"{made} known+"])


def graft_rows(git):
    x, y = git.blobs[0], git.blobs[1]
    a, b, c, d, e, f, g, m, n = (name.encode() for name in "abcdefgmn")
    nested = git.tree({(a, b, e): ("100644", x), (a, f): ("100644", y), (g,): ("100755", x)})
    deep = git.tree({(m, n, e): ("120000", y), (n,): ("100644", x)})
    get = lambda *path: "get:" + path_word(path)
    at = lambda *path: "at:" + path_word(path)
    known = lambda path, mode, oid: f"{grafted(git, nested, path, mode, oid)} known+"
    # no tree but those on the way is looked up, and the grafted one only by a later edit that leads into it
    for path, asked in [((d,), 0), ((a,), 0), ((a, c), 1), ((a, b), 1), ((a, b, c), 2), ((a, b, c, d), 2), ((a, f, d), 1), ((g, d, e), 0)]:
        row(git, nested, [deep], [graft(path, "40000", deep), "lookups", get(*path), "write"], ["ok", f"{asked} asked {asked}", f"40000 {deep}", known(path, "40000", deep)])
        into = git.tree({tuple(q.split(b"/")): (mode, oid) for mode, oid, q in git.listed(grafted(git, nested, path, "40000", deep)) if mode != "040000"} | {path + (m, c): ("100644", x)})
        row(git, nested, [deep], [graft(path, "40000", deep), upsert(path + (m, c), "100644", x), "lookups", "write"], ["ok", "ok", f"{asked + 2} asked {asked + 2}", f"{into} known+"])
        for mode, oid in [("100644", y), ("100755", x), ("120000", y)]:
            row(git, nested, [], [graft(path, mode, oid), "lookups", get(*path), "write"], ["ok", f"{asked} asked {asked}", f"{mode} {oid}", known(path, mode, oid)])
    # nothing is looked up at the id, so it needn't exist
    made = grafted(git, nested, (a, c), "40000", deep)
    row(git, nested, [], [graft((a, c), "40000", deep), "lookups", "write"], ["ok", "1 asked 1", f"{made} known-"])
    # the empty tree, whatever the kind; a path that isn't full comes first; nothing is looked up
    for mode in KINDS:
        row(git, nested, [], [graft((a, b, c), mode, git.empty), "lookups", "written", "write"], ["EmptyTree", "0 asked 0", "1", f"{nested} known+"])
        row(git, nested, [], [graft((), mode, git.empty), graft((a, b""), mode, git.empty), graft((), mode, x), "lookups", "write"], ["EmptyPathComponent"] * 3 + ["0 asked 0", f"{nested} known+"])
        row(git, nested, [], [f"{at(a)}:{graft((b, c), mode, git.empty)}", f"{at(a)}:{graft((), mode, git.empty)}", "lookups", "written", "write"], ["EmptyTree", "EmptyPathComponent", "1 asked 1", "1", f"{nested} known+"])
    # a tree on the way that isn't stored
    rows.append((f"{git.kind} {git.content(nested).hex()} - {graft((a, c), '40000', deep)} {graft((a, c), '40000', git.empty)} lookups write", f"FindExistingObject EmptyTree 1 asked 1 {nested} known-"))
    # what is there already, and the null id
    same = graft((a, b), "40000", git.entry(nested, (a, b)).split()[1])
    row(git, nested, [], [same, "lookups", "written", "write"], ["ok", "1 asked 1", "1", f"{nested} known+"])
    left = git.tree({(a, f): ("100644", y), (g,): ("100755", x)})
    row(git, nested, [], [graft((a, b), "40000", git.null), get(a, b), "write"], ["ok", "none", f"{left} known+"])
    # a folder into itself, and one folder at two places
    row(git, nested, [nested], [graft((a, b), "40000", nested), graft((d,), "40000", nested), "lookups", "written", "write"], ["ok", "ok", "1 asked 1", "2", f"{grafted(git, grafted(git, nested, (a, b), '40000', nested), (d,), '40000', nested)} known+"])
    row(git, git.empty, [deep], [graft((a,), "40000", deep), graft((b, c), "40000", deep), "lookups", "write"], ["ok", "ok", "0 asked 0", f"{grafted(git, grafted(git, git.empty, (a,), '40000', deep), (b, c), '40000', deep)} known+"])


def odd_rows(git, content, refusal):
    """Edits through a folder `d` whose content is no well-formed tree, each in an editor of its own."""
    x = git.blobs[0]
    odd = git.odd(content)
    root = b"40000 d\0" + bytes.fromhex(odd)
    whole = git.odd(root)
    at_end, below_it = path_word((b"d",)), path_word((b"d", b"e"))
    for edit in [upsert((b"d", b"e"), "100644", x), "remove:" + below_it, "remove_leaf:" + below_it, "remove_leaf:" + at_end, f"at:{at_end}:get:{below_it}", f"at:{below_it}:remove:{at_end}"]:
        rows.append((f"{git.kind} {root.hex()} {content.hex()} {edit} lookups write", f"{refusal.format(odd)} 1 asked 1 {whole} known+"))
    for edit in ["remove:" + at_end, upsert((b"d",), "100644", x)]:
        gone = git.tree({} if edit.startswith("remove") else {(b"d",): ("100644", x)})
        rows.append((f"{git.kind} {root.hex()} {content.hex()} {edit} lookups write", f"ok 0 asked 0 {gone} known+"))


def chosen_rows(git):
    x, y = git.blobs[0], git.blobs[1]
    nested = git.tree({(b"a", b"b", b"e"): ("100644", x), (b"a", b"f"): ("100644", y), (b"g",): ("100755", x)})
    two = [upsert((b"a", b"b", b"c"), "100644", x), upsert((b"a", b"b", b"d"), "100644", y)]
    row(git, nested, [], two + ["lookups"], ["ok", "ok", "2 asked 2"])
    row(git, nested, [], ["lookups", "get:" + path_word((b"g",)), "get:" + path_word((b"a",)), "get:" + path_word((b"a", b"f")), "lookups"], ["0 asked 0", git.entry(nested, (b"g",)), git.entry(nested, (b"a",)), "none", "0 asked 0"])
    row(git, nested, [], two + ["get:" + path_word((b"a", b"b", b"e")), "get:" + path_word((b"a", b"b", b"c")), "get:" + path_word((b"a", b"f")), "get:" + path_word((b"a", b"b", b"x"))], ["ok", "ok", git.entry(nested, (b"a", b"b", b"e")), f"100644 {x}", git.entry(nested, (b"a", b"f")), "none"])
    for edit in ["upsert:-:blob:" + x, "upsert:61//62:blob:" + x, "remove:-", "remove:61/", "remove_leaf:-"]:
        row(git, nested, [], [edit, "lookups", "write"], ["EmptyPathComponent", "0 asked 0", f"{nested} known+"])
    for path in [(b"a", b"b", b"c"), (b"a", b"b", b"c", b"d")]:
        rows.append((f"{git.kind} {git.content(nested).hex()} - {upsert(path, '100644', x)} write", f"FindExistingObject {nested} known-"))
    for content in [b"100644 b\0" + bytes.fromhex(x) + b"100644 a\0" + bytes.fromhex(y), b"100644 a\0" + bytes.fromhex(x) + b"100644 a\0" + bytes.fromhex(y), b"100644 a/b\0" + bytes.fromhex(x), b"100644 \0" + bytes.fromhex(x)]:
        odd_rows(git, content, "MalformedTree({})")
    for content in [b"100644 a" + bytes.fromhex(x).replace(b"\0", b"0"), b"100644 a\0" + bytes.fromhex(x)[:-1], b"00100644 a\0" + bytes.fromhex(x)]:
        odd_rows(git, content, "FindExistingObject")
    many = git.tree({(b"a",): ("100644", x), (b"a-b",): ("100644", x), (b"a.b",): ("100644", x), (b"a0",): ("100644", x)})
    folder = git.tree({(b"a", b"z"): ("100644", y), (b"a-b",): ("100644", x), (b"a.b",): ("100644", x), (b"a0",): ("100644", x)})
    row(git, many, [], [upsert((b"a", b"z"), "100644", y), "write"], ["ok", f"{folder} known+"])
    row(git, folder, [], [upsert((b"a",), "100644", x), "write"], ["ok", f"{many} known+"])
    row(git, folder, [], ["remove:" + path_word((b"a", b"z")), "write"], ["ok", f"{git.tree({(n,): ('100644', x) for n in (b'a-b', b'a.b', b'a0')})} known+"])
    row(git, nested, [], ["remove:" + path_word((n,)) for n in (b"a", b"g")] + ["write"], ["ok", "ok", f"{git.empty} known+"])


for kind in git_repository.LENGTH:
    git, chance = Git(kind), random.Random("editor " + kind)
    chosen_rows(git)
    for _ in range(250):
        random_row(git, chance)
    count_rows(git)
    for _ in range(60):
        cursor_row(git, chance)
    root_rows(git)
    failing_rows(git)
    for _ in range(40):
        root_row(git, chance)
    graft_rows(git)
    for _ in range(80):
        random_graft_row(git, chance)

write(__file__, rows)
