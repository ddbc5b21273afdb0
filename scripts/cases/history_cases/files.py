"""Writes the rows of `files` in stdin and stdout. Ids of trees and what is read of them come from git (update-index,
write-tree, ls-tree, cat-file, hash-object). An edit is made on a map from paths to modes and ids, as git's glossary speaks of files
in folders, and git writes the tree of what is left. What is counted follows the rules that README.md says."""
import os, random, sys

sys.path.append(os.path.dirname(os.path.dirname(os.path.abspath(__file__))))
from families import write
from git_repository import LENGTH, Git

KINDS = {"100644": "file", "100755": "exec", "120000": "link"}
rows = []


def fronts(path):
    """The folders that a path leads through, from the top down."""
    names = path.split(b"/")
    return [b"/".join(names[:n]) for n in range(1, len(names))]


def within(path, folder):
    return path.startswith(folder + b"/")


def is_path(path):
    return all(path.split(b"/")) and b"\0" not in path


def word_of(edit):
    what, path, *file = edit
    if what == "graft":
        mode, oid = file[0] or (None, None)
        found = f"folder:{oid}" if mode == "040000" else f"{KINDS[mode]}:{oid}" if mode else "none"
        return f"graft:{path.hex() or '-'}:{found}"
    return ":".join([what, *([KINDS[file[0]]] if file else []), path.hex() or "-", *file[1:]])


class Row:
    """A line and its answer, word by word."""

    def __init__(self, git):
        self.git, self.words, self.answers, self.files, self.root = git, [git.kind], [], {}, None

    def end(self):
        rows.append((" ".join(self.words), " ".join(self.answers)))

    def say(self, word, *answers):
        self.words.append(word)
        self.answers.extend(answers)

    def edit(self, edits, fail=0):
        """Edits of the files, which are made if none is refused."""
        self.words += [word_of(edit) for edit in edits]
        if fail:
            self.words.append(f"fail:{fail}")
        made = Made(self.git, self.files, self.root is not None)
        refusal = made.all(edits)
        if fail and fail <= made.asked:
            return self.say("edit", "Failed", "asked", str(fail))
        if refusal:
            return self.say("edit", refusal, "asked", str(made.asked))
        self.files, self.root = made.files, self.git.tree(made.files)
        self.say("edit", self.root, "written", str(1 + made.written()), "lookups", str(made.asked), "asked", str(made.asked), "known+")

    def ask_files(self):
        """All files, with as many askings as there are folders, the root one of them; and with as many as there are different trees."""
        listed = list(self.git.listed(self.root))
        files = sorted((path, KINDS[mode], oid) for mode, oid, path in listed if mode in KINDS)
        folders = [self.root] + [oid for mode, oid, _ in listed if mode == "040000"]
        for word, asked in (("files", len(folders)), ("by-trees", len(set(folders)))):
            self.say(word, "files", str(len(files)), *[f"{kind}:{oid}:{path.hex()}" for path, kind, oid in files], "asked", str(asked))

    def told(self, path):
        """What is at a path."""
        entry = self.git.entry(self.root, path) if is_path(path) else None
        return "none" if not entry else f"folder:{entry[1]}" if entry[0] == "040000" else f"{KINDS[entry[0]]}:{entry[1]}" if entry[0] in KINDS else "none"

    def way(self, path):
        """The folders on the way to a path, the root one of them, as far as it goes."""
        found = [b""]
        for front in fronts(path):
            entry = self.git.entry(self.root, front) if is_path(front) else None
            if not entry or entry[0] != "040000":
                break
            found.append(front)
        return found

    def ask_at(self, path):
        """What is at a path, with a lookup of each folder on the way."""
        self.say(f"at:{path.hex() or '-'}", self.told(path), "asked", str(len(self.way(path))))

    def ask_each(self, paths):
        """What is at each of some paths, with one lookup of each folder on their ways."""
        asked = str(len({folder for path in paths for folder in self.way(path)}))
        self.say(":".join(["each", *[path.hex() or "-" for path in paths]]), *[self.told(path) for path in paths], "told", asked, "asked", asked)


class Made:
    """Edits, one after another. A folder is looked up once, as the first edit leads into it, if it exists as it was stored."""

    def __init__(self, git, files, has_root):
        self.git, self.files, self.asked = git, dict(files), int(has_root)
        self.stored = {front for path in files for front in fronts(path)}
        self.changed = set()

    def all(self, edits):
        """Why they are refused, if they are."""
        if not all(is_path(edit[1]) for edit in edits):
            self.asked = 0
            return "BadPath"
        for edit in edits:
            refusal = self.one(*edit)
            if refusal:
                return refusal
        return "NullId" if any(edit[0] == "put" and edit[3] == self.git.null for edit in edits) else None

    def one(self, what, path, *file):
        if what == "graft" and file[0] and file[0][1] == self.git.tree({}):
            return "EmptyTree"
        for folder in fronts(path) + ([path] if what == "remove-file" else []):
            self.asked += folder in self.stored
            self.stored.discard(folder)
        below = {other for other in self.files if within(other, path)}
        if what == "remove-file" and below:
            return "IsFolder"
        before = self.files
        self.files = {other: one for other, one in before.items() if other != path and other not in below}
        if what == "put":
            self.files = {other: one for other, one in self.files.items() if not within(path, other)}
            self.files[path] = tuple(file)
        if what == "graft":
            self.files = {other: one for other, one in self.files.items() if not within(path, other)}
            self.files.update(self.grafted(path, *file))
        self.stored = {folder for folder in self.stored if folder != path and not within(folder, path)}
        if what == "graft":
            self.changed = {folder for folder in self.changed if folder != path and not within(folder, path)}
            self.stored |= {front for other in self.files if within(other, path) for front in fronts(other) if front == path or within(front, path)}
        if self.files != before:
            self.changed |= set(fronts(path))
        return None

    def grafted(self, path, found):
        """What a graft puts: a file, or the files of a folder, as git lists them; none where nothing was found."""
        if not found:
            return {}
        mode, oid = found
        if mode != "040000":
            return {path: found}
        return {path + b"/" + rest: (one, blob) for one, blob, rest in self.git.listed(oid) if one in KINDS}

    def written(self):
        """How many folders are written: those in which an edit changed something, and that have files."""
        return sum(any(within(path, folder) for path in self.files) for folder in self.changed)


NAMES = [b"a", b"a.b", b"a0", b"a-b", b"b", b"c", b"\xff", b"a b", b"A", b"a.", b"ab"]


def some_path(chance, names):
    return b"/".join(chance.choice(names) for _ in range(chance.choice([1, 1, 2, 2, 2, 3, 3, 4])))


def some_file(git, chance):
    return chance.choice(list(KINDS)), chance.choice(git.blobs)


def some_edit(git, chance, names, files):
    path = some_path(chance, names)
    if files and chance.random() < 0.4:
        path = chance.choice(sorted(files))
        path = chance.choice([path, path, *fronts(path)])
    what = chance.choice(["put", "put", "put", "remove", "remove-file"])
    return (what, path, *some_file(git, chance)) if what == "put" else (what, path)


def begun(git, chance, names):
    """A row whose files are put by its first edits."""
    row = Row(git)
    row.edit([("put", some_path(chance, names), *some_file(git, chance)) for _ in range(chance.randrange(13))])
    return row


def random_row(git, chance):
    names = chance.sample(NAMES, chance.choice([2, 3, 5]))
    row = begun(git, chance, names)
    for _ in range(chance.randrange(1, 4)):
        row.edit([some_edit(git, chance, names, row.files) for _ in range(chance.randrange(8))])
        if chance.random() < 0.3:
            row.ask_files()
        if chance.random() < 0.3:
            row.ask_at(some_path(chance, names))
    row.ask_files()
    row.end()


def cut_row(git, chance):
    """A list of edits that are all accepted, made at once and in two parts from the same root."""
    names = chance.sample(NAMES, chance.choice([2, 3, 5]))
    row = begun(git, chance, names)
    files, root, edits = row.files, row.root, []
    made = Made(git, files, True)
    while len(edits) < 6:
        edit = some_edit(git, chance, names, made.files)
        tried = Made(git, files, True)
        if not tried.all([*edits, edit]):
            edits.append(edit)
            made = tried
    row.edit(edits)
    whole = row.root
    for cut in [chance.randrange(1, 6), chance.randrange(1, 6)]:
        row.files, row.root = files, root
        row.say(f"root:{root}")
        row.edit(edits[:cut])
        row.edit(edits[cut:])
        assert row.root == whole
    row.end()


def failing_row(git, chance):
    """Edits of which one lookup fails, then the same without."""
    names = chance.sample(NAMES, 2)
    row = begun(git, chance, names)
    edits = [some_edit(git, chance, names, row.files) for _ in range(4)]
    for fail in range(1, 4):
        files, root = row.files, row.root
        row.edit(edits, fail)
        row.files, row.root = files, root
        row.say(f"root:{root}")
    row.edit(edits)
    row.end()


def several_row(git, chance):
    """What is at lists of paths: such as exist, what begins them, what is longer, and others, in any order, some of them twice."""
    names = chance.sample(NAMES, chance.choice([2, 3, 5]))
    row = begun(git, chance, names)
    for _ in range(3):
        stand = sorted(row.files) + [front for path in row.files for front in fronts(path)]
        paths = [chance.choice(stand) + chance.choice([b"", b"", b"", b"/" + names[0], b"/"]) for _ in range(chance.randrange(5)) if stand]
        paths += [some_path(chance, names) for _ in range(chance.randrange(1, 4))]
        chance.shuffle(paths)
        row.ask_each(paths)
    row.end()


def edit_row(git, *lists, begin=(), at=()):
    """Lists of edits, one after the other, and then all files."""
    row = Row(git)
    row.edit(list(begin))
    for edits in lists:
        row.edit(edits)
    row.ask_files()
    for path in at:
        row.ask_at(path)
    row.end()


def chosen_rows(git):
    x, y = ("100644", git.blobs[0]), ("100755", git.blobs[1])
    link, null = ("120000", git.blobs[2]), ("100644", git.null)

    def put(path, file=x):
        return ("put", path, *file)

    nested = [put(b"a/b/e"), put(b"a/f", y), put(b"g", link), put(b"h/i", y)]
    edit_row(git)
    edit_row(git, [])
    edit_row(git, [], [], begin=nested)
    edit_row(git, [put(b"a/b/c"), put(b"a/b/d", y)], begin=nested, at=[b"a", b"a/b", b"a/b/c", b"a/b/d", b"a/b/x", b"a/f/x", b"g", b"", b"a//b", b"/a", b"a/", b"h/i/j/k"])
    # A file in the way of a folder, a folder in the way of a file.
    edit_row(git, [put(b"a/f/x/y", link)], [put(b"a")], [put(b"a/a/a/a")], begin=nested)
    edit_row(git, [put(b"a"), put(b"a/b/e"), put(b"a"), put(b"g/g/g")], begin=nested)
    # Folders that are emptied, and one that fills again.
    edit_row(git, [("remove", b"a/b/e")], [("remove", b"a/f")], [("remove", b"g"), ("remove-file", b"h/i")], [put(b"h/i/j")], begin=nested)
    edit_row(git, [("remove", b"a/b/e"), ("remove", b"a/b"), ("remove-file", b"a/b"), put(b"a/b/n")], begin=nested)
    edit_row(git, [put(b"n/m/o"), ("remove", b"n/m/o")], [put(b"n/m/o"), ("remove", b"n")], begin=nested)
    # What exists is put again; only its mode, only its bytes.
    edit_row(git, nested, [put(b"a/b/e", y)], [put(b"a/b/e", ("100755", git.blobs[0]))], [put(b"a/b/e", ("120000", git.blobs[0]))], begin=nested)
    # Removals of nothing, with the folders on their way.
    edit_row(git, [("remove", b"a/b/z"), ("remove-file", b"q"), ("remove", b"q/r/s"), ("remove", b"g/x"), ("remove-file", b"a/f/x")], begin=nested)
    # Names that exist around the slash, and as prefixes of one another.
    around = [put(name) for name in (b"a", b"a-b", b"a.b", b"a0", b"a b", b"ab", b"\xff")]
    edit_row(git, [put(b"a/z", y)], [("remove", b"a/z")], [put(b"a.b/c"), put(b"a-b/c"), put(b"a0/c")], [("remove", b"a.b"), ("remove-file", b"a b")], begin=around)
    edit_row(git, [put(b"b/" * n + b"a", y) for n in range(1, 12)], [("remove", b"b/b/b/b/b")], [put(b"b/" * 40 + b"a")], begin=around)
    edit_row(git, [put(b"n" * 300 + b"/" + b"m" * 200), put(b"n" * 299)], [("remove", b"n" * 300)])
    # Refusals: the path of any edit first, then in the order of the edits, the null id last.
    for path in [b"", b"/", b"a/", b"/a", b"a//b", b"a\0", b"\0", b"a/\0/b", b"a/b/"]:
        edit_row(git, [put(path)], [("remove", path)], [("remove-file", path)], [("remove-file", b"a"), put(b"n"), ("remove", path)], [put(b"n", null), put(path)], begin=nested)
        edit_row(git, [put(path)], [put(b"n"), ("remove-file", path)])
    edit_row(git, [("remove-file", b"a")], [("remove-file", b"a/b")], [put(b"n/m"), ("remove-file", b"n")], [put(b"n"), ("remove-file", b"a"), put(b"o")], begin=nested)
    edit_row(git, [("remove", b"a/b/e"), ("remove-file", b"a/b")], [("remove", b"a/f"), ("remove-file", b"a")], begin=nested)
    edit_row(git, [("remove", b"a"), ("remove-file", b"a")], begin=nested)
    edit_row(git, [put(b"n", null)], [put(b"a", null), ("remove", b"a")], [put(b"n/m", null), ("remove-file", b"a")], [put(b"a", null), ("remove-file", b"a")], begin=nested)
    edit_row(git, [put(b"n", null)], [put(b"n", null), ("remove-file", b"n")], [put(b"n/m", null), ("remove-file", b"n")])
    # `.`, `..` and `.git` are names like others here.
    edit_row(git, [put(b"z/y"), put(b"z")], [put(b"\xe2\x82\xac/\xc3\xa4"), put(b"\n/\t")], begin=nested)
    # Each asking of one list fails in turn.
    row = Row(git)
    row.edit(nested)
    for fail in range(1, 6):
        files, root = row.files, row.root
        row.edit([put(b"a/b/c"), put(b"h/i"), ("remove-file", b"a/f")], fail)
        row.files, row.root = files, root
        row.say(f"root:{root}")
    row.ask_files()
    row.end()


def graft_rows(git):
    """Grafts of folders and files of another root, whose trees exist."""
    x, y, link = ("100644", git.blobs[0]), ("100755", git.blobs[1]), ("120000", git.blobs[2])
    library = [("put", b"lib/x", *x), ("put", b"lib/y/z", *y), ("put", b"lib/y/w", *link), ("put", b"q", *y)]
    nested = [("put", b"a/b/e", *x), ("put", b"a/f", *y), ("put", b"g", *link), ("put", b"h/i", *y)]
    given = {path: tuple(file) for _, path, *file in library}
    other = git.tree(given)

    def at(path):
        return git.entry(other, path) if path else ("040000", other)

    def graft(path, source):
        return ("graft", path, at(source))

    lists = [[graft(b"dep", b"lib")], [graft(b"a", b"lib/x")], [graft(b"a", b"")], [graft(b"a/b", b"lib/y"), ("put", b"a/b/n", *x)],
             [graft(b"g/n", b"lib"), ("remove", b"g/n/y/z")], [graft(b"a/f/n", b"q")], [graft(b"n/m", b"lib"), ("remove-file", b"n/m/x")],
             [graft(b"n", b"lib"), ("remove", b"n")], [graft(b"n", b"lib"), graft(b"n/y", b"lib/x"), graft(b"n/y/y", b"lib/y")],
             [graft(b"n", b"lib"), ("remove-file", b"n")], [graft(b"a", b"lib"), ("remove-file", b"a/y")], [graft(b"a", b"lib/x"), ("remove-file", b"a")],
             [("graft", b"a", None)], [("graft", b"g/x", None), ("remove-file", b"h")], [("graft", b"n/m", None), ("put", b"n/o", *x)],
             [("graft", b"n", ("040000", git.tree({})))], [("put", b"n/m", *x), ("graft", b"a/b/c", ("040000", git.tree({}))), ("remove-file", b"a")],
             [graft(b"n", b"lib"), ("put", b"m", "100644", git.null)], [graft(b"", b"lib")], [graft(b"a//b", b"lib")], [graft(b"a", b"lib"), ("remove", b"b/")]]
    for edits in lists:
        row = Row(git)
        row.edit(library)
        row.files, row.root = {}, None
        row.say("root:-")
        row.edit(nested)
        row.edit(edits)
        row.ask_files()
        row.end()
    # What exists is grafted to where it is.
    row = Row(git)
    row.edit(library)
    row.edit([graft(b"lib", b"lib")])
    assert row.root == other
    row.ask_files()
    row.end()


def graft_row(git, chance):
    """Other edits among grafts of what a root before had."""
    names = chance.sample(NAMES, chance.choice([2, 3, 5]))
    row = begun(git, chance, names)
    there, root = sorted(row.files), row.root
    row.files, row.root = {}, None
    row.say("root:-")
    row.edit([("put", b"own/" + some_path(chance, names), *some_file(git, chance)) for _ in range(chance.randrange(6))])
    edits = []
    for _ in range(chance.randrange(1, 6)):
        if there and chance.random() < 0.6:
            path = chance.choice(there)
            source = chance.choice([path, *fronts(path)])
            edits.append(("graft", some_path(chance, names), git.entry(root, source)))
        else:
            edits.append(some_edit(git, chance, names, row.files))
    row.edit(edits)
    row.ask_files()
    row.end()


def stored_rows(git):
    """Roots over stores that lack a tree, or have one that git wouldn't write, or one with other entries."""
    x, y = git.blobs[0], git.blobs[1]
    files = {b"a/b/c": ("100644", x), b"a/d": ("100755", y), b"e/f": ("100644", x), b"g": ("100644", y)}
    root = git.tree(files)
    a, b, e = [git.entry(root, path)[1] for path in (b"a", b"a/b", b"e")]
    put = f"put:file:{{}}:{x}"

    def given(row, trees, top):
        for tree in trees:
            row.say(f"tree:{git.content(tree).hex()}", tree)
        row.say(f"root:{top}")

    def whole(changed, written, asked):
        return [git.tree(changed), "written", str(written), "lookups", str(asked), "asked", str(asked)]

    # Nothing is there.
    row = Row(git)
    row.say(f"root:{root}")
    for word in ["files", f"at:{b'a'.hex()}", "edit"]:
        row.say(word, f"Broken({root})", "asked", "1")
    # What isn't there is looked up once more, to be reported.
    row.say("by-trees", f"Broken({root})", "asked", "2")
    row.end()
    # The root is alone: what leads into none of its folders is answered.
    row = Row(git)
    given(row, [root], root)
    row.say("files", f"Broken({a})", "asked", "2")
    row.say("by-trees", f"Broken({a})", "asked", "4")
    row.say(f"at:{b'a'.hex()}", f"folder:{a}", "asked", "1")
    row.say(f"at:{b'g'.hex()}", f"file:{y}", "asked", "1")
    row.say(f"at:{b'a/d'.hex()}", f"Broken({a})", "asked", "2")
    row.say(f"at:{b'g/d'.hex()}", "none", "asked", "1")
    row.say(f"each:{b'g/d'.hex()}:{b'a'.hex()}:{b'g'.hex()}", "none", f"folder:{a}", f"file:{y}", "told", "1", "asked", "1")
    row.say(f"each:{b'g'.hex()}:{b'a/d'.hex()}:{b'e/f'.hex()}", f"Broken({a})", "told", "2", "asked", "2")
    row.words += [put.format(b"g".hex()), put.format(b"e/n".hex())]
    row.say("edit", f"Broken({e})", "asked", "2")
    row.words += ["remove-file:" + b"e".hex()]
    row.say("edit", f"Broken({e})", "asked", "2")
    row.words += [put.format(b"g/n".hex()), "remove:" + b"e".hex()]
    changed = {path: file for path, file in files.items() if path != b"e/f" and path != b"g"}
    row.say("edit", *whole({**changed, b"g/n": ("100644", x)}, 2, 1), "known-")
    row.end()
    # One folder's own folder is lacking.
    row = Row(git)
    given(row, [root, a, e], root)
    row.say("files", f"Broken({b})", "asked", "3")
    row.say("by-trees", f"Broken({b})", "asked", "5")
    row.words += [put.format(b"a/b/c".hex())]
    row.say("edit", f"Broken({b})", "asked", "3")
    row.words += ["remove:" + b"a/b/c".hex(), "remove:" + b"z".hex()]
    row.say("edit", f"Broken({b})", "asked", "3")
    row.words += ["remove:" + b"a/b".hex(), put.format(b"e/n".hex())]
    row.say("edit", *whole({b"a/d": ("100755", y), b"e/f": ("100644", x), b"e/n": ("100644", x), b"g": ("100644", y)}, 3, 3), "known+")
    row.end()
    # Trees that aren't well-formed, and contents that spell none, as the root and as a folder `d`.
    hex_x, hex_y = bytes.fromhex(x), bytes.fromhex(y)
    disordered = [b"100644 b\0" + hex_x + b"100644 a\0" + hex_y, b"100644 a\0" + hex_x + b"100644 a\0" + hex_y, b"100644 a/b\0" + hex_x, b"100644 \0" + hex_x]
    unread = [b"100644 a" + hex_x.replace(b"\0", b"0"), b"100644 a\0" + hex_x[:-1], b"00100644 a\0" + hex_x]
    for content in disordered + unread:
        odd = git.odd(content)
        above = b"40000 d\0" + bytes.fromhex(odd)
        row = Row(git)
        row.say(f"tree:{content.hex()}", odd)
        row.say(f"root:{odd}")
        for word in [put.format(b"n".hex()), "remove:" + b"n".hex()]:
            row.words.append(word)
            row.say("edit", f"Broken({odd})", "asked", "1")
        row.say(f"tree:{above.hex()}", git.odd(above))
        row.say(f"root:{git.odd(above)}")
        for word in [put.format(b"d/n".hex()), "remove:" + b"d/a".hex(), "remove-file:" + b"d".hex()]:
            row.words.append(word)
            row.say("edit", f"Broken({odd})", "asked", "2")
        if content in unread:
            row.say(f"at:{b'd/a'.hex()}", f"Broken({odd})", "asked", "2")
            row.say("files", f"Broken({git.odd(above)})", "asked", "2")
        row.words.append(put.format(b"d".hex()))
        row.say("edit", *whole({b"d": ("100644", x)}, 1, 1), "known+")
        row.end()
    # A submodule is neither a file nor a folder; other modes of files are files.
    module = "1" * LENGTH[git.kind]
    lines = f"100644 blob {x}\ta\n160000 commit {module}\tm\n100755 blob {y}\tz\n".encode()
    mixed = git.id("mktree", "--missing", data=lines)
    row = Row(git)
    given(row, [mixed], mixed)
    row.root = mixed
    row.ask_files()
    for path in [b"a", b"m", b"m/n", b"z"]:
        row.ask_at(path)
    row.ask_each([b"m/n", b"z", b"m", b"a"])
    row.end()


for kind in LENGTH:
    git, chance = Git(kind), random.Random("files " + kind)
    chosen_rows(git)
    stored_rows(git)
    graft_rows(git)
    for _ in range(160):
        random_row(git, chance)
    for _ in range(60):
        cut_row(git, chance)
    for _ in range(25):
        failing_row(git, chance)
    for _ in range(40):
        several_row(git, chance)
    chance = random.Random("grafts " + kind)
    for _ in range(100):
        graft_row(git, chance)

write(__file__, rows)
