"""Which objects a command must look up, derived over the plain repository's whole file maps: the counts of readings by hand are held
against this.

A command looks up once each object that its words mean, that is the object that a name holds, or whose id a word begins, since that may
be a commit, a tag or neither; and each commit, tree and content that its answer is made of. Of these a log, a `commit` and `index` look
up no commit that has a row. A log with paths looks up besides, each once, the trees that it compares: of a commit, and of its first
parent, unless that is the commit that comes next. `files` looks up each different tree once. `index` looks up the commits alone. A commit's grafts look
up, each once, the trees on the way to their sources, and the trees below these."""

from plain import Plain, Reader


def of_word(plain, word):
    """The object of a word: none, if none of its names exists and it isn't one stored object's id."""
    name = plain.branch if word == b"HEAD" else plain.candidate(word)
    found = plain.begun(word) if name is None else [plain.names[name]] if name in plain.names else []
    return found if len(found) == 1 else []


def of_folders(plain, files, paths=None):
    """The trees of these files, or those in which the names of some paths are looked up."""
    above = {it[:at].rstrip(b"/") for it in files for at in range(len(it)) if at == 0 or it[at - 1:at] == b"/"}
    met = [it for it in above | {b""} if paths is None or it == b"" or any(path.startswith(it + b"/") for path in paths)]
    scratch, fronts = Plain(plain.kind), [it + b"/" if it else it for it in met]
    return [scratch.tree({it[len(front):]: file for it, file in files.items() if it.startswith(front)}) for front in fronts]


def of_walk(plain, rows, commits):
    """The commits that these reach, themselves too, but for those that have rows: a row has its parents, which have rows too."""
    found, left = [], list(commits)
    while left:
        at = left.pop()
        if at not in rows and at not in found:
            found.append(at)
            left += plain.commits[at]["parents"]
    return found


def of_log(plain, command):
    """Of the commits that a log with paths compares the different trees on the paths: of each commit that it walks and of its first parent,
    unless that comes next."""
    if not command[5]:
        return []
    met, last = [], None
    for digits in plain.log(*command[1:5], []).split()[3:]:
        first = plain.commits[digits]["parents"][:1]
        met += ([] if digits == last else [digits]) + first
        last = first[0] if first else None
    return list(dict.fromkeys(it for at in met for it in of_folders(plain, plain.commits[at]["files"], command[5])))


def of_grafts(plain, edits):
    """The trees in which the names of the grafts' sources are looked up, and those below the sources, each once."""
    found = []
    for _, _, target, source in edits:
        files, front = plain.commits[plain.peeled(of_word(plain, target)[0])]["files"], source + b"/" if source else b""
        below = {it[len(front):]: file for it, file in files.items() if it.startswith(front)}
        found += [*(of_folders(plain, files, [source]) if source else []), *(of_folders(plain, below) if below else [])]
    return list(dict.fromkeys(found))


def once(rows, found):
    """These objects, each once, but for those that have rows."""
    return [it for it in dict.fromkeys(found) if it not in rows]


def objects(plain, rows, command):
    """The objects that a command looks up, as often as it does."""
    name, *parts = command
    if name == "index":
        return once(rows, plain.commits)
    # One with grafts alone, on a new name, without parents, and refused before it stores anything.
    words = [edit[2] for edit in parts[3]] if name == "commit" else [target for _, target in parts[3]] if name == "log" else [parts[0]]
    held = [it for word in words for it in of_word(plain, word)]
    commits = [plain.peeled(it) for it in held]
    if name == "commit":
        return once(rows, held + commits) + of_grafts(plain, parts[3])
    if name == "log":
        return once(rows, held + of_walk(plain, rows, commits)) + of_log(plain, command)
    files, path = plain.commits[commits[0]]["files"], parts[1] if name == "show" else None
    content = [files[path][1]] if path in files else []
    trees = list(dict.fromkeys(of_folders(plain, files, [path] if path else None))) if name == "files" or path else []
    return once((), held + commits) + trees + content


def names(command):
    """The words of a command, each of which looks up names."""
    name, *parts = command
    if name == "commit":
        return [edit[2] for edit in parts[3]]
    return [] if name == "index" else [target for _, target in parts[3]] if name == "log" else [parts[0]]


def behind(kind, before, command):
    """The objects that a command looks up after these."""
    plain, rows, reader = Plain(kind), (), Reader(before)
    while reader.at < len(before):
        start, (name, *_) = reader.at, reader.command()
        plain.run(before[start:reader.at])
        rows = set(plain.commits) if name == "index" else rows
    return objects(plain, rows, Reader(command).command())
