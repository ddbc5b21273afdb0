"""The streams of the workloads: each history once, spelled for the program and for git fast-import."""
from dataclasses import dataclass, field
from typing import List, Tuple

ACTOR = (b"Ada", b"ada@example.org")
BEGIN = 1_700_000_000


@dataclass
class Commit:
    """One commit on a branch: further parents by their branches, and files that are put."""
    branch: bytes
    number: int
    puts: List[Tuple[bytes, bytes]] = field(default_factory=list)
    parents: List[bytes] = field(default_factory=list)

    def is_first(self, begun):
        """Whether it begins its branch, which then is among `begun`."""
        new = self.branch not in begun
        begun.add(self.branch)
        return new


def ours(commits):
    """The commands of the commits."""
    return b"".join(command(it) for it in commits)


def command(commit):
    seconds = BEGIN + 60 * commit.number
    actor = b"%d %d %d +0000\n%s\n%s\n" % (len(ACTOR[0]), len(ACTOR[1]), seconds, *ACTOR)
    message = b"Commit %d" % commit.number
    return b"".join([
        b"commit refs/heads/%s any\n" % commit.branch, *(b"parent refs/heads/%s\n" % it for it in commit.parents),
        *(b"put file %d %d\n%s\n%s\n" % (len(path), len(content), path, content) for path, content in commit.puts),
        b"author ", actor, b"committer ", actor, b"message %d\n%s\nend\n" % (len(message), message)])


def fast_import(commits):
    """The same for git fast-import."""
    begun = set()
    return b"".join(imported(it, it.is_first(begun)) for it in commits) + b"done\n"


def imported(commit, is_first):
    actor = b"%s <%s> %d +0000\n" % (*ACTOR, BEGIN + 60 * commit.number)
    message = b"Commit %d" % commit.number
    words = [b"from"] + [b"merge"] * len(commit.parents) if is_first else [b"merge"] * len(commit.parents)
    return b"".join([
        b"commit refs/heads/%s\nauthor %scommitter %sdata %d\n%s\n" % (commit.branch, actor, actor, len(message), message),
        *(b"%s refs/heads/%s\n" % (word, it) for word, it in zip(words, commit.parents)),
        *(b"M 100644 inline %s\ndata %d\n%s\n" % (path, len(content), content) for path, content in commit.puts), b"\n"])


def paths(count):
    """So many paths two folders deep: ten folders of ten folders each, or fewer."""
    return [b"%d/%d/%d" % (at % 10, at // 10 % 10, at // 100) for at in range(count)]


def first(files):
    """A commit of so many files."""
    return Commit(b"main", 0, [(it, b"The first text of %s.\n" % it) for it in paths(files)])


def changing(files, count):
    """A commit of so many files, and then commits of three changes in three folders."""
    every = paths(files)
    changed = ([every[(number * 7 + third * (files // 3)) % files] for third in range(3)] for number in range(1, count + 1))
    return [first(files)] + [Commit(b"main", number, [(it, b"Text %d.\n" % number) for it in three]) for number, three in enumerate(changed, 1)]


def merging(count):
    """Commits without files: of ten, three are on a side branch, which then is merged."""
    found = []
    for number in range(count):
        side, at = b"side" if number % 10 in (3, 4, 5) else b"main", number % 10
        found.append(Commit(side, number, [], [b"main"] if at == 3 else [b"side"] if at == 9 else []))
    return found


def deep(count):
    """Commits of one file two folders deep: five objects each."""
    return [Commit(b"main", number, [(b"one/two/file", b"Text %d.\n" % number)]) for number in range(count)]


def tiny(count, has_file):
    """Commits of one file at the top, or of none."""
    return [Commit(b"main", number, [(b"a", b"Text %d.\n" % number)] if has_file else []) for number in range(count)]


def bases(count):
    """Branches of one commit each, for names to be at."""
    return [Commit(b"base-%d" % it, it) for it in range(count)]


def names(count):
    return [b"refs/heads/topic-%05d" % it for it in range(count)]


def move(some, base):
    """The names moved to a branch of `bases`."""
    return b"".join([b"move\n", *(b"to %s any refs/heads/base-%d\n" % (name, base) for name in some),
                     b"actor %d %d %d +0000\n%s\n%s\nmessage 4\nMove\nend\n" % (len(ACTOR[0]), len(ACTOR[1]), BEGIN, *ACTOR)])


def spread(some, count):
    """Each name made at one of so many bases: a command for each base."""
    return b"".join(move(some[base::count], base) for base in range(count))


def resets(some, count):
    """The same for git fast-import."""
    return b"".join(b"reset %s\nfrom refs/heads/base-%d\n\n" % (name, at % count) for at, name in enumerate(some)) + b"done\n"


def updates(some, times):
    """The names moved to the second base, to the third, and so on, for git update-ref."""
    return b"".join(b"start\n" + b"".join(b"update %s refs/heads/base-%d\n" % (name, base) for name in some) + b"commit\n"
                    for base in range(1, times + 1))
