"""Rows of what git printed by hand once, and is asked anew as they are written: the ids of a history of two trees and a tag of it, of
commits and tags by two actors, of blobs of a letter; packed names and the file without one of them; and the order of names."""

from git_moves import Moved
from git_repository import Git
from names import as_git_moves
from packs import as_git_packs
from plain import MODES, Plain, Reader
from streams import KINDS, ONE, PACK, SIGNED, branch, move, runs, tag
from tags import as_git_tags

NEW, ANY = b"commit refs/heads/main new\n", b"commit refs/heads/main any\n"
ASKED = [(b"files main\n",), (b"show main\n",), (b"names\n",)]
# In the order in which `git for-each-ref` printed them.
LISTED = [b"refs/heads/a!b", b"refs/heads/a-b", b"refs/heads/a.b", b"refs/heads/a/b-c", b"refs/heads/a/b/c", b"refs/heads/a0", b"refs/heads/ab",
          b"refs/heads/b/c/d/e/f", b"refs/headsx/a", b"refs/tags/a"]


def put(kind, path, content):
    return b"put %s %d %d\n%s\n%s\n" % (kind, len(path), len(content), path, content)


def as_git_commits(kind, *commands):
    """Stops if git makes another commit of one of these, which put files on a branch: blobs by `git hash-object`, trees by `git write-tree`,
    commits by `git commit-tree`."""
    plain, git, files, parents = Plain(kind), Git(kind), {}, []
    for command in commands:
        _, _, _, _, edits, author, committer, message = Reader(command).command()
        for what, path, content in edits:
            files[path] = (MODES[what].decode(), git.id("hash-object", "-w", "--stdin", data=content))
        for role, (name, email, seconds, offset) in (("AUTHOR", author), ("COMMITTER", committer)):
            for part, value in (("NAME", name), ("EMAIL", email), ("DATE", b"@%s %s" % (seconds, offset))):
                git.env[f"GIT_{role}_{part}"] = value.decode()
        parents = ["-p", git.id("commit-tree", git.tree(files), *parents, data=message)]
        _, ((reply, _),) = plain.run(command)
        assert reply == b"ok commit %s\n" % parents[1].encode(), command


def histories():
    """Trees with each kind of file, one in the other; two commits of one tree by actors of other times; and tags of them."""
    first = NEW + put(b"exec", b"b", b"hello") + put(b"link", b"c", b"hello") + put(b"file", b"d/a", b"hello") + ONE
    second, first_tag = ANY + SIGNED % (2, 2, 3, b"two"), tag(b"refs/tags/v1 new main", 3, b"first")
    runs((first,), *ASKED, (second,), *ASKED, (first_tag,), (b"show v1\n",), (b"names\n",))
    by = b"author 1 3 1 +0000\nA\na@b\ncommitter 3 1 2 -0130\nB C\nc\nmessage %d\n%s\nend\n"
    tagger, more = b"tagger 3 1 2 -0130\nB C\nc\n", b"two\n\nmore\n"
    one = NEW + put(b"file", b"a", b"hello") + put(b"file", b"a.b", b"x") + put(b"link", b"link", b"a") + put(b"exec", b"run", b"#!") + by % (3, b"one")
    two = ANY + by % (len(more), more)
    tags = [tag(b"refs/tags/v1 new main", message=b"one", tagger=tagger), tag(b"refs/tags/a/b new main", message=more, tagger=tagger)]
    runs((one,), *((it,) for it in tags), *ASKED, (two,), *ASKED, (b"past main\n",), (b"past v1\n",), (b"show v1\n",))
    letters = NEW + b"".join(put(b"file", it, it) for it in (b"a", b"b", b"c")) + ONE
    runs((letters,), (b"files main\n",), by_git_alone=False)
    for kind in KINDS:
        for commands in ((first, second), (one, two), (letters,)):
            as_git_commits(kind, *commands)
        as_git_tags(kind, first + second, first_tag)
        for it in tags:
            as_git_tags(kind, one, it)


def five_packed():
    """Five names that are packed, and read, met, moved and deleted then: which names are in their way git shows by refusing to make them."""
    slash, seconds = b"refs/heads/a/b", 1_700_000_000
    commit = NEW + SIGNED % (seconds, seconds, 4, b"one\n")
    made = commit + move(b"refs/heads/a-c new main", slash + b" new main", b"refs/tags/light new main") + tag(b"refs/tags/v1 new main", seconds, b"v1\n")
    asked = [(b"names\n",), (b"names refs/heads\n",), (b"names refs/heads/a\n",), (b"show a/b\n",), (b"show v1\n",)]
    gone, own = b"delete %s any\n" % slash, move(slash + b" any x")
    x, late = branch(b"refs/heads/x new", 1), move(b"refs/heads/a new main")
    runs((made,), *asked, (PACK,), *asked)
    runs((made,), (PACK,), (gone,), *asked[:3], (late,), (b"names\n",))
    runs((made,), (PACK,), (x,), (own,), *asked[:3], (gone,), *asked[:3], (late,), (b"names\n",), by_git_alone=False)
    tries = [(b"refs/heads/a-c/x", "Collides"), (b"refs/heads/a", "Collides"), (slash + b"/c/d", "Collides"), (b"refs/tags", "Collides"),
             (b"refs/heads/a/c",), (b"refs/tag",)]
    for name, *causes in tries:
        runs((made,), (PACK,), (move(name + b" new main"), *causes), (b"names\n",))
    for kind in KINDS:
        as_git_commits(kind, commit)
        as_git_tags(kind, commit, tag(b"refs/tags/v1 new main", seconds, b"v1\n"))
        as_git_packs(kind, made, gone, late)
        as_git_packs(kind, made + x, own, gone, late)
        for name, *_ in tries:
            as_git_moves(kind, made + PACK, move(name + b" new main"))


def plain_after(kind, stream):
    plain = Plain(kind)
    plain.run(stream)
    return plain


def orders():
    """Names that lie around `/`, made in another order, and listed in git's: all, those of folders, and none of what is no folder."""
    made = branch(b"refs/heads/b/c/d/e/f new", 1)
    rest = [it for it in [*LISTED[1::2], *LISTED[::2]] if it != b"refs/heads/b/c/d/e/f"]
    moved = move(*(it + b" new b/c/d/e/f" for it in rest))
    folders = [b"refs", b"refs/heads", b"refs/heads/a", b"refs/heads/b/c", b"refs/head", b"refs/heads/ab", b"refs/tags", b"refs/tags/a"]
    asked = [(b"names\n",), *((b"names %s\n" % it,) for it in folders)]
    runs((made,), (moved,), *asked, (PACK,), *asked, by_git_alone=False)
    for kind in KINDS:
        as_git_moves(kind, made, moved)
        plain = plain_after(kind, made + moved)
        git = Moved(plain)
        assert [*git.names()] == LISTED
        for folder in folders:
            told = git.run("for-each-ref", "--format=%(refname)", folder.decode() + "/").split(b"\n")[:-1]
            _, ((reply, _),) = plain.run(b"names %s\n" % folder)
            assert [line.split(b" ")[2] for line in reply.split(b"\n")[1:-1]] == told, folder


def printed():
    histories()
    five_packed()
    orders()
