"""Rows of renames, of commits' names and of tags', held against git."""

from git_moves import Moved
from plain import Plain
from streams import KINDS, PUT_HELLO, answer, branch, move, runs, tag


def as_git_renames(kind, made, old, new):
    """Stops if git makes a rename that the plain repository doesn't, or the other way, or if it leaves other names or logs."""
    plain = Plain(kind)
    plain.run(made)
    git = Moved(plain)
    held = plain.names.get(old, plain.null)
    _, ((reply, _),) = plain.run(b"rename %s %s\n" % (old, new))
    assert (old in git.names() and git.rename(old, new, held)) == (reply == b"ok rename\n"), (old, new, reply)
    assert git.holds(plain), (old, new)
    assert old in plain.names or not (git.folder / "logs" / old.decode()).is_file(), (old, new)


def renames():
    """Names that are renamed, HEAD's branch too, there and back, with the one line that their logs have then; and each refusal, as
    the first of two that hold."""
    main, x, y, v, trunk = b"refs/heads/main", b"refs/heads/x", b"refs/heads/y", b"refs/tags/v", b"refs/heads/trunk"
    made = branch(main + b" new", 1) + branch(x + b" new", 2, b"parent main\n") + branch(main + b" any", 3) + branch(v + b" new", 4)
    accepted = [(x, y), (x, b"refs/tags/x"), (v, b"refs/heads/v"), (main, trunk), (main, b"refs/a/b/c"), (x, b"refs/heads/xy"),
                (x, b"refs/heads/x.y"), (v, b"refs/tags/w/v"), (x, b"refs/heads/\xc3\xa4"), (x, b"refs/heads/HEAD")]
    for old, new in accepted:
        runs((made,), (b"rename %s %s\n" % (old, new),), (b"names\n",), (b"past %s\n" % new,), (b"past %s\n" % old, "NoSuchName"),
             by_git_alone=False)
        for kind in KINDS:
            as_git_renames(kind, made, old, new)
    runs((made,), (b"rename %s %s\n" % (x, b"refs/heads/" + b"n" * 1013),), (b"names\n",), by_git_alone=False)
    # HEAD stays on its branch, which is unborn then, and may be made anew.
    runs((made,), (b"rename %s %s\n" % (main, trunk),), (b"show HEAD\n", "UnbornHead"), (b"show trunk\n",), (branch(b"HEAD new", 5),),
         (b"past HEAD\n",), (b"rename %s %s\n" % (trunk, main), "Taken"), (b"names\n",), by_git_alone=False)
    runs((made,), (b"rename %s %s\n" % (main, trunk),), (b"rename %s %s\n" % (trunk, main),), (b"past HEAD\n",),
         (branch(b"HEAD any", 5),), (b"past HEAD\n",), (b"names\n",), by_git_alone=False)
    # The folder that a name leaves is in nobody's way.
    runs((made,), (b"rename %s %s/z\n" % (v, y),), (b"rename %s/z %s\n" % (y, v),), (b"rename %s %s\n" % (x, y),), (b"names\n",),
         (b"past y\n",), by_git_alone=False)
    git_refuses = [(x, x + b"/y", "Collides"), (x, main + b"/z", "Collides"), (x, b"refs/heads", "Collides"), (v, b"refs/tags", "Collides"),
                   (x, main, "Taken"), (b"refs/heads/z", y, "NoSuchName"), (b"refs/heads", y, "NoSuchName"),
                   (b"refs/heads/z", main, "NoSuchName")]
    for old, new, cause in git_refuses:
        runs((made,), (b"rename %s %s\n" % (old, new), cause), (b"names\n",), (b"past x\n",), by_git_alone=False)
        for kind in KINDS:
            as_git_renames(kind, made, old, new)
    # A name collides with the one that it would take the place of, also below it.
    deep = branch(b"refs/heads/a/b new", 6)
    runs((deep,), (b"rename refs/heads/a/b refs/heads/a\n", "Collides"), (b"rename refs/heads/a/b refs/heads/a/b/c\n", "Collides"),
         (b"rename refs/heads/a/b refs/heads/a/c\n",), (b"names\n",), by_git_alone=False)
    refused = [(x, x, "NameTwice"), (b"HEAD", y, "BadName"), (x, b"HEAD", "BadName"), (b"x", b"y", "BadName"),
               (b"refs/bisect/x", b"refs/heads/a..b", "BadName"), (b"refs/heads/a.lock", b"refs/bisect/x", "BadName"),
               (x, b"refs/heads/" + b"n" * 1014, "BadName"), (x, b"refs/heads/\xff", "BadName"),
               (b"refs/bisect/x", b"refs/bisect/x", "PrivateName"), (b"refs/heads/z", b"refs/worktree/x", "PrivateName"),
               (b"refs/rewritten/x", main, "PrivateName"), (b"refs/heads/z", b"refs/heads/z", "NameTwice"),
               (b"refs/heads/z", x + b"/y", "NoSuchName"), (x, v, "Taken")]
    runs((made,), *((b"rename %s %s\n" % (old, new), cause) for old, new, cause in refused), (b"names\n",), (b"past x\n",),
         by_git_alone=False)
    for text in (b"rename\n", b"rename refs/heads/x\n", b"rename refs/heads/x refs/heads/y any\n", b"rename  refs/heads/x refs/heads/y\n",
                 b"renames refs/heads/x refs/heads/y\n"):
        answer(PUT_HELLO + text, "Syntax", end="Refused")
    answer(PUT_HELLO + b"rename refs/heads/main refs/heads/y", "Truncated", end="Refused")


def renamed_tags():
    """Names that hold a tag and are renamed, there and back: the new name holds the tag itself, its log is one line with the tag's id, and what
    other commands say of it then; each refusal."""
    main, x, v, w, new = b"refs/heads/main", b"refs/heads/x", b"refs/tags/v1", b"refs/tags/w", b"refs/tags/new"
    made = (branch(main + b" new", 1) + branch(x + b" new", 2, b"parent main\n") + branch(main + b" any", 3)
            + branch(w + b" new", 4, b"parent x\n") + tag(v + b" new main", 5))
    for name in (new, b"refs/tags/a/b/c", b"refs/tags/v1.0", b"refs/v1", b"refs/remotes/o/v1", b"refs/tags/-v1", b"refs/tags/\xc3\xa4"):
        runs((made,), (b"rename %s %s\n" % (v, name),), (b"names\n",), (b"past %s\n" % name,), (b"past %s\n" % v, "NoSuchName"),
             (b"show %s\n" % name,), (b"log breadth all +%s -x\n" % name,), by_git_alone=False)
        for kind in KINDS:
            as_git_renames(kind, made, v, name)
    away = b"rename %s %s\n" % (v, new)
    for command, *causes in [
            (branch(new + b" any", 6), "HoldsTag"), (branch(b"refs/heads/y new", 6, b"parent new\n"),), (move(new + b" at main x"),),
            (move(new + b" any new"),), (b"delete %s at main\n" % new,), (b"delete %s at x\n" % new, "NotExpected"),
            (tag(new + b" at new x"),), (tag(v + b" new new", 5),), (tag(new + b" any main", 5),),
            (b"rename %s %s\n" % (new, v),), (b"rename %s %s\n" % (v, new), "NoSuchName"), (b"show v1\n", "UnknownWord")]:
        runs((made,), (away,), (command, *causes), (b"names\n",), by_git_alone=False)
    runs((made,), (away,), (b"rename %s %s\n" % (new, v),), (b"past v1\n",), (b"names\n",), by_git_alone=False)
    for old, name, cause in [(v, v + b"/a", "Collides"), (v, b"refs/tags", "Collides"), (v, x + b"/v1", "Collides"), (x, v + b"/x", "Collides"),
                             (v, w, "Taken"), (x, v, "Taken"), (w, v, "Taken"), (new, v, "NoSuchName")]:
        runs((made,), (b"rename %s %s\n" % (old, name), cause), (b"names\n",), (b"past v1\n",), by_git_alone=False)
        for kind in KINDS:
            as_git_renames(kind, made, old, name)
    runs((made,), (b"rename %s %s\n" % (v, v), "NameTwice"), (b"names\n",), by_git_alone=False)
    # Git lets no branch hold a tag. Here a renamed name holds what the old one did, wherever it is.
    y = b"refs/heads/y"
    runs((made,), (b"rename %s %s\n" % (v, y),), (b"names\n",), (b"past y\n",), (branch(y + b" any", 6), "HoldsTag"), (b"switch %s\n" % y,),
         (branch(b"HEAD any", 6), "HoldsTag"), (b"show HEAD\n",), (b"past HEAD\n",), (move(y + b" any y"),), (branch(b"HEAD at y", 6),),
         (b"names\n",), by_git_alone=False)
    for kind in KINDS:
        plain = Plain(kind)
        plain.run(made)
        assert not Moved(plain).rename(v, y, plain.names[v])
