"""Rows of names: what they are and were, moves, switches and deletions, held against git."""

from git_moves import Moved
from plain import Plain, Reader
from streams import INPUT, KINDS, PUT_HELLO, answer, branch, move, runs


def of_names():
    """The names of a repository, those of a folder, and what a name has held; each cause as the first."""
    main, x, tag = b"refs/heads/main", b"refs/heads/x/y", b"refs/tags/v"
    answer(b"names\nnames refs\nnames refs/heads\npast HEAD\npast main\npast refs/heads/main\n", "NoSuchName", "BadName", "NoSuchName")
    made = branch(main + b" new", 1) + branch(tag + b" new", 2, b"parent main\n") + branch(main + b" any", 3) + branch(x + b" new", 4)
    asked = [b"names", b"names refs", b"names refs/heads", b"names refs/heads/x", b"names refs/heads/x/y", b"names refs/he",
             b"names refs/tags", b"names refs/remotes", b"past HEAD", b"past main", b"past heads/main", b"past refs/heads/main",
             b"past v", b"past x/y", b"past tags/v"]
    runs((made,), *((line + b"\n",) for line in asked), by_git_alone=False)
    refused = [(b"names heads", "BadName"), (b"names refs/", "BadName"), (b"names refs/heads/", "BadName"), (b"names HEAD", "BadName"),
               (b"names refs/bisect/x", "PrivateName"), (b"names refs/worktree/a", "PrivateName"), (b"names refs/a..b", "BadName"),
               (b"past nosuch", "BadName"), (b"past refs/heads/nosuch", "NoSuchName"), (b"past refs/heads", "NoSuchName"),
               (b"past refs/bisect/x", "PrivateName"), (b"past x", "BadName"), (b"past a..b", "BadName"), (b"past refs/a..b", "BadName")]
    runs((made,), *((line + b"\n", cause) for line, cause in refused), (b"names\n",), by_git_alone=False)


def at_word(plain, name, expected):
    """The id that git must be given to expect: that which the name holds if it means the word's commit, else the commit's."""
    commit = plain.resolve(expected)
    return plain.names[name] if plain.held(name) == commit else commit


def as_git_moves(kind, made, command):
    """Stops if git makes of a move's transaction other names or logs, or if git makes it and the plain repository doesn't."""
    plain = Plain(kind)
    plain.run(made)
    git = Moved(plain)
    _, lines, actor, message = Reader(command).command()
    held = {b"any": lambda name, more: plain.names.get(name, plain.null), b"new": lambda name, more: plain.null,
            b"at": lambda name, more: at_word(plain, name, more[0])}
    told_ = [(name, held[how](name, more), plain.resolve(target)) for name, (how, *more), target in lines]
    _, ((reply, _),) = plain.run(command)
    assert git.move(told_, actor, message) == (reply == b"ok move\n"), (command, reply)
    assert git.holds(plain), command


def moves():
    """One name and several, new, expected and not, and what their logs say then; each cause, and which of two is reported."""
    main, x, y, v = b"refs/heads/main", b"refs/heads/x", b"refs/heads/y", b"refs/tags/v"
    made = branch(main + b" new", 1) + branch(x + b" new", 2, b"parent main\n") + branch(main + b" any", 3) + branch(y + b" new", 4)
    accepted = [
        move(v + b" new main"), move(v + b" any main"), move(v + b" any HEAD"), move(x + b" any main"), move(x + b" at x y"),
        move(x + b" at refs/heads/x HEAD", message=b"m" * 1024), move(x + b" any main", y + b" any main", v + b" new main"),
        # Each word reads as before the command, whatever the lines before it move.
        move(x + b" any y", y + b" any x"), move(main + b" at main x", x + b" at x main"), move(x + b" any y", v + b" new x"),
        move(y + b" any x", x + b" any main", main + b" any y", v + b" new HEAD"), move(main + b" any y", v + b" new HEAD"),
        move(v + b"/w new y", b"refs/x any y", b"refs/a/b/c any main", b"refs/a/b/d new x"),
        move(b"refs/heads/x0 new x", b"refs/heads/x.y new y", b"refs/heads/x-y any main")]
    for command in accepted:
        plain = Plain("sha1")
        plain.run(made + command)
        runs((made,), (command,), (b"names\n",), *((b"past %s\n" % name,) for name in sorted(plain.names)), by_git_alone=False)
        for kind in KINDS:
            as_git_moves(kind, made, command)
    runs((made,), *((accepted[number],) for number in (0, 3, 7)), (b"past x\n",), (b"log breadth all +x\n",), by_git_alone=False)
    git_refuses = [
        (move(b"refs/heads/t at x main"), "NoSuchName"), (move(x + b" new main"), "Taken"), (move(x + b" at main y"), "NotExpected"),
        (move(x + b"/z any main"), "Collides"), (move(b"refs/heads any main"), "Collides"),
        (move(b"refs/t any main", b"refs/t/u any x"), "Collides"), (move(b"refs/t/u new main", b"refs/t new x"), "Collides"),
        (move(x + b" any main", x + b"/z new y"), "Collides"), (move(v + b" any main", v + b" any x"), "NameTwice"),
        (move(v + b" new main", x + b" new main"), "Taken"), (move(v + b" new main", x + b" at main y"), "NotExpected"),
        (move(x + b" any y", y + b" at x main"), "NotExpected")]
    for command, cause in git_refuses:
        runs((made,), (command, cause), (b"names\n",), by_git_alone=False)
        for kind in KINDS:
            as_git_moves(kind, made, command)
    refused_moves(made)


def switches():
    """HEAD on branches that exist and that don't, in one run and from run to run, as `git symbolic-ref` writes it; and each refusal."""
    main, x, new = b"refs/heads/main", b"refs/heads/x", b"refs/heads/new/one"
    made = branch(main + b" new", 1) + branch(x + b" new", 2, b"parent main\n") + branch(main + b" any", 3)
    asked = [b"names\n", b"show HEAD\n", b"past HEAD\n", b"log breadth all +HEAD\n"]
    unborn = [(asked[0],), (asked[1], "UnbornHead"), (asked[2], "NoSuchName"), (asked[3], "UnbornHead")]
    runs((made,), (b"switch %s\n" % x,), *((it,) for it in asked), (branch(b"HEAD at x", 4),), *((it,) for it in asked),
         (b"switch %s\n" % main,), *((it,) for it in asked), by_git_alone=False)
    runs((made,), (b"switch %s\n" % new,), *unborn, (b"switch %s\n" % new, "NothingMoves"), (branch(b"HEAD new", 4, b"parent x\n"),),
         *((it,) for it in asked), by_git_alone=False)
    runs((b"switch %s\n" % x,), *unborn, (branch(b"HEAD new", 1),), *((it,) for it in asked), by_git_alone=False)
    # A branch that can't be beside the others may be HEAD's all the same: it is refused where it is to be made.
    runs((made,), (b"switch %s/y\n" % x,), *unborn, (branch(b"HEAD any", 4), "Collides"), (b"switch %s\n" % x,), (asked[0],),
         by_git_alone=False)
    everything = b"".join(b"switch %s\n" % it for it in (x, new, main)) + b"".join(asked)
    answer(branch(main + b" new", 1) + everything)
    accepted = [x, new, x + b"/y", b"refs/heads/HEAD", b"refs/heads/@", b"refs/heads/-", b"refs/heads/bisect/x", b"refs/heads/refs/heads/a",
                b"refs/heads/\xc3\xa4", b"refs/heads/" + b"n" * 1013]
    for name in accepted:
        runs((made,), (b"switch %s\n" % name,), (b"names\n",), by_git_alone=False)
        for kind in KINDS:
            as_git_switches(kind, made, name)
    refused = [b"HEAD", b"main", b"x", b"heads/x", b"refs/tags/v", b"refs/remotes/x", b"refs/heads", b"refs/heads/", b"refs/headsx", b"refs/x",
               b"refs/bisect/x", b"refs/worktree/x", b"refs/rewritten/x", b"refs/heads/a..b", b"refs/heads/a.lock", b"refs/heads/.a",
               b"refs/heads//a", b"refs/heads/a/", b"refs/heads/\xff", b"refs/heads/" + b"n" * 1014]
    runs((made,), *((b"switch %s\n" % name, "BadName") for name in refused), (b"switch %s\n" % main, "NothingMoves"), (b"names\n",))
    for line in (b"switch\n", b"switch refs/heads/a refs/heads/b\n", b"switch  refs/heads/a\n", b"switches refs/heads/a\n"):
        answer(INPUT + line, "Syntax", end="Refused")


def as_git_switches(kind, made, name):
    """Stops if git writes another HEAD, or changes another file of the names."""
    plain = Plain(kind)
    plain.run(made)
    git = Moved(plain)
    plain.run(b"switch %s\n" % name)
    assert git.switch(name) == b"ref: %s\n" % plain.branch and git.holds(plain), name


def refused_moves(made):
    """The causes of a move, each as the first of two that hold, on one line or on two, and nothing is changed."""
    main, x, y, v = b"refs/heads/main", b"refs/heads/x", b"refs/heads/y", b"refs/tags/v"
    bad = b"actor 0 3 9 +0000\n\na@b\nmessage 0\n\nend\n"
    late = b"actor 1 3 9 +0060\nA\na@b\nmessage 0\n\nend\n"
    refused = [
        (move(v + b" new main", v + b"2 new nosuch"), "UnknownWord"), (move(main + b" any main"), "NothingMoves"),
        (move(b"HEAD any x"), "BadName"), (move(b"x any main"), "BadName"), (move(b"refs/bisect/x any nosuch", b"x any nosuch"), "BadName"),
        (move(b"refs/bisect/x any nosuch", b"refs/bisect/x any nosuch"), "PrivateName"),
        (move(x + b" any nosuch", x + b" any nosuch"), "NameTwice"), (move(x + b" at nosuch x", y + b" new main"), "UnknownWord"),
        (move(y + b" new main", x + b" at x nosuch"), "UnknownWord"), (move(y + b" new main", x + b" at nosuch x"), "UnknownWord"),
        (move(v + b" at main x", y + b" new main"), "NoSuchName"), (move(y + b" new main", v + b" at main x"), "NoSuchName"),
        (move(y + b" at x main", v + b" at main x"), "NoSuchName"), (move(y + b" at x main", x + b" new main"), "Taken"),
        (move(x + b"/z any main", y + b" at x main"), "NotExpected"), (move(v + b" any main", v + b"/w any main", y + b" new x"), "Taken"),
        (b"move\nto " + x + b"/z any main\n" + bad, "Collides"), (b"move\nto " + x + b" any main\n" + bad, "BadActor"),
        (b"move\nto " + x + b" any main\n" + late, "BadTime"), (move(x + b" any x", message=b""), "BadMessage"),
        (move(x + b" any x", message=b"a\nb"), "BadMessage"), (move(x + b" any y", message=b"a\n"), "BadMessage"),
        (move(x + b" any y", message=b"\na"), "BadMessage"), (move(x + b" any y", message=b"a\tb"), "BadMessage"),
        (move(x + b" any y", message=b"a\rb"), "BadMessage"), (move(x + b" any y", message=b"a\0b"), "BadMessage"),
        (move(x + b" any y", message=b"m" * 1025), "BadMessage"), (move(x + b" any y", message=b"m" * 1024 + b"\n"), "BadMessage"),
        (move(x + b" any y", y + b" any y"), "NothingMoves"), (move(y + b" any y", x + b" any y"), "NothingMoves"),
        (move(main + b" at main HEAD", x + b" any y"), "NothingMoves")]
    for command, cause in refused:
        runs((made,), (command, cause), (b"names\n",), (b"past x\n",), by_git_alone=False)
    runs((made,), *refused, (b"names\n",), by_git_alone=False)
    answer(move(b"refs/heads/x new HEAD") + move(b"refs/heads/x at HEAD main"), "UnbornHead", "UnknownWord")
    for text in (b"move x\n", b"move\nend\n", b"move\nto refs/heads/x any\n", b"move\nto refs/heads/x at main\n",
                 b"move\nto refs/heads/x new a b\n", b"move\nto refs/heads/x any main\nmessage 1\n", b"move\nto refs/heads/x any main\nend\n"):
        answer(PUT_HELLO + text, "Syntax", end="Refused")
    answer(PUT_HELLO + b"move\nto refs/heads/x any main\n", "Truncated", end="Refused")


def as_git_deletes(kind, made, command):
    """Stops if git deletes a name that the plain repository doesn't, or the other way, or if it leaves other names or logs."""
    plain = Plain(kind)
    plain.run(made)
    git = Moved(plain)
    _, name, (how, *more) = Reader(command).command()
    held = at_word(plain, name, more[0]) if how == b"at" else plain.names.get(name, plain.null)
    _, ((reply, _),) = plain.run(command)
    assert (name in git.names() and git.delete(name, held)) == (reply == b"ok delete\n"), (command, reply)
    assert git.holds(plain), command
    assert name in plain.names or not (git.folder / "logs" / name.decode()).is_file(), command


def deletions():
    """Names that go with their logs, HEAD's branch too, and come anew; what is in nobody's way then; each cause, and which of two is reported."""
    main, x, y, v = b"refs/heads/main", b"refs/heads/x", b"refs/heads/x/y", b"refs/tags/v"
    made = branch(main + b" new", 1) + branch(x + b" new", 2, b"parent main\n") + branch(main + b" any", 3) + branch(v + b" new", 4)
    deleted = [b"delete %s\n" % it for it in (x + b" any", x + b" at x", x + b" at refs/heads/x", v + b" at v", main + b" any",
                                              main + b" at HEAD", main + b" at main")]
    for command in deleted:
        runs((made,), (command,), (b"names\n",), by_git_alone=False)
        for kind in KINDS:
            as_git_deletes(kind, made, command)
    again = branch(x + b" new", 5)
    runs((made,), (b"delete %s any\n" % x, ), (b"past %s\n" % x, "NoSuchName"), (b"show x\n", "UnknownWord"), (again,), (b"past x\n",),
         (b"delete %s at x\n" % x,), (branch(y + b" new", 6),), (b"names\n",), (b"past %s\n" % y,), by_git_alone=False)
    runs((made,), (b"delete %s any\n" % main,), (b"show HEAD\n", "UnbornHead"), (b"delete %s any\n" % main, "NoSuchName"),
         (b"names\n",), (branch(b"HEAD new", 7),), (b"past HEAD\n",), by_git_alone=False)
    git_refuses = [(b"delete %s at main\n" % x, "NotExpected"), (b"delete refs/heads/z any\n", "NoSuchName"),
                   (b"delete refs/heads any\n", "NoSuchName"), (b"delete %s/z at x\n" % x, "NoSuchName")]
    for command, cause in git_refuses:
        runs((made,), (command, cause), (b"names\n",), by_git_alone=False)
        for kind in KINDS:
            as_git_deletes(kind, made, command)
    refused = [(b"delete HEAD any\n", "BadName"), (b"delete x any\n", "BadName"), (b"delete x at nosuch\n", "BadName"),
               (b"delete refs/heads/a..b any\n", "BadName"), (b"delete refs/bisect/x any\n", "PrivateName"),
               (b"delete refs/worktree/x at nosuch\n", "PrivateName"), (b"delete refs/heads/z at nosuch\n", "UnknownWord"),
               (b"delete %s at nosuch\n" % x, "UnknownWord"), (b"delete refs/heads/z at main\n", "NoSuchName")]
    runs((made,), *refused, (b"names\n",), (b"past x\n",), by_git_alone=False)
    answer(b"delete refs/heads/z at HEAD\n", "UnbornHead")
    for text in (b"delete\n", b"delete refs/heads/main\n", b"delete refs/heads/main new\n", b"delete refs/heads/main at\n",
                 b"delete refs/heads/main any any\n", b"delete refs/heads/main at main x\n", b"delete refs/heads/main to main\n"):
        answer(PUT_HELLO + text, "Syntax", end="Refused")
    answer(PUT_HELLO + b"delete refs/heads/main any", "Truncated", end="Refused")
