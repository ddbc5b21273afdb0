"""Rows of annotated tags, held against git."""

from git_moves import Moved
from names import as_git_deletes, as_git_moves
from plain import Plain, Reader
from streams import KINDS, LIMIT, ONE, PUT_HELLO, ROWS, Long, answer, branch, move, refusals, runs, spelled, tag, told


def as_git_tags(kind, made, command):
    """Stops if git makes another tag of it, or leaves other names or logs. A tag's object is made by `git tag -a` and by `git mktag`, and
    its name is moved by `git update-ref`, which writes into the log what it is given."""
    plain = Plain(kind)
    plain.run(made)
    makes, spells, moves_ = Moved(plain), Moved(plain), Moved(plain)
    _, name, _, target, tagger, message = Reader(command).command()
    commit, before = plain.resolve(target), plain.names.get(name, plain.null)
    _, ((reply, _),) = plain.run(command)
    found = reply.split()[2]
    text = plain.objects[found].partition(b"\0")[2]
    assert makes.tagged(name.removeprefix(b"refs/tags/"), commit, tagger, message) == found, (command, reply)
    assert spells.spelled(text) == found, command
    moves_.run("hash-object", "-w", "-t", "tag", "--stdin", data=text)
    assert moves_.move([(name, before, found)], tagger, message.partition(b"\n")[0]) and moves_.holds(plain), command


def tags():
    """Tags new, moved and made anew, as git makes them, and what every command says of names and words that are tags; each cause, and
    which of two is reported."""
    main, x, v, w = b"refs/heads/main", b"refs/heads/x", b"refs/tags/v1", b"refs/tags/w"
    first = b"commit refs/heads/main new\n" + ONE
    answer(first + tag(v + b" new main") + b"names refs/tags\ncommit refs/tags/v1 any\n" + ONE + b"delete refs/tags/v1 at main\nnames\n",
           "HoldsTag")
    made = (branch(main + b" new", 1) + branch(x + b" new", 2, b"parent main\n") + branch(main + b" any", 3)
            + branch(w + b" new", 4, b"parent x\n") + tag(v + b" new main", 5))
    armor = b"signed\n-----BEGIN PGP SIGNATURE-----\n\nx\n-----END PGP SIGNATURE-----\n"
    accepted = [
        tag(b"refs/tags/new new main"), tag(b"refs/tags/new any x"), tag(b"refs/tags/a/b any HEAD", message=b"title\n\nmore\n"),
        tag(v + b" at main x"), tag(v + b" at v1 v1"), tag(v + b" any main", 6), tag(w + b" any x"), tag(w + b" at w v1"),
        tag(b"refs/tags/of-a-tag new v1"), tag(b"refs/tags/armor new x", message=armor), tag(b"refs/tags/d-e new w", message=b"m" * 1024),
        tag(b"refs/tags/no-mail new x", tagger=b"tagger 2 0 7 -0130\nBc\n\n"),
        tag(b"refs/tags/wide new x", tagger=b"tagger 6 3 7 +9959\nA \xc3\xa4 B\na@b\n", message=b"\xc3\xa4\n"),
        tag(b"refs/tags/@a new x"), tag(b"refs/tags/refs/tags/v1 new x"), tag(b"refs/tags/" + b"n" * 250 + b" new x"),
        tag(b"refs/tags/bisect/a new x")]
    asked = [b"names\n", b"names refs/tags\n", b"show v1\n", b"files w\n", b"log breadth all +v1 -x\n", b"past v1\n", b"past w\n"]
    for command in accepted:
        runs((made,), (command,), *((it,) for it in asked), by_git_alone=False)
        for kind in KINDS:
            as_git_tags(kind, made, command)
    runs((made,), *((accepted[number],) for number in (0, 2, 3, 6, 8)), *((it,) for it in asked), by_git_alone=False)
    refused_tags(made)
    words_of_tags(made)


def refused_tags(made):
    """The causes of a tag, each as the first of two that hold, and nothing is changed."""
    main, v, w, new = b"refs/heads/main", b"refs/tags/v1", b"refs/tags/w", b"refs/tags/new"
    bad = b"tagger 0 3 9 +0060\n\na@b\n"
    late = b"tagger 1 3 9 -0000\nA\na@b\n"
    refused = [
        *((tag(it + b" at nosuch nosuch"), "BadName") for it in (
            b"v1", b"HEAD", b"tags/v1", main, b"refs/remotes/v1", b"refs/tags", b"refs/tags/", b"refs/tagsv1", b"refs/bisect/v1", b"refs/tags/@",
            b"refs/tags/-", b"refs/tags/-v1", b"refs/tags/a..b", b"refs/tags/a.lock", b"refs/tags/.a", b"refs/tags//a", b"refs/tags/\xff",
            b"refs/tags/" + b"n" * 1015)),
        (tag(new + b" at nosuch HEAD"), "UnknownWord"), (tag(v + b" new nosuch"), "UnknownWord"), (tag(new + b" at v1 main"), "NoSuchName"),
        (tag(v + b" new main"), "Taken"), (tag(v + b" at x main"), "NotExpected"), (tag(v + b"/a at main x"), "NoSuchName"),
        (tag(v + b"/a new main", tagger=bad), "Collides"), (tag(w + b"/a/b any main", message=b""), "Collides"),
        (tag(v + b" at x main", tagger=bad), "NotExpected"), (tag(new + b" new main", tagger=bad, message=b""), "BadActor"),
        (tag(new + b" new main", tagger=b"tagger 1 4 9 +0000\nA\na@b>\n"), "BadActor"), (tag(v + b" any main", 5, tagger=late), "BadTime"),
        (tag(new + b" any main", tagger=late, message=b""), "BadTime"), (tag(new + b" any main", tagger=late.replace(b" 9 -", b" 09 +")), "BadTime"),
        *((tag(v + b" any main", message=it), "BadMessage") for it in (b"", b"\n", b"\na", b"a\tb", b"a\rb\n", b"a\0", b"m" * 1025)),
        (tag(v + b" any main", 5), "NothingMoves"), (tag(v + b" at v1 HEAD", 5), "NothingMoves"), (tag(v + b" at main v1", 5), "NothingMoves")]
    for command, cause in refused:
        runs((made,), (command, cause), (b"names\n",), (b"past v1\n",), by_git_alone=False)
    runs((made,), *refused, (b"names\n",), by_git_alone=False)
    answer(tag(new + b" new HEAD") + tag(new + b" at HEAD main") + tag(new + b" new main"), "UnbornHead", "UnknownWord", "UnknownWord")
    for text in (b"tag\n", b"tag refs/tags/a\n", b"tag refs/tags/a new\n", b"tag refs/tags/a at main\n", b"tag refs/tags/a new b c\n",
                 b"tag refs/tags/a at b c d\n", b"tag refs/tags/a old main\n", b"tag  refs/tags/a new main\n",
                 b"tag refs/tags/a new main\nmessage 1\n", b"tag refs/tags/a new main\ncommitter 1 3 9 +0000\n",
                 b"tag refs/tags/a new main\ntagger 1 3 9 +0000\nA\na@b\nend\n",
                 b"tag refs/tags/a new main\ntagger 1 3 9 +0000\nA\na@b\ntagger 1 3 9 +0000\n",
                 b"tag refs/tags/a new main\ntagger 1 3 9 +0000\nA\na@b\nmessage 1\na\ntag refs/tags/b new main\n",
                 b"tagger 1 3 9 +0000\n"):
        answer(PUT_HELLO + text, "Syntax", end="Refused")
    for text in (b"tag refs/tags/a new main\n", b"tag refs/tags/a new main\ntagger 1 3 9 +0000\nA\na@", tag(b"refs/tags/a new main")[:-4]):
        answer(PUT_HELLO + text, "Truncated", end="Refused")
    # The tag's content alone may be too long, or its message by itself.
    for kind in KINDS:
        front = len(b"object \ntype commit\ntag a\ntagger A <a@b> 9 +0000\n\n") + len(Plain(kind).null)
        for more in (0, 1, front, front + 1):
            count = LIMIT - front + more
            begun = PUT_HELLO + b"tag refs/tags/a new main\ntagger 1 3 9 +0000\nA\na@b\nmessage %d\nt\n" % count
            text, data = spelled([begun, Long(b"m", count - 2), b"\nend\nnames\n"])
            ended, replies = Plain(kind).run(data)
            assert refusals(replies) == ["TooLarge"] * (more > 0)
            ROWS.append((f"{kind} create open run:{text}", f"created opened {told(ended, replies)}"))


def words_of_tags(made):
    """Words and names that are tags, with every command: each means the tag's commit, and a name holds the tag's id all the same."""
    main, x, v, y = b"refs/heads/main", b"refs/heads/x", b"refs/tags/v1", b"refs/heads/y"
    for kind in KINDS:
        plain = Plain(kind)
        plain.run(made)
        held, commit = plain.names[v], plain.names[main]
        whole = [b"v1", b"tags/v1", v, held, held[:9], held.upper()]
        runs((made,), *((b"show %s\n" % it,) for it in whole), *((b"log breadth all +x -%s\n" % it,) for it in whole), (b"past v1\n",),
             (b"past %s\n" % held, "BadName"), by_git_alone=False, kinds=[kind])
        # A tag that no name holds any more means its commit by its id.
        runs((made,), (b"delete %s any\n" % v,), *((b"show %s\n" % it,) for it in whole[3:]), (b"show v1\n", "UnknownWord"),
             (tag(v + b" new %s" % held[:9], 5),), (b"names refs/tags\n",), by_git_alone=False, kinds=[kind])
        accepted = [
            branch(y + b" new", 6, b"parent v1\n"), branch(main + b" at v1", 6), branch(main + b" at " + held, 6, b"parent x\n"),
            b"delete %s at main\n" % v, b"delete %s at v1\n" % v, b"delete %s at %s\n" % (v, held[:12]), b"delete %s any\n" % v,
            b"delete %s at v1\n" % main, move(v + b" at main main"), move(v + b" any v1"), move(v + b" at %s x" % held),
            move(x + b" any v1", y + b" new %s" % held), move(x + b" any v1", v + b" any x")]
        refused = [
            (branch(v + b" any", 6), "HoldsTag"), (branch(v + b" at main", 6), "HoldsTag"), (branch(v + b" at v1", 6, b"parent v1\n"), "HoldsTag"),
            (branch(v + b" any", 6, b"put file 1 0\n/\n\n"), "HoldsTag"), (branch(v + b" at x", 6), "NotExpected"), (branch(v + b" new", 6), "Taken"),
            (branch(v + b" any", 6, b"parent nosuch\n"), "UnknownWord"), (branch(main + b" any", 6, b"parent v1\n"), "DuplicateParent"),
            (branch(v + b" any", 6, b"parent x\n" * 65), "HoldsTag"), (b"delete %s at x\n" % v, "NotExpected"),
            (move(v + b" at x main"), "NotExpected"), (move(main + b" any v1"), "NothingMoves"), (move(main + b" at v1 %s" % held), "NothingMoves"),
            (move(v + b" new x"), "Taken")]
        for command in accepted:
            runs((made,), (command,), (b"names\n",), by_git_alone=False, kinds=[kind])
        runs((made,), *refused, (b"names\n",), (b"past v1\n",), by_git_alone=False, kinds=[kind])
        assert commit == plain.peeled(held)
        for command in accepted[8:]:
            as_git_moves(kind, made, command)
        for command in accepted[3:8]:
            as_git_deletes(kind, made, command)
