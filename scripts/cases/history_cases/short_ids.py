"""Rows of words that are ids, whole or in part."""

import by_git
from plain import Plain
from streams import KINDS, ONE, PUT_HELLO, move, runs


def twins(kind):
    """Two numbers whose blobs have ids with the same four digits in front, a letter among them, and these digits."""
    plain, seen = Plain(kind), {}
    for number in range(2000):
        digits = plain.id(b"blob", b"%d" % number)[0][:4]
        if digits in seen and not digits.isdigit():
            return seen[digits], b"%d" % number, digits
        seen[digits] = b"%d" % number


def like(kind, front):
    """The first number whose blob's id begins with these digits."""
    plain = Plain(kind)
    return next(b"%d" % it for it in range(10 ** 6) if plain.id(b"blob", b"%d" % it)[0].startswith(front))


def short_ids():
    """Words that are ids, whole or short: of a commit, a blob and a tree, of one alone and of two, in any case of letters; names that
    look like one; and each cause of a word as the first."""
    for kind in KINDS:
        one, other, both = twins(kind)
        plain = Plain(kind)
        plain.run(PUT_HELLO)
        first = plain.names[b"refs/heads/main"]
        blob, tree = plain.id(b"blob", b"hello")[0], plain.commits[first]["tree"]
        cases = [first, first[:4], first[:7], first.upper(), first[:9].upper(), blob, blob[:4], blob.upper(), tree, tree[:11], blob[:3],
                 blob + b"0", first[:3], first + b"a", blob[:20] + b"x", b"wxyz", b"0" * 4, plain.null, b"g" + blob[1:], both,
                 b"refs/" + first[:4]]
        causes = [None] * 5 + ["NotACommit"] * 5 + ["UnknownWord"] * 11
        shown = [b"show %s\n" % it for it in cases]
        runs((PUT_HELLO,), *((line, *filter(None, [cause])) for line, cause in zip(shown, causes)), by_git_alone=False, kinds=[kind])
        runs((PUT_HELLO,), (b"files %s\n" % first[:5],), (b"show %s path 1\na\n" % first[:6],), (b"log breadth all +%s\n" % first[:4],),
             (b"files %s\n" % tree, "NotACommit"), (b"log breadth all +main -%s\n" % blob, "NotACommit"),
             (b"log breadth all +main -%s\n" % first,), (b"past %s\n" % first[:4], "BadName"),
             (b"show %s path 4\na//b\n" % blob, "NotACommit"), by_git_alone=False, kinds=[kind])
        contents = [(b"b", one), (b"c", other), (b"d", like(kind, first[:4]))]
        puts = b"".join(b"put file 1 %d\n%s\n%s\n" % (len(content), path, content) for path, content in contents)
        made = PUT_HELLO + b"commit refs/heads/x new\nparent main\n" + puts + ONE
        told_ = Plain(kind)
        told_.run(made)
        begun = {it: len(told_.begun(it)) for it in (first[:4], both, blob[:4], both.upper(), tree[:4])}
        assert begun == {it: by_git.BEGUN[kind][it.decode()] for it in begun}, begun
        runs((made,), (b"show %s\n" % both, "AmbiguousWord"), (b"show %s\n" % both.upper(), "AmbiguousWord"),
             (b"show %s\n" % plain.id(b"blob", one)[0], "NotACommit"), (b"show %s\n" % first[:4], "AmbiguousWord"), (b"show %s\n" % first,),
             (b"files %s\n" % first[:12],), by_git_alone=False, kinds=[kind])
        # All words are tested for one cause before the next one, and each comes before what the name holds.
        unborn = made.replace(b"refs/heads/main", b"refs/heads/y").replace(b"parent main", b"parent y")
        for words, cause in [(b"+%s -nosuch" % both, "UnknownWord"), (b"+%s +HEAD -%s" % (blob, both), "AmbiguousWord"),
                             (b"+%s -HEAD" % blob, "UnbornHead"), (b"+y +%s" % blob, "NotACommit")]:
            runs((unborn,), (b"log breadth all %s\n" % words, cause), by_git_alone=False, kinds=[kind])
        commits = [(b"commit HEAD at %s\nparent abc\n" % both, "UnknownWord"),
                   (b"commit HEAD at %s\nparent %s\n" % (blob, both), "AmbiguousWord"),
                   (b"commit refs/heads/x new\nparent %s\n" % tree, "NotACommit"), (b"commit HEAD at %s\n" % blob, "NotACommit"),
                   (b"commit refs/heads/nosuch at %s\n" % first, "NoSuchName"),
                   (b"commit HEAD at %s\nparent %s\n" % (first, first[:9]), "DuplicateParent")]
        runs((made,), *((line + ONE, cause) for line, cause in commits), (b"commit HEAD at %s\nput file 1 1\na\n1\n" % first[:8] + ONE,),
             (b"log breadth all +main\n",), by_git_alone=False, kinds=[kind])
        short_moves(kind, made, unborn, first, both, blob)
        # A name that exists wins over an id.
        runs((PUT_HELLO,), (b"commit refs/heads/%s new\nput file 1 1\nz\nz\n" % first[:4] + ONE,), (b"files %s\n" % first[:4],),
             (b"files %s\n" % first[:5],), by_git_alone=False, kinds=[kind])


def short_moves(kind, made, unborn, first, both, blob):
    """Moves to ids and from them; and each cause of a word as the first over all words of all lines."""
    x, v = b"refs/heads/x", b"refs/tags/v"
    refused = [
        (move(x + b" any %s" % both, v + b" at nosuch main"), "UnknownWord"), (move(x + b" at %s nosuch" % blob), "UnknownWord"),
        (move(x + b" any %s" % blob, v + b" at main %s" % both), "AmbiguousWord"), (move(x + b" at %s %s" % (both, blob)), "AmbiguousWord"),
        (move(x + b" new main", v + b" new %s" % blob), "NotACommit"), (move(v + b" at %s main" % blob), "NotACommit"),
        (move(x + b" at %s %s" % (first, first[:9])), "NotExpected"), (move(b"refs/heads/main any %s" % first), "NothingMoves")]
    accepted = move(b"refs/heads/main at %s x" % first[:8], x + b" any %s" % first.upper(), v + b" new %s" % first[:12])
    runs((made,), *refused, (accepted,), (b"names\n",), (b"past v\n",), by_git_alone=False, kinds=[kind])
    hidden = [(move(v + b" new HEAD", x + b" at %s y" % both), "AmbiguousWord"), (move(v + b" new %s" % blob, x + b" any HEAD"), "UnbornHead"),
              (move(v + b" new y", x + b" at HEAD %s" % blob), "UnbornHead")]
    runs((unborn,), *hidden, (b"names\n",), by_git_alone=False, kinds=[kind])
