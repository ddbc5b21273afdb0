"""Rows of commits: ids that git printed, causes, parents, removals, nested paths, limits and times."""

from plain import Plain
from streams import INPUT, LIMIT, ONE, PUT_HELLO, ROWS, SIGNED, Long, answer, branch, runs, spelled, tag, told


def rows():
    """Runs whose ids git printed."""
    answer(INPUT)
    for name, stream in [("first-commit", b"commit refs/heads/main new\n" + ONE + b"files main\nshow main\n"), ("hello-file", INPUT)]:
        ROWS.append((f"sha1 {name}", told(*Plain("sha1").run(stream))))
    answer(b"commit refs/heads/main new\n" + ONE + b"files main\nshow main\n")
    answer(b"commit HEAD any\nput file 1 0\na\n\n" + ONE + b"files main\n")
    # The second commit's parent is the first; it puts `a` anew, twice, and two files more, of the other kinds.
    answer(PUT_HELLO + b"commit HEAD at main\nput link 1 1\nb\na\nput file 1 1\na\n1\nput file 1 1\na\n2\nput exec 2 0\na0\n\n" + ONE
           + b"files refs/heads/main\nshow heads/main\nshow HEAD path 1\na\n")
    answer(b"")
    for stream, cause in [(b"commit refs/heads/main new\n", "Truncated"), (b"hello\n", "Syntax"), ([Long(b"x", 4097)], "LineTooLong"),
                          ([Long(b"x", 4096), b"\n"], "Syntax")]:
        answer(stream, cause, end="Refused")
    for kind, hello in [("sha1", "b6fc4c620b67d95f953a5c1c1230aaab5db5a1b0"),
                        ("sha256", "8aec4e4876f854f688d0ebfc8f37598f38e5fd6903cccc850ca36591175aeb60")]:
        ROWS.append((f"{kind} put:hello", f"{hello} exists blob:hello first Malformed opened Stray:objects/{hello[:2]}/{hello[2:]}"))


def first_causes():
    """Each cause, where it is the first that holds, and what a refusal leaves."""
    answer(b"files HEAD\nshow HEAD\nfiles main\nshow refs/heads/main path 1\na\n",
           "UnbornHead", "UnbornHead", "UnknownWord", "UnknownWord")
    answer(b"commit HEAD at HEAD\n" + ONE + b"commit HEAD at main\n" + ONE, "UnbornHead", "UnknownWord")
    first = b"commit refs/heads/main new\nput file 1 1\na\n1\n" + ONE
    refused = [
        (b"commit HEAD new\nput file 0 0\n\n\n" + ONE, "Taken"),
        (b"commit HEAD any\nput file 1 1\na\n1\nput file 4 0\na//b\n\nauthor 0 3 1 +0000\n\na@b\n"
         b"committer 1 3 1 +0000\nA\na@b\nmessage 3\none\nend\n", "BadPath"),
        (b"commit HEAD any\nauthor 1 3 1 +0000\nA\na@b\ncommitter 1 4 01 +0000\nA\na@b \nmessage 3\none\nend\n", "BadActor"),
        (b"commit HEAD any\nauthor 1 3 1 +0060\nA\na@b\ncommitter 1 3 1 +0000\nA\na@b\nmessage 0\n\nend\n", "BadTime"),
        (b"commit HEAD any\nauthor 1 3 1 -0000\nA\na@b\ncommitter 1 3 1 +0000\nA\na@b\nmessage 3\none\nend\n", "BadTime"),
        (b"commit HEAD any\nauthor 1 3 1 +0000\nA\na@b\ncommitter 1 3 1 +0000\nA\na@b\nmessage 4\n\none\nend\n", "BadMessage"),
        (b"show main path 1\nb\n", "NoSuchPath")]
    for command in refused:
        runs((first,), command, (b"files main\n",))
    runs((first,), *refused, (b"files main\n",))


def two_branches():
    """Eight commits without files; the second follows the first, the last joins the two branches."""
    m, s = b"refs/heads/m", b"refs/heads/s"
    made = branch(m + b" new", 1) + branch(s + b" new", 2, b"parent m\n") + branch(m + b" any", 3) + branch(s + b" any", 4)
    made += branch(m + b" any", 5) + branch(m + b" any", 6) + branch(s + b" any", 7) + branch(m + b" at m", 8, b"parent s\n")
    made += b"files m\nshow m\nshow heads/s\n"
    answer(made)
    refused = [
        (b"commit m at nosuch\n", "BadName"), (b"commit refs/heads/a..b at nosuch\n", "BadName"),
        (b"commit refs/heads/\xff new\n", "BadName"), (b"commit refs/bisect/m at nosuch\n", "PrivateName"),
        (b"commit refs/heads/m at HEAD\nparent nosuch\n", "UnknownWord"), (b"commit refs/heads/t at m\nparent HEAD\n", "UnbornHead"),
        (b"commit refs/heads/m/x at m\n", "NoSuchName"), (b"commit refs/heads/m new\nparent m\n", "Taken"),
        (b"commit refs/heads/m at s\nparent m\n", "NotExpected"),
        (b"commit refs/heads/m/x any\nparent s\nparent s\n", "Collides"),
        (b"commit refs/heads any\nput file 1 0\n/\n\n", "Collides"),
        (b"commit refs/heads/m any\nparent m\nput file 1 0\n/\n\n", "DuplicateParent"),
        # 65 words are too many parents, whether they name one commit or more.
        (b"commit refs/heads/t new\n" + b"parent m\n" * 65, "TooManyParents")]
    after = [(b"show refs/heads/t\n", "UnknownWord"), (b"files m\n",)]
    for line, cause in refused:
        runs((made,), (line + ONE, cause), *after)
    runs((made,), *((line + ONE, cause) for line, cause in refused), *after)


def removals():
    """What exists is taken out, in the order of the edits; of what doesn't exist nothing is."""
    runs((b"commit refs/heads/main new\nput file 1 1\na\n1\nput file 1 1\nb\n1\nput file 1 1\nc\n1\n" + ONE,),
         (b"commit refs/heads/main any\nremove 1\nb\nremove 1\nd\nremove-file 1\nc\nput file 1 1\nc\n1\nremove-file 1\na\n"
          b"remove 1\nx\n" + ONE,), (b"files main\n",), by_git_alone=False)


def nested():
    """Paths of several names: folders come, go, and give way to files."""
    def signed(number, message):
        return SIGNED % (number, number, len(message), message)

    new, any_ = b"commit refs/heads/main new\n", b"commit refs/heads/main any\n"
    paths = b"".join(b"show main path %d\n%s\n" % (len(it), it) for it in [b"a/b/d", b"a/b", b"a/b/x", b"f/x", b"a//b"])
    answer(new + b"put file 5 1\na/b/c\n1\nput exec 5 1\na/b/d\n2\nput link 3 1\na/e\nc\nput file 1 1\nf\n3\n" + signed(1, b"one")
           + b"files main\nshow main\n" + paths
           + any_ + b"put file 5 1\nf/g/h\n4\nremove 3\na/b\nput file 4 1\na/b0\n5\nput file 3 1\na.b\n6\nremove 3\nq/r\n"
           b"remove-file 3\na/e\n" + signed(2, b"two") + b"files main\nshow main\n"
           + any_ + b"remove 5\nf/g/h\nremove 1\na\n" + signed(3, b"three") + b"files main\nshow main\n"
           + any_ + b"put file 3 1\nx/y\n1\nremove 1\nx\nremove 3\na.b\n" + signed(4, b"four") + b"files main\nshow main\n",
           "IsFolder", "NoSuchPath", "NoSuchPath", "BadPath")
    first = new + b"put file 3 1\na/b\n1\n" + ONE
    # A file takes the place of a folder; a folder whose last file goes, and what is left put alone; an order of paths.
    answer(first + any_ + b"put file 1 1\na\n2\n" + ONE + b"files main\nshow main path 1\na\nshow main path 3\na/b\n", "NoSuchPath")
    answer(new + b"put file 1 1\na\n1\nput file 3 1\nd/x\n1\n" + ONE + any_ + b"remove-file 3\nd/x\n" + ONE + b"show main\n")
    answer(new + b"put file 1 1\na\n1\n" + ONE + b"show main\n")
    answer(new + b"put file 2 1\na0\n1\nput file 3 1\na/c\n2\nput file 3 1\na.b\n3\n" + ONE + b"files main\nshow main\n")
    # The refused commit stores nothing, its first content included.
    runs((first,))
    runs((first,), (any_ + b"put file 1 1\nz\n2\nremove-file 1\na\n" + ONE, "IsFolder"))
    refused = [
        (b"commit HEAD any\nremove-file 1\na\nput file 2 0\n/b\n\n" + ONE, "BadPath"),
        (b"commit HEAD any\nremove-file 1\na\nauthor 0 3 1 +0000\n\na@b\ncommitter 1 3 1 +0000\nA\na@b\nmessage 3\none\nend\n",
         "IsFolder"),
        (b"commit HEAD any\nput file 3 1\nd/e\n1\nremove-file 1\nd\nauthor 1 3 1 +0000\nA\na@b\ncommitter 1 3 1 +0060\nA\na@b\n"
         b"message 3\none\nend\n", "IsFolder")]
    for command in refused:
        runs((first,), command)
    runs((first,), (any_ + b"remove 1\nq\nremove 5\na/b/c\n" + ONE + b"files main\n",))


def limits():
    """Limits, at their last value and one beyond."""
    other = b"committer 1 0 1 +0000\nA\n\nmessage 1\nm\nend\n"
    by = b"commit HEAD any\nauthor %d 0 %s\n%s\n\n" + other
    latest = b"9223372036854775807"
    runs(((by % (512, latest + b" -1259", b"n" * 512)),), ((by % (513, b"1 +0000", b"n" * 513)), "BadActor"),
         ((by % (1, b"9223372036854775808 +0000", b"A")), "BadTime"), ((by % (1, b"1 +0060", b"A")), "BadTime"), by_git_alone=False)
    saying = b"commit HEAD any\nauthor 1 0 1 +0000\nA\n\ncommitter 1 0 1 +0000\nA\n\nmessage %d\n"
    runs(([saying % 1024, Long(b"t", 1024), b"\nend\n"],), ([saying % 1025, Long(b"t", 1025), b"\nend\n"], "BadMessage"),
         by_git_alone=False)
    putting = b"commit HEAD any\nput file %d %d\n"
    runs(([putting % (4096, 0), Long(b"p", 4096), b"\n\n" + ONE],), ([putting % (4097, 0), Long(b"p", 4097), b"\n\n" + ONE], "BadPath"),
         by_git_alone=False)
    large = [putting % (1, LIMIT + 1), b"a\n", Long(b"c", LIMIT + 1), b"\n" + ONE + b"files main\n"]
    for kind, blob in [("sha1", b"6cfb41404320ce6d1614f439e9aa656a15b03797"),
                       ("sha256", b"7f71e07da5cd9cbe46b28e04b351d4fa1dc74f3df34a02688b8a2cfbe0524cb3")]:
        plain, stream = Plain(kind), [putting % (1, LIMIT), b"a\n", Long(b"c", LIMIT), b"\n" + ONE]
        first, second = plain.run(spelled(stream)[1]), plain.run(spelled(large)[1])
        assert b"".join(it for it, _ in second[1]) == b"refused TooLarge\nok files 1\nfile %s 1\na\n" % blob
        ROWS.append((f"{kind} create open run:{spelled(stream)[0]} run:{spelled(large)[0]}",
                     f"created opened {told(*first)} {told(*second)}"))
    # Whether a removal meets a folder is reported before a content's length.
    answer([putting % (3, LIMIT + 1), b"d/x\n", Long(b"c", LIMIT + 1), b"\nremove-file 1\nd\n" + ONE], "IsFolder", kinds=["sha1"])
    # A long message is refused for its title where that is bad, and else for its length.
    answer([saying % (LIMIT + 1), Long(b"m", LIMIT + 1), b"\nend\n"], "BadMessage")
    answer([saying % (LIMIT + 1), b"t\n", Long(b"m", LIMIT - 1), b"\nend\n"], "TooLarge")
    answer([saying % LIMIT, b"t\n", Long(b"m", LIMIT - 2), b"\nend\n"], "TooLarge")


def times():
    """Seconds and offsets of each role, and of a log's order: those that are taken, and those that are refused."""
    x = b"refs/heads/x"
    made = branch(b"refs/heads/main new", 1) + branch(x + b" new", 2)
    good = [b"0 +0000", b"1 -0001", b"9223372036854775807 +9959", b"10 -1259", b"2 -9900"]
    bad = [b"9223372036854775808 +0000", b"-1 +0000", b"01 +0000", b"00 +0000", b"+1 +0000", b"1x +0000", b"0x1 +0000", b"1. +0000",
           b"99999999999999999999999 +0000", b"18446744073709551617 +0000", b"1 +0060", b"1 -0000", b"1 +0099", b"1 +00600", b"1 0000", b"1 00000", b"1 +000", b"1 +00a0",
           b"1 *0000", b"1 +0", b"1 -", b"1 Z", b"1 +00:0"]
    other = b"committer 1 3 1 +0000\nA\na@b\nmessage 1\na\nend\n"
    roles = [lambda it: b"commit HEAD any\nauthor 1 3 %s\nA\na@b\n" % it + other,
             lambda it: b"commit HEAD any\nauthor 1 3 1 +0000\nA\na@b\n" + other.replace(b"1 +0000", it),
             lambda it: tag(b"refs/tags/v any main", tagger=b"tagger 1 3 %s\nA\na@b\n" % it),
             lambda it: b"move\nto refs/heads/%s any HEAD\nactor 1 3 %s\nA\na@b\nmessage 1\na\nend\n" % (it[:1].replace(b"-", b"m") + b"y", it)]
    for told_by in roles:
        runs((made,), *((told_by(it),) for it in good[:1] + good[2:4]), *((told_by(it), "BadTime") for it in bad), (b"past HEAD\nnames\n",), by_git_alone=False)
        runs((made,), *((told_by(it),) for it in (good[1], good[4])), (b"past HEAD\nshow HEAD\nnames\n",), by_git_alone=False)
    seconds = dict.fromkeys(it.split(b" ")[0] for it in bad[:10])
    runs((made,), *((b"log %s-since %s all +HEAD\n" % (order, it), "BadTime") for order in (b"newest", b"oldest") for it in seconds),
         *((b"log %s-since %s all +HEAD\n" % (order, it),) for order in (b"newest", b"oldest") for it in (b"0", b"2", b"9223372036854775807")),
         by_git_alone=False)
