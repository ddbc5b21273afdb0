"""Rows of logs, with paths and without, and of rows of commits; the orders that git has are held against git."""

import by_git
from case_words import word
from plain import Plain
from streams import INPUT, KINDS, PUT_HELLO, ROWS, answer, branch, log_at, reading, runs, told


def as_git_lists(made):
    """Stops if a log isn't the list that git printed."""
    plain = Plain("sha1")
    numbers = {reply.split()[-1]: number for (reply, _), number in zip(plain.run(made)[1], "123459678")}
    for (order, how), lists in by_git.LISTS.items():
        for items, listed_ in lists.items():
            _, ((reply, _),) = plain.run(f"log {order} {how} {items}\n".encode())
            assert "".join(numbers[it] for it in reply.split()[3:]) == listed_, (order, how, items)


def logs():
    """Eight commits on two branches in each order, from one tip and from more, with some that are hidden, and what is refused."""
    made = eight()
    lines = [b"log %s %s %s\n" % (order, how, items) for order in (b"breadth", b"newest", b"oldest", b"date", b"topological")
             for how in (b"all", b"first") for items in (b"+j", b"+m +s", b"+s +m +s", b"+o +j", b"+j -s", b"-o +j", b"+j -j", b"+m -o -s")
             if how == b"all" or order == b"breadth" or b"-" not in items and order in (b"date", b"topological")]
    lines += [b"log %s %d %s\n" % (order, since, items) for order in (b"newest-since", b"oldest-since") for since in (0, 4, 6, 8, 9)
              for items in (b"all +j", b"all +s +m", b"all -o +j")]
    runs((made,), *((line,) for line in lines), by_git_alone=False)
    as_git_lists(made)
    refused = [(b"log newest all +m -nosuch", "UnknownWord"), (b"log newest-since x all +HEAD", "UnbornHead"),
               (b"log newest-since x all +nosuch -HEAD", "UnknownWord"), (b"log newest-since x first +m", "BadTime"),
               (b"log oldest-since 01 all +m", "BadTime"), (b"log oldest-since 9223372036854775808 all +m", "BadTime"),
               (b"log newest-since -1 all +m", "BadTime"), (b"log newest first +m", "OrderWithParents"),
               (b"log oldest first +m", "OrderWithParents"), (b"log newest-since 1 first +m", "OrderWithParents"),
               (b"log oldest-since 1 first +m", "OrderWithParents"), (b"log date first +m -s", "OrderWithParents"),
               (b"log topological first +m -m", "OrderWithParents")]
    runs((made,), *((line + b"\n", cause) for line, cause in refused), (b"log newest-since 9223372036854775807 all +j\n",),
         (b"log breadth first +m -s\n",), by_git_alone=False)
    for line in (b"log\n", b"log breadth all -m\n", b"log breadth all m\n", b"log breadth all +\n", b"log breadth all path 1 +m\na\n",
                 b"log newest-since all +m\n", b"names a b\n", b"past\n", b"past a b\n"):
        answer(INPUT + line, "Syntax", end="Refused")


def eight():
    """The commits that `logs` lists: two branches, one that is joined of both, and one apart."""
    m, s = b"refs/heads/m", b"refs/heads/s"
    return b"".join([
        branch(m + b" new", 1), branch(s + b" new", 2, b"parent m\n"), branch(m + b" any", 3), branch(s + b" any", 4), branch(m + b" any", 5),
        branch(b"refs/heads/o new", 9, b"parent s\n"), branch(m + b" any", 6), branch(s + b" any", 7),
        branch(b"refs/heads/j new", 8, b"parent m\nparent s\n")])


def indexes():
    """Rows: how many there are, what each says, and logs over all, some and none of them, which list what they list without rows; how many
    objects a log then reads; and a call that fails, which leaves the rows as they were."""
    made, index = eight(), b"index\n"
    lines = [b"log %s %s\n" % (order, items) for order in (b"breadth all", b"newest all", b"oldest all", b"date all", b"topological all",
             b"newest-since 4 all", b"oldest-since 4 all", b"breadth first") for items in (b"+j", b"+o +j", b"+s +m +s")]
    lines += [b"log %s all %s\n" % (order, items) for order in (b"breadth", b"newest", b"oldest", b"date", b"topological")
              for items in (b"+j -s", b"-o +j", b"+j -j", b"+m -o -s")]
    later = branch(b"refs/heads/j any", 10, b"parent o\n") + branch(b"refs/heads/m any", 11)
    listed_ = b"".join(lines) + log_at(b"topological all +j", b"a")
    runs((index,), (made,), (listed_,), (index,), (listed_,), (later,), (listed_,), (index + listed_,), by_git_alone=False)
    runs((PUT_HELLO + index + index,), (b"files main\n" + index,), by_git_alone=False)
    for kind in KINDS:
        plain = Plain(kind)
        ids = [reply.split()[-1] for reply, _ in plain.run(made)[1]]
        rows_ = []
        for digits in ids:
            tree, parents, seconds, generation = plain.row(digits)
            rows_.append(b"tree %s parents%s seconds %s generation %d" % (tree, b"".join(b" " + it for it in parents), seconds, generation))
        asked = " ".join(f"row:{it.decode()}" for it in ids)
        none, told_ = " ".join(["none"] * len(ids)), " ".join(f"row:{word(it)}" for it in rows_)
        plain.run(later)
        new = [it.decode() for it in plain.commits if it not in ids]
        counted, more = word(b"ok index 9\n"), word(b"".join(b"ok commit %s\n" % it.encode() for it in new))
        ROWS.append((f"{kind} create open {asked} run:{word(made)} {asked} run:{word(index)} {asked} run:{word(later)} {asked} "
                     + " ".join(f"row:{it}" for it in new),
                     f"created opened {none} {told('Input', Plain(kind).run(made)[1])} {none} Input:{counted} {told_} Input:{more} {told_} "
                     + " ".join(["none"] * len(new))))
        log = [b"log %s +%s\n" % (order, ids[-1]) for order in (b"breadth all", b"newest all", b"oldest all", b"date all", b"topological all")]
        for line in log:
            for before in (made + index, made + index + branch(b"refs/heads/x new", 12)):
                reading(kind, before, line, 0)
        # Each commit without a row is looked up once, also one that words mean.
        for before, line, count in [(made, b"log breadth all +j\n", 8), (made, b"log topological all +j\n", 8), (made, b"log newest all +j\n", 8),
                                    (made + index, b"log breadth all +j\n", 0), (made + index, b"log topological all +j -s\n", 0),
                                    (made + index, b"log oldest-since 3 all +j -s\n", 0),
                                    (made + index + later, b"log breadth all +j\n", 1),
                                    (made + index + later, b"log newest all +j +m\n", 2),
                                    (made + index + later, b"log date all +j -m\n", 2)]:
            reading(kind, before, line, count)


def path_logs():
    """Logs with a path: what they list, by the numbers of the commits, and each refused path, with its place among the causes."""
    m, s = b"refs/heads/m", b"refs/heads/s"
    made = b"".join([
        branch(m + b" new", 1, b"put file 1 1\na\nx\n"), branch(m + b" any", 2, b"put file 1 1\nb\ny\n"),
        branch(m + b" any", 3, b"put file 1 1\na\nz\n"), branch(m + b" any", 4, b"put file 3 1\nd/e\n1\nput file 3 1\nd/f\n2\n"),
        # The mode of a file alone, and back; a file that nothing changes; one that is put anew as it was.
        branch(m + b" any", 5, b"put exec 3 1\nd/e\n1\n"), branch(m + b" any", 6, b"put link 3 1\nd/e\n1\n"), branch(m + b" any", 7),
        branch(m + b" any", 8, b"put file 1 1\na\nz\n"),
        # A branch whose `a` and `d` the merge takes from its first parent; and one that takes the `a` of the second.
        branch(s + b" new", 9, b"parent m\nput file 1 1\na\nw\nremove 1\nd\n"), branch(m + b" any", 10, b"put file 1 1\nb\nv\n"),
        branch(m + b" any", 11, b"parent s\n"), branch(m + b" any", 12, b"parent s\nput file 1 1\na\nw\n"),
        # A file in place of a folder, a folder in place of a file, and all files gone.
        branch(m + b" any", 13, b"put file 1 0\nd\n\n"), branch(m + b" any", 14, b"put file 3 0\na/x\n\n"),
        branch(m + b" any", 15, b"remove 1\na\nremove 1\nb\nremove 1\nd\n")])
    listed_ = [(b"a", [15, 14, 12, 9, 3, 1]), (b"b", [15, 10, 2]), (b"c", []), (b"d", [15, 13, 9, 6, 5, 4]), (b"d/e", [13, 9, 6, 5, 4]),
               (b"d/f", [13, 9, 4]), (b"d/", None), (b"d/e/x", []), (b"a/x", [15, 14]), (b"a/x/y", []), (b"A", []), (b"aa", []),
               (b"d" * 4096, [])]
    as_numbered(made, [((path,), numbers) for path, numbers in listed_])
    # At several paths: at one of them or below it, in any order, some twice or below others. In `git log --topo-order` 9 comes before 10.
    several = [((b"a", b"b"), [15, 14, 12, 9, 10, 3, 2, 1]), ((b"b", b"a"), [15, 14, 12, 9, 10, 3, 2, 1]), ((b"a", b"nope"), [15, 14, 12, 9, 3, 1]),
               ((b"nope", b"none"), []), ((b"b", b"b"), [15, 10, 2]), ((b"d", b"d/e"), [15, 13, 9, 6, 5, 4]), ((b"d/e", b"d/f"), [13, 9, 6, 5, 4]),
               ((b"d/f", b"a/x"), [15, 14, 13, 9, 4]), ((b"b", b"d/f", b"b", b"c"), [15, 13, 9, 10, 4, 2]), ((b"d", b"d/"), None),
               ((b"a", b"b", b"d"), [15, 14, 13, 12, 9, 10, 6, 5, 4, 3, 2, 1]), ((b"A", b"d" * 4096, b"a/x"), [15, 14])]
    as_numbered(made, several)
    paths = [path for path, numbers in listed_ if numbers is not None]
    ways = [b"topological all +m", b"newest all +m", b"oldest all +m", b"date all +m", b"breadth first +m", b"topological first +m",
            b"breadth all +m -s", b"newest-since 5 all +m", b"breadth all +s +m"]
    runs((made,), *((log_at(b"topological all +m", path),) for path in paths), by_git_alone=False)
    runs((made,), *((log_at(way, path),) for way in ways for path in (b"a", b"d", b"b")), by_git_alone=False)
    told_ = [paths for paths, numbers in several if numbers is not None]
    runs((made,), *((log_at(b"topological all +m", *paths),) for paths in told_), by_git_alone=False)
    runs((made,), *((log_at(way, *paths),) for way in ways for paths in told_[:3] + told_[8:9]), by_git_alone=False)
    three = branch(m + b" new", 1, b"put file 1 1\na\nx\n") + branch(m + b" any", 2, b"put file 1 1\nb\ny\n") + branch(m + b" any", 3, b"put file 1 1\na\nz\n")
    as_numbered(three, [((b"a", b"b"), [3, 2, 1]), ((b"a", b"nope"), [3, 1]), ((b"b",), [2])])
    runs((three,), *((log_at(b"topological all +m", *paths),) for paths in [(b"a", b"b"), (b"a", b"nope"), (b"b",), (b"b", b"a", b"a"), ()]),
         by_git_alone=False)
    # Each path is tested, after the words and before the cutoff and the parents; what comes after the line goes on with the next command.
    worse = [(b"breadth all +m", (b"a", b""), "BadPath"), (b"breadth all +m", (b"", b"a"), "BadPath"), (b"breadth all +m", (b"a", b"b", b"c//d"), "BadPath"),
             (b"breadth all +m", (b"a", b"d" * 4097, b"b"), "BadPath"), (b"newest first +m", (b"a", b"/"), "BadPath"),
             (b"breadth all +nosuch", (b"a", b""), "UnknownWord"), (b"newest first +m", (b"a", b"b"), "OrderWithParents"),
             (b"newest-since x first +m", (b"a", b"b"), "BadTime")]
    runs((made,), *((log_at(words, *paths) + b"names\n", cause) for words, paths, cause in worse), by_git_alone=False)
    bad = [b"", b"/", b"/a", b"a/", b"a//b", b"a\0", b"d" * 4097, b"d" * 5000]
    first = [(log_at(b"breadth all +nosuch", b""), "UnknownWord"), (log_at(b"breadth all +HEAD", b""), "UnbornHead"),
             (log_at(b"newest-since x first +m", b""), "BadPath"), (log_at(b"newest first +m", b"/"), "BadPath"),
             (log_at(b"newest-since x first +m", b"a"), "BadTime"), (log_at(b"newest first +m", b"a"), "OrderWithParents"),
             (log_at(b"breadth all +nosuch", b"a"), "UnknownWord")]
    runs((made,), *((log_at(b"breadth all +m", path), "BadPath") for path in bad), *first, (log_at(b"topological all +m", b"a"),),
         by_git_alone=False)


def as_numbered(made, listed_):
    """Stops if a log with a path doesn't list the commits of these numbers."""
    plain = Plain("sha1")
    numbers = {reply.split()[-1]: number for number, (reply, _) in enumerate(plain.run(made)[1], 1)}
    for paths, wanted in listed_:
        _, ((reply, _),) = plain.run(log_at(b"topological all +m", *paths))
        found = [numbers[it] for it in reply.split()[3:]] if reply.startswith(b"ok") else None
        assert found == wanted, (paths, found, wanted)


def one_time():
    """Tips of one time by topology: the one that was given last comes first."""
    made = b"".join(branch(b"refs/heads/%s new" % name, 1, b"put file 1 1\na\n%s\n" % name) for name in (b"a", b"b", b"c"))
    made += branch(b"refs/heads/d new", 1, b"parent a\nparent b\n") + branch(b"refs/heads/e new", 2, b"parent b\nparent a\n")
    items = [b"+a +b", b"+b +a", b"+a +b +c", b"+c +b +a", b"+b +c +a +b", b"+a +a +b", b"+a +b -c", b"+c -a +b", b"+d +c", b"+c +d", b"+e +d +c",
             b"+d +e +c", b"+a +d", b"+d -a", b"+e -b +c"]
    lines = b"".join(b"log topological all %s\n" % it for it in items)
    runs((made,), (lines,), (b"index\n" + lines,), by_git_alone=False)
    runs((made,), *((log_at(b"topological all " + it, b"a"),) for it in items[:4]), (b"log topological first +a +b +d\n",), by_git_alone=False)
