"""Rows of one failing call in commands that make, read or are refused."""

from case_words import word
from plain import Plain
from streams import (
    INPUT, KINDS, ONE, PACK, PUT_HELLO, SIGNED, branch, each, each_failing, in_turn, listing, log_at, move, refusals, tag, told)


def index_faults():
    """Each call of either part fails in turn, of a commit, two `index` and a log after each: the command that makes it says so, the run
    goes on, and what follows is right. The first `index` reads the commit, the second nothing; a log over rows reads its word's name alone."""
    fault, index, line = b"fault File\n", b"index\n", b"log topological all +main\n"
    for kind in KINDS:
        stream = PUT_HELLO + index + line + index + line
        _, replies = Plain(kind).run(stream)
        one, *rest = (reply for reply, _ in replies)

        def ended(after):
            return f"created opened Input:{word(one + b''.join(after))} sound"

        for part, places in (("objects", [0]), ("names", [1, 3])):
            answers = ["created File closed closed", f"created opened Fault:{word(fault)} failed"]
            for at in places:
                answers.append(ended(rest[:at] + [fault] + rest[at + 1:]))
            answers.append(ended(rest))
            each(90, kind, f"create {part}:fail:#:- open run:{word(stream)} failed", answers)


def faults():
    """One call of either part fails, each in turn: the command that makes it says so, and no other; a later run lists the files."""
    fault, again = b"fault File\n", b"files main\n"
    for kind in KINDS:
        _, replies = Plain(kind).run(INPUT)
        committed, listed_, content = (reply for reply, _ in replies)
        ends = [f"created opened Input:{word(b''.join(first))} sound Input:{word(second)} sound" for first, second in [
            ((committed, fault, content), listed_), ((committed, listed_, fault), listed_),
            ((committed, listed_, content), fault), ((committed, listed_, content), listed_)]]
        for part in ("objects", "names"):
            each(60, kind, f"create {part}:fail:#:- open run:{word(INPUT)} failed run:{word(again)} failed",
                 ["created File closed closed closed closed", f"created opened Fault:{word(fault)} failed Fault:- failed", *ends])


def reading_faults():
    """One call of either part fails, each in turn, of each command that changes nothing, given twice and once more in a later run, over names of
    their own and packed ones: the one that makes it says so, the run goes on, and the others are right."""
    fault, main, x, v = b"fault File\n", b"refs/heads/main", b"refs/heads/x", b"refs/tags/v"
    folders = (b"refs/heads", b"refs/tags")
    loose = PUT_HELLO + branch(x + b" new", 2, b"parent main\n") + tag(v + b" new main", 3)
    of_names = [b"past main\n", b"past HEAD\n", b"past v\n", b"names refs/remotes\n"]
    of_both = [b"names\n", b"names refs/heads\n", b"names refs/tags\n", b"show HEAD\n", b"show v\n", b"files tags/v\n", b"show x path 1\na\n", b"log date all +v -x\n",
               b"log breadth first +x +HEAD\n", b"log oldest all +x\n"]
    for made in (loose, loose + PACK):
        plain = Plain("sha1")
        front = f"created opened {told(*plain.run(made))}"
        for line in of_names + of_both:
            _, ((reply, _),) = plain.run(line)
            runs_ = [(fault, reply, reply), (reply, fault, reply), (reply, reply, fault), (reply, reply, reply)]
            ends = [f"{front} opened Input:{word(one + other)} sound Input:{word(last)}" for one, other, last in runs_]
            for part in ("names", "objects") if line in of_both else ("names",):
                answers = ends
                if part == "names" and line.startswith(b"names"):
                    below = line.split()[1:] or [b"refs"]
                    calls = listing((main, x, v) if made == loose else (), folders, below[0] + b"/")
                    answers = in_turn([it for met in ends[:3] for it in each_failing(calls, met, ends[3])] + ends[3:])
                each(80, "sha1", f"create open run:{word(made)} {part}:fail:#:- open run:{word(line + line)} failed run:{word(line)}",
                     [f"{front} File closed closed closed", *answers])


def refused_or_failed():
    """One call of either part fails or stops, each in turn, of commands that are refused for what they must have read: the fault is reported, or the
    refusal. Nothing is changed then, and the folder is recovered and opened again."""
    main, x, v, fault = b"refs/heads/main", b"refs/heads/x", b"refs/tags/v", b"fault File\n"
    made = (b"commit refs/heads/main new\nput file 3 1\na/b\n1\n" + ONE + branch(x + b" new", 2, b"parent main\n") + tag(v + b" new main", 3))
    of_names = [(branch(main + b" at x", 4), "NotExpected"), (branch(main + b" new", 4), "Taken"), (branch(main + b"/y any", 4), "Collides"),
                (branch(b"refs/heads/y at main", 4), "NoSuchName"), (branch(main + b" any", 4, b"parent nosuch\n"), "UnknownWord"),
                (tag(v + b" new main", 4), "Taken"), (tag(v + b" at x main", 4), "NotExpected"), (move(x + b" at main main"), "NotExpected"),
                (move(main + b" any main", x + b" any main"), "NothingMoves"), (b"rename %s %s\n" % (x, main), "Taken"),
                (b"rename refs/heads/y %s/y\n" % x, "NoSuchName"), (b"rename %s %s/y\n" % (x, v), "Collides"), (b"delete refs/heads/y any\n", "NoSuchName"),
                (b"delete %s at main\n" % x, "NotExpected")]
    of_both = [(branch(main + b" any", 4, b"remove-file 1\na\n"), "IsFolder"), (branch(v + b" any", 4), "HoldsTag"),
               (branch(main + b" any", 4, b"parent v\n"), "DuplicateParent"), (tag(v + b" any v", 3), "NothingMoves"),
               (move(main + b" any v"), "NothingMoves"), (b"delete %s at x\n" % v, "NotExpected")]
    for kind in KINDS:
        plain = Plain(kind)
        front, names = f"created opened {told(*plain.run(made))}", b"names\npast main\n"
        after = f"recovered opened {told(*plain.run(names))}"
        for command, cause in of_names + of_both if kind == "sha1" else of_both:
            ended, replies = plain.run(command)
            assert refusals(replies) == [cause], (command, replies)
            answers = [f"{front} File closed closed {after}", f"{front} opened Fault:{word(fault)} failed {after}", f"{front} opened {told(ended, replies)} sound {after}"]
            for part in ("names", "objects") if (command, cause) in of_both else ("names",):
                for how in ("fail",) if kind == "sha1" else ("stop",):
                    each(70, kind, f"create open run:{word(made)} {part}:{how}:#:- open run:{word(command)} failed {part}:sound recover open run:{word(names)}",
                         answers)


def log_faults():
    """One call of either part fails, each in turn, of two commits and two logs in each order, and of two at a path: the log that makes it
    says so, and the other is right."""
    fault = b"fault File\n"
    made = PUT_HELLO + b"commit refs/heads/main any\n" + SIGNED % (1, 1, 3, b"two")
    for kind in KINDS:
        orders = (b"breadth", b"newest", b"oldest-since 1", b"date", b"topological")
        for line in [*(b"log %s all +main\n" % order for order in orders), log_at(b"breadth all +main", b"a"),
                     log_at(b"breadth all +main", b"b", b"a")]:
            stream = made + line * 2
            _, replies = Plain(kind).run(stream)
            one, two, first, second = (reply for reply, _ in replies)
            told_ = [b"".join(it) for it in [(one, two, fault, second), (one, two, first, fault), (one, two, first, second)]]
            answers = ["created File closed closed", f"created opened Fault:{word(fault)} failed",
                       f"created opened Fault:{word(one + fault)} failed", *(f"created opened Input:{word(it)} sound" for it in told_)]
            for part in ("objects", "names"):
                each(80, kind, f"create {part}:fail:#:- open run:{word(stream)} failed", answers)
