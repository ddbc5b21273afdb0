"""Rows of what transactions of names leave: records that stay, folders of locks, logs whose folder is missing, the longest names."""

from case_words import word
from plain import Plain
from streams import KINDS, PACK, PUT_HELLO, ROWS, branch, left, move, reopen_between, runs, tag, told

MAIN, X, Y = b"refs/heads/main", b"refs/heads/x", b"refs/heads/y"


def opened_after(plain, made, *words):
    """The words and answers of a folder that is made by a stream, closed, changed by these words, and opened."""
    done = told(*plain.run(made))
    return (["create", "open", f"run:{word(made)}", "close", *words, "open"], ["created", "opened", done, *["done"] * len(words), "opened"])


def records_that_stay():
    """A deletion, and every other change, of a name without a record leaves the bytes of `packed-refs`; that of a packed name writes them anew."""
    made, later = PUT_HELLO + branch(X + b" new", 2, b"parent main\n") + PACK, branch(Y + b" new", 3)
    streams = [later, b"rename %s %s\n" % (Y, Y + b"2"), move(Y + b"2 any main", b"refs/tags/v new x"), b"delete %s2 any\n" % Y,
               b"switch %s\n" % X, b"delete refs/tags/v any\n"]
    for kind in KINDS:
        plain = Plain(kind)
        plain.run(made)
        text = b"".join(b"%s %s\n" % (plain.records[it], it) for it in (X, MAIN))
        plain = Plain(kind)
        words, answers = opened_after(plain, made, f"names:write:packed-refs:{word(text)}")
        for stream in streams:
            words.append(f"run:{word(stream)}")
            answers.append(told(*plain.run(stream)))
        unchanged = Plain(kind)
        unchanged.__dict__ |= plain.__dict__
        unchanged.packed_text = lambda: text
        ROWS.append((" ".join([kind, *words, "left"]), " ".join([*answers, left(unchanged)])))
        gone = b"delete %s any\n" % X
        answers.append(told(*plain.run(gone)))
        ROWS.append((" ".join([kind, *words, f"run:{word(gone)}", "left"]), " ".join([*answers, left(plain)])))


def last_records():
    """Once all records are deleted the header alone is left, and names are packed again."""
    made, gone = PUT_HELLO + tag(b"refs/tags/v new main", 2), [b"delete refs/tags/v any\n", b"rename %s %s\n" % (MAIN, X)]
    runs((made,), (PACK,), *((it,) for it in gone), by_git_alone=False)
    runs((made,), (PACK,), *((it,) for it in gone), (b"delete %s any\n" % X,), (PUT_HELLO,), (PACK,), (b"names\n",), by_git_alone=False)


def missing_logs():
    """A name whose log is missing, with its folders, moves, is packed and is deleted."""
    for kind in KINDS:
        for ends in ([branch(MAIN + b" any", 2)], [PACK, branch(MAIN + b" any", 2)], [PACK, b"delete %s any\n" % MAIN], [b"delete %s any\n" % MAIN],
                     [b"rename %s %s\n" % (MAIN, X)]):
            plain = Plain(kind)
            words, answers = opened_after(plain, PUT_HELLO, f"names:remove:{word(b'logs/' + MAIN)}", *(
                f"names:remove-folder:{it}" for it in ("logs/refs/heads", "logs/refs", "logs")))
            del plain.logs[MAIN]
            for stream in ends:
                words.append(f"run:{word(stream)}")
                answers.append(told(*plain.run(stream)))
            ROWS.append((" ".join([kind, *words, "left"]), " ".join([*answers, left(plain)])))


def folders_of_locks():
    """The folder of a packed name's lock is in nobody's way, whether the folder is opened again or not."""
    inner = X + b"/y/z"
    streams = [branch(inner + b" new", 1), PACK, b"delete %s any\n" % inner, branch(X + b" new", 2), PACK, b"delete %s any\n" % X,
               branch(inner + b" new", 3), b"delete %s any\n" % inner, branch(X + b" new", 4), b"rename %s %s\n" % (X, Y),
               b"rename %s %s\n" % (Y, inner), PACK, b"rename %s %s\n" % (inner, Y), b"rename %s %s\n" % (Y, X), b"names\n"]
    reopen_between(streams)
    runs(*((it,) for it in streams), by_git_alone=False)


def longest_names():
    """Names of 1,024 bytes in folders: made, moved, renamed, packed, moved and renamed then, deleted."""
    first, other = (b"refs/heads/" + b"/".join([it * 200] * 5) + b"/" + it * 8 for it in (b"a", b"b"))
    assert len(first) == len(other) == 1024
    runs((branch(first + b" new", 1),), (branch(first + b" any", 2),), (b"rename %s %s\n" % (first, other),), (PACK,), (branch(other + b" any", 3),),
         (b"rename %s %s\n" % (other, first),), (PACK,), (branch(other + b" new", 4),), (move(first + b" any " + other),),
         (b"past %s\n" % first,), (b"delete %s any\n" % first,), (b"delete %s any\n" % other,), by_git_alone=False)


def locks_of_others():
    """A lock that exists when the folder is opened: it is refused for it, recovered, and opened."""
    for kind in KINDS:
        for lock in ("HEAD.lock", "packed-refs.lock", "refs/heads/x.lock"):
            plain = Plain(kind)
            done, again = told(*plain.run(PUT_HELLO + PACK)), b"switch %s\n" % X + branch(b"HEAD new", 2) + b"delete %s any\n" % MAIN
            words = [kind, "create", "open", f"run:{word(PUT_HELLO + PACK)}", "close", f"names:write:{lock}:of", "open", "recover", "open",
                     f"run:{word(again)}", "left"]
            answers = ["created", "opened", done, "done", f"Unfinished:{lock}", "recovered", "opened", told(*plain.run(again)), left(plain)]
            ROWS.append((" ".join(words), " ".join(answers)))


def transactions():
    for part in (records_that_stay, last_records, missing_logs, folders_of_locks, longest_names, locks_of_others):
        part()
