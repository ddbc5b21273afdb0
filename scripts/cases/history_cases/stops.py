"""Rows of stops and failures at each call of a command that changes files."""

from case_words import word
from plain import Plain
from streams import KINDS, PUT_HELLO, SIGNED, branch, creation, each, known, left, left_logged, left_with, move, shows_line, tag, told


def tag_stops():
    """A run of a commit and a tag that is stopped at each call, or of which each call fails: a stopped tag leaves its object or doesn't, and
    its name as before, or with its log's line alone, or moved."""
    tagging = tag(b"refs/tags/v1 new main")
    fault = b"fault File\n"
    for kind in KINDS:
        plain, first, logged = (Plain(kind) for _ in range(3))
        _, replies = plain.run(PUT_HELLO + tagging)
        first.run(PUT_HELLO)
        ends = [f"created opened Fault:{word(b''.join(reply for reply, _ in replies[:count]) + fault)} " for count in range(2)]
        closed, whole = f"created File closed {left(plain, 0, False)}", f"created opened {told('Input', replies)} {left(plain)}"
        for how, kept in [*(("stop", kept) for kept in ["-", 0, 3, 20, 50, 1000]), ("fail", "-")]:
            made = kept != "-"
            in_objects = [ends[0] + left(plain, count, False) for count in range(4 if made else 3)]
            in_objects += [ends[1] + left_with(plain, first, count) for count in ((3, 4) if made else (3,))]
            in_names = [ends[0] + left(plain, 0, False), ends[0] + left(plain, 3, False), *([ends[0] + left(first)] if made else [])]
            in_names += [ends[1] + left_with(plain, first, 3), ends[1] + left_with(plain, first, 4), *([ends[1] + left(plain)] if made else [])]
            for part, answers in (("objects", in_objects), ("names", in_names)):
                each(80, kind, f"create {part}:{how}:#:{kept} open run:{word(PUT_HELLO + tagging)} left", [closed, *answers, whole])


def delete_stops():
    """A run of two commits and a deletion that is stopped at each call, or of which each call fails: a stopped deletion leaves the name
    as before, or without its log, or gone. Its lock goes after it."""
    second, deleting = branch(b"refs/heads/x new", 2, b"parent main\n"), b"delete refs/heads/x at x\n"
    fault = b"fault File\n"
    for kind in KINDS:
        plain, first, both, unlogged = (Plain(kind) for _ in range(4))
        _, replies = plain.run(PUT_HELLO + second + deleting)
        for state, stream in ((first, PUT_HELLO), (both, PUT_HELLO + second), (unlogged, PUT_HELLO + second)):
            state.run(stream)
        del unlogged.logs[b"refs/heads/x"]
        ends = [f"created opened Fault:{word(b''.join(reply for reply, _ in replies[:count]) + fault)} " for count in range(3)]
        closed, whole = f"created File closed {left(plain, 0, False)}", f"created opened {told('Input', replies)} {left(plain)}"
        for how, kept in [*(("stop", kept) for kept in ["-", 0, 3, 50, 1000]), ("fail", "-")]:
            made = kept != "-"
            states = [ends[0] + left(plain, 0, False), ends[0] + left(plain, 3, False), *([ends[0] + left(first)] if made else [])]
            states += [ends[1] + left_with(plain, first, 3), ends[1] + left_with(plain, first, 4), *([ends[1] + left(both)] if made else [])]
            states += [ends[2] + left(both), ends[2] + left(unlogged), ends[2] + left(plain)]
            each(120, kind, f"create names:{how}:#:{kept} open run:{word(PUT_HELLO + second + deleting)} left", [closed, *states, whole])


def rename_stops():
    """A run of a commit and a rename of HEAD's branch that is stopped at each call, or of which each call fails: the old name exists
    alone, or both do, and then the old one without its log, or the new one alone. A log without its name is none's."""
    stream = PUT_HELLO + b"rename refs/heads/main refs/heads/trunk\n"
    fault = b"fault File\n"
    for kind in KINDS:
        plain, first, both, unlogged = (Plain(kind) for _ in range(4))
        _, replies = plain.run(stream)
        first.run(PUT_HELLO)
        for state in (both, unlogged):
            state.run(PUT_HELLO)
            state.names, state.logs = {**first.names, **plain.names}, {**first.logs, **plain.logs}
        del unlogged.logs[b"refs/heads/main"]
        ends = [f"created opened Fault:{word(b''.join(reply for reply, _ in replies[:count]) + fault)} " for count in range(2)]
        closed, whole = f"created File closed {left(first, 0, False)}", f"created opened {told('Input', replies)} {left(plain)}"
        for how, kept in [*(("stop", kept) for kept in ["-", 0, 3, 20, 50, 1000]), ("fail", "-")]:
            made = kept != "-"
            states = [ends[0] + left(first, 0, False), ends[0] + left(first, 3, False), *([ends[0] + left(first)] if made else [])]
            states += [ends[1] + left(first), ends[1] + left(both), ends[1] + left(unlogged), ends[1] + left(plain)]
            each(80, kind, f"create names:{how}:#:{kept} open run:{word(stream)} left", [closed, *states, whole])


def tag_rename_stops():
    """The same of a name that holds a tag, and all the while means the commit that the tag is of."""
    tagging, renaming = tag(b"refs/tags/v1 new main"), b"rename refs/tags/v1 refs/tags/first\n"
    stream, fault = PUT_HELLO + tagging + renaming, b"fault File\n"
    for kind in KINDS:
        plain, first, tagged, both, unlogged = (Plain(kind) for _ in range(5))
        _, replies = plain.run(stream)
        first.run(PUT_HELLO)
        for state in (tagged, both, unlogged):
            state.run(PUT_HELLO + tagging)
        for state in (both, unlogged):
            state.names, state.logs = {**tagged.names, **plain.names}, {**tagged.logs, **plain.logs}
        del unlogged.logs[b"refs/tags/v1"]
        ends = [f"created opened Fault:{word(b''.join(reply for reply, _ in replies[:count]) + fault)} " for count in range(3)]
        closed, whole = f"created File closed {left(plain, 0, False)}", f"created opened {told('Input', replies)} {left(plain)}"
        for how, kept in [*(("stop", kept) for kept in ["-", 0, 3, 20, 50, 1000]), ("fail", "-")]:
            made = kept != "-"
            states = [ends[0] + left(plain, 0, False), ends[0] + left(plain, 3, False), *([ends[0] + left(first)] if made else [])]
            states += [ends[1] + left_with(plain, first, 3), ends[1] + left_with(plain, first, 4), *([ends[1] + left(tagged)] if made else [])]
            states += [ends[2] + left(tagged), ends[2] + left(both), ends[2] + left(unlogged), ends[2] + left(plain)]
            each(120, kind, f"create names:{how}:#:{kept} open run:{word(stream)} left", [closed, *states, whole])


def stops():
    """A run of two commits that is stopped at each call: what recovery would leave is the repository before or after the command, with
    the first of the objects that are on the way. A call that keeps what it was to write has made a change without bytes."""
    stream = PUT_HELLO + b"commit refs/heads/main any\n" + SIGNED % (1, 1, 3, b"two")
    fault = b"fault File\n"
    for kind in KINDS:
        plain, first = Plain(kind), Plain(kind)
        _, replies = plain.run(stream)
        first.run(PUT_HELLO)
        known(kind, b"".join(reply for reply, _ in replies))
        in_first = f"created opened Fault:{word(fault)} "
        in_second = f"created opened Fault:{word(replies[0][0] + fault)} "
        whole = f"created opened {told('Input', replies)} {left(plain)}"
        closed = f"created File closed {left(plain, 0, False)}"
        logged = left_logged(plain, first)
        for kept in ["-", 0, 3, 20, 50, 1000]:
            made = kept != "-"
            in_objects = [in_first + left(plain, count, False) for count in range(4 if made else 3)]
            in_objects += [in_second + left_with(plain, first, count) for count in ((3, 4) if made else (3,))]
            in_names = [in_first + left(plain, 0, False), in_first + left(plain, 3, False)]
            in_names += [in_first + left(first)] if made else []
            in_names += [in_second + left_with(plain, first, 3), in_second + left_with(plain, first, 4), *([in_second + logged] if shows_line(kept) else [])]
            in_names += [in_second + left(plain)] if made else []
            for part, answers in (("objects", in_objects), ("names", in_names)):
                each(80, kind, f"create {part}:stop:#:{kept} open run:{word(stream)} left", [closed, *answers, whole])
        creation(kind)


def reopened_stops():
    """What each stop of a run leaves is opened again once it is recovered, and goes on answering."""
    stream, again = PUT_HELLO + tag(b"refs/tags/v1 new main"), b"names\nshow main path 1\na\n"
    fault = b"fault File\n"
    for kind in KINDS:
        plain, first = Plain(kind), Plain(kind)
        _, replies = plain.run(stream)
        first.run(PUT_HELLO)
        none = told(*Plain(kind).run(again))
        before, after = (f" opened {told(*state.run(again))}" for state in (first, plain))
        ends = [f"created opened Fault:{word(b''.join(reply for reply, _ in replies[:count]) + fault)} " for count in range(2)]
        closed, whole = f"created File closed {left(plain, 0, False)} opened {none}", f"created opened {told('Input', replies)} {left(plain)}{after}"
        in_objects = [f"{ends[0]}{left(plain, count, False)} opened {none}" for count in range(4)]
        in_objects += [ends[1] + left_with(plain, first, count) + before for count in (3, 4)]
        in_names = [*(f"{ends[0]}{left(plain, count, False)} opened {none}" for count in (0, 3)), ends[0] + left(first) + before]
        in_names += [*(ends[1] + left_with(plain, first, count) + before for count in (3, 4)), ends[1] + left(plain) + after]
        for part, answers in (("objects", in_objects), ("names", in_names)):
            each(90, kind, f"create {part}:stop:#:5 open run:{word(stream)} left open run:{word(again)}", [closed, *answers, whole])


def move_stops():
    """A run of two commits and a move of two names that is stopped at each call, or of which each call fails: a stopped move leaves its
    first name as before, or with its log's line alone, or moved; and then the second, whose log is none's if it doesn't exist."""
    second = branch(b"refs/heads/x new", 2, b"parent main\n")
    moving = move(b"refs/heads/main at main x", b"refs/tags/v new main")
    one_alone = move(b"refs/heads/main at main x")
    fault = b"fault File\n"
    for kind in KINDS:
        plain, first, both, logged, one = (Plain(kind) for _ in range(5))
        _, replies = plain.run(PUT_HELLO + second + moving)
        for state, stream in ((first, PUT_HELLO), (both, PUT_HELLO + second), (logged, PUT_HELLO + second + one_alone),
                              (one, PUT_HELLO + second + one_alone)):
            state.run(stream)
        logged.names = both.names
        ends = [f"created opened Fault:{word(b''.join(reply for reply, _ in replies[:count]) + fault)} " for count in range(3)]
        closed, whole = f"created File closed {left(plain, 0, False)}", f"created opened {told('Input', replies)} {left(plain)}"
        for how, kept in [*(("stop", kept) for kept in ["-", 0, 3, 20, 50, 1000]), ("fail", "-")]:
            made = kept != "-"
            states = [ends[0] + left(plain, 0, False), ends[0] + left(plain, 3, False), *([ends[0] + left(first)] if made else [])]
            states += [ends[1] + left_with(plain, first, 3), ends[1] + left_with(plain, first, 4), *([ends[1] + left(both)] if made else [])]
            states += [ends[2] + left(both), *([ends[2] + left(logged)] if shows_line(kept) else []), ends[2] + left(one), *([ends[2] + left(plain)] if made else [])]
            each(120, kind, f"create names:{how}:#:{kept} open run:{word(PUT_HELLO + second + moving)} left", [closed, *states, whole])


def switch_stops():
    """A run of a commit and a switch that is stopped at each call, or of which each call fails: HEAD is as before the switch or after it."""
    stream = PUT_HELLO + b"switch refs/heads/x\n"
    fault = b"fault File\n"
    for kind in KINDS:
        plain, first = Plain(kind), Plain(kind)
        _, replies = plain.run(stream)
        first.run(PUT_HELLO)
        ends = [f"created opened Fault:{word(b''.join(reply for reply, _ in replies[:count]) + fault)} " for count in range(2)]
        closed, whole = f"created File closed {left(first, 0, False)}", f"created opened {told('Input', replies)} {left(plain)}"
        for how, kept in [*(("stop", kept) for kept in ["-", 0, 3, 20, 50, 1000]), ("fail", "-")]:
            made = kept != "-"
            states = [ends[0] + left(first, 0, False), ends[0] + left(first, 3, False), *([ends[0] + left(first)] if made else [])]
            states += [ends[1] + left(first), *([ends[1] + left(plain)] if made else [])]
            each(60, kind, f"create names:{how}:#:{kept} open run:{word(stream)} left", [closed, *states, whole])
