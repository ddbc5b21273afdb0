"""Rows of packs, held against git, and of stops over packed names."""

from case_words import word
from git_moves import Moved
from plain import Plain, Reader
from streams import (
    KINDS, PACK, PUT_HELLO, answer, branch, each, each_failing, left, left_with, listing, move, reopen_between, runs, shows_line, tag, told)


def as_git_packs(kind, made, *commands):
    """Stops if git packs other names, or another text, or if its transactions over packed names leave other names, logs or records."""
    plain = Plain(kind)
    plain.run(made)
    git = Moved(plain)
    plain.run(PACK)
    git.pack()
    assert git.holds(plain), made
    for command in commands:
        name, *parts = Reader(command).command()
        before = b"" if name == "move" else plain.names[parts[0]]
        _, ((reply, _),) = plain.run(command)
        if name == "delete":
            done = git.delete(parts[0], before)
        elif name == "rename":
            done = git.rename(*parts, before)
        else:
            lines, actor, message = parts
            done = git.move([(it, b"", plain.names[it]) for it, _, _ in lines], actor, message)
        assert done and reply.startswith(b"ok") and git.holds(plain), command


def packs():
    """Names that are packed, and what every command makes of them then, as `git pack-refs --all` and git's transactions do; no command
    answers otherwise than before."""
    main, x, y, v, w = b"refs/heads/main", b"refs/heads/x/y", b"refs/heads/y", b"refs/tags/v", b"refs/tags/w"
    answer(PUT_HELLO + b"names\n" + PACK + b"names\n")
    runs((PUT_HELLO,), (b"names\n",), (PACK,), (b"names\n",))
    runs((PACK,), (b"names\n",), (PUT_HELLO,), (PACK,), (PACK,), by_git_alone=False)
    made = (branch(main + b" new", 1) + branch(x + b" new", 2, b"parent main\n") + branch(main + b" any", 3) + branch(w + b" new", 4)
            + tag(v + b" new main", 5))
    asked = [b"names\n", b"names refs/heads\n", b"names refs/tags\n", b"past main\n", b"past x/y\n", b"past v\n", b"show HEAD\n",
             b"show x/y\n", b"files v\n", b"log breadth all +v -x/y\n", b"log topological all +main +w\n"]
    runs((made,), *((it,) for it in asked), (PACK,), *((it,) for it in asked), by_git_alone=False)
    runs((made,), (PACK,), (PACK,), (b"names\n",), by_git_alone=False)
    deleted = [b"delete %s any\n" % it for it in (main, x, v, w)]
    renamed = [b"rename %s %s\n" % it for it in ((main, y), (x, b"refs/heads/z"), (v, b"refs/tags/x"), (y, main))]
    moved = [move(main + b" at main x/y"), move(v + b" any w", b"refs/tags/new new main"), move(w + b" at w main")]
    for command in [*deleted, *renamed[:3], *moved]:
        runs((made,), (PACK,), (command,), *((it,) for it in asked[:3]), (PACK,), (b"names\n",), by_git_alone=False)
        for kind in KINDS:
            as_git_packs(kind, made, command)
    for kind in KINDS:
        as_git_packs(kind, made, *deleted)
        as_git_packs(kind, made, renamed[0], renamed[3], *moved, *deleted[:3])
    runs((made,), (PACK,), *((it,) for it in deleted), (b"names\n",), (made,), (b"names\n",), (PACK,), by_git_alone=False)
    runs((made,), (PACK,), (renamed[0],), (b"past y\n",), (renamed[3],), (b"past main\n",), *((it,) for it in moved), (b"names\n",),
         *((it,) for it in deleted[:3]), (b"names\n",), by_git_alone=False)
    # A file of its own wins over a record, and goes after it.
    runs((made,), (PACK,), (branch(main + b" at main", 6),), (tag(v + b" at v x/y", 7),), (b"names\n",), (b"past main\n",),
         (b"delete %s at main\n" % main,), (b"delete %s any\n" % v,), (b"names\n",), (PACK,), by_git_alone=False)
    # Packed names are in each other's way, and are expected, as any other; their folders are in nobody's.
    refused = [(branch(main + b"/a any", 6), "Collides"), (branch(b"refs/heads/x any", 6), "Collides"), (branch(main + b" new", 6), "Taken"),
               (tag(v + b"/a any main"), "Collides"), (tag(b"refs/tags/a at v main"), "NoSuchName"), (tag(v + b" new main"), "Taken"),
               (branch(v + b" any", 6), "HoldsTag"), (branch(main + b" at w", 6), "NotExpected"), (move(main + b"/a new w"), "Collides"),
               (move(b"refs/heads/x any main"), "Collides"), (move(main + b" any main"), "NothingMoves"), (move(main + b" new w"), "Taken"),
               (b"rename %s %s\n" % (w, v), "Taken"), (b"rename %s %s/a\n" % (w, main), "Collides"),
               (b"rename %s refs/heads/x\n" % w, "Collides"), (b"rename %s/a %s\n" % (main, y), "NoSuchName"),
               (b"delete %s/a any\n" % main, "NoSuchName"), (b"delete refs/heads/x any\n", "NoSuchName"),
               (b"delete %s at w\n" % main, "NotExpected"), (b"switch %s\n" % main, "NothingMoves")]
    runs((made,), (PACK,), *refused, (b"names\n",), by_git_alone=False)
    runs((made,), (PACK,), (b"delete %s any\n" % x,), (branch(b"refs/heads/x new", 6),), (b"names\n",), (PACK,), (b"names\n",), by_git_alone=False)
    runs((made,), (PACK,), (b"switch %s\n" % x,), (branch(b"HEAD at x/y", 6),), (b"names\n",), (PACK,), (b"show HEAD\n",), by_git_alone=False)
    for text in (b"pack refs/heads/main\n", b"pack \n", b" pack\n", b"packs\n", b"Pack\n"):
        answer(PUT_HELLO + text, "Syntax", end="Refused")
    answer(PUT_HELLO + b"pack", "Truncated", end="Refused")


def reopened_packs():
    """Folders with packed names are opened again, and go on."""
    main, x, v = b"refs/heads/main", b"refs/heads/x", b"refs/tags/v"
    streams = [PUT_HELLO, tag(v + b" new main", 3), PACK, b"names\npast main\nshow v\n", branch(x + b" new", 2, b"parent main\n"),
               b"delete %s at main\n" % v, PACK, b"rename %s refs/heads/y\n" % x, b"delete %s any\n" % main, b"names\npast y\n", PACK, b"names\n"]
    reopen_between(streams)


def as_on_the_way(plain, alone, logs=None, records=None):
    """The same names, of which these have records alone; with other logs or records."""
    state = Plain(plain.kind)
    state.objects, state.names, state.packed_alone = plain.objects, plain.names, set(alone)
    state.logs = plain.logs if logs is None else logs
    state.records = plain.records if records is None else records
    return state


def pack_stops():
    """A run of two commits and a pack that is stopped at each call, or of which each call fails: `packed-refs` comes first, whole, and then
    the names' own files go, one after another, and the locks at the end; each name reads as before all the while."""
    main, x = b"refs/heads/main", b"refs/heads/x"
    second = branch(x + b" new", 2, b"parent main\n")
    fault, calls = b"fault File\n", listing((main, x), (b"refs/heads",))
    for kind in KINDS:
        plain, first, both = (Plain(kind) for _ in range(3))
        _, replies = plain.run(PUT_HELLO + second + PACK)
        for state, stream in ((first, PUT_HELLO), (both, PUT_HELLO + second)):
            state.run(stream)
        ends = [f"created opened Fault:{word(b''.join(reply for reply, _ in replies[:count]) + fault)} " for count in range(3)]
        closed, whole = f"created File closed {left(plain, 0, False)}", f"created opened {told('Input', replies)} {left(plain)}"
        for how, kept in [*(("stop", kept) for kept in ["-", 0, 3, 50, 1000]), ("fail", "-")]:
            made = kept != "-"
            states = [ends[0] + left(first, 0, False), ends[0] + left(first, 3, False), *([ends[0] + left(first)] if made else [])]
            states += [ends[1] + left_with(both, first, 3), ends[1] + left_with(both, first, 4), *([ends[1] + left(both)] if made else [])]
            states += each_failing(calls, ends[2] + left(both), whole) if how == "fail" else []
            states += [ends[2] + left(both), *(ends[2] + left(as_on_the_way(plain, alone)) for alone in ((), (main,)))]
            states.append(ends[2] + left(plain))
            each(120, kind, f"create names:{how}:#:{kept} open run:{word(PUT_HELLO + second + PACK)} left", [closed, *states, whole])


def packed_delete_stops():
    """The same of the deletion of a packed name, and of one with a file of its own besides: its log goes, then its record, then its file."""
    main, x = b"refs/heads/main", b"refs/heads/x"
    second, deleting = branch(x + b" new", 2, b"parent main\n"), b"delete refs/heads/x any\n"
    fault, calls = b"fault File\n", listing((main, x), (b"refs/heads",))
    for more in (b"", branch(x + b" any", 3)):
        stream = PUT_HELLO + second + PACK + more + deleting
        for kind in KINDS:
            plain, first, both, packed, before = (Plain(kind) for _ in range(5))
            _, replies = plain.run(stream)
            for state, upto in ((first, PUT_HELLO), (both, PUT_HELLO + second), (packed, PUT_HELLO + second + PACK),
                                (before, PUT_HELLO + second + PACK + more)):
                state.run(upto)
            logs = {name: log for name, log in before.logs.items() if name != x}
            records = {name: digits for name, digits in before.records.items() if name != x}
            unlogged = as_on_the_way(before, before.packed_alone, logs)
            unpacked = as_on_the_way(before, before.packed_alone, logs, records)
            logged = as_on_the_way(packed, packed.packed_alone, before.logs)
            logged.objects = before.objects
            ends = [f"created opened Fault:{word(b''.join(reply for reply, _ in replies[:count]) + fault)} " for count in range(len(replies))]
            closed, whole = f"created File closed {left(plain, 0, False)}", f"created opened {told('Input', replies)} {left(plain)}"
            for how, kept in [*(("stop", kept) for kept in ["-", 0, 50, 1000]), ("fail", "-")]:
                made = kept != "-"
                states = [ends[0] + left(first, 0, False), ends[0] + left(first, 3, False), *([ends[0] + left(first)] if made else [])]
                states += [ends[1] + left_with(both, first, 3), ends[1] + left_with(both, first, 4), *([ends[1] + left(both)] if made else [])]
                states += each_failing(calls, ends[2] + left(both), whole) if how == "fail" else []
                states += [ends[2] + left(both), *(ends[2] + left(as_on_the_way(packed, alone)) for alone in ((), (main,)))]
                states.append(ends[2] + left(packed))
                if more:
                    states += [ends[3] + left_with(before, packed, 4), ends[3] + left_with(before, packed, 5)]
                    states += [ends[3] + left(logged)] if shows_line(kept) else []
                    states += [ends[3] + left(before)] if made else []
                states += [ends[-1] + left(before), ends[-1] + left(unlogged), *([ends[-1] + left(unpacked)] if more else [])]
                states.append(ends[-1] + left(plain))
                each(200, kind, f"create names:{how}:#:{kept} open run:{word(stream)} left", [closed, *states, whole])


def packed_rename_stops():
    """The same of a rename of a packed name: the new name is made in a file of its own, and then the old one goes."""
    main, trunk = b"refs/heads/main", b"refs/heads/trunk"
    stream = PUT_HELLO + PACK + b"rename %s %s\n" % (main, trunk)
    fault, calls = b"fault File\n", listing((main,), (b"refs/heads",))
    for kind in KINDS:
        plain, first, packed = (Plain(kind) for _ in range(3))
        _, replies = plain.run(stream)
        first.run(PUT_HELLO)
        packed.run(PUT_HELLO + PACK)
        both = as_on_the_way(packed, packed.packed_alone, {**packed.logs, **plain.logs})
        both.names = {**packed.names, **plain.names}
        unlogged = as_on_the_way(both, both.packed_alone, plain.logs)
        ends = [f"created opened Fault:{word(b''.join(reply for reply, _ in replies[:count]) + fault)} " for count in range(3)]
        closed, whole = f"created File closed {left(first, 0, False)}", f"created opened {told('Input', replies)} {left(plain)}"
        for how, kept in [*(("stop", kept) for kept in ["-", 0, 3, 20, 50, 1000]), ("fail", "-")]:
            made = kept != "-"
            states = [ends[0] + left(first, 0, False), ends[0] + left(first, 3, False), *([ends[0] + left(first)] if made else [])]
            states += each_failing(calls, ends[1] + left(first), whole) if how == "fail" else []
            states += [ends[1] + left(first), ends[1] + left(as_on_the_way(packed, ())), ends[1] + left(packed)]
            states += [ends[2] + left(packed), ends[2] + left(both), ends[2] + left(unlogged), ends[2] + left(plain)]
            each(120, kind, f"create names:{how}:#:{kept} open run:{word(stream)} left", [closed, *states, whole])
