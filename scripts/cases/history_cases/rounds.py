"""Rounds: a command whose folder stops or fails at each call, then a recovery, the folder opened again, what is reported then, the command once
more, and a round after it. What each stop leaves is the repository before the command, after it, or on its way as docs/PROTOCOL.md says."""

from copy import deepcopy

from case_words import word
from grafts import graft
from streams import KINDS, PACK, PUT_HELLO, branch, each_failing, in_turn, listing, move, shows_line, tag, told
from plain import Plain

MAIN, X, Y, V, W = b"refs/heads/main", b"refs/heads/x", b"refs/heads/y", b"refs/tags/v", b"refs/tags/w"
MADE = PUT_HELLO + branch(X + b" new", 2, b"parent main\n") + tag(V + b" new main", 3)
NESTED = branch(b"HEAD any", 4, b"put file 5 1\nb/c/d\n1\nput exec 3 1\nb/e\n2\nremove 1\na\n")
GRAFTED = branch(b"HEAD any", 4, graft(b"d/e", b"x", b"") + graft(b"b", b"v", b"a"))
NEXT = branch(b"refs/heads/next new", 9, b"put file 3 1\nb/c\n1\n") + PACK
FAULT = b"fault File\n"


class Way:
    """A command after others, the repositories that there are while it is on its way, the first and the last ones among them, and what is tried on
    each."""

    def __init__(self, kind, made, command, between, asked):
        self.made, self.command, self.asked = made, command, b"names\n" + b"".join(b"past %s\n" % it for it in asked)
        self.before = self.after_(kind, made)
        self.after = self.after_(kind, made + command)
        self.between = [change(deepcopy(self.before), self.after) for change in between]
        self.lines_alone = [getattr(change, "is_line", False) for change in between]

    @staticmethod
    def after_(kind, stream):
        plain = Plain(kind)
        plain.run(stream)
        return plain

    def passed(self, kept):
        return [it for it, is_line in zip(self.between, self.lines_alone) if shows_line(kept) or not is_line]

    def goes_on(self, state):
        """What is reported of a repository, and then of the rounds after."""
        state, streams = deepcopy(state), (self.asked, self.command, NEXT, b"names\n")
        return " ".join(told(*state.run(it)) for it in streams)

    def words(self):
        return " ".join(f"run:{word(it)}" for it in (self.asked, self.command, NEXT, b"names\n"))


def logged(*names):
    """The logs of these names are those of afterwards, and the names as before."""
    def change(state, after):
        state.logs.update({it: after.logs[it] for it in names})
        return state
    change.is_line = True
    return change


def moved(names, logs=()):
    """These names are moved with their logs; of others the log alone is."""
    def change(state, after):
        for it in names:
            state.names[it], state.logs[it] = after.names[it], after.logs[it]
            state.packed_alone.discard(it)
        return logged(*logs)(state, after)
    change.is_line = bool(logs)
    return change


def gone_logs(old, *made):
    """These names are made, and the log of the old one is gone."""
    def change(state, after):
        state = moved(made)(state, after)
        del state.logs[old]
        return state
    return change


def ways(kind):
    """Commands and what is on their way in the names part: whether the last call makes the last change, as it does but if a lock goes
    after it."""
    packed = MADE + PACK
    two = move(MAIN + b" at main x", W + b" new main")
    swap = move(MAIN + b" any x", X + b" any main")
    rename, both = b"rename %s %s\n" % (X, Y), [moved([Y]), gone_logs(X, Y)]
    delete, unlogged = b"delete %s at x\n" % X, [gone_logs(X)]
    return {
        "commit": Way(kind, MADE, NESTED, [logged(MAIN)], [MAIN]),
        "commit-packed": Way(kind, packed, NESTED, [logged(MAIN)], [MAIN]),
        "graft": Way(kind, MADE, GRAFTED, [logged(MAIN)], [MAIN]),
        "graft-packed": Way(kind, packed, GRAFTED, [logged(MAIN)], [MAIN]),
        "tag": Way(kind, MADE, tag(W + b" new x", 5), [], [W]),
        "tag-moved": Way(kind, packed, tag(V + b" at v x", 5), [logged(V)], [V]),
        "move": Way(kind, MADE, two, [logged(MAIN), moved([MAIN])], [MAIN, W]),
        "move-two": Way(kind, packed, swap, [logged(MAIN), moved([MAIN]), moved([MAIN], [X])], [MAIN, X]),
        "rename": Way(kind, MADE, rename, both, [X, Y]),
        "rename-packed": Way(kind, packed, rename, both, [X, Y]),
        "rename-tag": Way(kind, packed, b"rename %s %s\n" % (V, W), [moved([W]), gone_logs(V, W)], [V, W]),
        "delete": Way(kind, MADE, delete, unlogged, [X]),
        "delete-packed": Way(kind, packed, delete, unlogged, [X]),
        "switch": Way(kind, MADE, b"switch %s\n" % X, [], [b"HEAD"]),
        "pack": Way(kind, MADE, PACK, [], [MAIN, V])}


# Commands that put objects or look up one, and those after whose last change a call still comes that changes no name.
ASKING = ("commit", "commit-packed", "graft", "graft-packed", "tag", "tag-moved", "move", "move-two", "pack")
CLEARED = ("rename", "rename-packed", "rename-tag", "delete", "delete-packed", "pack")
# Those that are tried with both hash functions.
OTHER = ("commit", "graft", "tag-moved", "move", "rename-packed", "delete-packed", "pack")


def stops():
    for kind in KINDS:
        half, line = (20, 51) if kind == "sha1" else (32, 75)
        cut = [("stop", half), ("stop", 0), ("stop", 1000), ("fail", "-")]
        for name, way in ways(kind).items():
            adds = [("stop", line)] if name in ASKING and name != "pack" else []
            for how, kept in cut + adds if kind == "sha1" else cut[:1] if name in OTHER else []:
                last = [way.after] if kept != "-" or name in CLEARED else []
                yield row(kind, way, "names", how, kept, [way.before, *way.passed(kept), *last])
                if name in ASKING and kept in ("-", half, 1000):
                    yield row(kind, way, "objects", how, kept, [way.before])


def row(kind, way, part, how, kept, states):
    """Each call of opening the folder and of the command stops or fails."""
    _, replies = deepcopy(way.before).run(way.command)
    made = told(*way.after_(kind, b"").run(way.made))
    front = f"created opened {made}"
    ends = [("File closed", way.before), *((f"opened Fault:{word(FAULT)}", it) for it in states),
            (f"opened {told('Input', replies)}", way.after)]
    answers = [f"{front} {end} recovered opened {way.goes_on(state)}" for end, state in ends]
    words = f"create open run:{word(way.made)} {part}:{how}:#:{kept} open run:{word(way.command)} {part}:sound recover open {way.words()}"
    answers = list(dict.fromkeys(answers))
    if way.command == PACK and (part, how) == ("names", "fail"):
        calls = listing((MAIN, X, V), (b"refs/heads", b"refs/tags"))
        answers = in_turn([answers[0], *each_failing(calls, answers[1], answers[-1]), *answers[1:]])
    return f"each:{110 if part == 'objects' or way.command == PACK else 90} {kind} {words}", " | ".join(answers)


def leftovers():
    """What a stopped command may leave, written by hand; a recovery of it that stops or fails at each call and is made again; and the rounds
    after it."""
    for kind in KINDS:
        for name, (way, state, words) in left_by_hand(kind).items():
            cut = [("stop", "-"), ("stop", 10), ("fail", 10)] if kind == "sha1" else [("stop", 30)]
            for how, kept in cut:
                made = told(*Plain(kind).run(way.made))
                front = " ".join(["created opened", made, *["done"] * len(words)])
                line = f"create open run:{word(way.made)} close {' '.join(words)} names:{how}:#:{kept} recover names:sound recover open {way.words()}"
                yield f"each:90 {kind} {line}", " | ".join(f"{front} {end} recovered opened {way.goes_on(state)}" for end in ("File", "recovered"))
        # The objects part has one leftover alone, and its recovery comes first.
        way, state, words = left_by_hand(kind)["commit"]
        front = " ".join(["created opened", told(*Plain(kind).run(way.made)), *["done"] * len(words)])
        for how, kept in (("stop", "-"), ("stop", 1000), ("fail", "-")):
            line = f"create open run:{word(way.made)} close {' '.join(words)} objects:{how}:#:{kept} recover objects:sound recover open {way.words()}"
            yield f"each:9 {kind} {line}", " | ".join(f"{front} {end} recovered opened {way.goes_on(state)}" for end in ("File", "recovered"))


def left_by_hand(kind):
    """For each command: its way, the repository that exists once it is recovered, and the words that write what is left."""
    all_ = ways(kind)

    def file(part, call, path, text):
        return f"{part}:{call}:{word(path)}:{word(text)}"

    def names_of(way, *change):
        return [file("names", call, path, text) for call, path, text in change]

    half = 20 if kind == "sha1" else 32
    commit, tagged, two, renamed = all_["commit"], all_["tag"], all_["move"], all_["rename-packed"]
    deleted, switched, packed = all_["delete-packed"], all_["switch"], all_["pack"]
    lock, log = b"%s.lock", b"logs/%s"
    line = {name: way.after.logs[at].removeprefix(way.before.logs.get(at, b"")) for name, way, at in (
        ("commit", commit, MAIN), ("tag", tagged, W), ("main", two, MAIN), ("new", two, W), ("renamed", renamed, Y))}
    text = next(it for digits, it in commit.after.objects.items() if digits not in commit.before.objects)
    records = {it: digits for it, digits in deleted.before.records.items() if it != X}
    unpacked = deepcopy(deleted.before)
    unpacked.records = records
    return {
        "commit": (commit, commit.before, [file("objects", "write", b"objects/unfinished", text[:len(text) // 2]), *names_of(
            commit, ("write", lock % MAIN, commit.after.names[MAIN][:half]), ("append", log % MAIN, line["commit"][:len(line["commit"]) // 2]))]),
        "tag": (tagged, tagged.before, names_of(tagged, ("write", lock % W, tagged.after.names[W] + b"\n"), ("write", log % W, line["tag"]))),
        "move": (two, two.between[1], names_of(
            two, ("write", MAIN, two.after.names[MAIN] + b"\n"), ("append", log % MAIN, line["main"]), ("write", lock % W, b""),
            ("write", log % W, line["new"][:half]))),
        "rename-packed": (renamed, renamed.between[1], [*names_of(
            renamed, ("write", Y, renamed.after.names[Y] + b"\n"), ("write", log % Y, line["renamed"]), ("write", lock % X, b""),
            ("write", b"packed-refs.lock", renamed.before.packed_text()[:half])), f"names:remove:{word(log % X)}"]),
        "delete-packed": (deleted, deleted.between[0], [*names_of(
            deleted, ("write", b"packed-refs.lock", unpacked.packed_text()), ("write", lock % X, b"")), f"names:remove:{word(log % X)}"]),
        "switch": (switched, switched.before, names_of(switched, ("write", b"HEAD.lock", b"ref: refs/h"))),
        "pack": (packed, packed.after, [*names_of(
            packed, ("write", b"packed-refs", packed.after.packed_text()), ("write", lock % X, b"")), f"names:remove:{word(MAIN)}"])}
