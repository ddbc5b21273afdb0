"""Rows of grafts: what a commit has of another commit's files, what each is refused for, what it reads, and what its stops leave."""

from case_words import word
from git_moves import Moved
from plain import Plain
from streams import (
    KINDS, NEW_LINE, ONE, PUT_HELLO, ROWS, SIGNED, each, left, left_logged, left_with, reading, refusals, runs, shows_line, tag, told)


def graft(path, target, source):
    return b"graft %d %s %d\n%s\n%s\n" % (len(path), target, len(source), path, source)


def as_git_grafts(made, command, target, source, path):
    """Stops if `git read-tree --prefix`, which takes a folder alone, makes another tree of an empty one."""
    for kind in KINDS:
        plain = Plain(kind)
        plain.run(made)
        git = Moved(plain)
        ended, ((reply, _),) = plain.run(command)
        commit = reply.split()[2]
        git.run("read-tree", "--empty")
        git.run("read-tree", "--prefix=" + path, plain.resolve(target).decode() + ":" + source)
        assert git.run("write-tree").strip() == plain.commits[commit]["tree"], command


def grafts():
    """Files and folders of another commit, at paths where something was and where nothing was, and each cause."""
    made = b"commit refs/heads/main new\nput file 5 1\nlib/x\n1\nput file 7 1\nlib/y/z\n2\n" + ONE
    app = b"commit refs/heads/app new\n"
    shown = b"files app\nshow app\n"
    dep = app + graft(b"dep", b"main", b"lib") + ONE
    runs((made + dep + shown + b"show app path 3\ndep\n", "IsFolder"), by_git_alone=False)
    as_git_grafts(made, dep, b"main", "lib", "dep/")
    whole = app + graft(b"a", b"main", b"") + ONE
    as_git_grafts(made, whole, b"main", "", "a/")
    as_git_grafts(made, app + graft(b"x/y/z", b"HEAD", b"lib/y") + ONE, b"main", "lib/y", "x/y/z/")
    for edits in (graft(b"a", b"main", b"lib/x"), graft(b"a", b"main", b""), graft(b"lib", b"main", b"lib"),
                  graft(b"a/b/c", b"refs/heads/main", b"lib/y"), graft(b"a", b"HEAD", b"lib/y/z"),
                  # Each edit is made on what those before it left, and each word reads as before the command.
                  b"put file 1 1\na\n1\n" + graft(b"a/b", b"main", b"lib"), graft(b"a", b"main", b"lib") + b"put file 3 1\na/x\n3\n",
                  graft(b"a", b"main", b"lib") + b"remove 3\na/y\n", graft(b"a", b"main", b"lib") + b"remove-file 3\na/x\n",
                  graft(b"a", b"main", b"lib") + graft(b"a", b"main", b"lib/x"), graft(b"a", b"main", b"lib") + graft(b"a/y", b"main", b""),
                  b"put exec 3 1\na/q\n3\n" + graft(b"a", b"main", b"lib/y")):
        runs((made,), (app + edits + ONE,), (shown,), by_git_alone=False)
    # A graft of what is there makes the same root tree.
    runs((made,), (b"commit refs/heads/main any\n" + graft(b"lib", b"main", b"lib") + SIGNED % (2, 2, 3, b"two"),), (b"show main\n",),
         by_git_alone=False)
    for kind in KINDS:
        plain = Plain(kind)
        plain.run(made)
        before = {it["tree"] for it in plain.commits.values()}
        plain.run(b"commit refs/heads/main any\n" + graft(b"lib", b"main", b"lib") + SIGNED % (2, 2, 3, b"two"))
        assert {it["tree"] for it in plain.commits.values()} == before
    kinds = b"commit refs/heads/main new\nput exec 3 1\nd/e\n1\nput link 3 1\nd/l\ne\nput file 3 0\nd/n\n\n" + ONE
    runs((kinds,), (app + graft(b"e", b"main", b"d/e") + graft(b"l", b"main", b"d/l") + graft(b"n/d", b"main", b"d") + ONE,), (shown,),
         by_git_alone=False)
    # The word of a tag, and of the beginning of an id, and a parent besides.
    tagged = made + tag(b"refs/tags/v new main")
    held = Plain("sha1")
    held.run(tagged)
    runs((tagged,), (app + b"parent main\n" + graft(b"a", b"v", b"lib") + ONE,), (shown,), by_git_alone=False)
    runs((tagged,), (app + graft(b"a", held.names[b"refs/heads/main"][:9], b"lib") + ONE,), (shown,), by_git_alone=False, kinds=["sha1"])
    refused = [(graft(b"dep", b"main", b"nope"), "NoSuchPath"), (graft(b"dep", b"main", b"lib/x/y"), "NoSuchPath"),
               (graft(b"dep", b"main", b"li"), "NoSuchPath"), (graft(b"", b"main", b"lib"), "BadPath"),
               (graft(b"a//b", b"main", b"lib"), "BadPath"), (graft(b"a", b"main", b"/lib"), "BadPath"),
               (graft(b"a", b"main", b"lib/"), "BadPath"), (graft(b"a\0", b"main", b"lib"), "BadPath"),
               (graft(b"a", b"nope", b"lib"), "UnknownWord"), (graft(b"a", b"app", b"lib"), "UnknownWord"),
               (graft(b"a", b"nope", b"/lib"), "UnknownWord"), (b"put file 0 1\n\n1\n" + graft(b"a", b"main", b"nope"), "BadPath"),
               (graft(b"a", b"main", b"nope") + b"put file 0 1\n\n1\n", "BadPath"),
               (graft(b"a", b"main", b"lib") + b"remove-file 1\na\n", "IsFolder"),
               (graft(b"b", b"main", b"nope") + graft(b"a", b"main", b"lib") + b"remove-file 1\na\n", "IsFolder")]
    for edits, cause in refused:
        runs((made,), (app + edits + ONE, cause), by_git_alone=False)
    unsigned = b"author 0 3 1 +0000\n\na@b\ncommitter 1 3 1 +0000\nA\na@b\nmessage 3\none\nend\n"
    runs((made,), (app + graft(b"a", b"main", b"nope") + unsigned, "NoSuchPath"), (app + graft(b"a", b"main", b"lib") + unsigned, "BadActor"),
         by_git_alone=False)
    runs((app + graft(b"a", b"HEAD", b"") + ONE, "UnbornHead"), (b"commit HEAD new\n" + ONE,),
         (app + graft(b"a", b"HEAD", b"") + ONE, "NoSuchPath"), by_git_alone=False)
    # A path of 4,096 bytes is made, and one of 4,097 isn't, whether it is the target or one below it.
    long = b"p" * 4090
    runs((made,), (app + graft(long, b"main", b"lib/y") + ONE,), (app[:-4] + b"any\n" + graft(long + b"pppp", b"main", b"lib/y") + ONE,),
         (app[:-4] + b"any\n" + graft(long + b"ppppp", b"main", b"lib/y") + ONE, "BadPath"),
         (app[:-4] + b"any\n" + graft(long + b"ppp", b"main", b"lib") + ONE, "BadPath"),
         (app[:-4] + b"any\n" + graft(long + b"pppppp", b"main", b"lib/x") + ONE,),
         (app[:-4] + b"any\n" + graft(long + b"ppppppp", b"main", b"lib/x") + ONE, "BadPath"), by_git_alone=False)
    for words in (b"graft", b"graft 1 main", b"graft 1 main 1 1", b"graft x main 1", b"graft 1 main 01", b"graft 1 main"):
        for kind in KINDS:
            ended, replies = Plain(kind).run(made + app + words + b"\na\na\n" + ONE)
            assert ended == "Refused" and refusals(replies) == ["Syntax"], words
            ROWS.append((f"{kind} answer:{word(made + app + words + NEW_LINE + b'a' + NEW_LINE + b'a' + NEW_LINE + ONE)}", told(ended, replies)))


def graft_readings():
    """Of grafts the trees on the way to their sources are read, and those below them, of which the same one may be at several paths or below
    several sources, each different one once. The command is refused after what it reads, so that nothing is stored."""
    made = b"commit refs/heads/main new\n" + b"".join(b"put file 7 1\ns/%s/x/f\n1\n" % it for it in (b"a", b"b")) + b"put file 1 1\nt\n2\n" + ONE
    unsigned = b"author 0 3 1 +0000\n\na@b\ncommitter 1 3 1 +0000\nA\na@b\nmessage 3\none\nend\n"
    for kind in KINDS:
        for sources, count in [((b"s",), 5), ((b"",), 5), ((b"s/a",), 5), ((b"s/a/x",), 5), ((b"s/a/x/f",), 5), ((b"t",), 2), ((b"nope",), 2),
                               ((b"s", b"s/b"), 5)]:
            edits = b"".join(graft(b"d/%d" % number, b"main", it) for number, it in enumerate(sources))
            reading(kind, made, b"commit refs/heads/app new\n" + edits + unsigned, count)


def graft_stops():
    """The same of a second commit that puts all files of the first into a folder, or of which each call fails: the root's tree and the
    commit alone are stored anew."""
    stream = PUT_HELLO + b"commit refs/heads/main any\n" + graft(b"d", b"main", b"") + SIGNED % (1, 1, 3, b"two")
    fault = b"fault File\n"
    for kind in KINDS:
        plain, first = Plain(kind), Plain(kind)
        _, replies = plain.run(stream)
        first.run(PUT_HELLO)
        assert len(plain.objects) == len(first.objects) + 2
        ends = [f"created opened Fault:{word(b''.join(reply for reply, _ in replies[:count]) + fault)} " for count in range(2)]
        closed, whole = f"created File closed {left(plain, 0, False)}", f"created opened {told('Input', replies)} {left(plain)}"
        for how, kept in [*(("stop", kept) for kept in ["-", 0, 3, 20, 50, 1000]), ("fail", "-")]:
            made = kept != "-"
            in_objects = [ends[0] + left(plain, count, False) for count in range(4 if made else 3)]
            in_objects += [ends[1] + left_with(plain, first, count) for count in ((3, 4, 5) if made else (3, 4))]
            in_names = [ends[0] + left(plain, 0, False), ends[0] + left(plain, 3, False), *([ends[0] + left(first)] if made else [])]
            in_names += [ends[1] + left_with(plain, first, 3), ends[1] + left_with(plain, first, 5), *([ends[1] + left_logged(plain, first)] if shows_line(kept) else [])]
            in_names += [ends[1] + left(plain)] if made else []
            for part, answers in (("objects", in_objects), ("names", in_names)):
                each(90, kind, f"create {part}:{how}:#:{kept} open run:{word(stream)} left", [closed, *answers, whole])


def grafts_by_chance(chance, kind):
    """Commits of grafts and puts by chance on two branches, and all that is there then."""
    plain, words, answers = Plain(kind), ["create", "open"], ["created", "opened"]
    paths = [b"a", b"b", b"a/b", b"a/b/c", b"a.b", b"a0", b"d/e", b"a/x"]

    def edit():
        path, how = chance.choice(paths), chance.choice([b"put", b"graft", b"graft", b"remove", b"remove-file"])
        if how == b"graft":
            return graft(path, chance.choice([b"main", b"x", b"HEAD"]), chance.choice([b"", *paths[:4]]))
        return b"put file %d 1\n%s\n%d\n" % (len(path), path, chance.randrange(9)) if how == b"put" else b"%s %d\n%s\n" % (how, len(path), path)

    streams = [b"commit %s new\n%s" % (name, b"".join(b"put %s %d 1\n%s\n%d\n" % (chance.choice([b"file", b"exec"]), len(it), it, number)
                                                     for it in chance.sample(paths, 3))) + SIGNED % (number, number, 1, b"%d" % number)
               for number, name in enumerate((b"refs/heads/main", b"refs/heads/x"), 1)]
    for number in range(3, 3 + chance.randrange(2, 6)):
        edits = b"".join(edit() for _ in range(chance.randrange(1, 4)))
        streams.append(b"commit %s any\n" % chance.choice([b"refs/heads/main", b"refs/heads/x", b"HEAD"]) + edits
                       + SIGNED % (number, number, 1, b"%d" % number))
    for stream in streams:
        words.append(f"run:{word(stream)}")
        answers.append(told(*plain.run(stream)))
    ROWS.append((" ".join([kind, *words, "failed", "left"]), " ".join([*answers, "sound", left(plain)])))
