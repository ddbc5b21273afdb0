"""A small folder, each of whose files in turn has other bytes: it isn't opened, for the one cause that holds by folder_causes.py, or is
opened, and then every reading command says what the plain repository with that change says. Changes for which several causes hold
are in history_actions_cases."""

from streams import HEAD, KINDS, told
from folder_causes import PACKED_HEADER, Names, as_word, causes, digits_at, header
from git_moves import Moved
from plain import Plain
from small_folder import HEADER, LOGS, STREAM, Small, judged, without_packed_logs
from case_words import word

AT_ONCE = 16
READ = (b"names\nnames refs/heads\npast HEAD\npast x\npast v\nfiles HEAD\nshow main\nshow v\nshow main path 1\na\nshow x path 3\nd/b\n"
        b"log topological all +main +x\nlog breadth all +HEAD path 1\na\nindex\nlog date all +v\n")
READ_FEW = b"names\npast main\nshow HEAD path 1\na\nlog topological all +main\n"


def whole(kind):
    """The small folder, which the plain repository makes too."""
    small, plain = Small(kind), Plain(kind)
    ended, replies = plain.run(STREAM)
    assert (ended, b"".join(reply for reply, _ in replies)) == ("Input", small.replies)
    assert {b"objects/" + it[:2] + b"/" + it[2:]: text for it, text in plain.objects.items()} == small.objects
    names = {b"HEAD": HEAD, b"packed-refs": plain.packed_text(), b"refs/heads/main": plain.names[b"refs/heads/main"] + b"\n"}
    assert {**names, **{b"logs/" + it: text for it, text in plain.logs.items()}} == small.names
    assert plain.packed_alone == {b"refs/heads/x", b"refs/tags/v"} and not causes(kind, small.objects, small.names)
    return small, plain


def told_by(plain, small, files):
    """The plain repository of these names, logs and HEAD."""
    state = Plain(plain.kind)
    state.objects, state.commits, state.tags = plain.objects, plain.commits, plain.tags
    stored = {digits_at(path): header(text)[0] for path, text in small.objects.items()}
    read = Names(plain.kind, files, stored, small.objects)
    own = {name: files[name].strip().lower() for name in read.loose}
    state.names = {**{name: digits for name, (digits, _) in read.records.items()}, **own}
    state.packed_alone = set(state.names) - set(own)
    state.logs = {path[5:]: text for path, text in files.items() if path.startswith(b"logs/")}
    state.branch = files[b"HEAD"][5:-1]
    return state


def begun(kind, small, gone):
    """The words that make the folder, without some logs, and their answers."""
    return ([kind, "create", "open", f"run:{word(STREAM)}", "close", *(f"names:remove:{word(it)}" for it in gone)],
            ["created", "opened", f"Input:{word(small.replies)}", *["done"] * len(gone)])


def row(small, plain, path, changes, gone=(), read_as=None):
    """A line in which a file has other bytes, one change after another, and at the end its own again; read as it is, or as if it had these."""
    part, into = ("objects", small.objects) if path in small.objects else ("names", small.names)
    words, answers = begun(small.kind, small, gone)
    for number, (text, found) in enumerate([*changes, (into[path], set())]):
        words += [f"{part}:write:{word(path)}:{spelled(text)}", "open"]
        answers += ["done", *(as_word(it, word) for it in found)]
        if not found:
            changed = {path: read_as or text} if part == "names" else {}
            files = {it: other for it, other in {**small.names, **changed}.items() if it not in gone}
            read = READ_FEW if number and len(text) > 100 else READ
            words.append(f"run:{word(read)}")
            answers += ["opened", told(*told_by(plain, small, files).run(read))]
    return " ".join(words), " ".join(answers)


def spelled(text):
    return f"%ff*{len(text)}" if len(text) > 4096 else word(text)


def rows():
    for kind in KINDS:
        small, plain = whole(kind)
        for path in [*small.changed, b"HEAD", b"refs/heads/main", b"packed-refs", b"logs/refs/heads/main"]:
            gone, more_of = (LOGS, without_packed_logs) if path == b"packed-refs" else ((), lambda names: names)
            changes = [(text, found) for text, found in judged(small, path, more_of) if len(found) < 2]
            for at in range(0, len(changes), AT_ONCE):
                yield row(small, plain, path, changes[at:at + AT_ONCE], gone)
        yield from packed(small, plain)


def packed(small, plain):
    """Files of packed names that may not exist, each for one line or one name; others that may; and headers with words that are none of git's,
    under which git lists the same names."""
    main, x, v, peeled = small.names[b"packed-refs"].splitlines(keepends=True)[1:]
    bad = [HEADER + main + x + x + v + peeled, HEADER + main + x + v + peeled + x, main + x + main, x + x, x + v + v, HEADER + x + main + v + peeled,
           HEADER + v + peeled + x, main + x + v + peeled + peeled, peeled + x + v, x + peeled + v, x + v + peeled.replace(small.first, small.side),
           x + v.replace(b"/v", b"/v.lock"), x + v.replace(b"refs/tags", b"tags"), x + v + HEADER, x + v + b"\n", x + v[:-1],
           *(x + v + small.first + b" refs/%s/x\n" % it for it in (b"bisect", b"worktree", b"rewritten")),
           HEADER + small.first + b" refs/bisect/x\n" + x + v + peeled, x + v + small.first + b" refs/heads/x/y\n",
           x + v + small.first + b" refs/tags\n", x + v + small.first + b" refs/heads/main/x\n"]
    good = [x + v, v + x + main, v + peeled + x, HEADER + x + v, PACKED_HEADER + b"\n" + x + v, PACKED_HEADER + b" peeled \n" + v + x,
            PACKED_HEADER + b" sorted \n" + x + v + peeled, x + v + small.first + b" refs/bisect\n", x.upper().replace(b"REFS/HEADS/X", b"refs/heads/x") + v]
    changes = []
    for text in bad + good:
        found = causes(small.kind, small.objects, without_packed_logs({**small.names, b"packed-refs": text}))
        assert len(found) == (text in bad), (text, found)
        changes.append((text, found))
    yield row(small, plain, b"packed-refs", changes, LOGS)
    yield row(small, plain, b"packed-refs", [(it, set()) for it in unknown_words(small, plain)], LOGS, small.names[b"packed-refs"])


def unknown_words(small, plain):
    """The file of packed names, in whose header one byte of a word is another."""
    git, text = Moved(plain), small.names[b"packed-refs"]
    for at in range(len(PACKED_HEADER) + 1, len(HEADER) - 2):
        if text[at:at + 1] != b" ":
            changed = text[:at] + b"x" + text[at + 1:]
            (git.folder / "packed-refs").write_bytes(changed)
            assert git.names() == plain.names, changed
            yield changed
