"""Rows of commands by chance."""

from case_words import word
from plain import Plain
from streams import PACK, ROWS, SIGNED, branch, left, log_at, tag, told


def by_chance(chance, kind, packs_too=False):
    """A few commands by chance, each in a run of its own, and all that is there then."""
    plain, words, answers = Plain(kind), ["create", "open"], ["created", "opened"]
    paths = [b"a", b"b", b"a/b", b"a/b/c", b"a.b", b"a0", b"d/e", b"\xff", b"a//b", b""]
    names = [b"HEAD", b"refs/heads/main", b"refs/heads/x", b"refs/tags/v", b"refs/heads/x/y", b"x"]

    def edit():
        path, content = chance.choice(paths[:8] if chance.random() < 0.95 else paths), chance.choice([b"", b"1", b"two\n", b"\0"])
        how = chance.choice([b"file", b"file", b"exec", b"link", b"remove", b"remove-file"])
        if how.startswith(b"remove"):
            return b"%s %d\n%s\n" % (how, len(path), path)
        return b"put %s %d %d\n%s\n%s\n" % (how, len(path), len(content), path, content)

    def command():
        name = chance.choice([b"main", b"HEAD", b"refs/heads/x", b"v", b"heads/x"])
        path = chance.choice(paths)
        if chance.random() < 0.4:
            return chance.choice([b"files %s\n" % name, b"show %s\n" % name, b"show %s path %d\n%s\n" % (name, len(path), path),
                                  b"names\n", b"names %s\n" % chance.choice(names), b"past %s\n" % name,
                                  b"log breadth all +%s +main -%s\n" % (name, chance.choice(names)),
                                  log_at(b"breadth all +%s +main" % name, path)])
        expect = chance.choice([b"any", b"any", b"any", b"new", b"at " + name])
        if chance.random() < 0.15:
            return tag(b"refs/tags/%s %s %s" % (chance.choice([b"v", b"w"]), expect, name), chance.randrange(1, 4))
        parents = b"".join(b"parent %s\n" % chance.choice([b"main", b"x", b"HEAD"]) for _ in range(chance.choice([0, 0, 0, 1, 2])))
        edits = b"".join(edit() for _ in range(chance.randrange(4)))
        number = chance.randrange(1, 10)
        return b"commit %s %s\n" % (chance.choice(names), expect) + parents + edits + SIGNED % (number, number, 1, b"%d" % number)

    def with_packs():
        how = chance.random()
        if how < 0.25:
            return PACK
        if how < 0.35:
            return b"delete %s any\n" % chance.choice(names[1:5])
        if how < 0.45:
            return b"rename %s %s\n" % (chance.choice(names[1:5]), chance.choice(names[1:5]))
        return command()

    for _ in range(chance.randrange(3, 9) + (6 if packs_too else 0)):
        stream = with_packs() if packs_too else command()
        words.append(f"run:{word(stream)}")
        answers.append(told(*plain.run(stream)))
    ROWS.append((" ".join([kind, *words, "failed", "left"]), " ".join([*answers, "sound", left(plain)])))


def logs_by_chance(chance, kind):
    """Commits by chance, and logs at up to four paths of what they change."""
    plain, words, answers = Plain(kind), ["create", "open"], ["created", "opened"]
    paths = [b"a", b"b", b"a/b", b"a/b/c", b"a.b", b"d/e", b"d/f", b"a//b"]

    def edit():
        path, content = chance.choice(paths[:7]), chance.choice([b"", b"1", b"2"])
        if chance.random() < 0.3:
            return b"remove %d\n%s\n" % (len(path), path)
        return b"put %s %d %d\n%s\n%s\n" % (chance.choice([b"file", b"file", b"exec"]), len(path), len(content), path, content)

    def line():
        some = [chance.choice(paths[:7] if chance.random() < 0.98 else paths) for _ in range(chance.randrange(5))]
        order = chance.choice([b"breadth", b"date", b"topological"])
        return log_at(b"%s all +%s" % (order, chance.choice([b"main", b"x", b"HEAD"])), *some)

    numbers = range(1, chance.randrange(5, 11))
    lines = [b"parent %s\n" % it for it in (b"main", b"x")]
    commits = [branch(b"refs/heads/%s any" % chance.choice([b"main", b"main", b"x"]), number, (chance.choice(lines) if chance.random() < 0.4 else b"")
                      + b"".join(edit() for _ in range(chance.randrange(3)))) for number in numbers]
    for stream in commits + [b"".join(line() for _ in range(6)), b"index\n" + b"".join(line() for _ in range(3))]:
        words.append(f"run:{word(stream)}")
        answers.append(told(*plain.run(stream)))
    ROWS.append((" ".join([kind, *words]), " ".join(answers)))
