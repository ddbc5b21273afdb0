"""Rows of how many objects a command reads, and of readers that fail."""

import reads
from case_words import word
from plain import Plain, Reader
from streams import FEW, INPUT, KINDS, MANY, ONE, PUT_HELLO, ROWS, branch, log_at, reading, tag, told


def asking(kind, made, commands):
    """Which of these commands look up an object, and which for a name."""
    plain, rows_, objects, names = Plain(kind), (), [], []
    plain.run(made)
    for at, text in enumerate(commands):
        command = Reader(text).command()
        objects += [at] if reads.objects(plain, rows_, command) else []
        names += [at] if reads.names(command) else []
        rows_ = set(plain.commits) if command == ("index",) else rows_
    return objects, names


def readings():
    """How many objects are read: what the name holds, after a tag its commit, the trees on the way, and no content but the one that is
    asked for."""
    asked = [(b"show main\n", 1), (b"files main\n", 4), (b"show main path 5\na/b/c\n", 5), (b"show main path 1\nd\n", 3),
             (b"show main path 3\na/b\n", 3), (b"show main path 5\na/b/x\n", 4)]
    for kind in KINDS:
        for commit in (FEW, MANY):
            for command, count in asked:
                reading(kind, commit + ONE, command, count)
        # A tag is read, and then its commit, which a row may have.
        tagged = PUT_HELLO + tag(b"refs/tags/v new main")
        held = Plain(kind)
        held.run(tagged)
        for command, count in [(b"show v\n", 2), (b"files v\n", 3), (b"show %s\n" % held.names[b"refs/tags/v"][:9], 2),
                               (b"log breadth all +v\n", 2)]:
            reading(kind, tagged, command, count)
        reading(kind, tagged + b"index\n", b"log breadth all +v\n", 1)
        # A log with paths walks, and then reads each tree on the paths once: three roots, and the folder `b` that two commits have.
        three = branch(b"refs/heads/m new", 1, b"put file 1 1\na\nx\n") + branch(b"refs/heads/m any", 2, b"put file 3 1\nb/c\ny\n") \
            + branch(b"refs/heads/m any", 3, b"put file 1 1\na\nz\n")
        for paths, count in [((b"a",), 3 + 3), ((b"a", b"b"), 3 + 3), ((b"b/c", b"a", b"b/d"), 3 + 4), ((b"b/c", b"b", b"b/c"), 3 + 4),
                             ((b"a/x", b"q/r"), 3 + 3), ((), 3)]:
            reading(kind, three, log_at(b"breadth all +m", *paths), count)
            reading(kind, three + b"index\n", log_at(b"breadth all +m", *paths), count - 3)
        # The three commits alone, and none that has a row.
        for again, count in [(b"", 3), (b"index\n", 0)]:
            reading(kind, three + again, b"index\n", count)


def readers():
    """A reader that fails after so many bytes: the commands that came whole are answered."""
    for kind in KINDS:
        ended, replies = Plain(kind).run(INPUT)
        for room in range(len(INPUT) + 2):
            whole = [(reply, end) for reply, end in replies if end <= room]
            ROWS.append((f"{kind} create open drops:{room}:{word(INPUT)} failed",
                         f"created opened {told(ended if room > len(INPUT) else 'Read', whole)} sound"))
