"""Writes the rows of `log` in ../stdin and ../stdout: logs that git wrote and logs that it reads, with what git says of each line.

Each answer comes from `git log -g` and `git reflog` over the log, or from the documented rule of which line fits a buffer;
none from the program.
"""
import os
import subprocess
import sys
import tempfile
from pathlib import Path

sys.path.append(str(Path(__file__).resolve().parents[1]))
from families import write

rows = []
NULL = "0" * 40


def add(operation, data, answer):
    rows.append((operation + " " + data.hex(), answer))


folder = tempfile.mkdtemp()
env = dict(os.environ, GIT_AUTHOR_NAME="A", GIT_AUTHOR_EMAIL="a@b", GIT_AUTHOR_DATE="@1 +0000", GIT_COMMITTER_NAME="A",
           GIT_COMMITTER_EMAIL="a@b", GIT_COMMITTER_DATE="@1 +0000", GIT_CONFIG_GLOBAL="/dev/null", GIT_CONFIG_NOSYSTEM="1")


def git(*words, **more):
    changed = dict(env, **more.pop("env", {}))
    return subprocess.run(["git", *words], cwd=folder, env=changed, check=True, capture_output=True, **more).stdout


git("init", "-q", "-b", "main")
log_path = os.path.join(folder, ".git/logs/refs/heads/main")
tree = git("mktree", input=b"").strip().decode()


def read_by_git():
    """What git reads of the log, the newest first: new id, name, email, message of each line that it takes."""
    shown = git("log", "-g", "-z", "--format=%H%x01%gn%x01%ge%x01%gs", "refs/heads/main")
    return [entry.split(b"\x01") for entry in shown.split(b"\0") if entry]


def item(entry):
    commit, name, email, message = entry
    return f"{commit.decode()}/{name.hex()}/{email.hex()}/{message.hex()}"


# ---- logs that git wrote

first = git("commit-tree", tree, "-m", "one").strip().decode()
# The commit's message has no line feed at its end in the first worked row.
first = git("hash-object", "-t", "commit", "-w", "--stdin",
            input=f"tree {tree}\nauthor A <a@b> 1 +0000\ncommitter A <a@b> 1 +0000\n\none".encode()).strip().decode()
git("update-ref", "--create-reflog", "-m", "one", "refs/heads/main", first)
one_line = open(log_path, "rb").read()
assert len(one_line) == 102, len(one_line)


def fits(room, text, is_first):
    return len(text) <= room if is_first else len(text) < room


def backward(log, items, room):
    """The items from the end, by the rule of which line fits; items are what git says of each line, the first first."""
    lines = log[:-1].split(b"\n") if log.endswith(b"\n") else log.split(b"\n")
    lines = lines if log else []
    answer = ""
    for number, (text, told) in enumerate(zip(reversed(lines), reversed(items)), 1):
        if not fits(room, text, number == len(lines)):
            return answer + " the buffer is too small for the next line"
        answer += " " + (told if told else f"!{number} from the end")
    return answer


def onward(items):
    return "".join(" " + (told if told else f"!{number}") for number, told in enumerate(items, 1))


def log_rows(log, items, rooms):
    add("forward", log, onward(items))
    for room in rooms:
        add(f"reverse {room}", log, backward(log, items, room))
        add(f"file {room}", log, backward(log, items, room))


log_rows(one_line, [item(entry) for entry in read_by_git()], [100, 101, 102, 103, 4096])

second = git("commit-tree", tree, "-p", first, "-m", "two").strip().decode()
third = git("commit-tree", tree, "-p", second, "-m", "three").strip().decode()
people = [("Ä. Nother", "x@y.z", "1700000000 +0530"), ("B C", "", "12 -0700"), ("D", "d@e", "99 +0000")]
for (name, email, date), commit, message in zip(people, [second, third, first], ["a  b\tc\r\n d", "", "reset: moving to HEAD~2"]):
    git("update-ref", *(["-m", message] if message else []), "refs/heads/main", commit,
        env={"GIT_COMMITTER_NAME": name, "GIT_COMMITTER_EMAIL": email, "GIT_COMMITTER_DATE": "@" + date})
written = open(log_path, "rb").read()
items = [item(entry) for entry in reversed(read_by_git())]
assert len(items) == 4
longest = max(len(line) for line in written.split(b"\n"))
log_rows(written, items, list(range(1, longest + 4)) + [2 * longest, len(written) - 1, len(written), len(written) + 1])
for line in written.splitlines(keepends=True):
    # Git leaves the tab out if the message is empty; it is written here.
    wanted = line if b"\t" in line else line[:-1] + b"\t\n"
    add("again", line, wanted.hex())
    add("again", line.rstrip(b"\n"), wanted.hex())
    add("copy", line, wanted.hex())
    add("copy", line.rstrip(b"\n"), wanted.hex())
# What a reference held before an update is what the update before it wrote, and nothing before the first.
held = [NULL, first, second, third, first]
for number, line in enumerate(written.splitlines(keepends=True)):
    add("ids", line, f"{held[number]} {held[number + 1]}")

# ---- lines that git reads but doesn't write, each put after a line of its own

front = f"{first} {second} ".encode()
spellings = [front + b"A <a@b> 1 +0000\tx\ty\tz", front + b"A <a@b> 1 +0000\tends with CR\r", front + b"A <a@b> 1 +0000\t\r",
             front + b"A <a@b> 1 +0000\t", front + b"A <a@b> 1 +0000", front + b"A <a@b> 1 +0000\t\xff\xfe",
             front + b"A <a@b> 1 +0000\t <b@c> 2 +0000", front + b" <> 1 +0000\tno name"]
for spelling in spellings:
    log = one_line + spelling + b"\n"
    open(log_path, "wb").write(log)
    entries = read_by_git()
    assert len(entries) == 2, (spelling, entries)
    items = [item(entry) for entry in reversed(entries)]
    add("ids", spelling, f"{first} {entries[0][0].decode()}")
    add("ids", spelling.replace(first.encode(), first.upper().encode()), f"{first} {entries[0][0].decode()}")
    log_rows(log, items, [len(spelling), len(spelling) + 1, 200])
    # The last line may lack its line feed.
    log_rows(log[:-1], items, [len(spelling), len(spelling) + 1])

# ---- lines that git passes over, between two lines of a log

bad = [b"", b"x", first.encode(), f"{first} {second}".encode(), front, front[:-2] + b" A <a@b> 1 +0000\tshort id",
       b"x" + front[1:] + b"A <a@b> 1 +0000\tno digit", front + b"A a@b 1 +0000\tno brackets", front + b"A <a@b> +0000\tno seconds",
       front + b"A <a@b> 1 0000\tno sign"]
for spelling in bad:
    log = one_line + spelling + b"\n" + one_line
    open(log_path, "wb").write(log)
    entries = read_by_git()
    assert len(entries) == 2, (spelling, entries)
    told = [item(entry) for entry in reversed(entries)]
    add("ids", spelling, "refused")
    log_rows(log, [told[0], None, told[1]], [101, 102, 103, 150, 400])

# ---- the log of a repository of SHA-256

folder = tempfile.mkdtemp()
git("init", "-q", "-b", "main", "--object-format=sha256")
tree = git("mktree", input=b"").strip().decode()
held = ["0" * 64]
for message in ("one", "two"):
    held.append(git("commit-tree", tree, "-m", message).strip().decode())
    git("update-ref", "--create-reflog", "-m", message, "refs/heads/main", held[-1])
written = open(os.path.join(folder, ".git/logs/refs/heads/main"), "rb").read()
for number, line in enumerate(written.splitlines(keepends=True)):
    add("ids", line, f"{held[number]} {held[number + 1]}")
log_rows(written, [item(entry) for entry in reversed(read_by_git())], [150, 151, 152, 400])

# ---- no lines at all

add("forward", b"", "")
add("reverse 1", b"", "")
add("reverse 0", one_line, " the buffer is empty")
add("forward", b"\n", " !1")
add("reverse 1", b"\n", " !1 from the end")
add("forward", b"\n\n", " !1 !2")
add("reverse 1", b"\n\n", " !1 from the end !2 from the end")
add("reverse 1", b"x\n", " !1 from the end")
add("reverse 1", b"x\ny", " the buffer is too small for the next line")

write(__file__, rows)
