"""Files by their sizes: logs of more than one of the pieces in which they are read, with lines that end where a piece does, a byte before
and a byte after, and lines that aren't taken there; names' files and HEAD of the most bytes that they may have, of one more, and of many.
Which causes hold says folder_causes.py; if a line is too long, which is a bad line too, `LongLogLine` is reported. And logs of
more than one piece that recovery cuts after their last line."""

from any_bytes import begun, whole
from case_words import word
from folder_causes import SIZES, as_word, causes
from small_folder import ONE
from streams import KINDS, ROWS, placed

PIECE, STEP, LONGEST_LINE, LONGEST_NAME = 65_536, 1_024, 4_096, 1_024
MAIN = b"refs/heads/main"
LOG, NEW = b"logs/" + MAIN, b"\n"


def pieces():
    for kind in KINDS:
        small, _ = whole(kind)
        logs = list(log_texts(kind))[:None if kind == "sha1" else 3]
        for path, texts in (LOG, logs), (MAIN, name_texts()), (b"HEAD", name_texts()):
            words, answers = begun(kind, small, ())
            for parts in texts:
                text = b"".join(part * count for part, count in parts)
                found = causes(kind, small.objects, {**small.names, path: text})
                long_lines = {it for it in found if it[0] == b"LongLogLine"}
                told, = {as_word(it, word) for it in long_lines or found} or {"opened close"}
                words += [f"names:write:{word(path)}:" + "+".join(f"{word(part)}*{count}" for part, count in parts), *["open", *told.split()[1:]]]
                answers += ["done", told.split()[0]]
            ROWS.append((" ".join(words), " ".join(answers)))


def cuts():
    """Recoveries of logs that end within a line: how long each is then. The last is stopped or fails at each call and is made again."""
    begin, made = placed("names", {MAIN: b"1" * 40 + NEW, LOG: b""}), f"recover names:kind:{word(LOG)}"
    words, answers, texts = ["sha1", *begin], ["done"] * len(begin), list(torn_texts())
    for text, written in texts:
        words += [written, made]
        answers += ["done", "recovered", f"file:{text.rfind(NEW) + 1}"]
    ROWS.append((" ".join(words), " ".join(answers)))
    text, written = texts[-1]
    for how, kept in ("stop", 10), ("fail", "-"):
        line = f"sha1 {' '.join(begin)} {written} names:{how}:#:{kept} recover names:sound {made}"
        done = " ".join(["done"] * (len(begin) + 1))
        ROWS.append((f"each:60 {line}", " | ".join(f"{done} {end} recovered file:{text.rfind(NEW) + 1}" for end in ("File", "recovered"))))


def torn_texts():
    """Texts of a log, each with the word that writes it: up to three pieces, with line feeds at and beside a piece's first and last byte."""
    step = move("sha1", STEP)
    for count, torn in (0, 1), (0, PIECE), (0, PIECE + 1), (1, PIECE - 1), (1, PIECE), (64, 1), (129, PIECE), (64, PIECE + 1):
        yield step * count + b"x" * torn, f"names:write:{word(LOG)}:" + f"{word(step)}*{count}+" * (count > 0) + f"x*{torn}"


def move(kind, size):
    """The line of a move, of so many bytes."""
    front = b"%s %s %s\t" % (b"0" * SIZES[kind], b"f" * SIZES[kind], ONE)
    return front + b"m" * (size - len(front) - 1) + b"\n"


def log_texts(kind):
    """Logs, each as parts and how often they come."""
    step = (move(kind, STEP), PIECE // STEP - 1)
    yield [(move(kind, 1_000), 200)]
    yield [(move(kind, 1_000), 150), (b"x\n", 1), (move(kind, 1_000), 3)]
    for size in STEP - 1, STEP, STEP + 1:
        at_end = move(kind, size)
        yield [step, (at_end, 1), step, (at_end, 1)]
        yield [step, (at_end, 1), (b"x\n", 1)]
        yield [step, (b"x" + at_end[1:], 1), step]
        yield [step, (at_end[:-1] + b"x", 1)]
    yield [step, (move(kind, STEP), 1), (b"x", 1)]
    for size in LONGEST_LINE, LONGEST_LINE + 1:
        yield [step, (b"x", size - 1), (b"\n", 1), step]
        yield [step, (b"x", size)]
        yield [step, (move(kind, STEP), 1), (b"x", size), step]
    yield [(move(kind, STEP), 1), (b"x", PIECE), (b"\n", 1)]
    yield [(b"x", PIECE)]
    yield [(b"x", 2 * PIECE), (b"\n", 1)]


def name_texts():
    """Texts that name a branch of the longest name, and longer ones."""
    for size in LONGEST_NAME, LONGEST_NAME + 1, 2_000:
        yield [(b"ref: refs/heads/", 1), (b"n", size - len(b"refs/heads/")), (b"\n", 1)]
    yield [(b"0", 2_000), (b"\n", 1)]
    yield [(b"x", PIECE)]
