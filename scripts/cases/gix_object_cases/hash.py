#!/usr/bin/env python3
"""Writes the rows of `hash` in stdin and stdout; git 2.39 is called, on the path.

Nothing of the crate is used. The ids of blobs are what `git hash-object` prints and their short forms what `git rev-parse --short=4`
does, in repositories of both object formats; digests are `hashlib`'s; the others are what Git's forms of ids say of them, by slices and
sorted lists of Python.
"""
import hashlib
import itertools
import subprocess
import sys
import tempfile
from pathlib import Path

sys.path.append(str(Path(__file__).resolve().parents[1]))
from families import write

ROWS = []
KINDS = {"sha1": 20, "sha256": 32}
REVERSE = str.maketrans("0123456789abcdef", "zyxwvutsrqponmlk")
PIECE = 65535


def case(operation, *fields, answer):
    """A number and a word are written as their texts."""
    words = [field if isinstance(field, bytes) else str(field).encode() for field in fields]
    ROWS.append((" ".join([operation] + [word.hex() or "-" for word in words]), answer))


def digest(name, text):
    return hashlib.new(name, text).digest()


def blob(name, content):
    return digest(name, b"blob %d\0" % len(content) + content)


EMPTY = {name: (digest(name, b"blob 0\0"), digest(name, b"tree 0\0")) for name in KINDS}


def truths(*values):
    return " ".join("true" if value else "false" for value in values)


def shown(id):
    return f"{'Sha1' if len(id) == 20 else 'Sha256'}({id.hex()})"


def quoted(text):
    escapes = {0: "\\0", 9: "\\t", 10: "\\n", 13: "\\r", 34: '\\"', 39: "\\'", 92: "\\\\"}
    return '"' + "".join(escapes.get(byte) or (chr(byte) if 32 <= byte < 127 else f"\\x{byte:02x}") for byte in text) + '"'


def samples(name):
    length = KINDS[name]
    return [bytes(length), b"\xff" * length, bytes(range(length)), bytes(range(255, 255 - length, -1)), b"\x01" + bytes(length - 1),
            bytes(length - 1) + b"\x01", *EMPTY[name], *(blob(name, b"%d\n" % n) for n in range(12))]


# ---- what git prints

def git(folder, *words, given=b""):
    return subprocess.run(("git", "-C", folder) + words, input=given, check=True, capture_output=True).stdout.decode().strip()


def blobs_of_git(name, count):
    with tempfile.TemporaryDirectory() as folder:
        git(folder, "init", "-q", "--object-format", name)
        contents = [b"%d\n" % n for n in range(1, count + 1)]
        ids = [git(folder, "hash-object", "-w", "--stdin", given=content) for content in contents]
        shorts = [git(folder, "rev-parse", "--short=4", id) for id in ids]
        for content, id, short in zip(contents, ids, shorts):
            case("blob", name, content, answer=id)
            case("read_id", id, answer=shown(bytes.fromhex(id)))
            case("prefix", bytes.fromhex(id), len(short), answer=prefix_of(short, name))
        for content in [b"", b"hello", b"\0", b"x" * 1000, bytes(range(256)), "Ž".encode(), bytes(70000)]:
            case("blob", name, content, answer=git(folder, "hash-object", "--stdin", given=content))
        ascending = sorted(ids)
        case("list", *map(bytes.fromhex, ascending), answer=f"{count} ids")
        for id, short in zip(ids, shorts):
            place = ascending.index(id)
            case("find", short, answer=f"{place} {place + 1} true")
        return ascending


# ---- kinds

def kinds():
    names = {"sha1": "sha1", "SHA1": "sha1", "SHA-1": "sha1", "sha256": "sha256", "SHA256": "sha256", "SHA-256": "sha256"}
    for text in list(names) + ["", "sha-1", "sha-256", "Sha1", "sha", "sha1 ", " sha1", "md5", "sha512", "SHA_1"]:
        case("kind_of_name", text, answer=names.get(text, "the text names no hash function"))


# ---- ids

def ids():
    for name in KINDS:
        for id in samples(name):
            for what in ["id", "view", "change"]:
                case(f"write_{what}", id, answer=id.hex())


def readings():
    for name in KINDS:
        for id in samples(name):
            for text in [id.hex(), id.hex().upper()]:
                read_text(text, id)
    digits = EMPTY["sha1"][0].hex()
    for length in [0, 1, 3, 4, 39, 41, 63, 65, 128]:
        read_text("e" * length, None)
    for place, byte in itertools.product([0, 20, 39], [b"g", b"G", b" ", b"\n", b"\0", b"/", b":", b"@", b"`", b"k", b"z", b"\x7f"]):
        text = digits[:place].encode() + byte + digits[place + 1:].encode()
        read_text(text, None)


def why_no_id(text):
    return "Invalid character encountered" if len(text) in (40, 64) else f"A hash sized {len(text)} hexadecimal characters is invalid"


def read_text(text, id):
    case("read_id", text, answer=shown(id) if id else why_no_id(text))


# ---- comparisons

def comparisons():
    pairs = [pair for name in KINDS for pair in itertools.product(samples(name)[:9], repeat=2)]
    pairs += [pair for one in samples("sha1")[:7] for other in samples("sha256")[:7] for pair in [(one, other), (other, one)]]
    for one, other in pairs:
        fault = f"Hash was {one.hex()}, but should have been {other.hex()} false false"
        case("verify", one, other, answer="as expected true true" if one == other else fault)


# ---- prefixes

def prefix_of(text, name):
    return f"{text} {len(text)} {name} {text.translate(REVERSE)}"


def read_prefix(text):
    if len(text) < 4:
        return f"The minimum hex length of a short object id is 4, got {len(text)}"
    if len(text) > 64:
        return f"An id cannot be larger than 64 chars in hex, but {len(text)} was requested"
    if not set(text.lower()) <= set("0123456789abcdef"):
        return "Invalid hex character"
    return prefix_of(text.lower(), "sha1" if len(text) <= 40 else "sha256")


def prefixes():
    for name, length in KINDS.items():
        for id, count in itertools.product([EMPTY[name][0], blob(name, b"7\n")], list(range(0, 2 * length + 3)) + [99]):
            if count < 4:
                answer = f"The minimum hex length of a short object id is 4, got {count}"
            elif count > 2 * length:
                answer = f"An object of kind {name} cannot be larger than {2 * length} in hex, but {count} was requested"
            else:
                answer = prefix_of(id.hex()[:count], name)
            case("prefix", id, count, answer=answer)
    digits = (EMPTY["sha1"][0] + EMPTY["sha256"][0]).hex()
    texts = [digits[:count] for count in range(67)] + ["E69de29", "E69DE29", "abc", "zzz", "zzzz", "LTQmlxq", "ltqmlxq", "e69de2g", "e69 ", "", "0" * 65, "z" * 65]
    for text in texts + [text.translate(REVERSE) for text in texts]:
        case("read_prefix", text, answer=read_prefix(text))
    for count in range(1, 65):
        case("write_prefix", digits[:count], answer=digits[:count])


def runs(name, ascending):
    """In the list that was set last: prefixes of each length, of ids in the list and of none."""
    texts = ["0", "7", "f", "e69de29"] + [f"{byte:02x}" for byte in range(256)] + [id[:count] for id in ascending[::9] for count in (1, 3, 5, 12, len(id))]
    for text in texts:
        places = [place for place, id in enumerate(ascending) if id.startswith(text)]
        first = sum(id[:len(text)] < text for id in ascending)
        case("find", text, answer=f"{first} {first + len(places)} true")


def lists():
    id, other = (id.hex() for id in EMPTY["sha1"])
    null = "0" * 64
    for chosen, text, answer in [([id, other], "e69d", "no run"), ([id], "e69d", "0 1 true"), ([id], null, "no run"), ([], null, "0 0 true"),
                                 ([other, id], "e69d", "1 2 true"), ([id, id, id], "e69d", "0 3 true"), ([id, other, id], "e6", "no run")]:
        case("list", *(map(bytes.fromhex, chosen) if chosen else [b""]), answer=f"{len(chosen)} ids")
        case("find", text, answer=answer)


# ---- digests and streams

def digests():
    pattern = bytes(n * 7 % 251 for n in range(1000))
    for name in KINDS:
        for length in list(range(0, 140)) + [255, 256, 257, 999, 1000]:
            case("digest", name, pattern[:length], answer=digest(name, pattern[:length]).hex())
        for pieces in [[], [b""], [b"a", b"b", b"c"], [b"", b"abc", b""], [pattern[:63], pattern[63:65], pattern[65:]], [pattern[:64]] * 3, [b"x"] * 130]:
            text = b"".join(pieces)
            case("digest", name, *pieces, answer=digest(name, text).hex())
            case("write", name, *pieces, answer=f"{quoted(text)} {digest(name, text).hex()}")
        case("write", name, b"blob 0\0", answer=f"{quoted(b'blob 0%c' % 0)} {EMPTY[name][0].hex()}")
        for fed, text in itertools.product([b"", b"blob 5\0", bytes(63), b"x" * 130], [b"", b"h", b"hello", b"hello\0"]):
            case("digest", name, fed, text, answer=digest(name, fed + text).hex())


def stream_of(name, count, number, stream):
    """The pieces are of 65,535 bytes, and the one at which the interruption says yes is reported."""
    pieces = -(-count // PIECE)
    if 0 < number <= pieces and len(stream) >= min(number * PIECE, count):
        read = min(number * PIECE, count)
        answer = f"Interrupted {read}"
    elif len(stream) < count:
        return f"failed {len(stream) // PIECE * PIECE}"
    else:
        read, answer = count, f"{digest(name, stream[:count]).hex()} {count}"
    return answer + (f" {len(stream) - read}" if len(stream) >= count else "")


def streams():
    for name in KINDS:
        for count, number, length in [(70000, 1, 80000), (70000, 2, 80000), (70000, 0, 69999), (70000, 0, 70000), (70000, 3, 80000), (0, 0, 0), (0, 1, 5), (1, 0, 0), (1, 1, 1),
                                      (65535, 0, 65535), (65535, 1, 65535), (65535, 2, 65535), (65536, 2, 65536), (65536, 0, 65535), (131070, 2, 131070), (131071, 3, 140000), (131071, 0, 131070)]:
            case("zeros", name, count, number, length, answer=stream_of(name, count, number, bytes(length)))
        for count, number, stream in itertools.product([0, 1, 5, 6, 7], [0, 1, 2], [b"", b"hello", b"hello\n", b"hello\0\xff"]):
            case("stream", name, count, number, stream, answer=stream_of(name, count, number, stream))
        for count, path in [(70000, "/dev/zero"), (0, "/dev/zero"), (200000, "/dev/zero"), (1, "/dev/null"), (0, "/dev/null"), (1, "none")]:
            known = path == "/dev/zero" or path == "/dev/null" and count == 0
            case("file", name, count, path, answer=f"{digest(name, bytes(count)).hex()} {count}" if known else "failed 0")


for name, count in [("sha1", 200), ("sha256", 100)]:
    runs(name, blobs_of_git(name, count))
for part in [kinds, ids, readings, comparisons, prefixes, lists, digests, streams]:
    part()
write(__file__, ROWS)
