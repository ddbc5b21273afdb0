#!/usr/bin/env python3
"""Writes the rows of `sizes`: operations at each size of the lists, texts, names and files that they take.

What is wanted follows from the forms of references, packed references and logs, and from the library's documentation, by Python alone."""
import sys
from pathlib import Path

sys.path.insert(0, str(Path(__file__).resolve().parents[1]))
from case_sizes import content, expand, hexed, oid, row
from families import write

ONE, ZERO = "1" * 40, "0" * 36
SORTED = "# pack-refs with: peeled fully-peeled sorted \n"
# Bytes that a path of files may have.
LONGEST = 4096


def at(text, size):
    """A text with marks, as `hexed` takes them, at this size."""
    return content(hexed(text), size).decode()


def numbered(size, form):
    return "".join(form.format(f"{it:04}", f"{it:040}") for it in range(size))


def file():
    def words(size):
        names = numbered(size, ":f{0}")
        told = ["done"] * size + ["names" + names] + ["done"] * size + ["2:so%20xy"] * size + ["done"] * size
        return " ".join(told + ["file:2"] * size + ["done"] * size + ["names"])
    yield row("file[ write:f#:x] list:-[ append:f#:y][ read:f#][ rename:f#:g#][ kind:g#][ remove:g#] list:-", words)
    yield row("file[ folder:d#][ create:d#/f:x] list:-[ list:d#][ remove:d#/f][ remove-folder:d#] list:-", lambda size: " ".join(
        ["done"] * (2 * size) + ["names" + numbered(size, ":d{0}")] + ["names:f"] * size + ["done"] * (2 * size) + ["names"]))
    yield row("file write:f:x*# append:f:y*# read:f read-at:f:# shorten:f:# read:f", lambda size:
              f"done done {2 * size}:so%20{'x' * size}{'y' * size} {min(size, 6)}:{('y' * min(size, 6)).ljust(6, '.')} done {size}:so%20{'x' * size}")
    yield row("file write:[x]:y append:[x]:z rename:[x]:a", lambda size: " ".join(["done" if 0 < size <= LONGEST else "failed"] * 3))


def folder():
    yield row("folder[ n:write:f#:x] n:list:-[ n:append:f#:y][ n:read:f#][ n:rename:f#:g#][ n:remove:g#] n:list:-", lambda size: " ".join(
        ["done"] * size + ["names" + numbered(size, ":f{0}")] + ["done"] * size + ["2:so%20xy"] * size + ["done"] * (2 * size) + ["names"]))
    yield row("folder n:write:f:x*# n:append:f:y*# n:read:f n:shorten:f:# n:read:f", lambda size:
              f"done done {2 * size}:so%20{'x' * size}{'y' * size} done {size}:so%20{'x' * size}")
    yield row("folder n:folder:d[ n:create:d/f#] n:list:d n:rename:none:a n:last", lambda size: " ".join(
        ["done"] * (size + 1) + ["names" + numbered(size, ":f{0}"), "failed", "none%3a%20No%20such%20file%20or%20directory"]))


def names():
    for text in ("a{b}", "a{/b}", "refs/heads/a{b}", "refs/heads/a{/b}"):
        yield row("name shown " + hexed(text), lambda size: " ".join([at(text, size)] * (4 if "/" in at(text, size) else 2)))
        yield row("name partial " + hexed(text), lambda size: " ".join([at(text, size)] * 3))
        yield row(f"name join {hexed(text)} {hexed('c{d}')}", lambda size: at(text + "/c{d}", size))
        if text.startswith("refs"):
            yield row("name path " + hexed(text), lambda size: " ".join([at(text, size)] * 3))
            yield row("name again " + hexed(text), lambda size: at(text, size))
            yield row("name taken " + hexed("ref: " + text), lambda size:
                      "back ref: {0}; back ref: {0}; ref: {0}".format(at(text, size)))
            yield row(f"name copied {hexed('move')} {hexed(text)}", lambda size: "true false")

        def front(size):
            return "".join(f"refs/namespaces/{it}/" for it in at(text, size).split("/"))
        yield row("name namespace " + hexed(text), lambda size: f"{front(size)} {front(size)}refs/heads/main")
        yield row(f"name prefixed {hexed(text)} {hexed('refs/{x}')}", lambda size:
                  f"{front(size)}refs/{'x' * size} {front(size)} {front(size)}")
    space = "refs/namespaces/a{/refs/namespaces/b}/refs/heads/{x}y"
    yield row(f"name strip {hexed(space)} {hexed('a{/b}')}", lambda size: f"refs/heads/{'x' * size}y")
    yield row("name composed " + hexed("a{x}") + "[65cc81]", lambda size: ("a" + "x" * size).encode().hex() + "c3a9" * size)
    yield row("name once " + hexed("HEAD {refs/heads/a~ }"), lambda size: "once")
    references = "{refs/x/a~ ref: refs/y/a~\nrefs/y/a~ " + ONE + "\n}"
    yield row(f"name ready {hexed(references)} {hexed('{move refs/x/a~' + chr(10) + '}')}", lambda size:
              numbered(size, "move refs/x/a{0} log free stays;") + numbered(size, "move refs/y/a{0} both asks stays;")
              + "".join(f" {it}" for it in range(size)))


RECORD = f"{ZERO}~ refs/heads/p~\n"
PACKED = f"{SORTED}{{{RECORD}}}{ONE} refs/heads/y\n"


def formats():
    last = f"{ONE} refs/heads/y {ONE}"
    every = lambda size: numbered(size, "{1} refs/heads/p{0} {1}; ") + last + "; "
    yield row("format loose " + hexed("ref: refs/heads/a{b}\n"), lambda size: f"ref: refs/heads/a{'b' * size}")
    yield row("format loose " + hexed(ONE + "\n{x}"), lambda size: ONE)
    yield row("format again " + hexed("ref: refs/heads/a{b}\n"), lambda size: at("ref: refs/heads/a{b}\n", size).encode().hex())
    yield row("format path " + hexed("ref: refs/heads/a{b}\n"), lambda size: "refs/heads/main Symbolic")
    yield row("format items " + hexed(PACKED), every)
    yield row("format open " + hexed(PACKED), lambda size: "opened")
    unsorted = "# pack-refs with: peeled \n" + f"{ONE} refs/heads/y\n" + "{" + RECORD + "}"
    yield row("format all " + hexed(unsorted), every)
    yield row("format bytes " + hexed(PACKED), lambda size: at(PACKED, size).encode().hex())
    yield row("format all " + hexed(PACKED), every)
    yield row("format begin refs/heads/p " + hexed(PACKED), lambda size: numbered(size, "{1} refs/heads/p{0} {1}; "))
    for operation in ("find", "must"):
        yield row(f"format {operation} y " + hexed(PACKED), lambda size: last)
    yield row("format whole refs/heads/y " + hexed(PACKED), lambda size: last)
    only = lambda size: numbered(size, "{1} refs/heads/p{0} {1}; ")
    less = f"{SORTED}{{{RECORD}}}"
    for known in (PACKED, less):
        yield row(f"format known {hexed(PACKED)} {hexed(known)}", every)
    for known in (PACKED, unsorted):
        yield row(f"format less refs/heads/y:{hexed(less)} {hexed(known)}", only)
    yield row(f"format less refs/heads/z:{hexed(unsorted)} {hexed(PACKED)}", every)


LINE = f"{ONE} {ZERO}~ A <a@b> 1 +0000\tm~\n"


def log_line(it):
    return f" {it:040}/41/614062/{f'm{it:04}'.encode().hex()}"


def logs():
    lines = hexed("{" + LINE + "}")
    yield row("log forward " + lines, lambda size: "".join(map(log_line, range(size))))
    for operation in ("reverse", "file"):
        yield row(f"log {operation} 200 {lines}", lambda size: "".join(map(log_line, reversed(range(size)))))
    line = f"{ONE} {ONE} A{{a}} <b{{b}}> 1 +0000\tm{{m}}\n"
    for operation in ("again", "copy"):
        yield row(f"log {operation} {hexed(line)}", lambda size: at(line, size).encode().hex())
    yield row(f"log reverse 20000 {hexed(line)}", lambda size:
              f" {ONE}/" + "/".join(it.encode().hex() for it in ("A" + "a" * size, "b" + "b" * size, "m" + "m" * size)))


def packed():
    edits = "{drop refs/heads/p~\n}{write " + ONE + " refs/heads/q~\n}"
    yield row(f"packed sha1 {hexed(PACKED)} {hexed(edits)}", lambda size:
              (SORTED + numbered(size, ONE + " refs/heads/q{0}\n") + f"{ONE} refs/heads/y\n").replace("\n", "|"))


HEAD = f"HEAD={hexed('ref: refs/heads/y' + chr(10))}"
# `x` has a file among many and `y` a record among many, if not both have files.
FILES = f"{HEAD};packed-refs={hexed(PACKED)}[;refs/heads/f#={hexed(ZERO + '~' + chr(10))}];refs/heads/x={hexed(ONE + chr(10))}"
LOG = f"{HEAD};refs/heads/y={hexed(ONE + chr(10))};logs/refs/heads/y={hexed('{' + LINE + '}')}"


def stores():
    loose = lambda size: numbered(size, "refs/heads/f{0} {1};")
    record = f"refs/heads/y {ONE}"
    every = lambda size: loose(size) + numbered(size, "refs/heads/p{0} {1};") + f"refs/heads/x {ONE};{record};"
    for operation in ("find", "packed", "record", "try_find", "try_find_packed", "cached_packed_buffer"):
        yield row(f"store {operation} - y {FILES}", lambda size: record)
    for operation in ("loose", "try_find_loose", "find"):
        yield row(f"store {operation} - x {FILES}", lambda size: f"refs/heads/x {ONE}")
    yield row(f"store force_refresh_packed_buffer - - {FILES}", lambda size: "opened")
    for operation, prefix in (("all", "-"), ("prefixed", "refs/heads/"), ("within", "refs/heads"), ("iter_packed", "-"),
                              ("iter_prefixed_packed", "refs/heads/"), ("iter_within_packed", "refs/heads")):
        yield row(f"store {operation} - {prefix} {FILES}", every)
    for operation, prefix in (("files", "refs/heads/"), ("loose_iter", "-")):
        yield row(f"store {operation} - {prefix} {FILES}", lambda size: loose(size) + f"refs/heads/x {ONE};")
    for operation in ("pseudo", "iter_pseudo"):
        yield row(f"store {operation} - - {FILES}", lambda size: "HEAD ref: refs/heads/y;")
    yield row(f"store follow - HEAD {FILES}", lambda size: ONE)
    yield row(f"store follow_in_place - HEAD {FILES}", lambda size: f"{ONE} {record}")
    for operation in ("next", "follow_packed"):
        yield row(f"store {operation} - HEAD {FILES}", lambda size: record)
    blob = oid("blob", b"x")
    files = FILES.replace(hexed(ONE), hexed(blob))
    for operation in ("peel", "peel_packed"):
        yield row(f"store {operation} - HEAD {files} [(=blob ~);](=blob 78)", lambda size: f"{blob} {blob} refs/heads/y {blob} ^{blob}")
    yield row(f"store lines - HEAD {LOG.replace('logs/refs/heads/y', 'logs/HEAD')}", lambda size: "/".join(["+" * size] * 3))
    for operation in ("log", "log_iter"):
        yield row(f"store {operation} - refs/heads/y {LOG}", lambda size:
                  numbered(size, "{1} ") + "/" + "".join(f" {it:040}" for it in reversed(range(size))))
    yield row(f"store reflog_exists - refs/heads/y {LOG}", lambda size: "true true true")
    yield row(f"store pristine - refs/heads/y {HEAD}[;refs/heads/f#={hexed(ZERO + '~' + chr(10))}]", lambda size: "false" if size else "true")
    yield row(f"store strip - refs/namespaces/a/refs/heads/z{'[b]'} {FILES};refs/namespaces/a/refs/heads/z[b]={hexed(ONE + chr(10))} a",
              lambda size: "no store" if 31 + size > LONGEST else f"refs/heads/z{'b' * size} refs/heads/z{'b' * size} {ONE}")
    yield row(f"store folders - HEAD {FILES}", lambda size: "[] [none] [] [packed-refs] true 18")


BLOB = oid("blob", b"x")
LOOSE = b"blob 1\0x".hex()


def transactions():
    edits = "{drop refs/heads/p~\n}{write " + ONE + " refs/heads/q~\n}"
    before = lambda size: at(PACKED, size).replace("\n", "|")
    after = lambda size: (SORTED + numbered(size, ONE + " refs/heads/q{0}\n") + f"{ONE} refs/heads/y\n").replace("\n", "|")
    yield row(f"transaction commit  {hexed(PACKED)} {hexed(edits)}", lambda size: f"commit true; {after(size)}; none")
    yield row(f"transaction rollback  {hexed(PACKED)} {hexed(edits)}", lambda size: f"rollback true; {before(size)}; none")
    made = "{update refs/heads/a~ " + BLOB + " new\n}"
    files = hexed("{refs/heads/a~ " + hexed(ONE + "\n") + "\n}")
    own = lambda size, it: numbered(size, "refs/heads/a{0}=" + it + "|;")
    kept = lambda size: numbered(size, "logs/refs/heads/a{0}=" + "0" * 40 + f" {BLOB} a <b> 1 +0000\tm|;")
    records = lambda size: (SORTED + numbered(size, BLOB + " refs/heads/a{0}\n")).replace("\n", "|")
    yield row(f"transaction loose   {hexed(made)}", lambda size: f"made {size}; {kept(size)}{own(size, BLOB)}")
    yield row(f"transaction loose-rollback   {hexed(made)}", lambda size: f"rolled back {size}; ")
    yield row(f"transaction loose  {files} {hexed('{delete refs/heads/a~ any' + chr(10) + '}')}", lambda size: f"made {size}; ")
    told = lambda size: f"packed-refs={records(size)};" if size else ""
    yield row(f"transaction keep   {hexed(LOOSE + chr(10))} {hexed(made)}", lambda size:
              f"made {size}; {kept(size)}{told(size)}{own(size, BLOB)}")
    yield row(f"transaction pack   {hexed(LOOSE + chr(10))} {hexed(made)}", lambda size: f"made {size}; {kept(size)}{told(size)}")
    # Of files below so many folders the program shows none. No lock is made if its path is too long.
    deep = "refs/heads{/d}/e/f/g/h/i/j/k/l/x"
    yield row(f"transaction loose   {hexed(f'update {deep} {BLOB} any' + chr(10))}", lambda size:
              "LockAcquire; " if len(at(deep, size) + ".lock") > LONGEST else "made 1; ")


def rows():
    for family in (file, folder, names, formats, logs, packed, stores, transactions):
        yield from family()


if __name__ == "__main__":
    write(__file__, list(rows()))
