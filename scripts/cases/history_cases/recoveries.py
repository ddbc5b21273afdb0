"""Rows of recoveries, of what a stop may leave and of recoveries that stop."""

from streams import HEAD, ROWS, each, listed, placed


def recoveries(kind):
    """Leftovers of every kind: a recovery that is stopped or fails at each call is run again, and leaves what the rules say."""
    digits = b"1" * (40 if kind == "sha1" else 64)
    line = b"%s %s A <a@b> 1 +0000\tone\n" % (b"0" * len(digits), digits)
    stays = {b"HEAD": HEAD, b"README": b"half", b"packed-refs": digits + b" refs/heads/packed\n", b"refs/heads/main": digits + b"\n",
             b"refs/heads/broken": b"", b"logs/HEAD": None, b"logs/refs/heads/main": line, b"logs/refs/heads/packed": line, b"logs/refs/heads/broken": b""}
    gone = {b"HEAD.lock": b"ref", b"packed-refs.lock": b"", b"refs/heads/main.lock": digits, b"refs/heads/b/c.lock": b"", b"logs/HEAD": line,
            b"logs/refs/heads/gone": line, b"logs/refs/heads/d/e": line + b"half", b"logs/refs/heads/main.lock/x": line,
            b"logs/refs/bisect/bad": line, b"other/a.lock": b""}
    stays = {path: text for path, text in stays.items() if text is not None}
    half = {b"logs/refs/heads/main": line + b"half", b"logs/refs/heads/broken": b"half"}
    objects = {b"objects/unfinished": b"blob", b"objects/ab/cd": b"blob 0\0"}
    words = [*placed("objects", objects), *placed("names", {**stays, **gone, **half}), "names:folder:refs/heads/empty", "names:folder:refs/heads/empty/inner"]
    before = " ".join(["done"] * len(words))
    del objects[b"objects/unfinished"]
    after = f"objects{listed(objects)} names{listed(stays)} names:broken:main names:broken:main:packed names names:HEAD:README:logs:other:packed-refs:refs"
    ends = "left names:list:refs/heads names:list:logs/refs/heads names:list:other names:list:-"
    cut = [("stop", "-"), ("stop", 5), ("stop", 1000), ("fail", "-")] if kind == "sha1" else [("stop", 5)]
    for limit, part in ((4, "objects"), (140, "names")):
        for how, kept in cut:
            each(limit, kind, f"{' '.join(words)} {part}:{how}:#:{kept} recover {ends}",
                 [f"{before} File {after}", f"{before} recovered {after}"])
    # The objects part is changed before the names part.
    each(3, kind, f"{' '.join(words)} objects:stop:#:- recover names:kind:HEAD.lock", [f"{before} File file:3", f"{before} recovered absent"])
    # If packed-refs can't be read, no name is absent, and what is no name is.
    for packed in (b"half", b"# pack\n"):
        files = {b"packed-refs": packed, b"logs/refs/heads/gone": line + b"half", b"logs/refs/heads/a.lock/b": line, b"logs/refs/a..b": line}
        words_2 = placed("names", files)
        left_2 = {b"packed-refs": packed, b"logs/refs/heads/gone": line}
        ROWS.append((" ".join([kind, *words_2, "recover", "left"]), " ".join([*["done"] * len(words_2), "recovered", f"objects names{listed(left_2)}"])))
    # A name of 1,024 bytes is one, and a longer one isn't.
    longest = b"refs/heads/" + b"/".join([b"a" * 200] * 5) + b"/" + b"a" * (1024 - 11 - 1005)
    files = {b"packed-refs": b"", b"logs/" + longest: line, longest + b"a": digits + b"\n", b"logs/" + longest + b"a": line}
    files[longest] = digits + b"\n"
    words_3 = placed("names", files)
    del files[b"logs/" + longest + b"a"]
    ROWS.append((" ".join([kind, *words_3, "recover", "left"]), " ".join([*["done"] * len(words_3), "recovered", f"objects names{listed(files)}"])))
