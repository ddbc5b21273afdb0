#!/usr/bin/env python3
"""Writes the rows of `sizes`: operations at each size of the lists and texts that they take.

What is wanted follows from the forms of objects and from the library's documentation, by Python alone."""
import sys
from pathlib import Path

sys.path.insert(0, str(Path(__file__).resolve().parents[1]))
from case_sizes import content, expand, hexed, oid, row
from families import write

NULL = "0" * 40


def shown(data):
    """Bytes as the program shows them."""
    return "".join(chr(it) if 32 <= it < 127 and it != 92 else {10: "\\n", 92: "\\\\"}.get(it, f"\\x{it:02x}") for it in data)


def quoted(data):
    return '"%s"' % data.decode().replace("\n", "\\n")


def actor():
    def answer(size):
        name, mail = "n" + "x" * size, "e" + "y" * size
        return f'"{name}" "{mail}" "7 +0100" "{name} <{mail}> 7 +0100"'
    yield row("lines actor " + hexed("n{x} <e{y}> 7 +0100"), answer)


def message():
    text = hexed("t{\nl~}\n\nb\n\nKey: v\n{K~: w~\n}")

    def answer(size):
        title, body = content(text, size).decode().split("\n\n", 1)
        trailers = body.split("\n\n")[1]
        return " ".join(quoted(it.encode()) for it in (title.replace("\n", " "), body, trailers))
    yield row("message message " + text, answer)


PGP = "-----BEGIN PGP SIGNATURE-----\n\n{s~\n}-----END PGP SIGNATURE-----\n"
SSH = "-----BEGIN SSH SIGNATURE-----\n{s~\n}-----END SSH SIGNATURE-----\n"
MADE = "\n[GNUPG:] SIG_CREATED D 22 8 00 1 F\n"
GOOD = "[GNUPG:] GOODSIG 3391313DA79CECC0 A\n[GNUPG:] VALIDSIG DA4356C76040B30DB023B9B13391313DA79CECC0 2026-11-23 1 0 4 0 22 8 00 F\n" \
    "[GNUPG:] TRUST_ULTIMATE 0 pgp\n{o~\n}"


def fields(*texts):
    return " ".join(hexed(it) or "-" for it in texts)


def signature():
    def text(it, size):
        return shown(content(hexed(it), size))
    yield row("signature sign-openpgp " + fields("gpg", "k{k}", "c{~\n}", "0", PGP, MADE + "{e~\n}"), lambda size:
              f"signature {text(PGP, size)}; asked gpg --status-fd=2 -bsau {text('k{k}', size)} input {text('c{~' + chr(10) + '}', size)}")
    yield row("signature sign-ssh " + fields("keys", "k{k}", "c{~\n}", "0", SSH, "{e~\n}"), lambda size:
              f"signature {text(SSH, size)}; asked keys -Y sign -n git -f {text('k{k}', size)} "
              f"(to sign {text('c{~' + chr(10) + '}', size)}) input ")
    yield row("signature verify-openpgp " + fields("gpg", "Marginal", "c{~\n}", "d{~\n}", PGP, "0", GOOD, "{e~\n}"), lambda size:
              f"valid Good Ultimate of Marginal signer ended output {text(GOOD, size)} errors {text('{e~' + chr(10) + '}', size)}"
              f"; asked gpg --keyid-format=long --status-fd=1 --verify (file {text(PGP, size)}) - input "
              f"{text('c{~' + chr(10) + '}d{~' + chr(10) + '}', size)}")


TAG = f"object {NULL}\ntype commit\ntag v{{x}}\ntagger A{{a}} <e{{b}}> 7 +0100\n\nm{{ y~}}\n"


def tag():
    text, signed = hexed(TAG), hexed(TAG + PGP)

    def own(size):
        data = content(text, size)
        words = "".join(f" y{it:04}" for it in range(size))
        return (f"object {NULL}; type commit; tag v{'x' * size}; tagger A{'a' * size}|e{'b' * size}|7 3600; message m{words}\\n; "
                f"signature none; tag {len(data)} {oid('tag', data)}")
    yield row("tag own sha1 " + text, own)

    def sign(size):
        data, whole = shown(content(text, size)), shown(content(signed, size))
        asked = f"asked signer --status-fd=2 -bsau k input {data}; "
        return f"written {whole}; own written {whole}; {asked}{asked}"
    yield row(f"tag sign sha1 {text} - " + fields("k", "0", PGP, MADE), sign)

    def signature(size):
        data, found = shown(content(text, size)), shown(content(hexed(PGP), size))
        return f"signature OpenPgp {found}; before {data}; behind ; signed {data}"
    yield row(f"tag signature sha1 {signed}", signature)


PARENTS = "{parent " + "0" * 36 + "~\n}"
HEAD = f"tree {NULL}\n{PARENTS}author A{{a}} <a@b> 7 +0100\ncommitter C <c{{c}}@d> 8 -0100\n"
EXTRA = "{h~ v~\n}"
BODY = "\nt{\nl~}\n\nb\n\nKey: v\n{K~: w~\n}"


def commit():
    text = hexed(HEAD + EXTRA + BODY)

    def parted(size):
        title, body = content(hexed(BODY), size).decode()[1:].split("\n\n", 1)
        return title, body

    def read(size):
        parents = "".join(f"parent {it:040}; " for it in range(size))
        extra = "".join(f"header h{it:04}|v{it:04}; " for it in range(size))
        return (f"tree {NULL}; {parents}author A{'a' * size}|a@b|7 +0100; committer C|c{'c' * size}@d|8 -0100; {extra}"
                f"message {shown(content(hexed(BODY), size)[1:])}")
    yield row("commit read sha1 " + text, read)

    def written(size):
        data = content(text, size)
        return f"commit {len(data)} {oid('commit', data)}"
    yield row("commit write sha1 " + text, written)
    yield row("commit own sha1 " + text, lambda size: written(size) + " alike")

    def message(size):
        title, body = parted(size)
        return f"title {shown(title.encode())}; body {shown(body.encode())}; summary {title.replace(chr(10), ' ')}"
    yield row("commit message sha1 " + text, message)
    folded, head = hexed("gpgsig -----BEGIN PGP SIGNATURE-----\n \n{ s~\n} -----END PGP SIGNATURE-----\n"), hexed(HEAD)

    def signature(size):
        value, before = content(folded, size)[7:-1], content(head, size)
        found = content(hexed(PGP), size)[:-1]
        behind = b"\nm\n"
        return (f"header gpgsig|{shown(value)}; signature {shown(found)}; before {shown(before)}; behind {shown(behind)}; "
                f"signed {shown(before + behind)}")
    yield row(f"commit signature sha1 {head}{folded}{hexed(chr(10) + 'm' + chr(10))}", signature)

    def sign(size):
        plain = content(head + hexed("\nm\n"), size)
        whole = shown(content(head + folded + hexed("\nm\n"), size))
        asked = f"asked gpg --status-fd=2 -bsau k input {shown(plain)}; "
        return f"written {whole}; own written {whole}; own written {whole}; {asked * 3}"
    yield row(f"commit sign sha1 {head}{hexed(chr(10) + 'm' + chr(10))} " + fields("k", "0", PGP, MADE), sign)

    def blob(size):
        data = b"x" * size
        told = f"blob {size} {oid('blob', data)}"
        return f"{told}; own {told}; lent {told}; {'x' * size}"
    yield row("commit blob sha1 " + hexed("{x}"), blob)


ENTRIES = "[313030363434 2061~00".replace(" ", "") + "00" * 18 + "#]"


def entry_names(size):
    return [f"a{it:04}" for it in range(size)]


def entries():
    def shape(size):
        data = content(ENTRIES, size)
        return f"{size} entries", f"; tree {len(data)} {oid('tree', data)}", "+" if size == 0 else "-"

    def tree(size):
        count, written, empty = shape(size)
        each = "".join(f"; 100644 blob {it:040} a{it:04}" for it in range(size))
        return f"{count}{each}; well-formed+; empty{empty}{written}"
    yield row("entries tree sha1 " + ENTRIES, tree)
    yield row("entries owned sha1 " + ENTRIES, lambda size:
              "{0}; well-formed+; empty{2}{1}; alike+".format(*shape(size)))

    def made(size):
        data = content("[31303036343420 61~00".replace(" ", "") + "00" * 20 + "]", size)
        return f"{size} entries; well-formed+; tree {len(data)} {oid('tree', data)}"
    yield row("entries made sha1[ 61~]", made)


def objects():
    """Objects of each kind: the digits of a content, and what it lends as its kind."""
    text = hexed(HEAD + EXTRA + BODY)
    yield "blob", hexed("{x}"), lambda size: f"; blob {'x' * size}"
    yield "tree", ENTRIES, lambda size: f"; tree {size}"
    yield "commit", text, lambda size: f"; commit {shown(content(hexed(BODY), size)[1:])}"
    yield "tag", hexed(TAG), lambda size: f"; tag v{'x' * size}"


def whole_objects():
    for kind, text, lent in objects():
        def lines(size, words):
            data = content(text, size)
            each = [lent(size) if it == kind else f"; {it} none" for it in words]
            return f"{kind}: {kind} {len(data)} {oid(kind, data)}" + "".join(each)

        def plain(size):
            return lines(size, ("blob", "commit", "tag", "tree"))

        def own(size):
            told = lines(size, ("blob", "commit", "tag", "tree"))
            front, sign, back = told.partition("; commit ")
            blob = lent(size).replace("; blob", "; lent blob") if kind == "blob" else "; lent blob none"
            return f"{front}{blob}{sign}{back}; alike"
        yield row(f"object content sha1 {hexed(kind)} {text}", plain)
        yield row(f"object decode sha1 {hexed(kind)} {text}", plain)
        yield row(f"object loose sha1 (={kind} {text})", plain)
        yield row(f"object own sha1 (={kind} {text})", own)


def asked(told, missing):
    """What the five stores answer."""
    return " | ".join((told, told, "refused Failed", missing, told))


def find():
    texts = {kind: text for kind, text, _ in objects()}
    tokens = {"tree": lambda size: size, "commit": lambda size: 1 + size + 2 + size + 1, "tag": lambda size: 5}
    answers = {
        "tree": lambda size: "".join(f"{it} " for it in entry_names(size)),
        "commit": lambda size: shown(content(hexed(BODY), size)[1:]),
        "tag": lambda size: "v" + "x" * size,
    }
    for kind in ("tree", "commit", "tag"):
        def answer(size):
            told = f"{answers[kind](size)}; {tokens[kind](size)} read"
            missing = f"refused NotFound {oid(kind, content(texts[kind], size))}"
            return " | ".join((told, told, "refused Failed; refused Failed", f"{missing}; {missing}", told))
        yield row(f"find {kind} sha1 ({kind} {texts[kind]}) - (={kind} {texts[kind]})", answer)
    blob = texts["blob"]
    others = "[ " + hexed("blob 4\0~") + "]"
    yield row(f"find blob sha1 (blob {blob}) - (=blob {blob}){others}", lambda size:
              asked("x" * size, f"refused NotFound {oid('blob', b'x' * size)}"))

    def header(size):
        told = f"exists+ {size}; blob {size}"
        fails, missing = "exists+ refused Failed; refused Failed", f"exists- none; refused NotFound {oid('blob', b'x' * size)}"
        return " | ".join((told, told, fails, missing, told))
    yield row(f"find header sha1 (blob {blob}) - (=blob {blob}){others}", header)

    def found(size):
        data = b"x" * size
        told = f"{size}; blob of sha1 {'x' * size}"
        missing = f"none; refused NotFound {oid('blob', data)}"
        return " | ".join((told, told, "refused Failed; refused Failed", missing, told))
    yield row(f"find find sha1 (blob {blob}) - (=blob {blob}){others}", found)
    tree = texts["tree"]
    last = tree + hexed("100644 z\0") + "11" * 20
    for operation, path in (("path", "z"), ("names", "z"), ("path", "z{/y}"), ("names", "z{\ny}"), ("path", "{x}"), ("names", "{x\n}")):
        def answer(size):
            wanted = content(hexed(path), size)
            told = f"blob {'1' * 40} z" if wanted == b"z" else "none"
            return asked(told, f"refused NotFound {oid('tree', content(last, size))}")
        yield row(f"find {operation} sha1 (tree {last}) {hexed(path)} (=tree {last})", answer)

    def keep(size):
        data = b"x" * size
        name = oid("blob", data)
        fails = "refused Failed; " * 5 + "refused Read; " * 2
        return f"{name}; {name}; {NULL}; {name}; {NULL}; refused Read; refused Read; " + f"blob {size} " * 5 + f"| {fails}| {fails}"
    yield row(f"find keep sha1 - - (=blob {blob})", keep)


def tree_id(tree):
    """The id of a tree of names, each with an id of a blob or a tree of its own."""
    data = b""
    for name, it in sorted(tree.items(), key=lambda pair: pair[0] + "/" * isinstance(pair[1], dict)):
        mode, name_id = ("40000", tree_id(it)) if isinstance(it, dict) else ("100644", it)
        data += f"{mode} {name}\0".encode() + bytes.fromhex(name_id)
    return oid("tree", data)


def deep_id(size, leaf):
    """The id of a tree with `a`, that with `b`, so often as the size says, of which the last is the leaf."""
    mode, found = "100644", leaf
    for name in ["b"] * size + ["a"]:
        found = oid("tree", f"{mode} {name}\0".encode() + bytes.fromhex(found))
        mode = "40000"
    return found


ONE = "1" * 40
EMPTY = oid("tree", b"")


def editor():
    names = "1" * 36 + "#"
    yield row(f"editor sha1 - -[ upsert:61~:blob:{names}] write written[ get:61~][ remove:61~] write", lambda size:
              "ok " * size + tree_id({f"a{it:04}": f"{'1' * 36}{it:04}" for it in range(size)}) + " known+ 1"
              + "".join(f" 100644 {'1' * 36}{it:04}" for it in range(size)) + " ok" * size + f" {EMPTY} known+")

    def below(size):
        folders = {f"a{it:04}": {"b": ONE} for it in range(size)}
        written = 1 + size
        return "ok " * size + f"{tree_id(folders)} known+ {written}" + " ok" * size + f" {EMPTY} known+"
    yield row(f"editor sha1 - -[ upsert:61~/62:blob:{ONE}] write written[ remove_leaf:61~/62] write", below)

    def deep(size):
        return f"ok {deep_id(size, ONE)} known+ 100644 {ONE} ok {EMPTY} known+"
    yield row(f"editor sha1 - - upsert:61[/62]:blob:{ONE} write get:61[/62] remove_leaf:61[/62] write", deep)

    def cursors(size):
        return f"ok {deep_id(size, ONE)} 100644 {ONE} ok {deep_id(size, ONE)} ok {EMPTY}"
    yield row(f"editor sha1 - - at:-:upsert:61[/62]:blob:{ONE} at:-:write:- at:-:get:61[/62] at:-:upsert:61[/62]:blob:{ONE} at:-:write:-"
              " at:-:remove:61 at:-:write:-", cursors)

    # Files that are grafted over those of the root, and at a cursor, where they go again.
    graft = f"graft:61~:blob:{ONE}"

    def grafted(size):
        files = dict.fromkeys(entry_names(size), ONE)
        with_folder = files | ({"d": files} if size else {})
        return " ".join(["ok"] * (1 + 2 * size) + [tree_id(with_folder), "known+"] + ["ok"] * size + [tree_id(files), "known+"])
    root = ENTRIES.replace("00" * 19, "00" + "22" * 18)
    yield row(f"editor sha1 - - root:{root}[ {graft}][ at:64:{graft}] write[ at:64:remove_leaf:61~] write", grafted)


def rows():
    for family in (actor, message, signature, tag, commit, entries, whole_objects, find, editor):
        yield from family()


if __name__ == "__main__":
    write(__file__, list(rows()))
