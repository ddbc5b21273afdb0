#!/usr/bin/env python3
"""Compares the public functions of the ports and of the engine that take memory with the lists in crates/*_cases/memory_calls.

A function is public that one of the six faces gives, or a public module of one: free, of a type or of a trait. It takes memory if it is
given an allocator, if its error is want of memory or of files, or if its documentation speaks of memory. A list has lines `FAMILY OPERATION: CALL CALL ..`, which say
that the rows of `sizes` with this operation make these calls. Prints what is in one place alone; the status is then 1.
"""
import re
import sys
from pathlib import Path

CRATES = Path(__file__).resolve().parents[2] / "crates"
FACES = ("gix_hash", "gix_object", "gix_ref", "gix_traverse", "history", "history_files")
USE = re.compile(r"pub use (\w+)(?:::\w+)*::(?:\{([^}]*)\}|(\w+))")
TEXT = re.compile(r'"(?:\\.|[^"\\])*"|b?\'(?:\\.|[^\'\\])\'|(?<!/)//[^/][^\n]*', re.S)
CLAUSE = re.compile(r"\n\s*(?:ensures|requires|decreases)\b[^{};]*\{|\bghost (?!use)[^{};]*\{")
# An item that has functions in it, a function with its documentation, or the end of a block.
PART = re.compile(
    r"(?P<item>(?:pub )?(?:impl|trait)\b[^;{]*)\{"
    r"|(?P<doc>(?:///[^\n]*\s*)*)(?P<pub>pub )?(?:const )?\bfn (?P<name>\w+)(?P<rest>[^;{]*)[;{]"
    r"|\{|\}"
)


def plain(text):
    """A source without texts, plain comments, and clauses."""
    text = TEXT.sub("", text)
    while found := CLAUSE.search(text):
        end, deep = found.end(), 1
        while deep:
            deep += {"{": 1, "}": -1}.get(text[end], 0)
            end += 1
        text = text[:found.start()] + " " + text[end:]
    return text


def used(crate):
    """The crates, this one or those below it, of which a crate gives names, and those names."""
    source = CRATES / crate / "src"
    text = plain((source / "lib.rt").read_text())
    text += "".join(plain((source / f"{it}.rt").read_text()) for it in re.findall(r"pub mod (\w+);", text))
    for first, many, one in USE.findall(text):
        yield first if (CRATES / first).is_dir() else crate, set(re.findall(r"\w+", re.sub(r" as \w+", "", many or one)))


def exported():
    """The names that the faces give, by their crates."""
    names = {}
    for crate, given in (it for face in FACES for it in used(face)):
        names.setdefault(crate, set()).update(given)
    for crate in list(names):
        for below, given in used(crate):
            names.setdefault(below, set()).update(names[crate] & given)
    return names


def owner_of(item):
    """The type or the trait whose functions are in this item, or None if a trait is implemented there."""
    while "<" in item:
        item = re.sub(r"<[^<>]*>", "", item.replace("->", ""))
    return None if " for " in item else re.search(r"(?:impl|trait)\s+(\w+)", item)[1]


def functions(text):
    """Of each function what it is of, its name, and its documentation, parameters and result, if it may be public."""
    around = []
    for found in PART.finditer(text):
        if found["name"]:
            item = around[-1] if around else ""
            if found["pub"] or item.startswith("pub trait"):
                yield owner_of(item) if item else "", found["name"], found["doc"], found["rest"]
            around += ["fn"] if found[0].endswith("{") else []
        elif found[0] == "}":
            around.pop()
        else:
            around.append(found["item"] or "fn")


def takes_memory(doc, rest):
    given, _, result = rest.rpartition("->") if "->" in rest else (rest, "", "")
    return "Global" in given or re.search("AllocError|FileError", result) or ("Error" in result and re.search("memory", doc, re.I))


def calls():
    for crate, names in exported().items():
        for file in sorted((CRATES / crate).glob("src/**/*.rt")):
            for owner, name, doc, rest in functions(plain(file.read_text())):
                if owner is not None and (owner or name) in names and takes_memory(doc, rest):
                    yield f"{crate}::{owner}::{name}" if owner else f"{crate}::{name}"


def listed():
    """The calls of the lists, and the operations of theirs of which there is no row."""
    found, lacking = set(), []
    for file in sorted(CRATES.glob("*_cases/memory_calls")):
        rows = [line for line in (file.parent / "stdin").read_text().split("\n") if line.startswith("sizes ")]
        operations = {re.split(r"[\[(]", piece)[0] for row in rows for piece in row.removeprefix("sizes ").split("&")}
        for line in file.read_text().splitlines():
            operation, _, made = line.partition(": ")
            found.update(made.split())
            if not any(f"{it} ".startswith(f"{operation} ") for it in operations):
                lacking.append(f"{file.parent.name}: no row of sizes with {operation}")
    return found, lacking


def wrong():
    made, lacking = listed()
    wanted = set(calls())
    yield from lacking
    yield from (f"no row of sizes calls {it}, which takes memory" for it in sorted(wanted - made))
    yield from (f"memory_calls: {it} isn't there" for it in sorted(made - wanted))


if __name__ == "__main__":
    FOUND = list(wrong())
    print("\n".join(FOUND) or "all public calls that take memory have a row of sizes")
    sys.exit(bool(FOUND))
