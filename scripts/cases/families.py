"""Rows of programs of cases whose lines begin with a family: a script in the folder of a crate's name writes those of the family that it is
named after."""
from pathlib import Path

CRATES = Path(__file__).resolve().parents[2] / "crates"


def crate_of(script):
    """The folder of the crate whose cases this script writes."""
    return CRATES / Path(script).resolve().parent.name


def write(script, rows):
    """Puts these rows, each a line without its family and an answer, in the place of the family's in `stdin` and `stdout` of the crate."""
    crate, family = crate_of(script), Path(script).stem
    lines, answers = ((crate / name).read_text().split("\n")[:-1] for name in ("stdin", "stdout"))
    places = [at for at, line in enumerate(lines) if line.startswith(family + " ")] or [len(lines)]
    first, behind = places[0], places[0] + sum(line.startswith(family + " ") for line in lines)
    lines[first:behind] = [f"{family} {line}" for line, _ in rows]
    answers[first:behind] = [answer for _, answer in rows]
    (crate / "stdin").write_text("".join(f"{line}\n" for line in lines))
    (crate / "stdout").write_text("".join(f"{answer}\n" for answer in answers))
    print(len(rows), "rows")


def kept(script, *families):
    """The rows of these families, each a line and its answer, as they are in `stdin` and `stdout` of the crate."""
    crate = crate_of(script)
    lines, answers = ((crate / name).read_text().split("\n")[:-1] for name in ("stdin", "stdout"))
    return [row for row in zip(lines, answers) if row[0].split(" ")[0] in families]
