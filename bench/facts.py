"""What a way's output and folder say, in which the ways of a workload have to agree."""
import re


def tip(result):
    """The id of the last commit that was made."""
    return re.findall(rb"^ok commit (\w+)$", result.output, re.M)[-1]


def reply(output, kind):
    """The lines of the last reply of a kind."""
    return re.split(rb"^ok %s .*\n" % kind, output, flags=re.M)[-1].splitlines()


def lines(result, times):
    """The lines that the last of so many equal runs printed."""
    every = result.output.splitlines()
    return every[len(every) // times * (times - 1):]


def number(result):
    """The first number that was printed."""
    return int(re.search(rb"\d+", result.output)[0])


def files_in(rows):
    """Ids and paths of a reply to `files`."""
    return [(row.split()[1], path) for row, path in zip(rows[::2], rows[1::2])]


def tree_rows(rows):
    """The same of `git ls-tree`."""
    return [(row.split()[2], row.partition(b"\t")[2]) for row in rows]


def ids_and_names(rows):
    """Ids and names, of lines that begin with the one and end with the other."""
    return [(row.split()[0], row.split()[-1]) for row in rows]


def shown(result):
    """The contents that were shown, in the form of `git cat-file --batch`."""
    return re.sub(rb"^ok show content file (\w+)", rb"\1 blob", result.output, flags=re.M)


def graphed(result):
    """How many commits the commit-graph has: the last number of its fan-out."""
    data = (result.folder / "objects/info/commit-graph").read_bytes()
    chunk = data.index(b"OIDF")
    offset = int.from_bytes(data[chunk + 4:chunk + 12], "big")
    return int.from_bytes(data[offset + 255 * 4:offset + 256 * 4], "big")


def objects(result):
    """How many objects have files."""
    return sum(1 for _ in result.folder.glob("objects/??/*"))


def loose_names(result):
    """How many names have files."""
    return sum(it.is_file() for it in result.folder.glob("refs/**/*"))


def contents(result):
    """The files of the program's folder, with what is in them."""
    return {str(it.relative_to(result.folder)): it.read_bytes() for it in result.folder.glob("*/**/*") if it.is_file()}


def records(result):
    """What the bare calls have to write, so that the same files come to be."""
    found = []
    for path, content in contents(result).items():
        if path.startswith("objects/"):
            found.append(b"object %d\n%s" % (len(content), content))
        elif path.startswith("logs/"):
            for line in content.splitlines(keepends=True):
                found.append(b"append %d %s\n%s" % (len(line), path.encode(), line))
                found.append(b"replace 41 %s\n%s\n" % (path.removeprefix("logs/").encode(), line.split()[1]))
    return b"".join(found)
