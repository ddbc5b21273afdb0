"""What reaches an object, for whoever has to mend it or leave it out."""
import contextlib
from array import array
from typing import Callable, Collection, Dict, Iterable, Iterator, List, Tuple

from .bridge import Side
from .bridge_forms import Hashing, log_ids, read_tree, shown
from .bridge_graph import BLOB, KINDS, TREE, Graph

NOBODY = "no name and no log reaches it"
# Returns id, kind and content of objects.
Read = Callable[[Iterable[bytes]], Iterator[Tuple[bytes, str, bytes]]]


class Trails:
    """What reaches these objects: of a commit or a tag a name or a log, of a folder or file also a commit and the path there.

    It reads all folders again, since nothing keeps what they have; so it is made only if something is refused."""

    def __init__(self, read: Read, hashing: Hashing, graph: Graph, side: Side, order: Iterable[int], sought: Collection[int]) -> None:
        self._read, self._hashing, self._graph = read, hashing, graph
        self._owners: List[str] = []
        # One more than the owner's place; no owner is 0.
        self._owner = array("I", bytes(4 * len(graph.ids)))
        self._commits: Dict[int, int] = {}
        for name, id in sorted(side.names.items()):
            self._own(shown(name), [id])
        for name, log in sorted(side.logs.items()):
            self._own(f"log of {shown(name)}", log_ids(log, hashing))
        self._above = self._read_above(order, {it for it in sought if graph.kinds[it] in (BLOB, TREE)})

    def _own(self, owner: str, tips: Iterable[bytes]) -> None:
        """Keeps that a name or a log reaches what nothing reached so far, and of which commits folders are."""
        self._owners.append(owner)
        left = [self._graph.number[id] for id in tips if id in self._graph.number]
        while left:
            number = left.pop()
            if not self._owner[number]:
                self._owner[number] = len(self._owners)
                links = self._graph.links(number) if self._graph.kinds[number] != TREE else []
                for it in links:
                    if self._graph.kinds[it] == TREE:
                        self._commits.setdefault(it, number)
                left.extend(links)

    def _read_above(self, order: Iterable[int], sought: "set[int]") -> Dict[int, Tuple[int, bytes]]:
        """Returns for each of these folders and files, and for the folders above them, a folder that has it and its name there."""
        above: Dict[int, Tuple[int, bytes]] = {}
        trees = [self._graph.ids[it] for it in order if self._graph.kinds[it] == TREE] if sought else []
        ids = {self._graph.ids[it] for it in sought}
        for tree, _, content in self._read(trees):
            with contextlib.suppress(ValueError):
                for _, name, id in read_tree(content, self._hashing):
                    if id in ids and self._graph.number[id] not in above:
                        above[self._graph.number[id]] = (self._graph.number[tree], name)
                        ids.add(tree)
        return above

    def name(self, number: int) -> str:
        """Returns the object's kind and id."""
        return f"{KINDS[self._graph.kinds[number]]} {self._graph.ids[number].hex()}"

    def by(self, number: int) -> str:
        """Returns what reaches the object, in words."""
        path: List[bytes] = []
        while number not in self._commits and number in self._above:
            number, name = self._above[number]
            path.insert(0, name)
        where = f"'{shown(b'/'.join(path))}' of " if path else ""
        if number in self._commits:
            number = self._commits[number]
            where += f"commit {self._graph.ids[number].hex()}, "
        return where + self._owners[self._owner[number] - 1] if self._owner[number] else NOBODY
