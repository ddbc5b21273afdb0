"""Objects by numbers, with what each names, in few bytes: a repository may have millions of entries of folders."""
from array import array
from typing import Dict, Iterable, Iterator, List, Sequence, Tuple

BLOB, TREE, COMMIT, TAG = range(4)
KINDS = ("blob", "tree", "commit", "tag")


class Graph:
    """Objects, numbered as they come. Links of folders to files aren't kept, and a link's weight is its name's length."""

    def __init__(self) -> None:
        self.number: Dict[bytes, int] = {}
        self.ids: List[bytes] = []
        self.kinds = bytearray()
        self._begin, self._end = array("I"), array("I")
        self._links, self._weights = array("I"), array("H")

    def add(self, id: bytes, kind: str) -> int:
        """Adds an object without links, and returns its number."""
        self.number[id] = number = len(self.ids)
        self.ids.append(id)
        self.kinds.append(KINDS.index(kind))
        self._begin.append(0)
        self._end.append(0)
        return number

    def link(self, number: int, links: Iterable[int], weights: Iterable[int]) -> None:
        """Says what an object names."""
        self._begin[number] = len(self._links)
        self._links.extend(links)
        self._weights.extend(weights)
        self._end[number] = len(self._links)

    def links(self, number: int) -> Sequence[int]:
        """Returns what an object names."""
        return self._links[self._begin[number] : self._end[number]]

    def weighed(self, number: int) -> Iterator[Tuple[int, int]]:
        """Returns what an object names, with the weights."""
        return zip(self.links(number), self._weights[self._begin[number] : self._end[number]])

    def of_kind(self, kind: int, among: bytearray) -> List[int]:
        """Returns the objects of this kind that are marked."""
        return [it for it, (found, marked) in enumerate(zip(self.kinds, among)) if marked and found == kind]

    def reach(self, tips: Iterable[int], marks: bytearray, stops: bytearray) -> Iterator[int]:
        """Marks and returns what these objects reach, themselves too, and goes no further at what is marked already or at the stops."""
        left = list(tips)
        while left:
            number = left.pop()
            if not marks[number] and not stops[number]:
                marks[number] = 1
                yield number
                left.extend(self.links(number))

    def in_order(self, among: bytearray) -> Iterator[int]:
        """Returns the objects that are marked, each after those of them that it names; files come first."""
        yield from self.of_kind(BLOB, among)
        left = bytearray(among)
        for first in range(len(left)):
            if left[first] and self.kinds[first] != BLOB:
                yield from self._below(first, left)

    def _below(self, first: int, left: bytearray) -> Iterator[int]:
        """Returns what an object reaches of what is left, from below, itself last, and takes it from there."""
        left[first] = 0
        path, places = [first], [self._begin[first]]
        while path:
            if places[-1] == self._end[path[-1]]:
                places.pop()
                yield path.pop()
                continue
            it = self._links[places[-1]]
            places[-1] += 1
            if left[it]:
                left[it] = 0
                path.append(it)
                places.append(self._begin[it])
