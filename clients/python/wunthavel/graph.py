"""Where the graph of commits is drawn."""
import contextlib
from typing import List, Optional, Sequence, Tuple

from .protocol import Commit


def lay_out(commits: Sequence[Commit], head: Optional[str] = None) -> Tuple[List[int], List[List[int]]]:
    """Returns the column of each row, and the edges: of each its child's row and column, its parent's row and column.

    A column waits for one parent at a time, and children of the same parent share it: an edge goes over to its parent's column right below the
    child, and then straight down. A parent that isn't shown is in a row after the last one. The first column is kept for the commit that HEAD is at.
    """
    rows = {it.id: row for row, it in enumerate(commits)}
    waiting: List[Optional[str]] = [head] if head in rows else []
    columns: List[int] = []
    edges: List[List[int]] = []
    for row, commit in enumerate(commits):
        column = _column(waiting, commit.id)
        columns.append(column)
        waiting[column] = None
        for it in commit.parents:
            if it not in waiting and waiting[column] is None:
                waiting[column] = it
            to = _column(waiting, it)
            waiting[to] = it
            edges.append([row, column, rows.get(it, len(commits)), to])
        while waiting and waiting[-1] is None:
            waiting.pop()
    return columns, edges


def _column(waiting: List[Optional[str]], id: str) -> int:
    """Returns the column that waits for this commit, else the first free one."""
    for wanted in (id, None):
        with contextlib.suppress(ValueError):
            return waiting.index(wanted)
    waiting.append(None)
    return len(waiting) - 1
