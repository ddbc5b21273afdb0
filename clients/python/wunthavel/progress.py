"""A progress bar at a terminal, and nothing elsewhere."""
import sys
import time
from types import TracebackType
from typing import Iterable, Iterator, Optional, TextIO, Type, TypeVar

T = TypeVar("T")


class Progress:
    """Shows on standard error how far a long work is, where that is a terminal; `total` may be unknown.

    >>> with Progress("objects", total=3) as bar:
    ...     for _ in range(3):
    ...         bar.step()
    """

    def __init__(self, label: str, total: Optional[int] = None, stream: Optional[TextIO] = None, quiet: bool = False) -> None:
        self.label, self.total, self.count = label, total, 0
        self._stream = stream or sys.stderr
        self._shown = not quiet and self._stream.isatty()
        self._begun = self._next = time.monotonic()
        self._drawn = False

    def step(self, count: int = 1) -> None:
        """Says that so many more are done. It draws ten times a second at most, and nothing of what takes less than half a second."""
        self.count += count
        if self._shown:
            now = time.monotonic()
            if now >= self._next and now - self._begun > 0.5:
                self._next = now + 0.1
                self._draw(now)

    def show(self, label: str, count: int, total: int) -> None:
        """Says how far a part of the work is, of which somebody else keeps count."""
        self.label, self.count, self.total = label, count, total
        self.step(0)

    def each(self, items: Iterable[T]) -> Iterator[T]:
        """Gives the items, with a step after each."""
        for it in items:
            yield it
            self.step()

    def _draw(self, now: float) -> None:
        # Nothing is counted of what another program does without a word.
        done = f" {self.count:,}" if self.count else ""
        if self.total:
            part = min(self.count / self.total, 1.0)
            done = f" [{'#' * int(part * 30):30}] {part:4.0%} {self.count:,} of {self.total:,}"
        self._stream.write(f"\r{self.label}{done}, {now - self._begun:.0f} s\x1b[K")
        self._stream.flush()
        self._drawn = True

    def close(self) -> None:
        """Removes the bar."""
        if self._drawn:
            self._stream.write("\r\x1b[K")
            self._stream.flush()
            self._drawn = False

    def __enter__(self) -> "Progress":
        return self

    def __exit__(self, kind: Optional[Type[BaseException]], error: Optional[BaseException], trace: Optional[TracebackType]) -> None:
        self.close()
