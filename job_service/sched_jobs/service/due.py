"""Which tasks are due, and which is next: a heap of moments. What has changed since is known by the book, and dropped on the way."""

import heapq

from sched_jobs.store.book import Book
from sched_jobs.store.entries import Entry


class Due:
    """The tasks of a book that wait."""

    def __init__(self, book: Book) -> None:
        self.book = book
        self.heap: list[tuple[int, int, str]] = []

    def note(self, entry: Entry) -> None:
        """Takes a job whose task may be due at another moment now."""
        if entry.task is not None and entry.task_due is not None:
            heapq.heappush(self.heap, (entry.task_due, entry.task, entry.name))

    def is_so(self, place: tuple[int, int, str]) -> bool:
        due, task, name = place
        entry = self.book.entries.get(name)
        return entry is not None and entry.task == task and entry.task_due == due

    def next(self) -> int | None:
        """The first moment at which one is due."""
        while self.heap and not self.is_so(self.heap[0]):
            heapq.heappop(self.heap)
        return self.heap[0][0] if self.heap else None

    def count(self, now: int, most: int) -> int:
        """How many are due, counted up to some."""
        found: list[tuple[int, int, str]] = []
        while len(found) < most and (due := self.next()) is not None and due <= now:
            place = heapq.heappop(self.heap)
            if place not in found:
                found.append(place)
        for place in found:
            heapq.heappush(self.heap, place)
        return len(found)
