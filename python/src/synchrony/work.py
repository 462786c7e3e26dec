"""Batches of work before an Executor of concurrent.futures, whose workers may die.

    with Work(squares, lambda it: it, lambda it, why: None, None, 4) as work:
        for items, answers in work.answers([([1, 2], None), ([3], None)]):
            ..

Each item is answered once, whoever dies. If a worker does, each item of its batch is tried once more, alone.
"""

from __future__ import annotations

import multiprocessing
import os
import sys
from collections import deque
from concurrent.futures import BrokenExecutor, Executor, Future, ProcessPoolExecutor
from typing import Any, Callable, Deque, Generic, Iterable, Iterator, List, Optional, Tuple, TypeVar, Union

Item = TypeVar("Item")
Answer = TypeVar("Answer")

# So many batches are before an executor that was given. (How many workers it has isn't known.)
MOST_BATCHES = 64


class Work(Generic[Item, Answer]):
    """Batches before an executor, some of them at a time. What a worker does with a batch is `answer`; of each item it gets
    what `sent` gives. An item whose worker dies twice, or that the executor doesn't take, has the answer that `lost` makes
    of the words why."""

    def __init__(
        self,
        answer: Callable[[List[Any]], List[Answer]],
        sent: Callable[[Item], Any],
        lost: Callable[[Item, str], Answer],
        given: Optional[Executor],
        workers: Optional[int],
    ) -> None:
        self.answer, self.sent, self.lost, self.given = answer, sent, lost, given
        self.workers = _processors() if workers is None else max(1, workers)
        self.own: Optional[Executor] = None
        self.most = 4 * self.workers if given is None else MOST_BATCHES

    def __enter__(self) -> Work[Item, Answer]:
        return self

    def __exit__(self, *_: object) -> None:
        self.close()

    def close(self) -> None:
        """Ends the processes, if any were started. An executor that was given stays open."""
        if self.own is not None:
            self.own.shutdown(cancel_futures=True)
            self.own = None

    def answers(self, batches: Iterable[Tuple[List[Item], Optional[List[Answer]]]]) -> Iterator[Tuple[List[Item], List[Answer]]]:
        """Each batch with its answers, in no order but nearly theirs. One that comes with answers keeps them."""
        before: Deque[Tuple[List[Item], Optional[Future[List[Answer]]]]] = deque()
        for items, known in batches:
            if known is not None:
                yield items, known
                continue
            before.append((items, self._submit(items)))
            if len(before) >= self.most:
                yield from self._answered(before)
        while before:
            yield from self._answered(before)

    def _executor(self) -> Executor:
        """The executor that was given, or processes that are started if there are none."""
        if self.given is not None:
            return self.given
        if self.own is None:
            self.own = ProcessPoolExecutor(self.workers, mp_context=multiprocessing.get_context(_start_method()))
        return self.own

    def _renew(self) -> None:
        """New processes in place of broken ones. RuntimeError is raised if these don't even start."""
        self.close()
        try:
            self._executor().submit(int).result()
        except (BrokenExecutor, RuntimeError):
            raise RuntimeError("the processes don't start: is the call below `if __name__ == \"__main__\":`?") from None

    def _submit(self, items: List[Item]) -> Optional[Future[List[Answer]]]:
        """The batch before the executor, or None if that takes nothing any more."""
        try:
            return self._executor().submit(self.answer, [self.sent(it) for it in items])
        except (BrokenExecutor, RuntimeError):
            return None

    def _answered(self, before: Deque[Tuple[List[Item], Optional[Future[List[Answer]]]]]) -> Iterator[Tuple[List[Item], List[Answer]]]:
        """The first batch with its answers. If a worker died, all that was before the executor is looked after."""
        items, future = before.popleft()
        found = _result(future)
        if isinstance(found, list):
            yield items, found
            return
        lost = [items]
        if self.given is None:
            # One dead process ends all work of its pool: of the other batches those that aren't answered are lost too.
            others = list(before)
            before.clear()
            for items, future in others:
                done = _result(future)
                if isinstance(done, list):
                    yield items, done
                else:
                    lost.append(items)
            self._renew()
        for items in lost:
            yield items, [self._again(it) for it in items]

    def _again(self, item: Item) -> Answer:
        """The answer for an item that is tried once more, alone."""
        found = _result(self._submit([item]))
        if isinstance(found, list):
            return found[0]
        if self.given is None:
            self._renew()
        return self.lost(item, f"no answer: {found}")


def _result(future: Optional[Future[List[Answer]]]) -> Union[List[Answer], str]:
    """The answers of a batch, or why there are none."""
    if future is None:
        return "the executor takes no work any more"
    try:
        return future.result()
    except ImportError:
        # (no worker has the library, and none will)
        raise
    except BrokenExecutor:
        return "its worker died"
    except Exception as why:
        return f"{type(why).__name__}: {why}".partition("\n")[0]


def _start_method() -> str:
    """How processes are started. The library may not be called in the forked child of a process with threads: so they are
    forked, which is fastest, only if this process has no other thread. (Since Python 3.11 a pool forks all its processes
    before it starts a thread of its own.)"""
    try:
        is_alone = len(os.listdir("/proc/self/task")) == 1 and sys.version_info >= (3, 11)
    except OSError:
        is_alone = False
    return "fork" if is_alone else "forkserver" if "forkserver" in multiprocessing.get_all_start_methods() else "spawn"


def _processors() -> int:
    """How many processors there are for this process."""
    return len(os.sched_getaffinity(0)) if hasattr(os, "sched_getaffinity") else os.cpu_count() or 1
