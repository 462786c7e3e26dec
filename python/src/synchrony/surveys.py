"""Many traces, one table: the bounds of each, computed by the proved library on as many workers as there are.

    table = survey(Path("runs").glob("*.trace"), correct="all", at=500, group="parent")
    print(table.csv())
    for it in table.groups():
        print(it.group, it.bound, it.median, it.greatest)

The work is given to an Executor of concurrent.futures: processes of this machine as a rule, or a cluster, as
dask.distributed.Client(..).get_executor() and mpi4py.futures give one. No work is distributed by any other means.
"""

from __future__ import annotations

import csv
import io
import math
import os
import re
import statistics
import sys
from concurrent.futures import Executor
from dataclasses import dataclass, field
from functools import partial
from itertools import chain
from pathlib import Path, PurePath
from typing import TYPE_CHECKING, Any, Callable, Dict, Iterable, Iterator, List, NamedTuple, Optional, Sequence, Tuple, Union

from . import library
from .work import Work

if TYPE_CHECKING:
    import pandas

# A batch is full with so many traces, or with so many bytes of them if bytes are sent.
BATCH_TRACES = 100
BATCH_BYTES = 4 << 20
# A worker looks at reports once it has so many bytes of them.
REPORT_BYTES = 1 << 20

# A trace to survey: a path, or its text, which may have a name before it.
Source = Union[library.Text, Tuple[str, library.Text]]
Group = Union[None, str, Callable[[str], str]]
# From which ticks on bounds are asked for: one, several, tick 1, or the number that a trace's name has at the N.
At = Union[int, Iterable[int], str, None]
# A trace before it is sent: its place in the input, its name, and its text or a path.
Piece = Tuple[int, str, Union[bytes, str]]


class Bounds(NamedTuple):
    """The least bounds that hold from a tick on to the end of a trace, in ticks."""

    delta: int
    phi: int


class Surveyed(NamedTuple):
    """What a survey reports of one trace: its steps and ticks, and its bounds from each tick of the survey on, which
    are None if the trace ends before. Of a trace without an answer `error` has the words, and nothing else is said."""

    name: str
    group: str
    steps: Optional[int]
    ticks: Optional[int]
    bounds: Tuple[Optional[Bounds], ...]
    error: Optional[str]


class Spread(NamedTuple):
    """How one bound is spread over the traces of a group. A share of 90 % is the least value that at least 90 % of the traces
    don't exceed; the median is that of statistics, between the two in the middle."""

    group: str
    bound: str
    traces: int
    least: int
    median: float
    ninety: int
    ninety_nine: int
    greatest: int


@dataclass(frozen=True)
class Table:
    """A row for each trace, in the order in which the traces were given."""

    ticks: Tuple[Union[int, str], ...]
    rows: List[Surveyed] = field(default_factory=list, repr=False)

    def columns(self) -> List[str]:
        """The names of the bounds: delta and phi, with their tick if there are several."""
        if len(self.ticks) == 1:
            return ["delta", "phi"]
        return [f"{bound}@{tick}" for tick in self.ticks for bound in ("delta", "phi")]

    def header(self) -> List[str]:
        return ["name", "group", "steps", "ticks", *self.columns(), "error"]

    def values(self) -> Iterator[List[Any]]:
        """The values of each row, in the order of the header."""
        nothing = (None,) * len(self.ticks)
        for name, group, steps, ticks, bounds, error in self.rows:
            yield [name, group, steps, ticks, *_flat(bounds or nothing), error]

    def csv(self) -> str:
        """The table as a CSV with a header."""
        return _csv(chain([self.header()], self.values()))

    def frame(self) -> pandas.DataFrame:
        """The table as a frame of pandas, which has to be installed."""
        import pandas

        frame = pandas.DataFrame(list(self.values()), columns=self.header())
        return frame.astype({it: "Int64" for it in ("steps", "ticks", *self.columns())})

    def groups(self) -> List[Spread]:
        """How each bound is spread over the traces of each group that have it, in the order in which the groups came."""
        found: Dict[Tuple[str, int], List[int]] = {}
        for row in self.rows:
            for at, value in enumerate(_flat(row.bounds)):
                if value is not None:
                    found.setdefault((row.group, at), []).append(value)
        order = {row.group: at for at, row in reversed(list(enumerate(self.rows)))}
        columns = self.columns()
        return [_spread(group, columns[at], sorted(values)) for (group, at), values in sorted(found.items(), key=lambda it: (order[it[0][0]], it[0][1]))]

    def groups_csv(self) -> str:
        """The same as a CSV with a header."""
        return _csv([["group", "bound", "count", "least", "median", "90%", "99%", "greatest"], *([*it[:4], f"{it.median:g}", *it[5:]] for it in self.groups())])

    def errors(self) -> List[Surveyed]:
        """The rows without an answer."""
        return [it for it in self.rows if it.error is not None]


def survey(
    traces: Iterable[Source],
    correct: library.Correct = "all",
    at: At = None,
    group: Group = None,
    executor: Optional[Executor] = None,
    send_paths: Optional[bool] = None,
    workers: Optional[int] = None,
    batch: int = BATCH_TRACES,
    progress: bool = False,
) -> Table:
    """One row for each trace, in their order: its bounds from each tick of `at` on, which is one tick, several, or left out
    for tick 1. With "gst=N", or any other text that ends in N, it is the number that a trace's name has there: 500 of
    "runs/gst=500/7.trace".

    `traces` are paths, texts, or pairs of a name and a text; a str is a text. They are read lazily: no more of them are
    held than the workers have before them. `group` names the group of a trace: None for one group, "parent" for the folder
    of a path, or a function of the trace's name.

    `executor` is any Executor of concurrent.futures, which stays open; else so many processes as `workers` says, or as
    there are processors, work on it. (If this process has threads, the others import the module that calls this, so a
    script needs its `if __name__ == "__main__":`.) To them paths are sent, and to any other executor bytes;
    `send_paths` says otherwise, for workers that share a file system.

    A trace that is refused or can't be read, or whose name has no such number, has a row with its error. If a worker
    dies, each trace of its batch is tried once more, alone; a trace whose worker dies again has an error. If a given
    executor doesn't work any more, all that it hasn't answered has an error.

    TypeError is raised for a single trace that isn't in an iterable, ValueError for a str that is most likely a path.
    """
    if isinstance(traces, (str, bytes, bytearray, memoryview, os.PathLike)):
        raise TypeError(f"survey takes traces in an iterable, as a list of paths, not a single {type(traces).__name__}")
    ticks = _ticks_of(at)
    _, listed = library._set_of(correct)
    job = _Job("all" if listed == "all" else [int(it) for it in listed.split(",") if it != "none"], ticks, at if isinstance(at, str) else None)
    work: Work[Piece, Answer] = Work(
        partial(_answers, job),
        lambda piece: (piece[2], job.ticks_in(piece[1])),
        lambda piece, why: _refused(why),
        executor,
        workers,
    )
    with_paths = executor is None if send_paths is None else send_paths
    rows: List[Optional[Surveyed]] = []
    told = _Progress(progress)
    try:
        for pieces, found in work.answers(_batches(_pieces(traces, with_paths), batch)):
            rows += [None] * (pieces[-1][0] + 1 - len(rows))
            for (place, name, _), answer in zip(pieces, found):
                if rows[place] is not None:
                    raise AssertionError(f"trace {place + 1} is answered twice")
                steps, last, bounds, error = answer
                rows[place] = Surveyed(name, _group_of(group, name), steps, last, tuple([it and Bounds._make(it) for it in bounds]), error)
            told.tell(len(pieces))
    finally:
        work.close()
        told.close()
    found_rows = [it for it in rows if it is not None]
    if len(found_rows) != len(rows):
        raise AssertionError("a trace has no answer")
    return Table((at,), found_rows) if isinstance(at, str) else Table(ticks, found_rows)


def _ticks_of(at: At) -> Tuple[int, ...]:
    """The ticks that are the same for all traces."""
    if isinstance(at, str):
        if not at.endswith("N") or at == "N":
            raise ValueError(f'a tick of a name is asked for by a text that ends in N, as "gst=N", not {at!r}')
        return ()
    ticks = (1,) if at is None else (at,) if isinstance(at, int) else tuple(at)
    if not all(it >= 1 for it in ticks):
        raise ValueError("a tick is at least 1")
    return ticks


# What a worker answers of a trace: the last four fields of a row, with plain pairs for bounds, which are sent faster.
Pair = Tuple[int, int]
Answer = Tuple[Optional[int], Optional[int], Tuple[Optional[Pair], ...], Optional[str]]


class _Job(NamedTuple):
    """What is asked of each trace."""

    correct: Union[str, List[int]]
    ticks: Tuple[int, ...]
    named: Optional[str]

    def ticks_in(self, name: str) -> Tuple[int, ...]:
        """The ticks for a trace of this name; none if it should have one and has not."""
        if self.named is None:
            return self.ticks
        found = re.search(rf"(?<![0-9A-Za-z]){re.escape(self.named[:-1])}([0-9]+)", name)
        return (int(found[1]),) if found and int(found[1]) >= 1 else ()


# A report that a worker hasn't looked at yet, the steps and ticks of its trace, and the ticks that are asked for. Without a
# report: its refusal.
_Reported = Tuple[bytes, Optional[Tuple[int, int]], Tuple[int, ...], Optional[str]]


def _answers(job: _Job, texts: Sequence[Tuple[Union[bytes, str], Tuple[int, ...]]]) -> List[Answer]:
    """What a worker does with a batch. It calls the library for many traces before it looks at their reports: calls in a row
    are faster, since each finds its code and memory in the caches of the processor."""
    reports = library._reports(job.correct)
    answers: List[Answer] = []
    kept: List[_Reported] = []
    size = 0
    for text, ticks in texts:
        it = _reported(job, reports, text, ticks)
        kept.append(it)
        size += len(it[0])
        if size >= REPORT_BYTES:
            answers += [_answer(*it) for it in kept]
            kept, size = [], 0
    return answers + [_answer(*it) for it in kept]


def _reported(job: _Job, reports: Callable[[bytes], bytes], text: Union[bytes, str], ticks: Tuple[int, ...]) -> _Reported:
    """The report of a text, or of the file of a path."""
    if job.named is not None and not ticks:
        return b"", None, (), f"no {job.named} in its name"
    try:
        if isinstance(text, str):
            text = _file(text)
        return reports(text), _length(text), ticks, None
    except library.SynchronyError as why:
        error = _line_of(why)
    except MemoryError:
        error = "out of memory"
    except OSError as why:
        error = f"cannot read: {why.strerror or why}"
    return b"", None, (), error


def _line_of(why: library.SynchronyError) -> str:
    """The words of a refusal in one line."""
    return str(why).replace("\n", "; ")


def _answer(report: bytes, length: Optional[Tuple[int, int]], ticks: Tuple[int, ...], error: Optional[str]) -> Answer:
    """The answer for a trace, by its report."""
    if length is None:
        return None, None, (), error
    steps, last = length
    return steps, last, tuple([_bounds_at(report, it) if it <= last else None for it in ticks]), None


def _file(path: str) -> bytes:
    """The bytes of a file, which is read at once if its size is known. (A file object makes twice as many calls.)"""
    file = os.open(path, os.O_RDONLY)
    try:
        size = os.fstat(file).st_size
        parts = [os.read(file, size + 1)]
        while parts[-1] and not len(parts[0]) == size > 0:
            parts.append(os.read(file, 1 << 20))
    finally:
        os.close(file)
    return parts[0] if len(parts) == 1 else b"".join(parts)


def _length(trace: bytes) -> Tuple[int, int]:
    """The numbers of steps and of ticks of a trace text that was accepted: by its last two records."""
    # (as a trace is usually written: two lines, whose numbers aren't quoted)
    at = trace.rfind(b"\n", 0, -1)
    no, comma, rest = trace[trace.rfind(b"\n", 0, at) + 1 : at].partition(b",")
    last = trace[at + 5 : -1]
    if no.isdigit() and comma and last.isdigit() and trace[at + 1 : at + 5] == b"end," and trace[-1:] == b"\n" and b"\r" not in rest:
        return int(no), int(last)
    at, end = _last_record(trace, len(trace))
    _, before = _last_record(trace, at)
    return (0 if before[0] == b"init" else int(before[0])), int(end[1])


def _last_record(text: bytes, end: int) -> Tuple[int, List[bytes]]:
    """Where the last record before this end begins, and its fields, which may be quoted. Blank lines are none."""
    tail = b""
    # (a slice is a copy, so only the last bytes are looked at)
    while not tail:
        part = text[max(0, end - 4096) : end]
        tail = part.rstrip(b"\r\n")
        end -= len(part) - len(tail)
    line = text.rfind(b"\n", 0, end) + 1
    at = max(line, text.rfind(b"\r", line, end) + 1)
    return at, [it.strip(b'"') for it in text[at:end].split(b",")]


def _bounds_at(report: bytes, tick: int) -> Pair:
    """The bounds of the row that applies to a tick: the last one that begins no later. Rows begin with rising ticks, so each
    look halves what is left."""
    rows = report.split(b"\n")
    low, high = 1, len(rows) - 1
    while high - low > 1:
        middle = (low + high) // 2
        row = rows[middle]
        if int(row[: row.index(b",")]) <= tick:
            low = middle
        else:
            high = middle
    _, delta, phi, _ = rows[low].split(b",", 3)
    return int(delta), int(phi)


def _pieces(traces: Iterable[Source], with_paths: bool) -> Iterator[Tuple[Piece, Optional[str]]]:
    """What is sent of each trace, and the error of a file that can't be read here."""
    for place, it in enumerate(traces):
        name = None
        if isinstance(it, tuple):
            name, it = it
        if isinstance(it, os.PathLike):
            path = os.fspath(it)
            name = path if name is None else name
            if with_paths:
                yield (place, name, os.path.join(os.getcwd(), path) if path[:1] != os.sep else path), None
                continue
            try:
                yield (place, name, Path(path).read_bytes()), None
            except OSError as why:
                yield (place, name, b""), f"cannot read: {why.strerror or why}"
        else:
            yield (place, str(place + 1) if name is None else name, library._bytes_of(it)), None


# A batch: what is sent, or the one trace that can't be and its answer.
_Batch = Tuple[List[Piece], Optional[List[Answer]]]


def _batches(pieces: Iterable[Tuple[Piece, Optional[str]]], most: int) -> Iterator[_Batch]:
    """The pieces in batches; one that has an error already is a batch of its own."""
    batch: List[Piece] = []
    size = 0
    for piece, error in pieces:
        if error is not None:
            yield [piece], [_refused(error)]
            continue
        batch.append(piece)
        size += len(piece[2])
        if len(batch) >= most or size >= BATCH_BYTES:
            yield batch, None
            batch, size = [], 0
    if batch:
        yield batch, None


def _refused(error: str) -> Answer:
    return None, None, (), error


def _group_of(group: Group, name: str) -> str:
    if group is None:
        return ""
    if group == "parent":
        return PurePath(name).parent.name
    if callable(group):
        return str(group(name))
    raise ValueError(f'a group is "parent" or a function of the name, not {group!r}')


def _flat(bounds: Iterable[Optional[Bounds]]) -> Iterator[Optional[int]]:
    return chain.from_iterable((None, None) if it is None else it for it in bounds)


def _spread(group: str, bound: str, values: List[int]) -> Spread:
    """How these values are spread, which rise."""
    ninety, ninety_nine = (values[math.ceil(share * len(values) / 100) - 1] for share in (90, 99))
    return Spread(group, bound, len(values), values[0], statistics.median(values), ninety, ninety_nine, values[-1])


def _csv(rows: Iterable[Iterable[Any]]) -> str:
    text = io.StringIO()
    csv.writer(text, lineterminator="\n").writerows(rows)
    return text.getvalue()


class _Progress:
    """A line on standard error that says how many traces are done; tqdm draws it if it is installed."""

    def __init__(self, is_on: bool) -> None:
        self.done, self.is_on, self.bar = 0, is_on, None
        if is_on:
            try:
                import tqdm

                self.bar = tqdm.tqdm(unit=" traces", file=sys.stderr)
            except ImportError:
                pass

    def tell(self, count: int) -> None:
        self.done += count
        if self.bar is not None:
            self.bar.update(count)
        elif self.is_on:
            print(f"\r{self.done} traces", end="", file=sys.stderr, flush=True)

    def close(self) -> None:
        if self.bar is not None:
            self.bar.close()
        elif self.is_on:
            print(file=sys.stderr)
