"""One claim, many runs: which of them keep it, and how nearly.

    verdicts = judge_runs(runs_in("runs.csv"), "3*phi*n + delta")
    print(verdicts.text(), end="")

Each verdict is that of `library.judge`, so of the proved program. The work is given to an Executor of concurrent.futures, as
that of a survey is.
"""

from __future__ import annotations

import csv
import math
import os
from concurrent.futures import Executor
from dataclasses import dataclass, field
from functools import partial
from pathlib import Path
from typing import TYPE_CHECKING, Dict, Iterable, Iterator, List, NamedTuple, Optional, Tuple, Union

from . import library
from .surveys import _line_of
from .work import Work

if TYPE_CHECKING:
    # A text, or the path of its file.
    Input = Union[bytes, os.PathLike[str]]

# So many runs are given to a worker at a time.
BATCH_RUNS = 50
# A trace and decisions of which only the formula can be refused.
NO_TRACE, NO_DECISIONS = b"dls-trace,1,2,0\ninit,0,0\nend,0\n", b"proc,tick,value\n"


class Case(NamedTuple):
    """A run to judge: its name, its trace and its decisions, the correct processors, and the tick in which it started. If
    `decisions` is None, they are those that `library.replay` finds in the trace."""

    name: str
    trace: Input
    decisions: Optional[Input] = None
    correct: library.Correct = "all"
    start: Optional[int] = None


# A run to judge, and its place among all.
_Placed = Tuple[int, Case]


class Judged(NamedTuple):
    """The verdict on a run, or the words that say why there is none."""

    name: str
    verdict: Optional[library.Judgement]
    error: Optional[str]


@dataclass(frozen=True)
class Verdicts:
    """The verdicts on runs, in the order of the runs."""

    rows: List[Judged] = field(repr=False)

    def __bool__(self) -> bool:
        """Whether all runs were judged, and keep the claim."""
        return all(it.verdict for it in self.rows)

    def text(self) -> str:
        """A line for each run, with the factor if it was asked for, and then the summary."""
        return "".join(f"{it.name}: {it.error if it.verdict is None else _told(it.verdict)}\n" for it in self.rows) + f"{self.summary()}\n"

    def summary(self) -> str:
        """How many runs keep the claim and how many don't, in how many no deadline was due, the least margin with its run, and the
        greatest factor with its run, if factors were asked for."""
        kept: List[Tuple[int, str]] = []
        no = untested = 0
        for it in self.rows:
            words = [] if it.verdict is None else it.verdict.line.split()
            if words[:1] == ["no"]:
                no += 1
            elif words[1:2] == ["0"]:
                untested += 1
            elif words:
                kept.append((int(words[-1]), it.name))
        unknown = len(self.rows) - len(kept) - no - untested
        runs = "1 run" if len(self.rows) == 1 else f"{len(self.rows)} runs"
        least = "; least margin {} ({})".format(*min(kept, key=lambda it: it[0])) if kept else ""
        factors = [(it.verdict.factor, it.name) for it in self.rows if it.verdict is not None and it.verdict.factor is not None]
        most = "; greatest factor {} ({})".format(*_greatest(factors)) if factors else ""
        return f"{runs}: {len(kept)} yes, {no} no, {untested} untested, {unknown} not judged{least}{most}"


def _told(verdict: library.Judgement) -> str:
    """The verdict line, and the factor if it was asked for."""
    return verdict.line if verdict.factor is None else f"{verdict.line} factor {_factor_word(verdict.factor)}"


def _factor_word(factor: float) -> str:
    return "none" if factor == math.inf else str(factor)


def _greatest(factors: List[Tuple[float, str]]) -> Tuple[str, str]:
    """The greatest of the factors, and the first run that has it."""
    factor, name = max(factors, key=lambda it: it[0])
    return _factor_word(factor), name


class _Claim(NamedTuple):
    """What is asked of each run."""

    within: str
    valid: bool
    whole: bool
    due: Optional[int]
    factor: bool
    rows: bool

    def of(self, trace: bytes, decisions: Optional[bytes], correct: library.Correct, start: Optional[int]) -> library.Judgement:
        """The verdict on a run by its decisions, or by those of its replay if it has none."""
        return library.judge(
            trace,
            decisions,
            correct=correct,
            within=self.within,
            start=start,
            valid=self.valid,
            whole=self.whole,
            due=self.due,
            factor=self.factor,
            rows=self.rows,
            replay=decisions is None,
        )


def judge_runs(
    runs: Iterable[Case],
    within: str,
    valid: bool = False,
    whole: bool = False,
    due: Optional[int] = None,
    executor: Optional[Executor] = None,
    workers: Optional[int] = None,
    factor: bool = False,
    rows: bool = False,
) -> Verdicts:
    """The verdicts on runs: whether all correct processors decided within a formula of the bounds, in each of them.

    `within`, `valid`, `whole`, `due`, `factor` and `rows` are those of `library.judge`. `executor` stays open; else so
    many processes as `workers` says, or as there are processors, work on it. A run that is refused or can't be read has
    its words in place of a verdict. If a worker dies, each run of its batch is tried once more, alone. If a given executor
    doesn't work any more, all that it hasn't answered has words that say so.

    SynchronyError is raised if the formula is none, ValueError if there are no runs; nothing is judged then.
    """
    claim = _Claim(within, valid, whole, due, factor, rows)
    claim.of(NO_TRACE, NO_DECISIONS, "all", None)
    cases = list(runs)
    if not cases:
        raise ValueError("no runs")
    work: Work[_Placed, Judged] = Work(partial(_judged, claim), lambda it: it[1], lambda it, why: Judged(it[1].name, None, why), executor, workers)
    placed = list(enumerate(cases))
    found: Dict[int, Judged] = {}
    with work:
        for batch, answers in work.answers((placed[at : at + BATCH_RUNS], None) for at in range(0, len(placed), BATCH_RUNS)):
            found.update(zip((place for place, _ in batch), answers))
    return Verdicts([found[place] for place, _ in placed])


def runs_in(path: Union[str, os.PathLike[str]]) -> Iterator[Case]:
    """The runs that a CSV lists: the columns are `trace` and `decisions`, with paths, and perhaps `correct` and `start`. If
    the field `decisions` is empty, they are those of the replay.

    ValueError is raised for a column that lacks, for a line with more or fewer fields than the header, for a field that is
    none, and last for a list without runs.
    """
    with open(path, newline="") as file:
        records = csv.reader(file)
        header = next(records, [])
        for name in ("trace", "decisions"):
            if name not in header:
                raise ValueError(f"{path}: no column {name}")
        is_empty = True
        # (a blank line is no record)
        for record in filter(None, records):
            yield _case(header, record, f"{path}: line {records.line_num}")
            is_empty = False
    if is_empty:
        raise ValueError(f"{path}: no runs")


def _case(header: List[str], record: List[str], line: str) -> Case:
    """The run of a record. ValueError, which begins with its line, is raised if it is none."""
    if len(record) != len(header):
        count = "1 field" if len(record) == 1 else f"{len(record)} fields"
        hint = ': quote a list, as "1,2"' if len(record) > len(header) else ""
        raise ValueError(f"{line} has {count}, the header {len(header)}{hint}")
    fields = dict(zip(header, record))
    trace, decisions = fields["trace"], fields["decisions"]
    if not trace:
        raise ValueError(f"{line}: trace is empty, and has to be a path")
    return Case(trace, Path(trace), Path(decisions) if decisions else None, _correct(fields, line), _start(fields, line))


def _correct(fields: Dict[str, str], line: str) -> library.Correct:
    word = fields.get("correct") or "all"
    if word in ("all", "none"):
        return "all" if word == "all" else []
    try:
        return [int(it) for it in word.split(",")]
    except ValueError:
        raise ValueError(f"{line}: correct is {word!r}, and has to be all, none, or numbers, as 1,2") from None


def _start(fields: Dict[str, str], line: str) -> Optional[int]:
    word = fields.get("start")
    try:
        return int(word) if word else None
    except ValueError:
        raise ValueError(f"{line}: start is {word!r}, and has to be a tick") from None


def _judged(claim: _Claim, cases: List[Case]) -> List[Judged]:
    """What a worker does with a batch."""
    return [_verdict(claim, it) for it in cases]


def _verdict(claim: _Claim, case: Case) -> Judged:
    try:
        decisions = None if case.decisions is None else _bytes(case.decisions)
        verdict = claim.of(_bytes(case.trace), decisions, case.correct, case.start)
    except library.SynchronyError as why:
        return Judged(case.name, None, _line_of(why))
    except MemoryError:
        return Judged(case.name, None, "out of memory")
    except OSError as why:
        return Judged(case.name, None, f"cannot read: {why.filename}: {why.strerror or why}")
    return Judged(case.name, verdict, None)


def _bytes(given: Input) -> bytes:
    return Path(given).read_bytes() if isinstance(given, os.PathLike) else given
