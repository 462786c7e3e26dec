"""python -m synchrony: surveys of many traces, and claims judged by many runs."""

from __future__ import annotations

import argparse
import errno
import os
import sys
from concurrent.futures import Executor
from typing import Any, Iterator, List, NamedTuple, Optional

import synchrony
from synchrony.claims import judge_runs, runs_in
from synchrony.surveys import BATCH_TRACES, Table, survey

# The statuses of the program if its output can't be written, and if nobody reads it any more.
CANNOT_WRITE, BROKEN_PIPE = 6, 141


class _Answer(NamedTuple):
    """What a command prints, the lines that it has for standard error, and its status."""

    text: str
    said: List[str]
    status: int


def _parser() -> argparse.ArgumentParser:
    top = argparse.ArgumentParser(prog="python -m synchrony", description="How synchronous recorded runs were.")
    top.add_argument("--version", action="version", version=f"synchrony {synchrony.__version__}")
    commands = top.add_subparsers(dest="command", required=True)
    it = commands.add_parser(
        "survey",
        help="the bounds of many traces, as a CSV",
        description="Prints a CSV with a row for each trace: its steps and ticks, and the least bounds that hold from a tick on.",
        epilog="The status is 0 if each trace has its bounds, 1 if some trace has an error in its row, 2 if the command line is refused, and 6 if standard output can't be written.",
    )
    it.set_defaults(parser=it, answer=_surveyed)
    it.add_argument("traces", nargs="+", metavar="TRACE", help="the file of a trace; - reads names of files from standard input, one a line")
    it.add_argument("--correct", default="all", metavar="LIST", help="the correct processors, as 1,2,5, or all (usual)")
    it.add_argument("--at", default="1", metavar="TICKS", help="the ticks from which the bounds are to hold, as 500 or 1,500, or the one that each name has, as gst=N (usual: 1)")
    it.add_argument("--group-by", choices=["parent"], help="the group of a trace is the folder that it is in")
    it.add_argument("--groups", action="store_true", help="prints how the bounds are spread in each group, in place of the traces")
    it.add_argument("--workers", type=_whole, metavar="W", help="how many processes work on it (usual: one for each processor)")
    it.add_argument("--batch", type=_whole, default=BATCH_TRACES, metavar="N", help=f"how many traces a worker is given at a time (usual: {BATCH_TRACES})")
    it.add_argument("--dask", metavar="ADDRESS", help="the address of a Dask scheduler, whose workers do it")
    it.add_argument("--paths", action="store_true", help="with --dask: sends paths, since the workers read the same files")
    it.add_argument("--plot", metavar="FILE", help="draws how the bounds are distributed into this file, as .svg or .png (needs matplotlib)")
    it.add_argument("--progress", action="store_true", help="says on standard error how many traces are done")
    it = commands.add_parser(
        "judge",
        help="whether many runs decided in time, a line each",
        description="Prints the verdict on each run of a list, and last how many runs keep the claim, with the least margin.",
        epilog="The status is 0 if each run keeps the claim, 1 if some run doesn't, 2 if the command line or the list is refused, 3 if some run can't be judged, and 6 if standard output can't be written.",
    )
    it.set_defaults(parser=it, answer=_judged)
    it.add_argument("list", metavar="LIST", help="a CSV with the columns trace and decisions, which have paths, and perhaps correct and start; empty decisions are those of the replay")
    it.add_argument("--within", required=True, metavar="FORMULA", help="how many ticks the processors have, as 3*phi*n + delta")
    it.add_argument("--valid", action="store_true", help="asks that each decision is an initial value, too")
    it.add_argument("--whole", action="store_true", help="judges by the bounds of the whole run alone, not in time")
    it.add_argument("--due", type=_whole_or_0, metavar="K", help="asks that so many rows are due in each run")
    it.add_argument("--factor", action="store_true", help="prints the least factor of FORMULA for each run, and last the greatest of them")
    it.add_argument("--workers", type=_whole, metavar="W", help="how many processes work on it (usual: one for each processor)")
    return top


def _whole(word: str, least: int = 1) -> int:
    if not (word.isascii() and word.isdigit()) or int(word) < least:
        raise argparse.ArgumentTypeError(f"a whole number from {least} on")
    return int(word)


def _whole_or_0(word: str) -> int:
    return _whole(word, 0)


def _numbers(words: argparse.Namespace, option: str, other: str) -> List[int]:
    """The numbers that an option lists, which also takes another word."""
    parser: argparse.ArgumentParser = words.parser
    word: str = getattr(words, option)
    try:
        return [_whole(it) for it in word.split(",")]
    except argparse.ArgumentTypeError:
        parser.error(f"--{option} takes {other}, or numbers from 1 on with one comma between them, not {word!r}")


class _File(os.PathLike[str]):
    """A file by its unchanged name. (A Path, which has much more to do, takes four times as long.)"""

    def __init__(self, name: str) -> None:
        self.name = name

    def __fspath__(self) -> str:
        return self.name


def _paths(words: List[str]) -> Iterator[_File]:
    """The files that the words name, read as they are needed."""
    for it in words:
        if it == "-":
            yield from (_File(line.rstrip("\n")) for line in sys.stdin if line.strip())
        else:
            yield _File(it)


def _surveyed(words: argparse.Namespace) -> _Answer:
    table = _table(words)
    if words.plot:
        from synchrony.plots import plot_survey

        plot_survey(table).savefig(words.plot)
    errors = table.errors()
    said = [f"{it.name}: {it.error}" for it in errors[:10]] if words.groups else []
    return _Answer(table.groups_csv() if words.groups else table.csv(), said, 1 if errors else 0)


def _table(words: argparse.Namespace) -> Table:
    parser: argparse.ArgumentParser = words.parser
    correct: Any = "all" if words.correct == "all" else _numbers(words, "correct", "all")
    at = words.at if words.at.endswith("N") else _numbers(words, "at", "a text that ends in N, as gst=N")
    given = {"at": at, "group": words.group_by, "workers": words.workers, "batch": words.batch, "progress": words.progress}
    if words.dask is None:
        return survey(_paths(words.traces), correct, **given)
    try:
        from distributed import Client
    except ImportError:
        parser.error("--dask needs the package distributed (pip install distributed, or python3-distributed of Debian)")
    connect: Any = Client
    with connect(words.dask) as client:
        executor: Executor = client.get_executor()
        return survey(_paths(words.traces), correct, executor=executor, send_paths=words.paths, **given)


def _judged(words: argparse.Namespace) -> _Answer:
    verdicts = judge_runs(runs_in(words.list), words.within, words.valid, words.whole, words.due, workers=words.workers, factor=words.factor)
    return _Answer(verdicts.text(), [], 0 if verdicts else 3 if any(it.error for it in verdicts.rows) else 1)


def _print(text: str) -> None:
    """Writes a text to standard output. OSError is raised if not all of it can be written."""
    if sys.stdout is None:
        raise OSError(errno.EBADF, os.strerror(errno.EBADF))
    try:
        sys.stdout.write(text)
        sys.stdout.flush()
    except OSError:
        # (Python tries to write what is left at its end, too)
        os.dup2(os.open(os.devnull, os.O_WRONLY), sys.stdout.fileno())
        raise


def main(words: Optional[List[str]] = None) -> int:
    read = _parser().parse_args(words)
    try:
        answer: _Answer = read.answer(read)
    except (ImportError, ValueError, OSError) as why:
        print(f"synchrony: {why}", file=sys.stderr)
        return 2
    try:
        _print(answer.text)
    except BrokenPipeError:
        return BROKEN_PIPE
    except OSError as why:
        print(f"synchrony: cannot write: {why.strerror or why}", file=sys.stderr)
        return CANNOT_WRITE
    for it in answer.said:
        print(f"synchrony: {it}", file=sys.stderr)
    return answer.status


if __name__ == "__main__":
    sys.exit(main())
