"""Calls of the proved library, libsynchrony.so: reports, checks and the other commands from text to text.

    >>> import synchrony as sy
    >>> trace = "dls-trace,1,2,0\\ninit,5,7\\n1,1,S,2\\n2,2,R,\\n3,2,R,1\\nend,3\\n"
    >>> sy.report(trace, correct=[1, 2])[0]
    Row(gst=1, delta=2, phi=3, sent=1, missed=2, proc=1, from_tick=2, to_tick=3)
    >>> bool(sy.check(trace, sy.report_text(trace, [1, 2]), correct=[1, 2]))
    True

A text is bytes, a bytearray, a memoryview or a str; a path object names the file that has it. ValueError is raised for a str
without an end of line, which is most likely a path. The correct processors are numbers, in any iterable, or the word "all":
all processors of the trace. Both are read once, before the library is called.

Nothing here is proved but what is called. Calls of several threads run side by side.
"""

from __future__ import annotations

import ctypes
import math
import operator
import os
import threading
from dataclasses import dataclass, field
from pathlib import Path
from typing import TYPE_CHECKING, Any, Callable, Dict, Iterable, List, NamedTuple, NoReturn, Optional, Tuple, Union

if TYPE_CHECKING:
    import pandas

# The answers of the library that aren't 0, which are also the exit statuses of the program.
NO, BAD_SET, BAD_TRACE, BAD_CERTIFICATE, NO_MEMORY = 1, 2, 3, 4, 5
MOST_PROCESSORS = 64
# The set of all processors of the trace, as the library takes it.
ALL = (1 << MOST_PROCESSORS) - 1
# The room, in bytes, that a verdict line or the words of a refusal need at most.
LINE_ROOM = 1 << 8

Text = Union[bytes, bytearray, memoryview, str, "os.PathLike[str]"]
Correct = Union[Iterable[int], str]

MISSING = (
    "libsynchrony.so isn't there: run ./library at the top of the repository of synchrony, and install the package again; "
    "or let the environment variable SYNCHRONY_LIBRARY name the file"
)


class SynchronyError(ValueError):
    """There is no answer: a text is refused, or the set, or an option. Its words are those of the program, behind
    `synchrony: `; `status` is the exit status that the program has in the same case."""

    def __init__(self, words: str, status: Optional[int] = None) -> None:
        super().__init__(words, status)
        self.words, self.status = words, status

    def __str__(self) -> str:
        return self.words


class SetRefused(SynchronyError):
    """A processor is named as correct that the trace hasn't, or the list is none."""


class TraceRefused(SynchronyError):
    """The text is no trace, for instance since step 3 takes a message that was received before; or it is no log."""


class CertificateRefused(SynchronyError):
    """The certificate has no rows that can be read."""


class Row(NamedTuple):
    """From the tick gst on, delta and phi are the least bounds, up to the next row's gst. The other numbers are witnesses
    against smaller bounds: a message of the step `sent` that wasn't delivered at `missed`, and a processor that takes
    no step from from_tick to to_tick. They are None if there is none."""

    gst: int
    delta: int
    phi: int
    sent: Optional[int]
    missed: Optional[int]
    proc: Optional[int]
    from_tick: Optional[int]
    to_tick: Optional[int]


class Bound(NamedTuple):
    """A least bound of one processor or of one link from a tick on. `bound` is "phi" or "delta". Of "phi" `to` is None, and
    the processor `proc` takes no step from tick `first` to tick `last`. Of "delta" the message of the step `first` from
    `proc` to `to` wasn't delivered at the step `last`. At a value of 1 `first` and `last` are None."""

    bound: str
    proc: int
    to: Optional[int]
    value: int
    first: Optional[int]
    last: Optional[int]


class Timeout(NamedTuple):
    """How long a follower has to wait for its leader's next message, in ticks, from the tick gst on. `timeout` is enough in
    every run that keeps heartbeat, poll and delta, and `quick` in every run that keeps heartbeat and delay. `least` would
    have been enough in this trace. The trace shows `timeout` after `tried` ticks: if that is 0, it says nothing."""

    follower: int
    gst: int
    delta: int
    phi: int
    heartbeat: int
    poll: int
    timeout: int
    delay: int
    quick: int
    least: int
    tried: int


@dataclass(frozen=True)
class Verdict:
    """The verdict of a check on a certificate: it is true if the certificate's rows are the report of the trace. Else
    `reason` is the first reason against them, as 'DeltaFails', and `numbers` are its numbers, as the program prints
    them. `str()` of it is the program's verdict line."""

    reason: Optional[str]
    numbers: Tuple[int, ...]

    def __bool__(self) -> bool:
        return self.reason is None

    def __str__(self) -> str:
        return "yes" if self.reason is None else " ".join(["no", self.reason, *map(str, self.numbers)])


class DeadlineRow(NamedTuple):
    """A row of the report with its deadline, if that is no later than the last tick; the tick by which all had decided, if they
    had; and how many ticks that was before the deadline."""

    gst: int
    delta: int
    phi: int
    deadline: Optional[int]
    decided: Optional[int]
    margin: Optional[int]


@dataclass(frozen=True)
class Judgement:
    """The verdict of `judge` on the decisions of a run: it is true if they keep the claim. `str()` of it is the
    program's verdict line. `factor` is the least factor of the formula with which they would, `math.inf` if none is
    enough, and `rows` has the rows with their deadlines; both are None unless they were asked for."""

    line: str
    factor: Optional[float] = field(default=None, repr=False)
    rows: Optional[List[DeadlineRow]] = field(default=None, repr=False)

    def __bool__(self) -> bool:
        return self.line.split()[0] == "yes"

    def __str__(self) -> str:
        return self.line


def report(trace: Text, correct: Correct) -> List[Row]:
    """The rows of the report of a trace, with these processors as the correct ones."""
    return _rows(report_text(trace, correct))


def report_text(trace: Text, correct: Correct) -> bytes:
    """The same as a CSV with a header, byte for byte what the program prints."""
    text = _bytes_of(trace)
    return _reports(correct)(text)


def _reports(correct: Correct) -> Callable[[bytes], bytes]:
    """What report_text answers for these processors, which are read once for all texts."""
    mask, listed = _set_of(correct)
    if mask == ALL and listed != "all":
        # (the library takes the mask with all 64 bits for all processors of the trace, however many these are)
        return lambda text: _asked("report", text, correct=listed)
    call = _library().synchrony_report

    def report_of(text: bytes) -> bytes:
        answer, out = _with_room(_room_for(text), call, mask, text, len(text))
        if answer == BAD_SET:
            # (a command line is answered in words, which name the processors)
            return _asked("report", text, correct=listed)
        if answer:
            _refuse(answer, out)
        return out

    return report_of


def report_part(trace: Text, correct: Correct, until: Optional[int] = None, at: Optional[int] = None) -> List[Row]:
    """The rows of the report of the trace as if it had ended at the tick `until`; with `at` the one that applies to that tick."""
    return _rows(_asked("report", trace, correct=_set_of(correct)[1], until=until, at=at))


def brief(trace: Text, correct: Correct, until: Optional[int] = None) -> List[Row]:
    """The rows of a report that name other evidence than the row before."""
    return _rows(_asked("brief", trace, correct=_set_of(correct)[1], until=until))


def each(trace: Text, correct: Correct, at: Optional[int] = None, until: Optional[int] = None) -> List[Bound]:
    """The bounds of each processor and of each link from the tick `at` on, of the trace as if it had ended at `until`."""
    lines = _asked("each", trace, correct=_set_of(correct)[1], at=at, until=until).decode().splitlines()[1:]
    return [_bound(*it.split(",")) for it in lines]


def timeouts(
    trace: Text,
    leader: int,
    followers: Optional[Correct] = None,
    every: Optional[int] = None,
    polls: Optional[int] = None,
    until: Optional[int] = None,
    at: Optional[int] = None,
) -> List[Timeout]:
    """How long the followers of a leader have to wait for its next message. Without `followers` they are those to which it
    sends."""
    listed = None if followers is None else _set_of(followers)[1]
    text = _asked("timeouts", trace, leader=leader, followers=listed, every=every, polls=polls, until=until, at=at)
    return [Timeout(*map(int, it.split(","))) for it in text.decode().splitlines()[1:]]


def replay(trace: Text) -> bytes:
    """What each processor decided, as a CSV, if the steps are those of the agreement algorithm."""
    return _asked("replay", trace)


def upgrade(trace: Text) -> bytes:
    """The trace as a text of version 2."""
    return _asked("upgrade", trace)


def draw(
    trace: Text,
    correct: Correct,
    from_tick: Optional[int] = None,
    to_tick: Optional[int] = None,
    names: Optional[Iterable[str]] = None,
    lanes: Optional[Iterable[Union[int, str]]] = None,
    table: Optional[Text] = None,
    unit: Optional[str] = None,
) -> bytes:
    """A picture of the trace and its bounds, as SVG. If no tick is given, it shows the first evidence. `names` are names for the
    processors, in their order. `lanes` are the only processors that are drawn, by their names or numbers. `table` and
    `unit` are those of `page`; `names` go before the names of the table."""
    asked = {"correct": _set_of(correct)[1], "from_tick": from_tick, "to_tick": to_tick, "names": names, "lanes": lanes, "unit": unit}
    if table is None:
        return _asked("draw", trace, **asked)
    return _asked("draw", trace, _bytes_of(table, "a table"), "--table=table", **asked)


def page(
    trace: Text,
    correct: Correct,
    at: Optional[int] = None,
    names: Optional[Iterable[str]] = None,
    table: Optional[Text] = None,
    unit: Optional[str] = None,
) -> bytes:
    """A page about the run, as HTML. The run counts as calm from the tick `at` on; `names` are names for the
    processors. The names of nodes and messages, and the records of the log, come from `table`, the table of the steps.
    With `unit`, one of s, ms, us and ns, its times are of that unit, and ticks are told as time, too."""
    listed = _set_of(correct)[1]
    if table is None:
        return _asked("page", trace, correct=listed, at=at, names=names, unit=unit)
    return _asked("page", trace, _bytes_of(table, "a table"), "--table=table", correct=listed, at=at, names=names, unit=unit)


def import_log(
    log: Text,
    nodes: Optional[Iterable[str]] = None,
    tick: Union[int, str, None] = None,
    until: Union[int, str, None] = None,
    spread: bool = False,
    align: bool = False,
    unit: Optional[str] = None,
    idle: Union[int, str, None] = None,
    table: bool = False,
    drop_lost: bool = False,
    merge: bool = False,
    ticks: bool = False,
) -> bytes:
    """The trace of a log, as a text of version 2; or the `table` of its steps; or, with `ticks`, a table of lengths of a tick
    to choose from. Nodes are numbered in the order of `nodes`, or else as the log names them. With `unit`, one of s, ms, us
    and ns, the times are whole numbers of it. With `idle`, a node without an event for at most so long gets a receive of
    nothing. With `drop_lost`, sends of messages that no record receives are left out. With `merge`, receives of a node in one
    tick are one, if it sends nothing between them."""
    return _asked(
        "import",
        _bytes_of(log, "a log"),
        nodes=nodes,
        unit=unit,
        tick=tick,
        until=until,
        spread=spread,
        align=align,
        idle=idle,
        drop_lost=drop_lost,
        merge=merge,
        table=table,
        ticks=ticks,
    )


def frame(trace: Text, correct: Correct) -> pandas.DataFrame:
    """The rows of a report as a frame of pandas, which has to be installed."""
    import pandas

    return pandas.DataFrame(report(trace, correct), columns=list(Row._fields)).astype("Int64")


def check(trace: Text, certificate: Text, correct: Correct) -> Verdict:
    """Whether the certificate's rows are the report of the trace; if they aren't, the first reason against them."""
    text, rows, (mask, listed) = _bytes_of(trace), _bytes_of(certificate, "a certificate"), _set_of(correct)
    if mask == ALL and listed != "all":
        return _verdict(_asked("check", text, rows, correct=listed))
    answer, out = _with_room(LINE_ROOM, _library().synchrony_check, mask, text, len(text), rows, len(rows))
    if answer == BAD_SET:
        return _verdict(_asked("check", text, rows, correct=listed))
    if answer not in (0, NO):
        _refuse(answer, out)
    return _verdict(out)


def judge(
    trace: Text,
    decisions: Optional[Text] = None,
    correct: Optional[Correct] = None,
    within: Optional[str] = None,
    start: Optional[int] = None,
    valid: bool = False,
    whole: bool = False,
    due: Optional[int] = None,
    factor: bool = False,
    rows: bool = False,
    replay: bool = False,
) -> Judgement:
    """Whether all correct processors decided within a formula of the bounds, by a CSV of their decisions; or with `replay`, in
    place of that CSV, by the decisions that `replay` finds in the trace. `factor` and `rows` ask for these of the judgement,
    too."""
    if correct is None or within is None:
        raise TypeError("judge() takes correct and within")
    given = {"correct": _set_of(correct)[1], "within": within, "start": start, "valid": valid, "whole": whole, "due": due, "replay": replay}
    second = None if decisions is None else _bytes_of(decisions, "decisions")
    line, *more = _asked("judge", trace, second, **given, factor=factor, rows=rows).decode().splitlines()
    least = _least_factor(more.pop(0)) if factor else None
    return Judgement(line, least, [_deadline_row(it) for it in more[1:]] if rows else None)


# The options of the program by the names of arguments, each with what makes a word of it.
OPTIONS: Dict[str, Tuple[str, Optional[Callable[[Any], str]]]] = {
    "correct": ("--correct", str),
    "until": ("--until", str),
    "at": ("--at", str),
    "leader": ("--from", str),
    "followers": ("--to", str),
    "every": ("--every", str),
    "polls": ("--polls", str),
    "from_tick": ("--from", str),
    "to_tick": ("--to", str),
    "names": ("--names", ",".join),
    "lanes": ("--lanes", lambda lanes: ",".join(map(str, lanes))),
    "nodes": ("--nodes", ",".join),
    "unit": ("--unit", str),
    "tick": ("--tick", str),
    "idle": ("--idle", str),
    "spread": ("--spread", None),
    "align": ("--align", None),
    "drop_lost": ("--drop-lost", None),
    "merge": ("--merge", None),
    "table": ("--table", None),
    "ticks": ("--ticks", None),
    "within": ("--within", str),
    "start": ("--start", str),
    "valid": ("--valid", None),
    "whole": ("--whole", None),
    "due": ("--due", str),
    "factor": ("--factor", None),
    "rows": ("--rows", None),
    "replay": ("--replay", None),
}
# The error of each status; of any other one it is SynchronyError itself.
ERRORS = {BAD_TRACE: TraceRefused, BAD_CERTIFICATE: CertificateRefused}


def _asked(command: str, text: Text, second: Optional[bytes] = None, second_word: str = "certificate", **given: Any) -> bytes:
    """What the program prints for a command with these options; None and False leave one out. `second_word` names the
    second text."""
    words = [command, "-"] + ([second_word] if second is not None else [])
    for name, value in given.items():
        option, word_of = OPTIONS[name]
        if word_of is None:
            words += [option] if value else []
        elif value is not None:
            words.append(f"{option}={word_of(value)}")
    status, out = _answer(words, _bytes_of(text), second or b"")
    if status == NO_MEMORY:
        raise MemoryError
    if status not in (0, NO):
        said = "\n".join(it[len("synchrony: ") :] if it.startswith("synchrony: ") else it for it in out.decode().splitlines())
        kind = SetRefused if status == BAD_SET and "--correct" in said.partition("\n")[0] else ERRORS.get(status, SynchronyError)
        raise kind(said, status)
    return out


def _answer(words: List[str], text: bytes, second: bytes = b"") -> Tuple[int, bytes]:
    """The exit status that the program has for these words, and what it prints: with 0 and 1 its standard output, else its
    standard error."""
    if any("\n" in it for it in words):
        raise ValueError("no word of a command line has a line feed")
    lines = "\n".join(words).encode()
    return _with_room(_room_for(text), _library().synchrony_answer, lines, len(lines), text, len(text), second, len(second))


def _rows(report: bytes) -> List[Row]:
    """The rows of the text of a report."""
    return [_row(it) for it in report.split(b"\n")[1:-1]]


def _row(line: bytes) -> Row:
    """The row of one of its lines."""
    return Row(*[int(it) if it else None for it in line.split(b",")])  # type: ignore[arg-type]


def _bound(bound: str, *numbers: str) -> Bound:
    """The bound of the fields of a line."""
    return Bound(bound, *[int(it) if it else None for it in numbers])  # type: ignore[arg-type]


def _deadline_row(line: str) -> DeadlineRow:
    """The row of a line."""
    return DeadlineRow(*[int(it) if it else None for it in line.split(",")])  # type: ignore[arg-type]


def _least_factor(line: str) -> float:
    """The factor of its line, or infinity."""
    word = line.split()[1]
    return math.inf if word == "none" else int(word)


def _verdict(line: bytes) -> Verdict:
    """The verdict of the line that the program prints."""
    word, *rest = line.decode().split()
    return Verdict(None, ()) if word == "yes" else Verdict(rest[0], tuple(map(int, rest[1:])))


def _refuse(answer: int, out: bytes) -> NoReturn:
    """Raises what an answer is that is a refusal, but not of the set, with the words that the program has for it."""
    if answer == BAD_TRACE:
        raise TraceRefused(f"trace: {out.decode()}", answer)
    if answer == BAD_CERTIFICATE:
        raise CertificateRefused(f"certificate: {out.decode()}", answer)
    if answer == NO_MEMORY:
        raise MemoryError
    raise AssertionError(f"the library has no answer {answer}")


def _room_for(trace: bytes) -> int:
    """Room for nearly every report of a text, since a call in too little room is made twice."""
    return min(1 << 20, 4096 + 4 * len(trace))


class _Room:
    """Room for what a call writes, and for the length of that."""

    __slots__ = ("at", "length", "seen", "size", "size_at")

    def __init__(self, length: int) -> None:
        out = ctypes.create_string_buffer(length)
        self.length, self.seen, self.size = length, memoryview(out), ctypes.c_size_t(0)
        self.at, self.size_at = ctypes.c_void_p(ctypes.addressof(out)), ctypes.byref(self.size)


class _Rooms(threading.local):
    """The last room of each thread, so that a call that needs no more doesn't make a new one."""

    def __init__(self) -> None:
        self.room = _Room(0)


_rooms = _Rooms()


def _with_room(least: int, call: Callable[..., int], *given: Any) -> Tuple[int, bytes]:
    """What a call answers and writes, in as much room as it asks for."""
    room = _rooms.room
    while True:
        if room.length < least:
            room = _rooms.room = _Room(least)
        room.size.value = 0
        answer = call(*given, room.at, room.length, room.size_at)
        written = room.size.value
        # (the words of a refusal may be cut off too)
        if written <= room.length:
            return answer, room.seen[:written].tobytes()
        least = written


def _bytes_of(text: Text, what: str = "a trace") -> bytes:
    """The bytes of a text, or of the file that a path names. `what` names what the text is, for a refusal."""
    if isinstance(text, bytes):
        return text
    if isinstance(text, str):
        if text and "\n" not in text and "\r" not in text:
            raise ValueError(f"a str is the text of {what}, not a path: pass Path({text!r})")
        return text.encode()
    if isinstance(text, (bytearray, memoryview)):
        return bytes(text)
    if isinstance(text, os.PathLike):
        return Path(text).read_bytes()
    raise TypeError(f"a text is bytes, a bytearray, a memoryview, a str or a path, not {type(text).__name__}")


def _set_of(correct: Correct) -> Tuple[int, str]:
    """The set of these processors as the library takes it, and as a command line lists it."""
    if isinstance(correct, str):
        if correct == "all":
            return ALL, "all"
        raise SetRefused(f'the correct processors are numbers or "all", not {correct!r}', BAD_SET)
    mask = 0
    for it in map(operator.index, correct):
        if not 1 <= it <= MOST_PROCESSORS:
            raise SetRefused(f"there is no processor {it}", BAD_SET)
        mask |= 1 << (it - 1)
    return mask, ",".join(str(it + 1) for it in range(MOST_PROCESSORS) if mask >> it & 1) or "none"


_loaded: Optional[ctypes.CDLL] = None


def _places() -> List[str]:
    """Where the library may be: where the environment says, and nowhere else; or in this folder, as in a wheel; in out/ of
    the repository that has this folder; where ./install puts it; or where the system looks."""
    named = os.environ.get("SYNCHRONY_LIBRARY")
    if named:
        return [named]
    here = Path(__file__).resolve().parent
    beside = [here / "libsynchrony.so", here.parents[2] / "out/libsynchrony.so", Path.home() / ".local/lib/libsynchrony.so"]
    return [*(str(it) for it in beside if it.is_file()), "libsynchrony.so.0", "libsynchrony.so"]


def _library() -> ctypes.CDLL:
    """The library, which is loaded once. ImportError says how to get it if it isn't there."""
    global _loaded
    if _loaded is None:
        _loaded = _with_types(_found())
    return _loaded


def _found() -> ctypes.CDLL:
    for place in _places():
        try:
            return ctypes.CDLL(place)
        except OSError as why:
            # (a file that is there and can't be loaded says why)
            if os.path.exists(place):
                raise ImportError(f"{why}; {MISSING}") from None
    raise ImportError(MISSING)


def _with_types(library: ctypes.CDLL) -> ctypes.CDLL:
    text, room, size = [ctypes.c_char_p, ctypes.c_size_t], [ctypes.c_void_p, ctypes.c_size_t], ctypes.POINTER(ctypes.c_size_t)
    for name, texts in (("synchrony_report", text), ("synchrony_check", text * 2)):
        getattr(library, name).argtypes = [ctypes.c_uint64, *texts, *room, size]
        getattr(library, name).restype = ctypes.c_uint32
    library.synchrony_answer.argtypes = [*text * 3, *room, size]
    library.synchrony_answer.restype = ctypes.c_uint32
    return library
