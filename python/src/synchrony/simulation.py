"""Runs of a protocol under partial synchrony, each reproducible from its arguments.

A protocol is a generator function `node(me, n, value)` that yields its steps. It is called once for each processor, which is
`me` of the `n`, with its initial value:

    yield Send(to, body)              one message to one processor; the body is any object
    messages = yield Receive()        a list of (sender, body), possibly empty
    yield Decide(value)               no step: what this processor has decided
    yield from broadcast(n, body)     one Send to each processor, in the order of their numbers

    run = simulate(node, values=[5, 7, 7], schedule=Schedule(gst=200, delta=3, phi=4, seed=1), ticks=2000)
    run.trace        the trace as a text of version 2, in bytes
    run.decisions    what was decided: each with processor, tick and value
    run.check()      whether the bounds were kept, by the report of the proved library

A body is passed as it is, not copied: send tuples, or copies of what you change later. A processor whose generator ends
goes on with Receives, whose messages nobody reads.
"""

from __future__ import annotations

import operator
import random
import sys
from dataclasses import dataclass, field, replace
from numbers import Real
from typing import Any, Callable, Dict, Generator, Iterator, List, Mapping, NamedTuple, Optional, Sequence, Tuple, Union

from . import library

# The limits of a trace text.
MOST_STEPS = MOST_TICKS = 1_000_000
# How often a processor may decide between two of its steps.
MOST_DECISIONS = 1_000


class Send(NamedTuple):
    """A step that sends one message to one processor. The receiver gets the body itself, not a copy."""

    to: int
    body: Any


# (no tuple: `yield from` of an empty one makes no step, and a loop of it has no end)
@dataclass(frozen=True)
class Receive:
    """A step that receives messages: it is answered by a list of (sender, body)."""


class Decide(NamedTuple):
    """No step: what this processor has decided."""

    value: Any


class AfterSends(NamedTuple):
    """When a processor crashes: behind so many of its Sends, as in the middle of a broadcast."""

    sends: int


Step = Union[Send, Receive, Decide]
Protocol = Callable[[int, int, int], Generator[Step, Any, None]]


def broadcast(n: int, body: Any) -> Iterator[Send]:
    """One Send of this body to each of n processors."""
    for it in range(1, n + 1):
        yield Send(it, body)


class Decision(NamedTuple):
    """What a processor has decided. The tick is that of its last step before, and 0 if it has made none."""

    proc: int
    tick: int
    value: Any


@dataclass(frozen=True)
class Schedule:
    """Which processors step in a tick, and which messages a Receive takes.

    From the tick gst on the bounds hold: each processor that hasn't crashed takes a step in any phi ticks in a row, and a
    message that is sent in gst or later is taken by each Receive of its receiver at least delta ticks later, if it wasn't
    before. Within that, chance decides: in a tick a processor steps with the chance `speed`, and a message that could be
    taken is taken with the chance `prompt`. Before gst the speed is `speed_before`, a message is lost with the chance
    `loss`, and one that isn't lost has no bound. `speed`, `speed_before` and `loss` are each one number, or a mapping from
    processors to numbers (of `loss` from senders), where a processor that it lacks has the usual one.

    `crashed` names the processors that crash, each with the first tick in which it takes no step more, or with
    AfterSends(k): behind its k-th Send. The others are the correct ones.

    TypeError is raised for a number of ticks, of Sends or of the seed that is no whole number, ValueError for one that is
    too small, and for a chance that isn't from 0 to 1.
    """

    gst: int = 1
    delta: int = 1
    phi: int = 1
    seed: int = 0
    speed: Union[float, Mapping[int, float]] = 0.5
    speed_before: Union[float, Mapping[int, float]] = 0.5
    prompt: float = 0.5
    loss: Union[float, Mapping[int, float]] = 0.0
    crashed: Mapping[int, Union[int, AfterSends]] = field(default_factory=dict)

    def __post_init__(self) -> None:
        for name in ("gst", "delta", "phi", "seed"):
            # (the fields of a frozen class are set so)
            object.__setattr__(self, name, _whole(name, getattr(self, name)))
        for name in ("gst", "delta", "phi"):
            if getattr(self, name) < 1:
                raise ValueError(f"{name} is a number of ticks, at least 1, not {getattr(self, name)}")
        if self.seed < 0:
            raise ValueError(f"seed is a number from 0 on, not {self.seed}")
        _check_chance("prompt", self.prompt)
        for name in ("speed", "speed_before", "loss"):
            _check_chances(name, getattr(self, name))
        object.__setattr__(self, "crashed", _whole_crashes(self.crashed))


def _whole(name: str, given: Any) -> int:
    """What is given for an argument, as an int. TypeError is raised if it is no whole number."""
    try:
        # (before Python 3.10 the index of True is True)
        return int(operator.index(given))
    except TypeError:
        raise TypeError(f"{name} is {given!r}, and has to be a whole number") from None


def _check_chance(name: str, given: Any) -> None:
    """ValueError is raised if what is given is no chance."""
    if not (isinstance(given, Real) and 0 <= float(given) <= 1):
        raise ValueError(f"{name} is a chance, from 0 to 1, not {given!r}")


def _check_chances(name: str, given: Any) -> None:
    """The same of a mapping from processors to chances, or of one chance."""
    if isinstance(given, Mapping):
        for p, it in given.items():
            _check_chance(f"{name}[{p!r}]", it)
    else:
        _check_chance(name, given)


def _whole_crashes(given: Any) -> Dict[int, Union[int, AfterSends]]:
    """The crashes of a schedule, with ints for their numbers. TypeError is raised if they are no mapping to such."""
    if not isinstance(given, Mapping):
        raise TypeError(f"crashed is {given!r}, and has to be a mapping from processors to ticks or AfterSends")
    crashed: Dict[int, Union[int, AfterSends]] = {}
    for key, when in given.items():
        p = _whole("a processor of crashed", key)
        if isinstance(when, AfterSends):
            crashed[p] = AfterSends(_whole(f"crashed[{p}].sends", when.sends))
        else:
            crashed[p] = _whole(f"crashed[{p}]", when)
    return crashed


class Kept(NamedTuple):
    """Whether the bounds of a schedule were kept, which its truth says. delta and phi are the least bounds from gst on, by
    the report of the library. They are None if the run ends before gst: then nothing was tested, and it is false."""

    gst: int
    delta: Optional[int]
    phi: Optional[int]
    asked_delta: int
    asked_phi: int

    def __bool__(self) -> bool:
        if self.delta is None or self.phi is None:
            return False
        return self.delta <= self.asked_delta and self.phi <= self.asked_phi

    def __str__(self) -> str:
        if self.delta is None:
            return f"the run ends before tick {self.gst}"
        return f"from tick {self.gst} on: delta {self.delta} of {self.asked_delta}, phi {self.phi} of {self.asked_phi}"


@dataclass(frozen=True)
class Run:
    """A run: its trace as a text, what was decided in the order in which it was, and the processors that don't crash."""

    trace: bytes = field(repr=False)
    decisions: List[Decision] = field(repr=False)
    correct: List[int]
    schedule: Schedule
    ticks: int
    steps: int

    def report(self) -> List[library.Row]:
        """The report of the trace, for the correct processors."""
        return library.report(self.trace, self.correct)

    def check(self) -> Kept:
        """Whether the bounds of the schedule were kept from gst on, by the report of the trace. A run that ends before gst
        doesn't keep them."""
        asked = self.schedule.gst, self.schedule.delta, self.schedule.phi
        if asked[0] > self.ticks:
            return Kept(asked[0], None, None, *asked[1:])
        row = [it for it in self.report() if it.gst <= asked[0]][-1]
        return Kept(asked[0], row.delta, row.phi, *asked[1:])

    def judge(
        self,
        within: str,
        start: Optional[int] = None,
        valid: bool = False,
        whole: bool = False,
        due: Optional[int] = None,
        value: Callable[[Any], int] = operator.index,
        factor: bool = False,
        rows: bool = False,
    ) -> library.Judgement:
        """Whether the correct processors decided within a formula of the bounds, and agreed.

        `within` and the options are those of `library.judge`. Decisions are passed to it as numbers: `value` makes one
        of each decision, which may be left out if they are whole numbers. A decision before the first step counts as made in
        tick 1. ValueError is raised for a decision without a number of 64 bits.
        """
        decisions = self.decisions_text(value)
        return library.judge(self.trace, decisions, self.correct, within, start=start, valid=valid, whole=whole, due=due, factor=factor, rows=rows)

    def decisions_text(self, value: Callable[[Any], int] = operator.index) -> bytes:
        """The decisions as a CSV for `library.judge`; `value` makes a number of each. ValueError is raised for a decision
        without a number of 64 bits."""
        rows = "".join(f"{it.proc},{max(1, it.tick)},{_number_of(it, value)}\n" for it in self.decisions)
        return f"proc,tick,value\n{rows}".encode()

    def decided(self) -> Dict[int, Any]:
        """The first decision of each processor that has one."""
        first: Dict[int, Any] = {}
        for it in self.decisions:
            first.setdefault(it.proc, it.value)
        return first

    def values_decided(self) -> List[Any]:
        """The different values that were decided, by any processor, in the order in which they were."""
        found: List[Any] = []
        for it in self.decisions:
            if it.value not in found:
                found.append(it.value)
        return found


def _number_of(decision: Decision, value: Callable[[Any], int]) -> int:
    """The number that `value` makes of a decision. ValueError is raised if it is none of 64 bits, without a sign."""
    why: Optional[TypeError] = None
    try:
        number = int(operator.index(value(decision.value)))
        if 0 <= number < 1 << 64:
            return number
    except TypeError as error:
        why = error
    words = f"processor {decision.proc} decided {decision.value!r} {_when(decision.tick)}, which is no number of 64 bits"
    raise ValueError(f"{words}: pass value=, which makes one of each decision") from why


def simulate(node: Protocol, values: Sequence[int], schedule: Schedule = Schedule(), ticks: int = 1000, faults: Optional[int] = None) -> Run:
    """The run of so many ticks of one node for each initial value. The same arguments give the same run. Whole numbers may
    be of any type that has `__index__`; so an initial value True is 1. A Send to True is refused.

    `faults` is the t of the trace's header; if it is left out, it is the number of processors that crash, if so many can
    be faulty. ValueError is raised for arguments outside of a trace's limits, for a schedule or a Send that names no
    processor of the run, for a run of more than 1,000,000 steps, and for a processor that decides more than 1,000 times
    between two steps. TypeError is raised for an argument that is no whole number, and for a protocol that yields something
    else than a step. An error of the protocol itself names the processor and the tick in a note, from Python 3.11 on.
    """
    values, ticks = [_whole(f"values[{at}]", it) for at, it in enumerate(values)], _whole("ticks", ticks)
    n = len(values)
    if not 2 <= n <= library.MOST_PROCESSORS:
        raise ValueError(f"a run has 2 to {library.MOST_PROCESSORS} processors, not {n}")
    if not 0 <= ticks <= MOST_TICKS:
        raise ValueError(f"a run has at most {MOST_TICKS} ticks, not {ticks}")
    if not all(0 <= it < 1 << 64 for it in values):
        raise ValueError("an initial value is a number of 64 bits, without a sign")
    _check_processors(schedule, n)
    most = (n - 1) // 2
    faults = min(len(schedule.crashed), most) if faults is None else _whole("faults", faults)
    if not 0 <= faults <= most:
        raise ValueError(f"at most {most} of {n} processors can be faulty, not {faults}")
    nodes = _Nodes(node, values)
    lines = [f"dls-trace,2,{n},{faults}", "init," + ",".join(map(str, values))]
    _go(nodes, schedule, ticks, lines)
    steps = len(lines) - 2
    lines += [f"end,{ticks}", ""]
    correct = [it for it in range(1, n + 1) if it not in schedule.crashed]
    return Run("\n".join(lines).encode(), nodes.decisions, correct, schedule, ticks, steps)


def _check_processors(schedule: Schedule, n: int) -> None:
    """ValueError is raised if a mapping of the schedule names a processor that isn't one of these n."""
    for name in ("speed", "speed_before", "loss", "crashed"):
        given = getattr(schedule, name)
        for p in given if isinstance(given, Mapping) else ():
            if p not in range(1, n + 1):
                raise ValueError(f"{name} names processor {p!r}, which is none of 1 to {n}")


def smallest(schedule: Schedule, fails: Callable[[Schedule], bool]) -> Schedule:
    """A schedule that fails as this one does, made small: no single number of it can be made smaller, by the tries that are
    made, so that it doesn't fail any more. Each number is tried at its least, then nearer and nearer to what it is; crashes
    and losses are tried without."""
    if not fails(schedule):
        raise ValueError("the schedule doesn't fail")
    found = True
    while found:
        found = False
        for it in _smaller(schedule):
            if fails(it):
                schedule, found = it, True
                break
    return schedule


def _smaller(schedule: Schedule) -> Iterator[Schedule]:
    """Schedules to try in place of this one, the smallest first."""
    for proc in schedule.crashed:
        yield replace(schedule, crashed={p: when for p, when in schedule.crashed.items() if p != proc})
    if schedule.loss != 0:
        yield replace(schedule, loss=0.0)
    for name, least in (("gst", 1), ("delta", 1), ("phi", 1), ("seed", 0)):
        now = getattr(schedule, name)
        away = now - least
        while away > 0:
            yield replace(schedule, **{name: now - away})
            away //= 2


class _Nodes:
    """The processors of a run: the generator of each, its next step, and what was decided."""

    def __init__(self, node: Protocol, values: Sequence[int]) -> None:
        self.n = len(values)
        self.decisions: List[Decision] = []
        self.generators = [_idle(), *(node(p, self.n, value) for p, value in enumerate(values, 1))]
        if not all(hasattr(it, "send") for it in self.generators):
            raise TypeError("a protocol is a generator function: it yields Send, Receive and Decide")
        self.sends = [it.send for it in self.generators]
        self.next_steps: List[Step] = [Receive()] * (self.n + 1)
        for p in range(1, self.n + 1):
            self.accept(p, 0, self.go_on(p, 0))

    def go_on(self, p: int, tick: int) -> Step:
        """What p yields next, without an answer; a Receive if its generator has ended."""
        try:
            return self.sends[p](None)
        except StopIteration:
            return self.end(p)
        except Exception as why:
            _add_note(why, p, tick)
            raise

    def accept(self, p: int, tick: int, step: Step) -> None:
        """Takes what p yielded after its step in this tick: what isn't a step is refused, and a decision isn't one either."""
        decided = 0
        while type(step) is Decide:
            if decided == MOST_DECISIONS:
                raise ValueError(f"processor {p} decides {decided} times without a step, {_when(tick)}: yield Send or Receive between decisions")
            decided += 1
            self.decisions.append(Decision(p, tick, step.value))
            step = self.go_on(p, tick)
        if type(step) is Send:
            step = Send(self.receiver(p, tick, step.to), step.body)
        elif type(step) is not Receive:
            raise TypeError(f"processor {p} yields {step!r}, which is no Send, Receive or Decide, {_when(tick)}{self.hint(p, step)}")
        self.next_steps[p] = step

    def receiver(self, p: int, tick: int, to: Any) -> int:
        """The processor to which p sends, as an int. ValueError is raised if there is none. (True is most likely a slip.)"""
        is_number = hasattr(to, "__index__") and not isinstance(to, (bool, type))
        if not is_number or not 1 <= operator.index(to) <= self.n:
            raise ValueError(f"processor {p} sends to {to!r}, which is none of 1 to {self.n}, {_when(tick)}")
        return int(operator.index(to))

    def hint(self, p: int, step: Any) -> str:
        """What p has to write in place of what it yields, if that is known."""
        if isinstance(step, type):
            return f": write {step.__name__}(..)" if step in (Send, Receive, Decide) else ""
        if hasattr(step, "send"):
            return ": write yield from"
        at: Any = self.generators[p]
        while getattr(at, "gi_yieldfrom", None) is not None:
            at = at.gi_yieldfrom
        # (a Send or a Decide is a tuple, so `yield from` yields its fields)
        return ": write yield, not yield from" if isinstance(at, type(iter(()))) else ""

    def end(self, p: int) -> Step:
        """The generator of p has ended: it receives from now on."""
        self.generators[p] = _idle()
        self.sends[p] = self.generators[p].send
        return self.sends[p](None)


def _when(tick: int) -> str:
    """When a processor did something after its last step, which was in this tick, or in 0 if it has made none."""
    return f"in tick {tick}" if tick else "before its first step"


def _add_note(why: Exception, p: int, tick: int) -> None:
    """Adds to an error of a protocol the processor that raised it, and when. (Older Pythons have no notes.)"""
    if sys.version_info >= (3, 11):
        when = f"after its step in tick {tick}" if tick else "before its first step"
        why.add_note(f"in processor {p}, {when}")


def _idle() -> Generator[Step, Any, None]:
    while True:
        yield Receive()


# A message that waits: its number, the tick of its Send, and what its receiver is answered.
_Waiting = Tuple[int, int, Tuple[int, Any]]


def _go(nodes: _Nodes, schedule: Schedule, ticks: int, lines: List[str]) -> None:
    """Makes the steps of so many ticks, each as a line. (It is the one loop that has to be fast: a million steps in seconds.)"""
    n, gst, delta, phi, prompt = nodes.n, schedule.gst, schedule.delta, schedule.phi, schedule.prompt
    chance = random.Random(schedule.seed).random
    before, after, loss = (_by_processor(it, n, usual) for it, usual in ((schedule.speed_before, 0.5), (schedule.speed, 0.5), (schedule.loss, 0.0)))
    crash, sends_left = _crashes(schedule, n, ticks)
    next_steps, sends, accept = nodes.next_steps, nodes.sends, nodes.accept
    waiting: List[List[_Waiting]] = [[] for _ in range(n + 1)]
    # (the tick of the last step, or the one before gst)
    last = [gst - 1] * (n + 1)
    number = 0
    append = lines.append
    for tick in range(1, ticks + 1):
        is_after = tick >= gst
        speeds, due = (after, tick - phi) if is_after else (before, -1)
        for p in range(1, n + 1):
            if tick >= crash[p] or (chance() >= speeds[p] and last[p] > due):
                continue
            number += 1
            if is_after:
                last[p] = tick
            step = next_steps[p]
            answer: Any = None
            if type(step) is Send:
                to = step.to
                append(f"{number},{tick},{p},S,{to}")
                if is_after or (prompt and chance() >= loss[p]):
                    waiting[to].append((number, tick, (p, step.body)))
                sends_left[p] -= 1
                if not sends_left[p]:
                    # (it has crashed, and so decides nothing after this Send)
                    crash[p] = tick
                    continue
            else:
                numbers, answer = _take(waiting, p, tick, gst, tick - delta, prompt, chance)
                append(f"{number},{tick},{p},R,{numbers}")
            try:
                step = sends[p](answer)
            except StopIteration:
                step = nodes.end(p)
            except Exception as why:
                _add_note(why, p, tick)
                raise
            # (most steps are a Receive, or a Send to a processor that is there)
            if type(step) is Receive or (type(step) is Send and type(to := step.to) is int and 1 <= to <= n):
                next_steps[p] = step
            else:
                accept(p, tick, step)
        if number > MOST_STEPS:
            raise ValueError(f"the run has more than {MOST_STEPS} steps by tick {tick}")


def _take(waiting: List[List[_Waiting]], p: int, tick: int, gst: int, due: int, prompt: float, chance: Callable[[], float]) -> Tuple[str, List[Tuple[int, Any]]]:
    """What a Receive of p takes, as the numbers of a line and as its answer: what is due, and of the rest by chance. What was
    sent in this tick stays."""
    found = waiting[p]
    if not found:
        return "", []
    taken: List[_Waiting] = []
    left: List[_Waiting] = []
    for it in found:
        sent = it[1]
        (taken if sent < tick and (gst <= sent <= due or chance() < prompt) else left).append(it)
    waiting[p] = left
    return " ".join([str(it[0]) for it in taken]), [it[2] for it in taken]


def _by_processor(given: Union[float, Mapping[int, float]], n: int, usual: float) -> List[float]:
    """The number of each processor, at its place; the place 0 is nobody's."""
    if isinstance(given, Mapping):
        return [usual, *(given.get(p, usual) for p in range(1, n + 1))]
    return [float(given)] * (n + 1)


def _crashes(schedule: Schedule, n: int, ticks: int) -> Tuple[List[int], List[int]]:
    """The first tick in which each processor takes no step more, as far as it is known, and how many Sends it has left
    until it crashes (negative if there is no such number)."""
    crash, sends_left = [ticks + 1] * (n + 1), [-1] * (n + 1)
    for p, when in schedule.crashed.items():
        if isinstance(when, AfterSends):
            sends_left[p] = when.sends
            if when.sends <= 0:
                crash[p] = 0
        else:
            crash[p] = when
    return crash, sends_left
