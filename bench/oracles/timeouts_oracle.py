"""The table of `synchrony timeouts`, straight from the definitions: each number is found by trying 1, 2, and so on.

Shares no line with the crates. It takes time that grows with the fourth power of the ticks or so: for short traces alone.
"""
from dataclasses import dataclass, field

HEADER = "follower,gst,delta,phi,heartbeat,poll,timeout,delay,quick,least,tried"


@dataclass
class Step:
    tick: int
    processor: int
    # The receiver of a Send, None in a Receive.
    to: object = None
    # The numbers of the Sends whose messages a Receive takes.
    takes: list = field(default_factory=list)


@dataclass
class Run:
    """A trace: how many processors there are, the steps in their order, and the last tick."""

    processors: int
    steps: list
    last: int

    def until(self, tick):
        return Run(self.processors, [it for it in self.steps if it.tick <= tick], tick)

    def taken(self, number):
        """The tick in which message `number` is taken, or none."""
        return next((it.tick for it in self.steps if number in it.takes), None)

    def messages(self, p, q):
        """The tick in which each message of p to q is sent, and the one in which it is taken, or none."""
        return [(it.tick, self.taken(no)) for no, it in enumerate(self.steps, 1) if it.processor == p and it.to == q]


def parsed(text):
    """The trace of a text that is right, of either version."""
    header, _, *rows = [line.split(",") for line in text.splitlines()]
    steps = []
    for number, row in enumerate(rows[:-1], 1):
        tick, processor, act, argument = row if header[1] == "1" else row[1:]
        tick = number if header[1] == "1" else int(tick)
        if act == "S":
            steps.append(Step(tick, int(processor), to=int(argument)))
        else:
            steps.append(Step(tick, int(processor), takes=[int(it) for it in argument.split()]))
    return Run(int(header[2]), steps, int(rows[-1][1]))


def least(holds):
    number = 1
    while not holds(number):
        number += 1
    return number


# The bounds of the paper, for a set of members


def delta_holds(run, members, g, d):
    """Each Receive of a receiver, d ticks after the Send or later, finds the message taken by then."""
    for no, send in enumerate(run.steps, 1):
        if send.processor in members and send.to in members and send.tick >= g:
            taken = run.taken(no)
            for it in run.steps:
                if it.processor == send.to and it.to is None and it.tick >= send.tick + d:
                    if taken is None or taken > it.tick:
                        return False
    return True


def phi_holds(run, members, g, f):
    """In each f ticks in a row, from g on, each member takes a step."""
    for p in members:
        busy = {it.tick for it in run.steps if it.processor == p}
        for x in range(g, run.last + 2 - f):
            if not any(tick in busy for tick in range(x, x + f)):
                return False
    return True


def front(run, members):
    """The triples of a tick and two bounds that hold from there, of which none is as good in all three as another."""
    triples = [
        (g, least(lambda d: delta_holds(run, members, g, d)), least(lambda f: phi_holds(run, members, g, f)))
        for g in range(1, run.last + 1)
    ]
    return [one for one in triples if not any(o != one and all(a <= b for a, b in zip(o, one)) for o in triples)]


# What a link of p to q does from a tick on


def does_within(run, ticks, g, h):
    return all(any(y <= it < y + h for it in ticks) for y in range(g, run.last + 2 - h))


def takes_within(run, messages, g, e):
    return all(taken is not None and taken <= sent + e for sent, taken in messages if g <= sent and sent + e <= run.last)


def hears_within(run, messages, g, b):
    return all(
        any(sent >= y and taken is not None and taken <= y + b for sent, taken in messages)
        for y in range(g, run.last + 1 - b)
    )


def rows_of(run, p, q, every, polls, at):
    rows = front(run, {p, q})
    if at is not None:
        rows = [row for row in rows if row[0] <= at][-1:]
    messages = run.messages(p, q)
    receives = [it.tick for it in run.steps if it.processor == q and it.to is None]
    for g, delta, phi in rows:
        heartbeat = max(every * phi, least(lambda h: does_within(run, [sent for sent, _ in messages], g, h)))
        poll = max(polls * phi, least(lambda r: does_within(run, receives, g, r)))
        delay = least(lambda e: takes_within(run, messages, g, e))
        timeout, quick = heartbeat + poll + delta - 2, heartbeat + delay - 1
        served = least(lambda b: hears_within(run, messages, g, b))
        assert served <= quick <= timeout, (g, served, quick, timeout)
        yield q, g, delta, phi, heartbeat, poll, timeout, delay, quick, served, max(0, run.last + 1 - g - timeout)


def table(run, p, to=None, every=None, polls=None, until=None, at=None):
    """The text that is printed, or the first line of the fault, with the exit status."""
    if p > run.processors:
        return 2, "synchrony: no such processor in --from\n"
    named = range(1, run.processors + 1) if to == "all" else to
    if named is not None and any(q > run.processors for q in named):
        return 2, "synchrony: no such processor in --to\n"
    if until is not None:
        if not 1 <= until <= run.last:
            return 2, "synchrony: bad --until\n"
        run = run.until(until)
    if at is not None and not 1 <= at <= run.last:
        return 2, "synchrony: bad --at\n"
    followers = {it.to for it in run.steps if it.processor == p and it.to is not None} if named is None else set(named)
    lines = [HEADER]
    for q in sorted(followers):
        lines += [",".join(map(str, row)) for row in rows_of(run, p, q, every or 0, polls or 0, at)]
    return 0, "".join(f"{line}\n" for line in lines)
