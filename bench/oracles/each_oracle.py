#!/usr/bin/env python3
"""The bounds of each processor and of each link from a tick on, straight from the definitions: slow, and by plain loops.

    bench/oracles/each_oracle.py FILE --correct LIST|all [--at TICK] [--until TICK]

It reads a trace text that is right, of either version, prints what `./synchrony each` prints, and the same lines for what is
refused of the set and the ticks.

- *phi* of a member p: the least f such that in each f ticks in a row, from the tick on and up to the last, p takes a step. Its
  gap: of the f - 1 ticks in a row in which p takes none, those that begin last.
- *delta* of members p and q: the least d such that of the messages of p to q sent in the tick or later each is
  delivered at each Receive of q that comes d or more ticks after its Send. Its miss: of the messages and Receives that
  are d - 1 ticks apart, with the message not delivered, the one with the latest Send.
"""
import argparse
import sys
from dataclasses import dataclass

HEADER = "bound,proc,to,value,first,last"


class Refused(Exception):
    """What is said on standard error, with status 2."""


@dataclass
class Trace:
    processors: int
    last: int
    # Of each step, from number 1 on: its tick and its processor.
    steps: list
    # Of each Send, by its number: whom it is for. And of each Receive: the ids that it takes.
    sends: dict
    receives: dict


def read_trace(text):
    header, _, *rows = [line.split(",") for line in text.decode().splitlines()]
    trace = Trace(int(header[2]), int(rows[-1][1]), [], {}, {})
    for no, row in enumerate(rows[:-1], 1):
        tick, processor, act, argument = [row[0], *row[1:]] if header[1] == "1" else row[1:]
        trace.steps.append((int(tick), int(processor)))
        if act == "S":
            trace.sends[no] = int(argument)
        else:
            trace.receives[no] = [int(it) for it in argument.split()]
    return trace


def cut(trace, tick):
    """The trace as if it had ended at the tick."""
    count = sum(1 for at, _ in trace.steps if at <= tick)
    front = lambda acts: {no: act for no, act in acts.items() if no <= count}
    return Trace(trace.processors, tick, trace.steps[:count], front(trace.sends), front(trace.receives))


def members_of(text, processors):
    """The members that a list names."""
    if text == "all":
        return list(range(1, processors + 1))
    members = sorted({int(it) for it in text.split(",")}) if text != "none" else []
    for member in members:
        if member > processors:
            raise Refused("no such processor in --correct", f"--correct names processor {member}, and the trace has processors 1 to {processors}")
    return members


def has_tick(trace, tick, option):
    if not 1 <= tick <= trace.last:
        ticks = f"ticks 1 to {trace.last}" if trace.last else "no ticks"
        raise Refused(f"bad --{option}", f"--{option} is {tick}, and the {'report' if option == 'at' else 'trace'} has {ticks}")


def phi_of(trace, member, at):
    """The processor bound of a member, with its gap."""
    busy = {tick for tick, processor in trace.steps if processor == member}

    def silences(length):
        return [x for x in range(at, trace.last - length + 2) if not any(tick in busy for tick in range(x, x + length))]

    bound = next(f for f in range(1, trace.last + 2) if not silences(f))
    if bound == 1:
        return bound, "", ""
    begin = silences(bound - 1)[-1]
    return bound, begin, begin + bound - 2


def delta_of(trace, sender, receiver, at):
    """The communication bound of a link, with its miss; nothing if it has no message."""
    tick_of = lambda no: trace.steps[no - 1][0]
    messages = [no for no, to in trace.sends.items() if to == receiver and trace.steps[no - 1][1] == sender and tick_of(no) >= at]
    if not messages:
        return None
    own = [no for no in trace.receives if trace.steps[no - 1][1] == receiver]

    def delivered(message, tick):
        return any(message in ids and tick_of(no) <= tick for no, ids in trace.receives.items())

    missed = [(message, no) for message in messages for no in own if tick_of(no) > tick_of(message) and not delivered(message, tick_of(no))]
    spans = [(tick_of(no) - tick_of(message), message, no) for message, no in missed]
    bound = next(d for d in range(1, trace.last + 2) if not any(span >= d for span, _, _ in spans))
    if bound == 1:
        return bound, "", ""
    _, message, no = max((it for it in spans if it[0] == bound - 1), key=lambda it: it[1])
    return bound, message, no


def each(text, correct, at=None, until=None):
    """The lines of the table."""
    trace = read_trace(text)
    members = members_of(correct, trace.processors)
    if until is not None:
        has_tick(trace, until, "until")
        trace = cut(trace, until)
    if at is not None:
        has_tick(trace, at, "at")
    lines = [HEADER]
    for member in members:
        bound, first, last = phi_of(trace, member, at or 1)
        lines.append(f"phi,{member},,{bound},{first},{last}")
    for sender in members:
        for receiver in members:
            found = delta_of(trace, sender, receiver, at or 1)
            if found:
                bound, first, last = found
                lines.append(f"delta,{sender},{receiver},{bound},{first},{last}")
    return lines


def main():
    parser = argparse.ArgumentParser(prog="bench/oracles/each_oracle.py")
    parser.add_argument("file")
    parser.add_argument("--correct", required=True)
    parser.add_argument("--at", type=int)
    parser.add_argument("--until", type=int)
    asked = parser.parse_args()
    with open(asked.file, "rb") as opened:
        text = opened.read()
    try:
        print("\n".join(each(text, asked.correct, asked.at, asked.until)))
    except Refused as why:
        for line in why.args:
            print(f"synchrony: {line}", file=sys.stderr)
        return 2
    return 0


if __name__ == "__main__":
    sys.exit(main())
