#!/usr/bin/env python3
"""A rotating coordinator over random schedules: the protocol as it should be, and with a bug that is found and made small.

    examples/rotating_coordinator.py [--runs N] [--trace FILE]

In round r processor (r - 1) mod n + 1 leads. Each processor sends the leader its estimate, with the round in which it was
taken. A leader that has heard a majority proposes the estimate of the latest round; who hears the proposal takes it, and says
so; and what a majority has taken is decided. All of it rests on that choice. With the bug a leader proposes the first
estimate that it has heard. Printed is what the runs decided, and of the bug the smallest schedule that still shows it; its
trace is written into FILE. Without the library (`./library` builds it) it doesn't run.
"""
import argparse
import random
import sys
from pathlib import Path

sys.path.insert(0, str(Path(__file__).resolve().parent.parent / "python/src"))
import synchrony as sy
from synchrony import Decide, Receive, Schedule, broadcast

TICKS = 1500


def latest(estimates):
    """The estimate of the latest round, and so each that may be decided already."""
    return max(estimates, key=lambda it: it[1])[0]


def first(estimates):
    """The bug: an estimate of whatever round."""
    return estimates[0][0]


def wait(inbox, wanted, count, patience):
    """Receives until so many messages of the wanted kind and round are there, at most so often. The bodies of those."""
    found = lambda: [body[2:] for body in inbox if body[:2] == wanted]
    while len(found()) < count and patience:
        patience -= 1
        inbox += [body for _, body in (yield Receive())]
    return found() if len(found()) >= count else []


def coordinated(choose):
    """The protocol, with a leader that chooses so among the estimates of a majority."""

    def node(me, n, value):
        estimate, taken, round_no, inbox, has_decided = value, 0, 0, [], False
        majority = n // 2 + 1
        while True:
            round_no += 1
            leader, patience = (round_no - 1) % n + 1, 4 + 2 * round_no
            yield sy.Send(leader, ("estimate", round_no, estimate, taken))
            if me == leader:
                estimates = yield from wait(inbox, ("estimate", round_no), majority, patience)
                if estimates:
                    yield from broadcast(n, ("proposal", round_no, choose(estimates)))
            proposals = yield from wait(inbox, ("proposal", round_no), 1, patience)
            if proposals:
                (estimate,), taken = proposals[0], round_no
                yield sy.Send(leader, ("taken", round_no))
            if me == leader and proposals and (yield from wait(inbox, ("taken", round_no), majority, patience)):
                yield from broadcast(n, ("decided", 0, estimate))
            decided = [body[2] for body in inbox if body[0] == "decided"]
            if decided and not has_decided:
                has_decided = True
                yield Decide(decided[0])
            # (messages of rounds that are over serve nobody)
            inbox = [body for body in inbox if body[1] > round_no]

    return node


def random_case(seed):
    """Initial values and a schedule: up to a minority crashes, one of them in the middle of a broadcast."""
    chance = random.Random(seed)
    n = chance.choice([3, 4, 5])
    crashed = {n: chance.randint(1, 300), n - 1: sy.AfterSends(chance.randint(1, 20))}
    kept = list(crashed)[: chance.randint(0, (n - 1) // 2)]
    schedule = Schedule(
        gst=chance.choice([1, 50, 200]), delta=chance.randint(1, 6), phi=chance.randint(1, 6), seed=seed, loss=0.3, crashed={it: crashed[it] for it in kept}
    )
    return [chance.randint(0, 3) for _ in range(n)], schedule


def runs_of(node, count):
    """The runs over so many random cases, each with its initial values."""
    for seed in range(count):
        values, schedule = random_case(seed)
        yield values, sy.simulate(node, values, schedule, TICKS)


def tell_right(count):
    kept = agree = valid = all_decided = latest_decision = 0
    for values, run in runs_of(coordinated(latest), count):
        kept += bool(run.check())
        agree += len(run.values_decided()) <= 1
        valid += set(run.values_decided()) <= set(values)
        all_decided += set(run.correct) <= set(run.decided())
        latest_decision = max([latest_decision, *(it.tick - run.schedule.gst for it in run.decisions if it.proc in run.correct)])
    print(f"as it should be: {count} runs; bounds kept in {kept}, one value at most in {agree}, somebody's value in {valid}")
    print(f"all correct processors decide in {all_decided}, at most {latest_decision} ticks after gst")


def tell_wrong(count, file):
    node = coordinated(first)
    found = [(values, run.schedule) for values, run in runs_of(node, count) if len(run.values_decided()) > 1]
    print(f"with the bug: {len(found)} of {count} runs decide two values")
    if not found:
        return
    values, schedule = found[0]
    disagrees = lambda it: len(sy.simulate(node, values, it, TICKS).values_decided()) > 1
    small = sy.smallest(schedule, disagrees)
    run = sy.simulate(node, values, small, TICKS)
    print(f"the first one, made small: values {values}, gst {small.gst}, delta {small.delta}, phi {small.phi}, loss {small.loss}, crashed {dict(small.crashed)}")
    print(f"the bounds were kept, {run.check()}")
    for value in run.values_decided():
        it = next(it for it in run.decisions if it.value == value)
        print(f"processor {it.proc} decides {value} at tick {it.tick}")
    if file:
        file.write_bytes(run.trace)


def main():
    words = argparse.ArgumentParser(description=__doc__.splitlines()[0])
    words.add_argument("--runs", type=int, default=200)
    words.add_argument("--trace", type=Path, metavar="FILE")
    words = words.parse_args()
    tell_right(words.runs)
    tell_wrong(words.runs, words.trace)


if __name__ == "__main__":
    main()
