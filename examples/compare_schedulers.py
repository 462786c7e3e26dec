#!/usr/bin/env python3
"""Which of two schedulers keeps the smaller bounds: a survey of 200 runs of each, as a test harness would make it.

    examples/compare_schedulers.py [--runs N] [--steps N] [--tick N] [--seed N]

The protocol: each of four processors sends to the next one in a ring, then receives, and so on. A Receive takes each
message that waits with a chance of three in four. One scheduler lets all four step in a random order before any steps
again; the other draws each step's processor anew. Printed are the least, the median and the greatest bounds that hold
from the tick on, over all runs of a scheduler. Without the library (`./library` builds it) it doesn't run.
"""
import argparse
import random
import sys
from pathlib import Path

sys.path.insert(0, str(Path(__file__).resolve().parent.parent / "python/src"))
import synchrony as sy

PROCESSORS = [1, 2, 3, 4]
CHANCE = 3 / 4


def in_turns(chance):
    """All of them in a random order, again and again."""
    while True:
        yield from chance.sample(PROCESSORS, len(PROCESSORS))


def at_random(chance):
    """Each time any of them."""
    while True:
        yield chance.choice(PROCESSORS)


def trace_of(schedule, steps, chance):
    """The trace text of so many steps of the protocol."""
    lines = [f"dls-trace,1,{len(PROCESSORS)},0", "init" + ",0" * len(PROCESSORS)]
    waiting, receives_next = {it: [] for it in PROCESSORS}, set()
    for number, processor in zip(range(1, steps + 1), schedule):
        if processor in receives_next:
            taken = [it for it in waiting[processor] if chance.random() < CHANCE]
            waiting[processor] = [it for it in waiting[processor] if it not in taken]
            lines.append(f"{number},{processor},R,{' '.join(map(str, taken))}")
        else:
            receiver = processor % len(PROCESSORS) + 1
            waiting[receiver].append(number)
            lines.append(f"{number},{processor},S,{receiver}")
        receives_next ^= {processor}
    return "\n".join([*lines, f"end,{steps}", ""]).encode()


def traces_of(words):
    """The traces of both schedulers, each with its scheduler's name, made as they are needed."""
    for schedule in (in_turns, at_random):
        chance = random.Random(words.seed)
        for _ in range(words.runs):
            yield schedule.__name__, trace_of(schedule(chance), words.steps, chance)


def main():
    words = argparse.ArgumentParser(description=__doc__.splitlines()[0])
    for name, usual in (("runs", 200), ("steps", 400), ("tick", 200), ("seed", 1)):
        words.add_argument(f"--{name}", type=int, default=usual)
    words = words.parse_args()
    print("scheduler,bound,least,median,greatest")
    # (the name of a trace is also its group)
    for it in sy.survey(traces_of(words), PROCESSORS, at=words.tick, group=str).groups():
        print(f"{it.group},{it.bound},{it.least},{it.median:g},{it.greatest}")


if __name__ == "__main__":
    main()
