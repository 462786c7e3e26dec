#!/usr/bin/env python3
"""Writes the trace text of a run in which messages wait for long, in version 1.

    bench/inputs/waiting_traces.py STEPS ORDER >FILE

There are two processors. The first one goes on alone, while what it sends waits for both; then each takes what waits for
it, in the stated order: one at a time, a hundred in a step or all in one.
"""
import random
import sys

# The share of the steps that the first processor makes alone, and how many messages `hundreds` takes in a step.
ALONE = 0.7
MANY = 100


def singly(ids):
    return [[it] for it in ids]


def at_random(ids):
    return singly(random.Random(7).sample(ids, len(ids)))


def from_the_middle(ids):
    half = len(ids) // 2
    return singly(it for pair in zip(ids[half:], reversed(ids[:half])) for it in pair)


def from_both_ends(ids):
    return [[ids[at], ids[-1 - at]] for at in range(len(ids) // 2)]


def hundreds(ids):
    """Every other id, and afterwards the others."""
    return [ids[at + first:at + 2 * MANY:2] for first in (0, 1) for at in range(0, len(ids), 2 * MANY)]


# What each step takes of the ids that wait for a processor.
ORDERS = {
    "oldest-first": singly,
    "second-oldest": lambda ids: singly(ids[1:]),
    "newest-first": lambda ids: singly(reversed(ids)),
    "both-ends": from_both_ends,
    "hundreds": hundreds,
    "all": lambda ids: [ids],
    "at-random": at_random,
    "middle-outwards": from_the_middle,
}


class Run:
    """The steps so far, and what waits for whom."""

    def __init__(self):
        self.steps, self.waiting = [], {1: [], 2: []}

    def make(self, processor, act, argument=""):
        self.steps.append(f"{len(self.steps) + 1},{processor},{act},{argument}")

    def send(self, to):
        self.make(1, "S", to)
        self.waiting[to].append(len(self.steps))

    def make_phase(self, owner):
        """The four rounds of a phase of the first processor, which hears of nobody."""
        self.send(owner)
        for _ in range(3):
            self.make(1, "E")
        self.send(1)
        self.send(2)
        self.make(1, "E")


def run_of(steps, order):
    run, phase = Run(), 0
    while len(run.steps) < ALONE * steps:
        run.make_phase(phase % 2 + 1)
        phase += 1
    taken = [(processor, some) for processor, ids in run.waiting.items() for some in ORDERS[order](ids)]
    for processor, some in taken[:steps - len(run.steps)]:
        run.make(processor, "R", " ".join(map(str, some)))
    return run.steps


def write_waiting(file, steps, order):
    made = run_of(steps, order)
    file.write("dls-trace,1,2,0\ninit,5,7\n")
    file.writelines(f"{step}\n" for step in made)
    file.write(f"end,{len(made)}\n")


if __name__ == "__main__":
    if len(sys.argv) != 3 or not sys.argv[1].isdecimal() or sys.argv[2] not in ORDERS:
        sys.exit(f"usage: bench/inputs/waiting_traces.py STEPS ORDER, which is one of {', '.join(ORDERS)}")
    write_waiting(sys.stdout, int(sys.argv[1]), sys.argv[2])
