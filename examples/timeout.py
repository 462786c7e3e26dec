#!/usr/bin/env python3
"""Prints the trace with the worst luck for a timeout: no smaller number of ticks is enough.

    examples/timeout.py HEARTBEAT POLL DELTA

Processor 1 leads, and processor 2 follows. From tick 1 on each HEARTBEAT ticks in a row hold a Send of 1 to 2, each POLL
ticks a Receive of 2, and the least communication bound is DELTA, each at least 1. A message is sent in tick 1 and taken in
tick 2. The next one is sent HEARTBEAT ticks after the first. DELTA - 1 ticks later the follower receives, and misses it
still. POLL ticks later it receives again, and takes it. So after tick 2 it waits HEARTBEAT + POLL + DELTA - 2 ticks.
"""
import sys


def worst_trace(heartbeat, poll, delta):
    second = 1 + heartbeat
    missed = second + delta - 1
    last = missed + poll
    rows, waiting = [], []
    for tick in range(1, last + 1):
        arrived = list(waiting)
        if tick == 1 or tick >= second:
            rows.append(f"{tick},1,S,2")
            waiting.append((len(rows), tick))
        if tick <= missed or tick == last:
            # (until then only the first message is taken)
            taken = [no for no, sent in arrived if sent == 1 or tick == last]
            waiting = [it for it in waiting if it[0] not in taken]
            rows.append(f"{tick},2,R,{' '.join(map(str, taken))}")
    numbered = [f"{no},{row}" for no, row in enumerate(rows, 1)]
    return ["dls-trace,2,2,0", "init,0,0", *numbered, f"end,{last}"]


if __name__ == "__main__":
    if len(sys.argv) != 4:
        sys.exit(__doc__)
    print(*worst_trace(*map(int, sys.argv[1:])), sep="\n")
