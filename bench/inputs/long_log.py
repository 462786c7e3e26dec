#!/usr/bin/env python3
"""Writes a log of so many events of 16 nodes, to measure `import` with: half of them are sends, and nearly all that is sent
is received, some of it late.

    bench/inputs/long_log.py EVENTS [--stamps] [--coarse] [--long-names] [--shuffled] [--seed N] >FILE

Times are numbers, in which each node acts at most once at a time; with --stamps time stamps, a millisecond apart, which want
`--tick 1ms`. With --coarse five times are one, so that it wants `--spread`. With --shuffled the records are in any order.
"""
import argparse
import random
import sys

NODES = [f"node-{it}" for it in range(1, 17)]


def stamp(milliseconds):
    hours, rest = divmod(milliseconds, 3_600_000)
    return f"2026-11-{1 + hours // 24:02}T{hours % 24:02}:{rest // 60_000:02}:{rest // 1000 % 60:02}.{rest % 1000:03}Z"


def rows_of(words, chance):
    waiting, made, time = {it: [] for it in NODES}, 0, 0
    name = "a-message-with-a-name-as-long-as-some-identifiers-are-{}" if words.long_names else "m{}"
    while made < words.events:
        at = time // 5 * 5 if words.coarse else time
        text = stamp(at) if words.stamps else str(at)
        sent = []
        for node in NODES[: words.events - made]:
            made += 1
            if chance.random() < 0.5:
                to = NODES[int(chance.random() * len(NODES))]
                sent.append((to, name.format(made)))
                yield f"{text},{node},send,{to},{sent[-1][1]}\n"
            else:
                late = [it for it in waiting[node] if chance.random() < 0.1]
                yield f"{text},{node},receive,,{' '.join(it for it in waiting[node] if it not in late)}\n"
                waiting[node] = late
        for to, message in sent:
            waiting[to].append(message)
        time += 1


def main():
    words = argparse.ArgumentParser(description=__doc__.split("\n")[0])
    words.add_argument("events", type=int)
    for option in ("stamps", "coarse", "long-names", "shuffled"):
        words.add_argument(f"--{option}", action="store_true")
    words.add_argument("--seed", type=int, default=1)
    words = words.parse_args()
    chance = random.Random(words.seed)
    rows = rows_of(words, chance)
    if words.shuffled:
        rows = [*rows]
        chance.shuffle(rows)
    sys.stdout.write("time,node,event,to,message\n")
    sys.stdout.writelines(rows)


if __name__ == "__main__":
    main()
