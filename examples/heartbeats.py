#!/usr/bin/env python3
"""Writes the log of a leader that sends heartbeats to three followers, of which one is slow for a while.

    examples/heartbeats.py >examples/heartbeats.log

Times are in milliseconds, and no node acts twice within one of the log's ticks of 5. The leader a goes round: a heartbeat
to b, to c and to d, and then it receives the answers that have come. A follower goes round: it receives what has come, and
answers. Each node lets some ticks pass, but never two in a row, save for d, which is slow from the 6th tick to the 13th: it
acts in every fourth. A message comes in the second tick after that in which it was sent, and one to d while d is slow a
tick later still. The same log comes each time.
"""
import random

TICKS = 30
TICK = 5
START = 1000
SLOW = range(6, 14)
SLOW_TURNS = (8, 12)


def acts(chance, node, tick, acted):
    """Whether a node acts in a tick, if it acted in this one last."""
    if node == "d" and tick in SLOW:
        return tick in SLOW_TURNS
    return tick - acted > 1 or chance.random() < (0.5 if node == "a" else 0.2)


def turn_of(node, turn):
    """What a node does in its next turn: whom it sends to, None for a receive."""
    if node == "a":
        return (*"bcd", None)[turn % 4]
    return (None, "a")[turn % 2]


def main():
    chance = random.Random(4)
    acted, turns, coming, rows = dict.fromkeys("abcd", 0), dict.fromkeys("abcd", 0), [], []
    for tick in range(1, TICKS + 1):
        for node in "abcd":
            if not acts(chance, node, tick, acted[node]):
                continue
            to = turn_of(node, turns[node])
            acted[node], turns[node] = tick, turns[node] + 1
            # (the first tick begins with the first event)
            time = START + (tick - 1) * TICK + (int(chance.random() * TICK) if tick > 1 else 0)
            if to:
                name = f"{'beat' if node == 'a' else 'answer'}{sum(it[2] == 'send' for it in rows) + 1}"
                coming.append((tick + 2 + (to == "d" and tick in SLOW), to, name))
                rows.append((time, node, "send", to, name))
            else:
                come = [it for it in coming if it[0] <= tick and it[1] == node]
                coming = [it for it in coming if it not in come]
                rows.append((time, node, "receive", "", " ".join(it[2] for it in come)))
    print("time,node,event,to,message")
    for row in sorted(rows):
        print(*row, sep=",")


if __name__ == "__main__":
    main()
