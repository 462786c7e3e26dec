#!/usr/bin/env python3
"""What a page about a run reports, straight from the definitions: slow, and by plain loops.

    bench/oracles/story_oracle.py FILE --correct LIST|all

It reads a trace text that is right, finds the rows of its report, and prints, with places counted from 0:

    row gst delta phi sent missed proc from to      a row of the report
    calm PLACE poor|rich                            the row with the greatest (L - gst + 1)^2 / (delta phi), the first of several
    headline CASE NUMBERS                           the first case that applies
    stall proc from to FIRST LAST                   a silence, and the rows that name it
    delay sent missed FIRST LAST MESSAGES           alike misses, and the rows that name them
    evidence STALL DELAY FIRST LAST                 the places of its stall and of its delay, in the order of the page
    shown FIRST TO                                  the ticks in which its picture shows it, before they are cut in two
    ended PLACE SILENCE                             evidence of a delay alone, and that of the silence that ended shortly before
    brief PLACE MISS GAP                            a row that names other evidence than the row before
    lost COUNT RECEIVERS                            the few receivers of most lost messages, and how many are theirs

What isn't there is "-".
"""
import argparse
import sys
from fractions import Fraction

sys.dont_write_bytecode = True
from each_oracle import members_of, read_trace

SHORT_RUN = 20
# A message that is taken fewer ticks after its miss than the miss is long, or than this, is shown to its end.
NEAR_TICKS = 20
# A silence may have made a message late if it was so many times as long as the miss, and ended so many lengths of the miss before
# its Send at most.
MUCH, SHORTLY = 4, 2
# What is added at both ends of a picture: a seventh of it, and at least four ticks.
MARGIN_PART, LEAST_MARGIN = 7, 4


def report_rows(trace, members):
    """The rows: least bounds from each tick on, where they change, with the named witnesses."""
    tick = lambda no: trace.steps[no - 1][0]
    sender = lambda no: trace.steps[no - 1][1]
    taker = {s: no for no, ids in trace.receives.items() for s in ids}
    misses = []
    for s, to in trace.sends.items():
        if sender(s) in members and to in members:
            for no in trace.receives:
                if sender(no) == to and tick(s) < tick(no) and not (s in taker and tick(taker[s]) <= tick(no)):
                    misses.append((s, no))
    gaps = []
    for p in members:
        busy = {at for at, q in trace.steps if q == p}
        for start in range(1, trace.last + 1):
            for end in range(start, trace.last + 1):
                if end in busy:
                    break
                gaps.append((p, start, end))
    rows, before = [], None
    for g in range(1, trace.last + 1):
        late = [(tick(no) - tick(s), tick(s), s, no) for s, no in misses if tick(s) >= g]
        quiet = [(end - start + 1, start, -p, end) for p, start, end in gaps if start >= g]
        delta, phi = 1 + max([it[0] for it in late], default=0), 1 + max([it[0] for it in quiet], default=0)
        if (delta, phi) != before:
            miss = max(it[1:] for it in late if it[0] == delta - 1)[1:] if delta > 1 else None
            gap = max(it[1:] for it in quiet if it[0] == phi - 1) if phi > 1 else None
            rows.append((g, delta, phi, miss, (-gap[1], gap[0], gap[2]) if gap else None))
            before = (delta, phi)
    return rows


def runs_of(count, goes_on):
    """From each row that is free, the longest run of rows that go on with it: pairs of the first place and the last."""
    runs, first = [], 0
    while first < count:
        if not goes_on(first, first):
            first += 1
            continue
        last = first
        while last + 1 < count and all(goes_on(first, k) for k in range(first, last + 2)) and goes_on(first, last + 1):
            last += 1
        runs.append((first, last))
        first = last + 1
    return runs


def stall_runs(rows):
    same = lambda a, b: a and b and (a[0], a[2]) == (b[0], b[2])
    return runs_of(len(rows), lambda first, k: bool(same(rows[first][4], rows[k][4])))


def delay_runs(trace, rows):
    tick = lambda no: trace.steps[no - 1][0]
    sender = lambda no: trace.steps[no - 1][1]
    taken = {s for ids in trace.receives.values() for s in ids}

    def goes_on(first, k):
        if not rows[first][3] or not all(rows[j][3] for j in range(first, k + 1)):
            return False
        m, o = rows[first][3], rows[k][3]
        if k == first:
            return True
        if m[0] not in taken:
            return o[0] not in taken
        messages = [rows[j][3][0] for j in range(first, k + 1)]
        return o[0] in taken and tick(o[0]) <= tick(m[1]) and (len({trace.sends[s] for s in messages}) == 1 or len({sender(s) for s in messages}) == 1)

    return runs_of(len(rows), goes_on)


def evidence_of(trace, rows, stalls, delays):
    """Triples of a stall, a delay (by places, or None) and their rows, in order."""
    tick = lambda no: trace.steps[no - 1][0]

    def explains(stall, delay):
        (p, start, end), (s, no) = rows[stall[0]][4], rows[delay[0]][3]
        shared = min(end, tick(no)) - max(start, tick(s)) + 1
        return delay[0] <= stall[1] and stall[0] <= delay[1] and p == trace.sends[s] and tick(no) - tick(s) <= 2 * max(0, shared)

    found, joined = [], set()
    for i, stall in enumerate(stalls):
        j = next((j for j, delay in enumerate(delays) if explains(stall, delay)), None)
        joined.add(j)
        found.append((i, j))
    found += [(None, j) for j in range(len(delays)) if j not in joined]

    def placed(pair):
        runs = [it for it in (stalls[pair[0]] if pair[0] is not None else None, delays[pair[1]] if pair[1] is not None else None) if it]
        long = 0
        if pair[0] is not None:
            _, start, end = rows[stalls[pair[0]][0]][4]
            long = end - start + 1
        if pair[1] is not None:
            s, no = rows[delays[pair[1]][0]][3]
            long = max(long, tick(no) - tick(s))
        return min(it[0] for it in runs), max(it[1] for it in runs), long

    return sorted(((*pair, *placed(pair)) for pair in found), key=lambda it: (it[2], -it[4]))


def shown_ticks(trace, rows, stalls, delays, piece):
    """The first and the last tick in which a piece of evidence is shown."""
    tick = lambda no: trace.steps[no - 1][0]
    ends = []
    if piece[0] is not None:
        _, start, end = rows[stalls[piece[0]][0]][4]
        ends += [start - 1, end + 1]
    if piece[1] is not None:
        s, no = rows[delays[piece[1]][0]][3]
        ends += [tick(s), tick(no)]
        taken = [tick(other) for other, ids in trace.receives.items() if s in ids]
        if taken and taken[0] - tick(no) < max(tick(no) - tick(s), NEAR_TICKS):
            ends += taken
    margin = max((max(ends) - min(ends)) // MARGIN_PART, LEAST_MARGIN)
    return max(min(ends) - margin, 1), min(max(ends) + margin, trace.last)


def ended_silence(trace, rows, stalls, delays, evidence, delay):
    """The first evidence whose silence may have made a delay's message late; None if there is none."""
    tick = lambda no: trace.steps[no - 1][0]
    s, no = rows[delays[delay][0]][3]
    late = tick(no) - tick(s)
    for place, (stall, *_) in enumerate(evidence):
        if stall is not None:
            node, start, end = rows[stalls[stall][0]][4]
            if node in (trace.steps[s - 1][1], trace.sends[s]) and end - start + 1 >= MUCH * late and tick(s) - SHORTLY * late <= end < tick(no):
                return place
    return None


def lost_messages(trace, members):
    """The messages between members that are never taken, though their receivers receive in a later tick."""
    tick = lambda no: trace.steps[no - 1][0]
    sender = lambda no: trace.steps[no - 1][1]
    taken = {s for ids in trace.receives.values() for s in ids}
    later = lambda s: any(sender(no) == trace.sends[s] and tick(no) > tick(s) for no in trace.receives)
    return [s for s, to in trace.sends.items() if sender(s) in members and to in members and s not in taken and later(s)]


def lost_receivers(trace, members):
    """The fewest receivers of 80 per cent of the lost messages, those with the most first, and how many are theirs. None if fewer
    than ten are lost, or these receivers are more than a quarter of the members."""
    to = [trace.sends[s] for s in lost_messages(trace, members)]
    who, got = [], 0
    for node in sorted(set(to), key=lambda it: (-to.count(it), it)):
        if got < Fraction(80, 100) * len(to):
            who.append(node)
            got += to.count(node)
    return (sorted(who), got) if len(to) >= 10 and len(who) <= Fraction(len(members), 4) else None


def calm_place(rows, last):
    score = lambda row: Fraction((last - row[0] + 1) ** 2, row[1] * row[2])
    return max(range(len(rows)), key=lambda k: (score(rows[k]), -k)) if rows else None


def headline(trace, members, rows, calm):
    tick = lambda no: trace.steps[no - 1][0]
    taken = {s for ids in trace.receives.values() for s in ids}
    g, delta, phi, miss, gap = rows[calm]
    if not members:
        return "no-member",
    if not trace.steps:
        return "no-step",
    if trace.last - g + 1 >= 3 * max(delta, phi):
        sent = any(tick(s) >= g and trace.steps[s - 1][1] in members and to in members for s, to in trace.sends.items())
        return "calm", "sent" if sent else "unsent"
    if trace.last < SHORT_RUN:
        return "short", rows[0][1], rows[0][2]
    if gap and phi >= delta and gap[2] == trace.last:
        own = [no for no, (_, p) in enumerate(trace.steps, 1) if p == gap[0]]
        return "silent-to-end", gap[0], max(own, default=None)
    if miss and miss[0] not in taken:
        return "never-received",
    return ("silence", phi - 1) if phi >= delta else ("late", delta - 1)


def shown(*words):
    return " ".join("-" if it is None else str(it) for it in words)


def story(trace, members):
    rows = report_rows(trace, members)
    stalls, delays = stall_runs(rows), delay_runs(trace, rows)
    for g, delta, phi, miss, gap in rows:
        yield shown("row", g, delta, phi, *(miss or (None, None)), *(gap or (None, None, None)))
    calm = calm_place(rows, trace.last)
    if calm is not None:
        g, delta, phi, *_ = rows[calm]
        yield shown("calm", calm, "poor" if trace.last - g + 1 < 3 * max(delta, phi) else "rich")
        yield shown("headline", *headline(trace, members, rows, calm))
    for first, last in stalls:
        yield shown("stall", *rows[first][4], first, last)
    for first, last in delays:
        messages = [rows[k][3][0] for k in range(first, last + 1)]
        yield shown("delay", *rows[first][3], first, last, 1 + sum(a != b for a, b in zip(messages, messages[1:])))
    evidence = evidence_of(trace, rows, stalls, delays)
    for stall, delay, first, last, _ in evidence:
        yield shown("evidence", stall, delay, first, last)
        yield shown("shown", *shown_ticks(trace, rows, stalls, delays, (stall, delay)))
    for place, (stall, delay, *_) in enumerate(evidence):
        if stall is None:
            yield shown("ended", place, ended_silence(trace, rows, stalls, delays, evidence, delay))
    before = None
    for k in range(len(rows)):
        has = lambda run: run is not None and run[0] <= k <= run[1]
        named = (
            next((e for e, it in enumerate(evidence) if it[1] is not None and has(delays[it[1]])), None),
            next((e for e, it in enumerate(evidence) if it[0] is not None and has(stalls[it[0]])), None),
        )
        if k == 0 or named != before:
            yield shown("brief", k, *named)
        before = named
    found = lost_receivers(trace, members)
    if found:
        yield shown("lost", found[1], *found[0])


def main():
    parser = argparse.ArgumentParser(description=__doc__, formatter_class=argparse.RawDescriptionHelpFormatter)
    parser.add_argument("file")
    parser.add_argument("--correct", required=True)
    options = parser.parse_args()
    with open(options.file, "rb") as file:
        trace = read_trace(file.read())
    members = set() if options.correct == "none" else set(members_of(options.correct, trace.processors))
    print("\n".join(story(trace, members)))


if __name__ == "__main__":
    main()
