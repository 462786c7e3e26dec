#!/usr/bin/env python3
"""The marks of a picture of a run, by plain loops: what is drawn of a trace and its report in a window of ticks.

    bench/oracles/picture_marks.py TRACE REPORT [--from TICK] [--to TICK] [--names A,B,..] [--lanes A,B,..]
    bench/oracles/picture_marks.py --self-test

Without --from and --to the window shows the first evidence (`story_oracle.py`), if there is any. The first prints the
window and each list of marks, or the fault line with status 2. The second tries chosen traces whose marks were worked
out by hand, with the reports of `oracle.rs` (of `plain/` if the trace is long), and ends with 'N passed, M failed'. It
needs `rustc`.

What lasts from tick a to tick b touches the window if a is not after its end and b not before its beginning.

- *Steps*: those whose tick is in the window.
- *Messages*: a Send with the Receive that takes it, or none. It lasts from the one to the other, and in the tick of the Send
  if nobody takes it.
- *Misses*: that of a row, from the tick of its Send to that of its Receive, unless the row before has the same.
- *Gaps*: that of a row, unless the row before has one of the same processor with the same end.
- *Corners*: the rows but those before and after which there is one in the same of a thousand columns of ticks.
- *Strokes*: for each processor the longest runs of columns in which it makes steps, of a thousand for all ticks, or of one for
  each tick if there are fewer.
- *Stalls*: the gaps of a window of all ticks.

With --lanes only steps and gaps of those processors are marks, and messages and misses from one of them to one of them.
"""
import argparse
import os
import subprocess
import sys
import tempfile
from dataclasses import dataclass, field
from types import SimpleNamespace

sys.dont_write_bytecode = True
BENCH = os.path.dirname(os.path.dirname(os.path.realpath(__file__)))
EXAMPLES = os.path.join(os.path.dirname(BENCH), "examples")
sys.path.insert(1, BENCH)
import story_oracle
from building import built

COLUMNS = 1000
TICKS_SHOWN, MOST_TICKS = 100, 1000
MOST_MESSAGES, MOST_WITNESSES = 10_000, 1_000
MOST_NAME_BYTES = 64
MOST_PROCESSORS = 64


class Refused(Exception):
    """What a fault line says about the options."""


@dataclass
class Trace:
    processors: int
    # Of each step, from number 1 on: its tick, its processor, and the ids that it takes, None of a Send.
    steps: list
    last: int
    # Of each Send by its number: whom it is for. And the numbers of the Receives that end a round.
    sends: dict
    ends: set


@dataclass
class Row:
    gst: int
    delta: int
    phi: int
    # The numbers of a Send and of a Receive.
    miss: object
    # A processor, and two ticks.
    gap: object


@dataclass
class Picture:
    window: object
    steps: list
    messages: list
    misses: list
    gaps: list
    corners: list
    # Of each processor the first column of each stroke and the one after it.
    strokes: dict = field(default_factory=dict)
    stalls: list = field(default_factory=list)


def read_trace(path):
    """The trace of a text that is right, of either version."""
    with open(path) as opened:
        header, _, *rows = [line.rstrip("\n").split(",") for line in opened]
    steps, sends, ends = [], {}, set()
    for no, row in enumerate(rows[:-1], 1):
        tick, processor, act, argument = row[-4:] if header[1] == "1" else row[1:]
        steps.append((int(tick), int(processor), None if act == "S" else [int(it) for it in argument.split()]))
        if act == "S":
            sends[no] = int(argument)
        if act == "E":
            ends.add(no)
    return Trace(int(header[2]), steps, int(rows[-1][1]), sends, ends)


def read_report(path):
    rows = []
    with open(path) as opened:
        for line in opened.readlines()[1:]:
            gst, delta, phi, *rest = [int(it) if it else None for it in line.rstrip("\n").split(",")]
            rows.append(Row(gst, delta, phi, rest[:2] if rest[0] else None, rest[2:] if rest[2] else None))
    return rows


# Options


def window_of(last, first, to):
    """The first and the last tick that are drawn, None if the trace has no tick."""
    first = 1 if first is None else first
    if last == 0:
        if first != 1:
            raise Refused("bad --from")
        return None
    if not 1 <= first <= last:
        raise Refused("bad --from")
    to = min(first + TICKS_SHOWN - 1, last) if to is None else min(to, last)
    if not first <= to <= first + MOST_TICKS - 1:
        raise Refused("bad --to")
    return first, to


def evidence_window(trace, rows):
    """The ticks in which the first evidence is shown, as many as are drawn; None if there is none."""
    receives = {no: step[2] for no, step in enumerate(trace.steps, 1) if step[2] is not None}
    run = SimpleNamespace(last=trace.last, steps=[step[:2] for step in trace.steps], sends=trace.sends, receives=receives)
    listed = [(row.gst, row.delta, row.phi, row.miss and tuple(row.miss), row.gap and tuple(row.gap)) for row in rows]
    stalls, delays = story_oracle.stall_runs(listed), story_oracle.delay_runs(run, listed)
    evidence = story_oracle.evidence_of(run, listed, stalls, delays)
    if not evidence:
        return None
    first, to = story_oracle.shown_ticks(run, listed, stalls, delays, evidence[0][:2])
    return first, min(to, first + MOST_TICKS - 1)


def drawn_window(trace, rows, first, to):
    """The ticks that are drawn: if none are asked for, those of the first evidence."""
    asked = window_of(trace.last, first, to)
    return first is None and to is None and evidence_window(trace, rows) or asked


def names_of(names, processors):
    """The labels of the lanes."""
    if names is None:
        return [str(it) for it in range(1, processors + 1)]
    labels = names.split(",")
    if len(labels) != processors or len({*labels}) != len(labels):
        raise Refused("bad --names")
    for it in labels:
        is_long = not 1 <= len(it.encode()) <= MOST_NAME_BYTES
        if is_long or any(ord(char) < 32 or ord(char) == 127 or char in "\ufffe\uffff" for char in it):
            raise Refused("bad --names")
    return labels


def lanes_of(lanes, names, processors):
    """The processors whose lanes are drawn, each by its name or else by its number."""
    if lanes is None:
        return {*range(1, processors + 1)}
    named = {name: it for it, name in enumerate(names.split(","), 1)} if names else {}
    numbered = {str(it): it for it in range(1, MOST_PROCESSORS + 1)}
    found = [named.get(it) or numbered.get(it) for it in lanes.split(",")]
    for it in found:
        if it is None:
            raise Refused("bad --lanes")
        if it > processors:
            raise Refused("no such processor in --lanes")
    return {*found}


# Marks


def picture_of(trace, rows, window, lanes=None):
    """The marks, for these lanes, or for all."""
    if window is None:
        return Picture(None, [], [], [], [], [])
    first, to = window
    touches = lambda start, end: start <= to and first <= end
    tick = {no: step[0] for no, step in enumerate(trace.steps, 1)}
    takers = {id: no for no, step in enumerate(trace.steps, 1) for id in step[2] or []}
    picture = Picture(window, [], [], [], [], [])
    lanes = {*range(1, trace.processors + 1)} if lanes is None else lanes
    drawn = lambda *processors: lanes.issuperset(processors)
    for no, (at, processor, takes) in enumerate(trace.steps, 1):
        if touches(at, at) and drawn(processor):
            picture.steps.append(no)
        if takes is None and touches(at, tick[takers.get(no, no)]) and drawn(processor, trace.sends[no]):
            picture.messages.append((no, takers.get(no)))
    for before, row in zip([None, *rows], rows):
        if row.miss and touches(tick[row.miss[0]], tick[row.miss[1]]) and not (before and before.miss == row.miss):
            if drawn(*(trace.steps[no - 1][1] for no in row.miss)):
                picture.misses.append(row)
        if row.gap and not (before and before.gap and before.gap[::2] == row.gap[::2]) and drawn(row.gap[0]):
            picture.stalls.append(row)
            if touches(row.gap[1], row.gap[2]):
                picture.gaps.append(row)
    columns = [(row.gst - 1) * COLUMNS // trace.last for row in rows]
    for at, row in enumerate(rows):
        if not (0 < at < len(rows) - 1 and columns[at - 1] == columns[at] == columns[at + 1]):
            picture.corners.append(row)
    picture.strokes = {it: strokes_of(trace, it) for it in lanes}
    return picture


def strokes_of(trace, processor):
    """The strokes of a processor."""
    columns = min(trace.last, COLUMNS)
    busy = {(tick - 1) * columns // trace.last for tick, p, _ in trace.steps if p == processor}
    firsts = [it for it in range(columns) if it in busy and it - 1 not in busy]
    ends = [it for it in range(1, columns + 1) if it - 1 in busy and it not in busy]
    return [*zip(firsts, ends)]


def written(picture):
    """How many messages, misses and gaps are written; for the others there is their number."""
    return min(len(picture.messages), MOST_MESSAGES), min(len(picture.misses), MOST_WITNESSES), min(len(picture.gaps), MOST_WITNESSES)


def lines_of(picture):
    yield f"window {' '.join(map(str, picture.window)) if picture.window else 'none'}"
    yield f"steps {' '.join(map(str, picture.steps))}"
    yield f"messages {' '.join(f'{send}-{taker or str()}' for send, taker in picture.messages)}"
    yield f"misses {' '.join(f'{row.miss[0]},{row.miss[1]}' for row in picture.misses)}"
    yield f"gaps {' '.join(','.join(map(str, row.gap)) for row in picture.gaps)}"
    yield f"corners {' '.join(str(row.gst) for row in picture.corners)}"


# The self-test


def ones(first, last):
    return " ".join(map(str, range(first, last + 1)))


EDGES = "dls-trace,2,2,0\ninit,5,7\n1,1,1,S,2\n2,2,1,S,2\n3,3,1,S,2\n4,6,2,R,\n5,9,2,R,1 3\nend,12\n"
EDGES_CORNERS = "1 3 4 5 6 7 8 9 10 11 12"
LONELY = "dls-trace,2,2,0\ninit,5,7\n1,1,1,R,\nend,5000\n"
# Processor 1 steps in these ticks.
RARE = "dls-trace,2,2,0\ninit,5,7\n" + "".join(f"{no},{tick},1,R,\n" for no, tick in enumerate([1, 20, 40, 61, 80, 100], 1)) + "end,100\n"
SELDOM = "dls-trace,2,2,0\ninit,5,7\n" + "".join(f"{no},{tick},1,R,\n" for no, tick in enumerate([1, 2000, 4000, 5000], 1)) + "end,5000\n"
SENDS = "dls-trace,1,2,0\ninit,5,7\n" + "".join(f"{no},1,S,2\n" for no in range(1, 500_001))
# Traces by their names in examples/, or by their texts; the set, the window, and what the lists are: steps, messages,
# misses, gaps and corners. A number says only how many there are. Last, if not all lanes are drawn, those that are.
CHOSEN = [
    ("one-miss", "1,2", (1, 3), "1 2 3", "1-3", "1,2", "1,2,3", "1 2 3"),
    ("one-miss", "none", (1, 3), "1 2 3", "1-3", "", "", "1"),
    ("decides-seven", "1,2,3", (1, 18), ones(1, 18), "1-4 2-4 3-4 7-10 8-11 9-12 13-16 14-16 15-16", "", "3,7,11 1,17,18", "1 8 9 10 18"),
    ("decides-seven", "1,2,3", (None, None), ones(2, 16), "1-4 2-4 3-4 7-10 8-11 9-12 13-16 14-16 15-16", "", "3,7,11", "1 8 9 10 18"),
    ("lost-lock", "1,2,3", (9, 20), ones(9, 20), "13-22 14-23 15-24 16-22 17-23 18-24 19-22 20-23", "", "1,16,21", "1 17 32 34 38 39 41"),
    ("never-delivered", "1,2", (5, 5), "5", "", "1,5", "1,4,5", "1 2 5"),
    ("heartbeats", "1,2,3,4", (10, 12), ones(22, 27), "14-25 16-25 18-24 19-25 21-25 22-36 23-38 26-38", "22,27", "4,9,11", "1 10 11 27"),
    ("heartbeats", "1,2,3,4", (12, 12), ones(25, 27), "14-25 16-25 19-25 21-25 22-36 23-38 26-38", "22,27", "", "1 10 11 27"),
    (EDGES, "1,2", (1, 12), ones(1, 5), "1-5 2- 3-5", "2,5 3,4", "1,4,12", EDGES_CORNERS),
    (EDGES, "1,2", (None, None), ones(1, 5), "1-5 2- 3-5", "2,5 3,4", "1,4,12", EDGES_CORNERS),
    (EDGES, "none", (None, None), ones(1, 5), "1-5 2- 3-5", "", "", "1"),
    (EDGES, "1,2", (4, 5), "", "1-5 3-5", "2,5 3,4", "1,4,12", EDGES_CORNERS),
    (EDGES, "1,2", (10, 12), "", "", "", "1,4,12", EDGES_CORNERS),
    (LONELY, "1", (1, None), "1", "", "", "1,2,5000", 2000),
    (RARE, "1", (None, None), "3 4", "", "", "1,41,60", f"1 42 {ones(82, 100)}"),
    (SELDOM, "1", (None, None), "2", "", "", "1,2001,3999", 802),
    (f"{SENDS}500001,2,R,\nend,500001\n", "1,2", (250_000, 250_099), ones(250_000, 250_099), " ".join(f"{no}-" for no in range(250_000, 250_100)), 250_099, "2,1,500000", 2000),
    (f"{SENDS}500001,2,R,{ones(1, 500_000)}\nend,500001\n", "1,2", (250_000, 250_099), ones(250_000, 250_099), 250_099, "", "2,1,500000", 2000),
    ("no-steps", "1,2", (None, None), "", "", "", "", ""),
    ("decides-seven", "1,2,3", (1, 18), "1 3 4 6 7 8 9 10 12 13 15 16 18", "1-4 3-4 7-10 9-12 13-16 15-16", "", "3,7,11 1,17,18", "1 8 9 10 18", "1,3"),
    ("decides-seven", "1,2,3", (1, 18), "2 5 11 14 17", "", "", "", "1 8 9 10 18", "2"),
    (EDGES, "1,2", (1, 12), "4 5", "", "", "", EDGES_CORNERS, "2"),
    (EDGES, "1,2", (1, 12), "1 2 3", "", "", "1,4,12", EDGES_CORNERS, "1"),
]
# How many of the two long ones' messages, misses and gaps are written.
WRITTEN = {16: (100, 1000, 1), 17: (10_000, 0, 1)}
# What their pictures say about the others.
LEFT_OUT = {16: ["249099 later misses are not drawn."], 17: ["240099 earlier messages are not drawn."]}
# L, --from and --to, and the window or the fault.
WINDOWS = [
    (18, None, None, (1, 18)), (18, 0, None, "bad --from"), (18, 19, None, "bad --from"), (18, 18, None, (18, 18)),
    (18, 5, 4, "bad --to"), (18, None, 5000, (1, 18)), (18, 5, 0, "bad --to"), (1001, 1, 1001, "bad --to"), (1001, 2, 1001, (2, 1001)),
    (1001, 1, 1000, (1, 1000)), (5000, None, None, (1, 100)), (5000, 4950, None, (4950, 5000)), (5000, 4001, 2**64 - 1, (4001, 5000)),
    (5000, 4000, 2**64 - 1, "bad --to"), (18, 19, 4, "bad --from"), (0, None, None, None), (0, 1, 7, None), (0, 2, None, "bad --from"),
]
NAMES = [
    (None, 3, ["1", "2", "3"]), ("<a>,b&\"c',é", 3, ["<a>", "b&\"c'", "é"]), ("a,b", 3, None), ("a,a,a", 3, None), ("a,b,c\n", 3, None), ("a,,c", 3, None),
    ("a,b\x7f", 2, None), ("a,\ufffe", 2, None), ("a,b\uffff", 2, None), ("a, ", 2, ["a", " "]), (f"a,{'é' * 32}", 2, ["a", "é" * 32]), (f"a,{'é' * 32}x", 2, None),
]


def differences(case, written_wanted, programs, folder):
    """What is wrong with the marks of a chosen trace."""
    text, members, (first, to), *wanted = case
    lanes = wanted[5] if len(wanted) > 5 else None
    path, report = f"{EXAMPLES}/{text}.trace", f"{folder}/report"
    if "\n" in text:
        path = f"{folder}/trace"
        with open(path, "w") as opened:
            opened.write(text)
    trace = read_trace(path)
    with open(report, "wb") as opened:
        program = programs[trace.last > 400]
        subprocess.run([program, "report", path, "--correct", members], stdout=opened, check=True)
    rows = read_report(report)
    picture = picture_of(trace, rows, drawn_window(trace, rows, first, to), lanes_of(lanes, None, trace.processors))
    lines = [line.split(" ", 1)[1] for line in lines_of(picture)][1:]
    for name, line, it in zip(("steps", "messages", "misses", "gaps", "corners"), lines, wanted):
        given = len(line.split()) if isinstance(it, int) else line
        if given != it:
            yield f"{name} {str(given)[:500]} and not {str(it)[:500]}"
    if written_wanted and written(picture) != written_wanted:
        yield f"{written(picture)} are written and not {written_wanted}"


def outcome(read, *words):
    try:
        return read(*words)
    except Refused as refused:
        return str(refused)


def self_test():
    found = []
    with tempfile.TemporaryDirectory(prefix="marks-") as folder:
        programs = [built("oracles/oracle.rs", folder), built("plain/plain.rs", folder)]
        for at, case in enumerate(CHOSEN):
            wrong = [*differences(case, WRITTEN.get(at), programs, folder)]
            found.append(f"{case[0][:60]!r}, {case[1]}, {case[2]}: {'; '.join(wrong)}" if wrong else None)
    for *words, wanted in WINDOWS:
        given = outcome(window_of, *words)
        found.append(f"the window of {words} is {given} and not {wanted}" if given != wanted else None)
    for names, processors, wanted in NAMES:
        given = outcome(names_of, names, processors)
        found.append(f"the names {names!r} are {given} and not {wanted}" if given != (wanted or "bad --names") else None)
    failed = [it for it in found if it]
    for it in failed:
        print(f"FAILED {it}")
    print(f"{len(found) - len(failed)} passed, {len(failed)} failed")
    return 1 if failed else 0


def main():
    words = argparse.ArgumentParser(description=__doc__.split("\n")[0])
    words.add_argument("trace", nargs="?")
    words.add_argument("report", nargs="?")
    words.add_argument("--from", type=int, dest="first")
    words.add_argument("--to", type=int)
    words.add_argument("--names")
    words.add_argument("--lanes")
    words.add_argument("--self-test", action="store_true")
    read = words.parse_args()
    if read.self_test:
        return self_test()
    if not read.report:
        words.error("it takes a trace and its report")
    trace = read_trace(read.trace)
    try:
        names_of(read.names, trace.processors)
        lanes = lanes_of(read.lanes, read.names, trace.processors)
        rows = read_report(read.report)
        picture = picture_of(trace, rows, drawn_window(trace, rows, read.first, read.to), lanes)
    except Refused as refused:
        print(f"synchrony: {refused}", file=sys.stderr)
        return 2
    for line in lines_of(picture):
        print(line)
    return 0


if __name__ == "__main__":
    sys.exit(main())
