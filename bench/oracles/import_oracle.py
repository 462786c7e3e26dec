#!/usr/bin/env python3
"""What `synchrony import` prints of a log, straight from the words of its format: slow, and sharing no line with the
program.

    bench/oracles/import_oracle.py import LOG [--nodes A,B,..] [--unit U] [--tick W] [--until X] [--from X] [--idle Y] [--spread] [--align] [--drop-lost] [--merge] [--table | --ticks]
    bench/oracles/import_oracle.py --self-test

The first answers as the program should: standard output, standard error and status. The second tries the texts of
`import_times.py` and the logs of `tests/cases/import*.cases`, whose answers were worked out by hand, and ends with 'N
passed, M failed'.
"""
import argparse
import contextlib
import dataclasses
import errno
import glob
import os
import re
import subprocess
import sys

sys.dont_write_bytecode = True
import import_times
from import_causes import order_of_causes, spread_out
from import_clocks import align
from import_events import events_of, merged, numbered, without_lost
from import_options import Options, fitted, read_options
from import_outputs import lengths_of, table_of, trace_of
from import_outputs import clock_lines, filled_line, late_lines, lost_line, merged_line, moved_line, node_lines, window_lines
from import_records import places_of, read_records, spread_out_lists, test_length
from import_refusals import WINDOW, Refused, refuse_log
from import_steps import idle_receives, last_tick_of, test_steps
from import_windows import window_of, without_unsent

HERE = os.path.dirname(os.path.realpath(__file__))
CASES = sorted(glob.glob(f"{HERE}/../../tests/cases/import*.cases"))


def imported(log, options):
    """The lines of standard output and of standard error for a log that is accepted; an error is one that can't be read."""
    given = read_options(options)
    test_readable(log)
    events, kind, told = read_events(log, given)
    nodes, sends = numbered(events, given.nodes)
    width, until, idle = fitted(kind, given.width, given.until, given.idle)
    offset = align(events, nodes, sends, kind.latest) if options.align else {}
    events, lost = without_lost(events, sends) if options.drop_lost else (events, 0)
    if options.ticks:
        lines, note = lengths_of(events, sends, kind, until)
        return lines, told + note
    last_tick = last_tick_of(events, width, until)
    told += [] if given.nodes else node_lines(nodes)
    told += clock_lines(nodes, offset, given.in_nanoseconds)
    told += [lost_line(lost)] if options.drop_lost else []
    steps, last_tick, notes = placed(events, sends, last_tick, options, given.in_nanoseconds)
    told += notes
    if idle is not None:
        filled = idle_receives(steps, nodes, last_tick, idle // width)
        steps = [*steps, *filled]
        told.append(filled_line(len(filled), idle // width))
    if options.table:
        return table_of(steps, nodes, width), told
    return trace_of(steps, nodes, sends, last_tick), told


def test_readable(log):
    """Refuses a log that can't be read."""
    if isinstance(log, OSError):
        trouble = b"is a directory" if isinstance(log, IsADirectoryError) else b"no such file"
        raise Refused(6, b"cannot read", b"%b: %b" % (os.fsencode(log.filename), trouble))


def read_events(log, given):
    """The events of a log in the window, if there is one, the kind of their times, and the notes on the window."""
    has_window = given.start is not None
    records, is_cut = read_records(log, has_window)
    places, numbers, kind = places_of(records), range(2, len(records) + 1), given.kind
    all_events = len(numbers)
    if has_window:
        records, numbers, kind = window_of(records, places, given.start, given.until, kind)
    if is_cut:
        refuse_log(b"text too large", WINDOW)
    outside = all_events - len(numbers)
    if has_window or b";" in log:
        records, numbers = spread_out_lists(records, numbers, places)
        test_length(records)
    events, kind = events_of(records, numbers, places, given.nodes, kind)
    return events, kind, window_lines(outside, without_unsent(events)) if has_window else []


def placed(events, sends, last_tick, options, in_nanoseconds):
    """The events as steps, the last tick, and the notes on those that are merged or moved."""
    steps, count_merged = merged(events) if options.merge else (events, 0)
    test_steps(steps, sends, options.spread)
    notes = [merged_line(count_merged)] if options.merge else []
    if options.spread:
        moved = spread_out(order_of_causes(steps, sends), sends)
        notes += [moved_line(len(steps), *moved), *late_lines(events, sends, in_nanoseconds)]
        last_tick = max(last_tick, max(it.tick for it in steps))
    return steps, last_tick, notes


def answer(log, options):
    """The status, standard output and standard error."""
    try:
        status, (lines, told) = 0, imported(log, options)
    except Refused as refusal:
        status, lines, told = refusal.status, [], refusal.lines
    return status, b"".join(it + b"\n" for it in lines), b"".join(b"synchrony: " + it + b"\n" for it in told)


def read_log(path):
    try:
        if path == "-":
            return sys.stdin.buffer.read()
        with open(path, "rb") as opened:
            return opened.read()
    except OSError as error:
        return error


def self_test():
    tried, wrong = import_times.failures()
    for it in wrong:
        print(f"FAILED {it}")
    ran = subprocess.run([f"{HERE}/../../tests/run", os.path.realpath(__file__), *CASES], stdout=subprocess.PIPE, text=True)
    *told, last = ran.stdout.splitlines()
    print("\n".join(told), end="\n" if told else "")
    passed, failed = map(int, re.fullmatch(r"(\d+) passed, (\d+) failed", last).groups())
    print(f"{passed + tried - len(wrong)} passed, {failed + len(wrong)} failed")
    return 1 if wrong or failed else 0


def main():
    words = argparse.ArgumentParser(description=__doc__.split("\n")[0])
    words.add_argument("--self-test", action="store_true")
    commands = words.add_subparsers()
    command = commands.add_parser("import")
    command.add_argument("log")
    for name in ("--nodes", "--unit", "--tick", "--until", "--idle"):
        command.add_argument(name, type=os.fsencode)
    command.add_argument("--from", type=os.fsencode, dest="from_")
    for name in ("--spread", "--align", "--drop-lost", "--merge", "--table", "--ticks"):
        command.add_argument(name, action="store_true")
    words = words.parse_args()
    if words.self_test:
        return self_test()
    if not hasattr(words, "log"):
        command.error("no command")
    options = Options(**{it.name: getattr(words, it.name) for it in dataclasses.fields(Options)})
    return print_answer(*answer(read_log(words.log), options))


def print_answer(status, output, told):
    """Writes what is told, which may be lost, and then the output, without which the status is 6."""
    with contextlib.suppress(OSError):
        os.write(2, told)
    try:
        while output:
            output = output[os.write(1, output) :]
    except OSError as why:
        trouble = b"no space left" if why.errno == errno.ENOSPC else b"cannot be written"
        os.write(2, b"synchrony: cannot write\nsynchrony: standard output: %b\n" % trouble)
        return 6
    return status


if __name__ == "__main__":
    sys.exit(main())
