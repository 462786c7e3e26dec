"""What `import` prints, for its oracle: the trace, the table of its steps or that of the lengths of a tick, and the notes."""
from import_causes import order_of_causes, spread_out
from import_events import receipts
from import_refusals import Refused
from import_steps import last_tick_of, test_steps

# The lengths of a tick of which the table has rows, in units of the times.
TICK_LENGTHS = [digit * 10**power for power in range(19) for digit in (1, 2, 5)]


def in_steps(events, nodes):
    """The events in the order of their steps: of their ticks, and in a tick of their processors."""
    place = {name: at for at, name in enumerate(nodes, 1)}
    return sorted(events, key=lambda it: (it.tick, place[it.node]))


def trace_of(events, nodes, sends, last_tick):
    """The lines of the trace."""
    place = {name: at for at, name in enumerate(nodes, 1)}
    in_order = in_steps(events, nodes)
    number_of = {it.place: no for no, it in enumerate(in_order, 1)}
    yield b"dls-trace,2,%d,0" % len(nodes)
    yield b"init" + b",0" * len(nodes)
    for no, it in enumerate(in_order, 1):
        ids = sorted(number_of[send.place] for _, send in receipts([it], sends))
        act = b"R," + b" ".join(b"%d" % id for id in ids) if it.to is None else b"S,%d" % place[it.to]
        yield b"%d,%d,%d,%b" % (no, it.tick, place[it.node], act)
    yield b"end,%d" % last_tick


def table_of(events, nodes, width):
    """The lines of the table of the steps. A receive of nothing that was added has no record, no time and no messages."""
    first = min(it.time for it in events if it.record > 0)
    yield b"step,tick,begins,record,time,node,event,to,message"
    for no, it in enumerate(in_steps(events, nodes), 1):
        told = [b"%d" % number for number in (no, it.tick, first + (it.tick - 1) * width)]
        told += [b"%d" % it.record, b"%d" % it.time] if it.record > 0 else [b"", b""]
        told += [it.node, b"receive", b""] if it.to is None else [it.node, b"send", it.to]
        yield b",".join(map(quoted, [*told, b" ".join(it.messages)]))


def quoted(field):
    """A field in canonical form: in quotes if it has a comma or a quote, which is then doubled."""
    return b'"' + field.replace(b'"', b'""') + b'"' if b"," in field or b'"' in field else field


def lengths_of(events, sends, kind, until):
    """The lines of the table of the lengths of a tick, and the note on it."""
    first, last = min(it.time for it in events), max(it.time for it in events)
    log_length = abs((last if until is None else until) - first)
    lines, longest = [b"tick,last,moved,most"], None
    for shorter, units in zip([0, *TICK_LENGTHS], TICK_LENGTHS):
        if shorter * kind.unit > log_length:
            break
        try:
            last_tick = last_tick_of(events, units * kind.unit, until)
            own = {it.place: it.tick for it in events}
            test_steps(events, sends, True)
            count, most, _ = spread_out(order_of_causes(events, sends), sends)
        except Refused as refusal:
            if refusal.lines[0] != b"log: too many ticks":
                raise
            continue
        length = b"%d" % units if not kind.has_durations else nanoseconds_text(units * kind.unit)
        lines.append(b"%b,%d,%d,%d" % (length, max(last_tick, *(it.tick for it in events)), count, most))
        if 100 * sum(it.tick > own[it.place] + 1 for it in events) <= len(events):
            longest = length
    if longest is None:
        return lines, [b"each of these moves more than 1 in 100 events by more than one tick"]
    return lines, [b"--tick %b is the longest that moves at most 1 in 100 events by more than one tick" % longest]


def nanoseconds_text(count):
    """So many nanoseconds in the greatest of four units of which they are a whole number."""
    for power, unit in ((9, b"s"), (6, b"ms"), (3, b"us")):
        if count % 10**power == 0:
            return b"%d%b" % (count // 10**power, unit)
    return b"%dns" % count


def counted(count, one, more):
    return b"%d %b" % (count, one if count == 1 else more)


def window_lines(outside, unsent):
    """The notes on a window that leaves out so many events, and so many received messages."""
    lines = [b"no event is outside the window" if outside == 0 else
             b"1 event is outside the window, and left out" if outside == 1 else b"%d events are outside the window, and left out" % outside]
    if unsent:
        lines.append(b"1 received message was sent outside the window, and is left out" if unsent == 1
                     else b"%d received messages were sent outside the window, and are left out" % unsent)
    return lines


def merged_line(count):
    """The note on so many receives that are merged into others."""
    if count == 1:
        return b"1 receive is merged into another"
    return b"%d receives are merged into others" % count


def lost_line(lost):
    """The note on so many lost messages."""
    if lost == 1:
        return b"1 message was never received; its send is left out"
    return b"%d messages were never received; their sends are left out" % lost


def length_text(length, in_nanoseconds):
    """A length of time: so many nanoseconds, or else the number alone."""
    return nanoseconds_text(length) if in_nanoseconds else b"%d" % length


def late_lines(events, sends, in_nanoseconds):
    """What is printed about the messages that are received no later than they are sent."""
    late = [(send.time - receive.time, receive, send) for receive, send in receipts(events, sends) if send and receive.time <= send.time]
    if not late:
        return []
    by, receive, send = max(late, key=lambda it: it[0])
    count = b"1 message is received no later than it is sent" if len(late) == 1 else (
        b"%d messages are received no later than they are sent" % len(late))
    most = length_text(by, in_nanoseconds)
    return [count + b", by the clocks; most by %b in record %d, which record %d sends" % (most, receive.record, send.record),
            b"--align moves the clocks of nodes, and may bring most of them into order"]


def node_lines(nodes):
    """The notes on the numbers of the nodes."""
    return [b"processor %d is %b" % (at, name) for at, name in enumerate(nodes, 1)]


def clock_lines(nodes, offset, in_nanoseconds):
    """The notes on the clocks that are moved forward by these offsets."""
    return [b"the clock of %b moved by %b" % (node, length_text(offset[node], in_nanoseconds)) for node in nodes if offset.get(node, 0) > 0]


def moved_line(of_all, count, most, first):
    """The note on so many of all events that went into later ticks, with how far at most and the first record that did."""
    far = b"" if most == 0 else b", by at most %d tick%b (record %d)" % (most, b"" if most == 1 else b"s", first)
    return b"%d of %d events moved" % (count, of_all) + far


def filled_line(count, limit):
    """The note on so many receives of nothing, in silences of at most so many ticks."""
    return counted(count, b"receive", b"receives") + b" of nothing added, in silences of at most " + counted(limit, b"tick", b"ticks")
