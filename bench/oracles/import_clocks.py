"""What `import --align` moves, for its oracle: the clocks of nodes, so that each message is received later than it is sent."""
from import_events import receipts
from import_refusals import refuse_log
from import_steps import test_messages

DRIFT = b"clocks drift or step, or events are logged late; --spread alone places them by cause"
NO_OFFSETS = b"no offsets of clocks bring the messages into order"


def align(events, nodes, sends, latest):
    """Moves the clocks of nodes forward, each by the least that lets every message be received later than it is sent; returns
    by how much. Scans the messages until nothing is left to do. If clocks move on and on, there is a cycle."""
    test_messages(events, sends)
    offset = dict.fromkeys(nodes, 0)
    for _ in range(len(nodes) + 1):
        before = dict(offset)
        for receive, send in receipts(events, sends):
            least = send.time + offset[send.node] + 1 - receive.time
            offset[receive.node] = max(offset[receive.node], least)
        if offset == before:
            break
    else:
        hops = short_round(events, nodes, sends)
        shown = [clock_line(*hop) for hop in hops][:8]
        more = [b"and %d more" % (len(hops) - 8)] if len(hops) > 8 else []
        together = sum(receive.time - send.time for receive, send in hops)
        refuse_log(NO_OFFSETS, *shown, *more, b"together %d: " % together + DRIFT)
    for it in events:
        it.time += offset[it.node]
    if max(it.time for it in events) > latest:
        refuse_log(b"times are too late to align the clocks")
    return offset


def short_round(events, nodes, sends):
    """A circle of messages that take less than 1 each, on average: by the greatest needs by way of the first nodes alone, of two
    more, and so on, until a node would have to be ahead of itself. From the first record on."""
    need, first = {}, {}
    for receive, send in receipts(events, sends):
        way = send.node, receive.node
        least = send.time - receive.time + 1
        if way not in need or least > need[way]:
            need[way], first[way] = least, (receive, send)
    for by in nodes:
        if need.get((by, by), 0) > 0:
            hops, node = [], by
            while not hops or node != by:
                hops.append(first[node, by])
                node = hops[-1][0].node
            least = hops.index(min(hops, key=lambda hop: hop[0].place))
            return hops[least:] + hops[:least]
        known = dict(need)
        ways = dict(first)
        for (sender, way), to in known.items():
            for (start, receiver), back in known.items():
                if way == by == start and to + back > need.get((sender, receiver), to + back - 1):
                    need[sender, receiver] = to + back
                    ways[sender, receiver] = first[sender, by]
        first = ways
    raise AssertionError("there is no circle")


def clock_line(receive, send):
    return b"record %d: %b from %b to %b takes %d (record %d)" % (
        receive.record, send.messages[0], send.node, receive.node, receive.time - send.time, send.record)
