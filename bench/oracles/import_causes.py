"""What `import --spread` does, for its oracle: events behind their causes, in ticks no later than needed."""
from import_events import own_place, receipts
from import_refusals import Refused, refuse_log
from import_steps import FEWER_TICKS, TICK_LIMIT

NO_CLOCKS = b"no clocks make this right: the records of a node are out of order, or a message is named wrongly"


def order_of_causes(events, sends):
    """The events, each behind its causes; refuses those that are in a cycle of causes or behind one."""
    own = {}
    for it in events:
        own.setdefault(it.node, []).append(it)
    own = {node: sorted(its, key=own_place) for node, its in own.items()}
    order, is_placed, begun = [], set(), dict.fromkeys(own, 0)
    placed_more = True
    while placed_more:
        placed_more = False
        for node, its in own.items():
            while begun[node] < len(its) and not unplaced_of(its[begun[node]], sends, is_placed):
                is_placed.add(its[begun[node]].place)
                order.append(its[begun[node]])
                begun[node] += 1
                placed_more = True
    heads = {node: its[begun[node]] for node, its in own.items() if begun[node] < len(its)}
    if heads:
        first = min((it for it in events if it.place not in is_placed), key=lambda it: it.place)
        hops = cycle_from(first.node, heads, sends, is_placed)
        shown = [hop_line(*hop, hops[(at + 1) % len(hops)][0]) for at, hop in enumerate(hops)][:8]
        more = [b"and %d more" % (len(hops) - 8)] if len(hops) > 8 else []
        raise Refused(3, b"log: record %d: behind a cycle of messages" % first.record, *shown, *more, NO_CLOCKS)
    return order


def unplaced_of(event, sends, is_placed):
    """The sends of the messages that it received, as far as they aren't placed."""
    return [send for _, send in receipts([event], sends) if send.place not in is_placed]


def cycle_from(node, heads, sends, is_placed):
    """The cycle that is met from this node on: each node's first event that isn't placed waits for the first of its messages
    whose send isn't. As pairs of the event and that send, from the first record on."""
    path = []
    while node not in [event.node for event, _ in path]:
        send = unplaced_of(heads[node], sends, is_placed)[0]
        path.append((heads[node], send))
        node = send.node
    cycle = path[[event.node for event, _ in path].index(node) :]
    least = cycle.index(min(cycle, key=lambda hop: hop[0].place))
    return cycle[least:] + cycle[:least]


def hop_line(event, send, after):
    return b"record %d: %b receives %b, which %b sends in record %d, after record %d" % (
        event.record, event.node, send.messages[0], send.node, send.record, after.record)


def spread_out(order, sends):
    """Puts events, each behind its causes, into later ticks, no later than needed; returns how many went, how far at
    most, and the first record that did."""
    far, busy = [], {}
    for it in order:
        after = [busy.get(it.node, 0)]
        if it.to is None:
            after += [send.tick for _, send in receipts([it], sends)]
        tick = max(it.tick, *(tick + 1 for tick in after))
        far.append((tick - it.tick, it.record))
        it.tick = busy[it.node] = tick
    if max(it.tick for it in order) > TICK_LIMIT:
        refuse_log(b"too many ticks", FEWER_TICKS)
    most = max(by for by, _ in far)
    return sum(by > 0 for by, _ in far), most, min(record for by, record in far if by == most)
