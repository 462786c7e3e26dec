"""Events as steps, for the oracle of `import`: their ticks, which of them can be no step, and receives of nothing in silences."""
from import_events import Event, own_place
from import_refusals import UNTIL, Refused, refuse_log, refuse_record

TICK_LIMIT = 1_000_000
STEP_LIMIT = 1_000_000
FEWER_TICKS = b"a greater --tick makes fewer; --ticks lists those that fit"
FEWER_STEPS = b"a greater --tick or a shorter --idle makes fewer"
SHORTER_TICK = b"a shorter --tick sets them apart, and --spread moves one of them"
SPREAD = b"--spread sets them apart"
NO_SEND = b"no record sends it to any node; if the log begins in the middle of a run, --from with its first time leaves such messages out"


def last_tick_of(events, width, until):
    """Gives each event the tick of its time, and returns the last tick by the times."""
    first, last = min(it.time for it in events), max(it.time for it in events)
    if until is not None:
        if until < last:
            raise Refused(2, b"--until does not fit the times", UNTIL)
        last = until
    for it in events:
        it.tick = (it.time - first) // width + 1
    last_tick = (last - first) // width + 1
    if last_tick > TICK_LIMIT:
        refuse_log(b"too many ticks", FEWER_TICKS)
    return last_tick


def test_messages(events, sends):
    """Refuses the first message that can't be received, whenever that is."""
    received = set()
    for it in events:
        for name in it.messages if it.to is None else []:
            send = sends.taken(it, name)
            why, hint = fault_of(it, send, received, True)
            if why:
                refuse_record(it.record, b"message " + name + why, hint)
            received.add(send.place)


def test_steps(events, sends, spread):
    """Refuses the first event that can't be a step, at its time or, with spread, anywhere."""
    received, filled = set(), {}
    for it in events:
        for at, name in enumerate(it.messages if it.to is None else []):
            send = sends.taken(it, name)
            why, hint = fault_of(it, send, received, spread)
            if why:
                refuse_record(it.sources[at] if it.sources else it.record, b"message " + name + why, hint)
            received.add(send.place)
        before = filled.setdefault((it.node, it.tick), it)
        if before is not it and not spread:
            hint = SPREAD if before.time == it.time else SHORTER_TICK
            refuse_record(it.record, b"a second event of %b in tick %d" % (it.node, it.tick), hint)


def fault_of(receive, send, received, spread):
    """Why the message of a send can't be received where it is, if so, and what helps."""
    if send is None:
        return b" was never sent", NO_SEND
    if send.to != receive.node:
        return b" is for " + send.to, None
    if send.place in received:
        return b" was received before", None
    if spread or receive.tick > send.tick:
        return None, None
    is_first = receive.node == send.node and own_place(receive) < own_place(send)
    hint = SHORTER_TICK if receive.time > send.time else None if is_first else SPREAD
    return b" is received no later than it was sent", hint


def idle_receives(events, nodes, last_tick, limit):
    """A receive of nothing in the last tick of each silence of a node: of each run of ticks without an event of it, as long as
    can be, if it is no longer than the limit."""
    filled = []
    for node in nodes:
        busy = sorted(it.tick for it in events if it.node == node)
        for before, after in zip([0, *busy], [*busy, last_tick + 1]):
            if 1 <= after - before - 1 <= limit:
                filled.append(Event(-1 - len(filled), -1 - len(filled), 0, node, None, [], after - 1))
    if len(events) + len(filled) > STEP_LIMIT:
        refuse_log(b"too many steps", FEWER_STEPS)
    return filled
