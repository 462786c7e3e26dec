"""The events of a log and its sends, for the oracle of `import`."""
from dataclasses import dataclass, replace
from typing import Optional

from import_kinds import TIMES, kind_of
from import_records import NODE_LIMIT, is_message, is_node
from import_refusals import EMPTY, WINDOW, refuse_log, refuse_record

EVENT_LIMIT = 1_000_000
FIELDS = b"each record has as many fields as the first"
EVENTS = b"an event is send or receive"
MESSAGES = (b"the name of a message is text with no space or control character, and not empty; "
            b"a receive has one space between names")
NO_NAME = b"a send names a node in node and in to, a receive in node; a name is text with no control character or semicolon, and not empty"
MANY_NODES = b"a trace has at most 64 processors, one for each node"
FEW_NODES = b"a trace has at least 2 processors; --nodes also names nodes without events"
ONE_NAME = b"messages to one node have different names: number them"


@dataclass
class Event:
    record: int
    # Where it is among the events: a record that lists nodes has several.
    place: int
    time: int
    node: bytes
    # The receiver of a send, None in a receive.
    to: Optional[bytes]
    # The one that was sent, or those that were received.
    messages: list
    # Its tick, once it is known.
    tick: int = 0
    # Of each message the record that has it, in a receive that is made of several.
    sources: Optional[list] = None


class Sends:
    """The sends of a log: a message is known by its name and the node that it is for."""

    def __init__(self):
        self.by_message, self.by_name = {}, {}

    def add(self, send):
        """Whether the message is new."""
        message = send.messages[0], send.to
        is_new = message not in self.by_message
        self.by_message.setdefault(message, send)
        self.by_name.setdefault(send.messages[0], send)
        return is_new

    def taken(self, receive, name):
        """The send of the message that a receive takes by this name: to its node, or else the first of that name, if there is
        one."""
        return self.by_message.get((name, receive.node), self.by_name.get(name))


def events_of(records, numbers, places, listed, kind):
    """The events of the records with these numbers, and the kind of their times: the one that is given, or else that of the
    first event."""
    events = []
    for count, (no, record) in enumerate(zip(numbers, records[1:])):
        if count == EVENT_LIMIT:
            refuse_log(b"too many events", WINDOW)
        if len(record) != len(records[0]):
            refuse_record(no, b"bad fields", FIELDS)
        time, node, event, to, message = (record[it] for it in places)
        kind = kind or kind_of(time)
        value = kind.read(time) if kind else None
        if value is None:
            refuse_record(no, b"bad time", TIMES)
        if event not in (b"send", b"receive"):
            refuse_record(no, b"bad event", EVENTS)
        named = [node, to] if event == b"send" else [node]
        bad = next((it for it in named if (not is_node(it) if listed is None else it not in listed)), None)
        if bad is not None:
            refuse_record(no, b"bad node", b'"%b" is not among --nodes, where spaces count' % bad if is_node(bad) else NO_NAME)
        if event == b"send":
            messages = [message]
        else:
            messages = message.split(b" ") if message else []
        if not all(map(is_message, messages)):
            refuse_record(no, b"bad message", MESSAGES)
        events.append(Event(no, len(events), value, node, to if event == b"send" else None, messages))
    if not events:
        refuse_log(b"no events", EMPTY)
    return events, kind


def numbered(events, listed):
    """The nodes in the order of their numbers, and the sends."""
    nodes, sends = [*listed] if listed else [], Sends()
    for it in events:
        for name in [it.node] if it.to is None else [it.node, it.to]:
            if name not in nodes:
                nodes.append(name)
            if len(nodes) > NODE_LIMIT:
                refuse_record(it.record, b"too many nodes", MANY_NODES)
        if it.to is not None and not sends.add(it):
            refuse_record(it.record, b"message " + it.messages[0] + b" was sent before", ONE_NAME)
    if len(nodes) < 2:
        refuse_log(b"too few nodes", FEW_NODES)
    return nodes, sends


def receipts(events, sends):
    """The pairs of a receive and a send whose message it took, in the order of the receives."""
    return [(it, sends.taken(it, name)) for it in events if it.to is None for name in it.messages]


def own_place(event):
    """Its place among the events of its node."""
    return event.time, event.place


def without_lost(events, sends):
    """The events but the sends of messages that no record receives, and how many these are."""
    received = {send.place for _, send in receipts(events, sends) if send}
    kept = [it for it in events if it.to is None or it.place in received]
    if not kept:
        refuse_log(b"no events", EMPTY)
    return kept, len(events) - len(kept)


def merged(events):
    """The events with the receives of a node in one tick as one, at the place of the first, if it sends nothing between them; and
    how many are merged into others."""
    sent, groups = {}, {}
    for it in sorted(events, key=own_place):
        if it.to is not None:
            sent[it.node] = sent.get(it.node, 0) + 1
        else:
            groups.setdefault((it.node, sent.get(it.node, 0), it.tick), []).append(it)
    made = {
        first.place: replace(
            first,
            messages=[name for it in (first, *others) for name in it.messages],
            sources=[it.record for it in (first, *others) for _ in it.messages],
        )
        for first, *others in groups.values()
    }
    kept = [made.get(it.place, it) for it in events if it.to is not None or it.place in made]
    return kept, len(events) - len(kept)
