#!/usr/bin/env python3
"""Makes the log that `synchrony import` reads of what strace saw of each node, with no change to the system itself.

    examples/recorders/strace_to_log.py [--polls] NODE=FILE:PORT.. >LOG

FILE is what this printed of a node, which listens on the TCP port PORT:

    strace -f -ttt -T -yy -s 0 -e signal=none -o FILE \\
        -e trace=read,write,readv,writev,sendto,recvfrom,sendmsg,recvmsg,epoll_wait,epoll_pwait,poll COMMAND

Each write to a TCP connection between two of the nodes is a message. It is sent when the write begins, and received when the
read that takes its last byte ends. With --polls, a read of such a connection that finds nothing is a receive of nothing, and
so is a wait for events that its timer ends. Times are in nanoseconds. The last line on standard error counts what was found.
"""
import argparse
import collections
import re
import sys

LINE = re.compile(r"^(?:\[pid +)?(\d+)\]? +(\d+\.\d+) (.*)$")
CALL = re.compile(r"^(\w+)\(\d+<TCP:\[([^\]]+)->([^\]]+)\]>")
WAIT = re.compile(r"^(?:epoll_p?wait|poll)\(")
RESULT = re.compile(r"\) += (-?\d+)")
LASTED = re.compile(r"<(\d+\.\d+)>$")
WRITES = {"write", "writev", "sendto", "sendmsg"}
READS = {"read", "readv", "recvfrom", "recvmsg"}

# A call on a connection: its nanoseconds, who made it, whether it writes, the two ends, and how many bytes went.
Call = collections.namedtuple("Call", "begin end node writes local remote size")
# A line of the log.
Event = collections.namedtuple("Event", "time node event to message")


def nanoseconds(text):
    """A decimal number of seconds, such as 1700000000.123456."""
    whole, _, part = text.partition(".")
    return int(whole) * 10**9 + int(part.ljust(9, "0")[:9])


def finished_calls(path):
    """Each call that strace saw end: when it began and ended, its first words, and its result."""
    begun = {}
    with open(path, errors="replace") as lines:
        for line in lines:
            found = LINE.match(line.rstrip("\n"))
            if not found:
                continue
            thread, time, text = found.groups()
            time = nanoseconds(time)
            if text.endswith("<unfinished ...>"):
                begun[thread] = time, text
                continue
            begin, head, end = time, text, None
            if text.startswith("<... "):
                if thread not in begun:
                    continue
                (begin, head), end = begun.pop(thread), time
            result, lasted = RESULT.search(text), LASTED.search(text)
            if result:
                yield begin, end or begin + nanoseconds(lasted[1] if lasted else "0.0"), head, int(result[1])


def read_node(node, path):
    """The calls of a node on connections, and the ends of its waits that found nothing."""
    calls, waits = [], []
    for begin, end, head, result in finished_calls(path):
        found = CALL.match(head)
        if found and found[1] in WRITES | READS:
            calls.append(Call(begin, end, node, found[1] in WRITES, found[2], found[3], result))
        elif WAIT.match(head) and result == 0:
            waits.append(end)
    return calls, waits


def between_nodes(calls, ports):
    """The calls on connections between two different nodes, and the node of each end."""
    owners = {call.local: call.node for call in calls}

    def is_between(call):
        listens = {call.local.rsplit(":", 1)[-1], call.remote.rsplit(":", 1)[-1]} & ports
        return listens and owners.get(call.remote, call.node) != call.node

    return [call for call in calls if is_between(call)], owners


def sends_of(calls, owners):
    """The sends, and for each direction of a connection its messages, each with the number of bytes up to its end."""
    events, under_way, written = [], collections.defaultdict(collections.deque), collections.Counter()
    for call in sorted(call for call in calls if call.writes and call.size > 0):
        message = f"{call.node}{len(events) + 1}"
        written[call.local, call.remote] += call.size
        under_way[call.local, call.remote].append((written[call.local, call.remote], message))
        events.append(Event(call.begin, call.node, "send", owners[call.remote], message))
    return events, under_way


def receives_of(calls, under_way, polls):
    """The receives, which take the messages away whose last bytes they read."""
    events, taken = [], collections.Counter()
    for call in sorted((call for call in calls if not call.writes), key=lambda call: call.end):
        taken[call.remote, call.local] += max(call.size, 0)
        waiting, names = under_way[call.remote, call.local], []
        while waiting and waiting[0][0] <= taken[call.remote, call.local]:
            names.append(waiting.popleft()[1])
        if names or polls:
            events.append(Event(call.end, call.node, "receive", "", " ".join(names)))
    return events


def main():
    parser = argparse.ArgumentParser(description=__doc__, formatter_class=argparse.RawDescriptionHelpFormatter)
    parser.add_argument("nodes", nargs="+", metavar="NODE=FILE:PORT")
    parser.add_argument("--polls", action="store_true", help="receives of nothing, too")
    asked = parser.parse_args()
    calls, idle, ports = [], [], set()
    for word in asked.nodes:
        found = re.fullmatch(r"([^= ,\"]+)=(.+):(\d+)", word)
        if not found:
            parser.error(f"{word} isn't NODE=FILE:PORT")
        node, path, port = found.groups()
        ports.add(port)
        try:
            own, waits = read_node(node, path)
        except OSError as fault:
            parser.error(f"{path}: {fault.strerror}")
        calls += own
        idle += [Event(end, node, "receive", "", "") for end in waits]
    calls, owners = between_nodes(calls, ports)
    sends, under_way = sends_of(calls, owners)
    events = sends + receives_of(calls, under_way, asked.polls) + (idle if asked.polls else [])
    print("time,node,event,to,message")
    for event in sorted(events):
        print(*event, sep=",")
    unread = sum(map(len, under_way.values()))
    print(f"{len(events)} events, {len(sends)} sends, {unread} never read", file=sys.stderr)


if __name__ == "__main__":
    main()
