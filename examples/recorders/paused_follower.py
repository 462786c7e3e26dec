#!/usr/bin/env python3
"""Logs a small system with a paused node: a leader a sends heartbeats to b and c over UDP, and b is stopped for a while.

    examples/recorders/paused_follower.py LOG [--seconds S] [--pause S]

Three processes run for S seconds (1), each with a recorder of its own. In the middle b is stopped by SIGSTOP for the time
of --pause (0.2 seconds). LOG is the log of all three, for `synchrony import LOG --nodes a,b,c --tick 1000000 --spread`.
"""
import argparse
import multiprocessing
import os
import pathlib
import signal
import socket
import tempfile
import time

from recorder import HEADER, Recorder

BEAT = 0.005
POLL = 0.002


def taken(own):
    """The names of the messages that wait at a socket, with their senders' addresses."""
    found = []
    while True:
        try:
            body, sender = own.recvfrom(1000)
        except BlockingIOError:
            return found
        found.append((body.decode(), sender))


def lead(own, path, followers, end):
    """Sends heartbeats to the followers, and takes what they answer."""
    recorder = Recorder("a", path)
    while time.monotonic() < end:
        for name, address in followers.items():
            own.sendto(recorder.sends(name).encode(), address)
        recorder.received(name for name, _ in taken(own))
        time.sleep(BEAT)
    recorder.close()


def follow(node, own, path, end):
    """Polls, and answers each heartbeat."""
    recorder = Recorder(node, path)
    while time.monotonic() < end:
        heartbeats = taken(own)
        recorder.received(name for name, _ in heartbeats)
        for _, leader in heartbeats:
            own.sendto(recorder.sends("a").encode(), leader)
        time.sleep(POLL)
    recorder.close()


def new_socket():
    """A socket of this machine that doesn't wait."""
    own = socket.socket(socket.AF_INET, socket.SOCK_DGRAM)
    own.bind(("127.0.0.1", 0))
    own.setblocking(False)
    return own


def record(folder, seconds, pause):
    """Runs the system, and leaves the files of its nodes in a folder."""
    sockets = {node: new_socket() for node in "abc"}
    followers = {node: sockets[node].getsockname() for node in "bc"}
    end = time.monotonic() + seconds
    context = multiprocessing.get_context("fork")
    nodes = {"a": context.Process(target=lead, args=(sockets["a"], folder / "a", followers, end))}
    for node in followers:
        nodes[node] = context.Process(target=follow, args=(node, sockets[node], folder / node, end))
    for node in nodes.values():
        node.start()
    time.sleep(seconds / 3)
    os.kill(nodes["b"].pid, signal.SIGSTOP)
    time.sleep(pause)
    os.kill(nodes["b"].pid, signal.SIGCONT)
    for node in nodes.values():
        node.join()


def main():
    parser = argparse.ArgumentParser(description=__doc__, formatter_class=argparse.RawDescriptionHelpFormatter)
    parser.add_argument("log")
    parser.add_argument("--seconds", type=float, default=1.0)
    parser.add_argument("--pause", type=float, default=0.2)
    asked = parser.parse_args()
    with tempfile.TemporaryDirectory() as folder:
        record(pathlib.Path(folder), asked.seconds, asked.pause)
        parts = [(pathlib.Path(folder) / node).read_text().removeprefix(HEADER) for node in "abc"]
    pathlib.Path(asked.log).write_text(HEADER + "".join(parts))


if __name__ == "__main__":
    main()
