"""Logs what a node sends and receives, for `synchrony import`.

    recorder = Recorder("a", "a.log")
    name = recorder.sends("b")            # before the call that sends; the message carries this name
    recorder.received(["b.1", "b.2"])     # after a poll, with the names of all that it took, or with none

Each node has a recorder and a file of its own. The lines of one file below the other's make one log (docs/LOGS.md).
"""
import threading
import time

HEADER = "time,node,event,to,message\n"


class Recorder:
    """The events of one node, in a file. Threads of the node may share it."""

    def __init__(self, node, path):
        """The name of a node has no space, comma or quote."""
        if not node or set(node) & set(' ,"') or not node.isprintable():
            raise ValueError(f"no name of a node: {node!r}")
        self._node = node
        self._sent = 0
        self._lock = threading.Lock()
        # Each line goes out at once, so that a node that is killed loses none.
        self._file = open(path, "w", buffering=1, encoding="utf-8")
        self._file.write(HEADER)

    def sends(self, to):
        """Notes that a message goes to the node `to`, and answers the name of the message."""
        with self._lock:
            self._sent += 1
            message = f"{self._node}.{self._sent}"
            self._note("send", to, message)
        return message

    def received(self, messages=()):
        """Notes that a poll ended, with the names of the messages that it took."""
        with self._lock:
            self._note("receive", "", " ".join(messages))

    def close(self):
        """Ends the file."""
        self._file.close()

    def _note(self, event, to, message):
        # The time is read under the lock, so that the lines of a node are in the order of their times.
        self._file.write(f"{time.time_ns()},{self._node},{event},{to},{message}\n")
