"""A plain model of simulated runs, written from the definitions in words: it prints what `simulate` prints for the same
words. It shares no line with the program.

    simulated_runs.py --nodes N --faults T --values V,.. --patience P --steps S --seed K [--schedule NAME]
                      [--gst G --delta D --phi F] [--crash P@TICK,..] [--loss PERCENT]
"""

import argparse
import sys

WORD = 2**64


class Draws:
    """The generator splitmix64."""

    def __init__(self, seed):
        self.state = seed

    def next(self):
        self.state = (self.state + 0x9E3779B97F4A7C15) % WORD
        z = self.state
        z = (z ^ (z >> 30)) * 0xBF58476D1CE4E5B9 % WORD
        z = (z ^ (z >> 27)) * 0x94D049BB133111EB % WORD
        return z ^ (z >> 31)

    def below(self, n):
        return self.next() % n


class Node:
    """A node of Algorithm 1 with its round, what it took for its rounds, and what it has heard of each processor."""

    def __init__(self, n, t, p, value, patience):
        self.n, self.t, self.p = n, t, p
        self.proper = {value}
        self.locks = {}
        self.proposal = None
        self.flag = False
        self.decision = None
        self.round = 1
        self.out = self.said()
        self.heard = {}  # round -> {sender: (body, proper)}
        self.patience = self.left = patience
        self.latest = [0] * (n + 1)
        self.spoke = [False] * (n + 1)
        self.suspected = [False] * (n + 1)

    def phase(self):
        return (self.round + 3) // 4

    def part(self):
        return (self.round - 1) % 4 + 1

    def owner(self):
        return (self.phase() - 1) % self.n + 1

    def acceptable(self):
        return [v for v in sorted(self.proper) if all(w == v for w in self.locks)]

    def said(self):
        """What it says in its round: receivers, rising, each with a body and PROPER."""
        everybody, owner, part = range(1, self.n + 1), self.owner(), self.part()
        proper = frozenset(self.proper)
        if part == 1:
            return [(owner, (("list", self.acceptable()), proper))]
        if part == 2:
            if self.p == owner and self.proposal is not None:
                return [(q, (("lock", self.proposal), proper)) for q in everybody]
            return []
        if part == 3:
            return [(owner, (("ack",), proper))] if self.flag else []
        return [(q, (("locks", dict(self.locks)), proper)) for q in everybody]

    def end_round(self):
        heard = self.heard.pop(self.round, {})
        for _, proper in heard.values():
            self.proper |= proper
        bodies = {q: body for q, (body, _) in heard.items()}
        getattr(self, f"end_part_{self.part()}")(bodies)
        self.round += 1
        self.out = self.said()

    def end_part_1(self, bodies):
        if self.p != self.owner():
            return
        lists = [set(b[1]) for b in bodies.values() if b[0] == "list"]
        values = [v for v in set().union(*lists) if sum(v in x for x in lists) >= self.n - self.t] if lists else []
        self.proposal = min(values) if values else None

    def end_part_2(self, bodies):
        body = bodies.get(self.owner())
        if body is not None and body[0] == "lock":
            self.locks[body[1]] = self.phase()
            self.flag = True

    def end_part_3(self, bodies):
        acks = sum(b[0] == "ack" for b in bodies.values())
        if self.p == self.owner() and self.proposal is not None and acks >= self.t + 1 and self.decision is None:
            self.decision = self.proposal
        self.proposal, self.flag = None, False

    def end_part_4(self, bodies):
        told = [b[1] for b in bodies.values() if b[0] == "locks"]
        self.locks = {
            v: h
            for v, h in self.locks.items()
            if not any(w != v and k >= h for locks in told for w, k in locks.items())
        }

    # the pace "heard out"

    def may_hear(self, q):
        part, owns = self.part(), self.p == self.owner()
        if part == 1:
            return owns
        if part == 2:
            return q == self.owner() and (not owns or self.proposal is not None)
        if part == 3:
            return owns and self.proposal is not None
        return True

    def may_hear_all(self):
        part, owns = self.part(), self.p == self.owner()
        return part == 4 or (owns and (part == 1 or (part == 3 and self.proposal is not None)))

    def is_complete(self):
        others = range(1, self.n + 1)
        if any(self.may_hear(q) and self.latest[q] < self.round and not self.suspected[q] for q in others):
            return False
        return not self.may_hear_all() or sum(self.latest[q] >= self.round for q in others) >= self.n - self.t

    def receive(self, messages):
        """Takes these messages; whether its round ends."""
        for sender, sent, said in messages:
            if sent >= self.round:
                self.heard.setdefault(sent, {})[sender] = said
                self.latest[sender] = max(self.latest[sender], sent)
            self.spoke[sender], self.suspected[sender] = True, False
        ahead = any(self.latest[q] > self.round + 4 for q in range(1, self.n + 1))
        if not (self.is_complete() or ahead or self.left <= 1):
            self.left -= 1
            return False
        self.left = self.patience
        if self.part() == 4:
            for q in range(1, self.n + 1):
                if not self.spoke[q] and self.latest[q] < self.round:
                    self.suspected[q] = True
                self.spoke[q] = False
        self.end_round()
        return True


class Run:
    """A simulated run."""

    def __init__(self, o):
        self.o = o
        self.n = o.nodes
        self.nodes = {p: Node(o.nodes, o.faults, p, v, o.patience) for p, v in zip(range(1, o.nodes + 1), o.values)}
        self.draws = Draws(o.seed)
        self.named, self.burst = 0, 0
        self.way = []  # under way: [due, id, sender, receiver, round, said]
        self.dues = {}
        live = [p for p in range(1, self.n + 1) if p not in o.crash]
        self.deadline = {p: o.gst + o.phi for p in live} if o.gst is not None else {}
        self.order = {p: i - self.n for i, p in enumerate(live)}  # of equal deadlines, who stepped longer ago is first
        self.decided = {}

    def is_up(self, p, x):
        return x <= self.o.crash.get(p, x)

    def name(self, x):
        if self.o.schedule == "turns":
            p = self.named % self.n + 1
        elif self.o.schedule == "random":
            p = self.draws.below(self.n) + 1
        elif self.burst > 0:
            self.burst -= 1
            p = self.named
        else:
            p = self.draws.below(self.n) + 1
            self.burst = self.draws.below(10 * self.n)
        while not self.is_up(p, x):
            p = p % self.n + 1
        self.named = p
        return p

    def may_step(self, p, x):
        """Whether the others can still keep their deadlines, one in each tick after x, in the order of these."""
        queue = sorted(self.deadline, key=lambda q: (self.deadline[q], self.order[q]))
        before = queue[: queue.index(p)] if p in queue else queue
        return all(x + 1 + k <= self.deadline[q] for k, q in enumerate(before))

    def step(self, x):
        p = self.name(x)
        if not self.may_step(p, x):
            p = min(self.deadline, key=lambda q: (self.deadline[q], self.order[q]))
        if p in self.deadline:
            self.deadline[p], self.order[p] = max(x, self.o.gst) + self.o.phi, x
        node = self.nodes[p]
        if node.out:
            to, said = node.out.pop(0)
            self.post(x, p, to, node.round, said)
            return f"{x},{p},S,{to}"
        taken = [m for m in self.way if m[3] == p and m[0] <= x]
        self.way = [m for m in self.way if m[3] != p or m[0] > x]
        ends = node.receive([(m[2], m[4], m[5]) for m in taken])
        if node.decision is not None and p not in self.decided:
            self.decided[p] = (node.decision, x)
        return f"{x},{p},{'E' if ends else 'R'},{' '.join(str(m[1]) for m in taken)}"

    def post(self, x, p, to, sent, said):
        o = self.o
        if p == to:
            self.way.append([x + 1, x, p, to, sent, said])
            return
        if o.loss and (o.gst is None or x <= o.gst) and self.draws.below(100) < o.loss:
            return
        due = x + 1
        if o.gst is not None:
            most = max(x, o.gst) + o.delta
            due = max(x + 1 + self.draws.below(most - x), self.dues.get((p, to), 0))
            self.dues[p, to] = due
        self.way.append([due, x, p, to, sent, said])


def crashes(text):
    return {int(p): int(x) for p, x in (piece.split("@") for piece in text.split(","))}


def options(words):
    parser = argparse.ArgumentParser()
    for name in ("nodes", "faults", "patience", "steps", "seed"):
        parser.add_argument(f"--{name}", type=int, required=True)
    parser.add_argument("--values", type=lambda s: [int(v) for v in s.split(",")], required=True)
    parser.add_argument("--schedule", default="random", choices=["turns", "random", "bursts"])
    for name in ("gst", "delta", "phi"):
        parser.add_argument(f"--{name}", type=int)
    parser.add_argument("--crash", type=crashes, default={})
    parser.add_argument("--loss", type=int, default=0)
    return parser.parse_args(words)


def simulated(words):
    """The trace's text and what is said after it."""
    o = options(words)
    run = Run(o)
    lines = [f"dls-trace,1,{o.nodes},{o.faults}", "init," + ",".join(str(v) for v in o.values)]
    lines += [run.step(x) for x in range(1, o.steps + 1)]
    lines.append(f"end,{o.steps}")
    told = [f"{p} decided {value} in tick {tick}" for p, (value, tick) in sorted(run.decided.items(), key=lambda it: it[1][1])]
    line = "; ".join([f"synchrony: {len(told)} of {o.nodes} processors decided", *told])
    return "".join(line + "\n" for line in lines), line + "\n"


if __name__ == "__main__":
    trace, told = simulated(sys.argv[1:])
    sys.stdout.write(trace)
    sys.stderr.write(told)
