"""What `synchrony judge` says, straight from the definitions: every triple of a stabilization time and two bounds is tried,
in every prefix of a run. Slow, for small runs, and sharing no line with the program.
"""
import re
from dataclasses import dataclass
from functools import cached_property, lru_cache

GREATEST = 2**64 - 1


@dataclass(frozen=True)
class Run:
    """Steps are (tick, processor, destination, None) or (tick, processor, None, taken ids), numbered from 1."""

    n: int
    t: int
    init: tuple
    steps: tuple
    last: int

    def until(self, tick):
        return Run(self.n, self.t, self.init, tuple(it for it in self.steps if it[0] <= tick), tick)


@lru_cache(maxsize=None)
def delta_holds(run, members, g, d):
    """Each Receive that comes d or more ticks after a message to its processor finds it delivered."""
    for number, (sent, sender, to, _) in enumerate(run.steps, 1):
        if to is None or sent < g or not {sender, to} <= members:
            continue
        for tick, receiver, _, ids in run.steps:
            if ids is not None and receiver == to and sent + d <= tick:
                if not any(sent < other <= tick and taken is not None and number in taken for other, _, _, taken in run.steps):
                    return False
    return True


@lru_cache(maxsize=None)
def phi_holds(run, members, g, f):
    """In each f ticks in a row, from g on and up to the last one, each member takes a step."""
    ticks = {(tick, proc) for tick, proc, _, _ in run.steps}
    windows = (range(x, x + f) for x in range(g, run.last - f + 2))
    return all(any((tick, p) in ticks for tick in window) for window in windows for p in members)


def is_feasible(run, members, triple):
    g, d, f = triple
    return 1 <= g <= run.last and delta_holds(run, members, g, d) and phi_holds(run, members, g, f)


def triples(run):
    """Bounds above the last tick hold wherever those of one tick more do, and set no earlier deadline."""
    some = range(1, run.last + 2)
    return [(g, d, f) for g in range(1, run.last + 1) for d in some for f in some]


@lru_cache(maxsize=None)
def front(run, members):
    """The feasible triples that no other one is at or below in all three, in rising stabilization time."""
    feasible = [it for it in triples(run) if is_feasible(run, members, it)]
    return [it for it in feasible if not any(o != it and all(a <= b for a, b in zip(o, it)) for o in feasible)]


class BadFormula(Exception):
    """Why a text is no formula, in the words of the second line."""


def words_and_signs(text):
    """The words between signs, without the white space around them, and the signs."""
    pieces = re.split(r"([+*/(),])", text)
    return [it for it in (piece.strip(" \t\n\f\r") for piece in pieces) if it]


class Reader:
    """Reads a formula by its grammar, from the left: the first thing that no formula has there is refused.

    sum = product {+ product}, product = operand {* operand | / number}, operand = word | [max] ( .. ), and in a max several
    sums with commas between them.
    """

    def __init__(self, text):
        self.rest, self.operands, self.divisors, self.depth = words_and_signs(text), 0, 1, 0

    def formula(self):
        found = self.sum()
        if self.rest:
            self.refuse_sign()
        return found

    def takes(self, sign):
        if self.rest[:1] == [sign]:
            return self.rest.pop(0)

    def sum(self):
        found = [self.product()]
        while self.takes("+"):
            found.append(self.product())
        return lambda words: sum(it(words) for it in found)

    def product(self):
        found = self.operand()
        while self.rest[:1] in (["*"], ["/"]):
            found = self.times(found, self.operand()) if self.takes("*") else self.over(found, self.divisor())
        return found

    @staticmethod
    def times(a, b):
        return lambda words: a(words) * b(words)

    @staticmethod
    def over(a, k):
        return lambda words: -(-a(words) // k)

    def divisor(self):
        self.takes("/")
        word = self.rest[0] if self.rest else ""
        if not is_number(word) or not 0 < self.divisors * int(word) < 2**32:
            raise BadFormula(f"operand {self.operands + 1} of the formula divides: it has to be a number from 1 on, and all divisors together, multiplied, at most 4294967295")
        self.rest.pop(0)
        self.operands += 1
        self.divisors *= int(word)
        return int(word)

    def operand(self):
        word = self.rest[0] if self.rest else ""
        if word == "(" or self.rest[:2] == ["max", "("]:
            return self.group(word == "max")
        if word not in ("delta", "phi", "n", "t") and not is_number(word):
            raise BadFormula(f"operand {self.operands + 1} of the formula is no number and none of delta, phi, n, t; the signs are +, *, / and parentheses, and max(A, B) is the greatest")
        self.rest.pop(0)
        self.operands += 1
        return lambda words: words[word] if word in words else int(word)

    def group(self, is_max):
        del self.rest[: 2 if is_max else 1]
        self.depth += 1
        if self.depth > 32:
            raise BadFormula(f"before operand {self.operands + 1} of the formula more than 32 parentheses are open")
        found = [self.sum()]
        while is_max and self.takes(","):
            found.append(self.sum())
        if not self.takes(")"):
            self.refuse_sign()
        self.depth -= 1
        return lambda words: max(it(words) for it in found)

    def refuse_sign(self):
        raise BadFormula(f"after operand {self.operands} of the formula a sign is missing, or a parenthesis or comma doesn't fit")


def is_number(word):
    return re.fullmatch(r"0|[1-9][0-9]*", word) is not None and int(word) <= GREATEST


def formula(text):
    """The value of the formula that a text writes, as a function of what its words denote."""
    return Reader(text).formula()


@dataclass
class Judge:
    run: Run
    members: frozenset
    decisions: list
    formula: object
    start: int = 1
    valid: bool = False
    whole: bool = False
    due: int = 0

    def deadline(self, triple, factor=1):
        g, d, f = triple
        return max(g, self.start) + factor * self.formula({"delta": d, "phi": f, "n": self.run.n, "t": self.run.t})

    def undecided(self, y):
        """The least member that hadn't decided by a tick, if there is one."""
        done = {p for p, tick, _ in self.decisions if tick <= y}
        return min(self.members - done, default=None)

    @cached_property
    def decided(self):
        """The first tick by which all members have decided."""
        return next(y for y in range(self.run.last + 1) if self.undecided(y) is None)

    def late_in_whole(self):
        for triple in front(self.run, self.members):
            y = self.deadline(triple)
            if y <= self.run.last and self.undecided(y) is not None:
                return triple, y

    def late_in_time(self):
        """The least deadline that was missed though its bounds held up to it, and the first row of the run up to it that sets
        it."""
        missed = {}
        for triple in triples(self.run):
            y = self.deadline(triple)
            if y <= self.run.last and self.undecided(y) is not None:
                missed.setdefault(y, []).append(triple)
        for y in sorted(missed):
            cut = self.run.until(y)
            if any(is_feasible(cut, self.members, it) for it in missed[y]):
                return next(it for it in front(cut, self.members) if self.deadline(it) <= y), y

    def keeps(self, factor):
        """Whether all members decide within so many times the formula, wherever its bounds hold."""
        for triple in triples(self.run):
            y = self.deadline(triple, factor)
            if y <= self.run.last and self.undecided(y) is not None:
                if is_feasible(self.run if self.whole else self.run.until(y), self.members, triple):
                    return False
        return True

    def factor(self):
        """The least factor that is enough. One of more than the last tick moves each deadline past the end, or none."""
        return next((it for it in range(self.run.last + 2) if self.keeps(it)), "none")

    def rows(self):
        """The triples of the front of the whole run with their deadlines."""
        lines = ["gst,delta,phi,deadline,decided,margin"]
        decided = next((y for y in range(self.run.last + 1) if self.undecided(y) is None), "")
        for triple in front(self.run, self.members):
            y = self.deadline(triple)
            due = y <= self.run.last
            fields = [*triple, y if due else "", decided, y - decided if due and decided != "" else ""]
            lines.append(",".join(map(str, fields)))
        return "\n".join(lines)

    def verdict(self):
        own = [it for it in self.decisions if it[0] in self.members]
        for p, tick, decided in own:
            if decided != own[0][2]:
                return "no agreement {} {} {} {} {} {}".format(*own[0], p, tick, decided)
        for p, tick, decided in own:
            if self.valid and decided not in self.run.init:
                return f"no validity {p} {tick} {decided}"
        late = self.late_in_whole() if self.whole else self.late_in_time()
        if late:
            (g, d, f), y = late
            return f"no deadline {g} {d} {f} {y} {self.undecided(y)}"
        deadlines = [self.deadline(it) for it in front(self.run, self.members)]
        due = [it for it in deadlines if it <= self.run.last]
        if len(due) < self.due:
            return f"no due {len(due)}"
        margin = f" margin {min(due) - self.decided}" if due else ""
        return f"yes {len(due)} due {len(deadlines) - len(due)} later{margin}"


FIELDS = "a record is a processor, a tick and a value, all of them whole numbers; record 1 is the one after the header"
OF_TRACE = "the processor and the tick are some of the trace; record 1 is the one after the header"


def refusal_of_decisions(records, run):
    """Why the records after the header are refused, if they are, and what a record has."""
    for number, record in enumerate(records, 1):
        if len(record) != 3:
            return f"record {number}: bad fields", FIELDS
        if not all(re.fullmatch(r"0|[1-9][0-9]*", it) and int(it) <= GREATEST for it in record):
            return f"record {number}: bad number", FIELDS
        if not 1 <= int(record[0]) <= run.n:
            return f"record {number}: no such processor", OF_TRACE
        if not 1 <= int(record[1]) <= run.last:
            return f"record {number}: no such tick", OF_TRACE


def answer(run, members, text, records, start=None, valid=False, whole=False, due=None, factor=False, rows=False):
    """The status, and what is printed. The members are numbers, of which some may be above n."""
    above = sorted(it for it in members if it > run.n)
    if above:
        return 2, f"no such processor in --correct\nsynchrony: --correct names processor {above[0]}, and the trace has processors 1 to {run.n}"
    try:
        value = formula(text)
    except BadFormula as why:
        return 2, f"bad --within\nsynchrony: {why}"
    if start is not None and not 1 <= start <= run.last:
        ticks = f"ticks 1 to {run.last}" if run.last else "no ticks"
        return 3, f"bad --start\nsynchrony: --start is {start}, and the trace has {ticks}"
    refused = refusal_of_decisions(records, run)
    if refused:
        return 4, "decisions: {}\nsynchrony: {}".format(*refused)
    decisions = [tuple(map(int, it)) for it in records]
    judge = Judge(run, frozenset(members), decisions, value, 1 if start is None else start, valid, whole, due or 0)
    line = judge.verdict()
    more = (f"\nfactor {judge.factor()}" if factor else "") + (f"\n{judge.rows()}" if rows else "")
    return (0 if line.startswith("yes") else 1), line + more
