#!/usr/bin/env python3
"""All that a picture of a run has, worked out by plain arithmetic from a trace, its report, the set, the names and the
marks of `picture_marks.py`: where each mark is, how it looks and what its title says. `tests/pictures` compares the
program's pictures with it.

    bench/oracles/picture_places.py --crowd >crowd.trace

prints the trace of 20 processors that it draws. Lengths are tenths of a pixel, and places may differ by two of them, since
the program rounds.
"""
import random
import sys
from collections import defaultdict
from decimal import Decimal

sys.dont_write_bytecode = True
from picture_marks import COLUMNS, MOST_MESSAGES, MOST_WITNESSES

LEFT, WIDTH = 900, 10_000
TOP, HEIGHT = 500, 1_700
LANES_TOP = 2_900
LABEL_ROOM = 740
MOST_LINEAR = 20
# Of a name with more than 15 characters the first 7 and the last 7 are shown next to its lane.
LABEL_CHARS, LABEL_ENDS = 15, 7
IDS_NAMED = 8
# Strips are so far below the staircase, and above so many are thinner; so many gaps are marked in them.
STRIPS_SPACE, FEW_STRIPS = 110, 16
MOST_BANDS, LEAST_BAND = 12, 15
KINDS = ("words", "page", "headings", "shade", "bound_labels", "bound_times", "strips", "moved", "tick_labels", "times", "bounds", "corners", "lanes", "axis", "gaps", "messages", "misses", "steps", "left_out")


def round_step(limit, most):
    """The least of 1, 2, 5, 10, 20, 50 .. of which at most so many fit into the limit."""
    digits = 0
    while True:
        for digit in (1, 2, 5):
            if limit < (most + 1) * digit * 10**digits:
                return digit * 10**digits
        digits += 1


def wide(char):
    """How wide a character of a name is taken to be."""
    return 120 if "A" <= char <= "Z" or char in "mw" or ord(char) >= 0x800 else 90


def log_of(number):
    """The logarithm to base 2, straight between powers of two, in whole thousandths."""
    exponent = number.bit_length() - 1
    return 1000 * exponent + (number - 2**exponent) * 1000 // 2**exponent if number else 0


def shortened(name):
    return name if len(name) <= LABEL_CHARS else f"{name[:LABEL_ENDS]}…{name[-LABEL_ENDS:]}"


class Untold:
    """What is called how if no table of the steps is given."""

    clock = None

    def message(self, no):
        return str(no)

    def step(self, no):
        return f"step {no}"

    def time(self, tick):
        return ""

    def bound(self, ticks):
        return str(ticks)


class Told(Untold):
    """What a table says: the names of messages, the records of steps, and a clock with `width`, `size`, `unit`, `short` and
    `step_time`, or none."""

    def __init__(self, messages, records, clock=None):
        self.messages, self.records, self.clock = messages, records, clock

    def message(self, no):
        name = self.messages[no]
        return name if len(name) <= 48 else f"{name[:30]}…{name[-15:]}"

    def step(self, no):
        return f"step {no}" + (f", record {self.records[no]}" if no in self.records else "")

    def time(self, tick):
        return f", {self.clock.step_time(tick)}" if self.clock else ""

    def bound(self, ticks):
        return f"{ticks} ({self.clock.short(ticks)})" if self.clock else str(ticks)


class Places:
    """The picture of a trace with a window, of a set and with names or none, with these lanes or all, and with a table of the
    steps or none."""

    def __init__(self, trace, rows, picture, members, names=None, lanes=None, told=None):
        self.told = told or Untold()
        self.trace, self.rows, self.picture, self.members, self.names = trace, rows, picture, members, names
        self.drawn = sorted(lanes or range(1, trace.processors + 1))
        self.first, self.to = picture.window
        self.count = self.to - self.first + 1
        self.half_lane = 110 if len(self.drawn) > 16 else 220
        self.half_tick = WIDTH / self.count / 2
        self.lanes_end = LANES_TOP + 2 * self.half_lane * len(self.drawn)
        self.stripped = [] if (self.first, self.to) == (1, trace.last) else self.drawn
        self.half_strip = 35 if len(self.stripped) > FEW_STRIPS else 60
        self.strips_height = STRIPS_SPACE + 2 * self.half_strip * len(self.stripped) if self.stripped else 0
        self.high = max([1] + [max(row.delta, row.phi) for row in picture.corners])

    # Places and words

    def edge(self, tick):
        """The left edge of a tick, cut at the edges of the window."""
        return LEFT + WIDTH * (min(max(tick, self.first), self.to + 1) - self.first) / self.count

    def middle(self, tick):
        return LEFT + WIDTH * (tick - self.first + 0.5) / self.count

    def lane(self, processor):
        return LANES_TOP + (2 * self.drawn.index(processor) + 1) * self.half_lane

    def name(self, processor):
        return self.names[processor - 1] if self.names else f"processor {processor}"

    def made(self, no):
        return f"{self.told.step(no)}, {self.timed(self.tick(no))}"

    def timed(self, tick):
        return f"tick {tick}{self.told.time(tick)}"

    def tick(self, no):
        return self.trace.steps[no - 1][0]

    def processor(self, no):
        return self.trace.steps[no - 1][1]

    def line(self, send, processor, end, processor_end):
        """The straight line between the middles of two ticks in two lanes, as far as it lies in the window."""
        a, b = (self.middle(send), self.lane(processor)), (self.middle(end), self.lane(processor_end))
        slope = (b[1] - a[1]) / (b[0] - a[0]) if b[0] > a[0] else 0
        if a[0] < LEFT:
            a = (LEFT, b[1] - slope * (b[0] - LEFT))
        if b[0] > LEFT + WIDTH:
            b = (LEFT + WIDTH, a[1] + slope * (LEFT + WIDTH - a[0]))
        return [a, b]

    def arc(self, send, end, processor):
        """Up, along and down again, as far as it lies in the window."""
        y = self.lane(processor)
        top = y - self.half_lane * 7 // 10
        points = [(LEFT, top)]
        if self.first <= send:
            points = [(self.middle(send), y), (self.middle(send) + self.half_tick, top)]
        if end <= self.to:
            return [*points, (self.middle(end) - self.half_tick, top), (self.middle(end), y)]
        return [*points, (LEFT + WIDTH, top)]

    # Kinds of marks

    def lanes(self):
        for it in self.drawn:
            label = shortened(self.names[it - 1]) if self.names else str(it)
            yield "i" if it in self.members else "o", [(780, self.lane(it))], label, self.name(it)

    def axis(self):
        step = round_step(self.count, 14)
        for tick in range(self.first, self.to + 1):
            if tick % step == 0:
                yield str(tick), [(self.middle(tick), self.lanes_end + 180)]

    def steps(self):
        size = min(max(int(self.half_tick) * 6 // 10, 22), 60)
        for no in self.picture.steps:
            tick, processor, takes = self.trace.steps[no - 1]
            at = [(self.middle(tick), self.lane(processor))]
            words = f"{self.made(no)}: {self.name(processor)} "
            if takes is None:
                yield "circle", at, size, f"{words}sends message {self.told.message(no)} to {self.name(self.trace.sends[no])}", False
                continue
            words += f"receives message{'s' * (len(takes) > 1)} {' '.join(map(self.told.message, takes[:IDS_NAMED]))}" if takes else "receives nothing"
            words += f" and {len(takes) - IDS_NAMED} more" if len(takes) > IDS_NAMED else ""
            words += " and ends its round" if no in self.trace.ends else ""
            yield "rect" if takes else "rect z", at, size, words, no in self.trace.ends

    def messages(self):
        for send, taken in self.picture.messages[-MOST_MESSAGES:]:
            at, sender, receiver = self.tick(send), self.processor(send), self.trace.sends[send]
            words = f"message {self.told.message(send)} from {self.name(sender)} to {self.name(receiver)}: sent at {self.made(send)}, "
            if taken is None:
                x, y, down = self.middle(at), self.lane(sender), self.half_lane * 7 // 10
                yield "l d", [(x, y), (x + self.half_tick * 0.9, y - down if receiver < sender else y + down)], f"{words}never received"
                continue
            words += f"received at {self.made(taken)}"
            end = self.tick(taken)
            yield "l", self.arc(at, end, sender) if sender == receiver else self.line(at, sender, end, receiver), words

    def misses(self):
        for row in self.picture.misses[:MOST_WITNESSES]:
            sent, missed = row.miss
            from_name, to_name = self.name(self.processor(sent)), self.name(self.processor(missed))
            when = f"{self.told.step(missed)}{self.told.time(self.tick(missed))}"
            words = f"message {self.told.message(sent)} from {from_name} to {to_name} was not yet received at {when}: Δ({row.gst}) = {self.told.bound(row.delta)}"
            yield "w", self.line(self.tick(sent), self.processor(sent), self.tick(missed), self.processor(missed)), words

    def gaps(self):
        for row in self.picture.gaps[:MOST_WITNESSES]:
            processor, start, end = row.gap
            y = self.lane(processor)
            yield "g", [(self.edge(start), y - 90), (self.edge(end + 1), y + 90)], self.gap_words(row)

    def gap_words(self, row):
        processor, start, end = row.gap
        return f"{self.name(processor)} takes no step from {self.timed(start)} to {self.timed(end)}: Φ({row.gst}) = {self.told.bound(row.phi)}"

    def left_out(self):
        kinds = (
            (self.picture.messages, MOST_MESSAGES, "earlier messages", 900),
            (self.picture.misses, MOST_WITNESSES, "later misses", 4_900),
            (self.picture.gaps, MOST_WITNESSES, "later gaps", 7_900),
        )
        for marks, most, kind, x in kinds:
            if len(marks) > most:
                yield f"{len(marks) - most} {kind} are not drawn.", [(x, self.lanes_end + 860)]

    # All ticks

    def strips(self):
        """The steps of each lane over all ticks, with the first gaps of all."""
        columns = min(self.trace.last, COLUMNS)
        for at, processor in enumerate(self.stripped):
            y = TOP + HEIGHT + STRIPS_SPACE + (2 * at + 1) * self.half_strip
            look = f"s {'i' if processor in self.members else 'o'}{' u' * (len(self.stripped) > FEW_STRIPS)}"
            label = shortened(self.names[processor - 1]) if self.names else str(processor)
            bands = tuple(self.band(row, y) for row in self.picture.stalls[:MOST_BANDS] if row.gap[0] == processor)
            ends = [LEFT + WIDTH * it / columns for stroke in self.picture.strokes[processor] for it in stroke]
            yield look, [(780, y + self.half_strip * 6 // 10)], label, f"all steps of {self.name(processor)}", bands, [(it, y) for it in ends]

    def band(self, row, y):
        _, start, end = row.gap
        left, right = self.column(start), self.column(end + 1)
        return [(left, y - self.half_strip), (max(right, left + LEAST_BAND), y + self.half_strip)], self.gap_words(row)

    def moved(self):
        """By how much the strips move what follows."""
        yield [(0, self.strips_height)]

    def column(self, tick):
        """The left edge of a tick of all."""
        return LEFT + WIDTH * (tick - 1) / self.trace.last

    def height(self, bound):
        scale = log_of if self.high > MOST_LINEAR else lambda it: it
        return TOP + HEIGHT - HEIGHT * scale(bound) / scale(self.high)

    def bounds(self):
        """The line of each bound: along to where each row begins, and then to its height."""
        for colour, shift, bound in (("#0072B2", 0, "delta"), ("#D55E00", 20, "phi")):
            heights = [self.height(getattr(row, bound)) for row in self.picture.corners]
            points = [(LEFT, heights[0])]
            for row, height in zip(self.picture.corners, heights):
                points += [(self.column(row.gst), points[-1][1]), (self.column(row.gst), height)]
            yield colour, shift, [*points, (LEFT + WIDTH, heights[-1])]

    def corners(self):
        for row in self.picture.corners:
            words = f"from {self.timed(row.gst)} on: Δ = {self.told.bound(row.delta)}, Φ = {self.told.bound(row.phi)}"
            x = self.column(row.gst)
            yield [(x, TOP), (LEFT + WIDTH, TOP), (LEFT + WIDTH, TOP + HEIGHT), (x, TOP + HEIGHT)], words

    def lines(self):
        tens = [10**it for it in range(7) if 10**it <= self.high]
        return tens if self.high > MOST_LINEAR else range(0, self.high + 1, round_step(self.high, 6))

    def bound_labels(self):
        for bound in self.lines():
            yield str(bound), [(820, self.height(bound))]

    def bound_times(self):
        for bound in self.lines() if self.told.clock else ():
            if bound:
                yield self.told.clock.short(bound), [(LEFT + WIDTH + 60, self.height(bound))]

    def times(self):
        """Round times below all ticks, and below those of the window."""
        for first, count, y in ((1, self.trace.last, TOP + HEIGHT + 320), (self.first, self.count, self.lanes_end + 320)):
            if self.told.clock:
                yield from self.round_times(self.told.clock, first, count, y)

    def round_times(self, clock, first, count, y):
        begin, span = (first - 1) * clock.width, count * clock.width
        step = round_step(span, 10)
        part = min(10 ** (len(str(step)) - 1), clock.size)
        for time in range(-(-begin // step) * step, begin + span + 1, step):
            digits = len(str(clock.size // part)) - 1 if time else 0
            yield f"{Decimal(time) / clock.size:.{digits}f}\u202f{clock.unit}", [(LEFT + WIDTH * (time - begin) / span, y)]

    def tick_labels(self):
        step = round_step(self.trace.last, 10)
        for tick in range(step, self.trace.last + 1, step):
            yield str(tick), [(self.column(tick) + WIDTH / self.trace.last / 2, TOP + HEIGHT + 180)]

    def shade(self):
        yield [(self.column(self.first), TOP), (self.column(self.to + 1), TOP + HEIGHT + self.strips_height)]

    def headings(self):
        yield "Least bounds that hold from a tick to the end" + (", on a log scale" if self.high > MOST_LINEAR else ""), [(900, 300)]
        row = self.rows[0]
        yield f"Δ({row.gst}) = {row.delta} in communication, Φ({row.gst}) = {row.phi} of processors", [(10_900, 300)]
        yield f"Steps of the ticks {self.first} to {self.to}{self.of_all()}", [(900, LANES_TOP - 160)]

    def of_all(self):
        count = self.trace.processors
        return "" if len(self.drawn) == count else f", of {len(self.drawn)} of {count} processors"

    def words(self):
        """The text for a reader that doesn't show pictures."""
        yield "title", f"Least bounds from each tick to the end, and steps of the ticks {self.first} to {self.to}{self.of_all()}"
        every = range(1, self.trace.processors + 1)
        told = f"Taken as correct: {', '.join(self.name(it) for it in every if it in self.members)}."
        told = told if self.members else "No processor is taken as correct."
        told = "All processors are taken as correct." if set(self.members) == set(every) else told
        corners = self.picture.corners
        bounds = [f"from tick {row.gst} on Δ = {self.told.bound(row.delta)} and Φ = {self.told.bound(row.phi)}" for row in corners[:1] + corners[1:][-1:]]
        yield "desc", f"{told} F{'; '.join(bounds)[1:]}."

    def page(self):
        """Two corners of the page, which is wider by what names reach beyond it."""
        beyond = max([0] + [sum(map(wide, shortened(it))) - LABEL_ROOM for it in self.names or []])
        right = 800 if self.told.clock else 300
        yield [(-beyond, 0), (LEFT + WIDTH + right, self.lanes_end + self.strips_height + 1_000)]

    def all(self):
        """Each kind with its marks in their order."""
        return {kind: [*getattr(self, kind)()] for kind in KINDS}


# A crowd: 20 processors, of which three aren't named as correct

PROCESSORS = 20
CROWD_TICKS = 3_000
CROWD_MEMBERS = [it for it in range(1, PROCESSORS + 1) if it not in (4, 17, 20)]
CROWD_WINDOW = (1_000, 1_999)
# Of 30 bytes each: some are escaped, and some characters have two or three bytes.
CROWD_NAMES = [f"{it:02} {begin}{'-of-the-Crowd-under-watch!'[: 27 - len(begin.encode())]}" for it, begin in enumerate(["node", "<&\"'>", "été", "—", "WWW"] * 4, 1)]


class Crowd:
    """Steps that are drawn by lot, some of them settled: what waits, and the lines that were written."""

    def __init__(self):
        self.lot = random.Random(1988)
        self.waiting = defaultdict(list)
        self.lines = []

    def send(self, tick, processor, to):
        no = len(self.lines) + 1
        self.lines.append(f"{no},{tick},{processor},S,{to}")
        # Most are taken soon, some late, some never. Processor 2 takes none of those of processor 1.
        late = self.lot.choice([3, 20, 150, 1_300, None])
        if late and (processor, to) != (1, 2):
            self.waiting[to].append((tick + late, no))

    def receive(self, tick, processor):
        due = [no for at, no in self.waiting[processor] if at <= tick]
        self.waiting[processor] = [it for it in self.waiting[processor] if it[0] > tick]
        act = self.lot.choice("RRE")
        self.lines.append(f"{len(self.lines) + 1},{tick},{processor},{act},{' '.join(map(str, due))}")

    def step(self, tick, processor):
        if processor == 1:
            self.send(tick, 1, self.lot.choice([2, 2, 2, 1, 3]) if tick > 2_000 else 2)
        elif processor == 2 or self.lot.random() < 0.5:
            self.receive(tick, processor)
        else:
            self.send(tick, processor, self.lot.randint(1, PROCESSORS) if self.lot.random() < 0.8 else processor)


def crowd():
    """The trace: processor 1 sends to 2 in each tick up to 2000, and 2 takes none of it, so that each of these ticks has a
    miss of its own. The others step at times that are drawn by lot, more rarely the higher their numbers."""
    made = Crowd()
    for tick in range(1, CROWD_TICKS + 1):
        for processor in range(1, PROCESSORS + 1):
            if processor == 1 or made.lot.random() < 1 / (2 * processor):
                made.step(tick, processor)
    head = f"dls-trace,2,{PROCESSORS},0\ninit,{','.join(map(str, range(1, PROCESSORS + 1)))}\n"
    return head + "\n".join(made.lines) + f"\nend,{CROWD_TICKS}\n"


if __name__ == "__main__":
    if sys.argv[1:] != ["--crowd"]:
        sys.exit(__doc__)
    sys.stdout.write(crowd())
