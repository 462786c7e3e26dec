"""Simulated runs: that a run is the schedule's, that its bounds are kept, and that the same arguments give it again."""

import random
import sys
import time
from enum import IntEnum

import synchrony as sy
from support import needs, raises, ring
from synchrony import AfterSends, Decide, Receive, Schedule, Send, broadcast, simulate, smallest

RUNS = 10_000


def steps_of(run):
    """The steps of a run: number, tick, processor, operation and argument."""
    return [(int(no), int(tick), int(p), op, arg) for no, tick, p, op, arg in (it.split(",") for it in run.trace.decode().split("\n")[2:-2])]


def test_a_run_that_was_written_down_by_hand():
    def node(me, n, value):
        yield Send(me % n + 1, value)
        taken = yield Receive()
        yield Decide(taken)

    run = simulate(node, [5, 7], Schedule(speed=1, prompt=1), ticks=3)
    assert run.trace == b"dls-trace,2,2,0\ninit,5,7\n1,1,1,S,2\n2,1,2,S,1\n3,2,1,R,2\n4,2,2,R,1\n5,3,1,R,\n6,3,2,R,\nend,3\n"
    assert run.decisions == [(1, 2, [(2, 7)]), (2, 2, [(1, 5)])] and run.decided() == {1: [(2, 7)], 2: [(1, 5)]}
    assert (run.correct, run.steps, run.ticks) == ([1, 2], 6, 3)
    assert run.check() and str(run.check()) == "from tick 1 on: delta 1 of 1, phi 1 of 1"


def random_node(me, n, value):
    """Some Sends, broadcasts and Receives, as chance has it, and an end."""
    chance = random.Random(1000 * value + me)
    for _ in range(value):
        what = chance.random()
        if what < 0.3:
            yield Send(int(chance.random() * n) + 1, value)
        elif what < 0.4:
            yield from broadcast(n, value)
        elif what < 0.5:
            yield Decide(value)
        else:
            yield Receive()


def random_schedule(chance, n):
    chances = lambda: chance.choice([0, 0.2, 0.5, 1])
    several = lambda: {it: chances() for it in range(1, n + 1) if chance.random() < 0.7} if chance.random() < 0.3 else chances()
    crash = lambda: chance.randint(1, 50) if chance.random() < 0.5 else AfterSends(chance.randint(1, 6))
    return Schedule(
        gst=chance.choice([1, chance.randint(1, 30)]),
        delta=chance.randint(1, 6),
        phi=chance.randint(1, 6),
        seed=chance.randint(0, 1 << 40),
        speed=several(),
        speed_before=several(),
        prompt=chances(),
        loss=several(),
        crashed={it: crash() for it in range(1, n + 1) if chance.random() < 0.2},
    )


def test_10_000_runs_over_random_schedules():
    chance, tight = random.Random(1), [0, 0]
    for no in range(RUNS):
        n = chance.randint(2, 5)
        schedule, values = random_schedule(chance, n), [chance.randint(0, 40) for _ in range(n)]
        ticks = schedule.gst - 1 + chance.randint(1, 40)
        run = simulate(random_node, values, schedule, ticks)
        # (a text that is none of a trace is refused here)
        kept = run.check()
        assert kept, (no, schedule, values, ticks, str(kept))
        again = simulate(random_node, values, schedule, ticks)
        assert (again.trace, again.decisions) == (run.trace, run.decisions), (no, schedule)
        tight = [count + (least == asked > 1) for count, least, asked in zip(tight, kept[1:3], kept[3:])]
    # (and the bounds that were asked for are reached: the schedules use what they may)
    assert min(tight) > RUNS // 20, tight


def test_what_is_between_two_runs_is_the_seed():
    one, two = (simulate(ring, [1] * 3, Schedule(seed=it, delta=3, phi=3), ticks=50) for it in (1, 2))
    assert one.trace != two.trace and one == simulate(ring, [1] * 3, Schedule(seed=1, delta=3, phi=3), ticks=50)


def test_bounds_that_are_not_kept_are_seen():
    """A run that is judged by smaller bounds than its schedule's."""
    run = simulate(ring, [1] * 3, Schedule(delta=5, phi=5, speed=0.2, prompt=0.1), ticks=300)
    worse = sy.Run(run.trace, run.decisions, run.correct, Schedule(delta=2, phi=5), run.ticks, run.steps)
    assert run.check() and not worse.check() and worse.check().delta > 2
    assert "delta 5 of 2" in str(worse.check())


def test_a_claim_about_a_run():
    def node(me, n, value):
        yield from broadcast(n, value)
        heard = []
        while len(heard) < n:
            heard += [body for _, body in (yield Receive())]
        yield Decide(min(heard))
        while True:
            yield Receive()

    run = simulate(node, [5, 7, 7], Schedule(delta=3, phi=4, seed=1), ticks=300)
    last = max(it.tick for it in run.decisions)
    assert run.judge("100") and str(run.judge("100")).startswith("yes ") and run.judge("100", valid=True, due=1)
    assert not run.judge("1") and str(run.judge("1")).startswith("no deadline 1 ")
    # (in tick 1 + L - 1 all have decided, and a tick before not all)
    assert run.judge(f"{last - 1}", start=1) and not run.judge(f"{last - 2}", start=1)
    # decisions are passed as numbers
    assert str(run.judge("100", valid=True, value=lambda it: it + 1)).startswith("no validity ")
    split = sy.Run(run.trace, run.decisions + [sy.Decision(1, last, 7)], run.correct, run.schedule, run.ticks, run.steps)
    assert str(split.judge("100")).startswith("no agreement ")


class Seven:
    """A whole number that is no int, as those of numpy."""

    def __index__(self):
        return 7


class Named(IntEnum):
    """A whole number that is shown by its name."""

    SEVEN = 7


def decided(value, tick=3):
    """A run in which processor 1 decides this."""
    return sy.Run(b"", [sy.Decision(1, tick, value)], [1], Schedule(), 3, 3)


def test_decisions_are_passed_as_numbers_of_64_bits():
    for value, number in [(7, 7), (True, 1), (Seven(), 7), (Named.SEVEN, 7), ((1 << 64) - 1, (1 << 64) - 1)]:
        assert decided(value).decisions_text() == b"proc,tick,value\n1,3,%d\n" % number
    for value in (2.1, 2.9, "7", "commit", None, -1, 1 << 64):
        words = f"processor 1 decided {value!r} in tick 3, which is no number of 64 bits: pass value=, which makes one of each decision"
        for call in (lambda: decided(value).decisions_text(), lambda: decided(value).judge("phi")):
            with raises(ValueError) as caught:
                call()
            assert str(caught[0]) == words
    with raises(ValueError, "decided 2.5 before its first step, which"):
        decided(2.5, tick=0).decisions_text()
    # (what makes a number may be wrong, too)
    assert decided("commit").decisions_text({"commit": 4}.get) == b"proc,tick,value\n1,3,4\n"
    with raises(ValueError, "decided 'abort'"):
        decided("abort").decisions_text({"commit": 4}.get)


def test_a_decision_before_the_first_step():
    def node(me, n, value):
        yield Decide(4)
        while True:
            yield Receive()

    run = simulate(node, [1, 2], ticks=20)
    assert {it.tick for it in run.decisions} == {0} and run.judge("0", due=1)


def test_a_run_that_ends_before_gst():
    run = simulate(ring, [1, 2], Schedule(gst=100), ticks=20)
    assert not run.check() and run.check().delta is None and str(run.check()) == "the run ends before tick 100"
    # (it has to reach gst, and no more)
    assert simulate(ring, [1, 2], Schedule(gst=20), ticks=20).check() and not simulate(ring, [1, 2], Schedule(gst=21), ticks=20).check()
    assert simulate(ring, [1, 2], ticks=0).trace == b"dls-trace,2,2,0\ninit,1,2\nend,0\n"


def test_a_crash_in_the_middle_of_a_broadcast():
    def node(me, n, value):
        yield from broadcast(n, value)
        yield Decide(value)
        while True:
            yield Receive()

    run = simulate(node, [1] * 5, Schedule(crashed={2: AfterSends(3), 4: AfterSends(0)}, seed=3), ticks=40)
    assert [(op, arg) for _, _, p, op, arg in steps_of(run) if p == 2] == [("S", "1"), ("S", "2"), ("S", "3")]
    assert all(p != 4 for _, _, p, _, _ in steps_of(run))
    assert run.correct == [1, 3, 5] and set(run.decided()) == {1, 3, 5} and run.check()
    # (a crash right behind the last Send of the broadcast: it decides no more)
    assert 2 not in simulate(node, [1] * 5, Schedule(crashed={2: AfterSends(5)}), ticks=40).decided()


def test_a_crash_at_a_tick():
    run = simulate(ring, [1] * 3, Schedule(speed=1, crashed={2: 7}), ticks=20)
    assert [tick for _, tick, p, _, _ in steps_of(run) if p == 2] == list(range(1, 7))
    assert run.check() and run.correct == [1, 3]


def test_loss_and_speed_of_each_processor():
    slow = Schedule(gst=201, loss={1: 1.0, 2: 0.0}, speed_before={1: 0.9, 2: 0.3, 3: 0.0}, prompt=1, seed=5)
    steps = steps_of(simulate(ring, [1] * 3, slow, ticks=200))
    sent = {p: {str(no) for no, _, it, op, _ in steps if (it, op) == (p, "S")} for p in (1, 2)}
    taken = {it for _, _, _, op, arg in steps if op == "R" for it in arg.split()}
    # (1 sends to 2, which receives, and 2 to 3, which makes no step)
    assert sent[1] and not sent[1] & taken and all(p != 3 for _, _, p, _, _ in steps)
    counts = [sum(p == it for _, _, it, _, _ in steps) for p in (1, 2)]
    assert 160 < counts[0] < 200 and 40 < counts[1] < 80, counts
    kept = steps_of(simulate(ring, [1] * 3, Schedule(gst=201, loss={1: 1.0, 2: 0.0}, prompt=1, seed=5, speed_before=1), ticks=200))
    taken = {it for _, _, _, op, arg in kept if op == "R" for it in arg.split()}
    assert {str(no) for no, tick, it, op, _ in kept if (it, op) == (2, "S") and tick < 199} <= taken


def test_several_step_in_a_tick():
    ticks = [tick for _, tick, _, _, _ in steps_of(simulate(ring, [1] * 4, Schedule(speed=0.5, phi=3), ticks=60))]
    assert {ticks.count(it) for it in ticks} >= {1, 2, 3}


def slowness():
    """How many times as long a plain loop takes as on a usual machine, at least 1."""
    began = time.process_time()
    total = 0
    for number in range(2_000_000):
        total += number
    return max(1.0, (time.process_time() - began) / 0.16)


def test_a_million_steps_take_at_most_five_seconds():
    limit = 5 * slowness()
    began = time.process_time()
    run = simulate(ring, [1] * 4, Schedule(gst=100, delta=3, phi=4, seed=1, speed=1), ticks=250_000)
    seconds = time.process_time() - began
    assert run.steps > 999_000 and seconds <= limit, (run.steps, seconds, limit)
    assert run.check()


def test_what_is_no_run_is_refused():
    def to_nobody(me, n, value):
        yield Send(n + 1, value)

    def not_a_step(me, n, value):
        yield Receive

    def late(me, n, value):
        yield Receive()
        yield Send(0, value)

    for error, words, call in [
        (ValueError, "2 to 64 processors, not 1", lambda: simulate(ring, [1])),
        (ValueError, "2 to 64 processors, not 65", lambda: simulate(ring, [1] * 65)),
        (ValueError, "at most 1000000 ticks", lambda: simulate(ring, [1, 2], ticks=1_000_001)),
        (ValueError, "more than 1000000 steps", lambda: simulate(ring, [1] * 64, Schedule(speed=1), ticks=20_000)),
        (ValueError, "64 bits", lambda: simulate(ring, [-1, 2])),
        (ValueError, "64 bits", lambda: simulate(ring, [1 << 64, 2])),
        (ValueError, "none of 1 to 2", lambda: simulate(to_nobody, [1, 2])),
        (ValueError, "none of 1 to 2", lambda: simulate(late, [1, 2])),
        (TypeError, "no Send, Receive or Decide", lambda: simulate(not_a_step, [1, 2])),
        (TypeError, "a protocol is a generator function", lambda: simulate(lambda *_: iter([]), [1, 2])),
        (ValueError, "crashed names processor 3, which is none of 1 to 2", lambda: simulate(ring, [1, 2], Schedule(crashed={3: 1}))),
        (ValueError, "at most 0 of 2", lambda: simulate(ring, [1, 2], faults=1)),
        (ValueError, "gst is", lambda: Schedule(gst=0)),
        (ValueError, "delta is", lambda: Schedule(delta=0)),
        (ValueError, "phi is", lambda: Schedule(phi=0)),
        (ValueError, "speed is", lambda: Schedule(speed=1.5)),
        (ValueError, "loss[1] is", lambda: Schedule(loss={1: -0.5})),
    ]:
        with raises(error, words):
            call()


def test_numbers_that_are_none_are_refused_by_name():
    for error, words, call in [
        (TypeError, "gst is 1.5, and has to be a whole number", lambda: Schedule(gst=1.5)),
        (TypeError, "delta is '3', and has to be a whole number", lambda: Schedule(delta="3")),
        (TypeError, "phi is None, and has to be a whole number", lambda: Schedule(phi=None)),
        (TypeError, "seed is None, and has to be a whole number", lambda: Schedule(seed=None)),
        (TypeError, "seed is 0.5, and has to be a whole number", lambda: Schedule(seed=0.5)),
        # (a random source of Python takes -1 as 1)
        (ValueError, "seed is a number from 0 on, not -1", lambda: Schedule(seed=-1)),
        (TypeError, "crashed[2] is 2.5, and has to be a whole number", lambda: Schedule(crashed={2: 2.5})),
        (TypeError, "crashed[2].sends is 0.5, and has to be a whole number", lambda: Schedule(crashed={2: AfterSends(0.5)})),
        (TypeError, "a processor of crashed is '2', and has to be a whole number", lambda: Schedule(crashed={"2": 5})),
        (TypeError, "crashed is [2], and has to be a mapping", lambda: Schedule(crashed=[2])),
        (ValueError, "prompt is a chance, from 0 to 1, not {1: 0.5}", lambda: Schedule(prompt={1: 0.5})),
        (ValueError, "speed is a chance, from 0 to 1, not '0.5'", lambda: Schedule(speed="0.5")),
        (ValueError, "speed_before[2] is a chance, from 0 to 1, not None", lambda: Schedule(speed_before={1: 1, 2: None})),
        (ValueError, "loss is a chance, from 0 to 1, not nan", lambda: Schedule(loss=float("nan"))),
        (TypeError, "values[0] is 1.5, and has to be a whole number", lambda: simulate(ring, [1.5, 2])),
        (TypeError, "values[1] is 'a', and has to be a whole number", lambda: simulate(ring, [1, "a"])),
        (TypeError, "ticks is 10.0, and has to be a whole number", lambda: simulate(ring, [1, 2], ticks=10.0)),
        (TypeError, "faults is 0.5, and has to be a whole number", lambda: simulate(ring, [1, 2], faults=0.5)),
    ]:
        with raises(error) as caught:
            call()
        assert str(caught[0]).startswith(words), caught[0]


def test_a_mapping_of_a_schedule_names_processors_of_the_run():
    for name, given in [("speed", {0: 0.5}), ("speed_before", {1: 0.5, 4: 0.5}), ("loss", {"1": 0.5}), ("crashed", {-1: 5})]:
        with raises(ValueError) as caught:
            simulate(ring, [1] * 3, Schedule(**{name: given}))
        assert str(caught[0]) == f"{name} names processor {[*given][-1]!r}, which is none of 1 to 3"


def test_whole_numbers_of_any_type_are_those_of_ints():
    def node(me, n, value):
        yield Send(Named.SEVEN if me % 2 else Seven(), value)
        yield Decide(value)

    given = Schedule(gst=Seven(), delta=Seven(), phi=Seven(), seed=Seven(), crashed={Seven(): Seven(), 1: AfterSends(Seven())})
    assert given == Schedule(gst=7, delta=7, phi=7, seed=7, crashed={7: 7, 1: AfterSends(7)})
    run = simulate(node, [Seven(), True, *[0] * 5], given, ticks=Seven(), faults=True)
    lines = run.trace.decode().split("\n")
    assert lines[:2] == ["dls-trace,2,7,1", "init,7,1,0,0,0,0,0"] and lines[-2] == "end,7"
    assert {arg for _, _, _, op, arg in steps_of(run) if op == "S"} == {"7"}


def test_a_processor_that_decides_without_end():
    def node(me, n, value):
        yield Receive()
        for _ in range(value):
            yield Decide(value)
        yield Receive()
        for _ in range(value):
            yield Decide(value)

    # (as often as this between two steps, and not once more)
    assert len(simulate(node, [1000, 0], Schedule(speed=1), ticks=5).decisions) == 2000
    with raises(ValueError) as caught:
        simulate(node, [0, 1001], Schedule(speed=1), ticks=5)
    assert str(caught[0]) == "processor 2 decides 1000 times without a step, in tick 1: yield Send or Receive between decisions"

    def at_once(me, n, value):
        while True:
            yield Decide(value)

    with raises(ValueError, "processor 1 decides 1000 times without a step, before its first step: yield"):
        simulate(at_once, [1, 2])


def test_a_body_is_not_copied():
    def node(me, n, value):
        body = [value]
        yield Send(me % n + 1, body)
        body.append("changed")
        while True:
            for _, body in (yield Receive()):
                yield Decide(body)

    run = simulate(node, [5, 7], Schedule(speed=1, prompt=1), ticks=3)
    assert run.decided() == {1: [7, "changed"], 2: [5, "changed"]}


def failing(before, yielded):
    """A protocol that makes so many Receives, and then yields this in place of a step. It raises it if it is an error."""

    def node(me, n, value):
        for _ in range(before):
            yield Receive()
        if isinstance(yielded, Exception):
            raise yielded
        yield yielded

    return node


def test_what_is_no_step_is_refused_with_its_tick():
    for yielded, words in [
        (Send(4, 1), "processor 1 sends to 4, which is none of 1 to 3, "),
        (Send(True, 1), "processor 1 sends to True, which is none of 1 to 3, "),
        (Send(1.0, 1), "processor 1 sends to 1.0, which is none of 1 to 3, "),
        (Send("2", 1), "processor 1 sends to '2', which is none of 1 to 3, "),
        (Send(int, 1), "processor 1 sends to <class 'int'>, which is none of 1 to 3, "),
        ((2, 1), "processor 1 yields (2, 1), which is no Send, Receive or Decide, "),
        (None, "processor 1 yields None, which is no Send, Receive or Decide, "),
    ]:
        for before, when in [(0, "before its first step"), (9, "in tick 9")]:
            with raises((TypeError, ValueError)) as caught:
                simulate(failing(before, yielded), [1] * 3, Schedule(speed=1))
            assert str(caught[0]) == words + when


def test_what_to_yield_is_said():
    def from_a_send(me, n, value):
        yield Receive()
        yield from Send(2, value)

    def from_a_decision(me, n, value):
        yield Receive()
        yield from from_a_send(me, n, value)

    for node, words in [
        (failing(1, broadcast(3, 1)), ", in tick 1: write yield from"),
        (failing(1, Receive), ", in tick 1: write Receive(..)"),
        (from_a_send, "yields 2, which is no Send, Receive or Decide, in tick 1: write yield, not yield from"),
        (from_a_decision, "in tick 2: write yield, not yield from"),
    ]:
        with raises(TypeError) as caught:
            simulate(node, [1] * 3, Schedule(speed=1))
        assert str(caught[0]).endswith(words), caught[0]

    def without_end(me, n, value):
        while True:
            yield from Receive()

    with raises(TypeError, "not iterable"):
        simulate(without_end, [1, 2])


def test_an_error_of_a_protocol_has_a_note():
    for before, note in [(0, "in processor 1, before its first step"), (17, "in processor 1, after its step in tick 17")]:
        why = KeyError("body")
        with raises(KeyError) as caught:
            simulate(failing(before, why), [1] * 3, Schedule(speed=1))
        assert caught[0] is why and getattr(why, "__notes__", []) == [note] * (sys.version_info >= (3, 11))

    def after_a_decision(me, n, value):
        yield Receive()
        yield Decide(value)
        raise KeyError

    with raises(KeyError) as caught:
        simulate(after_a_decision, [1] * 3, Schedule(speed=1))
    assert getattr(caught[0], "__notes__", []) == ["in processor 1, after its step in tick 1"] * (sys.version_info >= (3, 11))


def test_a_run_is_shown_without_its_trace():
    run = simulate(ring, [1, 2], Schedule(seed=4), ticks=300)
    assert repr(run) == f"Run(correct=[1, 2], schedule={run.schedule!r}, ticks=300, steps={run.steps})"


def test_the_smallest_schedule_that_fails():
    schedule = Schedule(gst=77, delta=9, phi=6, seed=12, loss=0.5, crashed={1: 3, 2: 5})
    found = smallest(schedule, lambda it: it.delta >= 4 and it.gst + it.phi >= 30 and 2 in it.crashed)
    assert found == Schedule(gst=29, delta=4, phi=1, seed=0, loss=0.0, crashed={2: 5}) or found.gst + found.phi == 30
    with raises(ValueError, "doesn't fail"):
        smallest(schedule, lambda it: False)


def test_strategies_of_hypothesis():
    needs("hypothesis")
    from hypothesis import find, given, settings
    from synchrony.strategies import schedules

    @settings(max_examples=200, deadline=None, database=None)
    @given(schedules(4, most_crashed=1))
    def bounds_are_kept(schedule):
        assert simulate(random_node, [20] * 4, schedule, ticks=schedule.gst + 30).check()

    bounds_are_kept()
    # (a schedule that is found is a small one)
    found = find(schedules(3), lambda it: it.delta >= 3, settings=settings(database=None))
    assert (found.gst, found.delta, found.phi, found.seed, found.loss, found.crashed) == (1, 3, 1, 0, 0, {})
