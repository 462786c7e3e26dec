"""Strategies of hypothesis, which has to be installed, for schedules and for the crashes in them.

    @given(schedules(processors=5, most_crashed=2))
    def test_agreement(schedule):
        run = simulate(node, [5, 7, 7, 5, 7], schedule, ticks=1000)
        assert len(run.values_decided()) <= 1

A failing schedule is shrunk: to gst, delta and phi of 1, to no crash, and to no loss.
"""

from __future__ import annotations

from typing import Any, Dict, Union

from hypothesis import strategies as st

from .simulation import AfterSends, Schedule


def chances(least: float = 0.0) -> st.SearchStrategy[float]:
    """Chances in steps of a twentieth, of which the simplest is the least."""
    return st.integers(round(20 * least), 20).map(lambda it: it / 20)


def crashes(processors: int, most: int, most_tick: int = 200) -> st.SearchStrategy[Dict[int, Union[int, AfterSends]]]:
    """At most so many crashes: of different processors, at a tick, or behind one of their Sends."""
    when = st.one_of(st.integers(1, most_tick), st.builds(AfterSends, st.integers(1, 4 * processors)))
    return st.dictionaries(st.integers(1, processors), when, max_size=most)


def schedules(
    processors: int, most_crashed: int = 0, most_gst: int = 200, most_delta: int = 8, most_phi: int = 8, most_loss: float = 1.0
) -> st.SearchStrategy[Schedule]:
    """Schedules for so many processors, of which at most so many crash."""
    fields: Dict[str, Any] = {
        "gst": st.integers(1, most_gst),
        "delta": st.integers(1, most_delta),
        "phi": st.integers(1, most_phi),
        "seed": st.integers(0, 1 << 32),
        "speed": chances(),
        "speed_before": chances(),
        "prompt": chances(),
        "loss": chances().map(lambda it: it * most_loss),
        "crashed": crashes(processors, most_crashed, most_gst),
    }
    return st.builds(Schedule, **fields)
