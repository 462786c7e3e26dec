"""Pictures of reports and of surveys, by matplotlib, which has to be installed.

A picture is a Figure: `plot_report(rows).savefig("bounds.png")`. No window is opened.
"""

from __future__ import annotations

from typing import TYPE_CHECKING, Any, List, Optional, Sequence

from .library import Row
from .surveys import Table

if TYPE_CHECKING:
    from matplotlib.figure import Figure

NAMES = {"delta": "Δ, in ticks", "phi": "Φ, in ticks"}


def plot_report(rows: Sequence[Row], last: Optional[int] = None) -> Figure:
    """The two staircases of a report: the least bounds from each tick on. `last` is the last tick of the trace; if it is
    left out, the last row is drawn one tick long."""
    figure, parts = _figure(2)
    end = max([last or 0, *(it.gst + 1 for it in rows)])
    ticks = [*(it.gst for it in rows), end]
    for part, bound in zip(parts, NAMES):
        values = [getattr(it, bound) for it in rows]
        part.step(ticks, [*values, *values[-1:]] or [0], where="post", color="C0" if bound == "delta" else "C1")
        part.set_ylabel(NAMES[bound])
        part.set_ylim(0, 1.08 * max([1, *values]))
        part.yaxis.get_major_locator().set_params(integer=True)
        part.grid(alpha=0.3)
    parts[-1].xaxis.get_major_locator().set_params(integer=True)
    parts[-1].set_xlabel("from tick")
    parts[0].set_title("Least bounds that hold to the end of the trace")
    return figure


def plot_survey(table: Table) -> Figure:
    """For each group how its bounds are distributed: the share of its traces in which a bound is at most so great. The
    bounds are those from the first tick of the survey on."""
    figure, parts = _figure(1, 2)
    groups = list(dict.fromkeys(it.group for it in table.rows))
    # (a trace that ends before the tick, or has an error, has no bounds)
    rows = [(it.group, it.bounds[0]) for it in table.rows if it.bounds and it.bounds[0]]
    for at, (part, bound) in enumerate(zip(parts, NAMES)):
        greatest = max([1, *(bounds[at] for _, bounds in rows)])
        for group in groups:
            values = sorted(bounds[at] for it, bounds in rows if it == group)
            if values:
                shares = [(no + 1) / len(values) for no in range(len(values))]
                part.step([values[0], *values, greatest], [0, *shares, 1], where="post", label=f"{group or 'all'} ({len(values)})")
        part.set_xlabel(NAMES[bound])
        part.set_xlim(0, 1.04 * greatest)
        part.xaxis.get_major_locator().set_params(integer=True)
        part.set_ylim(0, 1.02)
        part.grid(alpha=0.3)
        if rows:
            part.legend(fontsize="small")
    parts[0].set_ylabel("share of the traces with at most this bound")
    figure.suptitle(f"Least bounds from tick {table.ticks[0]} on")
    return figure


def _figure(down: int, across: int = 1) -> Any:
    """A figure that needs no display, and its parts in a list."""
    from matplotlib.backends.backend_agg import FigureCanvasAgg
    from matplotlib.figure import Figure

    figure = Figure(figsize=(5.0 * across + 1, 2.6 * down + 1.4), layout="constrained")
    FigureCanvasAgg(figure)
    parts: List[Any] = list(figure.subplots(down, across, sharex=across == 1, sharey=across > 1).flat)
    return figure, parts
