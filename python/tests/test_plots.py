"""Pictures: that they are drawn, with all that is in the rows."""

import io

import synchrony as sy
from support import EXAMPLES, needs


def test_the_staircases_of_a_report():
    needs("matplotlib")
    figure = sy.plot_report(sy.report(EXAMPLES / "heartbeats.trace", "all"), last=32)
    seen = [(part.lines[0].get_xdata().tolist(), part.lines[0].get_ydata().tolist()) for part in figure.axes]
    assert seen == [([1, 10, 11, 27, 32], [3, 3, 2, 1, 1]), ([1, 10, 11, 27, 32], [4, 3, 2, 2, 2])]
    figure.savefig(io.BytesIO(), format="png")
    sy.plot_report([]).savefig(io.BytesIO(), format="svg")


def test_the_distributions_of_a_survey():
    needs("matplotlib")
    rows = [sy.Surveyed(str(no), group, 9, 9, (sy.Bounds(delta, 3),), None) for no, (group, delta) in enumerate([("a", 5), ("a", 2), ("b", 4), ("a", 9)])]
    table = sy.Table((5,), [*rows, sy.Surveyed("short", "a", 1, 1, (None,), None), sy.Surveyed("bad", "c", None, None, (), "why")])
    figure = sy.plot_survey(table)
    deltas = {line.get_label(): (list(line.get_xdata()), list(line.get_ydata())) for line in figure.axes[0].lines}
    assert set(deltas) == {"a (3)", "b (1)"}
    assert deltas["a (3)"] == ([2, 2, 5, 9, 9], [0, 1 / 3, 2 / 3, 1, 1]) and deltas["b (1)"] == ([4, 4, 9], [0, 1, 1])
    figure.savefig(io.BytesIO(), format="png")
    sy.plot_survey(sy.Table((1,))).savefig(io.BytesIO(), format="png")
