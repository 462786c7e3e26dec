"""Claims judged by many runs: each run has its line in every case, and the last line adds them up."""

import math
import os
import tempfile
from concurrent.futures import Executor, Future, ThreadPoolExecutor
from pathlib import Path

import synchrony as sy
from support import EXAMPLES, ONE_MISS, TOP, piped, python, raises

# Two processors that step in each of the ticks 1 to 4, so that Δ = Φ = 1 from tick 1 on.
BUSY = b"dls-trace,2,2,0\ninit,5,7\n" + b"".join(b"%d,%d,%d,R,\n" % (2 * t + p - 2, t, p) for t in range(1, 5) for p in (1, 2)) + b"end,4\n"
# Both decide in tick 2, so within 2 ticks of each start; or the second one never does.
IN_TIME = b"proc,tick,value\n1,2,5\n2,2,5\n"
LATE = b"proc,tick,value\n1,2,5\n"
DIFFERENT = b"proc,tick,value\n1,2,5\n2,2,7\n"


class Deadly(bytes):
    """A trace that ends the process to which it is sent."""

    def __reduce__(self):
        return os._exit, (1,)


class Broken(Executor):
    """An executor that takes nothing."""

    def submit(self, *_):
        raise RuntimeError("shut down")


def cases():
    return [sy.Case("kept", BUSY, IN_TIME), sy.Case("late", BUSY, LATE), sy.Case("split", BUSY, DIFFERENT), sy.Case("none", b"x", LATE)]


def test_each_run_has_its_verdict():
    found = sy.judge_runs(cases(), "2*phi", workers=2)
    # (the deadline of tick 1 is 3, and those of later ticks come later)
    assert [it.name for it in found.rows] == ["kept", "late", "split", "none"]
    assert str(found.rows[0].verdict).startswith("yes ") and str(found.rows[1].verdict) == "no deadline 1 1 1 3 2"
    assert str(found.rows[2].verdict) == "no agreement 1 2 5 2 2 7" and found.rows[3].verdict is None
    assert found.rows[3].error.startswith("trace: bad header") and "\n" not in found.rows[3].error and not found
    for row, case in zip(found.rows[:3], cases()):
        assert row.verdict == sy.judge(case.trace, case.decisions, "all", "2*phi")


def test_the_summary_adds_up():
    found = sy.judge_runs(cases(), "2*phi", workers=1)
    # (decided in tick 2, and the least deadline is 3)
    assert found.summary() == "4 runs: 1 yes, 2 no, 0 untested, 1 not judged; least margin 1 (kept)"
    assert found.text().splitlines()[-1] == found.summary() and len(found.text().splitlines()) == 5
    untested = sy.judge_runs([sy.Case("short", BUSY, LATE)], "100", workers=1)
    assert untested and untested.summary() == "1 run: 0 yes, 0 no, 1 untested, 0 not judged"
    assert repr(untested) == "Verdicts()"


def test_no_runs_are_refused():
    with raises(ValueError, "no runs"):
        sy.judge_runs([], "phi", workers=1)
    # (the formula comes first)
    with raises(sy.SynchronyError, "--within"):
        sy.judge_runs([], "phi +", workers=1)


def test_the_least_margin_is_the_first_of_several():
    names = ["b", "a", "c"]
    found = sy.judge_runs([sy.Case(it, BUSY, IN_TIME, start=2 if it == "b" else 1) for it in names], "2*phi", workers=1)
    # (an instance that starts in tick 2 has deadlines of 4 and above)
    assert found.summary().endswith("3 yes, 0 no, 0 untested, 0 not judged; least margin 1 (a)")


def test_factors_and_rows():
    found = sy.judge_runs(cases(), "2*phi", workers=1, factor=True, rows=True)
    # (all decide in tick 2, which is 1 after tick 1; or the deadline of tick 1 has to come after the last tick, which is 4)
    assert [it.verdict.factor for it in found.rows[:3]] == [1, 2, 1] and found.rows[3].verdict is None
    assert found.summary() == "4 runs: 1 yes, 2 no, 0 untested, 1 not judged; least margin 1 (kept); greatest factor 2 (late)"
    assert found.text().splitlines()[1] == "late: no deadline 1 1 1 3 2 factor 2"
    assert found.rows[0].verdict.rows == [sy.DeadlineRow(1, 1, 1, 3, 2, 1)]
    assert found.rows[1].verdict.rows == [sy.DeadlineRow(1, 1, 1, 3, None, None)]
    never = sy.judge_runs(cases()[:1], "0", workers=1, factor=True)
    assert never.rows[0].verdict.factor == math.inf and never.summary().endswith("greatest factor none (kept)")
    unasked = sy.judge_runs(cases()[:1], "2*phi", workers=1)
    assert unasked.rows[0].verdict.factor is None and unasked.rows[0].verdict.rows is None


def test_formulas_with_parentheses():
    # (both bounds are 1 and there are two processors, so each is 2 ticks, and the deadline of tick 1 is 3)
    for formula in ["2*phi", "max(delta, 2*phi)", "(delta + phi)", "(n + delta)/2", "n/1"]:
        verdict = sy.judge(BUSY, IN_TIME, "all", formula)
        assert str(verdict).endswith("margin 1"), formula
    for formula, words in [("(delta", "after operand 1"), ("delta/0", "operand 2 of the formula divides"), ("max(delta, psi)", "operand 2 of the formula is no number")]:
        with raises(sy.SynchronyError, words):
            sy.judge(BUSY, IN_TIME, "all", formula)


def test_no_formula_is_refused_at_once():
    with raises(sy.SynchronyError, "--within"):
        sy.judge_runs(cases(), "delta +", workers=1)


def test_simulated_runs_are_judged():
    def least(me, n, value):
        yield from sy.broadcast(n, value)
        heard = []
        while len(heard) < n:
            heard += [body for _, body in (yield sy.Receive())]
        yield sy.Decide(min(heard))

    runs = [sy.simulate(least, [5, 7, 7], sy.Schedule(delta=8, phi=6, seed=seed), ticks=200) for seed in range(130)]
    found = sy.judge_runs([sy.Case(str(at), run.trace, run.decisions_text(), run.correct) for at, run in enumerate(runs)], "n*phi + delta", valid=True)
    assert [it.verdict for it in found.rows] == [run.judge("n*phi + delta", valid=True) for run in runs]


def test_a_worker_that_dies_loses_its_run_alone():
    wanted = ["yes", "no", "no"]
    some = [*cases()[:3], sy.Case("deadly", Deadly(BUSY), IN_TIME), *cases()[:3]]
    found = sy.judge_runs(some, "2*phi", workers=2)
    assert found.rows[3] == sy.Judged("deadly", None, "no answer: its worker died")
    rest = found.rows[:3] + found.rows[4:]
    assert [str(it.verdict).split()[0] for it in rest] == wanted * 2


def test_an_executor_that_is_given():
    with ThreadPoolExecutor(2) as executor:
        assert sy.judge_runs(cases()[:1], "2*phi", executor=executor) and isinstance(executor.submit(int), Future)
    found = sy.judge_runs(cases()[:2], "2*phi", executor=Broken())
    assert [it.error for it in found.rows] == ["no answer: the executor takes no work any more"] * 2


def listed(folder, *lines):
    path = Path(folder) / "runs.csv"
    path.write_text("".join(f"{it}\n" for it in lines))
    return path


def test_a_list_of_files():
    with tempfile.TemporaryDirectory() as folder:
        (Path(folder) / "t").write_bytes(BUSY)
        (Path(folder) / "d").write_bytes(IN_TIME)
        files = f"{folder}/t,{folder}/d"
        path = listed(folder, "start,trace,decisions,correct,other", f",{files},all,x", f"2,{files},\"1,2\",", f",{folder}/t,{folder}/no,,")
        assert list(sy.runs_in(path))[1] == sy.Case(f"{folder}/t", Path(f"{folder}/t"), Path(f"{folder}/d"), [1, 2], 2)
        status, output, said = python("-m", "synchrony", "judge", str(path), "--within", "2*phi")
        lines = output.splitlines()
        assert status == 3 and said == "" and lines[2] == f"{folder}/t: cannot read: {folder}/no: No such file or directory"
        assert lines[3] == f"3 runs: 2 yes, 0 no, 0 untested, 1 not judged; least margin 1 ({folder}/t)"
        path = listed(folder, "trace,decisions", files)
        assert python("-m", "synchrony", "judge", str(path), "--within", "2*phi")[0] == 0
        assert python("-m", "synchrony", "judge", str(path), "--within", "2*phi", "--due", "0")[0] == 0
        with open("/dev/full", "w") as full:
            assert piped(full, "-m", "synchrony", "judge", str(path), "--within", "2*phi") == (6, "synchrony: cannot write: No space left on device\n")
        # (nobody has decided by tick 1)
        assert python("-m", "synchrony", "judge", str(path), "--within", "0")[0] == 1


def test_runs_without_decisions_are_judged_by_their_replay():
    seven = (EXAMPLES / "decides-seven.trace").read_bytes()
    found = sy.judge_runs([sy.Case("seven", seven, correct=[1]), sy.Case("late", seven, None, [1], start=3), sy.Case("none", ONE_MISS)], "15", workers=1)
    assert [it.verdict for it in found.rows[:2]] == [sy.judge(seven, correct=[1], within="15", start=it, replay=True) for it in (None, 3)]
    assert found.rows[2].error == "not a run: step 1; processor 1 had to send to processor 1; a run is a trace that run or simulate printed, and judge takes what another system decided as DECISIONS"


def test_the_list_of_the_examples():
    status, output, said = python("-m", "synchrony", "judge", "examples/runs.csv", "--within", "15", folder=TOP)
    lines = ["decides-seven.trace: yes 1 due 1 later margin 0", "one-miss.trace: yes 0 due 3 later", "lost.trace: cannot read: examples/lost.trace: No such file or directory"]
    assert output.splitlines()[:-1] == [f"examples/{it}" for it in lines] and (status, said) == (3, "")
    assert output.splitlines()[-1] == "3 runs: 1 yes, 0 no, 1 untested, 1 not judged; least margin 0 (examples/decides-seven.trace)"


def test_a_list_that_is_none():
    with tempfile.TemporaryDirectory() as folder:
        for lines, words in [
            (["trace,correct"], "no column decisions"),
            (["trace,decisions,start", "t,d,soon"], "line 2: start is 'soon', and has to be a tick"),
            (["trace,decisions,correct", "t,d,1 2"], "line 2: correct is '1 2', and has to be all, none, or numbers, as 1,2"),
            (["trace,decisions", "", ",d"], "line 3: trace is empty, and has to be a path"),
            (["trace,decisions", "t"], "line 2 has 1 field, the header 2"),
            (["trace,decisions,correct,start", "t,d,,", "t,d,1,2,"], 'line 3 has 5 fields, the header 4: quote a list, as "1,2"'),
            (["trace,decisions,correct,start"], "no runs"),
        ]:
            path = listed(folder, *lines)
            status, output, said = python("-m", "synchrony", "judge", str(path), "--within", "phi")
            assert status == 2 and output == "" and said.startswith("synchrony: ") and said.endswith(f"{words}\n"), said
        assert python("-m", "synchrony", "judge", f"{folder}/none", "--within", "phi")[0] == 2
