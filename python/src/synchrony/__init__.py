"""How synchronous was this run? Reports, checks and surveys of recorded traces, and simulated runs of protocols.

    import synchrony as sy

    sy.report(trace, correct=[1, 2])       the least bounds from each tick on, with their evidence
    sy.check(trace, certificate, "all")    whether a certificate is the report of a trace
    sy.simulate(node, values, schedule)    a run of a protocol under bounds that are chosen
    sy.survey(paths, at=500)               the bounds of many traces, as one table
    sy.judge_runs(runs, "n*phi + delta")   whether each of many runs decided in time

What is said of a trace's bounds comes from the proved library, libsynchrony.so; the package itself is tested, not proved.
"""

from .claims import Case, Judged, Verdicts, judge_runs, runs_in
from .library import (
    Bound,
    CertificateRefused,
    DeadlineRow,
    Judgement,
    Row,
    SetRefused,
    SynchronyError,
    Timeout,
    TraceRefused,
    Verdict,
    brief,
    check,
    draw,
    each,
    frame,
    import_log,
    judge,
    page,
    replay,
    report,
    report_part,
    report_text,
    timeouts,
    upgrade,
)
from .plots import plot_report, plot_survey
from .simulation import AfterSends, Decide, Decision, Kept, Receive, Run, Schedule, Send, broadcast, simulate, smallest
from .surveys import Bounds, Spread, Surveyed, Table, survey

__version__ = "0.1.0"
__all__ = [
    "AfterSends",
    "Bound",
    "Bounds",
    "Case",
    "CertificateRefused",
    "Decide",
    "Decision",
    "Judged",
    "DeadlineRow",
    "Judgement",
    "Kept",
    "Receive",
    "Row",
    "Run",
    "Schedule",
    "Send",
    "SetRefused",
    "Spread",
    "Surveyed",
    "SynchronyError",
    "Table",
    "Timeout",
    "TraceRefused",
    "Verdict",
    "Verdicts",
    "brief",
    "broadcast",
    "check",
    "draw",
    "each",
    "frame",
    "import_log",
    "judge",
    "judge_runs",
    "page",
    "plot_report",
    "plot_survey",
    "replay",
    "report",
    "report_part",
    "report_text",
    "runs_in",
    "simulate",
    "smallest",
    "survey",
    "timeouts",
    "upgrade",
]
