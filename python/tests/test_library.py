"""The calls of the library: what a trace and a set may be, what is answered, and what is raised."""

import tempfile
import threading
from pathlib import Path

import synchrony as sy
from support import EXAMPLES, ONE_MISS, ONE_MISS_REPORT, needs, python, raises
from synchrony import library


def test_a_trace_may_be_bytes_and_their_like_a_str_or_a_path():
    for trace in (ONE_MISS, bytearray(ONE_MISS), memoryview(ONE_MISS), memoryview(b"x" + ONE_MISS)[1:], ONE_MISS.decode(), EXAMPLES / "one-miss.trace"):
        assert sy.report_text(trace, [1, 2]) == ONE_MISS_REPORT
        assert sy.report_part(trace, "all", until=2, at=2)[0][:3] == (2, 1, 2)
        assert sy.check(trace, ONE_MISS_REPORT, "all")
    for certificate in (bytearray(ONE_MISS_REPORT), memoryview(ONE_MISS_REPORT), ONE_MISS_REPORT.decode()):
        assert sy.check(ONE_MISS, certificate, [1, 2])
    with raises(TypeError, "not list"):
        sy.report([ONE_MISS], "all")
    with raises(FileNotFoundError):
        sy.report(Path("no such file"), "all")


def test_rows_have_their_witnesses():
    assert sy.report(ONE_MISS, [1, 2]) == [(1, 2, 3, 1, 2, 1, 2, 3), (2, 1, 3, None, None, 1, 2, 3), (3, 1, 2, None, None, 1, 3, 3)]
    assert sy.report(b"dls-trace,1,2,0\ninit,5,7\nend,0\n", "all") == []


def test_the_correct_processors_may_be_any_iterable_which_is_read_once():
    for correct in ([1, 2], (2, 1, 2), {1, 2}, range(1, 3), iter([1, 2]), {1: "a", 2: "b"}, "all"):
        assert sy.report_text(ONE_MISS, correct) == ONE_MISS_REPORT
    # (a report that needs a second call, in more room)
    idle = b"dls-trace,2,2,0\ninit,0,0\nend,1000\n"
    library._rooms.room = library._Room(0)
    assert [it[:3] for it in sy.report(idle, correct=(p for p in (1, 2)))] == [(tick, 1, 1002 - tick) for tick in range(1, 1001)]
    assert [it[:3] for it in sy.report_part(idle, correct=(p for p in (1, 2)), until=10)] == [(tick, 1, 12 - tick) for tick in range(1, 11)]
    # (without a correct processor there is nothing to keep)
    assert [it[:3] for it in sy.report(ONE_MISS, [])] == [(1, 1, 1)]


def test_a_set_that_the_trace_does_not_have_is_refused():
    # (the library takes all 64 for all processors of the trace; named one by one they aren't)
    for correct in ([3], [1, 2, 64], range(1, 65), [0], [65], "1,2", "none"):
        for call in (sy.report, sy.report_text, sy.brief, sy.draw, lambda trace, them: sy.check(trace, ONE_MISS_REPORT, them)):
            with raises(sy.SetRefused) as caught:
                call(ONE_MISS, correct)
            assert caught[0].status == 2
    for correct in ([1.0], ["1"], 1):
        with raises(TypeError):
            sy.report(ONE_MISS, correct)


def test_all_64_processors_may_be_named():
    trace = f"dls-trace,1,64,0\ninit{',0' * 64}\n1,1,S,2\nend,1\n"
    assert sy.report(trace, range(1, 65)) == sy.report(trace, "all") != []
    assert sy.check(trace, sy.report_text(trace, "all"), range(1, 65))
    assert not sy.check(trace, ONE_MISS_REPORT, range(1, 65))


def test_errors_have_the_words_of_the_program():
    twice = b"dls-trace,1,2,0\ninit,5,7\n1,1,S,2\n2,2,R,1\n3,2,R,1\nend,3\n"
    for call, kind, words, status in [
        (lambda: sy.report(twice, "all"), sy.TraceRefused, "trace: step 3: message 1 was received before", 3),
        (lambda: sy.upgrade(twice), sy.TraceRefused, "trace: step 3: message 1 was received before", 3),
        (lambda: sy.check(twice, b"", "all"), sy.TraceRefused, "trace: step 3: message 1 was received before", 3),
        (lambda: sy.check(ONE_MISS, b"x", "all"), sy.CertificateRefused, "certificate: bad header", 4),
        (lambda: sy.report(ONE_MISS, [3]), sy.SetRefused, "no such processor in --correct", 2),
        (lambda: sy.check(ONE_MISS, ONE_MISS_REPORT, [3]), sy.SetRefused, "no such processor in --correct", 2),
        (lambda: sy.report_part(ONE_MISS, "all", until=9), sy.SynchronyError, "bad --until", 2),
        (lambda: sy.draw(ONE_MISS, "all", names=["a"]), sy.SynchronyError, "bad --names", 2),
        (lambda: sy.import_log(b"x"), sy.TraceRefused, "log: no column time", 3),
        (lambda: sy.replay(ONE_MISS), sy.SynchronyError, "not a run: step 1", 7),
    ]:
        with raises(sy.SynchronyError) as caught:
            call()
        assert (type(caught[0]), str(caught[0]).split("\n")[0], caught[0].status) == (kind, words, status)
        assert isinstance(caught[0], ValueError)
    with raises(ValueError, "line feed"):
        sy.draw(ONE_MISS, "all", names=["a\n", "b"])


def test_a_set_is_refused_with_the_processors_of_the_trace():
    for call in (sy.report, sy.brief, sy.each, sy.draw, lambda trace, them: sy.check(trace, ONE_MISS_REPORT, them)):
        with raises(sy.SetRefused) as caught:
            call(ONE_MISS, [1, 3])
        assert str(caught[0]) == "no such processor in --correct\n--correct names processor 3, and the trace has processors 1 to 2"


def test_a_path_that_is_a_str_is_refused():
    trace, path = ONE_MISS.decode(), "examples/one-miss.trace"
    for what, call in [
        ("a trace", lambda: sy.report(path, "all")),
        ("a trace", lambda: sy.each(path, "all")),
        ("a trace", lambda: sy.judge(path, "proc,tick,value\n", "all", "1")),
        ("a certificate", lambda: sy.check(trace, path, "all")),
        ("decisions", lambda: sy.judge(trace, path, "all", "1")),
        ("a log", lambda: sy.import_log(path)),
        ("a table", lambda: sy.draw(trace, "all", table=path)),
        ("a table", lambda: sy.page(trace, "all", table=path)),
    ]:
        with raises(ValueError) as caught:
            call()
        assert str(caught[0]) == f"a str is the text of {what}, not a path: pass Path('examples/one-miss.trace')"
    # (lines may end in a carriage return, and of nothing the program says what is wrong)
    assert sy.report(trace.replace("\n", "\r"), "all") == sy.report(trace, "all")
    with raises(sy.TraceRefused, "bad header"):
        sy.report("", "all")


def test_a_log_gives_its_trace_or_the_table_of_its_steps():
    log = b"time,node,event,to,message\n5,a,send,b,m\n7,b,receive,,m\n"
    assert sy.import_log(log) == b"dls-trace,2,2,0\ninit,0,0\n1,1,1,S,2\n2,3,2,R,1\nend,3\n"
    assert sy.import_log(log, table=True) == b"step,tick,begins,record,time,node,event,to,message\n1,1,5,2,5,a,send,b,m\n2,3,7,3,7,b,receive,,m\n"
    filled = b"step,tick,begins,record,time,node,event,to,message\n1,1,5,2,5,a,send,b,m\n2,2,6,,,b,receive,,\n3,3,7,,,a,receive,,\n4,3,7,3,7,b,receive,,m\n"
    assert sy.import_log(log, idle=2, table=True) == filled
    assert sy.import_log(log + b"8,a,send,b,lost\n", drop_lost=True) == sy.import_log(log)
    assert sy.import_log(log + b"7,b,receive,,\n", merge=True) == sy.import_log(log)
    assert sy.import_log(log, ticks=True) == b"tick,last,moved,most\n1,3,0,0\n2,2,0,0\n5,2,1,1\n"


def test_errors_survive_a_pickle():
    import pickle

    for kind in (sy.SynchronyError, sy.TraceRefused, sy.SetRefused, sy.CertificateRefused):
        again = pickle.loads(pickle.dumps(kind("trace: bad header", 3)))
        assert (type(again), str(again), again.status) == (kind, "trace: bad header", 3)


def test_a_verdict_is_true_if_it_is_a_yes():
    yes, no = sy.check(ONE_MISS, ONE_MISS_REPORT, "all"), sy.check(ONE_MISS, ONE_MISS_REPORT.replace(b"1,2,3,1,2,1,2,3\n", b""), "all")
    assert (bool(yes), yes.reason, yes.numbers, str(yes)) == (True, None, (), "yes")
    assert (bool(no), no.reason, no.numbers, str(no)) == (False, "FirstNotOne", (), "no FirstNotOne")


def test_the_decisions_of_the_replay_are_judged():
    # (processor 1 decides 7 in tick 16; the rows apply from tick 1 with phi 3 and from tick 18 with phi 2)
    seven, decided = EXAMPLES / "decides-seven.trace", b"proc,tick,value\n1,16,7\n"
    for within, line in (("15", "yes 1 due 1 later margin 0"), ("14", "no deadline 1 1 3 15 1")):
        found = sy.judge(seven, correct=iter([1]), within=within, valid=True, factor=True, rows=True, replay=True)
        assert str(found) == line and [it.decided for it in found.rows] == [16, 16]
        assert found == sy.judge(seven, decided, [1], within, valid=True, factor=True, rows=True)
    # (an answer that needs a second call, in more room: from each tick on nobody makes a step)
    idle = b"dls-trace,2,2,0\ninit,0,0\nend,1000\n"
    library._rooms.room = library._Room(0)
    found = sy.judge(idle, correct=(p for p in (1, 2)), within="phi", rows=True, replay=True)
    assert found and str(found) == "yes 0 due 1000 later"
    assert found.rows == [(tick, 1, 1002 - tick, None, None, None) for tick in range(1, 1001)]


def test_decisions_of_both_or_of_neither_are_refused():
    both = "judge takes either DECISIONS or --replay"
    due = (
        "not a run: step 1\nprocessor 1 had to send to processor 1; "
        "a run is a trace that run or simulate printed, and judge takes what another system decided as DECISIONS"
    )
    for call, words, status in [
        (lambda: sy.judge(ONE_MISS, correct="all", within="1", replay=True), due, 7),
        (lambda: sy.judge(ONE_MISS, b"proc,tick,value\n", "all", "1", replay=True), both, 2),
        (lambda: sy.judge(ONE_MISS, correct="all", within="1"), both, 2),
    ]:
        with raises(sy.SynchronyError) as caught:
            call()
        assert (type(caught[0]), str(caught[0]), caught[0].status) == (sy.SynchronyError, words, status)
    for given in ({"within": "1"}, {"correct": "all"}):
        with raises(TypeError, "correct and within"):
            sy.judge(ONE_MISS, replay=True, **given)


def test_threads_have_rooms_of_their_own():
    traces = [ONE_MISS, b"dls-trace,2,2,0\ninit,0,0\nend,1000\n"]
    due, seen = [sy.report_text(it, "all") for it in traces], []

    def work():
        seen.append(all([sy.report_text(it, "all") for it in traces] == due for _ in range(200)))

    threads = [threading.Thread(target=work) for _ in range(4)]
    for it in threads:
        it.start()
    for it in threads:
        it.join()
    assert seen == [True] * 4


def test_a_missing_library_is_an_import_error_that_says_what_to_run():
    words = "import synchrony as sy; sy.simulate(lambda *_: (it for it in ()), [1, 2]); sy.report(b'', 'all')"
    status, _, said = python("-c", words, SYNCHRONY_LIBRARY="/no/such/file.so")
    last = said.strip().split("\n")[-1]
    assert status == 1 and last.startswith("ImportError: libsynchrony.so isn't there: run ./library"), said
    with tempfile.NamedTemporaryFile(suffix=".so") as file:
        status, _, said = python("-c", "import synchrony as sy; sy.report(b'', 'all')", SYNCHRONY_LIBRARY=file.name)
        assert status == 1 and "ImportError: " in said and file.name in said, said


def test_a_frame_of_pandas():
    needs("pandas")
    frame = sy.frame(ONE_MISS, "all")
    assert frame.delta.tolist() == [2, 1, 1] and list(frame.columns) == list(sy.Row._fields)
    assert frame.sent.isna().tolist() == [False, True, True]
