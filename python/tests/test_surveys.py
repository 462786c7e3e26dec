"""Surveys: the rows of many traces, on any executor, none lost and none doubled."""

import math
import multiprocessing
import os
import random
import signal
import statistics
import tempfile
import threading
import time
from concurrent.futures import Executor, Future, ProcessPoolExecutor, ThreadPoolExecutor
from pathlib import Path

import synchrony as sy
from support import EXAMPLES, ONE_MISS, ONE_MISS_REPORT, needs, piped, python, raises, ring
from synchrony import Schedule, surveys

TWICE = b"dls-trace,1,2,0\ninit,5,7\n1,1,S,2\n2,2,R,1\n3,2,R,1\nend,3\n"


class Deadly(bytes):
    """A trace that ends the process to which it is sent."""

    def __reduce__(self):
        return os._exit, (1,)


class Recording(Executor):
    """An executor that works where an answer is asked for, and remembers how many batches were before it at most."""

    def __init__(self):
        self.before, self.most, self.traces = 0, 0, 0

    def submit(self, function, texts):
        future = Future()

        def work(timeout=None):
            self.before -= 1
            return function(texts)

        future.result = work
        self.before, self.traces = self.before + 1, self.traces + len(texts)
        self.most = max(self.most, self.before)
        return future


def many(count):
    """So many small traces, which differ."""
    for seed in range(count):
        yield sy.simulate(ring, [1, 2], Schedule(seed=seed, delta=3, phi=3, speed=0.4), ticks=20 + seed % 7).trace


def due(traces, at=1):
    """The rows of a survey, by one report after the other."""
    for no, trace in enumerate(traces, 1):
        rows, last = sy.report(trace, "all"), int(trace.split(b"end,")[1])
        row = [it for it in rows if it.gst <= at][-1]
        yield sy.Surveyed(str(no), "", trace.count(b"\n") - 3, last, (row[1:3],), None)


def test_the_examples():
    names = ["one-miss", "shared-ticks", "no-steps", "redelivered", "no such file"]
    table = sy.survey([EXAMPLES / f"{it}.trace" for it in names], at=[1, 3, 6, 100], executor=ThreadPoolExecutor(1))
    assert table.header() == ["name", "group", "steps", "ticks", "delta@1", "phi@1", "delta@3", "phi@3", "delta@6", "phi@6", "delta@100", "phi@100", "error"]
    assert [it[1:] for it in table.rows] == [
        ("", 3, 3, ((2, 3), (1, 2), None, None), None),
        ("", 5, 7, ((4, 4), (1, 4), (1, 3), None), None),
        ("", 0, 0, (None, None, None, None), None),
        ("", None, None, (), "trace: step 3: message 1 was received before"),
        ("", None, None, (), "cannot read: No such file or directory"),
    ]
    assert [it.name for it in table.rows] == [str(EXAMPLES / f"{it}.trace") for it in names]
    assert [it.name for it in table.errors()] == [str(EXAMPLES / f"{it}.trace") for it in names[3:]]


def test_the_rows_are_the_same_whoever_works():
    traces = list(many(250))
    wanted = list(due(traces, at=5))
    for how in ({}, {"batch": 1, "workers": 2}, {"batch": 7, "workers": 3}, {"executor": ThreadPoolExecutor(3), "batch": 10}):
        assert sy.survey(traces, at=5, **how).rows == wanted, how
    with ProcessPoolExecutor(2, mp_context=multiprocessing.get_context("spawn")) as pool:
        assert sy.survey(iter(traces), (p for p in (1, 2)), at=5, executor=pool, batch=9).rows == wanted


def test_the_tick_of_a_name():
    names = ["gst=1", "runs/gst=3/a.trace", "b-gst=2.trace", "lowgst=2", "gst=0", "gst=4", "gst=", "none"]
    table = sy.survey([(it, ONE_MISS) for it in names], at="gst=N", executor=ThreadPoolExecutor(1))
    assert table.header() == ["name", "group", "steps", "ticks", "delta", "phi", "error"]
    no = (None, None, (), "no gst=N in its name")
    assert [it[2:] for it in table.rows] == [(3, 3, ((2, 3),), None), (3, 3, ((1, 2),), None), (3, 3, ((1, 3),), None), no, no, (3, 3, (None,), None), no, no]
    assert table.rows[2].bounds == sy.survey([ONE_MISS], at=2, executor=ThreadPoolExecutor(1)).rows[0].bounds
    for wrong in ("gst=", "N", ""):
        with raises(ValueError, "ends in N"):
            sy.survey([ONE_MISS], at=wrong, executor=ThreadPoolExecutor(1))


def test_paths_and_texts_and_names():
    with tempfile.TemporaryDirectory() as folder:
        (Path(folder) / "fast").mkdir()
        file = Path(folder) / "fast/a.trace"
        file.write_bytes(ONE_MISS)
        given = [file, ("other", file), ONE_MISS, ONE_MISS.decode(), ("named", bytearray(ONE_MISS))]
        for how in ({}, {"executor": ThreadPoolExecutor(2)}, {"executor": ThreadPoolExecutor(2), "send_paths": True}, {"send_paths": False}):
            table = sy.survey(given, group="parent", **how)
            assert [it[:2] for it in table.rows] == [(str(file), "fast"), ("other", ""), ("3", ""), ("4", ""), ("named", "")]
            assert {it[2:] for it in table.rows} == {(3, 3, ((2, 3),), None)}
        assert [it.group for it in sy.survey(given, group=len, executor=ThreadPoolExecutor(1)).rows] == [str(len(str(file))), "5", "1", "1", "5"]
    with raises(ValueError, "parent"):
        sy.survey(given, group="child", executor=ThreadPoolExecutor(1))
    with raises(ValueError, "at least 1"):
        sy.survey(given, at=0)
    with raises(sy.SetRefused):
        sy.survey(given, "1,2")


def test_a_single_trace_and_a_path_as_a_str_are_refused():
    for single in ("a.trace", ONE_MISS.decode(), ONE_MISS, bytearray(ONE_MISS), memoryview(ONE_MISS), Path("a.trace")):
        with raises(TypeError) as caught:
            sy.survey(single)
        assert str(caught[0]) == f"survey takes traces in an iterable, as a list of paths, not a single {type(single).__name__}"
    for traces in (["a.trace"], [ONE_MISS, ("named", "a.trace")]):
        with raises(ValueError, "not a path: pass Path('a.trace')"):
            sy.survey(traces, executor=ThreadPoolExecutor(1))


def test_traces_are_read_as_they_are_needed():
    executor, read = Recording(), 0

    def traces():
        nonlocal read
        for it in range(1000):
            # (what was read before this one is before the executor, but for a batch that isn't full)
            assert read <= executor.traces + 4
            read += 1
            yield ONE_MISS

    table = sy.survey(traces(), executor=executor, batch=5)
    assert (len(table.rows), read, executor.traces) == (1000, 1000, 1000) and 2 <= executor.most <= 64


def test_a_set_that_some_traces_do_not_have():
    three = b"dls-trace,1,3,0\ninit,1,2,3\nend,0\n"
    table = sy.survey([ONE_MISS, three, TWICE], [3], executor=ThreadPoolExecutor(1))
    no_three = "no such processor in --correct; --correct names processor 3, and the trace has processors 1 to 2"
    assert [it.error for it in table.rows] == [no_three, None, "trace: step 3: message 1 was received before"]
    assert '"no such processor' in table.csv() and repr(table) == "Table(ticks=(1,))"


def test_a_dead_worker_costs_its_traces_one_try():
    """A trace that ends each worker has an error, and each other one its row, as often as it was given."""
    traces = list(many(60))
    wanted = list(due(traces))
    for place in (0, 31, 59):
        table = sy.survey([Deadly(it) if no == place else it for no, it in enumerate(traces)], batch=8, workers=2)
        assert len(table.rows) == 60
        assert [it for no, it in enumerate(table.rows) if no != place] == [it for no, it in enumerate(wanted) if no != place]
        assert table.rows[place] == (str(place + 1), "", None, None, (), "no answer: its worker died")


def test_a_worker_that_is_killed_in_the_middle():
    traces, killed = list(many(400)), []

    def given():
        for no, it in enumerate(traces):
            if no == 200:
                children = [it for it in multiprocessing.active_children() if it.is_alive()]
                os.kill(children[0].pid, signal.SIGKILL)
                killed.append(children[0].pid)
            yield it

    assert sy.survey(given(), batch=4, workers=3).rows == list(due(traces)) and len(killed) == 1


def test_an_executor_that_breaks():
    """One that was given can't be mended: what it hasn't answered has an error, and no row is missing."""
    traces = [("deadly", Deadly(ONE_MISS)), *((str(no), ONE_MISS) for no in range(200))]
    with ProcessPoolExecutor(2, mp_context=multiprocessing.get_context("spawn")) as pool:
        table = sy.survey(traces, executor=pool, batch=10)
    assert [it.name for it in table.rows] == [it[0] for it in traces]
    assert all((it.bounds == ((2, 3),)) != ("no answer" in (it.error or "")) for it in table.rows)
    assert table.rows[0].error


def test_a_table_as_text_and_as_groups():
    runs = {"slow,er": [3, 1, 2, 10], "fast": [1]}
    table = sy.Table((5,), [sy.Surveyed(f"{group}/{value}", group, 9, 8, (sy.Bounds(value, 7),), None) for group, values in runs.items() for value in values])
    table.rows.append(sy.Surveyed("bad", "fast", None, None, (), 'it says "no"'))
    table.rows.append(sy.Surveyed("short", "fast", 2, 3, (None,), None))
    assert table.csv() == (
        "name,group,steps,ticks,delta,phi,error\n"
        '"slow,er/3","slow,er",9,8,3,7,\n"slow,er/1","slow,er",9,8,1,7,\n"slow,er/2","slow,er",9,8,2,7,\n"slow,er/10","slow,er",9,8,10,7,\n'
        'fast/1,fast,9,8,1,7,\nbad,fast,,,,,"it says ""no"""\nshort,fast,2,3,,,\n'
    )
    assert table.groups() == [("slow,er", "delta", 4, 1, 2.5, 10, 10, 10), ("slow,er", "phi", 4, 7, 7, 7, 7, 7), ("fast", "delta", 1, 1, 1, 1, 1, 1), ("fast", "phi", 1, 7, 7, 7, 7, 7)]
    assert table.groups_csv() == 'group,bound,count,least,median,90%,99%,greatest\n"slow,er",delta,4,1,2.5,10,10,10\n"slow,er",phi,4,7,7,7,7,7\nfast,delta,1,1,1,1,1,1\nfast,phi,1,7,7,7,7,7\n'
    assert (surveys.Table((1,)).csv(), surveys.Table((1,)).groups()) == ("name,group,steps,ticks,delta,phi,error\n", [])


def test_shares_are_the_least_values_that_suffice():
    chance = random.Random(2)
    for _ in range(300):
        values = sorted(chance.randint(1, 30) for _ in range(chance.randint(1, 250)))
        found = surveys._spread("", "delta", values)
        for share, seen in ((90, found.ninety), (99, found.ninety_nine)):
            # (whole numbers: so many of the values are at most this)
            assert 100 * sum(it <= seen for it in values) >= share * len(values) > 100 * sum(it < seen for it in values), (values, share)
        assert (found.least, found.median, found.greatest, found.traces) == (values[0], statistics.median(values), values[-1], len(values))


def test_a_frame_of_pandas():
    needs("pandas")
    table = sy.survey([ONE_MISS, TWICE, ONE_MISS], at=[1, 3], executor=ThreadPoolExecutor(1))
    frame = table.frame()
    assert frame["delta@1"].fillna(0).tolist() == [2, 0, 2] and frame["phi@3"].fillna(0).tolist() == [2, 0, 2]
    assert list(frame.columns) == table.header() and frame.error.notna().tolist() == [False, True, False]


def test_the_row_of_a_tick_and_the_length_of_a_trace():
    chance = random.Random(3)
    for _ in range(300):
        gsts = [1, *sorted(chance.sample(range(2, 3000), chance.randint(0, 60)))]
        report = b"gst,delta,phi,sent,missed,proc,from,to\n" + b"".join(b"%d,%d,%d,,,,,\n" % (it, 2 * it, 3 * it) for it in gsts)
        for tick in chance.sample(range(1, 3000), 30) + gsts:
            last = max(it for it in gsts if it <= tick)
            assert surveys._bounds_at(report, tick) == (2 * last, 3 * last), (report, tick)
    for text, length in [
        (ONE_MISS, (3, 3)),
        (ONE_MISS.replace(b"\n", b"\r\n") + b"\r\n\r\n", (3, 3)),
        (ONE_MISS + b"\n" * 10_000, (3, 3)),
        (ONE_MISS.replace(b"end", b"\n" * 4095 + b"end"), (3, 3)),
        (ONE_MISS.replace(b"\n", b"\n\n").replace(b"end,3", b'"end","3"').rstrip(b"\n"), (3, 3)),
        (b"dls-trace,2,2,0\ninit,5,7\n1,4,1,S,2\nend,9", (1, 9)),
        (b'\xef\xbb\xbfdls-trace,2,2,0\r"init",5,7\r\rend,9\r', (0, 9)),
    ]:
        assert sy.report(text, "all") is not None and surveys._length(text) == length, text


def test_a_file_is_read_to_its_end():
    with tempfile.TemporaryDirectory() as folder:
        file, pipe = Path(folder) / "file", Path(folder) / "pipe"
        for length in (0, 1, 4096, 3_000_000):
            file.write_bytes(bytes(length))
            assert surveys._file(str(file)) == bytes(length)
        # (the size of a pipe isn't known before it is read)
        os.mkfifo(pipe)
        writer = threading.Thread(target=pipe.write_bytes, args=[ONE_MISS * 50_000])
        writer.start()
        assert surveys._file(str(pipe)) == ONE_MISS * 50_000
        writer.join()
        assert sy.survey([Path(folder)]).rows[0].error == "cannot read: Is a directory"


def test_the_command_line():
    files = [str(EXAMPLES / f"{it}.trace") for it in ("one-miss", "shared-ticks")]
    status, output, said = python("-m", "synchrony", "survey", *files, "--at", "1", "--workers", "2")
    assert (status, said) == (0, "") and output == f"name,group,steps,ticks,delta,phi,error\n{files[0]},,3,3,2,3,\n{files[1]},,5,7,4,4,\n"
    status, output, said = python("-m", "synchrony", "survey", *files, str(EXAMPLES / "redelivered.trace"), "--correct", "1,2", "--at", "1,2", "--group-by", "parent", "--groups")
    assert status == 1 and "redelivered.trace: trace: step 3: message 1 was received before" in said
    assert output == "group,bound,count,least,median,90%,99%,greatest\n" + "".join(f"examples,{it}\n" for it in ("delta@1,2,2,3,4,4,4", "phi@1,2,3,3.5,4,4,4", "delta@2,2,1,1,1,1,1", "phi@2,2,3,3.5,4,4,4"))
    for words, why in [
        (["survey"], "TRACE"),
        (["survey", files[0], "--at", "0"], "survey: error: --at takes a text that ends in N, as gst=N, or numbers from 1 on with one comma between them, not '0'"),
        (["survey", files[0], "--correct", "1,x"], "survey: error: --correct takes all, or numbers from 1 on with one comma between them, not '1,x'"),
        (["survey", files[0], "--correct", "99"], "no processor 99"),
        (["survey", files[0], "--workers", "0"], "survey: error: argument --workers: a whole number from 1 on"),
        (["survey", files[0], "--batch", "1_0"], "argument --batch: a whole number from 1 on"),
        (["judge", files[0], "--within", "1", "--due", "-1"], "judge: error: argument --due"),
        (["judge", files[0], "--within", "1", "--due=x"], "judge: error: argument --due: a whole number from 0 on"),
        (["other"], "invalid choice"),
    ]:
        status, output, said = python("-m", "synchrony", *words)
        assert status == 2 and why in said and not output, (words, status, said)
    assert python("-m", "synchrony", "--version")[1] == "synchrony 0.1.0\n"


def test_output_that_cannot_be_written():
    words = ["-m", "synchrony", "survey", *[str(EXAMPLES / "one-miss.trace")] * 200, "--workers", "1"]
    with open("/dev/full", "w") as full:
        assert piped(full, *words) == (6, "synchrony: cannot write: No space left on device\n")
        assert piped(full, *words, "--groups") == (6, "synchrony: cannot write: No space left on device\n")
    reader, writer = os.pipe()
    os.close(reader)
    try:
        assert piped(writer, *words) == (141, "")
    finally:
        os.close(writer)
    assert python("-c", "import os, sys; os.close(1); os.execv(sys.executable, [sys.executable, *sys.argv[1:]])", *words) == (6, "", "synchrony: cannot write: Bad file descriptor\n")


def test_an_unguarded_script():
    """Processes are forked if there is no other thread; else they import the script, and it is reported if that
    can't be."""
    survey = f"print(len(sy.survey([{ONE_MISS!r}] * 3).rows))\n"
    lines = "import synchrony as sy, threading, time\n", "threading.Thread(target=time.sleep, args=[60], daemon=True).start()\n"
    with tempfile.TemporaryDirectory() as folder:
        script = Path(folder) / "script.py"
        script.write_text(lines[0] + survey)
        status, output, said = python(str(script))
        assert (status, output) == (0, "3\n") or '__name__ == "__main__"' in said, said
        script.write_text(lines[0] + lines[1] + survey)
        status, output, said = python(str(script))
        assert status == 1 and '__name__ == "__main__"' in said.strip().split("\n")[-1], said
        script.write_text(f'{lines[0]}if __name__ == "__main__":\n    {lines[1]}    {survey}')
        assert python(str(script))[:2] == (0, "3\n")


def test_a_cluster_of_dask():
    needs("distributed")
    from distributed import Client, LocalCluster

    traces = list(many(300))
    wanted = list(due(traces))
    with LocalCluster(n_workers=2, threads_per_worker=1, dashboard_address=None) as cluster, Client(cluster) as client:
        executor = client.get_executor()
        assert sy.survey(traces, executor=executor, batch=10).rows == wanted
        killed = []

        def given():
            for no, it in enumerate(traces):
                if no == 150:
                    pid = client.submit(os.getpid, pure=False).result()
                    os.kill(pid, signal.SIGKILL)
                    killed.append(pid)
                yield it

        assert sy.survey(given(), executor=executor, batch=2).rows == wanted and len(killed) == 1
