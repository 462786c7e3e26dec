#!/usr/bin/env python3
"""How long a survey takes, compared with C processes that make the same calls of the library.

    bench/survey.py [--traces N] [--steps N] [--workers W] [--rounds N]

Makes N traces of so many steps, and then, in each round, one after the other: a survey of them by W processes, as its own
program, and W processes of bench/callers/survey.c, each over its share. Both answers are compared. Printed are the wall-clock times in
seconds, the CPU times of all processes, and the ratios of the medians.
"""
import argparse
import ctypes
import os
import resource
import statistics
import subprocess
import sys
import tempfile
import time
from pathlib import Path

sys.dont_write_bytecode = True
TOP = Path(__file__).resolve().parent.parent
sys.path.insert(0, str(TOP / "python/src"))
import synchrony as sy

PR_SET_CHILD_SUBREAPER = 36


def ring(me, n, value):
    while True:
        yield sy.Send(me % n + 1, value)
        yield sy.Receive()


def make_traces(folder, count, steps):
    """So many files of traces with about so many steps each."""
    for seed in range(count):
        run = sy.simulate(ring, [1] * 4, sy.Schedule(delta=4, phi=8, seed=seed), ticks=steps // 2)
        file = folder / f"{seed}.trace"
        file.write_bytes(run.trace)
        yield file


def timed(work):
    """What it answers, the wall-clock time, and the CPU time of its processes."""
    before, began = resource.getrusage(resource.RUSAGE_CHILDREN), time.monotonic()
    answer = work()
    took = time.monotonic() - began
    # (the server that forks the workers of a survey ends a moment after it, and is left to this process with them)
    while True:
        try:
            os.waitpid(-1, 0)
        except ChildProcessError:
            break
    after = resource.getrusage(resource.RUSAGE_CHILDREN)
    return answer, took, after.ru_utime + after.ru_stime - before.ru_utime - before.ru_stime


def by_survey(cache, files, tick, workers):
    words = [sys.executable, "-m", "synchrony", "survey", "-", "--at", str(tick), "--workers", str(workers)]
    environment = {**os.environ, "PYTHONPATH": str(TOP / "python/src"), "PYTHONPYCACHEPREFIX": str(cache)}
    # (an installed package has its modules compiled, and so they are here from the first round on)
    environment.pop("PYTHONDONTWRITEBYTECODE", None)
    done = subprocess.run(words, input="".join(f"{it}\n" for it in files), capture_output=True, text=True, env=environment, check=True)
    rows = [it.split(",") for it in done.stdout.splitlines()[1:]]
    return [(it[0], it[4], it[5]) for it in rows]


def by_c(program, files, tick, workers):
    shares = [files[at * len(files) // workers : (at + 1) * len(files) // workers] for at in range(workers)]
    running = []
    for share in shares:
        it = subprocess.Popen([program, str(2**64 - 1), str(tick)], stdin=subprocess.PIPE, stdout=subprocess.PIPE, text=True)
        running.append((it, share))
    for it, share in running:
        it.stdin.write("".join(f"{name}\n" for name in share))
        it.stdin.close()
    said = [it.stdout.read() for it, _ in running]
    assert all(it.wait() == 0 for it, _ in running)
    return [tuple(line.split(",")) for text in said for line in text.splitlines()]


def main():
    words = argparse.ArgumentParser(description=__doc__.splitlines()[0])
    for name, usual in (("traces", 10_000), ("steps", 1000), ("workers", 4), ("rounds", 5)):
        words.add_argument(f"--{name}", type=int, default=usual)
    words = words.parse_args()
    ctypes.CDLL(None).prctl(PR_SET_CHILD_SUBREAPER, 1)
    subprocess.run([TOP / "library"], stdout=subprocess.DEVNULL, check=True)
    with tempfile.TemporaryDirectory() as folder:
        folder = Path(folder)
        program = folder / "survey"
        subprocess.run(["cc", "-O2", "-o", program, TOP / "bench/callers/survey.c", TOP / "out/libsynchrony.a"], check=True)
        files = list(make_traces(folder, words.traces, words.steps))
        print(f"{len(files)} traces, {sum(it.stat().st_size for it in files) / len(files):.0f} bytes each on average")
        by_survey(folder / "cache", files[:1], 1, 1)
        times = {"survey": [], "c": []}
        for no in range(words.rounds):
            answers = []
            for name, work in (("survey", lambda *given: by_survey(folder / "cache", *given)), ("c", lambda *given: by_c(program, *given))):
                answer, wall, cpu = timed(lambda: work(files, words.steps // 4, words.workers))
                answers.append(answer)
                times[name].append((wall, cpu))
                print(f"round {no + 1}, {name}: {wall:.2f} s wall-clock, {cpu:.2f} s CPU", flush=True)
            assert answers[0] == answers[1], "the answers differ"
    medians = {name: [statistics.median(it) for it in zip(*all_of_them)] for name, all_of_them in times.items()}
    wall, cpu = (one / other for one, other in zip(medians["survey"], medians["c"]))
    print(f"medians: the survey takes {wall:.2f} times the wall-clock time of the C processes, and {cpu:.2f} times their CPU time")


if __name__ == "__main__":
    main()
