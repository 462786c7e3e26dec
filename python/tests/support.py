"""What the tests share. They need no pytest: tests/python at the top of the repository runs them as pytest does."""

import contextlib
import importlib.util
import os
import subprocess
import sys
import unittest
from pathlib import Path

import synchrony as sy

TOP = Path(__file__).resolve().parents[2]
EXAMPLES = TOP / "examples"
SOURCES = TOP / "python/src"

ONE_MISS = b"dls-trace,1,2,0\ninit,5,7\n1,1,S,2\n2,2,R,\n3,2,R,1\nend,3\n"
ONE_MISS_REPORT = b"gst,delta,phi,sent,missed,proc,from,to\n1,2,3,1,2,1,2,3\n2,1,3,,,1,2,3\n3,1,2,,,1,3,3\n"


def ring(me, n, value):
    """A protocol: each processor sends to the next one, and receives, without end."""
    while True:
        yield sy.Send(me % n + 1, value)
        yield sy.Receive()


@contextlib.contextmanager
def raises(kind, *words):
    """The block has to raise such an error, whose text has these words; the caught one is at [0]."""
    caught = []
    try:
        yield caught
    except kind as why:
        caught.append(why)
    assert caught, f"no {kind.__name__} is raised"
    for it in words:
        assert it in str(caught[0]), f"{caught[0]!r} has no {it!r}"


def needs(*modules):
    """Leaves the test out, by name, if a module isn't installed."""
    for it in modules:
        if importlib.util.find_spec(it) is None:
            raise unittest.SkipTest(f"there is no {it}")


def python(*words, folder=None, **environment):
    """How a new Python with these words ends, and what it prints and says."""
    done = _run(words, subprocess.PIPE, environment, folder)
    return done.returncode, done.stdout, done.stderr


def piped(output, *words):
    """How a new Python with these words ends whose standard output is this file, and what it says."""
    done = _run(words, output)
    return done.returncode, done.stderr


def _run(words, output, environment=None, folder=None):
    known = {**os.environ, "PYTHONPATH": str(SOURCES), "PYTHONDONTWRITEBYTECODE": "1", **(environment or {})}
    return subprocess.run([sys.executable, *words], stdout=output, stderr=subprocess.PIPE, text=True, timeout=120, env=known, cwd=folder)
