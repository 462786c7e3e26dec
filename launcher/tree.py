"""The crates of a checkout, and how many checks the machine carries at once: what the launcher and tests/mutants share."""

import fcntl
import os
import re
import shutil
from pathlib import Path

# The folders from which a crate is proved.
PARTS = ("src", "specs", "proofs")
# What a check takes, about: 1 GB to 4 GB, and seldom two of them the most at once.
MEMORY = 7 << 29


def name_in(line):
    """The crate that a line of crates.txt is about, which may say besides the name that it is a static library; or None."""
    return next(iter(line.partition("#")[0].partition(":")[0].split()), None)


def is_static(line):
    """Whether the line says so."""
    return "staticlib" in line.partition("#")[0].partition(":")[0].split()[1:]


def read_crates(top):
    """The crates of crates.txt, each with those of them that it depends on. The toolchain's libraries are left out."""
    lines = (top / "crates.txt").read_text().splitlines()
    listed = {name_in(it): re.split(r"[\s,]+", it.partition("#")[0].partition(":")[2]) for it in lines if name_in(it)}
    return {name: [it for it in below if it in listed] for name, below in listed.items()}


def with_those_below(crates, names):
    """These crates with all that they depend on, the lowest first."""
    found = []
    for name in names:
        found += [it for it in [*with_those_below(crates, crates[name]), name] if it not in found]
    return found


def files_of(crate):
    """The files from which the crate in this folder is proved."""
    return [it for part in PARTS for it in sorted((crate / part).rglob("*")) if it.is_file()]


def copy_sources(crate, to):
    """Copies what a crate is proved from, in place of what is there."""
    for part in PARTS:
        shutil.rmtree(to / part, ignore_errors=True)
        if (crate / part).is_dir():
            shutil.copytree(crate / part, to / part)


def link(file, to):
    """Makes a file be in another place too: rt replaces files and writes into none, so a link is enough if one can
    be had."""
    try:
        os.link(file, to)
    except OSError:
        shutil.copy2(file, to)


class Busy(Exception):
    """Another rt works in this crate."""


def lock(folder, is_shared=False, waits=False):
    """Takes the lock by which rt keeps others out of a crate's folder, until what is returned is closed."""
    held = os.open(folder, os.O_RDONLY)
    try:
        fcntl.flock(held, (fcntl.LOCK_SH if is_shared else fcntl.LOCK_EX) | (0 if waits else fcntl.LOCK_NB))
    except BlockingIOError:
        os.close(held)
        raise Busy(folder) from None
    return held


def read_numbers(file):
    """The numbers that a file of the system holds, none if there is no such file."""
    try:
        return [int(it) for it in re.findall(r"\d+", Path(file).read_text())]
    except OSError:
        return []


def processors():
    """How many processors there are to use, by the quota of the control group too."""
    found = len(os.sched_getaffinity(0))
    quota = read_numbers("/sys/fs/cgroup/cpu.max")
    return max(1, min(found, quota[0] // quota[1])) if len(quota) == 2 else found


def free_memory():
    """How many bytes of memory are free, by the limit of the control group too."""
    lines = Path("/proc/meminfo").read_text().splitlines()
    found = [next(int(it.split()[1]) << 10 for it in lines if it.startswith("MemAvailable:"))]
    limit, held = read_numbers("/sys/fs/cgroup/memory.max"), read_numbers("/sys/fs/cgroup/memory.current")
    return min(found + [it - held[0] for it in limit if held])


def carried(most):
    """How many checks the memory carries at once: at most so many, and at least one."""
    return max(1, min(most, free_memory() // MEMORY))
