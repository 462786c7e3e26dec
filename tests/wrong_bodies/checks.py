"""Where mutants are checked: copies of a checkout's crates, the libraries below them, and checks in parallel."""

import fcntl
import hashlib
import os
import shutil
import signal
import subprocess
import sys
import tempfile
import threading
from contextlib import suppress
from pathlib import Path

import tree
from gate_libraries import are_of_gate, kit, newest, words_over
from verdicts import Told


def say(text, to=sys.stdout):
    """One write a line: `print` writes the line feed apart, and checks run side by side."""
    to.write(f"{text}\n")
    to.flush()


def progress(text):
    say(f"mutants: {text}", sys.stderr)


def folder_of_copy(checkout):
    name = hashlib.sha256(str(checkout).encode()).hexdigest()[:12]
    return Path(tempfile.gettempdir()) / f"mutants-{os.getuid()}" / name


class Stopped(Exception):
    """The run ends, and nothing more is begun."""


class Commands:
    """Commands that run side by side, all of which end when the run does."""

    def __init__(self):
        self.running, self.guard, self.is_stopped = set(), threading.Lock(), False

    def run(self, words, folder):
        """Runs a command in a folder, and returns what it printed, its status and the processor time that it took."""
        how = {"stdin": subprocess.DEVNULL, "stdout": subprocess.PIPE, "stderr": subprocess.STDOUT}
        with self.guard:
            if self.is_stopped:
                raise Stopped
            command = subprocess.Popen(words, cwd=folder, start_new_session=True, **how)
            self.running.add(command)
        output = command.stdout.read().decode(errors="replace")
        # (so that the command's own time is had, with anything else running)
        _, status, used = os.wait4(command.pid, 0)
        with self.guard:
            command.returncode = os.waitstatus_to_exitcode(status)
            self.running.remove(command)
            if self.is_stopped:
                raise Stopped
        return output, command.returncode, used.ru_utime + used.ru_stime

    def stop(self):
        with self.guard:
            self.is_stopped = True
            for it in self.running:
                os.killpg(it.pid, signal.SIGTERM)


class Workshop:
    """Copies of a checkout's crates below /tmp, with the kept work of their own checks. One run uses them at a time."""

    def __init__(self, checkout, names):
        self.checkout, self.commands, self.top = checkout, Commands(), folder_of_copy(checkout)
        self.crates = tree.read_crates(checkout)
        self.toolchain = kit()
        self.top.mkdir(parents=True, exist_ok=True)
        (self.top / "checkout").write_text(f"{checkout}\n")
        # (rt looks for crates.txt no higher than here)
        (self.top / ".git").touch()
        self.lock = open(self.top / "lock", "w")
        try:
            fcntl.flock(self.lock, fcntl.LOCK_EX | fcntl.LOCK_NB)
        except BlockingIOError:
            progress("waiting for another run over this checkout")
            fcntl.flock(self.lock, fcntl.LOCK_EX)
        shutil.copyfile(checkout / "crates.txt", self.top / "crates.txt")
        for name in self.crates:
            self.put_back(name)
            tree.copy_sources(checkout / "crates" / name, self.folder(name))
        self.libraries = tree.with_those_below(self.crates, [below for name in names for below in self.crates[name]])
        self.of_gate = are_of_gate(checkout, self.crates, self.libraries)
        for name in names if self.of_gate else {*names, *self.libraries}:
            self.take_kept_work(name)
        if not self.of_gate:
            self.build_libraries()

    def folder(self, name):
        return self.top / "crates" / name

    def put_back(self, name):
        """Has a crate's kept work back in its place, after a run that was interrupted too."""
        clean, kept = self.top / "clean" / name, self.folder(name) / "out" / "incremental"
        if clean.is_dir():
            shutil.rmtree(kept, ignore_errors=True)
            kept.parent.mkdir(parents=True, exist_ok=True)
            clean.rename(kept)

    def leave(self, name):
        """Ends the work in a crate: what the full check kept is of no more use, and takes hundreds of megabytes."""
        self.put_back(name)
        if self.of_gate:
            shutil.rmtree(self.folder(name) / "out", ignore_errors=True)

    def take_kept_work(self, name):
        """Takes what the checkout's own checks kept, and its built library, if they are newer than those here."""
        theirs, ours = self.checkout / "crates" / name / "out", self.folder(name) / "out"
        for part, mark in (("incremental", "antt-checked-*"), ("rlib", "stamp")):
            there, here = newest(theirs.glob(f"{part}/{mark}")), newest(ours.glob(f"{part}/{mark}"))
            if there <= here:
                continue
            try:
                # (rt's work in the crate is waited for only if none is here)
                held = tree.lock(self.checkout / "crates" / name, is_shared=True, waits=not here)
            except tree.Busy:
                continue
            shutil.rmtree(ours / part, ignore_errors=True)
            shutil.copytree(theirs / part, ours / part, copy_function=tree.link)
            os.close(held)

    def build_libraries(self):
        """Builds the libraries that are to be below: in no time if the kept work has them."""
        highest = [it for it in self.libraries if not any(it in self.crates[above] for above in self.libraries)]
        for name in highest:
            progress(f"building the library {name} and those below it")
            output, status, _ = self.commands.run(["rt", "lib"], self.folder(name))
            if status:
                sys.exit(f"{output}\nmutants: the library {name} is not proved or built")

    def words(self, name, jobs):
        """The words by which rt has a crate checked over its libraries and over the work kept in out/."""
        top = self.checkout if self.of_gate else self.top
        root = "src/main.rt" if (self.folder(name) / "src/main.rt").is_file() else "src/lib.rt"
        words = [str(self.toolchain / "bin/rattle"), "check", *words_over(top, self.crates, name, root, self.toolchain)]
        return [*words, "--incremental", "out/incremental", "--jobs", str(jobs)]


class Bench:
    """The checks of one crate, one after the other."""

    def __init__(self, workshop, crate, jobs):
        # (jobs is asked for how many each check gets, as it begins)
        self.workshop, self.crate, self.jobs = workshop, crate, jobs
        self.kept, self.clean = crate.folder / "out" / "incremental", workshop.top / "clean" / crate.name
        self.checks, self.seconds = 0, 0.0

    def check(self, changed, only=(), may_have_holes=False):
        """Checks the crate, or only these functions of it, with these texts in place of its own (None: no such file),
        over the kept work of its check with none, if there is one."""
        if self.clean.is_dir():
            shutil.rmtree(self.kept, ignore_errors=True)
            shutil.copytree(self.clean, self.kept, copy_function=tree.link)
        self.kept.parent.mkdir(exist_ok=True)
        options = [*[word for it in only for word in ("--only", it)], *["--allow-holes"] * may_have_holes]
        try:
            for path, text in changed.items():
                self.put(path, text)
            output, status, seconds = self.run(self.jobs(), options)
            if status < 0:
                progress(f"{self.crate.name}: the check was killed, most likely for memory: once more, with one job")
                output, status, more = self.run(1, options)
                seconds += more
        finally:
            for path in changed:
                self.put(path, self.crate.texts.get(path))
        self.checks, self.seconds = self.checks + 1, self.seconds + seconds
        return Told(output)

    def put(self, path, text):
        """Has a file hold a text, or be away (None), with the folders that then are empty."""
        file = self.crate.folder / path
        if text is None:
            file.unlink(missing_ok=True)
            with suppress(OSError):
                for folder in file.parents:
                    folder.rmdir()
        else:
            file.parent.mkdir(parents=True, exist_ok=True)
            file.write_text(text)

    def run(self, jobs, options):
        return self.workshop.commands.run([*self.workshop.words(self.crate.name, jobs), *options], self.crate.folder)

    def check_unchanged(self):
        """Checks the unchanged crate, and sets that work aside for the checks of mutants."""
        told = self.check({})
        if told.is_proved:
            self.clean.parent.mkdir(exist_ok=True)
            self.kept.rename(self.clean)
        return told
