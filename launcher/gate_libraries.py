"""The libraries that a whole run of `rt ci` left in a checkout, and the words by which a crate is checked or built over
libraries: what ./library and tests/mutants share.

Such a library holds what the crates above can cite, and its code, without proofs and without the stamp by which `rt`
would know it again; so `rt` would prove it once more, and a script that may take it calls rattle itself.
"""

import subprocess
from pathlib import Path

import tree

# What ./test leaves once `rt ci` has run.
MARK = "out/gate"


def kit():
    """The toolchain's folder."""
    return Path(subprocess.run(["rt", "doc"], check=True, capture_output=True, text=True).stdout.strip()).parent


def newest(files):
    return max((it.stat().st_mtime for it in files), default=0)


def library(top, name):
    return top / "crates" / name / "out/rlib" / f"{name}.rlib"


def are_of_gate(top, crates, names):
    """Whether these libraries are those that a whole run of `rt ci` left, each newer than what it is made of.

    `rt ci` takes a library that an earlier run proved of the same files as it is, so in a fresh checkout it is older than
    its files. Of such a run ./test leaves a mark, which is as old as the run's beginning.
    """
    made = {}
    for name in names:
        home = top / "crates" / name
        mark = library(top, name) / "format"
        if not mark.is_file() or (home / "out/rlib/stamp").exists():
            return False
        made[name] = mark.stat().st_mtime
    files = {it: newest([*tree.files_of(top / "crates" / it), top / "crates.txt"]) for it in names}
    is_marked = newest(it for it in [top / MARK] if it.is_file()) >= max(files.values(), default=0)
    is_newer = lambda it: made[it] >= max([files[it], *[made[below] for below in crates[it]]])
    return bool(names) and (is_marked or all(is_newer(it) for it in names))


def words_over(top, crates, name, root, toolchain):
    """The words that name a crate, the file of its root, and the libraries in this checkout that it depends on."""
    line = next(it for it in (top / "crates.txt").read_text().splitlines() if tree.name_in(it) == name)
    named = line.partition("#")[0].partition(":")[2].replace(",", " ").split()
    words = ["--crate-name", name, root, "-L", f"dependency={toolchain}/rlibs"]
    if tree.is_static(line):
        words += ["--crate-type", "staticlib"]
    for it in ["std", *[it for it in named if it not in crates]]:
        words += ["--extern", f"{it}={toolchain}/rlibs/{it}.rlib"]
    for it in crates[name]:
        words += ["--extern", f"{it}={library(top, it)}"]
    for it in tree.with_those_below(crates, crates[name]):
        words += ["-L", f"dependency={library(top, it).parent}"]
    words += ["--antt-project", f"{toolchain}/rattle/logic/antt-project.json", "--logic-built", f"{toolchain}/logic_built"]
    return [*words, "--links", f"{name}="]
