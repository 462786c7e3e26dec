"""Which mutants there are, where each is, and which public function has none."""

import sys
from contextlib import suppress

import tree
from checks import say
from edits import Bad, functions_changed, planted
from sources import Crate
from verdicts import BROKEN

PUBLIC = "mutants/public"


def chosen(checkout, words, parts):
    """The edits of each crate that the words choose, each a crate or CRATE/NAME: the label and the text of each."""
    crates = tree.read_crates(checkout)
    unknown = [it for it in words if it.split("/")[0] not in crates]
    if unknown:
        sys.exit(f"mutants: crates.txt lists no crate {unknown[0]}")
    found = {}
    for name in crates:
        folder = checkout / "crates" / name
        for file in [it for part in parts for it in sorted((folder / part).glob("*.edit"))]:
            label = str(file.relative_to(folder.parent).with_suffix("")).replace("/mutants/", "/")
            if not words or name in words or label in words:
                found.setdefault(name, []).append((label, file.read_text(errors="replace")))
    return found


def list_edits(checkout, edits):
    """Prints where each edit would be tried, or why it cannot be applied, and returns how many cannot."""
    broken = 0
    for name, labelled in edits.items():
        crate = Crate(name, checkout / "crates" / name)
        for label, edit in labelled:
            try:
                mutant = planted(label, edit, crate)
                say(f"{label}: {f'in {mutant.function.unit()}' if mutant.function else f'alone: {mutant.why_alone}'}")
            except Bad as why:
                broken += 1
                say(f"{label}: {BROKEN}: {why}")
    return broken


def only_bodies(crate):
    """The functions that have no other body, by mutants/public/only-bodies: lines PATH: why."""
    file = crate.folder / PUBLIC / "only-bodies"
    lines = file.read_text().splitlines() if file.is_file() else []
    return {it.partition(": ")[0] for it in lines if it and not it.startswith("#")}


def lacking(checkout, words):
    """The public functions of these crates (none: of all) that have no mutant in must-fail/ or mutants/public/."""
    crates = {name: Crate(name, checkout / "crates" / name) for name in tree.read_crates(checkout)}
    contracts, found = {it for crate in crates.values() for it in crate.trait_contracts()}, []
    for name in [it for it in crates if not words or it in words]:
        crate, changed, begins = crates[name], [], []
        public = crate.public_functions(contracts)
        for label, edit in chosen(checkout, [name], ["must-fail", PUBLIC]).get(name, []):
            with suppress(Bad):
                is_its_own = planted(label, edit, crate).function in public
                changed += functions_changed(edit, crate)
                begins += [] if is_its_own else [label.rpartition("/")[2]]
        only = only_bodies(crate)
        has_one = lambda it: it in changed or it.path() in only or any(edit.startswith(f"{it.name}-") for edit in begins)
        found += [it for it in public if not has_one(it)]
    return found
