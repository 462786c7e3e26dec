"""Stubs: functions that are taken by their contracts, while the mutants of others are tried.

The body of a stub is a call of itself, and its proof is a hole, which the prover takes for the contract when it may. So
it costs next to nothing: of a hole alone the prover would still make its record of all that the body knows (`F.Lts`),
which is what is dear, and it would go on to all that the body calls. A stub has as many lines as the function, so the
numbers of lines stay right.

That loses nothing: a caller sees a function's contract alone, so no goal of another function is changed. Only
refusals are taken from a check over stubs. What is not refused there is tried again without any.
"""

import re

from sources import HEAD, functions_of
from verdicts import is_fine

HEADER = re.compile(rf"^ *{HEAD.pattern}", re.M)
PARAMETER = re.compile(r"(?:mut )?(\w+):")
SELF = re.compile(r"(?:&(?:'\w+ )?)?(?:mut )?self\b")
# (a test is no function of a check, and a call of unsafe code is no expression of its own)
UNUSUAL = re.compile(r"#\[(?:test|cfg)\b|^ *(?:pub(?:\([^)]*\))? )?(?:unsafe|extern)\b", re.M)
PROOF = """\
use Rattle.{crate}.proofs.{module}.{{statement}}

pub +{name}_spec : {{M : Type 1}} → statement M
+{name}_spec = ?
"""


def parameters_of(header):
    """The names of a function's parameters, or None if one of them is a pattern."""
    text, depth, parts = header[HEADER.search(header).end() :].replace("->", "  "), 0, []
    for letter in text:
        depth -= letter in ")]}>"
        if parts and depth == 0:
            break
        if parts and depth == 1 and letter == ",":
            parts.append("")
        elif parts:
            parts[-1] += letter
        elif depth == 0 and letter == "(":
            parts.append("")
        depth += letter in "([{<"
    found = [name_of(it.strip()) for it in parts if it.strip()]
    return found if all(found) else None


def name_of(parameter):
    named = PARAMETER.match(parameter)
    return "self" if SELF.match(parameter) else named[1] if named else None


def call_of_itself(function, text):
    """The call that a stub is made of, or None if the function can be no stub."""
    header, impl = text[function.start : function.body], function.impl
    if function.cycle or not function.is_opaque or function.name == "main" or UNUSUAL.search(header):
        return None
    names = parameters_of(header)
    if names is None or "self" in names and not impl:
        return None
    owner = "" if not impl else f"<Self as {impl.trait}>::" if impl.trait else "Self::"
    return f"{owner}{function.name}({', '.join(names)})"


def lines_between(text, begins, ends):
    return range(text.count("\n", 0, begins) + 1, text.count("\n", 0, ends) + 2)


class Stubs:
    """The stubs of a crate's functions. One that the prover doesn't take is made no more."""

    def __init__(self, bench):
        self.bench, self.crate = bench, bench.crate
        self.refused, self.unknown = set(), set()

    def place(self, function):
        """Where the prover has a function, if that is known."""
        place = self.crate.place(function)
        return None if place in self.unknown else place

    def check(self, functions, changed, kept=()):
        """What the prover answers for these functions, with these texts in place of the crate's, over stubs of all others
        but those of the kept units; or None if that doesn't reach the prover."""
        while True:
            texts, lines = self.around({*kept, *[it.unit() for it in functions]}, changed)
            places = {f"{self.crate.name}::{it}": it for it in map(self.place, functions) if it}
            if not places:
                return None
            told = self.bench.check({**changed, **texts}, sorted(places), may_have_holes=True)
            if told.is_proved is not None:
                units = self.crate.units_of(told.functions)
                untaken = [it for it in units if units[it] in lines and not is_fine(told.functions[it])]
                self.refused |= {units[it] for it in untaken}
                return told
            unknown = {place for name, place in places.items() if f"has no function `{name}`" in told.output}
            errors = [(path, line) for path, line, is_note, _ in told.remarks if not is_note]
            refused = {unit for unit, here in lines.items() if any(it in here for it in errors)}
            if not unknown and not refused:
                return None
            self.unknown |= unknown
            self.refused |= refused

    def around(self, kept, changed):
        """The texts of the crate in which all functions but those of the kept units are stubs (None: a file is away),
        and the lines that each stub is made of, by its unit."""
        texts, lines = {}, {}
        for path in self.crate.functions:
            text = changed.get(path, self.crate.texts[path])
            made, read = "", 0
            for function in functions_of(self.crate.name, path, text):
                unit = function.unit()
                place, call = self.place(function), call_of_itself(function, text)
                if not place or not call or unit in kept or unit in self.refused or self.is_cited(place):
                    continue
                proof = self.proof_of(place)
                texts.update(proof)
                here = lines_between(text, function.start, function.end)
                lines[unit] = {(path, it) for it in here} | {(it, line) for it in proof for line in range(1, 9)}
                made += f"{text[read : function.body]} {call} " + "\n" * text.count("\n", function.body, function.end)
                read = function.end
            if read:
                texts[path] = made + text[read:]
        return texts, lines

    def proof_of(self, place):
        """What a stub has in proofs/ in place of the function's own files: a proof, as a recursive function has it."""
        above, _, name = place.rpartition("::")
        own = f"{above}::+{name}".removeprefix("::")
        away = [it for it in self.crate.texts if it.startswith((folder_of(place), folder_of(own)))]
        proof = PROOF.format(crate=self.crate.name, module=own.replace("::", "."), name=name)
        return {**{it: None for it in away}, f"{folder_of(own)}Proof.antt": proof}

    def is_cited(self, place):
        """Whether a proof names what the prover makes of a function, which a stub hasn't."""
        named = f"Rattle.{self.crate.name}.proofs.{place.replace('::', '.')}."
        others = [text for path, text in self.crate.texts.items() if not path.startswith(folder_of(place))]
        return any(named in it for it in others)


def folder_of(place):
    return f"proofs/{place.replace('::', '/')}/"
