"""What a check says, and the verdict on a mutant by that."""

import re
from dataclasses import dataclass, field

REFUSED, PROVED, BROKEN = "refused", "PROVED", "BROKEN"
# Verdicts that only say how to go on.
NEXT, ALONE = "next", "alone"


@dataclass
class Told:
    """What a check printed."""

    output: str
    # Whether the crate is proved (None: there is no verdict), and the answer for each function. A check of some
    # functions alone answers for them, and never that the crate is proved.
    is_proved: bool = None
    functions: dict = field(default_factory=dict)
    # What is said of lines: (path, line, whether it is a note, text).
    remarks: list = field(default_factory=list)

    def __post_init__(self):
        for line in self.output.split("\n"):
            if line.startswith("logic="):
                self.is_proved = line.startswith("logic=proved")
            elif re.match(r"only=\d+ ", line):
                self.is_proved = False
            of_function = re.match(r"fn (\S+): (.*)", line)
            at = re.match(r"(note: )?(?:\./)?(\S+?):(\d+):\d+: (.*)", line)
            if of_function:
                self.functions[of_function[1]] = of_function[2]
            elif at and (at[1] or at[4].startswith("error")):
                self.remarks.append((at[2], int(at[3]), bool(at[1]), at[4]))

    def first_error(self):
        lines = self.output.strip().split("\n")
        return next((it for it in lines if "error" in it or it.startswith("rattle")), lines[-1])[:200]


def is_unread(remark, changed):
    """Whether the prover couldn't read a text of src/, specs/ or a changed file: a wrong statement reads well."""
    path, _, is_note, text = remark
    if is_note or not (path in changed or path.startswith(("src/", "specs/"))):
        return False
    said = re.match(r"error: (`[^`]*`: )?(.*)", text)
    lost = r"is not in scope|has no field|is no name|operand is missing|expected the end|cannot continue"
    return bool(said) and (not said[1] or bool(re.search(lost, re.sub(r"`[^`]*`", "", said[2]))))


def is_of_names(remark):
    """Whether a proof file only names what a mutant took away, or rests on what is not proved."""
    path, _, is_note, text = remark
    lost = r"has no field|is not in scope|has no `|was not admitted"
    return not is_note and path.startswith("proofs/") and bool(re.search(lost, text))


def is_fine(said):
    """Whether a function is proved by what is said of it, given the contracts of those that were taken by them."""
    return said.startswith(("proved", "no holes", "depends on a hole"))


def first_goal(remarks):
    """The first of these remarks on a goal, in short: one that isn't proved, or an error in a proof."""
    goals = [it for it in remarks if it[2] and "is not proved" in it[3]]
    goals += [it for it in remarks if not it[2] and not is_of_names(it)]
    return in_short(goals[0]) if goals else None


def in_short(remark):
    path, line, _, text = remark
    text = re.sub(r"^error: |; `search` gave up.*|; the facts known there.*", "", text)
    return f"{path}:{line}: {text}"[:160]


NAMES_ALONE = "only since a proof names what it took away, which says little of the contract (change a value instead)"


def verdict_alone(told, changed):
    """The verdict on a mutant that was tried alone, and what to print."""
    unread = next((it for it in told.remarks if is_unread(it, changed)), None)
    if unread:
        return BROKEN, f"the prover cannot read the changed text: {in_short(unread)}"
    if told.is_proved is None:
        return BROKEN, f"it did not reach the prover: {told.first_error()}"
    if told.is_proved:
        return PROVED, ""
    if first_goal(told.remarks):
        return REFUSED, first_goal(told.remarks)
    if any(is_of_names(it) for it in told.remarks):
        return REFUSED, f"{NAMES_ALONE}: {in_short(told.remarks[0])}"
    unproved = [f"{name}: {said}" for name, said in told.functions.items() if not is_fine(said)]
    return REFUSED, "".join(unproved[:1])[:160]


def verdict_among_others(mutant, own, told, lines):
    """The verdict on one of a check's mutants, by the answers for its own functions, and what to print."""
    if not own or all(map(is_fine, own.values())):
        return ALONE, ""
    proofs = tuple(f"proofs/{name.partition('::')[2].replace('::', '/')}/" for name in own)
    here = [it for it in told.remarks if it[0].startswith(proofs) or it[0] == mutant.path and it[1] in lines]
    if any(is_unread(it, {mutant.path}) for it in here):
        return ALONE, ""
    failed = [said for said in own.values() if "did not prove" in said]
    if failed or first_goal(here):
        return REFUSED, first_goal(here) or failed[0][:160]
    lost = [it for it in here if is_of_names(it) and "was not admitted" not in it[3]]
    if lost:
        return REFUSED, f"{NAMES_ALONE}: {in_short(lost[0])}"
    if all(is_fine(said) or "it calls `" in said for said in own.values()):
        return NEXT, ""
    return ALONE, ""


def verdict_by_one(told, own, changed):
    """The verdict on a mutant that changes more than a body, by the answer for one function alone, over stubs of those
    that it calls, and what to print: only a refusal counts."""
    not_own = r"(not proved: |no proof: )?it calls `"
    has_goal = not all(is_fine(said) or re.match(not_own, said) for said in own.values())
    if has_goal and first_goal(told.remarks) and not any(is_unread(it, changed) for it in told.remarks):
        return REFUSED, first_goal(told.remarks)
    return ALONE, ""
