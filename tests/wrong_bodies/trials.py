"""The trial of mutants: which go into one check, and the verdict on each."""

import threading
from concurrent.futures import ThreadPoolExecutor

import tree
from checks import Bench, Stopped, Workshop, progress, say
from edits import Bad, planted, together
from sources import Crate
from stubs import Stubs
from verdicts import ALONE, BROKEN, NEXT, PROVED, REFUSED, verdict_alone, verdict_among_others, verdict_by_one


def one_of_each_unit(mutants):
    chosen = {}
    for it in mutants:
        chosen.setdefault(it.function.unit(), it)
    return list(chosen.values())


class Trial:
    """The trial of a crate's mutants, and the verdict on each."""

    def __init__(self, bench, is_proved):
        # is_proved: whether the unchanged crate is said to be proved, so that this isn't checked first
        self.bench, self.crate, self.is_proved = bench, bench.crate, is_proved
        self.mutants, self.told, self.stubs = [], {}, Stubs(bench)

    def tell(self, label, verdict, why):
        self.told[label] = verdict
        say(f"{label}: {verdict}{': ' if why else ''}{why}")

    def run(self, edits, is_one_at_a_time=False):
        for label, edit in edits:
            try:
                self.mutants.append(planted(label, edit, self.crate))
            except Bad as why:
                self.tell(label, BROKEN, why)
        if not self.mutants:
            return
        units = None
        if not self.is_proved:
            progress(f"{self.crate.name}: checking it as it stands, before {len(self.mutants)} wrong bodies")
            told = self.proved_as_it_stands()
            if not told:
                return
            units = set(self.crate.units_of(told.functions).values())
        is_placed = lambda it: not is_one_at_a_time and it.function and (units is None or it.function.unit() in units)
        alone = [it for it in self.mutants if not is_placed(it)]
        alone += self.try_in_batches([it for it in self.mutants if is_placed(it)])
        if not is_one_at_a_time:
            self.try_by_what_they_turn([it for it in alone if it.turned])
        alone = [it for it in alone if it.label not in self.told]
        for number, it in enumerate(alone, 1):
            progress(f"{self.crate.name}: {it.label} alone ({number} of {len(alone)})")
            self.tell(it.label, *verdict_alone(self.bench.check(it.texts), it.texts))

    def proved_as_it_stands(self):
        """What the check of the unchanged crate says, or None if it isn't proved, so that no mutant can be tried."""
        told = self.bench.check_unchanged()
        if told.is_proved:
            return told
        for it in self.mutants:
            if it.label not in self.told:
                self.tell(it.label, BROKEN, f"the crate itself is not proved: {told.first_error()}")
        return None

    def try_in_batches(self, left):
        """Tries mutants of different functions together, and returns those that are to be tried alone."""
        alone = []
        while left:
            batch = one_of_each_unit(left)
            answers = self.try_together(batch)
            if answers is None:
                if not self.is_proved_indeed():
                    return []
                answers = {it: (ALONE, "") for it in batch}
            if all(verdict == NEXT for verdict, _ in answers.values()):
                answers = {it: (ALONE, "") for it in batch}
            for it, (verdict, why) in answers.items():
                if verdict not in (NEXT, ALONE):
                    self.tell(it.label, verdict, why)
                alone += [it] if verdict == ALONE else []
                left = [other for other in left if other is not it or verdict == NEXT]
        return alone

    def of_these(self, functions, changed, kept=()):
        """What a check of these functions alone says, or None if it doesn't reach the prover.

        All others but those of the kept units are stubs, or, if the unchanged crate has been checked, what that check
        kept of them.
        """
        if self.is_proved:
            return self.stubs.check(functions, changed, kept)
        places = {self.crate.place(it) for it in functions} - {None}
        told = self.bench.check(changed, sorted(places)) if places else None
        return told if told and told.is_proved is not None else None

    def try_by_what_they_turn(self, mutants):
        """Tries mutants that turn a contract or a law, each by that function alone, and prints those that are refused."""
        for number, it in enumerate(mutants, 1):
            progress(f"{self.crate.name}: {it.label} by {it.turned.own()} ({number} of {len(mutants)})")
            # (what it changes in bodies is to compile too)
            told = self.of_these([it.turned], it.texts, it.changed)
            units = self.crate.units_of(told.functions) if told else {}
            own = {name: told.functions[name] for name, unit in units.items() if unit == it.turned.unit()}
            verdict, why = verdict_by_one(told, own, it.texts) if own else (ALONE, "")
            if verdict == REFUSED:
                self.tell(it.label, verdict, why)

    def is_proved_indeed(self):
        """Whether the unchanged crate is proved, if that was said and not yet seen."""
        if self.is_proved and not self.proved_as_it_stands():
            return False
        self.is_proved = False
        return True

    def try_together(self, batch):
        """Tries one mutant of each of several functions in one check, and returns the verdict on each, or None if what
        none of them changes isn't proved either."""
        progress(f"{self.crate.name}: {len(batch)} wrong bodies in one check")
        changed, lines = together(batch, self.crate.texts)
        told = self.of_these([it.function for it in batch], changed) or self.bench.check(changed)
        if told.is_proved is None:
            errors = [(path, line) for path, line, is_note, _ in told.remarks if not is_note]
            guilty = [it for it in batch if any(path == it.path and line in lines[it] for path, line in errors)]
            return {it: (ALONE if it in (guilty or batch) else NEXT, "") for it in batch}
        units, own = self.crate.units_of(told.functions), {it.function.unit(): {} for it in batch}
        for name, said in told.functions.items():
            if units.get(name) in own:
                own[units[name]][name] = said
            elif "did not prove" in said:
                progress(f"{self.crate.name}: {name}, which none of them changes, isn't proved, so each goes alone")
                return None
        return {it: verdict_among_others(it, own[it.function.unit()], told, lines[it]) for it in batch}


def try_all(checkout, edits, are_proved, jobs=None, is_one_at_a_time=False):
    """Tries these edits, several crates at a time, and returns the verdict on each label.

    If it is known that the unchanged crates are proved (are_proved), the first check of each has mutants in it.
    """
    workshop = Workshop(checkout, [*edits])
    crates = {name: Crate(name, workshop.folder(name)) for name in edits}
    size = {name: sum(map(len, crate.texts.values())) for name, crate in crates.items()}
    left, guard, told = {*edits}, threading.Lock(), {}
    at_once = tree.carried(tree.processors())

    def jobs_now():
        # (the last crates share the processors that nothing else takes)
        return jobs or max(1, tree.processors() // max(1, min(len(left), at_once)))

    def try_crate(name):
        bench = Bench(workshop, crates[name], jobs_now)
        trial = Trial(bench, are_proved)
        try:
            trial.run(edits[name], is_one_at_a_time)
        finally:
            workshop.leave(name)
            with guard:
                left.discard(name)
                told.update(trial.told)
        say(f"{name}: {len(edits[name])} wrong bodies in {bench.checks} checks, {bench.seconds:.0f} s of processor time")

    # What takes longest, by the lengths of its texts, goes first.
    with ThreadPoolExecutor(at_once) as pool:
        tried = [pool.submit(try_crate, name) for name in sorted(edits, key=lambda it: -size[it])]
        try:
            for it in tried:
                it.result()
        except BaseException:
            workshop.commands.stop()
            raise
    return told
