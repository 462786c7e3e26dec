"""Mutants as edits of a crate's texts: read from files, and planted many at a time."""

import os
from contextlib import suppress
from dataclasses import dataclass, field

from sources import Function, functions_of
from tree import PARTS


@dataclass(eq=False)
class Mutant:
    """A mutant: the texts of the files that it changes, by their paths."""

    label: str
    texts: dict
    # The one file and the one function whose body it changes, or why it is tried alone.
    path: str = ""
    function: Function = None
    why_alone: str = ""
    # The one function whose contract or law it turns, if there is one, and the units whose bodies it changes with that.
    turned: Function = None
    changed: set = field(default_factory=set)


class Bad(Exception):
    """Why an edit cannot be applied."""


def pairs_of(edit):
    """The (path, after, old, new) of an edit's text, in order."""
    path, after, old, pairs = "", "", "", []
    for line in edit.split("\n"):
        if line.startswith("file: "):
            path = line.removeprefix("file: ").strip()
            if os.path.normpath(path) != path or not path.startswith(tuple(f"{part}/" for part in PARTS)):
                raise Bad("a `file:` line names no file below src/, specs/ or proofs/")
        elif line.startswith("after: "):
            after = line.removeprefix("after: ")
        elif line.startswith("old: "):
            old = line.removeprefix("old: ")
        elif line.startswith("new:"):
            if not path or not old:
                raise Bad("a `new:` line stands before any `file:` or `old:` line")
            new = line.removeprefix("new:").removeprefix(" ")
            if new == old:
                raise Bad("an `old:` text and its `new:` text are the same")
            pairs.append((path, after, old, new))
            after, old = "", ""
    if not pairs:
        raise Bad("it has no pair of `old:` and `new:`")
    return pairs


def place_of(path, text, after, old):
    """Where an old text is: it occurs in the text once, or is the first after another that does."""
    for it in [after] if after else [old]:
        if text.count(it) != 1:
            raise Bad(f"an `{'after' if after else 'old'}:` text stands in {path} {text.count(it)} times, and not once")
    place = text.find(old, text.index(after) + len(after)) if after else text.index(old)
    if place < 0:
        raise Bad(f"an `old:` text doesn't stand in {path} after its `after:` text")
    return place


def change_of(old, new):
    """Where in the old text what an edit changes begins and ends: between the fronts and the ends that are equal."""
    front = len(os.path.commonprefix([old, new]))
    back = len(os.path.commonprefix([old[front:][::-1], new[front:][::-1]]))
    return front, len(old) - back


def functions_at(label, path, text, begins, ends, crate):
    """The units of the function whose contract a change turns, and of the one whose body it changes ("": none, and None:
    not one alone): in a source by its place, and in specs/ or proofs/ by the label FUNCTION-.. of the edit."""
    if not path.startswith("src/"):
        named = label.rpartition("/")[2].partition("-")[0]
        found = [it for functions in crate.functions.values() for it in functions if it.name == named]
        return (found[0].unit() if len(found) == 1 else None), ""
    found = [it for it in functions_of(crate.name, path, text) if it.start <= begins and ends <= it.end]
    if not found:
        return None, ""
    return ("", found[0].unit()) if found[0].body <= begins else (found[0].unit(), "")


def planted(label, edit, crate):
    """The mutant of an edit's text in a crate."""
    texts, function, end, why_alone, turned, changed = {}, None, 0, "", set(), set()
    pairs = pairs_of(edit)
    for path, after, old, new in pairs:
        text = texts.get(path, crate.texts.get(path))
        if text is None:
            raise Bad(f"there is no file {path}")
        place = place_of(path, text, after, old)
        texts[path] = text[:place] + new + text[place + len(old) :]
        begins, ends = (place + it for it in change_of(old, new))
        of_contract, of_body = functions_at(label, path, text, begins, ends, crate)
        turned |= {of_contract} - {""}
        changed |= {of_body} - {""}
        if not function:
            here = [it for it in crate.functions.get(path, []) if it.body <= begins and ends <= it.end]
            function = here[0] if here else None
            end = function.end if function else 0
        if len(texts) > 1:
            why_alone = "it changes several files"
        elif not path.startswith("src/"):
            why_alone = f"it changes {path}"
        elif not function:
            why_alone = "it changes more than one function's body"
        elif not (function.body <= begins and ends <= end):
            why_alone = "it changes several places"
        elif not function.is_opaque:
            why_alone = "callers may see that body"
        elif old.count("{") - old.count("}") != new.count("{") - new.count("}"):
            why_alone = "its braces move the end of a body"
        end += len(new) - len(old)
    if why_alone:
        unit = turned.pop() if len(turned) == 1 else None
        found = [it for functions in crate.functions.values() for it in functions if it.unit() == unit]
        return Mutant(label, texts, why_alone=why_alone, turned=found[0] if len(found) == 1 else None, changed=changed)
    return Mutant(label, texts, pairs[0][0], function)


def together(mutants, texts):
    """The texts of the files with the bodies of all these mutants, and for each the lines of its function in them."""
    made, lines = {}, {}
    for path in {it.path for it in mutants}:
        here = sorted((it for it in mutants if it.path == path), key=lambda it: it.function.start)
        text, read = "", 0
        for mutant in here:
            function, whole = mutant.function, texts[path]
            longer = len(mutant.texts[path]) - len(whole)
            text += whole[read : function.body]
            first = text.count("\n") + 1 - whole[function.start : function.body].count("\n")
            text += mutant.texts[path][function.body : function.end + longer]
            lines[mutant] = range(first, text.count("\n") + 2)
            read = function.end
        made[path] = text + texts[path][read:]
    return made, lines



def functions_changed(edit, crate):
    """The functions in whose bodies an edit changes something."""
    found = []
    for path, after, old, new in pairs_of(edit):
        text = crate.texts.get(path, "")
        with suppress(Bad):
            begins, ends = (place_of(path, text, after, old) + it for it in change_of(old, new))
            found += [it for it in crate.functions.get(path, []) if it.body <= begins and ends <= it.end]
    return found
