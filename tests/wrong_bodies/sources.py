"""The functions of a crate's source files: where their bodies are, what names them, and which are public."""

import re
import sys
from dataclasses import dataclass
from pathlib import Path

sys.path.insert(0, str(Path(__file__).resolve().parent.parent.parent / "launcher"))
import tree


@dataclass(frozen=True)
class Impl:
    """An impl by its type and its trait ("" if it has none)."""

    type: str
    trait: str

    def name(self):
        """The word by which the prover names it: `impl From<u64> for Range` is RangeFromU64."""
        names = re.findall(r"(?:\w+::)*(\w+)", self.trait)
        return "".join([self.type.split("::")[-1], *[it[0].upper() + it[1:] for it in names]])


@dataclass(frozen=True)
class Function:
    """A function in a file, with the places where its text begins and its body begins and ends."""

    # `step_trace::traces`, and `push` in it, of the impl of Trace.
    module: str
    name: str
    impl: Impl
    cycle: str
    start: int
    body: int
    end: int
    # Whether callers see its contract alone, whether it says pub, and whether it has an ensures of its own.
    is_opaque: bool
    is_pub: bool
    has_ensures: bool

    def own(self):
        return f"{self.impl.name()}::{self.name}" if self.impl else self.name

    def path(self):
        return f"{self.module}::{self.own()}"

    def unit(self):
        """What changes together: two mutants of one unit are never tried in one check."""
        return f"cycle {self.cycle}" if self.cycle else self.path()

    def name_among(self, names):
        """How the prover's lines name it: a method of an impl by the module of its type, which may be another one."""
        own = self.own()
        same = [it for it in names if it.endswith(f"::{own}") and "::fn::" not in it] if self.impl else []
        return self.path() if self.path() in names else same[0] if len(same) == 1 else None


HEAD = re.compile(r"""(?P<pub>pub(?P<part>\([^)]*\))? )?(?P<words>(?:const |unsafe |async |extern "[^"]*" )*)fn (?P<name>\w+)""")
MODULE = re.compile(r"(?:pub(?:\([^)]*\))? )?mod (?P<name>\w+) \{$")
TYPE = re.compile(r"^(?:pub(?:\([^)]*\))? )?(?:struct|enum) (\w+)", re.M)
IMPL = re.compile(r"(?:unsafe )?impl(?:<.*?>)? (?:(?P<trait>[\w:]+(?:<.*>)?) for )?(?P<type>[\w:]+)")
CYCLE = re.compile(r"#\[cycle\((\w+)\)\]")
TRAIT = re.compile(r"^pub trait (\w+)[^\n]*\{\n(.*?)^\}", re.M | re.S)
METHOD = re.compile(r"\bfn (\w+)(.*?)(?:;|\{\n|\Z)", re.S)


@dataclass(frozen=True)
class Line:
    start: int
    indent: int
    text: str


def lines_of(text):
    lines, start = [], 0
    for line in text.split("\n"):
        lines.append(Line(start, len(line) - len(line.lstrip(" ")), line.strip()))
        start += len(line) + 1
    return lines


def end_of_header(lines, first):
    """The line that ends the header which this line begins: it begins as far left, and opens a body or needs none; or it
    is a last clause, with the semicolon of a method that a trait only declares."""
    depth = 0
    for number in range(first, len(lines)):
        text = lines[number].text
        depth += sum(text.count(it) for it in "([{") - sum(text.count(it) for it in ")]}")
        stands_left = lines[number].indent == lines[first].indent
        if stands_left and text.endswith(("{", "}", ";")) or depth == 0 and text.endswith(";"):
            return number
    return len(lines) - 1


def end_of_body(lines, opening):
    """The line with the brace that closes the body which this line opens, or the last line."""
    left = [it for it in range(opening + 1, len(lines)) if lines[it].indent == lines[opening].indent]
    return next((it for it in left if lines[it].text == "}"), len(lines) - 1)


def module_of(path):
    """The path of a file's module: `src/a/b.rt` is a, b."""
    parts = list(Path(path).with_suffix("").parts[1:])
    return parts[:-1] if parts[-1] in ("lib", "main", "mod") else parts


def impl_of(header):
    found = IMPL.match(header)
    return Impl(found["type"], found["trait"] or "") if found else None


def functions_of(crate, path, text):
    """The functions of a formatted file: a body ends at the first brace as far left as its head."""
    lines, number = lines_of(text), 0
    functions, above = [], []
    # The modules and impls that the line lies in: (indent, the module's name or the impl).
    inside = []
    while number < len(lines):
        line = lines[number]
        if line.text.startswith(("//", "#[")):
            above.append(line)
            number += 1
            continue
        if inside and line.text == "}" and line.indent == inside[-1][0]:
            inside.pop()
        head, module, impl = HEAD.match(line.text), MODULE.match(line.text), IMPL.match(line.text)
        if module:
            inside.append((line.indent, module["name"]))
        elif head or impl:
            first, number = number, end_of_header(lines, number)
            opening = lines[number]
            header = " ".join(it.text for it in lines[first : number + 1])
            if impl and header.endswith("{"):
                inside.append((line.indent, impl_of(header)))
            elif head and header.endswith(("{", "{}")):
                is_empty = header.endswith("{}")
                number = number if is_empty else end_of_body(lines, number)
                modules = [crate, *module_of(path), *[it for _, it in inside if isinstance(it, str)]]
                functions.append(
                    Function(
                        module="::".join(modules),
                        name=head["name"],
                        impl=next((it for _, it in reversed(inside) if isinstance(it, Impl)), None),
                        cycle="".join(CYCLE.findall(" ".join(it.text for it in above))),
                        start=[*above, line][0].start,
                        body=opening.start + opening.indent + len(opening.text) - is_empty,
                        end=lines[number].start + lines[number].indent + is_empty * (len(opening.text) - 1),
                        is_opaque="const" not in head["words"] and "-> impl " not in header,
                        is_pub=bool(head["pub"] and not head["part"]),
                        has_ensures=" ensures" in header,
                    )
                )
        above = []
        number += 1
    return functions


class Crate:
    """A crate in a folder: its texts, and the functions of those of src/, by their paths."""

    def __init__(self, name, folder):
        self.name, self.folder = name, folder
        self.texts = {str(it.relative_to(folder)): it.read_text(errors="replace") for it in tree.files_of(folder)}
        sources = [it for it in self.texts if it.startswith("src/") and it.endswith(".rt")]
        self.functions = {it: functions_of(name, it, self.texts[it]) for it in sources}
        # The modules in which types of each name are declared.
        self.homes = {}
        for path in sources:
            for it in TYPE.findall(self.texts[path]):
                self.homes.setdefault(it, []).append("::".join(module_of(path)))

    def place(self, function):
        """The path below the crate at which the prover has a function: a method comes with its type, a trait's with the
        impl; or None if it isn't clear which type that is."""
        module = function.module.partition("::")[2]
        if function.impl and not function.impl.trait:
            homes = self.homes.get(function.impl.type.split("::")[-1], [])
            if len(homes) != 1:
                return None
            module = homes[0]
        return "::".join([*([module] if module else []), function.own()])

    def units_of(self, names):
        """Which unit each of these names of the prover is of, if that is clear; a closure's is its function's."""
        units = {}
        for function in [it for functions in self.functions.values() for it in functions]:
            name = function.name_among(names)
            if name:
                begins = (f"{name}+", f"{name.removesuffix(function.own())}fn::{function.own()}::")
                units.update({it: function.unit() for it in names if it == name or it.startswith(begins)})
        return units

    def trait_contracts(self):
        """The methods of public traits that it declares with a contract: (trait, method)."""
        found = set()
        for text in self.texts.values():
            for trait, body in TRAIT.findall(text):
                found |= {(trait, name) for name, rest in METHOD.findall(body) if " ensures" in rest}
        return found

    def public_functions(self, trait_contracts):
        """The functions that a library hands out with a contract: their own, or that of a trait's method."""
        root = self.texts.get("src/lib.rt", "")
        modules = {self.name, *[f"{self.name}::{it}" for it in re.findall(r"^pub mod (\w+);", root, re.M)]}
        used = re.findall(r"^pub use [\w:]+::(?:\{([^}]*)\}|(\w+));", root, re.M)
        names = {it for many, one in used for it in re.split(r"[\s,]+", many or one)}
        found = []
        for function in [it for functions in self.functions.values() for it in functions]:
            owner = function.impl.type.split("::")[-1] if function.impl else function.name
            trait = re.sub(r"<.*", "", function.impl.trait).split("::")[-1] if function.impl else ""
            is_reached = function.module in modules or owner in names
            has_contract = function.has_ensures or (trait, function.name) in trait_contracts
            if is_reached and has_contract and (function.is_pub or trait):
                found.append(function)
        return found
