"""Man pages and completions of the program, all made of what it prints for --help: there is no second description.

    python3 launcher/manual.py PROGRAM FOLDER      writes them below FOLDER, and prints their names

A help text has a line on what the command does, a usage, parts of entries (Commands, Arguments, Options), then plain text,
and last the part `Exit status:`. In plain text, lines that begin with a space keep their place.
"""

import re
import subprocess
import sys
from dataclasses import dataclass, field
from pathlib import Path

ENTRY = re.compile(r"  +(\S.*?)(?:  +(\S.*))?$")
PARTS = ("Commands", "Arguments", "Options")


@dataclass
class Help:
    """A help text in its parts. An entry of a part has its words, as `--at <TICK>`, and what they mean."""

    about: str = ""
    usage: str = ""
    parts: dict = field(default_factory=dict)
    text: list = field(default_factory=list)
    status: list = field(default_factory=list)

    def commands(self):
        """The commands, but for `help`, each with what it does."""
        return {name: about for name, about in self.parts.get("Commands", []) if name != "help"}

    def options(self):
        """The options: their long and short names, the name of the value or None, and what they mean."""
        for words, about in self.parts.get("Options", []):
            names = re.findall(r"(?<![\w-])--?[\w-]+", re.sub(r"<.*?>", "", words))
            value = re.search(r"<(.*?)>", words)
            yield names, value and value[1], about

    def takes_files(self):
        return bool(self.parts.get("Arguments"))


def read_help(text):
    """The parts of a help text."""
    lines = text.rstrip("\n").split("\n")
    found, part = Help(about=lines[0]), None
    for line in lines[1:]:
        title = line[:-1] if line.endswith(":") else None
        if line.startswith("Usage: "):
            found.usage = line[len("Usage: ") :]
        elif title in PARTS and not found.text:
            part = found.parts.setdefault(title, [])
        elif title == "Exit status":
            part = found.status
        elif part is found.status:
            part.append(line)
        elif part is not None and line.startswith(" "):
            add_entry(part, line)
        elif line or found.text:
            part = None
            found.text.append(line)
        else:
            part = None
    while found.text and not found.text[-1]:
        found.text.pop()
    return found


def add_entry(part, line):
    """An entry of a part, or a further line of what the last one means."""
    if part and re.match(r" {10,}\S", line):
        part[-1] = part[-1][0], f"{part[-1][1]} {line.strip()}".strip()
    else:
        words, about = ENTRY.match(line).groups()
        part.append((words, about or ""))


def helps_of(program):
    """The help text of the program, by the name of the empty word, and of each of its commands."""
    say = lambda *words: subprocess.run([program, *words, "--help"], check=True, capture_output=True, text=True).stdout
    top = read_help(say())
    return {"": top, **{it: read_help(say(it)) for it in top.commands()}}


def version_of(program):
    return subprocess.run([program, "--version"], check=True, capture_output=True, text=True).stdout.split()[-1]


# Man pages


def plain(text):
    """A text as a man page has it: no character of it is a command."""
    text = text.replace("\\", "\\e").replace("-", "\\-").replace("`", "\\`").replace("'", "\\(aq").replace("^", "\\(ha").replace("~", "\\(ti")
    return "\n".join(f"\\&{it}" if it.startswith(".") or it.startswith("\\(aq") else it for it in text.split("\n"))


def body(lines):
    """Plain text: paragraphs are filled, and lines that begin with a space keep their place."""
    found, is_kept = [], False
    for at, line in enumerate(lines):
        # (a blank line between two that keep their place is one of them)
        following = next((it for it in lines[at:] if it), "")
        keeps = line.startswith(" ") or (not line and is_kept and following.startswith(" "))
        if keeps != is_kept:
            found.append(".nf" if keeps else ".fi")
            is_kept = keeps
        found.append(plain(line) if line or is_kept else ".PP")
    return [*found, *([".fi"] if is_kept else [])]


def entries(part):
    for words, about in part:
        yield from (".TP", f"\\fB{plain(words)}\\fR", plain(about) or "\\&")


def man_page(command, helps, version):
    """The page of a command, or of the program for the empty word."""
    it, name = helps[command], "-".join(["synchrony", command]).rstrip("-")
    lines = [f'.TH {name.upper()} 1 "" "synchrony {version}" "synchrony"']
    lines += [".SH NAME", f"{plain(name)} \\- {plain(it.about[:1].lower() + it.about[1:])}", ".SH SYNOPSIS", f"\\fB{plain(it.usage)}\\fR"]
    lines += [".SH DESCRIPTION", *(body(it.text) or [plain(f"{it.about}.")])]
    for part in PARTS:
        if it.parts.get(part):
            lines += [f".SH {part.upper()}", *entries(it.parts[part])]
    if it.status:
        lines += [".SH EXIT STATUS", *body(it.status)]
    others = [f"synchrony-{other}" if other else "synchrony" for other in helps if other != command]
    return "\n".join([*lines, ".SH SEE ALSO", ",\n".join(f"\\fB{plain(other)}\\fR(1)" for other in others), ""])


# Completions


def bash_completion(helps):
    options = {name: [it for names, _, _ in text.options() for it in names] for name, text in helps.items()}
    cases = []
    for name, text in helps.items():
        if name:
            valued = "|".join(it for names, value, _ in text.options() if value for it in names)
            cases.append(f"        {name})\n            options='{' '.join(options[name])}'\n            valued='{valued}'\n            ;;")
    return f"""# Completions of synchrony for bash, made from its help texts.
_synchrony() {{
    local word=${{COMP_WORDS[COMP_CWORD]}} before=${{COMP_WORDS[COMP_CWORD-1]}} command=${{COMP_WORDS[1]}} options='' valued=''
    COMPREPLY=()
    if [ "$COMP_CWORD" = 1 ]; then
        mapfile -t COMPREPLY < <(compgen -W '{" ".join([*helps[""].commands(), "help", *options[""]])}' -- "$word")
        return
    fi
    case $command in
        help)
            mapfile -t COMPREPLY < <(compgen -W '{" ".join(helps[""].commands())}' -- "$word")
            return
            ;;
{chr(10).join(cases)}
    esac
    # (nothing is known of an option's value)
    case "|$valued|" in *"|$before|"*) return ;; esac
    case $word in
        -*) mapfile -t COMPREPLY < <(compgen -W "$options" -- "$word") ;;
        *) mapfile -t COMPREPLY < <(compgen -f -- "$word") && compopt -o filenames 2>/dev/null ;;
    esac
}}
complete -F _synchrony synchrony
"""


def quoted(text, also=""):
    """A text between single quotes, as a shell reads it; the characters of `also` have a backslash before them."""
    return "'" + "".join(f"\\{it}" if it in also else it for it in text).replace("'", "'\\''") + "'"


def zsh_completion(helps):
    lines = ["#compdef synchrony", "# Completions of synchrony for zsh, made from its help texts.", "_synchrony() {", "    local -a commands=("]
    lines += [f"        {quoted(name + ':' + about)}" for name, about in helps[""].parts["Commands"]]
    lines += ["    )", "    if (( CURRENT == 2 )); then", "        _describe command commands"]
    lines += ["        _arguments " + " ".join(quoted(f"{it}[{about}]", "") for names, _, about in helps[""].options() for it in names)]
    lines += ["        return", "    fi", "    local command=$words[2]", "    shift words", "    (( CURRENT-- ))", "    case $command in"]
    lines += ["        help) _describe command commands ;;"]
    for name, text in helps.items():
        if name:
            told = [quoted(f"{it}[{zsh_plain(about)}]" + (f":{zsh_plain(value)}:" if value else "")) for names, value, about in text.options() for it in names]
            told += ["'*:file:_files'"] if text.takes_files() else []
            lines += [f"        {name})", "            _arguments " + " \\\n                ".join(told), "            ;;"]
    return "\n".join([*lines, "    esac", "}", '_synchrony "$@"', ""])


def zsh_plain(text):
    """A text within a description of _arguments."""
    return re.sub(r"([\[\]:\\])", r"\\\1", text)


def fish_completion(helps):
    top = helps[""]
    lines = ["# Completions of synchrony for fish, made from its help texts.", "complete -c synchrony -n __fish_use_subcommand -f"]
    for name, about in top.parts["Commands"]:
        lines.append(f"complete -c synchrony -n __fish_use_subcommand -a {name} -d {fish_quoted(about)}")
    lines.append(f"complete -c synchrony -n '__fish_seen_subcommand_from help' -f -a '{' '.join(top.commands())}'")
    for name, text in helps.items():
        where = f"-n '__fish_seen_subcommand_from {name}'" if name else "-n __fish_use_subcommand"
        if name and not text.takes_files():
            lines.append(f"complete -c synchrony {where} -f")
        for names, value, about in text.options():
            said = " ".join(f"-l {it[2:]}" if it.startswith("--") else f"-s {it[1:]}" for it in names)
            lines.append(f"complete -c synchrony {where} {said} {'-x ' if value else ''}-d {fish_quoted(about)}")
    return "\n".join([*lines, ""])


def fish_quoted(text):
    return "'" + text.replace("\\", "\\\\").replace("'", "\\'") + "'"


def files_of(program):
    """All files with their texts, by the names that they have below the folder of an install."""
    helps, version = helps_of(program), version_of(program)
    pages = {f"share/man/man1/{'-'.join(['synchrony', it]).rstrip('-')}.1": man_page(it, helps, version) for it in helps}
    return {
        **pages,
        "share/bash-completion/completions/synchrony": bash_completion(helps),
        "share/zsh/site-functions/_synchrony": zsh_completion(helps),
        "share/fish/vendor_completions.d/synchrony.fish": fish_completion(helps),
    }


def main(words):
    if len(words) != 2:
        sys.exit(__doc__.strip())
    for name, text in files_of(Path(words[0]).resolve()).items():
        file = Path(words[1]) / name
        file.parent.mkdir(parents=True, exist_ok=True)
        file.write_text(text)
        print(file)


if __name__ == "__main__":
    main(sys.argv[1:])
