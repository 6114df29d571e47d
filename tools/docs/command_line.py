#!/usr/bin/env python3
"""Reads the commands and options of `cedar_site` where the program has them, crates/program_lines/src/app.rt.

    tools/docs/command_line.py missing ARGUMENTS ..
    tools/docs/command_line.py [--check]

`missing` prints `fault: FILE` on standard error, with status 3, for the first file that ARGUMENTS name to be read and that
is not there, as the program does. Else the script writes the man page and the completions of bash, zsh and fish in
examples/shell; --check only says which of them differ from what it would write, by its status too. Standard library alone.
"""
import os
import re
import sys

TOP = os.path.dirname(os.path.dirname(os.path.dirname(os.path.abspath(__file__))))
TABLE, SHELL = "crates/program_lines/src/app.rt", "examples/shell"
# files that a command writes or makes
WRITTEN = {("serve", "log"), ("pull", "state")}
TOKEN = re.compile(r'\s+|//[^\n]*|(?P<text>"(?:[^"\\]|\\.)*")|(?P<number>\d[\d_]*)|(?P<name>\w+(?:::\w+)*)|(?P<sign>[^\w\s"])', re.S)


class Arg:
    """An option, a flag or an argument by its position."""

    def __init__(self, name):
        self.name, self.is_long, self.value, self.help, self.is_flag, self.is_needed, self.bounds = name, False, None, "", False, False, None

    @property
    def shown(self):
        """How a line of use has it."""
        text = f"--{self.name}" if self.is_long else ""
        return " ".join(it for it in (text, None if self.is_flag else self.value) if it)

    def is_read(self, command):
        """Whether its value is a file that the command reads."""
        return not self.is_flag and (command, self.name) not in WRITTEN and (self.value == "FILE" or not self.is_long)


class Command:
    """A command, with its arguments and its subcommands."""

    def __init__(self, name):
        self.name, self.about, self.example, self.version, self.args, self.commands = name, "", "", "", [], []


def put(on, **fields):
    for name, it in fields.items():
        setattr(on, name, it)
    return on


def appended(on, name, it):
    getattr(on, name).append(it)
    return on


# what the functions of clap and of `plain` do that the table calls
FUNCTIONS = {
    "Command::new": lambda _, name: Command(name),
    "Arg::new": lambda _, name: Arg(name),
    "ValueParser::unsigned": lambda least, most: (least, most),
    "Ok": lambda it: it,
    "both": lambda *them: them,
    "pair_with": lambda *them: them,
}
METHODS = {
    "about": lambda it, text: put(it, about=text),
    "after_help": lambda it, text: put(it, example=text),
    "version": lambda it, text: put(it, version=text),
    "subcommand_required": lambda it, _: it,
    "subcommand": lambda it, other: appended(it, "commands", other),
    "arg": lambda it, other: appended(it, "args", other),
    "long": lambda it, _: put(it, is_long=True),
    "value_name": lambda it, text: put(it, value=text),
    "help": lambda it, text: put(it, help=text),
    "action": lambda it, action: put(it, is_flag=action == "ArgAction::SetTrue"),
    "required": lambda it, _: put(it, is_needed=True),
    "value_parser": lambda it, bounds: put(it, bounds=bounds),
}


def tokens(text):
    found = [(it.lastgroup, it.group()) for it in TOKEN.finditer(text) if it.lastgroup]
    return [*found, ("end", "")]


class Table:
    """Evaluates the functions of the table: lets, calls, methods, texts and numbers."""

    def __init__(self, text):
        self.constants = {}
        for name, written in re.findall(r"const (\w+): [^=]+ = ([^;]+);", text):
            self.constants[name] = self.run(tokens(written), {})
        found = re.findall(r"(?ms)^(?:pub\(crate\) )?fn (\w+)(?:<[^>]*>)?\((.*?)\) ->.*?\n\{\n(.*?)^\}", text)
        self.functions = {name: (re.findall(r"(\w+): ", given), body) for name, given, body in found}

    def call(self, name, given):
        if name in FUNCTIONS:
            return FUNCTIONS[name](*given)
        names, body = self.functions[name]
        return self.run(tokens(body), dict(zip(names, given)))

    def run(self, todo, known):
        """Evaluates a body: its lets, and what it ends in."""
        while todo[0] == ("name", "let"):
            todo.pop(0)
            names = []
            while todo[0] != ("sign", "="):
                kind, word = todo.pop(0)
                names += [word] if kind == "name" else []
            todo.pop(0)
            value = self.expression(todo, known)
            known.update(zip(names, value) if len(names) > 1 else [(names[0], value)])
            todo.pop(0)
        return self.expression(todo, known)

    def expression(self, todo, known):
        kind, word = todo.pop(0)
        if kind == "text":
            # a backslash at the end of a line takes the blanks of the next one
            value = re.sub(r"\\(\n\s*|.)", lambda it: {"n": "\n"}.get(it[1], it[1].strip()), word[1:-1], flags=re.S)
        elif kind == "number":
            value = int(word.replace("_", ""))
        elif todo[0] == ("sign", "("):
            value = self.call(word, self.arguments(todo, known))
        else:
            value = known.get(word, self.constants.get(word, word))
        while todo[0][1] in (".", "?"):
            if todo.pop(0)[1] == ".":
                name = todo.pop(0)[1]
                # another method of clap, as one that only affects the help, changes nothing here
                value = METHODS.get(name, lambda it, *_: it)(value, *self.arguments(todo, known))
        return value

    def arguments(self, todo, known):
        todo.pop(0)
        given = []
        while todo[0] != ("sign", ")"):
            given.append(self.expression(todo, known))
            if todo[0] == ("sign", ","):
                todo.pop(0)
        todo.pop(0)
        return given


def program():
    """Returns the program's command."""
    with open(f"{TOP}/{TABLE}", encoding="utf-8") as file:
        return Table(file.read()).call("command", ["alloc"])


# ---- files that are missing


def files_of(words):
    """Yields the files that a command line names to be read, in the order of the command's options."""
    command = next((it for it in program().commands if words and it.name == words[0]), None)
    if command is None:
        return
    options, placed, rest = {it.name: it for it in command.args if it.is_long}, [], list(words[1:])
    given = {}
    while rest:
        word = rest.pop(0)
        name, has_value, value = word[2:].partition("=")
        if not word.startswith("--") or len(word) == 2:
            placed.append(word)
        elif name in options and not options[name].is_flag:
            given[name] = value if has_value else rest.pop(0) if rest else ""
    given.update(zip([it.name for it in command.args if not it.is_long], placed))
    for arg in command.args:
        is_code = arg.value == "WHAT" and given.get(arg.name, "").isdecimal()
        if arg.is_read(command.name) and given.get(arg.name, "-") != "-" and not is_code:
            yield given[arg.name]


def missing(words):
    for path in files_of(words):
        if not os.path.exists(path):
            print(f"fault: {path}", file=sys.stderr)
            return 3
    return 0


# ---- the man page and the completions

MADE = "made by tools/docs/command_line.py"
CODES = (
    ("0", "done; an answer may be a denial"),
    ("1", "a file or a message is rejected, with one line of JSON on standard error, or out of memory"),
    ("2", "the arguments are wrong"),
    ("3", "a file, an address or a standard stream fails"),
)


def roff(text):
    """Returns a text as roff has it."""
    return "\n".join("\\&" + it if it.startswith((".", "'")) else it for it in text.replace("\\", "\\e").replace("-", "\\-").split("\n"))


def of_arg(arg):
    bounds = f" ({arg.bounds[0]} to {arg.bounds[1]})" if arg.bounds and str(arg.bounds[1]) not in arg.help else ""
    parts = [f"\\fB\\-\\-{roff(arg.name)}\\fR"] if arg.is_long else []
    parts += [] if arg.is_flag else [f"\\fI{roff(arg.value)}\\fR"]
    return f".TP\n{' '.join(parts)}\n{roff(arg.help)}{bounds}."


def man_page(whole):
    lines = [f'.\\" {MADE}', f'.TH CEDAR_SITE 1 "" "Cedar {whole.version}" "Weirbowl"', ".SH NAME", f"cedar_site \\- {whole.about[0].lower()}{roff(whole.about[1:])}", ".SH SYNOPSIS"]
    for command in whole.commands:
        shown = " ".join(it.shown if it.is_needed else f"[{it.shown}]" for it in command.args)
        lines += [".PP", f"\\fBcedar_site {command.name}\\fR {roff(shown)}"]
    lines.append(".SH COMMANDS")
    for command in whole.commands:
        lines += [f".SS {command.name}", f"{roff(command.about)}.", *map(of_arg, command.args)]
        lines += [".PP", ".nf", roff(command.example), ".fi"]
    lines += [".SH EXIT STATUS", *(f".TP\n{status}\n{words}." for status, words in CODES)]
    lines += [".SH SEE ALSO", "docs/operating.md, docs/formats.md and docs/codes.md of the repository."]
    return "\n".join(lines) + "\n"


def bash(whole):
    cases = []
    for command in whole.commands:
        options = " ".join(f"--{it.name}" for it in command.args if it.is_long)
        cases.append(f'        {command.name}) options="{options} --help" ;;')
    plain = "|".join(sorted({f"--{it.name}" for one in whole.commands for it in one.args if it.is_long and not it.is_flag and it.value != "FILE"}))
    return f"""# {MADE}
_cedar_site() {{
    local word=${{COMP_WORDS[COMP_CWORD]}} before=${{COMP_WORDS[COMP_CWORD - 1]}} options=
    if [ "$COMP_CWORD" = 1 ]; then
        COMPREPLY=($(compgen -W "{' '.join(it.name for it in whole.commands)} --help --version" -- "$word"))
        return
    fi
    case ${{COMP_WORDS[1]}} in
{chr(10).join(cases)}
    esac
    case $before in {plain}) return ;; esac
    case $word in
        -*) COMPREPLY=($(compgen -W "$options" -- "$word")) ;;
        *) COMPREPLY=($(compgen -f -- "$word")) ;;
    esac
}}
complete -o filenames -F _cedar_site cedar_site
"""


def quoted(text):
    return "'" + text.replace("'", "'\\''") + "'"


def zsh(whole):
    def spec(arg):
        action = ":_files" if arg.value == "FILE" or not arg.is_long else ": "
        text = re.sub(r"([\[\]:\\])", r"\\\1", arg.help)
        if not arg.is_long:
            return quoted(f":{text}{action}")
        return quoted(f"--{arg.name}[{text}]" + ("" if arg.is_flag else f":{arg.value}{action}"))

    names = "\n".join(f"        {quoted(it.name + ':' + it.about)}" for it in whole.commands)
    cases = "\n".join(f"        {it.name}) _arguments {' '.join(map(spec, it.args))} ;;" for it in whole.commands)
    return f"""#compdef cedar_site
# {MADE}
_cedar_site() {{
    local -a commands=(
{names}
    )
    if (( CURRENT == 2 )); then
        _describe command commands
        return
    fi
    shift words
    (( CURRENT-- ))
    case $words[1] in
{cases}
    esac
}}
_cedar_site "$@"
"""


def fish(whole):
    lines = [f"# {MADE}"]
    for command in whole.commands:
        lines.append(f"complete -c cedar_site -n __fish_use_subcommand -f -a {command.name} -d {quoted(command.about)}")
        for arg in (it for it in command.args if it.is_long):
            how = "" if arg.is_flag else " -r -F" if arg.value == "FILE" else " -x"
            lines.append(f"complete -c cedar_site -n '__fish_seen_subcommand_from {command.name}' -l {arg.name}{how} -d {quoted(arg.help)}")
    return "\n".join(lines) + "\n"


def made():
    """Returns each file that this script makes, with its text."""
    whole = program()
    return {
        f"{SHELL}/cedar_site.1": man_page(whole),
        f"{SHELL}/cedar_site.bash": bash(whole),
        f"{SHELL}/cedar_site.fish": fish(whole),
        f"{SHELL}/_cedar_site": zsh(whole),
    }


def stale():
    """Yields a message for each file that differs from what this script would write."""
    for path, text in made().items():
        try:
            with open(f"{TOP}/{path}", encoding="utf-8") as file:
                is_same = file.read() == text
        except FileNotFoundError:
            is_same = False
        if not is_same:
            yield f"{path}: expected what tools/docs/command_line.py writes, got another text"


def main():
    words = sys.argv[1:]
    if words[:1] == ["missing"]:
        return missing(words[1:])
    if words == ["--check"]:
        found = list(stale())
        print("\n".join(found) or "the man page and the completions: all checks passed")
        return 1 if found else 0
    if words:
        print(__doc__)
        return 0 if words == ["--help"] else 2
    os.makedirs(f"{TOP}/{SHELL}", exist_ok=True)
    for path, text in made().items():
        with open(f"{TOP}/{path}", "w", encoding="utf-8") as file:
            file.write(text)
    return 0


if __name__ == "__main__":
    sys.exit(main())
