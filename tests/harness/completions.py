#!/usr/bin/env python3
"""completions.py [--write | --installed] PROGRAM: completions for bash, zsh and fish, as the program's own help has its
command line.

They stand in docs/completions, and tools/install.sh puts them in place. --write writes them. Without it they are
compared with what the program's help says now, and tried in bash, zsh and fish, where the machine has them: lines that
are typed so far, beside the words that docs/manual.md has for them. Help has to fit 80 columns. --installed takes those
that Debian's package put in place. The last line is 'completions: N passed, M failed'."""
import contextlib
import os
import pty
import re
import shlex
import shutil
import subprocess
import sys
import tempfile
import textwrap
import threading
from pathlib import Path

TOP = sys.path[0] = str(Path(__file__).resolve().parents[2])
from tools.gate.looks import counted

FOLDER = f"{TOP}/docs/completions"
# where the files stand, and where Debian's package puts them
PLACES = [f"{FOLDER}/{it}" for it in ("pkder.bash", "_pkder", "pkder.fish")]
INSTALLED = ["/usr/share/bash-completion/completions/pkder", "/usr/share/zsh/vendor-completions/_pkder",
             "/usr/share/fish/vendor_completions.d/pkder.fish"]
# what has zsh say in a file what it would offer, and leave at the first tab
ZSHRC = """\
PROMPT= RPROMPT=
fpath=({folder} $fpath)
autoload -Uz compinit && compinit -u -D
compadd() {{
    if [[ ${{@[1,(i)(-|--)]}} == *-(O|A|D)\\ * ]]; then
        builtin compadd "$@"
        return
    fi
    local -a found
    builtin compadd -A found "$@"
    print -rl -- $found >> {said}
    return 1
}}
offer() {{ zle complete-word; exit }}
zle -N offer
bindkey '^I' offer
"""
SECONDS = 20
MADE_BY = "by tests/harness/completions.py, from the program's help"
OPTION = re.compile(r"  (?:-(\w), |    )--([a-z0-9-]+)(?: <(\w+)>)?  +(.*)")
COMMAND = re.compile(r"  ([a-z]+)  +(.*)")
# what `help` takes beside the commands
TOPICS = ["reasons"]
# what is typed so far, and the words that may come, of the manual's tables
TYPED = [
    ("pkder norm", {"normalise"}),
    ("pkder sig", {"signed"}),
    ("pkder --v", {"--version"}),
    ("pkder check --k", {"--kind"}),
    ("pkder signed --", {"--part", "--kind", "--depth", "--octets", "--to", "--help"}),
    ("pkder help s", {"show", "same", "signed"}),
    ("pkder same --", {"--key", "--kind", "--depth", "--octets", "--json", "--help"}),
    ("pkder same --key docs/completions/_p", {"docs/completions/_pkder"}),
    ("pkder help rea", {"reasons"}),
    ("pkder show -k p", {"public", "package"}),
    ("pkder check docs/completions/_p", {"docs/completions/_pkder"}),
    ("pkder check --files0-from docs/completions/_p", {"docs/completions/_pkder"}),
    ("pkder check --kind ", {"key", "ec", "request", "public", "encrypted", "package"}),
    ("pkder show --depth 3 --kind p", {"public", "package"}),
    ("pkder normalise --kind=e", {"ec", "encrypted"}),
    ("pkder signed --part ", {"info", "algorithm", "key", "signature", "received"}),
    ("pkder check --an", {"--any"}),
    ("pkder check --ref", {"--refuse"}),
    ("pkder check --refuse ", {"must", "tls"}),
    ("pkder check --pro", {"--profile"}),
    ("pkder explain --profile ", {"tls"}),
    ("pkder check --depth ", set()),
    ("pkder signed --q", set()),
]


class Option:
    """An option: its letter if it has one, its name, the name of its value, what it is, and the words that it takes."""

    def __init__(self, letter, name, value, about):
        self.letter, self.name, self.value, self.about = letter, name, value, short(about)
        listed = re.search(r": (\w+(?:, \w+)* or \w+|\w+$)", about)
        self.words = re.split(", | or ", listed[1]) if value and listed else []
        self.is_file = value == "FILE"


class Command:
    """A command: what it is, its options, and whether it takes files."""

    def __init__(self, about, found):
        self.about = short(about)
        self.options = [Option(*OPTION.fullmatch(it).groups()) for it in found["Options:"]]
        self.takes_files = "Arguments:" in found


def short(about):
    """What is said of an option or a command, without what it takes."""
    return re.split(r": | \[default", about)[0]


def joined(lines):
    """The lines of a section, each with those that go on with it."""
    found = []
    for line in lines:
        if found and line.startswith(" " * 10):
            found[-1] += f" {line.strip()}"
        else:
            found.append(line)
    return found


def help_text(program, *words):
    """What help says."""
    return subprocess.run([program, *words, "--help"], capture_output=True, text=True, check=True).stdout


def help_of(program, *words):
    """The lines of help, by the titles of their sections."""
    blocks = (block.split("\n") for block in help_text(program, *words).split("\n\n"))
    return {block[0]: joined(block[1:]) for block in blocks}


def widths(program, commands):
    """Whether help fits 80 columns, of the program and of each command."""
    for words in ([], *([it] for it in commands)):
        wide = [it for it in help_text(program, *words).split("\n") if len(it) > 80]
        yield f"help of {' '.join(['pkder', *words])} in 80 columns: {wide}", not wide


def command_line(program):
    """The options of the program; and its commands by their names, but for `help`."""
    top = help_of(program)
    listed = dict(COMMAND.fullmatch(it).groups() for it in top["Commands:"])
    commands = {it: Command(about, help_of(program, it)) for it, about in listed.items() if it != "help"}
    return [Option(*OPTION.fullmatch(it).groups()) for it in top["Options:"]], commands, short(listed["help"])


def indented(lines, by):
    return textwrap.indent("\n".join(lines), " " * by)


def bash_cases(commands):
    """What is offered after each option, and after other words."""
    for name, command in commands.items():
        for it in command.options:
            names = " | ".join(f"{name}:{dash}" for dash in ([f"-{it.letter}"] if it.letter else []) + [f"--{it.name}"])
            if it.value:
                yield f"{names}) files=yes ;;" if it.is_file else f"{names}) words=\"{' '.join(it.words)}\" ;;"
        files = " files=yes" if command.takes_files else ""
        yield f"{name}:*) words=\"{' '.join(f'--{it.name}' for it in command.options)}\"{files} ;;"
    yield f"help:*) words=\"{' '.join([*commands, *TOPICS])}\" ;;"


def bash(top, commands, _about):
    """The file for bash."""
    first = " ".join([*commands, "help", *(f"--{it.name}" for it in top)])
    return f"""# Completions of pkder for bash, {MADE_BY}.
_pkder() {{
    local word=${{COMP_WORDS[COMP_CWORD]}} before=${{COMP_WORDS[COMP_CWORD - 1]}} words='' files=''
    # (bash takes --kind=key for three words)
    if [ "$before" = "=" ]; then before=${{COMP_WORDS[COMP_CWORD - 2]}}; fi
    if [ "$word" = "=" ]; then word=''; fi
    if [ "$COMP_CWORD" = 1 ]; then
        words="{first}"
    else
        case ${{COMP_WORDS[1]}}:$before in
{indented(bash_cases(commands), 12)}
        esac
    fi
    mapfile -t COMPREPLY < <(compgen -W "$words" -- "$word"; [ -z "$files" ] || compgen -f -- "$word")
}}
complete -o filenames -F _pkder pkder
"""


def zsh_option(option):
    """An option as _arguments takes it."""
    about = f"[{option.about}]"
    values = "_files" if option.is_file else f"({' '.join(option.words)})"
    value = f":{option.value}:{values}" if option.value else ""
    sign = "=" if option.value else ""
    if not option.letter:
        return shlex.quote(f"--{option.name}{sign}{about}{value}")
    # (a brace expansion, which repeats what is after it)
    letter = f"-{option.letter}{'+' if option.value else ''}"
    return f"{{{letter},--{option.name}{sign}}}{shlex.quote(about + value)}"


def zsh_case(name, command):
    """What a command takes, in a case of its name."""
    taken = [*map(zsh_option, command.options), *(["'*:file:_files'"] if command.takes_files else [])]
    arguments = " \\\n".join(["    _arguments", *(f"        {it}" for it in taken)])
    return f"{name})\n{arguments}\n    ;;"


def zsh(top, commands, about):
    """The file for zsh."""
    listed = [shlex.quote(f"{name}:{it.about}") for name, it in commands.items()] + [shlex.quote(f"help:{about}")]
    cases = [zsh_case(name, command) for name, command in commands.items()]
    cases.append(f"help)\n    _arguments '1:topic:({' '.join([*commands, *TOPICS])})'\n    ;;")
    first = [f"{zsh_option(it)} \\" for it in top]
    return f"""#compdef pkder
# Completions of pkder for zsh, {MADE_BY}.
_pkder() {{
    local context state state_descr line
    local -A opt_args
    local -a commands=(
{indented(listed, 8)}
    )
    _arguments -C \\
{indented(first, 8)}
        '1:command:->command' '*::option:->option'
    case $state in
        command) _describe command commands ;;
        option)
            case $words[1] in
{indented(cases, 16)}
            esac
            ;;
    esac
}}
_pkder "$@"
"""


def fish_quote(text):
    """A text as a word of fish."""
    return "'" + text.replace("\\", "\\\\").replace("'", "\\'") + "'"


def fish_option(when, option):
    """The line for an option."""
    letter = f" -s {option.letter}" if option.letter else ""
    words = f" -a {fish_quote(' '.join(option.words))}" if option.words else ""
    takes = " -r -F" if option.is_file else f" -x{words}" if option.value else ""
    return f"complete -c pkder -n {when}{letter} -l {option.name}{takes} -d {fish_quote(option.about)}"


def fish(top, commands, about):
    """The file for fish."""
    lines = [f"# Completions of pkder for fish, {MADE_BY}.", "complete -c pkder -f"]
    lines += [fish_option("__fish_use_subcommand", it) for it in top]
    for name, command in commands.items():
        lines.append(f"complete -c pkder -n __fish_use_subcommand -a {name} -d {fish_quote(command.about)}")
        met = f"'__fish_seen_subcommand_from {name}'"
        lines += [fish_option(met, it) for it in command.options]
        lines += [f"complete -c pkder -n {met} -F"] if command.takes_files else []
    lines.append(f"complete -c pkder -n __fish_use_subcommand -a help -d {fish_quote(about)}")
    topics = fish_quote(" ".join([*commands, *TOPICS]))
    lines.append(f"complete -c pkder -n '__fish_seen_subcommand_from help' -a {topics}")
    return "\n".join(lines) + "\n"


def in_bash(file, typed):
    """The words that bash offers."""
    words = [it for it in re.split(" +|(=)", typed) if it is not None]
    script = f"""source {file}
COMP_WORDS=({shlex.join(words)}) COMP_CWORD={len(words) - 1}
_pkder && printf '%s\\n' "${{COMPREPLY[@]}}" """
    return {*subprocess.run(["bash", "-c", script], capture_output=True, text=True, cwd=TOP).stdout.split()}


def in_zsh(file, typed):
    """The words that zsh offers, which has to have a terminal."""
    with tempfile.TemporaryDirectory() as work:
        said = f"{work}/said"
        for name, text in ((said, ""), (f"{work}/.zshrc", ZSHRC.format(folder=os.path.dirname(file), said=said))):
            with open(name, "w", encoding="utf-8") as it:
                it.write(text)
        ours, its = pty.openpty()
        how = {"stdin": its, "stdout": its, "stderr": its, "cwd": TOP,
               "env": {**os.environ, "ZDOTDIR": work, "TERM": "dumb"}}
        with subprocess.Popen(["zsh", "-i", "--no-globalrcs"], start_new_session=True, **how) as ran:
            os.close(its)
            late = threading.Timer(SECONDS, ran.kill)
            late.start()
            os.write(ours, f"{typed}\t".encode())
            # (where the other end is closed reading fails)
            with contextlib.suppress(OSError):
                while os.read(ours, 4096):
                    pass
            late.cancel()
        os.close(ours)
        # (of a path it says what stands after the last slash)
        above = "".join(re.findall(r"\S*/", typed.split(" ")[-1]))
        with open(said, encoding="utf-8") as it:
            return {above + word for word in it.read().split()}


def in_fish(file, typed):
    """The words that fish offers."""
    script = f"source {file}; complete -C {fish_quote(typed)}"
    ran = subprocess.run(["fish", "--no-config", "-c", script], capture_output=True, text=True, cwd=TOP)
    found = {line.split("\t")[0] for line in ran.stdout.splitlines()}
    return {it.split("=")[-1] for it in found}


def has(shell):
    """Whether the machine has the shell; where it hasn't, that is said."""
    if not shutil.which(shell):
        print(f"left out: no {shell} (Debian: {shell})")
    return shutil.which(shell)


def looks_at(made, places):
    """Each look at the files, by what is looked at, and whether it is as it should be."""
    for text, place in zip(made, places):
        with open(place, encoding="utf-8") as file:
            yield f"{place}: python3 tests/harness/completions.py --write PROGRAM writes it anew", file.read() == text
    for shell, offered, place in zip(("bash", "zsh", "fish"), (in_bash, in_zsh, in_fish), places):
        if has(shell):
            yield from ((f"{shell}: {typed!r}", offered(place, typed) == due) for typed, due in TYPED)


def main(words):
    programs = [it for it in words if not it.startswith("-")]
    if len(programs) != 1 or len(words) > 2 or {*words} - {"--write", "--installed", *programs}:
        sys.exit(__doc__)
    program = os.path.abspath(programs[0])
    line = command_line(program)
    made = bash(*line), zsh(*line), fish(*line)
    if "--write" in words:
        os.makedirs(FOLDER, exist_ok=True)
        for name, text in zip(PLACES, made):
            with open(name, "w", encoding="utf-8") as file:
                file.write(text)
        return 0
    places = INSTALLED if "--installed" in words else PLACES
    return counted("completions", [*widths(program, line[1]), *looks_at(made, places)])


if __name__ == "__main__":
    sys.exit(main(sys.argv[1:]))
