"""Writes the man page of `sketches` and its completions for bash, zsh and fish. It needs Python's standard library alone.

    manual.py PROGRAM PAGE OUT

writes `sketches.1`, `sketches.bash`, `_sketches` and `sketches.fish` into the folder OUT. Commands, options and their texts are
what PROGRAM prints for `--help`. Statuses and examples are those of PAGE, `crates/sketches/README.md`.
"""
import re
import shlex
import subprocess
import sys

NAME = "sketches"
FILES = {"FILE", "IMAGE"}  # The names of values that are files.
ORIGIN = f"for {NAME}, from its --help."
PARTS = re.compile(r"^```\w*\n(?P<fenced>(?s:.*?))^```$|^(?P<block>(?: {4}.*\n)+)|^#+ (?P<heading>.*)$|"
                   r"^(?P<text>(?:(?! {4}|```|#|\n).*\n)+)", re.MULTILINE)
ENVIRONMENT = [".B DATASKETCHES_TABLE_KEY", "fixes the key under which tables hash: 32 hexadecimal digits, or", ".B plain",
               "for none.", "The option", ".B \\-\\-key", "goes before it.", "By default each run draws its key from the system."]
BASH = """# Completion of bash {origin}
{function}() {{
    local word="${{COMP_WORDS[COMP_CWORD]}}" before="${{COMP_WORDS[COMP_CWORD - 1]}}" command="" found="" at
    local commands="{commands}" options="" values="" files="" kind=options
    if [ "$before" = "=" ]; then
        before="${{COMP_WORDS[COMP_CWORD - 2]}}"
    elif [ "$word" = "=" ]; then
        word=
    fi
    for ((at = 1; at < COMP_CWORD; at++)); do
        case "${{COMP_WORDS[at]}}" in
        --) [ -z "$command" ] || kind=files ;;
        -*) ;;
        *) [ -n "$command" ] || command="${{COMP_WORDS[at]}}" ;;
        esac
    done
    case "$command" in
    '') kind=words options="$commands {options}" ;;
    help) kind=words options="$commands" ;;
{cases}
    *) kind=none ;;
    esac
    if [ $kind = options ]; then
        case " $files " in *" $before "*) kind=files ;; esac
        case " $values " in *" $before "*) kind=none ;; esac
    fi
    case "$kind$word" in
    none*) ;;
    words* | options-*) found="$(compgen -W "$options" -- "$word")" ;;
    *)
        compopt -o filenames 2>/dev/null
        found="$(compgen -f -- "$word")"
        ;;
    esac
    COMPREPLY=()
    [ -z "$found" ] || mapfile -t COMPREPLY <<<"$found"
}}
complete -F {function} {name}
"""
ZSH = """#compdef {name}
# Completion of zsh {origin}
{function}() {{
    local curcontext="$curcontext" state line
    typeset -A opt_args
    local -a commands=(
{commands}
    )
    _arguments -C \\
{options} \\
        '1: :->command' \\
        '*:: :->words'
    case $state in
    command) _describe command commands ;;
    words)
        case $line[1] in
{cases}
        help) _describe command commands ;;
        esac
        ;;
    esac
}}
{function} "$@"
"""


class Option:
    """An option as `--help` prints it. `value` is the name of its value, or None."""

    def __init__(self, short, long, value, text):
        self.short, self.long, self.value, self.text = short, long, value, text
        self.words = [word for word in (short, long) if word]
        if not self.words:
            raise SystemExit(f"--help has an option without a name: {text}")


class Command:
    """What the program prints for `--help` of itself or of a command."""

    def __init__(self, name, printed):
        self.name = name
        self.about = printed.partition("\n")[0]
        self.usage = re.search(r"^Usage: (.+)$", printed, re.MULTILINE)[1]
        parts = dict(re.findall(r"^(Commands|Arguments|Options):\n((?: +.*\n)+)", printed, re.MULTILINE))
        self.commands = entries(parts.get("Commands", ""), r"([a-z-]+)")
        self.arguments = entries(parts.get("Arguments", ""), r"([\[<][A-Z]+[\]>](?:\.\.\.)?)")
        self.options = [Option(*it) for it in entries(parts["Options"], r"(-\w)?(?:, )?(--[a-z-]+)?(?: <([A-Z]+)>)?")]

    def words(self, wanted=lambda option: True):
        """Returns the words of the wanted options."""
        return " ".join(word for option in self.options if wanted(option) for word in option.words)

    def takes_files(self):
        return any(argument.strip("[]<>.") in FILES for argument, _ in self.arguments)


def entries(part, pattern):
    """Returns the groups of the pattern and the text of each line of a part of `--help`."""
    found = []
    for line in part.splitlines():
        entry = re.fullmatch(rf" +{pattern} {{2,}}(\S.*)", line)
        if not entry:
            raise SystemExit(f"--help has a line of an unknown form: {line}")
        found.append(entry.groups())
    return found


def read_help(program):
    """Returns the description of the program and those of its commands but `help`."""
    def printed(*words):
        return subprocess.run([program, *words], check=True, capture_output=True, encoding="utf-8").stdout

    top = Command(NAME, printed("--help"))
    return top, [Command(name, printed(name, "--help")) for name, _ in top.commands if name != "help"]


def statuses(page):
    """Returns the statuses of the page with their meanings."""
    found = re.findall(r"^\| (\d+) \| (.+) \|$", page, re.MULTILINE)
    if [status for status, _ in found] != ["0", "1", "2"]:
        raise SystemExit("the page has no table of the statuses 0, 1 and 2")
    return found


def examples(page):
    """Returns the blocks of the page that run the program, each with the paragraph before it or else the heading."""
    found, before = [], ""
    for part in PARTS.finditer(page):
        block = part["fenced"] or part["block"]
        if block is None:
            before = part["text"] or part["heading"].removeprefix("Example")
        elif re.search(rf"\b{NAME} [a-z]", block):
            found.append((" ".join(before.split()), re.sub("^ {4}", "", block, flags=re.MULTILINE)))
    if not found:
        raise SystemExit("the page has no examples")
    return found


def roff(text):
    """Returns the text for the man page, with each character as it is."""
    for char, escape in [("\\", "\\e"), ("-", "\\-"), ("'", "\\(aq"), ("`", "\\(ga"), ("^", "\\(ha"), ("~", "\\(ti")]:
        text = text.replace(char, escape)
    return re.sub(r"^\.", r"\\&.", text, flags=re.MULTILINE)


def roff_text(text):
    """Returns a paragraph of Markdown for the man page: code is bold, and links are their words."""
    text = re.sub(r"\[([^\]]+)\]\([^)]+\)", r"\1", text)
    return "".join(f"\\fB{roff(it)}\\fR" if at % 2 else roff(it) for at, it in enumerate(text.split("`")))


def roff_usage(usage):
    return re.sub(r"[A-Z]{2,}", lambda it: f"\\fI{it[0]}\\fR", roff(usage))


def roff_options(command):
    lines = []
    for name, text in command.arguments:
        lines += [".TP", roff_usage(name), roff(text)]
    for option in command.options:
        value = f" \\fI{option.value}\\fR" if option.value else ""
        lines += [".TP", ", ".join(f"\\fB{roff(word)}\\fR" for word in option.words) + value, roff(option.text)]
    return lines


def man_page(top, commands, page):
    about = top.about[0].lower() + top.about[1:]
    lines = [f'.TH {NAME.upper()} 1 "" "datasketches for Rattle" "User Commands"']
    lines += [".SH NAME", f"{NAME} \\- {roff(about)}", ".SH SYNOPSIS"]
    for command in [*commands, top]:
        usage = f"{NAME} --help | --version" if command is top else command.usage
        lines += ([".br"] if command is not commands[0] else []) + [roff_usage(usage)]
    lines += [".SH COMMANDS"]
    for command in commands:
        lines += [f".SS {NAME} {command.name}", f"{roff(command.about)}.", *roff_options(command)]
    lines += [".SH OPTIONS", *roff_options(top), ".SH ENVIRONMENT", ".TP", *ENVIRONMENT]
    lines += [".SH EXIT STATUS"]
    for status, meaning in statuses(page):
        lines += [".TP", f".B {status}", roff_text(meaning)]
    lines += [".SH EXAMPLES"]
    for before, block in examples(page):
        lines += [*([".PP", roff_text(before)] if before else []), ".PP", ".nf", roff(block.rstrip("\n")), ".fi"]
    return "\n".join(lines) + "\n"


def bash(top, commands):
    cases = []
    for command in commands:
        files = command.words(lambda option: option.value in FILES)
        values = command.words(lambda option: option.value and option.value not in FILES)
        cases.append(f'    {command.name}) options="{command.words()}" values="{values}" files="{files}" ;;')
    names = " ".join(name for name, _ in top.commands)
    return BASH.format(origin=ORIGIN, function=f"_{NAME}", name=NAME, commands=names, options=top.words(), cases="\n".join(cases))


def zsh(top, commands):
    def escaped(text):
        return re.sub(r"([\\\[\]:])", r"\\\1", text)

    def option_lines(command, indent):
        lines = []
        for option in command.options:
            value = f":{option.value}:{'_files' if option.value in FILES else ' '}" if option.value else ""
            only = f"({' '.join(option.words)})"
            for word in option.words:
                form = f"{word}=" if value and word.startswith("--") else word + ("+" if value else "")
                lines.append(indent + shlex.quote(f"{only}{form}[{escaped(option.text)}]{value}"))
        return lines

    cases = []
    for command in commands:
        lines = option_lines(command, " " * 16)
        lines += [" " * 16 + shlex.quote(f"*:{argument.strip('[]<>.')}:_files") for argument, _ in command.arguments]
        cases.append(f"        {command.name})\n            _arguments -s \\\n" + " \\\n".join(lines) + "\n            ;;")
    names = "\n".join("        " + shlex.quote(f"{name}:{escaped(text)}") for name, text in top.commands)
    return ZSH.format(origin=ORIGIN, function=f"_{NAME}", name=NAME, commands=names,
                      options=" \\\n".join(option_lines(top, " " * 8)), cases="\n".join(cases))


def fish(top, commands):
    def quoted(text):
        return "'" + text.replace("\\", "\\\\").replace("'", "\\'") + "'"

    def option_lines(command, condition):
        lines = []
        for option in command.options:
            words = (f" -s {option.short[1:]}" if option.short else "") + (f" -l {option.long[2:]}" if option.long else "")
            value = (" -r -F" if option.value in FILES else " -x") if option.value else ""
            lines.append(f"complete -c {NAME} -n {condition}{words}{value} -d {quoted(option.text)}")
        return lines

    lines = [f"# Completion of fish {ORIGIN}", f"complete -c {NAME} -f"]
    for name, text in top.commands:
        lines.append(f"complete -c {NAME} -n __fish_use_subcommand -a {name} -d {quoted(text)}")
    lines += option_lines(top, "__fish_use_subcommand")
    for command in commands:
        condition = f"'__fish_seen_subcommand_from {command.name}'"
        lines += option_lines(command, condition)
        if command.takes_files():
            lines.append(f"complete -c {NAME} -n {condition} -F")
    names = " ".join(command.name for command in commands)
    lines.append(f"complete -c {NAME} -n '__fish_seen_subcommand_from help' -a '{names}'")
    return "\n".join(lines) + "\n"


def main():
    program, page, out = sys.argv[1:]
    top, commands = read_help(program)
    with open(page, encoding="utf-8") as file:
        text = file.read()
    for name, contents in [(f"{NAME}.1", man_page(top, commands, text)), (f"{NAME}.bash", bash(top, commands)),
                           (f"_{NAME}", zsh(top, commands)), (f"{NAME}.fish", fish(top, commands))]:
        with open(f"{out}/{name}", "w", encoding="utf-8") as file:
            file.write(contents)


main()
