"""Tests the program `sketches` of the package: its man page, its completions and an example."""
import os
import re
import shlex
import subprocess

BASH = """set +e
source /usr/share/bash-completion/completions/sketches
COMP_WORDS=({words})
COMP_CWORD=$((${{#COMP_WORDS[@]}} - 1))
"$(complete -p sketches | sed 's/.* -F \\([^ ]*\\) .*/\\1/')"
printf '%s\\n' "${{COMPREPLY[@]}}"
"""
# Prints what the completion passes to zsh's functions: for the program if the name is empty, and else for the command.
ZSH = """_arguments() {{
    [ -z '{name}' ] || [ "$1" != -C ] || {{ state=words line=({name}) && return; }}
    print -rl -- "$@"
}}
_describe() {{ print -rl -- ${{(P)2}}; }}
source /usr/share/zsh/vendor-completions/_sketches
"""
MARK = "a file.txt"


def help_of(tests, *words):
    """Returns the names and texts in the parts 'Commands' and 'Options' of a help, as the program prints it."""
    printed = tests.run(f"sketches {shlex.join(words)} --help") or ""
    parts = {"Commands": {}, "Options": {}}
    for heading, part in re.findall(r"^([A-Z]\w+):\n((?:  .*\n)+)", printed, re.MULTILINE):
        if heading in parts:
            for line in part.splitlines():
                names, text = re.split(r" {2,}", line.strip(), maxsplit=1)
                parts[heading][tuple(re.findall(r"--?[\w-]+|^\w+$", names))] = text
    return printed, parts


def words_in(options):
    return {word for words in options for word in words}


def check_page(tests, page, helps):
    """The page renders without warnings, and has each option with its text in the part of its command."""
    render = ["groff", "-man", "-Tutf8", "-ww", "-k", "-P-c", "-rLL=1000n"]
    ran = subprocess.run(render, input=page, capture_output=True, encoding="utf-8")
    text = re.sub("\x1b\\[\\d*m|.\b", "", ran.stdout)
    tests.check("the man page renders without warnings", ran.returncode == 0 and ran.stderr == "" and "NAME" in text, ran.stderr)
    for name, options in helps.items():
        form = rf"^   sketches {name}\n(.*?)^(?:   )?\S" if name else r"^OPTIONS\n(.*?)^\S"
        part = re.search(form, text, re.MULTILINE | re.DOTALL)
        for words, said in options.items():
            entry = rf"^ +{re.escape(', '.join(words))}(?: [A-Z]+)?\s+{re.escape(said)}$"
            tests.check(f"{words} of '{name}' in the man page", part and re.search(entry, part[1], re.MULTILINE), part)
    for needed in ["DATASKETCHES_TABLE_KEY", "EXIT STATUS", "EXAMPLES", "$ sketches top --words -n 3 LICENSE"]:
        tests.check(f"{needed} in the man page", needed in text, text)


def check_bash(tests, helps):
    def completed(*words):
        got = tests.run(BASH.format(words=" ".join(shlex.quote(word) for word in words)), folder="/release/for files")
        return {line for line in (got or "failed").splitlines() if line}

    tests.check("the form of the completion of bash", tests.run("bash -n /usr/share/bash-completion/completions/sketches") == "")
    commands = set(helps) - {""} | {"help"}
    cases = [("the commands", ("",), commands | words_in(helps[""])), ("a command", ("to",), {"top"}),
             ("-", ("-",), words_in(helps[""])), ("help", ("help", ""), commands), ("a file", ("top", "-n", "3", "a "), {MARK}),
             ("a number", ("top", "-n", ""), set()), ("after --", ("top", "--", "-"), {"-x"}), ("no command", ("none", ""), set())]
    cases += [(f"options of {name}", (name, "-"), words_in(options)) for name, options in helps.items() if name]
    if ("--save",) in helps["top"]:
        cases += [("an image", ("top", "--save", "a"), {MARK}), ("an image after =", ("top", "--save", "=", "a"), {MARK})]
    for name, words, wanted in cases:
        got = completed("sketches", *words)
        tests.check(f"completion of bash: {name}", got == wanted, f"{got} {wanted}")


def check_fish(tests, helps):
    def completed(line, folder="/"):
        got = tests.run(f"fish -c {shlex.quote('complete -C ' + shlex.quote(line))}", folder) or ""
        return dict((it + "\t").split("\t")[:2] for it in got.splitlines())

    for name, line, wanted in [("the commands", "sketches ", set(helps) - {""} | {"help"}), ("a file", "sketches top a", {MARK}),
                               ("a number", "sketches top -n ", set())]:
        got = completed(line, "/release/for files")
        tests.check(f"completion of fish: {name}", set(got) == wanted, got)
    for name, options in helps.items():
        got = completed(f"sketches {name} -".replace("  ", " "))
        wanted = {word: text for words, text in options.items() for word in words}
        tests.check(f"completion of fish: options of '{name}'", got == wanted, got)


def check_zsh(tests, helps):
    """The completion of zsh is found by its name, and passes each option with its text to `_arguments`."""
    tests.check("the form of the completion of zsh", tests.run("zsh -n /usr/share/zsh/vendor-completions/_sketches") == "")
    got = tests.run("zsh -f -c 'autoload -U compinit && compinit -u -D && print $_comps[sketches]'")
    tests.check("the completion of zsh is found", got == "_sketches\n", got)
    for name, options in helps.items():
        got = tests.run(f"zsh -f -c {shlex.quote(ZSH.format(name=name))}") or ""
        found = re.findall(r"^\([^)]*\)(--?[\w-]+)[+=]?\[((?:[^]\\]|\\.)*)\]", got, re.MULTILINE)
        found = {word: re.sub(r"\\(.)", r"\1", text) for word, text in found}
        wanted = {word: text for words, text in options.items() for word in words}
        tests.check(f"completion of zsh: options of '{name}'", found == wanted, got)


def check(tests):
    printed, parts = help_of(tests)
    names = [words[0] for words in parts["Commands"] if words != ("help",)]
    helps = {"": parts["Options"], **{name: help_of(tests, name)[1]["Options"] for name in names}}
    tests.check("the help of sketches", "top" in names and all(("-h", "--help") in options for options in helps.values()), printed)
    page = tests.run("zcat /usr/share/man/man1/sketches.1.gz")
    check_page(tests, page or "", helps)
    os.mkdir(f"{tests.root}/release/for files")
    for name in [MARK, "-x"]:
        with open(f"{tests.root}/release/for files/{name}", "w", encoding="utf-8") as file:
            file.write("be to be\n")
    tests.prints("sketches of the package", f"sketches top --words '/release/for files/{MARK}'", "# error 0 of 3\n2\t2\tbe\n1\t1\tto\n")
    check_bash(tests, helps)
    tests.run("apt-get install zsh fish")
    check_fish(tests, helps)
    check_zsh(tests, helps)
