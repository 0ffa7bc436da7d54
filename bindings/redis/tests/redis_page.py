"""The page's commands and their replies, as redis-cli prints them."""
import os
import re
import subprocess

PAGE = os.path.join(os.path.dirname(os.path.dirname(os.path.abspath(__file__))), "README.md")


def examples():
    """Returns the commands of the page with their replies: lines that begin with '>' in indented blocks."""
    with open(PAGE, encoding="utf-8") as file:
        lines = [line[4:].rstrip("\n") for line in file if line.startswith("    ")]
    found = []
    for line in lines:
        if line.startswith("> "):
            found.append((line[2:], []))
        elif found and line and not line.startswith(("apt", "loadmodule", "$", "sudo")):
            found[-1][1].append(line)
    return found


def run_examples(run):
    """Runs each command by a function that returns the output of redis-cli. Returns those that differ."""
    wrong = []
    for command, wanted in examples():
        got = run(command)
        if re.sub(r"\s+", " ", got).strip() != re.sub(r"\s+", " ", " ".join(wanted)).strip():
            wrong.append((command, wanted, got))
    return wrong


def page_commands(tests):
    with tests.server("page") as on:

        def run(command):
            return subprocess.run(
                ["redis-cli", "--no-raw", "-s", on.socket], input=command + "\n", capture_output=True, text=True, check=True
            ).stdout

        wrong = run_examples(run)
    tests.check("the commands of the page", not wrong, wrong)
    tests.check("the page has ten commands", len(examples()) >= 10, len(examples()))
