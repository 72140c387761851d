"""The program's table of commands and options, read from its help, and the rules of the options, found by running it with wrong arguments in an empty
folder."""
import functools
import re
import subprocess
import tempfile
from collections import namedtuple
from pathlib import Path

TOP = Path(__file__).resolve().parent.parent
PROGRAM = TOP / "release/itchsnap"
# The greatest number that an option can be given, and a word that is neither a number nor the name of an option.
MOST = 2**64 - 1
NO_NUMBER = "x"

# The help of the program: its first line, its topics with their commands and descriptions, its own options, and its exit codes.
Help = namedtuple("Help", "about topics options codes")
# A command: its description, the further paragraphs of its help, its usage, its positional arguments, its options by heading, and an example.
Command = namedtuple("Command", "name about details usage arguments groups example")
# An argument: its name, which is that of an option with its hyphens, the name of its value, its help, and the values from which one is chosen.
Argument = namedtuple("Argument", "name value help choices")


def run(program, *arguments):
    """Runs the program in an empty folder, without input or a password. Returns its status and its output or, if it failed, its error."""
    with tempfile.TemporaryDirectory() as folder:
        ran = subprocess.run([program, *arguments], cwd=folder, env={}, stdin=subprocess.DEVNULL, capture_output=True, text=True, timeout=60)
    return ran.returncode, ran.stderr if ran.returncode else ran.stdout


def parts(text):
    """Returns the parts of a help: each heading with its lines."""
    return {title: lines.splitlines() for title, lines in re.findall(r"^([A-Z][^:\n]*):\n((?:  .*\n|\n(?=  ))*)", text, re.M)}


@functools.cache
def program_help(program):
    _, text = run(program, "--help")
    its = {title: [re.split("  +", it.strip(), maxsplit=1) for it in lines] for title, lines in parts(text).items() if title != "Examples"}
    options, codes = its.pop("Options"), its.pop("Exit codes")
    return Help(text.split("\n")[0], its, options, codes)


def argument(lines):
    """Returns the argument that these lines of a long help describe."""
    name, value = re.fullmatch(r"(--[a-z-]+|[\[<][A-Z:]+[\]>])(?: <(\S+)>)?", lines[0].strip()).groups()
    said, choices = re.fullmatch(r"(.*?)(?: \[possible values: (.*)\])?", " ".join(" ".join(lines[1:]).split())).groups()
    return Argument(name.strip("[]<>"), value, said, choices.split(", ") if choices else [])


def arguments(lines):
    """Yields the arguments that a part of a long help describes."""
    starts = [at for at, line in enumerate(lines) if re.match(r" {2,6}\S", line)]
    for start, end in zip(starts, [*starts[1:], len(lines)]):
        yield argument(lines[start:end])


@functools.cache
def command(program, name):
    _, text = run(program, name, "--help")
    head, usage = re.fullmatch(r"(.*?)\n\nUsage: (.*?)\n\n.*", text, re.S).groups()
    about, *details = (" ".join(it.split()) for it in head.split("\n\n"))
    groups = {title: list(arguments(lines)) for title, lines in parts(text).items() if title not in ("Usage", "Help")}
    example = re.search(r"^Example: (.*)$", text, re.M)[1]
    return Command(name, about, details, [it.strip() for it in usage.splitlines()], groups.pop("Arguments", []), groups, example)


def commands(program):
    """Returns the commands, in the order of the help."""
    return [command(program, name) for its in program_help(program).topics.values() for name, _ in its if name != "help"]


def options(of):
    """Returns the options of a command, in the order of its help."""
    return [it for its in of.groups.values() for it in its]


def given(option):
    """Returns an option as it is given, with a value that can be read."""
    return f"{option.name}={option.choices[0] if option.choices else 1}" if option.value else option.name


def required(of, line):
    """Returns the words that a usage line of a command names, with values, and the names of the options among them."""
    choices = {it.name: it.choices for it in of.arguments}
    words, named = [], []
    for option, argument in re.findall(r"(--[a-z-]+)(?: <[^>]*>)?|[\[<]([A-Z:]+)[\]>]", line.replace("[OPTIONS]", "")):
        words.append(f"{option}=1" if option else (choices[argument] or ["1"])[0])
        named += [option] if option else []
    return words, named


def reason(program, *arguments):
    """Returns the first line of a usage error, without 'error: ', and the indented lines after it. If there is another error or none, nothing."""
    status, said = run(program, *arguments)
    if status != 2 or not said.startswith("error: "):
        return "", []
    first, *rest = said.split("\n\n")[0].splitlines()
    return first.removeprefix("error: "), [it.strip() for it in rest]


def are_exclusive(program, name, *words):
    return "cannot be used with" in reason(program, name, *words)[0]


@functools.cache
def exclusions(program, name):
    """Returns the pairs of options of a command that cannot be combined, in the order of the help."""
    its = options(command(program, name))
    return [(one.name, other.name) for at, one in enumerate(its) for other in its[at + 1:] if are_exclusive(program, name, given(one), given(other))]


@functools.cache
def needs(program, name):
    """Returns the pairs of options of a command in which the first is an error without the second."""
    its = command(program, name)
    words, named = required(its, its.usage[0])
    found = []
    for option in options(its):
        said, missing = reason(program, name, *words, given(option)) if option.name not in named else ("", [])
        if said.startswith("the following required arguments were not provided"):
            found += [(option.name, it.split()[0]) for it in missing if it.split()[0] != option.name]
    return found


@functools.cache
def may_be_repeated(program, name, option):
    return "cannot be used multiple times" not in reason(program, name, f"{option}=1", f"{option}=1")[0]


@functools.cache
def number_range(program, name, option):
    """Returns the least and the greatest number of an option, or nothing if its value is not a number."""
    if "invalid digit found" not in reason(program, name, f"{option}={NO_NUMBER}")[0]:
        return None
    found = re.search(r"is not in (\d+)\.\.=(\d+)$", reason(program, name, f"{option}={MOST}", f"--{NO_NUMBER}")[0])
    return (int(found[1]), int(found[2])) if found else (0, MOST)
