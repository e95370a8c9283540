"""Makes the completions for bash, zsh and fish and the two manual pages, in tools/share, from tools/commands.txt.

    python3 tools/completions                    writes them
    python3 tools/completions --check [PROGRAM]  compares them with what is there, the commands of `work` with their definitions in crates/,
                                                 its options with those of the client, if there is one, and, with a program, the commands,
                                                 files and options with those that its --help lists

The status of --check is 1 if something differs; each difference is a line.
"""
import os
import re
import subprocess
import sys
from typing import Dict, Iterator, List, Set

import manual
import shells
from definition import Command, Definition, read

TOP = os.path.join(os.path.dirname(os.path.abspath(__file__)), "..", "..")
# The definitions in crates/ that name the commands of `work`, and how they do so.
DEFINITIONS = ("sbl_work/specs/Commands.antt", "sbl_sessions/specs/Commands.antt", "sbl_sessions/specs/Requests.antt")
COMMAND = re.compile(r'(?:quit_line = |bytes_eq (?:\(command_word line\)|line|word) \(|∷? ?\()codes "([a-z]+)"')


def read_text(*parts: str) -> str:
    """Returns the text of a file of the checkout, and nothing if there is none."""
    try:
        with open(os.path.join(TOP, *parts), encoding="utf-8") as file:
            return file.read()
    except FileNotFoundError:
        return ""


def files(definition: Definition) -> Dict[str, str]:
    """Returns each file that is made, with its text."""
    version = read_text("VERSION").strip()
    return {
        "snowbench.bash": shells.bash(definition),
        "_snowbench": shells.zsh(definition),
        "snowbench.fish": shells.fish(definition),
        "snowbench.1": manual.page_of_snowbench(definition, version),
        "snowbench-work.1": manual.page_of_work(definition, version),
    }


def write(made: Dict[str, str]) -> None:
    for name, text in made.items():
        with open(os.path.join(TOP, "tools", "share", name), "w", encoding="utf-8") as file:
            file.write(text)


def differing(made: Dict[str, str]) -> Iterator[str]:
    for name, text in made.items():
        if read_text("tools", "share", name) != text:
            yield "tools/share/%s is not what python3 tools/completions makes" % name


def missing_of_work(definition: Definition) -> Iterator[str]:
    """Yields the commands of `work` that only one of the table and the definitions has."""
    defined = {word for path in DEFINITIONS for word in COMMAND.findall(read_text("crates", path))}
    listed = set(definition.words_of_work()) - {"#", "define", "tests", "last", "lint", "rescue"}
    if not defined:
        yield "crates/ has no definitions of the commands of work"
    for word in sorted(defined ^ listed):
        yield "%s is a command of work only in %s" % (word, "crates/" if word in defined else "tools/commands.txt")


def strange_of_client(definition: Definition) -> Iterator[str]:
    """Yields the options of `work` that only one of the table and the client has."""
    listed = re.search(r'^HAS = "([^"]*)"', read_text("client", "voltizug", "options.py"), re.M)
    if listed:
        own = {option.name for command in definition.commands if command.name == "work" for option in command.options}
        for option in sorted(set(re.findall(r"--[a-z-]+", listed[1])) ^ own):
            yield "work: only one of tools/commands.txt and client/ has the option %s" % option


def help_of(program: str, *words: str) -> List[str]:
    done = subprocess.run([program, *words, "--help"], stdout=subprocess.PIPE, stderr=subprocess.STDOUT, check=False)
    return done.stdout.decode("utf-8", "replace").split("\n")


def part_of(lines: List[str], title: str) -> List[str]:
    """Returns the lines of a part of the help of a program."""
    begin = lines.index(title) + 1 if title in lines else len(lines)
    part = lines[begin:]
    return part[: part.index("")] if "" in part else part


def options_of(lines: List[str]) -> Set[str]:
    """Returns the options that a help lists, each with its value."""
    found = re.findall(r"^ +(?:-\w, )?(--[a-z-]+)(?: <(\w+)>)?", "\n".join(part_of(lines, "Options:")), re.M)
    return {" ".join(filter(None, pair)) for pair in found}


def strange_options(program: str, command: Command) -> Iterator[str]:
    """Yields the files and the options of a command that only one of the table and the program has."""
    lines = help_of(program, command.name)
    names = [line.split()[0].strip("<>[]") for line in part_of(lines, "Arguments:")]
    if names != [name for name, _ in command.files]:
        yield "%s takes the files %s" % (command.name, " ".join(names) or "none")
    own = {" ".join(filter(None, (option.name, option.value))) for option in command.options if option.name not in command.added}
    for option in sorted(options_of(lines) ^ (own | set(command.hidden) | {"--help"})):
        yield "%s: only one of tools/commands.txt and the program has the option %s" % (command.name, option)


def strange_commands(program: str, definition: Definition) -> Iterator[str]:
    """Yields where the table and the help of the program differ."""
    there = {line.split()[0] for line in part_of(help_of(program), "Commands:")} - {"help"}
    listed = {command.name for command in definition.commands if command.kind == "program"}
    for name in sorted(there ^ listed):
        yield "only one of tools/commands.txt and the program has the command %s" % name
    for command in definition.commands:
        if command.name in there & listed:
            yield from strange_options(program, command)


def main(words: List[str]) -> int:
    definition = read(os.path.join(TOP, "tools", "commands.txt"))
    if not words:
        write(files(definition))
        return 0
    if words[0] != "--check" or len(words) > 2:
        print(__doc__, file=sys.stderr)
        return 2
    found = [*differing(files(definition)), *missing_of_work(definition), *strange_of_client(definition)]
    found += [line for program in words[1:] for line in strange_commands(program, definition)]
    for line in found:
        print("tools/completions: " + line)
    return 1 if found else 0


if __name__ == "__main__":
    sys.exit(main(sys.argv[1:]))
