"""Reads tools/commands.txt: the commands of the command line, and those of `work`."""
from dataclasses import dataclass, field
from typing import Dict, Iterator, List, Tuple


@dataclass
class Option:
    """An option; `value` is empty if it takes none."""

    name: str
    value: str
    text: str


@dataclass
class Command:
    """A command of the command line. `kind` is program, launcher or checkout."""

    name: str
    kind: str = "program"
    does: str = ""
    uses: List[str] = field(default_factory=list)
    files: List[Tuple[str, str]] = field(default_factory=list)
    options: List[Option] = field(default_factory=list)
    added: List[str] = field(default_factory=list)
    hidden: List[str] = field(default_factory=list)
    notes: List[str] = field(default_factory=list)
    example: List[str] = field(default_factory=list)
    writes: List[str] = field(default_factory=list)
    page: str = ""

    def synopses(self) -> List[str]:
        """Returns how it is called: its options, then what it takes."""
        options = "".join(" [%s]" % " ".join(filter(None, (option.name, option.value))) for option in self.options)
        return [(self.name + options + " " + use).rstrip() for use in self.uses]


@dataclass
class Group:
    """Commands of `work` that belong together: each with its arguments, and what it does."""

    title: str
    commands: List[Tuple[str, str]] = field(default_factory=list)


@dataclass
class Definition:
    commands: List[Command] = field(default_factory=list)
    groups: List[Group] = field(default_factory=list)

    def installed(self) -> List[Command]:
        """Returns the commands that need no checkout."""
        return [command for command in self.commands if command.kind != "checkout"]

    def words_of_work(self) -> List[str]:
        return [use.split()[0] for group in self.groups for use, _ in group.commands]


def lines_of(path: str) -> Iterator[Tuple[str, str]]:
    """Yields each key with its text."""
    with open(path, encoding="utf-8") as file:
        for line in file:
            if line.strip() and not line.startswith("#"):
                key, _, text = line.rstrip("\n").partition(" ")
                yield key, text


def add_option(command: Command, text: str) -> None:
    name, value, meaning = text.split(" ", 2)
    command.options.append(Option(name, "" if value == "-" else value, meaning))


def add_line(command: Command, key: str, text: str) -> None:
    """Takes a line of a command."""
    lists: Dict[str, List[str]] = {"use": command.uses, "note": command.notes, "hidden": command.hidden, "example": command.example, "writes": command.writes}
    if key in lists:
        lists[key].append(text)
    elif key in ("option", "added"):
        add_option(command, text)
        command.added += [command.options[-1].name] if key == "added" else []
    elif key == "file":
        name, _, meaning = text.partition(" ")
        command.files.append((name, meaning))
    elif key in ("kind", "does", "read"):
        setattr(command, "page" if key == "read" else key, text)
    else:
        raise ValueError("no key of a command: %s" % key)


def read(path: str) -> Definition:
    """Returns what a file defines. Raises ValueError at a key that it does not know."""
    definition = Definition()
    for key, text in lines_of(path):
        if key == "command":
            definition.commands.append(Command(text))
        elif key == "group":
            definition.groups.append(Group(text))
        elif key in ("at", "block"):
            use, _, meaning = text.partition(" - ")
            definition.groups[-1].commands.append((use, meaning))
        elif key == "more":
            use, meaning = definition.groups[-1].commands.pop()
            definition.groups[-1].commands.append((use, "%s. %s" % (meaning, text)))
        else:
            add_line(definition.commands[-1], key, text)
    return definition
