"""The manual pages snowbench(1) and snowbench-work(1), in the macros of man."""
from typing import Iterable, List, Tuple

from definition import Command, Definition

MADE = '.\\" Made by tools/completions from tools/commands.txt: change that.\n'


def plain(text: str) -> str:
    """Returns a text as roff shows it: no character of it is a command."""
    escaped = text.replace("\\", "\\e").replace("-", "\\-").replace("'", "\\(aq").replace("^", "\\(ha").replace("~", "\\(ti").replace("`", "\\(ga")
    return "\\&" + escaped if escaped.startswith((".", "\\(aq")) else escaped


def bold(text: str) -> str:
    return "\\fB%s\\fR" % plain(text)


def section(title: str, *paragraphs: str) -> str:
    return ".SH %s\n%s\n" % (plain(title), "\n.PP\n".join(paragraphs))


def rows(pairs: Iterable[Tuple[str, str]]) -> str:
    """Returns a list: each name with its text below it."""
    return "".join(".TP\n%s\n%s\n" % (bold(name), plain(text)) for name, text in pairs)


def literal(lines: Iterable[str]) -> str:
    """Returns lines as they are."""
    return ".PP\n.RS 4\n.nf\n%s\n.fi\n.RE\n" % "\n".join(map(plain, lines))


def head(name: str, version: str) -> str:
    return MADE + '.TH %s 1 "" "Voltizug %s" "User Commands"\n.nh\n.ad l\n' % (plain(name.upper()), plain(version))


def option_rows(command: Command) -> List[Tuple[str, str]]:
    return [*command.files, *((" ".join(filter(None, (option.name, option.value))), option.text) for option in command.options)]


def example(command: Command) -> str:
    if not command.example:
        return ""
    return literal(command.example) + ".PP\nwrites\n" + literal(command.writes)


def section_of(command: Command) -> str:
    """Returns the part of the page on one command."""
    uses = "\n.br\n".join(bold("snowbench " + use) for use in command.synopses())
    notes = "".join(".PP\n%s\n" % plain(note) for note in command.notes)
    return ".SS %s\n%s\n.PP\n%s.\n%s%s" % (plain(command.name), uses, plain(command.does[0].upper() + command.does[1:]), rows(option_rows(command)), notes)


def page_of_snowbench(definition: Definition, version: str) -> str:
    """Returns the page on the command line."""
    commands = definition.installed()
    return (
        head("snowbench", version)
        + section("NAME", "snowbench \\- workbench for authors of Snowball stemmers")
        + section("SYNOPSIS", "%s \\fICOMMAND\\fR [\\fIOPTION\\fR ..] [\\fIFILE\\fR ..]" % bold("snowbench"))
        + section(
            "DESCRIPTION",
            plain("Runs a Snowball stemmer over a list of words, and shows the stems, the classes of words that share a stem, and what each change of the script changes."),
            plain("Without a command it says what to do first. To work on a script, begin with")
            + "\n" + bold("snowbench work SCRIPT WORDS") + "\n" + plain("and look into") + "\n.BR snowbench\\-work (1)."
        )
        + section("COMMANDS")
        + "".join(map(section_of, (command for command in commands if not command.name.startswith("-"))))
        + section("OPTIONS")
        + rows((command.name, command.does) for command in commands if command.name.startswith("-"))
        + section("EXIT STATUS", plain("0, 1 or 2, as each command says. After a signal it is 128 and the number of the signal."))
        + section("ENVIRONMENT")
        + rows([("SNOWBENCH_PROGRAM", "a program to run in the place of the one that is installed")])
        + section("EXAMPLE")
        + example(next(command for command in commands if command.name == "run"))
        + section("SEE ALSO", ".BR snowbench\\-work (1)", plain("snowbench help COMMAND shows an example of each command. snowbench doctor says what is installed, and what is missing."))
    )


def page_of_work(definition: Definition, version: str) -> str:
    """Returns the page on `work` and its commands."""
    work = next(command for command in definition.commands if command.name == "work")
    groups = "".join(".SS %s\n%s" % (plain(group.title), rows(group.commands)) for group in definition.groups)
    return (
        head("snowbench-work", version)
        + section("NAME", "snowbench\\-work \\- commands over a Snowball script and words, and what each change changes")
        + section("SYNOPSIS", "\n.br\n".join(bold("snowbench " + use) for use in work.synopses()))
        + section("DESCRIPTION", *map(plain, work.notes))
        + section("OPTIONS")
        + rows(option_rows(work))
        + section("COMMANDS", plain("In a pipe each reply is rows; at a terminal it is laid out for people."))
        + groups
        + section("EXAMPLE")
        + example(work)
        + section("SEE ALSO", ".BR snowbench (1)")
    )
