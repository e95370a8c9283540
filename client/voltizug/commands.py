"""The commands of `work`, by tools/commands.txt: what each takes and does, for help, TAB and sentences."""
import os
import re
from typing import Dict, List, NamedTuple, Sequence, Tuple

from .language import ITEMS, RESERVED

TABLE = os.path.join(os.path.dirname(os.path.realpath(__file__)), "..", "..", "tools", "commands.txt")
ENTRY = re.compile(r"^(?:at|block) ((\S+)(?: \[?(.*?)\]*)?) - (.+?)(?: \(at a terminal\))?$(?:\nmore (.+))?", re.M)
# These are for those who read rows, and help does not list them.
PROGRAMS, UNLISTED = "For programs", ("echo", "#")
# `takes` is what may follow the name, without brackets around it; `more` is for help COMMAND.
Command = NamedTuple("Command", [("usage", str), ("name", str), ("takes", str), ("does", str), ("more", str)])

with open(TABLE, encoding="utf-8") as table:
    GROUPS = {re.split("[:\n]", part)[0]: [Command(*found) for found in ENTRY.findall(part)] for part in table.read().split("\ngroup ")[1:]}
LISTED = [command for group, part in GROUPS.items() if group != PROGRAMS for command in part if command.name != "#"]
# (of two entries the first one tells what a command does)
COMMANDS: Dict[str, Command] = {command.name: command for command in sorted(reversed(LISTED), key=lambda command: command.name)}
# A block follows one of these and its name; and one of these alone.
BLOCKS, OPEN_BLOCKS = ("routine", "among", "grouping"), ("families", "replace")
# By a command what it names of a script.
NAMED = {"routine": ["routine"], "among": ["routine"], "grouping": ["grouping"], **dict.fromkeys(("define", "show", "uses"), ["routine", "grouping"])}
# Of the commands' words these are the language's, too.
LANGUAGE = [name for name in COMMANDS if name in RESERVED]
# A blank at the end of these may belong to a word.
WITH_TEXT = [name for name, command in COMMANDS.items() if command.takes in ("WORD", "TEXT", "STEM", "NAME [K [STRING")]
# Reports: they can be written to a file by > FILE, and have a pager. Rows for programs are some.
ROWS = "faults figures places text tokens".split()
REPORTING = "changes class classes counts families find history integers largest last lint script show stats stem stems".split()
REPORTING += ["events", "tests", "trace", "unused", "uses", "why", *ROWS]
# What comes before the name of a file; and what is said of a line that has none there.
WITH_FILE, REPORT = ("|".join(names) for names in ([name for name in COMMANDS if COMMANDS[name].takes == "FILE"], REPORTING))
BEFORE_FILE, QUOTED = ("(?:%s) " % WITH_FILE, r"(?:%s)(?:\s.*)?\s>\s*" % REPORT), r"""(["']).*\1(?:\s>.*|\s*)\Z"""
NO_FILE = [(before + QUOTED, "Names of files are written without quotes, blanks included, and nothing was done.") for before in BEFORE_FILE]
NO_FILE += [("(?!%s)%s[<>|]" % (REPORT, BEFORE_FILE[0]), "{c} takes the name of a file, without a sign before it: {usage}.")]
ALONE = "|".join(name for name in REPORTING if name not in COMMANDS or not COMMANDS[name].takes)
OF_WHOLE = "This looks like a script. replace takes a whole one, up to a line with a single point."
INTO_FILE = "A report goes into a file by > FILE, with blanks around the >, as in: classes > my.classes. There are no pipes here."
NO_FILE += [(r"(?!uses )(?:%s) (?:(?:.* )?(?:\||>>) .|.* >\Z)|(?:%s) (?:\||>>?)\Z" % (REPORT, ALONE), INTO_FILE)]
NO_FILE += [(r"help (?:.* )?[>|]", "help goes into no file: docs/REFERENCE.md describes all commands."), (r"integers \(", OF_WHOLE)]
# How a comment and a declaration of a script begin.
COMMENT, DECLARATION = r"\s*(//|/\*)", r"(%s)( |\Z)" % "|".join(word for word in ITEMS if word != "define")
# The commands of Snowball that are none of `work`.
OF_SCRIPT = [word for word in sorted(RESERVED) if word not in COMMANDS and word not in ITEMS and word.isalpha()]
# By the beginning of a line that is no command what is said of it. {c} is its first word.
IN_SHELL = {
    "check": "SCRIPT WORDS STEMS", "compare": "OLD NEW WORDS", "filter": "SCRIPT < WORDS", "run": "SCRIPT WORDS", "work": "SCRIPT WORDS",
    "page": "SCRIPT WORDS", "report": "OLD NEW WORDS", "session": "< SESSION", "doctor": "", "lsp": "",
}
STRANGE: Sequence[Tuple[str, str]] = (
    (".*[\udc80-\udcff]", "The line is not UTF-8. Set the terminal to UTF-8 and type it again."),
    (r"\s*\.\s*\Z", "A line with a single point ends a block, and no block is open."),
    (r"(q|:q|:q!|:wq|bye|exit!)( |\Z)", "quit or Ctrl-D ends."),
    (r":w( |\Z)", "save FILE writes the current script. quit or Ctrl-D ends."),
    (r"clear( |\Z)", "Ctrl-L clears the screen. quit or Ctrl-D ends."),
    (r"!|(sudo|cp|mv|rm|touch|mkdir|python3?|ls|cd|cat|vi|vim|nano|emacs|grep|less|git|man|tail|head|wc|(\S*/)?snowbench)( |\Z)", "{c} is a command of a shell: use another window."),
    (r"edit( |\Z)", "Change the script in your editor, and save it; or type routine NAME, among NAME K or grouping NAME, and the new text."),
    (r"(list|print|dump)( |\Z)", "stems lists the words and their stems, classes the classes, script the script."),
    (r"diff( |\Z)", "changes lists what differs from the mark."),
    (r"(reset|revert)( |\Z)", "undo takes an edit back; Enter reads the script again."),
    (r"(open|load|read|refresh)( |\Z)", "Enter reads the script again, words the words; replace FILE takes another script."),
    (r"steps( |\Z)", "why WORD shows how many steps its run takes; limit N sets how many a run may take."),
    (r"watch( |\Z)", "work --watch reads each save by itself. If this one does not, quit and start it so."),
    (r"warnings( |\Z)", "lint lists what may not be meant in the script and the words."),
    *((r"%s( |\Z)" % verb, ("{c} is not a command here. In a shell: {called} {c} %s" % files).rstrip() + ".") for verb, files in IN_SHELL.items()),
    (r"(%s)\s*>" % REPORT, INTO_FILE),
    (r"test \S", "tests WORD shows the tests of the run of a word."),
    (r"delete \S", "remove WORD takes a word out of the vocabulary."),
    (COMMENT, "A comment begins with # at the beginning of the line. replace takes a whole script, up to a line with a single point."),
    (r"\s*([\[\](')$]|(%s)( |\Z))" % "|".join(OF_SCRIPT), "This is no command, but of a script, perhaps, and no block is open: routine NAME, among NAME K or grouping NAME opens one."),
    (r"define( |\Z)", "A definition begins with define NAME as, or define NAME and the terms of a grouping, in one line."),
    (DECLARATION, OF_WHOLE),
)


def overview() -> List[str]:
    listed = [(group, [command.usage for command in part if command.name not in UNLISTED]) for group, part in GROUPS.items() if group != PROGRAMS]
    return [
        "An empty line reads the script again and shows what changed.",
        *("%-13s %s" % (group, ", ".join(usages)) for group, usages in listed),
        "Keys          TAB completes, Ctrl-R searches earlier lines; Ctrl-C drops the line or the block, or breaks off what runs; Ctrl-D ends",
        "To a file     a report and > FILE, as in: classes > my.classes",
        "help COMMAND describes one; docs/REFERENCE.md describes all.",
    ]
