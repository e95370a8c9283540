"""The command line of `work` at a terminal."""
import getopt
import os
import re
from typing import NamedTuple, Optional, Sequence

from .near import meant

HAS = "It has --watch, --rows, --text, --color WHEN, --no-pager, --families FILE, --external NAME, --from TEXT and --stop FILE"
FLAGS, VALUES = ("--watch", "--no-pager", "--rows", "--text"), ("--program", "--color", "--families", "--external", "--from", "--stop")
THIRD = "Stems are for mark FILE and families for families FILE, at its prompt"
COMMANDS_COME = "Its standard input has the commands"
# How the reader calls the launcher.
CALLED = os.environ.get("SNOWBENCH_CALLED") or "./snowbench"


class Misuse(Exception):
    """What is wrong with the command line, as sentences, each of which is a line."""


class Options(NamedTuple):
    """`passed` are those for the program."""

    program: str
    script: str
    words: Optional[str]
    is_watching: bool = False
    has_pager: bool = True
    color: str = "auto"
    has_rows: bool = False
    passed: Sequence[str] = ()
    families: str = ""


def usual_program() -> str:
    top = os.path.dirname(os.path.dirname(os.path.dirname(os.path.realpath(__file__))))
    return os.environ.get("SNOWBENCH_PROGRAM") or os.path.join(top, "dist", "snowbench-x86_64-linux")


def options_of(given: Sequence[str], is_terminal: bool = False) -> Options:
    try:
        pairs, files = getopt.gnu_getopt(list(given), "", [*(name[2:] for name in FLAGS), *(name[2:] + "=" for name in VALUES)])
    except getopt.GetoptError as why:
        if why.msg.endswith("requires argument"):
            raise Misuse("--%s needs a word after it" % why.opt) from None
        wrong = next(word for word in given if re.match("--?" + re.escape(why.opt), word))
        question = meant(wrong.partition("=")[0], re.findall("--[a-z-]+", HAS)).strip()
        raise Misuse("work has no option %s. %s" % (wrong, HAS), *[question] * bool(question)) from None
    found = dict(pairs)
    external, color = found.get("--external", "stem"), found.get("--color", "auto")
    for is_wrong, why in (
        (not re.fullmatch(r"[A-Za-z][A-Za-z0-9_]*", external), "--external takes the name of an external, and %s is not a name" % external),
        (color not in ("auto", "always", "never"), "--color takes auto, always or never, and not %s" % color),
        (is_terminal and "--rows" not in found and {"--from", "--stop"} & found.keys(), "--from and --stop are for programs: they need --rows at a terminal"),
        ("--families" in found and (not is_terminal or "--rows" in found), "--families is for a prompt: a program types families FILE"),
        (not files, "work needs a script"),
        (len(files) > 2, "work takes a script and a list of words, and no third file: %s. %s" % ("".join(files[2:3]), THIRD)),
        ("-" in files and not os.path.exists("-"), "work reads a script and words from files, and there is no file -. " + COMMANDS_COME),
    ):
        if is_wrong:
            raise Misuse(why)
    passed = [word for word in ("--rows", "--text") if word in found]
    passed += [part for key in ("--external", "--from", "--stop") if key in found for part in (key, found[key])]
    return Options(
        found.get("--program") or usual_program(), files[0], "".join(files[1:]) or None,
        "--watch" in found, "--no-pager" not in found, color, "--rows" in found, passed, found.get("--families", "")
    )
