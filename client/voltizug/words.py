"""The sentences: what is said after a refusal and with an edit, mostly by one table. It knows no terminal."""
import errno
import os
import re
import shlex
import tempfile
from typing import Callable, Dict, Sequence, Tuple

from .bench import Bench, Stage
from .commands import COMMANDS, NAMED, OPEN_BLOCKS, STRANGE
from .kept import is_same, read_file, read_lines
from .layout import counted, in_quotes, in_words, named, short
from .near import composed, folded, meant, near, odd_letter
from .places import Places
from .options import CALLED
from .program import Reply, encoded

# By the number of a refusal its sentence, if there is more to say than that nothing changed. {c} is the command, {a} what follows it.
SENTENCES: Dict[int, str] = {
    40: "{a} is in the vocabulary already.",
    43: "A word may have 255 characters at most.",
    44: "The vocabulary has 100,000 words, and takes no more. remove WORD makes room.",
    49: "There was not enough memory. Nothing changed; you can try again.",
    50: "The count of runs is at its end. Start again.",
    51: "A limit is a number from 1 to 10,000,000, such as limit 1000.",
    54: "There is no edit to undo.",
    55: "There is no edit to redo.",
    56: "{c} needs a number above 0, such as {c} 10.",
    58: '{name} has no string "{string}" in among {k}. counts lists the strings.',
    68: "It was broken off. Nothing changed.",
    69: "There are no added words that no file has.",
    72: "A line may have 65,536 bytes at most. Nothing was done.",
}
# What is in words of UTF-8 that were read as Latin-1, and written as UTF-8.
MISREAD = re.compile("[\u00c2-\u00df][\u0080-\u00bf]")
# Faults of the words, and what is said of them.
OF_WORDS: Dict[int, str] = {
    43: "{name} has a word of more than 255 characters.",
    44: "{name} has more than 100,000 words. To work with some of them: shuf -n 100000 {quoted} > NEW, and start with NEW.",
    72: "{name} has a line of more than 65,536 bytes.",
    75: "{name} is not UTF-8.",
}
# By what was done to the words last what is said of `undo`, which takes back edits of the script alone.
WORDS_AFTER = {"add": " remove WORD takes an added word out.", "remove": " add WORD puts a word back, as the last one."}
# Why `save`, `approve` or `append` does not write to a file. {other} is what to do, {new} the same with a new file.
MAY_NOT: Dict[str, str] = {
    "there": "{path} is there already, and {c} does not overwrite it. Nothing was written: {new}, or delete that one first.",
    "again?": "{path} is there already. Nothing was written: the same line again overwrites it.",
    "others": "{path} was changed since {c} wrote it. Nothing was written: {new}.",
    "words": "{path} has the words, and {c} does not overwrite it. Nothing was written: {other}.",
    "script": "{path} has the script, and {c} does not overwrite it. Nothing was written: {other}.",
    "changed": "{path} has changed since it was read, and was not overwritten. Enter reads it again; {other} to keep both.",
    "refused?": "{path} has a text that was refused. Nothing was written: correct it there{then}, or save {path} again overwrites it.",
    "undone?": "{path} has a change that the current script lacks. Nothing was written: Enter reads it again, save {path} again overwrites it.",
    "no words": "{path} is there already, and append puts words only into the file of words or a new file.",
    "gone": "{path} is not there any more, and was not written: {other}.",
    "gone?": "{path} is not there any more (deleted or renamed). Nothing was written: save {path} again writes it anew.",
    "no folder": "{path} cannot be written: there is no folder {folder}.{one}",
    "folder": "{path} cannot be written: it is a folder. Name a file in it.",
    "pipe": "{path} cannot be written: it is no regular file. {Other}.",
    "closed": "{path} cannot be written: you may not write there. {Other}.",
    "full": "{path} cannot be written: {room}.",
    "full, there": "{path} cannot be written: {room}. It has its former text.",
}
# What is said of a file that is watched and gone.
GONE: Dict[str, str] = {
    "script": "{path} is gone (deleted or renamed). The current script stays: save FILE writes it. When {path} is there again, it is read.",
    "words": "{path} is gone (deleted or renamed). The words that were read stay.",
    "waiting": "{path} is gone (deleted or renamed). It is read when it is there again.",
}
NOTES: Dict[str, str] = {
    "unchanged": "{script} has not changed since it was read.",
    "same": "{script} has the current script.",
    "fault gone": "The fault is gone: {script} has the current script again.",
    "undone in file": "{script} still has what undo took back: Enter reads it again.",
    "refused in file": "{script} has a text that was refused, or whose runs were broken off.",
    "the same script": "The script has this already, so undo does not count it.",
    "the same tokens": "The script has the same tokens, so undo does not count this. Its blanks and comments are as you typed them now.",
    "limit": "Each run may use {limit} now.",
    "the same limit": "Each run may use {limit} already, so undo does not count it.",
}
# What is said of a block whose text begins in its first line.
ON_LINES = 'the text goes on the lines after it, and a line with a single point ends it. Type only "%s" first.'
REFUSALS: Dict[str, str] = {
    "Slice": "delete, <- or -> found the left end of the slice right of its right end, or the right end beyond the limit. Look for a [ or ] that "
    "is missing before it, or in the wrong order: forwards [ sets the left end, backwards the right end.",
    "Cursor": "the cursor would be outside the text, or insert, <+ or attach found it beyond the limit. Look for a delete or <- that makes the text "
    "shorter before a command puts the cursor back (do, test, not, try, or, and, repeat, goto, backwards) or sends it to a limit.",
    "Integer": "a number would be below -2147483648 or above 2147483647. Look for a $ or a hop, loop, atleast, tomark or atmark with arithmetic.",
    "Divide": "a number would be divided by 0. Look for a / or /=.",
    "TooLong": "the text would have more than 1,024 characters. Look for <+, insert, attach or <- in a repeat or a loop.",
}


class Refused(Exception):
    """What somebody asked a face for cannot be done: a sentence says why."""


def sentence(reply: Reply, lines: Sequence[str], bench: Stage) -> str:
    code = (reply.refusal() or (0, ""))[0]
    if code in (47, 48) and len(lines) > 2:
        return "Nothing changed. The up arrow brings the block back."
    return refused(code, lines[0], bench)


def refused(code: int, line: str, bench: Stage) -> str:
    command, _, argument = line.partition(" ")
    if code in (41, 42, 45, 53) and not argument:
        return "%s needs a %s: %s." % (command, COMMANDS[command].takes.partition(" ")[0].lower(), COMMANDS[command].usage)
    if code in OF_WORDS and code != 75 and command == "words" and isinstance(bench, Bench):
        path = bench.words or ""
        return OF_WORDS[code].format(name=short(path), quoted=in_shell(path)).removesuffix(".") + ". The words that were read stay."
    if code in SPECIAL:
        return SPECIAL[code](line, bench)
    name, k, string = [*argument.split(" ", 2), "", ""][:3]
    return SENTENCES.get(code, "Nothing changed.").format(c=command, a=short(argument), k=k, string=short(string), name=short(name))


def file_of(line: str, bench: Stage) -> str:
    return (bench.words if line == "words" else line.partition(" ")[2] or bench.script) or ""


def absent(line: str, bench: Stage) -> str:
    command, _, word = line.partition(" ")
    words, form = bench.by_word(), folded(word)
    same = [other for other in words if folded(other).strip() == form.strip()]
    is_other = not same or composed(word) in map(composed, same)
    question = meant(word, words) if is_other else " Did you mean %s?" % in_words(same[:4], "or")
    if command == "class" and bench.known("stem " + word) is not None:
        return "%s is a stem and no word: stem %s shows its words." % (in_quotes(word), short(word))
    ways = ['"why {0}" shows how it would be stemmed'] * (not question and command not in ("remove", "why"))
    # (an editor, which has a Stage, adds no words)
    ways += ['"add {0}" adds it'] * (isinstance(bench, Bench) and not same and command in ("class", "trace") and " " not in word)
    then = " %s." % ", ".join(ways).format(short(word)) if ways and word == word.strip() else ""
    return "%s is not in the vocabulary.%s%s%s" % (in_quotes(word), question, odd_in(word), then)


def odd_in(word: str) -> str:
    """Returns the sentence on a letter of a word that is of another alphabet; nothing if there is none."""
    odd = odd_letter(word)
    return " It has %s." % odd if odd else ""


def misspelt(word: str, bench: Bench) -> str:
    """Returns that a word is not in the vocabulary, with a question if it is near one that is; otherwise nothing."""
    if not bench.size or bench.known("class " + word) is not None:
        return ""
    is_many = " It was run as one word, with a blank in it." * (" " in word.strip())
    question = is_many or meant(word, bench.by_word())
    return "%s is not in the vocabulary.%s%s" % (in_quotes(word, " " in word), question, odd_in(word))


def no_class(line: str, bench: Stage) -> str:
    stem = line.partition(" ")[2]
    how = " It is a word: why %s shows its stem." % short(stem) if stem in bench.by_word() else ""
    how = how or " find %s shows the words and stems that have it in them." % short(stem) * bool(bench.known("find " + stem))
    how = how or meant(stem, dict.fromkeys(row.stem for row in bench.outcomes() if row.kind == "stem"))
    return "No word has the stem %s.%s" % (in_quotes(stem), how) if stem else "stem needs a stem: stem STEM. No word has the empty one."


def lines_and_words(path: str, count: int) -> str:
    return "%s has %s, and there are %s" % (short(path), counted(len(read_lines(path)), "line"), counted(count, "word"))


def no_stem(_: str, bench: Stage) -> str:
    refused = [row.word for row in bench.outcomes() if row.kind == "refused"]
    if not refused:
        return "A stem has a line feed, or ends in a carriage return, and is not one line. Nothing was written."
    more = " and of {:,} more".format(len(refused) - 1) if len(refused) > 1 else ""
    said = "The run of %s%s is refused, so there is no stem to write: why %s shows where. Nothing was written."
    return said % (in_quotes(refused[0]), more, short(refused[0]))


def no_name(line: str, bench: Stage) -> str:
    command, _, argument = line.partition(" ")
    places, kinds, name = bench.places(), NAMED[command], argument.partition(" ")[0]
    kind, there, begin = places.kind(name), places.of_kind(*kinds), "%s %s: " % (command, short(name))
    if name in there and command != "uses":
        return "show takes one name." if command == "show" else begin + ON_LINES % ("%s %s" % (command, short(name)))
    if kind:
        use = 'grouping, and has no among. Use "uses %s".' if command == "uses" else kind + '. Use "' + kind + ' %s".'
        return begin + "this is a " + use % short(name)
    if any(row.kind == "integer" and row.name == name for row in bench.read("integers a")):
        return "%sthis is an integer variable, and no %s. integers WORD shows its value at the end of a run." % (begin, kinds[0])
    entry = is_string(argument, places) if command == "uses" else ""
    if entry:
        return entry
    bare = re.sub(r"\Anon[-_]?", "", name)
    question = meant(name, there) or " Did you mean %s?" % short(bare) * (bare in there)
    others = " The script has %s." % (in_words(there, "and") if there else "none")
    others += " Declare and define a new one in the file." if command in ("routine", "grouping") else ""
    return "%sthere is no %s of this name.%s" % (begin, " or ".join(kinds), question or others)


def is_string(text: str, places: Places, name: str = "") -> str:
    """Returns the sentence on a text that is a string of an among, of that definition if it is named; otherwise nothing."""
    entry = next((key for key in places.entries if name in ("", key[0]) and text in (key[2], "'%s'" % key[2])), None)
    return "%s is a string of an among: uses %s %s %s." % (short(text), *map(short, entry)) if entry else ""


def amongs_of(line: str, bench: Stage) -> str:
    name = line.split(" ")[1]
    count = bench.places().count(name)
    if not count:
        return "%s has no among." % short(name)
    numbers = "1" if count == 1 else "1 or 2" if count == 2 else "1 to %d" % count
    return "%s has %s, so K is %s (those inside others count, too)." % (short(name), counted(count, "among"), numbers)


def unknown(line: str, bench: Stage) -> str:
    """The sentence for what is no command, or one that lacks something or has too much."""
    command, _, argument = line.partition(" ")
    if strange(line):
        return strange(line)
    if command in ("among", "uses"):
        (name, _, string), places = argument.partition(" "), bench.places()
        entry = is_string(string, places, name) if command == "uses" else ""
        known = " " + amongs_of(line, bench) if places.kind(name) == "routine" else ""
        if entry:
            return entry
        if command == "among" and known and (number := re.match(r"[0-9]+ ", string)):
            begin = "among %s %s" % (short(name), number[0].strip())
            return "%s: %s" % (begin, ON_LINES % begin)
        if known.endswith("no among."):
            return known.strip() + ' Use "uses %s".' % short(name) * (command == "uses")
        lacks = "a number" if known else "a name and a number" if command == "among" else "a name"
        usage = "among NAME K, then an among, then a line with a single point" if command == "among" else COMMANDS["uses"].usage
        return "%s needs %s: %s.%s" % (command, lacks, usage, known)
    if command in COMMANDS:
        other = {"classes": "class WORD", "stems": "find TEXT", "counts": "uses NAME", "script": "show NAME"}.get(command, "")
        said = "%s takes nothing after it." % command + " For a part of it: %s." % other * bool(other)
        return "%s needs more: %s." % (command, COMMANDS[command].usage) if COMMANDS[command].takes else said
    if line and bench.known("class " + line) is not None:
        return "%s is a word: why %s shows its way to its stem. help lists the commands." % (short(line), short(line))
    return no_command(line)


def strange(line: str, table: Sequence[Tuple[str, str]] = STRANGE) -> str:
    """The sentence of a table for a line: of this one, if it is another thing than a command. Nothing if that is not known."""
    command, said = line.partition(" ")[0], next((said for begins, said in table if re.match(begins, line)), "")
    return said.format(c=command, called=named(CALLED), usage=COMMANDS[command].usage if command in COMMANDS else "")


def no_command(line: str) -> str:
    command = line.partition(" ")[0]
    longer = [name for name in COMMANDS if name.startswith(command.casefold())] if command else []
    question = meant(command, COMMANDS if command.isascii() else ()) or (" Did you mean %s?" % in_words(longer, "or") if 0 < len(longer) < 4 else "")
    return strange(line) or "%s is not a command.%s help lists the commands." % (short(command or line.strip()), question)


def bad_file(line: str, bench: Stage) -> str:
    command, _, argument = line.partition(" ")
    if command in ("save", "approve", "append"):
        return not_written(command, argument, bench)
    if command == "words" and not bench.words:
        return "There is no file of words: add WORD adds a word."
    path = file_of(line, bench)
    # (after `reload` another file is no question: SCRIPT stays the file)
    if command == "words":
        return "%s cannot be read: %s. The words that were read stay." % (short(path), unreadable(path).partition(".")[0])
    why = unreadable(path) if command != "reload" else unreadable(path).partition(".")[0] + ". The script that was read stays: save FILE keeps it."
    return "%s cannot be read: %s" % (short(path), why)


def not_written(command: str, path: str, bench: Stage) -> str:
    """Why `save`, `approve`, `append` or a report, which may write to a file, could not."""
    if command == "append" and not path and not bench.words:
        return "There is no file of words: append FILE writes a new one."
    path = path or (bench.words or "" if command == "append" else "")
    if not path:
        return "%s needs a file: %s%s." % (command, COMMANDS[command].usage, ", such as save " + short(bench.script) if command == "save" else "")
    if command == "append" and os.path.exists(path) and not is_same(path, bench.words):
        return may_not("no words", command, path)
    is_changed = path in bench.saved() or is_same(path, bench.script)
    return may_not("changed" if is_changed else "full, there" if os.path.exists(path) else "full", command, path)


def no_room(folder: str) -> str:
    """Returns why no file can be written in a folder, as far as that is known."""
    try:
        with tempfile.TemporaryFile(dir=folder, buffering=0) as file:
            file.write(bytes(1 << 16))
        return "perhaps the disk is full"
    except OSError as why:
        return why.strerror


def unreadable(path: str) -> str:
    reasons = {errno.ENOENT: "there is no such file", errno.EISDIR: "it is a folder", errno.EACCES: "you may not read it"}
    try:
        # (a pipe that nobody writes to is not waited for)
        with os.fdopen(os.open(path, os.O_RDONLY | os.O_NONBLOCK), "rb") as file:
            file.read(1)
        return "but now it can be. Try again." if os.path.isfile(path) else "it is no regular file."
    except (OSError, ValueError) as why:
        code, (folder, name) = getattr(why, "errno", errno.ENOENT), os.path.split(path)
        others = os.listdir(folder or ".") if code == errno.ENOENT and os.path.isdir(folder or ".") else []
        found = [os.path.join(folder, other) for other in near(name, others)]
        question = " Did you mean %s?" % in_words(found, "or") if found else meant(name, others)
        return reasons.get(code, os.strerror(code)) + ("." + question if question else "")


def in_shell(path: str) -> str:
    return named(shlex.quote("./" + path if path.startswith("-") else path))


def converting(path: str) -> str:
    """Returns how a file that is not UTF-8 becomes it, by its bytes."""
    data, name = read_file(path) or b"", in_shell(path)
    # (in Cyrillic and Greek such letters come one after another, but in a list of vowels, too; some of other encodings are signs in Latin-1)
    runs = re.findall("[\udc80-\udcff]+", data.decode("utf-8", "surrogateescape"))
    beyond, mark = encoded("".join(runs)).decode("latin1"), re.match(b"(\xff\xfe\0\0|\0\0\xfe\xff)|\xff\xfe|\xfe\xff", data)
    is_latin = beyond.isalpha() and sum(len(run) > 1 for run in runs) * 2 < len(runs)
    code, what = ("latin1", "it is Latin-1") if is_latin else ("ENCODING", "its encoding is ENCODING, such as latin1, cp1250 or koi8-r")
    if mark or 4 * data.count(0) > len(data):
        code = ("utf-32" if mark[1] else "utf-16") if mark else "utf-16le" if data[::2].count(0) < data[1::2].count(0) else "utf-16be"
        what = "it is " + code.upper()
    other = " In another encoding put its name for latin1, such as cp1257 (iconv -l lists them)." * (code == "latin1")
    return "If %s: iconv -f %s -t utf-8 %s > NEW.%s Then, if NEW is right: mv NEW %s" % (what, code, name, other, name)


def early(line: str, bench: Bench) -> str:
    """Returns what is wrong with the line before a block, so that it opens none. The program says so of an empty block, too."""
    if line in OPEN_BLOCKS:
        return ""
    code, (command, name) = (bench.ask(line, ".").refusal() or (0, ""))[0], [*line.split(" ", 2), ""][:2]
    if command == "among" and name and bench.places().kind(name) != "routine":
        # (a name begins with a letter, and the text of an among does not)
        code = 45 if name[0].isalpha() else 52
    return refused(code, line, bench) if code in (45, 46, 52, 53) else ""


def may_not(why: str, command: str, path: str, then: str = "") -> str:
    """Returns why a command does not write to a file, by its key in MAY_NOT."""
    to, folder = "save to %s file" if command == "save" else "name %s file", os.path.dirname(path) or "."
    room = no_room(folder) if "{room}" in MAY_NOT[why] else ""
    other, new, one = to % "another", to % "a new", " It is taken as one name, with a blank in it." * (" " in folder)
    return MAY_NOT[why].format(
        path=short(path), c=command, other=other, Other=other.capitalize(), new=new, then=then, folder=short(folder), room=room, one=one
    )


# By the number of a refusal what makes its sentence of the line and the bench.
SPECIAL: Dict[int, Callable[[str, Stage], str]] = {
    54: lambda _, bench: SENTENCES[54] + WORDS_AFTER.get("".join(bench.program.now.words[-1:]).partition(" ")[0], ""),
    75: lambda line, bench: "%s is not UTF-8. %s" % (short(file_of(line, bench)), converting(file_of(line, bench))),
    74: lambda line, bench: lines_and_words(file_of(line, bench), len(bench.outcomes())) + ": it needs a line for each word. The mark stays.",
    41: absent, 45: no_name, 46: amongs_of, 52: unknown, 53: no_name, 57: bad_file, 59: no_class, 67: no_stem,
}
