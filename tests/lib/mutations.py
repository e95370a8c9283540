#!/usr/bin/env python3
"""Runs mutated sessions: the inputs of tests/cases and of the pages with bytes, lines, blocks, numbers and words changed, of `session`,
`stem`, `check` and `work`. Whatever the input is:
- the program ends with status 0 or 1, within 10 seconds of processor time, under 1,024 kilobytes of stack and 256 megabytes of memory;
- with status 0, and after the differences of a check, standard error is empty; otherwise it has one line `snowbench: CODE NAME`,
  which the pages have, with a place inside the script or an item if the pages give it one;
- standard output, but for what `echo` gives back, is UTF-8 and ends in a line feed, and each answer `no CODE NAME` is one of the pages.
Session NUMBER of a SEED is always the same.
usage: mutations.py PROGRAM [N [SEED]] | PROGRAM --only NUMBER [SEED]
"""
import glob
import os
import random
import re
import signal
import subprocess
import sys
import tempfile
from concurrent.futures import ThreadPoolExecutor

STACK, MEMORY, SECONDS, PATIENCE = 1024, 262144, 10, 300
# Inputs that are larger would take most of the time.
LARGEST = 20000
BYTES = b"\0\t\n\r .'(){}+-*/<>=$,\"0aZ_\x7f\x80\xbf\xc0\xe2\xef\xf0\xff"
NUMBERS = b"0 1 00 2 15 31 32 33 64 65 255 256 1000 100000 10000001 2147483647 2147483648 4294967296 18446744073709551616 -1 1x".split()
KEPT = os.path.join("out", "mutations")


class Pages:
    """The faults and refusals that the pages name."""

    def __init__(self):
        language = read_page("LANGUAGE.md")
        reference = read_page("REFERENCE.md")
        table = language[language.index("## Why a script is refused") : language.index("## What a run does")]
        self.faults = {}
        for line in re.findall(r"^\| `\d+ \w+`.*", table, re.M):
            text = re.match(r"\| `(\d+ \w+)`", line)[1]
            self.faults[text] = " at" if text + " at " in line else " in item" if text + " in item " in line else ""
        names = [text.split()[1] for text in self.faults]
        ends = reference[reference.index("\n## Faults\n") :]
        self.faults.update(dict.fromkeys(re.findall(r"`(\d+ [A-Z]\w+)`", ends), ""))
        self.refusals = set(re.findall(r"`no (\d\d [A-Z]\w+)`", reference)) | {"48 " + name for name in names}
        self.refusals -= {"48 NAME"}


def read_page(name):
    with open(os.path.join("docs", name), encoding="utf-8") as page:
        return page.read()


def read_seeds():
    """Returns the cases of each subcommand: its words, and the texts of its input, its script and its vocabulary."""
    seeds = {"session": [], "stem": [], "check": [], "work": []}
    with tempfile.TemporaryDirectory() as room:
        pages = subprocess.run([sys.executable, "tests/lib/pages.py", "README.md", *sorted(glob.glob("docs/*.md") + glob.glob("tests/cases/*.md"))],
                               stdout=subprocess.PIPE, check=True).stdout
        with open(os.path.join(room, "pages"), "wb") as file:
            file.write(pages)
        subprocess.run([sys.executable, "tests/lib/cases.py", room, *sorted(glob.glob("tests/cases/*.cases")), file.name], check=True)
        for path in sorted(glob.glob(os.path.join(room, "*.in"))):
            base = path[:-3]
            words = read(base + ".words").decode().split()
            texts = {part: read(base + "." + part) for part in ("in", "sbl", "voc") if os.path.exists(base + "." + part)}
            is_small = max(map(len, texts.values())) <= LARGEST
            if words and words[0] in seeds and is_small and not os.path.exists(base + ".launcher"):
                seeds[words[0]].append((words, texts))
    return seeds


def read(path):
    with open(path, "rb") as file:
        return file.read()


class Dice:
    """Choices that are the same for the same seed, by any version of Python."""

    def __init__(self, seed):
        self.random = random.Random(seed).random

    def below(self, count):
        return int(self.random() * count)

    def one(self, things):
        return things[self.below(len(things))]

    def slice(self, length, most):
        begin = self.below(length + 1)
        return begin, min(length, begin + self.below(most + 1))


# Mutations: each takes dice, a text and a text of another case, and returns a text.
def change_byte(dice, text, other):
    at = dice.below(len(text))
    return text[:at] + bytes([dice.one(BYTES)]) + text[at + 1 :]


def flip_bit(dice, text, other):
    at = dice.below(len(text))
    return text[:at] + bytes([text[at] ^ 1 << dice.below(8)]) + text[at + 1 :]


def put_bytes(dice, text, other):
    at = dice.below(len(text) + 1)
    return text[:at] + bytes(dice.one(BYTES) for _ in range(1 + dice.below(4))) + text[at:]


def remove_slice(dice, text, other):
    begin, end = dice.slice(len(text), 30)
    return text[:begin] + text[end:]


def repeat_slice(dice, text, other):
    begin, end = dice.slice(len(text), dice.one((1, 8, 80)))
    return text[:begin] + text[begin:end] * dice.one((2, 3, 40)) + text[end:]


def put_slice(dice, text, other):
    at = dice.below(len(text) + 1)
    begin, end = dice.slice(len(other), 200)
    return text[:at] + other[begin:end] + text[at:]


def cut(dice, text, other):
    return text[: dice.below(len(text) + 1)]


def remove_line(dice, text, other):
    lines = text.split(b"\n")
    del lines[dice.below(len(lines))]
    return b"\n".join(lines)


def repeat_line(dice, text, other):
    lines = text.split(b"\n")
    at = dice.below(len(lines))
    return b"\n".join(lines[:at] + lines[at : at + 1] * (2 + dice.below(3)) + lines[at + 1 :])


def exchange_lines(dice, text, other):
    lines = text.split(b"\n")
    one, two = dice.below(len(lines)), dice.below(len(lines))
    lines[one], lines[two] = lines[two], lines[one]
    return b"\n".join(lines)


def put_line(dice, text, other):
    lines = text.split(b"\n")
    lines.insert(dice.below(len(lines) + 1), dice.one(other.split(b"\n") + [b"."]))
    return b"\n".join(lines)


BLOCK = re.compile(rb"^((?:routine|among|grouping|replace|families)\b[^\n]*\n)(.*?)(^\.\n)", re.M | re.S)


def put_block(dice, text, other):
    """A block of one text in the place of a block of the other, or a whole command at the end of a line."""
    blocks, others = list(BLOCK.finditer(text)), list(BLOCK.finditer(other))
    if not others:
        return put_line(dice, text, other)
    new = dice.one(others)
    if blocks and dice.below(2):
        old = dice.one(blocks)
        return text[: old.start(2)] + new[2] + text[old.end(2) :]
    ends = [match.end() for match in re.finditer(rb"\n", text)] or [len(text)]
    at = dice.one(ends)
    return text[:at] + new[0] + text[at:]


def change_number(dice, text, other):
    numbers = list(re.finditer(rb"\d+", text))
    if not numbers:
        return put_bytes(dice, text, other)
    number = dice.one(numbers)
    return text[: number.start()] + dice.one(NUMBERS) + text[number.end() :]


def change_word(dice, text, other):
    words, others = list(re.finditer(rb"\w+|'[^'\n]*'|[^\w\s]", text)), re.findall(rb"\w+|'[^'\n]*'|[^\w\s]", other)
    if not words or not others:
        return flip_bit(dice, text, other)
    word = dice.one(words)
    return text[: word.start()] + dice.one(others) + text[word.end() :]


MUTATIONS = [change_byte, flip_bit, put_bytes, remove_slice, repeat_slice, put_slice, cut, remove_line, repeat_line, exchange_lines,
             put_line, put_block, put_block, change_number, change_number, change_word, change_word, change_word, change_word]


def mutate(seeds, seed, number):
    """Returns the words and the texts of a mutated session."""
    dice = Dice("%s:%d" % (seed, number))
    verb = dice.one(("session", "session", "stem", "check", "work", "work"))
    words, texts = dice.one(seeds[verb])
    texts = dict(texts)
    if verb != "work":
        # (the script of a session is a part of its own)
        script, point, rest = texts["in"].partition(b"\n.\n")
        texts = {"sbl": script + point, "in": rest}
    # A script with a fault ends it all, so most mutations are after the script.
    parts = dice.one((sorted(texts), ["in"], ["in"], ["in", "voc"] if "voc" in texts else ["in"]))
    for _ in range(1 + dice.below(dice.one((2, 4, 12)))):
        other = dice.one((texts, dice.one(seeds["work" if verb == "work" else dice.one(("session", verb))])[1]))
        part = dice.one(parts)
        if texts[part]:
            texts[part] = dice.one(MUTATIONS)(dice, texts[part], dice.one(list(other.values())))
    if verb != "work":
        texts = {"in": texts["sbl"] + texts["in"]}
    else:
        # (no file outside the folder of the run is read or written)
        texts["in"] = re.sub(rb"(?m)^(?:save|families|reload)\b.*", lambda line: line[0].replace(b"/", b""), texts["in"])
    return words, texts


def run(program, words, texts):
    with tempfile.TemporaryDirectory() as room:
        for part, text in texts.items():
            with open(os.path.join(room, "session." + part), "wb") as file:
                file.write(text)
        files = ["session." + part for part in ("sbl", "voc") if part in texts]
        limits = 'ulimit -s %d -v %d -t %d && exec "$@"' % (STACK, MEMORY, SECONDS)
        command = ["bash", "-c", limits, "run", program, *words, *files]
        with open(os.path.join(room, "session.in"), "rb") as stdin:
            return subprocess.run(command, cwd=room, stdin=stdin, stdout=subprocess.PIPE, stderr=subprocess.PIPE, timeout=PATIENCE)


def judge(pages, words, texts, result):
    """Returns what is wrong with how a session ended, or nothing."""
    if result.returncode < 0:
        return "signal " + signal.Signals(-result.returncode).name
    if result.returncode > 1:
        return "status %d" % result.returncode
    try:
        out, errors = without_echo(texts["in"], result.stdout).decode(), result.stderr.decode()
    except UnicodeDecodeError:
        return "output that is not UTF-8"
    if out and not out.endswith("\n"):
        return "output that ends inside a line"
    has_difference = words[0] == "check" and result.returncode == 1 and out and not errors
    if result.returncode == 0 or has_difference:
        return "standard error with status %d" % result.returncode if errors else judge_answers(pages, out)
    return judge_fault(pages, texts, errors) or judge_answers(pages, out)


def without_echo(text, out):
    """Returns the output without the lines that `echo` gives back, whatever their bytes are."""
    echoed = {line[5:].removesuffix(b"\r") for line in text.split(b"\n") if line.startswith(b"echo ")}
    *lines, rest = out.split(b"\n")
    return b"\n".join([line for line in lines if line not in echoed] + [rest])


def judge_fault(pages, texts, errors):
    fault = re.fullmatch(r"snowbench: (\d+ [A-Z]\w+)(?:( at| in item) (\d+))?\n", errors)
    if not fault or fault[1] not in pages.faults:
        return "a fault that no page has: " + repr(errors)
    if (fault[2] or "") != pages.faults[fault[1]]:
        return "a fault with another kind of place: " + repr(errors)
    if fault[2] == " at" and int(fault[3]) > len(texts.get("sbl", texts["in"])) + 1:
        return "a place outside the script: " + repr(errors)
    if fault[2] == " in item" and int(fault[3]) < 1:
        return "no item: " + repr(errors)
    return None


def judge_answers(pages, out):
    for line in out.splitlines():
        if re.match(r"no \d\d \w+$", line) and line[3:] not in pages.refusals:
            return "a refusal that no page has: " + line
    return None


def main():
    program, *rest = sys.argv[1:]
    only = int(rest[1]) if rest[:1] == ["--only"] else None
    if only is None:
        count, seed = int(rest[0]) if rest else 2000, rest[1] if rest[1:] else "1"
    else:
        count, seed = 1, rest[2] if rest[2:] else "1"
    pages, seeds = Pages(), read_seeds()

    def attempt(number):
        words, texts = mutate(seeds, seed, number)
        try:
            result = run(program, words, texts)
        except subprocess.TimeoutExpired:
            return number, words, texts, "no end within %d seconds" % PATIENCE, None
        return number, words, texts, judge(pages, words, texts, result), result

    numbers = range(count) if only is None else [only]
    failed, ends = 0, {}
    with ThreadPoolExecutor(os.cpu_count()) as pool:
        for number, words, texts, wrong, result in pool.map(attempt, numbers):
            if wrong:
                failed += 1
                print("FAILED mutations: %s: bash tests/suites/mutations --only %d %s" % (wrong, number, seed))
            if result and not wrong:
                end = words[0], result.stderr.decode().strip().split(" at ")[0].split(" in ")[0] or "status %d" % result.returncode
                ends[end] = ends.get(end, 0) + 1
            if only is not None:
                keep(words, texts, result)
    if "SHOW" in os.environ:
        print("\n".join("%6d  %s %s" % (times, *end) for end, times in sorted(ends.items())))
    print("%d passed, %d failed" % (count - failed, failed))
    return failed > 0


def keep(words, texts, result):
    os.makedirs(KEPT, exist_ok=True)
    for part, text in texts.items():
        with open(os.path.join(KEPT, "session." + part), "wb") as file:
            file.write(text)
    print("%s/session.*: %s" % (KEPT, " ".join(words)))
    if result:
        print("status %d, standard error %r" % (result.returncode, result.stderr))


if __name__ == "__main__":
    sys.exit(main())
