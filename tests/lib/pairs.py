#!/usr/bin/env python3
"""Tries the pairs of tests/sources/pairs.d (see tests/sources/pairs). A file there has pairs:

    == the title of the pair
    rows: checks.md checks.cases       the files of tests/cases that are tried first; the other .cases and .md follow
    unit: session_tests                in place of rows: a crate of tests; one of them has to fail
    suite: breaks                      in place of rows: a script of tests/suites, which has to fail
    file: crates/NAME/specs/FILE.antt
    old: a text of the definition, which is there once
    new: the text in its place
    file: crates/NAME/src/FILE.rt
    old: the same for the code
    new: ..

More lines of a text begin with a bar. For each pair the tool makes a program without proofs from a copy of the repository, in which both
texts are changed, and runs cases until one fails. What was seen is kept in out/pairs until the pair or a source changes.
"""
import glob
import hashlib
import importlib.machinery
import importlib.util
import os
import shutil
import subprocess
import sys
import tempfile
from concurrent.futures import ThreadPoolExecutor

TOP = os.path.dirname(os.path.dirname(os.path.dirname(os.path.realpath(__file__))))
KEPT = os.path.join(TOP, "out", "pairs")
PATIENCE = 120


class Pair:
    def __init__(self, title):
        self.title, self.rows, self.unit, self.suite, self.edits = title, [], "", "", []
        self.name = "".join(letter if letter.isalnum() else "-" for letter in title.lower()).strip("-")

    def wrong(self, top=TOP):
        """Returns the texts that are not in their files exactly once, and what a pair lacks."""
        wrong = []
        for path, old, _ in self.edits:
            with open(os.path.join(top, path), encoding="utf-8") as file:
                count = file.read().count(old)
            if count != 1:
                wrong.append("%s: %s has this text %d times: %r" % (self.title, path, count, old))
        for rows in self.rows:
            if not os.path.exists(os.path.join(top, "tests", "cases", rows)):
                wrong.append("%s: tests/cases has no file %s" % (self.title, rows))
        if self.suite and not os.path.exists(os.path.join(top, "tests", "suites", self.suite)):
            wrong.append("%s: tests/suites has no %s" % (self.title, self.suite))
        for part, name in (("/specs/", "definition"), ("/src/", "code")):
            if not any(part in path for path, _, _ in self.edits):
                wrong.append("%s: it changes no %s" % (self.title, name))
        return wrong

    def apply(self, top):
        for path, old, new in self.edits:
            path = os.path.join(top, path)
            with open(path, encoding="utf-8") as file:
                text = file.read()
            with open(path, "w", encoding="utf-8") as file:
                file.write(text.replace(old, new))


def read_pairs(folder="pairs.d"):
    pairs = []
    for path in sorted(glob.glob(os.path.join(TOP, "tests", "sources", folder, "*.pairs"))):
        texts = None
        with open(path, encoding="utf-8") as file:
            for number, line in enumerate(file, 1):
                line = line.rstrip("\n")
                key, _, value = line.partition(": ")
                if line.startswith("== "):
                    pairs.append(Pair(line[3:]))
                elif key == "rows":
                    pairs[-1].rows = value.split()
                elif key == "unit":
                    pairs[-1].unit = value
                elif key == "suite":
                    pairs[-1].suite = value
                elif key == "file":
                    texts = [value, "", ""]
                elif key in ("old", "new"):
                    texts[1 if key == "old" else 2] = value
                    if key == "new":
                        pairs[-1].edits.append(texts)
                elif line in ("old:", "new:"):
                    texts[1 if line == "old:" else 2] = ""
                    if line == "new:":
                        pairs[-1].edits.append(texts)
                elif line.startswith("|"):
                    at = 2 if pairs[-1].edits and pairs[-1].edits[-1] is texts else 1
                    texts[at] += "\n" + line[1:]
                elif line and not line.startswith("#"):
                    raise ValueError("%s:%d: no line of a pair: %s" % (path, number, line))
    return pairs


def files_of(*folders):
    listed = subprocess.run(["git", "ls-files", "--", *folders], cwd=TOP, stdout=subprocess.PIPE, check=True, text=True).stdout.split("\n")
    return [name for name in listed if name and os.path.exists(os.path.join(TOP, name))]


def sum_of(names):
    total = hashlib.sha256()
    for name in names:
        with open(os.path.join(TOP, name), "rb") as file:
            total.update(name.encode() + b"\0" + hashlib.sha256(file.read()).digest())
    return total.hexdigest()


def load_files():
    """Returns tests/suites/files as a module: it reads and tries the cases *.folders."""
    loader = importlib.machinery.SourceFileLoader("files", os.path.join(TOP, "tests", "suites", "files"))
    module = importlib.util.module_from_spec(importlib.util.spec_from_loader("files", loader))
    loader.exec_module(module)
    return module


FILES = load_files()


class Cases:
    """All cases, cut into files; those of *.folders as tests/suites/files has them."""

    def __init__(self, room):
        self.room = os.path.join(room, "cases")
        os.mkdir(self.room)
        self.files = {}
        pages = os.path.join(room, "pages")
        folder = os.path.join(TOP, "tests", "cases")
        self.folders = {os.path.basename(path): FILES.cases_of(path) for path in sorted(glob.glob(folder + "/*.folders"))}
        for path in sorted(glob.glob(folder + "/*.cases") + glob.glob(folder + "/*.md")):
            name = os.path.basename(path)
            source = path
            if name.endswith(".md"):
                with open(pages, "wb") as file:
                    subprocess.run([sys.executable, "tests/lib/pages.py", path], cwd=TOP, stdout=file, check=True)
                source = pages
            part = os.path.join(self.room, name)
            os.mkdir(part)
            subprocess.run([sys.executable, "tests/lib/cases.py", part, source], cwd=TOP, check=True)
            cases = sorted(name[:-3] for name in os.listdir(part) if name.endswith(".in"))
            skipped = {name[:-9] for name in os.listdir(part) if name.endswith(".launcher")} | {name[:-7] for name in os.listdir(part) if name.endswith(".proved")}
            self.files[name] = [os.path.join(part, case) for case in cases if case not in skipped]

    def in_order(self, rows):
        """Yields cases: the name of a case's files, or a case of *.folders."""
        for name in [*rows, *(name for name in self.files if name not in rows)]:
            yield from self.folders.get(name) or self.files[name]


def read(path, default=b""):
    try:
        with open(path, "rb") as file:
            return file.read()
    except OSError:
        return default


def run(program, case, room):
    """Runs a program as a case says, in a copy of the case's folder if it has one."""
    words = read(case + ".words").decode().split("\n")[:-1]
    words += [case + end for end in (".sbl", ".voc") if os.path.exists(case + end)]
    folder = shutil.copytree(case + ".files", os.path.join(room, "files")) if os.path.isdir(case + ".files") else None
    with open(case + ".in", "rb") as file:
        return subprocess.run(
            [program, *words], cwd=folder, stdin=file, stdout=subprocess.PIPE, stderr=subprocess.PIPE, timeout=PATIENCE, check=False
        )


def is_right(program, case):
    if isinstance(case, FILES.Case):
        return FILES.difference(program, case) is None
    with tempfile.TemporaryDirectory() as room:
        try:
            done = run(program, case, room)
        except subprocess.TimeoutExpired:
            return False
    return (done.returncode, done.stdout, done.stderr) == (int(read(case + ".status")), read(case + ".out"), read(case + ".err"))


def title_of(case):
    return case.title if isinstance(case, FILES.Case) else read(case + ".title").decode().strip()


def try_pair(pair, cases, names, sources):
    key = hashlib.sha256(repr((pair.title, pair.edits, sources)).encode()).hexdigest()
    kept = os.path.join(KEPT, key)
    if os.path.exists(kept):
        return pair, read(kept).decode()
    with tempfile.TemporaryDirectory() as room:
        for name in names:
            os.makedirs(os.path.join(room, os.path.dirname(name)), exist_ok=True)
            shutil.copy2(os.path.join(TOP, name), os.path.join(room, name))
        pair.apply(room)
        if pair.unit:
            return pair, keep(kept, try_unit(os.path.join(room, "crates", pair.unit)))
        made = subprocess.run(["bash", "tools/debug"], cwd=room, stdout=subprocess.PIPE, stderr=subprocess.PIPE, text=True, check=False)
        program = made.stdout.strip()
        if made.returncode or not program:
            return pair, "no program: " + made.stderr[-400:]
        if pair.suite:
            return pair, keep(kept, try_suite(pair.suite, program))
        seen = "unseen"
        for case in cases.in_order(pair.rows):
            if not is_right(program, case):
                seen = "seen by %s" % title_of(case)
                break
    return pair, keep(kept, seen)


def try_unit(crate):
    """Runs the tests of a crate, without proofs."""
    done = subprocess.run(["rt", "try", "--test"], cwd=crate, stdout=subprocess.PIPE, stderr=subprocess.STDOUT, text=True, check=False).stdout
    if "test result: " not in done:
        return "no tests: " + done[-400:]
    failed = [line.split()[1] for line in done.split("\n") if line.startswith("test ") and line.endswith("... FAILED")]
    return "seen by the test %s" % failed[0] if failed else "unseen"


def try_suite(name, program):
    """Runs a script of tests/suites with a program."""
    done = subprocess.run([os.path.join(TOP, "tests", "suites", name), program], stdout=subprocess.PIPE, stderr=subprocess.STDOUT, text=True, check=False)
    return "seen by tests/suites/%s" % name if done.returncode else "unseen"


def keep(kept, seen):
    if seen.startswith("seen"):
        with open(kept, "w", encoding="utf-8") as file:
            file.write(seen)
    return seen


def main():
    pairs = read_pairs()
    words = sys.argv[1:]
    if words == ["--list"]:
        print("\n".join("%s: %s" % (pair.name, pair.title) for pair in pairs))
        return 0
    wrong = [line for pair in pairs for line in pair.wrong()]
    for line in wrong:
        print("tests/sources/pairs: " + line)
    if words == ["--read"] or wrong:
        print("%d pairs, %d texts do not fit" % (len(pairs), len(wrong)))
        return 1 if wrong else 0
    if words:
        pairs = [pair for pair in pairs if pair.name in words]
    os.makedirs(KEPT, exist_ok=True)
    names = files_of("crates", "crates.txt", "tools", "HANDLES", "VERSION")
    sources = sum_of(name for name in names if "/src/" in name and "test" not in name.split("/")[1])
    seen = unseen = 0
    with tempfile.TemporaryDirectory() as room, ThreadPoolExecutor(int(os.environ.get("PAIRS_JOBS", "2"))) as pool:
        cases = Cases(room)
        for pair, said in pool.map(lambda pair: try_pair(pair, cases, names, sources), pairs):
            print("%s: %s" % (pair.title, said), flush=True)
            seen, unseen = seen + said.startswith("seen"), unseen + (not said.startswith("seen"))
    print("%d seen, %d unseen" % (seen, unseen))
    return 1 if unseen else 0


if __name__ == "__main__":
    sys.exit(main())
