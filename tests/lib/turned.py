#!/usr/bin/env python3
"""Tries the pairs of tests/sources/turned.d (see tests/sources/turned), which have the form of tests/sources/pairs.d. All are pairs of
sbl_resolver. The tool copies that crate once for each pair, changes the copy, and makes programs without proofs, each with some of the copies. Such a program judges the scripts
of all cases by the checks as they are and by each of the copies; a pair is seen by a script that is judged otherwise, since a case shows
the fault of a script, or that it has none.
Equations that have no condition are in tests/sources/turned.d/plain, a line each with the reason.
"""
import itertools
import os
import re
import shutil
import subprocess
import sys
import tempfile
from concurrent.futures import ThreadPoolExecutor

sys.dont_write_bytecode = True
from pairs import TOP, Cases, read, read_pairs

EQUATIONS = ["crates/sbl_resolver/specs/Checks.antt", "crates/sbl_resolver/specs/Occurrences.antt", "crates/sbl_script/specs/Edits.antt"]
BELOW = ["sbl_token", "sbl_text", "sbl_ast", "sbl_parser", "sbl_io", "sbl_resolver"]
PROGRAMS = 6
HEAD = """//! Judges scripts by the checks, and by changed ones.
#![tactic(auto)]

use sbl_parser::{is_left_out, parse};
use sbl_text::{ScriptFault, tokens};
use sbl_ast::Item;
use std::alloc::{AllocError, Global};
use std::fs;
use std::io;

fn judge(alloc: Global, items: &[Item], external: &str) -> Result<String, AllocError> {
    let whole = sbl_resolver::check(alloc, items, external);
    let mut said = String::new(alloc);
"""
EACH = """    if %s::check(alloc, items, external) == whole {
        said.push('.')?;
    } else {
        said.push('x')?;
    }
"""
TAIL = """    Ok(said)
}

fn judge_text(alloc: Global, text: &str, external: &str) -> Result<String, ScriptFault> {
    let found = tokens(alloc, text)?;
    for token in &found {
        if is_left_out(token) {
            return Ok(String::new(alloc));
        }
    }
    let items = parse(alloc, &found, text.len())?;
    Ok(judge(alloc, &items, external)?)
}

fn main(rt: HostRuntime) -> io::Result<()> {
    let words: Vec<String> = std::env::args(&rt)?.collect(rt.alloc())?;
    let bytes = fs::read(&rt, words[1].as_str())?;
    let Ok(all) = str::from_utf8(&bytes) else {
        return Ok(());
    };
    let mut rest = all;
    while let Some((line, after)) = rest.split_once('\\n') {
        let Some((external, number)) = line.split_once(' ') else {
            return Ok(());
        };
        let length: usize = number.parse().unwrap_or(0);
        let Some((script, after)) = after.split_at_checked(length) else {
            return Ok(());
        };
        match judge_text(rt.alloc(), script, external) {
            Ok(said) => println!(rt; "judged {said}")?,
            Err(_) => println!(rt; "judged")?,
        }
        rest = after;
    }
    Ok(())
}
"""


def equations(path):
    """Yields the head of each equation of a file: what is before its ` = `, and each branch of an `elim`."""
    head = ""
    with open(os.path.join(TOP, path), encoding="utf-8") as file:
        for line in file:
            line = line.rstrip("\n")
            if re.match(r"(use|pub|abbrev|unfoldable|--|data|record|module| *--)\b|^ *$|^-", line.lstrip() if line.startswith(" ") else line) or line.lstrip().startswith(("pub ", "--")):
                continue
            found = re.match(r" {0,2}((?:[a-z_A-Z.]+ )[^=]*?|[a-z_]+) =( |$)", line) or re.match(r"  (\| .*) ↦ ", line)
            if found:
                yield found[1]
                head = found[1].split()[0]
            if found and "elim" in line and " = " in line or line.lstrip().startswith("elim "):
                yield from ("%s | %s" % (head, branch) for branch in re.findall(r"[\[|] ([^\[\]|↦]+) ↦ ", line))


def branches(text):
    """Returns the value of each branch of an `elim` on a line, by its pattern."""
    return dict(re.findall(r"[\[|] ([^\[\]|↦]+) ↦ ([^|\]\n]*)", text))


def uncovered(pairs):
    """Returns the equations that no pair changes and that are not listed as plain."""
    with open(os.path.join(TOP, "tests", "sources", "turned.d", "plain"), encoding="utf-8") as file:
        plain = {line.split(" # ")[0].strip() for line in file if line.strip() and not line.startswith("#")}
    texts = {}
    for pair in pairs:
        for path, old, new in pair.edits:
            for line, after in itertools.zip_longest(old.split("\n"), new.split("\n"), fillvalue=""):
                texts.setdefault(path, []).append((line.strip(), branches(line).items() - branches(after).items()))
    known, missing = set(), []
    for path in EQUATIONS:
        for head in equations(path):
            known.add(head)
            branch = head.partition(" | ")[2]
            if head not in plain and not any(
                text.startswith(head + " ") or any(branch and branch == name for name, _ in changed) for text, changed in texts.get(path, [])
            ):
                missing.append("%s: %s" % (os.path.basename(path), head))
    return missing, sorted(plain - known)


def scripts_of(cases):
    """Returns each script of the cases once, with its external and the title of its case."""
    found = {}
    for names in cases.files.values():
        for case in names:
            words = read(case + ".words").decode().split("\n")[:-1]
            external = words[words.index("--external") + 1] if "--external" in words else "stem"
            text = read(case + ".sbl", b"") or read(case + ".in").split(b"\n.\n")[0]
            text = re.sub(rb"\r(?=\n|$)", b"", text)
            try:
                found.setdefault((external, text.decode()), read(case + ".title").decode().strip())
            except UnicodeDecodeError:
                pass
    return {key: title for key, title in found.items() if len(key[1]) < 20000}


def make_program(room, number, pairs):
    """Makes the crates of a program, and returns the folder of its main crate."""
    top = os.path.join(room, str(number))
    lines = []
    for name in BELOW:
        shutil.copytree(os.path.join(TOP, "crates", name), os.path.join(top, "crates", name), ignore=shutil.ignore_patterns("out"))
    with open(os.path.join(TOP, "crates.txt"), encoding="utf-8") as file:
        lines += [line for line in file if line.split(":")[0] in BELOW]
    copies = []
    for at, pair in enumerate(pairs):
        copy = "turned_%d" % at
        copies.append(copy)
        for path, old, new in pair.edits:
            assert path.startswith("crates/sbl_resolver/"), path
        folder = os.path.join(top, "crates", copy)
        shutil.copytree(os.path.join(TOP, "crates", "sbl_resolver"), folder, ignore=shutil.ignore_patterns("out", "wrong-bodies", "must-fail"))
        mine = os.path.join(top, "crates", "sbl_resolver")
        os.rename(mine, mine + ".kept")
        os.rename(folder, mine)
        pair.apply(top)
        os.rename(mine, folder)
        os.rename(mine + ".kept", mine)
        for path, _, names in os.walk(folder):
            for name in names:
                if name.endswith((".rt", ".antt")):
                    with open(os.path.join(path, name), encoding="utf-8") as file:
                        text = file.read()
                    with open(os.path.join(path, name), "w", encoding="utf-8") as file:
                        file.write(text.replace("sbl_resolver", copy))
        lines.append("%s: sbl_ast sbl_text\n" % copy)
    folder = os.path.join(top, "crates", "turned_main")
    os.makedirs(os.path.join(folder, "src"))
    with open(os.path.join(folder, "src", "main.rt"), "w", encoding="utf-8") as file:
        file.write(HEAD + "".join(EACH % copy for copy in copies) + TAIL)
    lines.append("turned_main: %s sbl_parser sbl_resolver sbl_text sbl_ast\n" % " ".join(copies))
    with open(os.path.join(top, "crates.txt"), "w", encoding="utf-8") as file:
        file.writelines(lines)
    with open(os.path.join(top, "HANDLES"), "w", encoding="utf-8") as file:
        file.write("Handles allowed: none.\n")
    return folder


def run_program(room, number, pairs, scripts):
    """Returns for each pair the title of the first case whose script is judged otherwise, or nothing."""
    folder = make_program(room, number, pairs)
    path = os.path.join(room, "scripts")
    done = subprocess.run(["rt", "try", "--", path], cwd=folder, stdout=subprocess.PIPE, stderr=subprocess.STDOUT, text=True, check=False).stdout
    lines = [line for line in done.split("\n") if line.startswith("judged")]
    if len(lines) != len(scripts):
        print("tests/sources/turned: program %d judged %d of %d scripts: %s" % (number, len(lines), len(scripts), done[-1500:]))
        return [None] * len(pairs)
    seen = [None] * len(pairs)
    for line, title in zip(lines, scripts.values()):
        for at, sign in enumerate(line[7:]):
            if sign == "x" and seen[at] is None:
                seen[at] = title
    return seen


def main():
    pairs = read_pairs("turned.d")
    wrong = [line for pair in pairs for line in pair.wrong()]
    missing, unknown = uncovered(pairs + read_pairs())
    wrong += ["no pair changes the equation " + head for head in missing] + ["there is no equation " + head for head in unknown]
    for line in wrong:
        print("tests/sources/turned: " + line)
    if wrong or sys.argv[1:] == ["--read"]:
        print("%d pairs, %d faults" % (len(pairs), len(wrong)))
        return 1 if wrong else 0
    if sys.argv[1:]:
        pairs = [pair for pair in pairs if pair.name in sys.argv[1:]]
    with tempfile.TemporaryDirectory() as room:
        scripts = scripts_of(Cases(room))
        with open(os.path.join(room, "scripts"), "w", encoding="utf-8", newline="") as file:
            for external, text in scripts:
                file.write("%s %d\n%s" % (external, len(text.encode()), text))
        parts = [pairs[at::PROGRAMS] for at in range(min(PROGRAMS, len(pairs)))]
        with ThreadPoolExecutor(int(os.environ.get("PAIRS_JOBS", "2"))) as pool:
            seen = list(pool.map(lambda at: run_program(room, at, parts[at], scripts), range(len(parts))))
    unseen = 0
    for part, titles in zip(parts, seen):
        for pair, title in zip(part, titles):
            print("%s: %s" % (pair.title, "seen by " + title if title else "unseen"))
            unseen += title is None
    print("%d seen, %d unseen" % (len(pairs) - unseen, unseen))
    return 1 if unseen else 0


if __name__ == "__main__":
    sys.exit(main())
