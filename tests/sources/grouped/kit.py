"""What this uses of the kit: the crates of a checkout, how `rt` reads an edit, and one check of a crate with other texts."""
from __future__ import annotations

import importlib.machinery
import importlib.util
import os
import re
import shutil
import subprocess
import sys
import tempfile
from dataclasses import dataclass
from types import ModuleType

ERROR = re.compile(r"\berror\[[\w-]+\]")
# How the prover says that it stopped at a limit of its own.
LIMIT = re.compile(r"\blimit\b|could not tell|no verdict")
# The only file of kept work that a check writes in place, at each use: it has no proofs.
LAST_USED = "rattle-last-used"
# The root of a crate with an error that the compiler finds last of all: after it no proof begins.
LAST_ERROR = "#![tactic(auto)]\n\npub fn last(items: Vec<u8>) -> usize {\n    drop(items);\n    items.len()\n}\n"


def load_rt() -> ModuleType:
    """Returns the command `rt` as a module."""
    page = subprocess.run(["rt", "doc"], stdout=subprocess.PIPE, check=True, text=True).stdout.strip()
    folder = f"{os.path.dirname(page)}/bin"
    sys.path.insert(0, folder)
    loader = importlib.machinery.SourceFileLoader("rt", f"{folder}/rt")
    module = importlib.util.module_from_spec(importlib.util.spec_from_loader("rt", loader))
    sys.modules["rt"] = module
    loader.exec_module(module)
    return module


def messages_of(said: str) -> list[str]:
    """Returns the messages of a check, each with its further lines in one: antt breaks a long one in the middle of a sentence."""
    found: list[str] = []
    for line in said.rstrip("\n").split("\n"):
        if line.startswith("  ") and found:
            found[-1] += " " + line.strip()
        else:
            found.append(line)
    return found


def link_tree(folder: str, to: str) -> None:
    """Makes a copy of a folder of kept work by hard links: a check writes a file of it anew, and never in place."""
    shutil.copytree(folder, to, copy_function=os.link, ignore=shutil.ignore_patterns(LAST_USED))


def listing(folder: str) -> dict[str, tuple[int, int, int]]:
    """Returns the size, the time and the number of each file of a folder of kept work, by its path."""
    found = {}
    for at, _, names in os.walk(folder):
        for name in names:
            if name != LAST_USED:
                it = os.stat(f"{at}/{name}")
                found[os.path.relpath(f"{at}/{name}", folder)] = (it.st_size, it.st_mtime_ns, it.st_ino)
    return found


@dataclass(frozen=True)
class Check:
    """How a check ended, and its messages."""

    status: int
    said: list[str]

    @property
    def is_refusal(self) -> bool:
        """Whether the prover came to its end and did not prove all."""
        return self.status == 1 and self.said[-1].startswith(("logic=not-proved", "only="))

    def error(self) -> str:
        """Returns the first error of the compiler, or an empty text."""
        return next((it for it in self.said if ERROR.search(it)), "") if self.status == 1 else ""


class Kit:
    """The command `rt`, over the crates of one checkout."""

    def __init__(self, top: str) -> None:
        self.rt = load_rt()
        os.chdir(top)
        self.crates = {it.name: it for it in self.rt.rtlib.crates_below(os.getcwd())}
        self.rt.rtlib.guarded()

    def folder(self, crate: str) -> str:
        return self.crates[crate].folder

    def read_edit(self, file: str, crate: str) -> tuple[dict[str, str] | None, str]:
        """Returns the texts of the files that an edit changes, or none and why it cannot be applied."""
        texts, why = self.rt.read_edit(file, self.folder(crate))
        return texts, why or ""

    def unread_message(self, check: Check, texts: dict[str, str]) -> str:
        """Returns the first message that says that the prover could not read an edited text, or an empty text."""
        return next((it for it in check.said if self.rt.unread(it, texts)), "")

    def limit_message(self, check: Check) -> str:
        """Returns the message by which the prover stopped at a limit of its own, or an empty text."""
        return next((it for it in check.said if check.status == 3 and LIMIT.search(it)), "")

    def check(self, crate: str, texts: dict[str, str], seed: str | None, only: list[str] | None = None) -> Check:
        """Checks the crate with these texts, over a copy of what the seed keeps; or only these functions."""
        words = ["--jobs", "1"]
        for path in only or []:
            words += ["--only", path]
        with tempfile.TemporaryDirectory(prefix=f"grouped-{os.getpid()}-") as room:
            over = f"{room}/over" if seed else None
            if seed:
                link_tree(seed, over)
            ran = self.rt.checked(self.crates[crate], texts, words, over)
            if ran.returncode < 0:
                # It was killed, most likely for memory.
                ran = self.rt.checked(self.crates[crate], texts, words, over)
        return Check(ran.returncode, messages_of(ran.stdout))

    def is_proved(self, crate: str) -> bool:
        """Returns whether a library of the crate as it is was built, over what a check of it keeps in out/."""
        return self.crates[crate].is_built() and os.path.isdir(f"{self.folder(crate)}/out/incremental")

    def prove(self, crate: str) -> Check:
        """Checks the crate as it is, after the libraries below it are built, and keeps in out/ what was proved."""
        how = {"cwd": self.folder(crate), "stdin": subprocess.DEVNULL, "stdout": subprocess.PIPE, "stderr": subprocess.STDOUT, "errors": "replace"}
        ran = subprocess.run(["rt", "check"], **how)
        return Check(ran.returncode, messages_of(ran.stdout))

    def take_libraries(self, crates: set[str]) -> str:
        """Gives the libraries below these crates to the checkout: those that are built there, or else those that rt ci has kept on this
        machine, if the kit keeps any. Returns the name of the first one that is neither, or an empty text."""
        below = {dep for it in crates for dep in self.crates[it].below()}
        missing = next((it.name for it in below if not it.is_built()), "")
        if not missing or not hasattr(self.rt, "Kept"):
            return missing
        kept = self.rt.Kept(list(self.crates.values()))
        for it in sorted(below, key=lambda it: len(it.below())):
            shutil.rmtree(f"{it.folder}/out", ignore_errors=True)
            if not kept.give(it, False, kept.key(it)):
                return it.name
            kept.is_built(it)
        return ""

    def compiles(self, crate: str, texts: dict[str, str]) -> Check:
        """Reads and compiles the crate with these texts, and proves nothing."""
        return self.check(crate, texts, None, [""])

    def compile_all(self, texts: dict[str, dict[str, str]]) -> Check:
        """Compiles these crates, each with its own texts, and the crates below them, all from their sources. Above them is a crate with
        LAST_ERROR, so that nothing is proved."""
        with tempfile.TemporaryDirectory(prefix=f"grouped-{os.getpid()}-") as room:
            folders = {it: self.copied(it, own, room) for it, own in texts.items()}
            os.makedirs(f"{room}/+every/src")
            with open(f"{room}/+every/src/lib.rt", "w", encoding="utf-8") as it:
                it.write(LAST_ERROR)
            how = {"cwd": f"{room}/+every", "stdin": subprocess.DEVNULL, "stdout": subprocess.PIPE, "stderr": subprocess.STDOUT, "errors": "replace"}
            ran = subprocess.run([*self.rt.rtlib.guarded(), self.rt.rtlib.RATTLE, "check", *self.words_of_all(folders)], **how)
        return Check(ran.returncode, messages_of(ran.stdout.replace(f"{room}/", "")))

    def copied(self, crate: str, texts: dict[str, str], room: str) -> str:
        """Makes a copy of a crate with these texts, and returns its folder."""
        folder = f"{room}/{crate}"
        for part in self.rt.rtlib.PARTS:
            if os.path.isdir(f"{self.folder(crate)}/{part}"):
                shutil.copytree(f"{self.folder(crate)}/{part}", f"{folder}/{part}")
        for path, text in texts.items():
            with open(f"{folder}/{path}", "w", encoding="utf-8") as it:
                it.write(text)
        return folder

    def words_of_all(self, folders: dict[str, str]) -> list[str]:
        """Returns the words by which rattle reads these crates, in their folders, and a crate above them."""
        lib = self.rt.rtlib
        crates = list(dict.fromkeys(it for name in folders for it in [*self.crates[name].below(), self.crates[name]]))
        of_kit = sorted({"core", "std"}.union(*(it.of_kit for it in crates)))
        words = ["--crate-name", "every", "src/lib.rt"]
        for name in of_kit:
            words += ["--extern", f"{name}={lib.KIT}/rlibs/{name}.rlib"]
        words += ["-L", f"dependency={lib.KIT}/rlibs"]
        for it in crates:
            uses = dict.fromkeys(["core", *it.of_kit, *[below.name for below in it.deps]])
            words += ["--lib", f"{it.name}:{','.join(uses)}={folders.get(it.name, it.folder)}/src/lib.rt"]
        words += ["--antt-project", f"{lib.KIT}/rattle/logic/antt-project.json", "--logic-built", f"{lib.KIT}/logic_built"]
        return [*words, "--jobs", "1", "--only", ""]

    def files(self, folder: str) -> dict[str, tuple[int, int, int]]:
        """Returns what tells whether a file of the folder was changed, lost or added."""
        return listing(folder)
