"""2,000 random moments of `work` at a terminal, from seeds: saves, other sizes of the window, keys, pastes, Ctrl-C, a program that is killed, and
a terminal that is closed. After each storm there is a prompt, and an edit that was typed is in the script, was said to be replaced, or is offered
by the next start. MOMENTS=N plays N of them.
"""
import contextlib
import os
import random
import re
import signal
import time
from concurrent.futures import ThreadPoolExecutor
from typing import Callable, List

from .kit import Case, Terminal, alive

MOMENTS, PLAYERS = int(os.environ.get("MOMENTS", "2000")), 8
# Within how many seconds a prompt is there again. (Other work on the machine can make a step long.)
PATIENCE = 120
GOOD = "externals ( stem )\nroutines ( r )\ndefine r as true\ndefine stem as do r\n"
TEXTS = (GOOD, GOOD + "// c\n", GOOD.replace("true", "( [ 'w' ] delete )"), GOOD.replace("do r", "( repeat true )"), "define", "", GOOD.replace("r as", "q as"))
KEYS = (b"w", b"why w1", b"\x1b[D", b"\x7f", b"\t", b"un\t", b"\x01", b"\x05", b"\x1b[A", b"\x1b[B", b"\x12w", b"\x07", b"\x1b[200~a\rb\x1b[201~", b"\x0f")
COMMANDS = (
    "stems", "largest 5", "why w1", "tests w1", "unused", "changes", "stats", "undo", "redo", "define r as delete\r.", "", "mark", "class w1x", "show r",
    "foo", "families\rw1 w2\r.", "reload", "limit 2000", "limit 100000", "counts", "find w1", "uses r", "help", "history", "lint", "add new", "remove new",
    "classes > out", "routine r\r( nothing )\r.", "routine plurall\rtrue\r.", "\x1b[200~routine r\rtrue\r.\r\x1b[201~", "replace my.sbl", "replace none",
)
# They leave the current text as it is.
HARMLESS = ("stems", "why w1", "foo", "class w1x", "limit 2000", "routine plurall\rtrue\r.", "routine r\r( nothing )\r.", "find w1", "help", "stats")
ENDS: List[Callable[[Terminal], None]] = [
    lambda terminal: os.close(terminal.end), lambda terminal: os.kill(terminal.child, signal.SIGHUP), lambda terminal: os.kill(terminal.child, signal.SIGTERM),
    lambda terminal: os.kill(terminal.child, signal.SIGKILL),
]


class Player:
    """Plays moments over a folder with a script and words."""

    def __init__(self, case: "Moments", seed: int):
        self.case, self.chance, self.count = case, random.Random(seed), 0
        self.folder = case.room(my_sbl=GOOD, my_words="".join("w%d\n" % i for i in range(300)))
        self.terminal = self.begin()

    def begin(self) -> Terminal:
        terminal = self.case.terminal(self.folder, "--watch", "my.sbl", "my.words", term=self.chance.choice(["dumb", "xterm"]), lines=24, columns=80)
        self.shown = terminal.got(rb"0 refused(.|\n)*> ", PATIENCE)
        return terminal

    def kill_program(self) -> None:
        for number in self.terminal.processes()[1:]:
            # (it may have ended meanwhile)
            with contextlib.suppress(ProcessLookupError):
                os.kill(number, signal.SIGKILL)

    def moment(self, is_harmless: bool = False) -> None:
        """Does something, and lets some time pass."""
        chance, terminal = self.chance, self.terminal
        kind = chance.choice(["keys", "command", "command", "interrupt", "size", "kill"] + ["save"] * (not is_harmless) * 2)
        if kind == "keys":
            terminal.send(chance.choice([key for key in KEYS if not is_harmless or key[:2] != b"\x1b[" and key != b"\x0f"]))
        elif kind == "command":
            terminal.send(("\x15" if is_harmless else "") + chance.choice(HARMLESS if is_harmless else COMMANDS) + "\r")
        elif kind == "interrupt":
            terminal.send(b"\x03" * chance.choice([1, 1, 2]))
        elif kind == "size":
            terminal.resize(chance.choice([0, 1, 7, 40, 80, 200]), chance.choice([0, 1, 5, 24, 60]))
        elif kind == "kill" and chance.random() < 0.3:
            self.kill_program()
        elif kind == "save" and chance.random() < 0.5:
            terminal.save(chance.choice(TEXTS))
        elif kind == "save":
            with open(os.path.join(self.folder, "my.sbl"), "w", encoding="utf-8") as file:
                file.write(chance.choice(TEXTS))
        self.count += 1
        terminal.got(None, chance.choice([0, 0.002, 0.01, 0.03]))

    def ask(self, line: str, until: bytes) -> str:
        """Types a line at an empty prompt, and returns what comes up to a text."""
        shown = self.terminal.type(line + "\r", until, PATIENCE)
        self.case.assertRegex(shown.encode(), until, "%s\nafter %d moments of %s: %r" % (shown[-500:], self.count, line, self.terminal.seen[-1500:]))
        return shown

    def settle(self) -> None:
        """Drops what is being typed; then a prompt has to be there. (What comes right after a block that is refused is dropped with it.)"""
        self.terminal.resize(80, 24)
        for patience in (1, 2, 4, 8, PATIENCE):
            for keys in (b"\x03", b"\x07\x03"):
                self.terminal.send(keys)
                self.terminal.got(None, 0.05)
            alive = rb"(?<!echo )alive%d\r?\n" % self.count
            shown = self.terminal.type("\x15echo alive%d\r" % self.count, alive, patience)
            if re.search(alive, shown.encode()):
                return
        self.case.fail("no prompt after %d moments: %r" % (self.count, self.terminal.seen[-1500:]))

    def edit(self) -> str:
        """Types an edit over a good script; returns its mark."""
        self.terminal.save(GOOD)
        self.terminal.got(None, 0.2)
        self.ask("reload", rb"(since|from) the mark")
        mark, shown = "m%d" % self.count, "type it again"
        # (the program may have been killed just before)
        while "type it again" in shown:
            after = rb"'%s' \)(.|\n)*\.\r?\n(.|\n)*((since|from)\s+the\s+mark|type\s+it\s+again)" % mark.encode()
            shown = " ".join(self.ask("routine r\r( '%s' )\r." % mark, after).split())
        return mark

    def is_there(self, mark: str) -> None:
        self.ask("show r", rb"as \( '%s' \)" % mark.encode())

    def close(self, mark: str) -> None:
        """Ends `work` in some way: nothing goes on, and the next start brings the edit back."""
        running = self.terminal.processes()
        self.chance.choice(ENDS)(self.terminal)
        end = time.monotonic() + PATIENCE
        while alive(running) and time.monotonic() < end:
            time.sleep(0.02)
        self.case.assertEqual(alive(running), [])
        self.terminal = self.begin()
        self.case.assertIn("rescue brings", " ".join(self.shown.split()))
        self.ask("rescue", rb"(since|from) the mark")
        self.is_there(mark)

    def play(self, moments: int) -> None:
        turn = 0
        while self.count < moments:
            for _ in range(20):
                self.moment()
            self.settle()
            mark, turn = self.edit(), turn + 1
            for _ in range(5):
                self.moment(is_harmless=True)
            self.settle()
            self.is_there(mark)
            if turn % 2:
                self.close(mark)
            self.terminal.save(GOOD + "// %d\n" % self.count)
            shown = self.terminal.got(rb"replaced", PATIENCE)
            self.case.assertRegex(shown, r"replaced")
            self.ask("undo", rb"taken back(.|\n)*(since|from) the mark")
            self.is_there(mark)


class Moments(Case):
    def test_moments(self) -> None:
        players = [Player(self, seed) for seed in range(1, PLAYERS + 1)]
        with ThreadPoolExecutor(PLAYERS) as pool:
            list(pool.map(lambda player: player.play(MOMENTS // PLAYERS), players))
        for player in players:
            self.assertIsNone(re.search(rb"Traceback|This client has a fault", player.terminal.seen))
        self.assertGreaterEqual(sum(player.count for player in players), MOMENTS)
