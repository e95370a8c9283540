"""Storms: saves, keys, Ctrl-C and other sizes of the window at random moments. STORM=N makes them N times as long."""
import os
import random
import re
import time

from .kit import Case, Terminal, example

TIMES = float(os.environ.get("STORM", "1"))
TEXT = example("porter.sbl")
TEXTS = (TEXT.replace("'ism' 'ate'", "'ism'"), TEXT)
SMALL = "externals ( stem )\nroutines ( r )\ndefine r as true\ndefine stem as do r\n"
LOOPING = SMALL.replace("do r", "( repeat true )")
KEYS = (b"w", b"h", b"y", b" r", b"\x1b[D", b"\x7f", b"\t", b"un", b"\x01", b"\x05", b"\x1b[A", b"\x1b[B", b"\x12")
COMMANDS = (
    "stems", "largest 5", "why w1", "unused", "changes", "stats", "undo", "redo", "define r as delete\r.", "", "mark", "class w1x", "show r", "foo",
    "families\rw1 w2\r.", "reload", "limit 2000", "limit 100000", "counts", "find w1", "uses r", "help",
)


def busy(terminal: Terminal) -> float:
    """Returns for how many milliseconds the processes of a terminal have run."""
    total = 0.0
    for number in terminal.processes():
        for task in os.listdir("/proc/%d/task" % number):
            with open("/proc/%d/task/%s/schedstat" % (number, task)) as file:
                total += int(file.read().split()[0]) / 1e6
    return total


class Storms(Case):
    def test_saves_while_keys_are_typed(self):
        chance = random.Random(7)
        folder = self.room(my_sbl=TEXT, my_words="".join("w%d\n" % i for i in range(2000)) + "running\n")
        terminal = self.terminal(folder, "--watch", "my.sbl", "my.words", term="xterm")
        terminal.got(rb"0 refused(.|\n)*> ")
        asked = 0
        for i in range(int(80 * TIMES)):
            text = chance.choice(TEXTS) + "// %d\n" % i
            if chance.random() < 0.5:
                terminal.save(text)
            else:
                with open(os.path.join(folder, "my.sbl"), "w") as file:
                    file.write(text)
            end = time.monotonic() + chance.uniform(0.02, 0.12)
            while time.monotonic() < end:
                if chance.random() < 0.4:
                    terminal.send(chance.choice(KEYS))
                terminal.got(None, 0.02)
            if i % 20 == 19:
                terminal.send(b"\x07\x01\x0becho mark%d\r" % i)
                asked += 1
        terminal.got(None, 1)
        self.assertEqual(len(set(re.findall(rb"\nmark(\d+)\r", terminal.seen))), asked)
        before = busy(terminal)
        terminal.got(None, 1)
        self.assertLess(busy(terminal) - before, 100)
        self.assertIn("steps", terminal.type(b"\x07\x01\x0bwhy running\r", rb"steps"))
        terminal.save(TEXT.replace("define stem as", "define stem as ("))
        self.assertIn("Nothing changed.", terminal.got(rb"Nothing changed\."))
        terminal.save(TEXT)
        terminal.got(rb"current script|differs from the mark|since the mark")

    def test_ctrl_c_at_random_moments(self):
        chance = random.Random(5)
        folder = self.room(my_sbl=SMALL, my_words="".join("w%d\n" % i for i in range(3000)))
        terminal = self.terminal(folder, "--watch", "my.sbl", "my.words")
        terminal.got()
        for i in range(int(40 * TIMES)):
            if i % 7 == 0:
                terminal.save(chance.choice([SMALL, LOOPING, SMALL + "// c", "define"]))
            terminal.send(chance.choice(COMMANDS) + "\r")
            terminal.got(None, chance.choice([0, 0.002, 0.02, 0.1, 0.4]))
            terminal.send(b"\x03" * chance.choice([1, 1, 2]))
            terminal.got(None, chance.choice([0, 0.01, 0.05]))
            if i % 20 == 19:
                terminal.got(None, 0.3)
                terminal.send("\r")
                terminal.got(None, 0.3)
                shown = terminal.type("\x03", None, 0.3) + terminal.type("\x03echo alive%d\r" % i, rb"\nalive%d\n" % i, 20)
                self.assertIn("\nalive%d\n" % i, shown)
        terminal.save(SMALL)
        terminal.type("\x03reload\r", None, 2)
        self.assertIn("3,000 words", terminal.type("stats\r", rb"runs so far"))
        self.assertNotIn(b"Traceback", terminal.seen)
        self.assertNotIn(b"This client has a fault", terminal.seen)

    def test_other_sizes_of_the_window(self):
        chance = random.Random(3)
        folder = self.room(my_sbl=TEXT, my_words="running\nruns\n")
        terminal = self.terminal(folder, "--watch", "my.sbl", "my.words", term="xterm")
        terminal.got(rb"0 refused(.|\n)*> ")
        terminal.send(b"why " + b"run" * 80)
        for i in range(int(60 * TIMES)):
            terminal.resize(chance.choice([0, 1, 2, 7, 40, 80, 200]), chance.choice([0, 1, 2, 5, 24, 60]))
            terminal.got(None, 0.01)
            if i % 10 == 0:
                terminal.save(TEXTS[i // 10 % 2])
        terminal.resize(80, 24)
        terminal.got(None, 0.5)
        self.assertIn("2 words", terminal.type("\x15stats\r", rb"runs so far"))
