"""The command line of `page`."""
import json
import os
import signal
import socket
import subprocess
import sys
import urllib.request
from typing import Any

from ..kit import CLIENT, PROGRAM, Case
from .kit import OTHER, SCRIPT, WORDS


class Commands(Case):
    def begin(self, room: str, *words: str, **options: Any) -> "subprocess.Popen[bytes]":
        command = [sys.executable, "-E", "-s", "-B", CLIENT, "--page", "--program", PROGRAM, *words]
        environment = {**os.environ, "XDG_STATE_HOME": os.path.join(room, "state"), "XDG_CACHE_HOME": os.path.join(room, "cache")}
        # (tests that run in the background ignore Ctrl-C, and so would the page)
        made = subprocess.Popen(
            command, cwd=room, env=environment, stdin=subprocess.DEVNULL, stdout=subprocess.PIPE, stderr=subprocess.PIPE,
            preexec_fn=lambda: signal.signal(signal.SIGINT, signal.SIG_DFL),  # noqa: PLW1509
        )
        self.addCleanup(made.communicate)
        self.addCleanup(made.kill)
        return made

    def test_a_page_from_its_start_to_its_end(self):
        room = self.room(my_sbl=SCRIPT, my_words=WORDS)
        page = self.begin(room, "my.sbl", "my.words")
        address = page.stdout.readline().decode().strip()
        self.assertRegex(address, r"^http://127\.0\.0\.1:2\d{4}/[\w-]{32}/$")
        self.assertIn("Who has it can read the script and write it", page.stderr.readline().decode())
        with urllib.request.urlopen(address, timeout=60) as reply:
            self.assertIn(b"<title>Voltizug</title>", reply.read())
        # (a second page over the same script is at another port)
        second = self.begin(room, "my.sbl", "my.words").stdout.readline().decode()
        self.assertNotEqual(second.split("/")[2], address.split("/")[2])
        page.send_signal(signal.SIGINT)
        self.assertEqual(page.wait(60), 0)
        self.assertEqual(len(os.listdir(os.path.join(room, "state", "voltizug", "open"))), 1)

    def test_what_was_tried_is_brought_back(self):
        """By what the page says at its end."""
        room = self.room(my_sbl=SCRIPT)
        with open(os.path.join(room, "my words"), "w") as file:
            file.write(WORDS)
        page = self.begin(room, "my.sbl", "my words")
        address = page.stdout.readline().decode().strip()
        headers = {"Origin": address.rpartition("/")[0].rpartition("/")[0], "Content-Type": "application/json"}
        for path, given in (("trial", {"text": OTHER}), ("add", {"words": ["walker"]})):
            request = urllib.request.Request(address + path, json.dumps(given).encode(), headers)
            with urllib.request.urlopen(request, timeout=60) as reply:
                self.assertEqual(reply.status, 200)
        page.send_signal(signal.SIGINT)
        said = page.stderr.read().decode().splitlines()[-1]
        self.assertEqual(said, "snowbench: what you tried or added is in no file, and is kept. Start ./snowbench work my.sbl 'my words', and type rescue: it is there again.")
        terminal = self.terminal(room, "my.sbl", "my words")
        self.assertIn("in no file when work or the page ended (a part of the script and 1 added word): rescue brings them back", " ".join(terminal.got().split()))
        terminal.enter("rescue")
        self.assertIn("'ing'", terminal.enter("show r"))
        self.assertIn("walker", terminal.enter("find walker"))

    def test_what_cannot_be_begun(self):
        room = self.room(my_sbl=SCRIPT)
        taken = socket.create_server(("127.0.0.1", 0))
        self.addCleanup(taken.close)
        port = str(taken.getsockname()[1])
        cases = {("none.sbl",): "none.sbl cannot be read: there is no such file", ("my.sbl", "my.sb"): "my.sb cannot be read: there is no such file. Did you mean my.sbl?", ("--port", "70000", "my.sbl"): "0 to 65535", ("--port", "abc", "my.sbl"): "--port: it takes a number from 0 to 65535", ("--port", port, "my.sbl"): "cannot be had", (): "usage: snowbench page [--port N]"}
        for words, said in cases.items():
            page = self.begin(room, *words)
            self.assertIn(said, page.stderr.read().decode())
            self.assertEqual(page.wait(60), 2, words)

    def test_words_with_a_fault(self):
        page = self.begin(self.room(my_sbl=SCRIPT, my_words="a\n" + "b" * 256 + "\n"), "my.sbl", "my.words")
        self.assertTrue(page.stdout.readline().startswith(b"http://127.0.0.1:"))
        page.stderr.readline()
        self.assertEqual(page.stderr.readline(), b"The page waits: my.words has a word of more than 255 characters.\n")

    def test_a_script_with_a_fault(self):
        page = self.begin(self.room(my_sbl="externals ( stem )\n"), "my.sbl")
        self.assertTrue(page.stdout.readline().startswith(b"http://127.0.0.1:"))
        page.stderr.readline()
        self.assertIn("my.sbl has a fault, and the page waits: ", page.stderr.readline().decode())
