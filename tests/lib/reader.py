"""A reader of a page: a folder with ./snowbench and a copy of examples/, shell commands there, and `work` at a terminal."""
import fcntl
import os
import pty
import re
import select
import shutil
import struct
import subprocess
import termios
import time
from typing import Dict, List, Optional, Tuple

from faces import ask_page

TOP = os.path.dirname(os.path.dirname(os.path.dirname(os.path.realpath(__file__))))
# After how many seconds nothing more is awaited. (Other work on the machine can make a step long.)
PATIENCE = 240
PROMPT = re.compile(r"(?:\A|\n)[>|] \Z")
# What is shown besides if the machine is busy: a sentence, which may be broken over lines.
SLOW = re.compile(r"^This takes long\..*?(?:sooner|loops)\.\n", re.M | re.S)


def trimmed(text: str) -> List[str]:
    return [line.rstrip() for line in text.rstrip("\n").split("\n")]


class Terminal:
    """A command at a terminal, which shows prompts."""

    def __init__(self, command: str, folder: str, environment: Dict[str, str]) -> None:
        self.child, self.end = pty.fork()
        if self.child == 0:
            fcntl.ioctl(0, termios.TIOCSWINSZ, struct.pack("HHHH", 50, 140, 0, 0))
            os.chdir(folder)
            os.execve("/bin/bash", ["bash", "-c", f"exec {command}"], {**environment, "TERM": "dumb"})

    def reach_prompt(self) -> str:
        """What is shown up to the next prompt, which is the last line of it."""
        seen, end = "", time.monotonic() + PATIENCE
        while not PROMPT.search(seen) and time.monotonic() < end:
            if select.select([self.end], [], [], 0.05)[0]:
                try:
                    data = os.read(self.end, 65536)
                except OSError:
                    break
                seen = (seen + data.decode("utf-8", "replace")).replace("\r\n", "\n")
        return SLOW.sub("", seen)

    def type(self, line: str) -> str:
        os.write(self.end, line.encode() + b"\r")
        return self.reach_prompt()

    def close(self) -> None:
        """A hangup ends the command."""
        os.close(self.end)
        os.waitpid(self.child, 0)


class Reader:
    def __init__(self, room: str, program: Optional[str]) -> None:
        self.folder, home = room, os.path.join(room, "home")
        self.terminal: Optional[Terminal] = None
        self.shown = ""
        for name in ("home", "bin"):
            os.mkdir(os.path.join(room, name))
        shutil.copytree(os.path.join(TOP, "examples"), os.path.join(room, "examples"))
        for name, target in (("snowbench", "snowbench"), ("tools", "tools"), ("bin/snowbench", "snowbench")):
            os.symlink(os.path.join(TOP, target), os.path.join(room, name))
        path = f"{home}/.local/bin:{room}/bin:{os.environ['PATH']}"
        self.environment = {**os.environ, "PATH": path, "HOME": home, "XDG_STATE_HOME": home, "LC_ALL": "C.UTF-8", "GIT_CONFIG_NOSYSTEM": "1"}
        for kind in ("AUTHOR", "COMMITTER"):
            self.environment.update({f"GIT_{kind}_NAME": "A", f"GIT_{kind}_EMAIL": "a@b"})
        for name in ("PYTHONPATH", "SNOWBENCH_PROGRAM"):
            self.environment.pop(name, None)
        if program:
            self.environment["SNOWBENCH_PROGRAM"] = program

    def run(self, commands: str) -> Tuple[int, str, str]:
        """The status of commands, and what they wrote on both streams."""
        ended = subprocess.run(["bash", "-e", "-o", "pipefail", "-c", commands], cwd=self.folder, env=self.environment, stdin=subprocess.DEVNULL,
                               stdout=subprocess.PIPE, stderr=subprocess.PIPE, encoding="utf-8", errors="replace", timeout=PATIENCE, check=False)
        return ended.returncode, ended.stdout, ended.stderr

    def begin(self, command: str) -> None:
        """Starts `work` at a terminal, and ends the one before."""
        self.leave()
        self.terminal = Terminal(command, self.folder, self.environment)
        self.shown = self.terminal.reach_prompt()

    def type(self, lines: List[str]) -> None:
        """Types lines, each at a prompt."""
        assert self.terminal, "no work was begun"
        self.shown = "> "
        for line in lines:
            self.shown += self.terminal.type(line)

    def leave(self) -> None:
        if self.terminal:
            self.terminal.close()
        self.terminal = None

    def open_page(self, command: str) -> str:
        return ask_page(["bash", "-c", f"exec {command}"], cwd=self.folder, env=self.environment)
