"""What tests share: the program of dist/, rooms with files, and `work` at a pseudo-terminal."""
import fcntl
import os
import pty
import re
import select
import shutil
import signal
import struct
import sys
import tempfile
import termios
import time
import unittest
from typing import Any, Dict, List, Optional, Sequence, Union

CLIENT = os.path.dirname(os.path.dirname(os.path.abspath(__file__)))
PROGRAM = os.environ.get("SNOWBENCH_PROGRAM") or os.path.join(os.path.dirname(CLIENT), "dist", "snowbench-x86_64-linux")
FAKE = os.path.join(CLIENT, "tests", "fake.py")
EXAMPLES = os.path.join(os.path.dirname(CLIENT), "examples")
# (compiled modules are kept for all tests)
CACHE = os.path.join(tempfile.gettempdir(), "voltizug-tests-%d" % os.getuid())
PROMPT = re.compile(rb"(?:^|\n)[>|] \Z")
LOOP = "externals ( stem )\nroutines ( r )\ndefine r as ( [ among ( 'x' (delete) ) ] )\ndefine stem as ( repeat do r )\n"


def example(name: str) -> str:
    with open(os.path.join(EXAMPLES, name), encoding="utf-8") as file:
        return file.read()


class Case(unittest.TestCase):
    def room(self, **files: Union[str, bytes]) -> str:
        """Returns a folder with files: a name has _ for the point."""
        room = tempfile.mkdtemp()
        self.addCleanup(shutil.rmtree, room, ignore_errors=True)
        for name, text in files.items():
            write(os.path.join(room, name.replace("_", ".", 1)), text)
        return room

    def terminal(self, room: str, *words: str, **options: Any) -> "Terminal":
        terminal = Terminal(room, words or ("my.sbl", "my.words"), **options)
        self.addCleanup(terminal.close)
        return terminal


def write(path: str, text: Union[str, bytes]) -> None:
    """Writes a file at once: nobody reads a part of it."""
    with open(path + ".new", "wb") as file:
        file.write(text if isinstance(text, bytes) else text.encode())
    os.replace(path + ".new", path)


class Terminal:
    """`work` at a terminal of so many columns and lines."""

    def __init__(self, room: str, words: Sequence[str], columns: int = 200, lines: int = 40, term: str = "dumb", program: str = PROGRAM, **environment: str):
        self.room, self.seen, self.status = room, b"", None  # type: str, bytes, Optional[int]
        is_in_shell = words == ("bash",)
        self.child, self.end = pty.fork()
        if self.child == 0:
            # (a terminal of another test would not be closed as long as this child has it open)
            os.closerange(3, 4096)
            size = struct.pack("HHHH", lines, columns, 0, 0)
            fcntl.ioctl(0, termios.TIOCSWINSZ, size)
            os.chdir(room)
            state = {"TERM": term, "XDG_STATE_HOME": os.path.join(room, "state"), "XDG_CACHE_HOME": CACHE, "PAGER": "cat", "LC_ALL": "C.UTF-8", "SNOWBENCH_PROGRAM": program}
            command = ["/bin/bash", "--norc", "--noprofile", "-i"] if is_in_shell else [sys.executable, "-s", "-B", CLIENT, *words]
            os.execve(command[0], command, {**os.environ, **state, **environment})

    def got(self, until: Any = PROMPT, seconds: float = 20) -> str:
        """Returns what comes up to a text, and a moment after it."""
        new, end = b"", time.monotonic() + seconds
        while time.monotonic() < end and not (until and re.search(until, new.replace(b"\r\n", b"\n"))):
            if select.select([self.end], [], [], 0.05)[0]:
                try:
                    data = os.read(self.end, 65536)
                except OSError:
                    break
                if not data:
                    break
                new += data
        self.seen += new
        return new.decode("utf-8", "replace").replace("\r\n", "\n")

    def type(self, keys: Union[str, bytes], until: Any = PROMPT, seconds: float = 20) -> str:
        self.send(keys)
        return self.got(until, seconds)

    def send(self, keys: Union[str, bytes]) -> None:
        data = keys if isinstance(keys, bytes) else keys.encode()
        while data:
            select.select([], [self.end], [], 5)
            data = data[os.write(self.end, data[:512]) :]
            if data:
                self.got(None, 0.01)

    def enter(self, *lines: str) -> str:
        """Types lines, each at its prompt. Returns what the last one brought, without its prompt."""
        shown = ""
        for line in lines:
            shown = self.type(line + "\r")
        return "\n".join(shown.split("\n")[1:-1])

    def save(self, text: str, name: str = "my.sbl") -> None:
        write(os.path.join(self.room, name), text)

    def resize(self, columns: int, lines: int) -> None:
        fcntl.ioctl(self.end, termios.TIOCSWINSZ, struct.pack("HHHH", lines, columns, 0, 0))

    def processes(self) -> List[int]:
        """Returns the processes of this `work`: the client first."""
        found, waiting = [], [self.child]  # type: List[int], List[int]
        while waiting:
            found.append(waiting.pop(0))
            try:
                for task in os.listdir("/proc/%d/task" % found[-1]):
                    with open("/proc/%d/task/%s/children" % (found[-1], task)) as file:
                        waiting += map(int, file.read().split())
            except OSError:
                pass
        return found

    def ended(self, seconds: float = 10) -> Optional[int]:
        """Returns the status once `work` has ended; nothing if it does not."""
        end = time.monotonic() + seconds
        while self.status is None and time.monotonic() < end:
            self.got(None, 0.02)
            number, status = os.waitpid(self.child, os.WNOHANG)
            self.status = os.waitstatus_to_exitcode(status) if number else None
        return self.status

    def close(self) -> None:
        if self.status is None:
            for number in self.processes():
                try:
                    os.kill(number, signal.SIGKILL)
                except OSError:
                    pass
            os.waitpid(self.child, 0)
        try:
            os.close(self.end)
        except OSError:
            pass


def alive(numbers: Sequence[int]) -> List[int]:
    """Returns those of the processes that still run."""
    running: Dict[int, str] = {}
    for number in numbers:
        try:
            with open("/proc/%d/stat" % number) as file:
                running[number] = file.read().rpartition(")")[2].split()[0]
        except OSError:
            pass
    return [number for number, state in running.items() if state != "Z"]
