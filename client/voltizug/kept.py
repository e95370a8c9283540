"""What is kept beside the script: the history of lines, and for each `work` a folder with what was typed, in case that it does not end by itself."""
import contextlib
import fcntl
import os
import shutil
import stat
import tempfile
import time
from typing import IO, List, NamedTuple, Optional, Sequence, Tuple

# The largest file that is read; how old a folder is in which a `work` may be just beginning, in seconds.
LARGEST, YOUNG = 1 << 26, 60

FileState = Optional[Tuple[int, int, int]]
# What was left behind: the folder, the file in it that has the text with typed edits, their names, added words, lines of an open block, and the text
# of SCRIPT that the edits were typed over.
Left = NamedTuple("Left", [("room", str), ("path", str), ("edits", List[str]), ("words", List[str]), ("block", List[str]), ("base", Optional[bytes])])


class Kept:
    """The client's folder: `history`, and `open/N` for each `work`, which is locked as long as that runs."""

    def __init__(self, folder: str, script: str):
        self.folder, self.script = folder, os.path.realpath(script)
        os.makedirs(os.path.join(folder, "open"), mode=0o700, exist_ok=True)
        self.room = tempfile.mkdtemp(prefix="%d-" % os.getpid(), dir=os.path.join(folder, "open"))
        self.lock = locked(self.room)
        self.history = os.path.join(folder, "history")

    def note(self, name: str, lines: Sequence[str]) -> None:
        """Notes what no file has, in a file of the room: `about` has the name of another file of the room, whose text has them, and their names;
        `added` has the words that were added, `block` the lines of a block that is open. Without lines that is forgotten."""
        self.keep(name, "\n".join([self.script, *lines]).encode("utf-8", "surrogateescape") if lines else b"")

    def keep(self, name: str, text: bytes) -> str:
        """Writes a file of the room. Returns its path."""
        path = os.path.join(self.room, name)
        with contextlib.suppress(OSError), open(path, "wb") as file:
            file.write(text)
        return path

    def has(self, *names: str) -> bool:
        return any(read_file(os.path.join(self.room, name)) for name in names)

    def left(self) -> List[Left]:
        """Returns what was left behind over this script, the oldest first. Folders that have nothing are taken away."""
        found = []
        for entry in os.scandir(os.path.join(self.folder, "open")):
            # (this one's is locked, too)
            lock = locked(entry.path)
            if lock is None:
                continue
            with lock:
                texts = [read_file(os.path.join(entry.path, name)) or b"" for name in ("about", "added", "block")]
                edits, added, block = (text.decode("utf-8", "surrogateescape").split("\n") for text in texts)
                if self.script in (edits[0], added[0], block[0]):
                    path = os.path.join(entry.path, edits[1]) if edits[1:] else ""
                    found.append((entry.stat().st_mtime, Left(entry.path, path, edits[2:], added[1:], block[1:], read_file(path + ".base"))))
                elif not any(texts) and entry.stat().st_mtime < time.time() - YOUNG:
                    self.forget(entry.path)
        return [left for _, left in sorted(found)]

    def forget(self, room: str) -> None:
        shutil.rmtree(room, ignore_errors=True)


def locked(room: str) -> Optional[IO[bytes]]:
    """Locks a folder until the file that is returned is closed, or this process ends. Returns nothing if another process has locked it."""
    with contextlib.ExitStack() as stack, contextlib.suppress(OSError):
        file = stack.enter_context(open(os.path.join(room, "lock"), "wb"))
        fcntl.flock(file, fcntl.LOCK_EX | fcntl.LOCK_NB)
        stack.pop_all()
        return file
    return None


def home() -> str:
    """Returns the client's folder for its state, one of its own if that cannot be written."""
    folder = os.path.join(os.environ.get("XDG_STATE_HOME") or os.path.expanduser("~/.local/state"), "voltizug")
    with contextlib.suppress(OSError):
        os.makedirs(folder, mode=0o700, exist_ok=True)
        if os.access(folder, os.W_OK):
            return folder
    return tempfile.mkdtemp(prefix="voltizug-")


def state_of(path: Optional[str]) -> FileState:
    """Returns what tells one state of a file from another; nothing if there is none."""
    with contextlib.suppress(OSError, TypeError, ValueError):
        state = os.stat(path or "")
        return state.st_mtime_ns, state.st_size, state.st_ino
    return None


def read_file(path: Optional[str]) -> Optional[bytes]:
    """Returns what a file has; nothing if it cannot be read, is no regular file (a pipe is read once only) or is larger than any script."""
    with contextlib.suppress(OSError, TypeError, ValueError):
        state = os.stat(path or "")
        if stat.S_ISREG(state.st_mode) and state.st_size <= LARGEST:
            with open(path or "", "rb") as file:
                return file.read()
    return None


def write_file(path: str, data: bytes) -> bool:
    """Writes a file; returns whether it did. If that fails, a file that is there has its former text."""
    target = os.path.realpath(path)
    with contextlib.suppress(OSError), tempfile.TemporaryDirectory(dir=os.path.dirname(target)) as room:
        new = os.path.join(room, "new")
        with open(new, "wb") as file:
            file.write(data)
        if os.path.exists(target):
            shutil.copymode(target, new)
        os.replace(new, target)
        return True
    return False


def read_lines(path: Optional[str]) -> List[bytes]:
    return (read_file(path) or b"").splitlines()


def read_words(path: Optional[str]) -> List[bytes]:
    """Returns the lines of a list of words as the program reads them."""
    text = (read_file(path) or b"").removeprefix(b"\xef\xbb\xbf")
    lines = text.split(b"\n")
    return [line.removesuffix(b"\r") for line in (lines[:-1] if not lines[-1] else lines)]


def is_same(path: str, other: Optional[str]) -> bool:
    with contextlib.suppress(OSError, ValueError):
        return bool(other) and os.path.samefile(path, other or "")
    return False
