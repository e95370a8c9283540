"""One process of `work`: requests with a mark after each, both pipes read, time-outs, breaking off, and a new start with the current script."""
import contextlib
import os
import re
import selectors
import subprocess
import time
from itertools import accumulate
from typing import IO, Callable, List, NamedTuple, Optional, Sequence, Tuple

from .kept import write_file

# After how many seconds a request is said to take long; how often it is looked at the time meanwhile; how long an edit may take to break off;
# the most bytes of a line; how long the steps but the last one that a new start makes again may take, and how many they are.
LONG, LOOK, GRACE, LONGEST, AGAIN, MOST = 2.0, 0.2, 5.0, 65536, 10.0, 100
# The commands that the program breaks off itself, and how it refuses them then.
EDITS, BROKEN_OFF = ("replace", "reload", "routine", "among", "grouping", "limit", "words", "undo", "redo"), (68, "BrokenOff")
USUAL_LIMIT = "100000"
# How a request ended: with its answer; the program ended; somebody broke it off; its time was up.
DONE, ENDED, BROKEN, LATE = "done", "ended", "broken", "late"
# The number of the rows that this client knows.
ROWS = "2"


class Reply(NamedTuple):
    """The answer to one request, and what standard error had beside it, or beside those that were asked together with it."""

    state: str
    lines: List[str]
    said: List[str]

    def refusal(self) -> Optional[Tuple[int, str]]:
        found = re.fullmatch(r"no ([0-9]+) (\w+)", self.lines[0]) if len(self.lines) == 1 else None
        return (int(found[1]), found[2]) if found else None

    @property
    def is_done(self) -> bool:
        return self.state == DONE and not self.refusal()


class Moment(NamedTuple):
    """What a new start brings back: a text, a limit, the commands that changed the words since WORDS was read, and a file of stems, the mark."""

    text: bytes = b""
    limit: str = USUAL_LIMIT
    words: Tuple[str, ...] = ()
    stems: str = ""


# An accepted command: its lines, how many seconds it took, and the current state and that of the mark after it.
Step = NamedTuple("Step", [("lines", Sequence[str]), ("seconds", float), ("now", Moment), ("marked", Moment)])


class Skipped(Exception):
    """Ctrl-C came after an edit was accepted: what is left of its summary is left out."""


class Memory:
    """A file in memory, which a program that is started later reads by its name."""

    def __init__(self, data: bytes = b""):
        self.number = os.memfd_create("voltizug")
        self.path = "/dev/fd/%d" % self.number
        self.fill(data)

    def __del__(self) -> None:
        os.close(self.number)

    def fill(self, data: bytes) -> None:
        self.data = data
        with open(self.path, "wb") as file:
            file.write(data)


class Program:
    """`work` over a script and words, by their names. `room` is a folder of the client alone."""

    def __init__(self, command: Sequence[str], script: str, words: Optional[str], room: str, bell: Optional[Tuple[int, int]] = None):
        self.command, self.script, self.words = list(command), script, words
        self.copy_path, self.stop_path = os.path.join(room, "script"), os.path.join(room, "stop") if os.path.isdir(room) else ""
        # (a line that no report has)
        self.mark = "end of answer %d-%s" % (os.getpid(), os.urandom(8).hex())
        self.process: Optional[subprocess.Popen] = None
        self.now = self.marked = Moment()
        # What was done since the start, or since what a new start made one step, with the state before it; how many seconds the last request took.
        self.steps, self.took = [], 0.0  # type: List[Step], float
        # Whether a summary is made: it asks reports that Ctrl-C does not end; whether the bell has rung since it began.
        self.is_summing = self.has_rung = False
        # The number of the program's rows; the command that reads SCRIPT.
        self.rows, self.reload = "", "reload"
        # (called once, or again and again while it returns False)
        self.on_long: Optional[Callable[[], Optional[bool]]] = None
        # How the last request ended; Ctrl-C rings the bell, but not if WORDS could not be read again.
        self.state, self.bell, self.is_deaf = DONE, bell or os.pipe(), False
        for end in self.bell:
            os.set_blocking(end, False)

    def start(self) -> Reply:
        """Begins over the files as they are. The answer is that of `stats`; `ended` if a file has a fault."""
        self.is_deaf = False
        self.begin([], self.script)
        hello, reply = self.ask_each([["hello"], ["stats"]])
        if reply.is_done:
            self.rows, self.now = hello.lines[0].rpartition(",")[2], Moment(self.text() or b"")
            self.marked, self.is_deaf = self.now, bool(self.words) and not os.path.isfile(self.words or "")
            self.steps = [Step((), 0, self.now, self.marked)]
        return reply

    def begin(self, options: Sequence[str], script: str) -> None:
        self.stop()
        self.set_stop(False)
        options = [*options, *(["--stop", self.stop_path] if self.stop_path else [])]
        pipe, words = subprocess.PIPE, [*self.command, *options, "--", script, *([self.words] if self.words else [])]
        # (with its signals as they are here, a write to a file that may not grow fails, and ends nothing)
        self.process = subprocess.Popen(
            words, stdin=pipe, stdout=pipe, stderr=pipe, bufsize=0, start_new_session=True, restore_signals=False, pass_fds=in_memory(words)
        )
        for stream in (self.process.stdin, self.process.stdout, self.process.stderr):
            os.set_blocking(stream.fileno(), False)

    def stop(self) -> Optional[int]:
        """Ends the program, by its number. Returns its status."""
        if self.process is None:
            return None
        process, self.process = self.process, None
        with process:
            process.kill()
        return process.returncode

    def break_off(self) -> None:
        """Breaks off the request that runs; a handler of signals may call it."""
        self.has_rung = True
        with contextlib.suppress(BlockingIOError):
            os.write(self.bell[1], b"!")

    def hush(self) -> None:
        with contextlib.suppress(BlockingIOError):
            os.read(self.bell[0], 1 << 16)

    def set_stop(self, is_there: bool) -> None:
        """Makes the file at which an edit is broken off, or takes it away."""
        with contextlib.suppress(OSError):
            if is_there:
                open(self.stop_path, "w").close()
            else:
                os.remove(self.stop_path)

    def ask(self, lines: Sequence[str], patience: Optional[float] = None) -> Reply:
        return self.ask_each([lines], patience)[0]

    def ask_each(self, requests: Sequence[Sequence[str]], patience: Optional[float] = None, has_grace: bool = False) -> List[Reply]:
        """Sends requests at once and returns the reply of each. If the program is gone, the last ones say why. After the bell edits have some time
        to break off, and reports to end: those of a summary, after which it goes no further, and others that ask for it."""
        if self.process is None or not requests:
            return [Reply(ENDED, [], [])] * len(requests)
        if any(len(encoded(line)) > LONGEST for lines in requests for line in lines):
            return [Reply(DONE, ["no 72 LineTooLong"], [])] * len(requests)
        sent = "".join("%s\n" % line for lines in requests for line in [*lines, "echo " + self.mark])
        self.hush()
        self.has_rung = self.has_rung and self.is_summing
        if self.has_rung:
            raise Skipped
        is_edit, begin = bool(self.stop_path) and requests[-1][0].partition(" ")[0] in EDITS, time.monotonic()
        grace = GRACE if is_edit or has_grace or self.is_summing else 0
        self.state, out, said = self.exchange(encoded(sent), len(requests), patience, grace)
        self.took = time.monotonic() - begin if is_edit else self.took
        if self.state in (BROKEN, LATE):
            self.stop()
        if self.state == DONE and self.has_rung and self.is_summing:
            raise Skipped
        answers = out.split(encoded(self.mark + "\n"))[:-1]
        replies = [Reply(DONE, lines_of(answer), lines_of(said)) for answer in answers]
        return replies + [Reply(self.state, [], lines_of(said))] * (len(requests) - len(answers))

    def exchange(self, sent: bytes, wanted: int, patience: Optional[float], grace: float) -> Tuple[str, bytearray, bytearray]:
        """Sends bytes and takes what comes, up to so many marks. Returns how that ended, and what came from both pipes. After the bell it goes on for
        so many seconds, or until the bell rings again."""
        process, mark, begin = self.process, b"%s\n" % self.mark.encode(), time.monotonic()
        left, out, said, state, on_long, rung = memoryview(sent), bytearray(), bytearray(), "", self.on_long, 0.0
        with selectors.DefaultSelector() as selector:
            for stream in (process.stdout, process.stderr, *([] if self.is_deaf else [self.bell[0]])):
                selector.register(stream, selectors.EVENT_READ)
            selector.register(process.stdin, selectors.EVENT_WRITE)
            while not state:
                passed = time.monotonic() - begin
                if on_long and passed >= LONG and on_long() is not False:
                    on_long = None
                ready = [key.fileobj for key, _ in selector.select(LOOK)]
                if process.stdin in ready:
                    try:
                        left = left[process.stdin.write(left) or 0 :]
                    except BrokenPipeError:
                        left = left[:0]
                    if not left:
                        selector.unregister(process.stdin)
                if process.stderr in ready and take(process.stderr, said) == b"":
                    selector.unregister(process.stderr)
                if self.bell[0] in ready and grace and not rung:
                    rung = passed
                    self.hush()
                    self.set_stop(True)
                elif self.bell[0] in ready or rung and passed - rung >= grace:
                    state = BROKEN
                elif patience is not None and passed >= patience:
                    state = LATE
                if process.stdout in ready:
                    searched = max(0, len(out) - len(mark) + 1)
                    data = take(process.stdout, out)
                    wanted -= out.count(mark, searched)
                    state = DONE if wanted <= 0 else ENDED if data == b"" else state
        if rung:
            self.set_stop(False)
        # (what the program said before the mark is in the pipe now)
        if state == ENDED:
            process.wait()
        while take(process.stderr, said):
            pass
        return state, out, said

    def beside(self, command: Sequence[str], text: bytes, *requests: Sequence[str]) -> List[Reply]:
        """Returns the replies of another program, which has a text and no words."""
        memory = Memory(text)
        other = Program(command, memory.path, None, "", self.bell)
        try:
            other.begin([], memory.path)
            return other.ask_each(requests)
        finally:
            other.stop()

    def text(self, reply: Optional[Reply] = None) -> Optional[bytes]:
        """Returns the current text, byte for byte as `save` writes it; nothing if that is broken off. It may have been asked for already."""
        # (it may lack its last line feed)
        reply = reply or self.ask(["text", "echo"])
        return encoded("\n".join(reply.lines)) if reply.is_done else None

    def note(self, lines: Sequence[str], seconds: float = 0) -> None:
        """Notes an accepted command, after what it changed."""
        self.steps = [*self.steps[-MOST:], Step(lines, seconds, self.now, self.marked)]

    def begin_anew(self) -> bool:
        """Begins again, after the program was broken off or killed: makes the last steps again one by one, as many as take little time, after one
        step for all before them. Returns whether all is there again. If SCRIPT is gone, a copy is in its place."""
        now, was_deaf, self.is_deaf = Step((), 0, self.now, self.marked), self.is_deaf, True
        count = sum(passed <= AGAIN for passed in accumulate(step.seconds for step in self.steps[-2:0:-1]))
        ways = [(last, *way) for last in (self.steps[-2 - count :], [now]) for way in ((self.script, "reload"), (self.copy_path, "replace " + self.script))]
        is_there = any(self.goes_on(*way) for way in ways)
        self.is_deaf = was_deaf
        return is_there

    def goes_on(self, steps: List[Step], script: str, reload: str) -> bool:
        """Begins with the state of the first one of some steps, and makes the others again."""
        (_, _, now, marked), self.reload, self.steps = steps[0], reload, steps
        # (after `words` the vocabulary began anew)
        is_longer = now.words[: len(marked.words)] == marked.words
        requests = [["limit " + marked.limit], *([line] for line in marked.words), ["mark " + marked.stems if marked.stems else "mark"]]
        requests += [["replace " + self.copied(now.text, ".now")]] if now.text != marked.text else []
        requests += [["limit " + now.limit], *([line] for line in (now.words[len(marked.words) :] if is_longer else ["words", *now.words]))]
        for i, step in enumerate(steps[1:]):
            is_whole = step.lines[0].partition(" ")[0] in ("reload", "replace")
            requests += [["replace " + self.copied(step.now.text, ".%d" % i)] if is_whole else list(step.lines)]
        try:
            self.begin(["--from", self.copied(marked.text)], script)
        except OSError:
            return False
        # (WORDS may have changed: a word that was added is there already, or one that was taken out is not)
        is_there = [reply.is_done or reply.lines in (["no 40 Present"], ["no 41 Absent"]) for reply in self.ask_each(requests)]
        return all(is_there) and self.text() == self.now.text and (steps[-1].now, steps[-1].marked) == (self.now, self.marked)

    def copied(self, text: bytes, ending: str = "") -> str:
        """Returns the path of a copy of a text."""
        write_file(self.copy_path + ending, text)
        return self.copy_path + ending


def in_memory(words: Sequence[str]) -> List[int]:
    """Returns the numbers of the open files that words of a command name."""
    return [int(name[8:]) for name in words if re.fullmatch("/dev/fd/[0-9]+", name) and os.path.exists(name)]


def take(stream: IO[bytes], into: bytearray) -> Optional[bytes]:
    """Adds what can be read at once. Returns it: nothing if that is none, no bytes at the end."""
    data = stream.read(1 << 18)
    into += data or b""
    return data


def encoded(text: str) -> bytes:
    return text.encode("utf-8", "surrogateescape")


def lines_of(answer: bytes) -> List[str]:
    return answer.decode("utf-8", "surrogateescape").split("\n")[:-1]
