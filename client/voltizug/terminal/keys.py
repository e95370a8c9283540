"""Line editing by readline, and which keys are signals. Files are looked at by a signal of a timer, whose handler CPython runs while readline waits
for a key. It clears the line, shows what changed, and draws the line again: by ctypes, since `readline.redisplay` believes that it is still there.
"""
import contextlib
import ctypes
import errno
import os
import readline
import select
import signal
import subprocess
import sys
import termios
import time
from typing import Any, Callable, Dict, List, Optional, Sequence, Tuple

HISTORY, INTERRUPT, PAUSE = 2000, b"\x03", 0.1
# How often files are looked at, and how soon again after a change (a file may still be being written); how often signals are if no file is.
PERIOD, SOON, REST = 0.02, 0.005, 0.5
# Of readline's state: its callbacks are installed.
CALLBACK = 0x80000


class Dropped(Exception):
    """Ctrl-C dropped the line."""


class Broken(Exception):
    """Ctrl-C came while a report was worked out or written."""


class Hangup(BaseException):
    """The terminal is gone, or somebody ends this process."""


def loaded_readline() -> Any:
    """Returns readline's library, with its state and its editing mode; nothing if it is libedit: then a save waits for the next line."""
    try:
        library: Any = ctypes.CDLL(readline.__file__)
        for name in ("rl_clear_visible_line", "rl_on_new_line", "rl_forced_update_display", "rl_prep_terminal", "rl_deprep_terminal"):
            getattr(library, name)
        library.state, library.mode = ctypes.c_ulong.in_dll(library, "rl_readline_state"), ctypes.c_int.in_dll(library, "rl_editing_mode")
        return library
    except (OSError, AttributeError, ValueError):
        return None


def set_keys(settings: List[Any], is_needed: bool = False) -> None:
    """Has the terminal take these settings, if it is there. (A signal may break the call off, and Python does not try it again.)"""
    while True:
        try:
            return termios.tcsetattr(0, termios.TCSANOW, settings)
        except termios.error as why:
            if why.args[0] != errno.EINTR and is_needed:
                raise Hangup from None
            if why.args[0] != errno.EINTR:
                return None


def with_interrupt(settings: List[Any], character: bytes) -> List[Any]:
    """Returns settings of the terminal with another character for SIGINT."""
    return [*settings[:6], [*settings[6][: termios.VINTR], character, *settings[6][termios.VINTR + 1 :]]]


class Editor:
    """Reads lines at the terminal. It alone knows whether readline waits for a key. While a line is typed Ctrl-C is a key: as a signal between two
    keys it would be heard by CPython only later, and drop a later line. While a command runs it is a signal, and no key is shown."""

    def __init__(self, history: str, complete: Callable[[str, str], List[str]], saved: Optional[Callable[[], Any]], show_saved: Callable[[], None]):
        self.library, self.history, self.complete_text, self.saved, self.show_saved = loaded_readline(), history, complete, saved, show_saved
        self.base = termios.tcgetattr(0)
        self.typing = with_interrupt(self.base, b"\0")
        self.quiet = with_interrupt([*self.base[:3], self.base[3] & ~(termios.ECHO | termios.ICANON), *self.base[4:]], INTERRUPT)
        # Whether readline waits for a key; whether a save is shown above a line; whether Ctrl-C came while a command ran; whether somebody ends
        # this process: it is told so until it hears it.
        self.is_waiting = self.is_above = self.is_interrupted = self.is_ended = False
        # The lines that came with one that was pasted; what TAB can complete.
        self.pending, self.found = [], []  # type: List[str], List[str]
        # The saved files at the last look; the pager that has the terminal.
        self.looked, self.pager = None, None  # type: Any, Optional[subprocess.Popen[bytes]]
        self.on_interrupt: Callable[[], None] = lambda: None

    def begin(self) -> None:
        """Takes the keys and the signals of the terminal."""
        for number, handler in (
            (signal.SIGINT, self.hear_interrupt), (signal.SIGTSTP, self.hear_stop), (signal.SIGCONT, self.hear_continue),
            (signal.SIGHUP, self.hear_end), (signal.SIGTERM, self.hear_end), (signal.SIGALRM, self.hear_ring), (signal.SIGQUIT, signal.SIG_IGN),
        ):
            signal.signal(number, handler)
        # (it breaks off the wait for a key, but nothing that is being written)
        signal.siginterrupt(signal.SIGALRM, False)
        set_keys(self.quiet, is_needed=True)
        self.open_history()

    def end(self) -> None:
        """Gives the keys back. A second signal does not break this off."""
        for number in (signal.SIGHUP, signal.SIGTERM, signal.SIGALRM):
            signal.signal(number, signal.SIG_IGN)
        set_keys(self.base)

    # Signals

    def hear_interrupt(self, *_: object) -> None:
        self.is_interrupted = True
        self.on_interrupt()

    def hear_end(self, number: int, _: object) -> None:
        self.is_ended = True
        raise Hangup(number)

    def hear_stop(self, *_: object) -> None:
        """Ctrl-Z: gives the terminal back, and takes it again after fg. A pager stops, too: less, as it is run here, does not by itself."""
        pager = self.pager
        if self.is_waiting and self.library:
            self.library.rl_deprep_terminal()
        if pager:
            held = termios.tcgetattr(0)
            pager.send_signal(signal.SIGSTOP)
            # (until it has stopped it takes a key of the shell's)
            with contextlib.suppress(ChildProcessError):
                os.waitid(os.P_PID, pager.pid, os.WSTOPPED | os.WEXITED | os.WNOWAIT)
        print(flush=True)
        set_keys(self.base)
        signal.signal(signal.SIGTSTP, signal.SIG_DFL)
        os.kill(os.getpid(), signal.SIGTSTP)
        signal.signal(signal.SIGTSTP, self.hear_stop)
        if pager:
            # (it draws its page again, but does not hear a signal that comes just before it waits for a key: so there are two)
            set_keys(held)
            for number in (signal.SIGCONT, signal.SIGWINCH, signal.SIGWINCH):
                pager.send_signal(number)
                time.sleep(PAUSE)

    def hear_continue(self, *_: object) -> None:
        if not self.pager:
            set_keys(self.typing if self.is_waiting else self.quiet)
        if self.is_waiting and self.library:
            self.library.rl_prep_terminal(1)
            self.draw()

    def draw(self) -> None:
        """Draws the line again, below what is on the screen."""
        sys.stdout.flush()
        self.library.rl_on_new_line()
        self.library.rl_forced_update_display()

    def hear_ring(self, *_: object) -> None:
        """While a line is typed, every so often: shows what was saved and is not being written. CPython hears a signal that comes just before
        readline waits for a key only when another one breaks that wait off: this one."""
        if self.is_ended:
            raise Hangup
        # (it may be heard only after Enter, and then readline has no line)
        has_line = self.is_waiting and self.library and self.library.state.value & CALLBACK
        before, self.looked = self.looked, self.saved() if self.saved and has_line else None
        if has_line and self.looked != before:
            signal.setitimer(signal.ITIMER_REAL, SOON, PERIOD)
        if not self.looked or self.looked != before:
            return
        self.is_above, self.is_waiting = True, False
        now = termios.tcgetattr(0)
        try:
            set_keys(with_interrupt(now, INTERRUPT))
            # (also a line that is several rows long)
            self.library.rl_clear_visible_line()
            ctypes.CDLL(None).fflush(None)
            self.show_saved()
            set_keys(now)
            self.is_interrupted = False
            self.draw()
        finally:
            self.is_above, self.is_waiting = False, True

    # Lines

    def read(self, prompt: str) -> Optional[str]:
        """Returns a line, or nothing at the end. Lines that were pasted together come one by one."""
        if self.pending:
            self.is_interrupted = False
            print(prompt + self.pending[0], flush=True)
            return self.pending.pop(0)
        sys.stdout.flush()
        set_keys(self.typing, is_needed=True)
        try:
            self.is_waiting = True
            signal.setitimer(signal.ITIMER_REAL, *[PERIOD if self.saved else REST] * 2)
            text = input(prompt)
        except (SystemError, KeyboardInterrupt):
            # (`timeout` sends SIGCONT after SIGTERM, and CPython calls the handler of the second while the exception of the first one is set)
            if self.is_ended:
                raise Hangup from None
            raise
        except EOFError:
            # (a terminal that is gone ends its input, too)
            set_keys(self.typing, is_needed=True)
            print(flush=True)
            return None
        finally:
            self.is_waiting = self.is_interrupted = False
            signal.setitimer(signal.ITIMER_REAL, 0)
            set_keys(self.quiet)
        if text.endswith("\x03"):
            raise Dropped
        # (an empty line at the end of a paste is no wish to reload)
        line, *self.pending = text.rstrip("\n").split("\n")
        return line

    def drop_pasted(self) -> int:
        """Drops the lines that came with a refused one; returns how many. If the terminal tells no paste, all that comes without a pause is dropped."""
        count = len(self.pending)
        while select.select([0], [], [], PAUSE)[0]:
            keys = os.read(0, 1024)
            if not keys:
                break
            count += sum(keys.count(end) for end in (b"\r", b"\n"))
        self.pending.clear()
        return count

    @staticmethod
    def has_key() -> bool:
        return bool(select.select([0], [], [], 0)[0])

    def rows_typed(self, columns: int) -> int:
        """Returns how many rows more than one the line takes above which a save is shown."""
        return (len(readline.get_line_buffer()) + 2) // columns if self.is_above else 0

    def show_in(self, command: Sequence[str], text: bytes, environment: Dict[str, str]) -> None:
        """Lends the terminal to a pager, and takes it back."""
        self.is_interrupted = False
        set_keys(self.base)
        try:
            with subprocess.Popen(command, stdin=subprocess.PIPE, env=environment) as self.pager:
                try:
                    self.pager.communicate(text)
                except BaseException:
                    self.pager.kill()
                    raise
        finally:
            self.pager, self.is_interrupted = None, False
            set_keys(self.quiet)

    # History and TAB

    def remember(self, *lines: str) -> None:
        """Remembers lines, those of a block together as one entry."""
        entry = "\n".join(lines)
        if not entry.strip():
            return
        # (readline knows no letters that the locale has not)
        with contextlib.suppress(OSError, UnicodeError):
            readline.add_history(entry)
            readline.append_history_file(1, self.history)

    def open_history(self) -> None:
        readline.set_auto_history(False)
        readline.set_history_length(HISTORY)
        with contextlib.suppress(OSError):
            os.close(os.open(self.history, os.O_CREAT | os.O_RDWR, 0o600))
            os.chmod(self.history, 0o600)
            readline.read_history_file(self.history)
            if readline.get_current_history_length() >= HISTORY:
                readline.write_history_file(self.history)
        readline.set_completer(self.complete)
        readline.set_completer_delims(" \t")
        # (it asks nothing before it shows completions, since that would take keys)
        for binding in ("tab: complete", "set show-all-if-ambiguous on", "set bell-style none", "set completion-query-items 0", "set page-completions off"):
            readline.parse_and_bind(binding)
        # Ctrl-C is a key that ends the line with a character of its own. (The last keymap is in force.)
        keymaps, is_vi = {"vi-command": "A", "emacs": r"\C-e", "vi-insert": r"\eA"}, self.library and self.library.mode.value == 0
        for keymap in keymaps if is_vi else ("vi-command", "vi-insert", "emacs"):
            readline.parse_and_bind("set keymap " + keymap)
            readline.parse_and_bind(r'"\C-c": "%s\C-v\C-c\C-m"' % keymaps[keymap])

    def complete(self, text: str, state: int) -> Optional[str]:
        """Returns the state-th completion. A tab among keys that come faster than one types is a tab of a text, but several tabs alone are as one."""
        if state == 0:
            # (a save that rings now would ask the program in the middle of a request)
            self.is_waiting = False
            try:
                tabs, is_pasted = self.take_tabs()
                self.found = [text + "\t"] if is_pasted else self.complete_text(readline.get_line_buffer()[: readline.get_endidx()], text)
                self.found = [text + "\t" * tabs] if self.found == [text + "\t"] else self.found
            except Exception:  # (readline would drop it without a word)
                self.found = []
            finally:
                self.is_waiting = True
        return self.found[state] if state < len(self.found) else None

    def take_tabs(self) -> Tuple[int, bool]:
        """Returns how many tabs came at once, and whether other keys came with them. These are given back."""
        count, key = 1, b"\t"
        while self.library and key == b"\t" and self.has_key():
            key = os.read(0, 1)
            count += key == b"\t"
        if key not in (b"\t", b""):
            self.library.rl_stuff_char(key[0])
        return count, key != b"\t" or self.has_key()
