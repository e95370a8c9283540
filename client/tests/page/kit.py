"""What the tests of the page share: a server over files, in this process, and requests as bytes."""
import json
import os
import socket
import threading
import time
import unittest
from typing import Any, Dict, List, Optional, Union

from voltizug.bench import Bench
from voltizug.kept import Kept
from voltizug.page.live import Live
from voltizug.page.serve import Server

from ..kit import PROGRAM, Case
from .browser import CHROMIUM, Browser, Tab

SCRIPT = "externals ( stem )\nroutines ( r )\nbackwardmode (\n  define r as ( [substring] among ( 'ed' 's' (delete) ) )\n)\ndefine stem as backwards ( do r )\n"
OTHER = SCRIPT.replace("'s'", "'ing'")
WORDS = "walks\nwalked\nwalking\ntalk\n"


class Page(Case):
    """A page over a script and words. It has no watch: a test reads what was saved by `live.read_saved`."""

    def page(self, script: Union[str, bytes] = SCRIPT, words: Union[str, bytes] = WORDS, program: str = PROGRAM, stems: str = "", families: str = "", **files: str) -> Live:
        self.folder = self.room(my_sbl=script, my_words=words, **files)
        there = [os.path.join(self.folder, name) for name in ("my.sbl", "my.words")]
        bench = Bench([program, "work", "--text"], there[0], there[1], Kept(os.path.join(self.folder, "state"), there[0]))
        live = Live(bench, *(os.path.join(self.folder, name) if name else "" for name in (stems, families)))
        self.addCleanup(bench.kept.lock.close)
        self.addCleanup(bench.close, False)
        live.open()
        settle(live)
        return live

    def serve(self, live: Live) -> Server:
        server = Server(0, live)
        threading.Thread(target=server.serve_forever, kwargs={"poll_interval": 0.05}, daemon=True).start()
        self.addCleanup(server.server_close)
        self.addCleanup(server.shutdown)
        return server

    def watch(self, live: Live) -> None:
        watch = threading.Thread(target=live.watch, daemon=True)
        watch.start()
        self.addCleanup(watch.join, 20)
        self.addCleanup(live.stopping.set)

    def need(self, live: Live, *commands: str) -> None:
        """Skips a test if the program lacks rows."""
        lacking = [line for line in commands if live.bench.known(line) is None]
        if lacking:
            self.skipTest("the program does not know %s" % ", ".join(lacking))


@unittest.skipUnless(CHROMIUM, "chromium is not installed")
class BrowserPage(Page):
    """A page in chromium, which is started once for the tests of a class."""

    @classmethod
    def setUpClass(cls) -> None:
        cls.browser = Browser()

    @classmethod
    def tearDownClass(cls) -> None:
        cls.browser.close()

    def show(self, script: Union[str, bytes] = SCRIPT, **given: Any) -> Tab:
        """Shows a page that is watched, in a first tab."""
        self.live = self.page(script, **given)
        self.watch(self.live)
        self.server = self.serve(self.live)
        return self.tab()

    def tab(self) -> Tab:
        tab = self.browser.open(self.server.address())
        self.addCleanup(self.browser.ask, "Target.closeTarget", targetId=tab.target)
        tab.wait("typeof S !== 'undefined' && S.words.length && S.st.counts !== undefined && S.st.warnings !== undefined")
        return tab


class View:
    """What a browser makes of states, one after another, as page.js does."""

    def __init__(self) -> None:
        self.shown: Dict[str, Any] = {"version": -1}

    def take(self, news: Dict[str, Any]) -> "View":
        shown = {**self.shown, **{name: value for name, value in news.items() if name not in ("delta", "marks")}}
        shown["outcomes"] = list(shown["outcomes"])
        for i, outcome in news.get("delta", []):
            shown["outcomes"][i] = outcome
        if "marks" in news:
            shown["marked"] = list(shown["outcomes"])
            for i, outcome in news["marks"]:
                shown["marked"][i] = outcome
        self.shown = shown
        return self

    def changes(self) -> List[List[str]]:
        """Returns all rows of changes, those of words first."""
        words, marked, now = (self.shown[name] for name in ("words", "marked", "outcomes"))
        kinds = {"=": "stem", "!": "refused"}
        changed = [["changed", word, kinds[a[0]], a[1:], kinds[b[0]], b[1:]] for word, a, b in zip(words, marked, now) if a not in (None, b)]
        return changed + self.shown["changes"]


def changes(live: Live) -> List[List[str]]:
    return View().take(live.state(-1)).changes()


def settle(live: Live) -> None:
    """Has the page ask for what takes longer."""
    while live.owed:
        live.settle()


def until(condition: Any, seconds: float = 60) -> Any:
    end = time.monotonic() + seconds
    while time.monotonic() < end:
        value = condition()
        if value:
            return value
        time.sleep(0.02)
    raise AssertionError("not in %d s" % seconds)


class Answer:
    def __init__(self, data: bytes):
        head, _, self.body = data.partition(b"\r\n\r\n")
        lines = head.decode("latin-1").split("\r\n")
        self.status = int(lines[0].split(" ")[1]) if data else 0
        self.headers = {name.lower(): value for name, _, value in (line.partition(": ") for line in lines[1:])}

    def json(self) -> Any:
        return json.loads(self.body)


def send(server: Server, data: bytes, seconds: float = 30) -> Answer:
    """Sends bytes, and returns what comes until the other side closes or the answer is whole."""
    with socket.create_connection(server.server_address, seconds) as connection:
        connection.sendall(data)
        got = b""
        while True:
            part = connection.recv(65536)
            got += part
            head, found, body = got.partition(b"\r\n\r\n")
            length = [line for line in head.lower().split(b"\r\n") if line.startswith(b"content-length:")] if found else []
            if not part or length and len(body) >= int(length[0].split(b":")[1]):
                return Answer(got)


def request(server: Server, method: str = "GET", path: str = "", headers: Optional[Dict[str, str]] = None, body: Optional[bytes] = None, **options: Any) -> Answer:
    """Sends a request as the page does; HEADERS replace those of the page, and take away those that are empty."""
    host = "127.0.0.1:%d" % server.server_address[1]
    usual = {"Host": host, **({"Origin": "http://" + host, "Content-Type": "application/json", "Content-Length": str(len(body))} if body is not None else {})}
    lines: List[str] = ["%s: %s" % pair for pair in {**usual, **(headers or {})}.items() if pair[1]]
    target = options.get("target", "/%s/%s" % (server.secret, path))
    return send(server, "\r\n".join(["%s %s HTTP/1.1" % (method, target), *lines, *options.get("more", []), "", ""]).encode() + (body or b""))


def post(server: Server, path: str, **given: Any) -> Answer:
    return request(server, "POST", path, body=json.dumps(given).encode())
