"""The verb `page`: a live page over a script and words, for a browser on this machine. It listens on 127.0.0.1 alone, and its address has a
secret. Requests for another host, or from another page, are refused.
"""
import argparse
import contextlib
import hmac
import json
import os
import secrets
import signal
import sys
import threading
import webbrowser
import zlib
from http.server import BaseHTTPRequestHandler, ThreadingHTTPServer
from typing import Any, Callable, Dict, List, Optional, Sequence, Tuple
from urllib.parse import parse_qs, urlsplit

from ..bench import Bench
from ..kept import Kept, home
from ..layout import named
from ..options import CALLED, usual_program
from ..words import Refused, in_shell, unreadable
from .live import Live

HERE = os.path.dirname(os.path.realpath(__file__))
KINDS = {"page.html": "text/html", "page.css": "text/css", "page.js": "text/javascript"}
# The most bytes of a body; pages that listen, and requests at once; how often a page that listens gets a line, in seconds.
LARGEST, MOST_LISTENERS, MOST_REQUESTS, HEARTBEAT = 3 << 20, 24, 64, 10
POLICY = "default-src 'none'; script-src 'self'; style-src 'self'; connect-src 'self'; img-src data:; base-uri 'none'; form-action 'none'; frame-ancestors 'none'"
HEADERS = {
    "Content-Security-Policy": POLICY, "X-Content-Type-Options": "nosniff", "X-Frame-Options": "DENY", "Referrer-Policy": "no-referrer",
    "Cross-Origin-Opener-Policy": "same-origin", "Cross-Origin-Resource-Policy": "same-origin", "Cache-Control": "no-store",
}
ELSEWHERE = "Another page may not ask."
NO_PAGE = "There is no such page: take the whole address that snowbench page printed."
USAGE = "snowbench page [--port N] [--external NAME] [--families FILE] [--open] SCRIPT [WORDS [STEMS]]"


class Server(ThreadingHTTPServer):
    daemon_threads, request_queue_size = True, MOST_REQUESTS

    def __init__(self, port: int, live: Live):
        super().__init__(("127.0.0.1", port), Handler)
        self.live, self.secret = live, secrets.token_urlsafe(24)
        self.hosts = {"%s:%d" % (name, self.server_address[1]) for name in ("127.0.0.1", "localhost")}
        self.listeners, self.places = threading.BoundedSemaphore(MOST_LISTENERS), threading.BoundedSemaphore(MOST_REQUESTS)

    def address(self) -> str:
        return "http://127.0.0.1:%d/%s/" % (self.server_address[1], self.secret)

    def process_request(self, request: Any, client_address: Any) -> None:
        if self.places.acquire(blocking=False):
            super().process_request(request, client_address)
        else:
            self.shutdown_request(request)

    def process_request_thread(self, request: Any, client_address: Any) -> None:
        try:
            super().process_request_thread(request, client_address)
        finally:
            self.places.release()

    def handle_error(self, request: Any, client_address: Any) -> None:
        if not isinstance(sys.exc_info()[1], OSError):
            super().handle_error(request, client_address)


class Handler(BaseHTTPRequestHandler):
    server: Server
    protocol_version, timeout, disable_nagle_algorithm = "HTTP/1.1", 15, True
    server_version, sys_version = "snowbench", ""

    def log_message(self, *_: Any) -> None:
        pass

    def begin(self, status: int, kind: str, size: Optional[int] = None) -> None:
        self.send_response(status)
        for name, value in {**HEADERS, "Content-Type": kind + "; charset=utf-8"}.items():
            self.send_header(name, value)
        if size is not None:
            self.send_header("Content-Length", str(size))
        if status >= 400 or size is None:
            self.close_connection = True
            self.send_header("Connection", "close")
        self.end_headers()

    def reply(self, status: int, data: Any, kind: str = "application/json") -> None:
        body = data if isinstance(data, bytes) else in_json(data)
        self.begin(status, kind, len(body))
        if self.command != "HEAD":
            self.wfile.write(body)

    def checked(self) -> Optional[Tuple[str, Dict[str, str]]]:
        """Returns the path below the secret and the query of a request that may be answered; refuses any other."""
        headers, hosts = self.headers, self.server.hosts
        parts = urlsplit(self.path)
        secret, slash, rest = parts.path[1:].partition("/")
        is_known = hmac.compare_digest(secret.encode("utf-8", "replace"), self.server.secret.encode()) and slash and parts.path.startswith("/")
        is_opened = self.command == "GET" and headers.get("Sec-Fetch-Mode") == "navigate"
        if len(headers.get_all("Host", [])) != 1 or headers["Host"].lower() not in hosts:
            self.reply(421, {"sentence": "This is another host."})
        elif any(origin not in {"http://" + host for host in hosts} for origin in headers.get_all("Origin", [])):
            self.reply(403, {"sentence": ELSEWHERE})
        elif headers.get("Sec-Fetch-Site", "none") not in ("same-origin", "none") and not is_opened:
            self.reply(403, {"sentence": ELSEWHERE})
        elif not is_known:
            self.reply(404, {"sentence": NO_PAGE})
        else:
            return rest, {key: values[-1] for key, values in parse_qs(parts.query, keep_blank_values=True).items()}
        return None

    def do_GET(self) -> None:
        found = self.checked()
        if not found:
            return
        path, query, live = found[0] or "page.html", found[1], self.server.live
        asked: Dict[str, Callable[[], Any]] = {
            "word": lambda: live.word(query["word"], bool(query.get("all"))), "uses": lambda: live.uses(json.loads(query["rules"])), "families": live.families_now,
        }
        if path in KINDS:
            with open(os.path.join(HERE, path), "rb") as file:
                self.reply(200, file.read(), KINDS[path])
        elif path == "events" and self.command == "GET":
            self.listen()
        else:
            self.answer(asked.get(path))

    do_HEAD = do_GET

    def do_POST(self) -> None:
        found = self.checked()
        body = self.body() if found else None
        if not found or body is None:
            return
        live, given = self.server.live, body
        asked: Dict[str, Callable[[], Any]] = {
            "trial": lambda: live.take_trial(given["text"], str(given.get("base", "")), str(given.get("tab", ""))), "reload": lambda: live.edit(["reload"], "file"),
            "save": lambda: live.save(given.get("sure") is True, given.get("text"), str(given.get("base", "")), str(given.get("tab", ""))), "merge": lambda: live.merge(given["text"], given["base"]),
            "undo": lambda: live.undo("undo", int(given["count"])), "redo": lambda: live.undo("redo", int(given["count"])), "stop": live.bench.program.break_off,
            "mark": lambda: live.mark(given.get("stems") is True), "limit": lambda: live.limit(str(given["limit"])),
            "add": lambda: live.add([str(word) for word in given["words"]]), "append": live.append, "tokens": lambda: live.tokens(given["text"]),
        }
        self.answer(asked.get(found[0]))

    def body(self) -> Optional[Dict[str, Any]]:
        """Returns the body of a request, an object of JSON; refuses any other. A form, and another page, cannot send one without asking first."""
        size = self.headers.get("Content-Length", "")
        if self.headers.get("Origin") is None or self.headers.get_content_type() != "application/json":
            self.reply(403, {"sentence": ELSEWHERE})
        elif not (size.isascii() and size.isdigit()) or int(size) > LARGEST or "Transfer-Encoding" in self.headers:
            self.reply(413, {"sentence": "This is too long."})
        else:
            try:
                given = json.loads(self.rfile.read(int(size)) or b"{}")
                if isinstance(given, dict):
                    return given
            except (ValueError, RecursionError):
                pass
            self.reply(400, {"sentence": "This is no JSON."})
        return None

    def answer(self, do: Optional[Callable[[], Any]]) -> None:
        if do is None:
            return self.reply(404, {"sentence": NO_PAGE})
        try:
            data = do()
        except Refused as refused:
            return self.reply(409, {"sentence": str(refused)})
        except (KeyError, ValueError, TypeError, AttributeError) as fault:
            return self.reply(400, {"sentence": "%s: %s" % (type(fault).__name__, fault)})
        return self.reply(200, data)

    def listen(self) -> None:
        """Writes what is new each time that there is something, as Server-Sent Events. Each has the number of its version."""
        if not self.server.listeners.acquire(blocking=False):
            return self.reply(503, {"sentence": "Too many pages are open."})
        live, last = self.server.live, self.headers.get("Last-Event-ID", "")
        seen = int(last) if last.isascii() and last.isdigit() and len(last) < 16 else -1
        try:
            self.begin(200, "text/event-stream")
            while True:
                with live.news:
                    is_new = live.news.wait_for(lambda: live.version != seen, HEARTBEAT)
                    state = live.state(seen) if is_new else {}
                self.wfile.write(b"id: %d\ndata: %s\n\n" % (state["version"], in_json(state)) if is_new else b": \n\n")
                seen = state.get("version", seen)
        except OSError:
            return None
        finally:
            self.server.listeners.release()


def in_json(data: Any) -> bytes:
    return json.dumps(data, ensure_ascii=False, separators=(",", ":")).encode("utf-8", "replace")


def port(text: str) -> int:
    if not text.isascii() or not text.isdigit() or int(text) > 65535:
        raise argparse.ArgumentTypeError("it takes a number from 0 to 65535")
    return int(text)


def options_of(given: Sequence[str]) -> argparse.Namespace:
    parser = argparse.ArgumentParser(prog="snowbench page", usage=USAGE, add_help=False, allow_abbrev=False)
    parser.add_argument("--program", default=usual_program(), help=argparse.SUPPRESS)
    parser.add_argument("--port", type=port, metavar="N")
    parser.add_argument("--external", metavar="NAME")
    parser.add_argument("--families", metavar="FILE")
    parser.add_argument("--open", action="store_true")
    parser.add_argument("script", metavar="SCRIPT")
    parser.add_argument("words", metavar="WORDS", nargs="?")
    parser.add_argument("stems", metavar="STEMS", nargs="?")
    return parser.parse_args(list(given))


def show_in_browser(address: str, room: str) -> None:
    """Opens the page through a file that only its owner can read: the command line of a browser can be seen by everybody."""
    path = os.path.join(room, "page.html")
    with os.fdopen(os.open(path, os.O_WRONLY | os.O_CREAT | os.O_EXCL, 0o600), "w") as file:
        file.write('<!doctype html><meta charset="utf-8"><title>Voltizug</title><meta http-equiv="refresh" content="0; url=%s">\n' % address)
    threading.Thread(target=webbrowser.open, args=("file://" + path,), daemon=True).start()


def fault_of(given: argparse.Namespace) -> str:
    """Returns what is wrong with the command line."""
    for path in filter(None, (given.script, given.words, given.stems, given.families)):
        if not os.path.isfile(path):
            return "%s cannot be read: %s" % (named(path), unreadable(path))
        if "\n" in path:
            return "%s has a line feed in its name" % named(path)
    return ""


def server_of(port: Optional[int], script: str, live: Live) -> Server:
    """Returns a server at this port; without one, at the port of the script, so that a browser keeps theme and widths, or else at any other."""
    if port is not None:
        return Server(port, live)
    with contextlib.suppress(OSError):
        return Server(20000 + zlib.crc32(os.fsencode(os.path.realpath(script))) % 10000, live)
    return Server(0, live)


def serve(given: argparse.Namespace, bench: Bench) -> int:
    live = Live(bench, given.stems or "", given.families or "")
    try:
        server = server_of(given.port, given.script, live)
    except OSError as fault:
        print("snowbench: port %d cannot be had: %s" % (given.port or 0, fault.strerror), file=sys.stderr)
        return 2
    live.open()
    fault = live.part("fault")
    said: List[str] = ["Open this address in a browser on this machine. Who has it can read the script and write it. Ctrl-C ends."]
    if fault:
        said += ["%s: %s" % ("The page waits" if fault["isOfWords"] else "%s has a fault, and the page waits" % named(given.script), fault["sentence"])]
    print(server.address(), flush=True)
    print("\n".join(said), file=sys.stderr, flush=True)
    threading.Thread(target=live.watch, daemon=True, name="watch").start()
    if given.open:
        show_in_browser(server.address(), bench.kept.room)
    try:
        server.serve_forever(poll_interval=0.5)
    except KeyboardInterrupt:
        # (the terminal has written ^C)
        print(file=sys.stderr)
    finally:
        live.stopping.set()
        server.server_close()
    return 0


def main(given: Sequence[str]) -> int:
    options = options_of(given)
    fault = fault_of(options)
    if fault:
        print("snowbench: %s" % fault, file=sys.stderr)
        return 2
    for number in (signal.SIGTERM, signal.SIGHUP):
        signal.signal(number, lambda *_: sys.exit(0))
    external = ["--external", options.external] if options.external else []
    bench = Bench([options.program, "work", "--text", *external], options.script, options.words, Kept(home(), options.script))
    try:
        return serve(options, bench)
    finally:
        if bench.kept.has("about", "added"):
            call = " ".join([CALLED, "work", *map(in_shell, filter(None, (options.script, options.words)))])
            print("snowbench: what you tried or added is in no file, and is kept. Start %s, and type rescue: it is there again." % call, file=sys.stderr)
        bench.close(is_kept=True)
