#!/usr/bin/env python3
"""Starts a page or the language server, asks it once, and ends it.

    tests/lib/faces.py page | lsp COMMAND ..    the status is 1 if it does not reply as it should; then a line says what it did
"""
import json
import re
import signal
import subprocess
import sys
import urllib.error
import urllib.request
from typing import Any, Dict, List, Optional, Tuple

ADDRESS = re.compile(r"http://127\.0\.0\.1:[0-9]+/\S+")
# For how many seconds a reply is awaited. (The machine may be busy.)
PATIENCE = 120


def status_of(address: str) -> Tuple[int, bytes]:
    try:
        with urllib.request.build_opener(urllib.request.ProxyHandler({})).open(address, timeout=PATIENCE) as reply:
            return reply.status, reply.read()
    except urllib.error.HTTPError as fault:
        return fault.code, b""


def ask_page(command: List[str], **more: Any) -> str:
    """Asks for the page at the address that is printed, and for the same without its secret. Then it presses Ctrl-C. Returns what is wrong."""
    command = ["env", "--default-signal=INT", *command]
    with subprocess.Popen(command, stdout=subprocess.PIPE, stderr=subprocess.STDOUT, encoding="utf-8", **more) as page:
        assert page.stdout
        said, address = "", None
        while not address:
            line = page.stdout.readline()
            said, address = said + line, ADDRESS.search(line)
            if not line:
                return f"no address: {said}"
        status, text = status_of(address[0])
        refused, _ = status_of(re.sub(r"([0-9]/).*", r"\1", address[0]))
        page.send_signal(signal.SIGINT)
        page.communicate(timeout=PATIENCE)
    return "" if status == 200 and b"<html" in text and refused in (403, 404) else f"status {status}, {text[:100]!r}; without the secret {refused}"


def ask_server(command: List[str], **more: Any) -> str:
    """Sends the language server what an editor sends first and last. Returns what is wrong."""
    sent = b""
    messages: List[Tuple[Optional[int], str, Any]] = [(1, "initialize", {"processId": None, "rootUri": None, "capabilities": {}}), (2, "shutdown", None), (None, "exit", None)]
    for number, method, params in messages:
        message: Dict[str, Any] = {"jsonrpc": "2.0", "method": method, "params": params}
        if number is not None:
            message["id"] = number
        body = json.dumps(message).encode()
        sent += b"Content-Length: %d\r\n\r\n%s" % (len(body), body)
    ended = subprocess.run(command, input=sent, stdout=subprocess.PIPE, stderr=subprocess.PIPE, timeout=PATIENCE, check=False, **more)
    head, _, body = ended.stdout.partition(b"\r\n\r\n")
    length = re.search(rb"Content-Length: ([0-9]+)", head)
    reply = json.loads(body[: int(length[1])]) if length else {}
    can = reply.get("result", {}).get("capabilities", {})
    return "" if can.get("hoverProvider") and ended.returncode == 0 else f"status {ended.returncode}, {reply}, {ended.stderr.decode()}"


def main() -> int:
    wrong = {"page": ask_page, "lsp": ask_server}[sys.argv[1]](sys.argv[2:])
    print(wrong or "it replies")
    return bool(wrong)


if __name__ == "__main__":
    sys.exit(main())
