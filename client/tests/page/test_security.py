"""Who may ask the page, by requests as bytes."""
import json
import os
import socket
import time

from voltizug.page.serve import LARGEST, MOST_LISTENERS, show_in_browser

from .kit import OTHER, SCRIPT, Page, post, request, send


class Security(Page):
    def setUp(self) -> None:
        self.live = self.page()
        self.server = self.serve(self.live)
        self.port = self.server.server_address[1]

    def assert_untouched(self) -> None:
        with open(os.path.join(self.folder, "my.sbl")) as file:
            self.assertEqual(file.read(), SCRIPT)
        self.assertEqual(self.live.bench.program.now.text, SCRIPT.encode())

    def test_the_page_and_its_headers(self):
        for path, kind in (("", "text/html"), ("page.js", "text/javascript"), ("page.css", "text/css")):
            answer = request(self.server, path=path)
            self.assertEqual((answer.status, answer.headers["content-type"]), (200, kind + "; charset=utf-8"))
            self.assertIn("default-src 'none'; script-src 'self'", answer.headers["content-security-policy"])
            self.assertIn("frame-ancestors 'none'", answer.headers["content-security-policy"])
            self.assertEqual(answer.headers["x-content-type-options"], "nosniff")
            self.assertEqual(answer.headers["referrer-policy"], "no-referrer")
            self.assertEqual(answer.headers["cross-origin-resource-policy"], "same-origin")
            self.assertEqual(answer.headers["cache-control"], "no-store")
            for name in ("set-cookie", "access-control-allow-origin"):
                self.assertNotIn(name, answer.headers)
            self.assertNotIn("Python", answer.headers["server"])

    def test_nothing_inline_and_nothing_from_elsewhere(self):
        for path in ("", "page.js", "page.css"):
            text = request(self.server, path=path).body.decode()
            self.assertNotRegex(text, r"https?://(?!www\.w3\.org/2000/svg)")
            self.assertNotRegex(text, r"innerHTML|outerHTML|insertAdjacentHTML|document\.write|eval\(|cookie| style=\"| on[a-z]+=\"")

    def test_it_listens_on_this_machine_alone(self):
        self.assertEqual(self.server.server_address[0], "127.0.0.1")

    def test_secret(self):
        secret = self.server.secret
        self.assertGreaterEqual(len(secret), 32)
        for target in ("/", "//", "/events", "/page.js", "/" + secret, "/" + secret[:-1] + "/", "/" + secret + "x/", "/%s/" % secret.swapcase(), "/x/%s/" % secret, "x/%s/" % secret, "/%C3%A9/"):
            for method, body in (("GET", None), ("POST", b"{}")):
                self.assertEqual(request(self.server, method, target=target, body=body).status, 404, target)

    def test_files_that_are_not_of_the_page(self):
        for path in ("../serve.py", "%2e%2e/serve.py", "serve.py", "report.css", "..%2f..%2fbench.py", "/etc/passwd", "page.js/", "live.py"):
            self.assertEqual(request(self.server, path=path).status, 404, path)

    def test_host(self):
        for host in ("evil.example", "evil.example:%d" % self.port, "127.0.0.1", "127.0.0.1:%d" % (self.port + 1), "localhost.evil:%d" % self.port, "[::1]:%d" % self.port, ""):
            self.assertEqual(request(self.server, headers={"Host": host}).status, 421, host)
        self.assertEqual(request(self.server, more=["Host: evil.example"]).status, 421)
        self.assertEqual(request(self.server, headers={"Host": "LocalHost:%d" % self.port}).status, 200)

    def test_origin(self):
        for origin in ("http://evil.example", "null", "http://127.0.0.1:%d" % (self.port + 1), "https://127.0.0.1:%d" % self.port, "http://127.0.0.1"):
            self.assertEqual(request(self.server, headers={"Origin": origin}).status, 403, origin)
            self.assertEqual(request(self.server, "POST", "trial", {"Origin": origin}, json.dumps({"text": OTHER}).encode()).status, 403, origin)
        self.assertEqual(request(self.server, "POST", "trial", {"Origin": ""}, json.dumps({"text": OTHER}).encode()).status, 403)
        self.assertEqual(request(self.server, "POST", "trial", {}, b"{}", more=["Origin: http://evil.example"]).status, 403)
        self.assert_untouched()

    def test_site(self):
        for site in ("cross-site", "same-site"):
            for mode in ("cors", "no-cors", "websocket"):
                self.assertEqual(request(self.server, path="events", headers={"Sec-Fetch-Site": site, "Sec-Fetch-Mode": mode}).status, 403)
            self.assertEqual(request(self.server, "POST", "save", {"Sec-Fetch-Site": site, "Sec-Fetch-Mode": "navigate"}, b"{}").status, 403)
            self.assertEqual(request(self.server, headers={"Sec-Fetch-Site": site, "Sec-Fetch-Mode": "navigate"}).status, 200)
        self.assertEqual(request(self.server, headers={"Sec-Fetch-Site": "same-origin"}).status, 200)

    def test_only_json(self):
        data = json.dumps({"text": OTHER}).encode()
        for kind in ("text/plain", "application/x-www-form-urlencoded", "multipart/form-data; boundary=x", "", "text/plain; application/json"):
            self.assertEqual(request(self.server, "POST", "trial", {"Content-Type": kind}, data).status, 403, kind)
        for body in (b"x", b"[]", b"1", b'{"text": ', b"[" * 100000, b"\xff"):
            self.assertEqual(request(self.server, "POST", "trial", {}, body).status, 400, body[:10])
        for given in ({}, {"text": 1}, {"text": None}, {"text": "\ud800"}):
            self.assertEqual(post(self.server, "trial", **given).status, 400, given)
        self.assert_untouched()

    def test_length(self):
        for size in ("-1", "x", "", "1e3", str(LARGEST + 1), "\u0661"):
            self.assertEqual(request(self.server, "POST", "trial", {"Content-Length": size}, b"{}").status, 413, size)
        self.assertEqual(request(self.server, "POST", "trial", {"Transfer-Encoding": "chunked"}, b"0\r\n\r\n").status, 413)

    def test_methods(self):
        for method in ("OPTIONS", "PUT", "DELETE", "PATCH", "TRACE", "CONNECT"):
            self.assertEqual(request(self.server, method, body=b"{}").status, 501, method)
        self.assertEqual(request(self.server, "HEAD", headers={"Connection": "close"}).body, b"")
        for path in ("word", "uses", "events"):
            self.assertEqual(request(self.server, "POST", path, body=b"{}").status, 404)

    def test_a_request_is_no_command(self):
        """What comes from a page is never more than one command of the program."""
        for given in ({"words": ["a\nquit"]}, {"words": [""]}, {"words": ["x" * 256]}):
            self.assertEqual(post(self.server, "add", **given).status, 409, given)
        self.assertEqual(request(self.server, path="word?word=a%0Aquit").status, 409)
        self.assertEqual(post(self.server, "limit", limit="5\nquit").status, 409)
        for line in (".", " .", ".\t", ".\r"):
            self.assertEqual(post(self.server, "trial", text=SCRIPT + "/*\n%s\nsave %s/new\n*/\n" % (line, self.folder)).status, 409)
        rules = json.dumps([["r\nquit"], ["r", "1", "a\nquit"]])
        self.assertEqual(request(self.server, path="uses?rules=" + rules.replace(" ", "%20").replace('"', "%22").replace("\\", "%5C")).json()["words"], [])
        self.assertFalse(os.path.exists(os.path.join(self.folder, "new")))
        self.assert_untouched()
        self.assertEqual(request(self.server, path="word?word=walks").json()["outcome"], "=walk")

    def test_listeners_have_a_bound(self):
        held = []
        data = ("GET /%s/events HTTP/1.1\r\nHost: 127.0.0.1:%d\r\n\r\n" % (self.server.secret, self.port)).encode()
        try:
            for _ in range(MOST_LISTENERS):
                held.append(socket.create_connection(self.server.server_address, 30))
                held[-1].sendall(data)
                self.assertIn(b"200", held[-1].recv(15))
            self.assertEqual(send(self.server, data).status, 503)
        finally:
            for connection in held:
                connection.close()

    def test_the_file_that_opens_the_page(self):
        opened = []
        import webbrowser
        old, webbrowser.open = webbrowser.open, opened.append
        try:
            show_in_browser(self.server.address(), self.folder)
            end = time.monotonic() + 20
            while not opened and time.monotonic() < end:
                time.sleep(0.01)
        finally:
            webbrowser.open = old
        self.assertEqual(opened, ["file://%s/page.html" % self.folder])
        self.assertEqual(os.stat(os.path.join(self.folder, "page.html")).st_mode & 0o777, 0o600)
