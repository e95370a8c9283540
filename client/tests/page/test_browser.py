"""The page in chromium, if it is installed: each view, a save, a trial, a fault, a loop, two tabs, a page of another origin, controls and contrast."""
import http.server
import os
import re
import subprocess
import sys
import threading

from voltizug.kept import read_file

from ..kit import CLIENT, LOOP, PROGRAM, example, write
from .browser import Tab
from .kit import OTHER, SCRIPT, WORDS, BrowserPage

FAMILIES = "walks walked walking\ntalk\n"
# The least contrast of text and its ground, over all that is shown.
CONTRAST = """(() => {
  const rgb = c => { const m = c.match(/[\\d.]+/g).map(Number); return c.startsWith('color(') ? [255 * m[0], 255 * m[1], 255 * m[2], m[3] ?? 1] : [m[0], m[1], m[2], m[3] ?? 1]; };
  const light = c => { const [r, g, b] = c.map(v => { v /= 255; return v <= .03928 ? v / 12.92 : ((v + .055) / 1.055) ** 2.4; }); return .2126 * r + .7152 * g + .0722 * b; };
  const ground = node => { for (let at = node; at; at = at.parentElement) { const c = rgb(getComputedStyle(at).backgroundColor); if (c[3] === 1) return c; } return [255, 255, 255]; };
  let found = [];
  for (const node of document.querySelectorAll('body *')) {
    const box = node.getBoundingClientRect(), style = getComputedStyle(node);
    if (![...node.childNodes].some(part => part.nodeType === 3 && part.data.trim()) || !box.width || style.visibility === 'hidden' || node.disabled || node.id === 'editor' || node instanceof SVGElement || node.className === 'skip') continue;
    const a = light(rgb(style.color).slice(0, 3)), b = light(ground(node).slice(0, 3)), ratio = (Math.max(a, b) + .05) / (Math.min(a, b) + .05);
    if (ratio < 4.5) found.push(node.tagName + '.' + node.className + ' ' + ratio.toFixed(2) + ' ' + node.textContent.slice(0, 30));
  }
  return found;
})()"""


class InBrowser(BrowserPage):
    def open(self, **files) -> Tab:
        return self.show(families="my.families", my_families=FAMILIES, **files)

    def save(self, text: str) -> None:
        write(self.live.bench.script, text)

    def text(self, tab: Tab, view: str = "views") -> str:
        return tab.run("$('%s').innerText" % view)

    def assert_accessible(self, tab: Tab, what: object) -> None:
        """Each control has a name, each text contrast, and nothing moves by itself."""
        self.assertEqual(tab.run(CONTRAST), [], what)
        self.assertEqual([node for node in tab.names() if not node["name"].strip()], [], what)
        self.assertEqual(tab.run("[...document.querySelectorAll('*')].filter(node => /[1-9]/.test(getComputedStyle(node).transitionDuration + getComputedStyle(node).animationDuration)).length"), 0)

    def test_menus_and_faults_in_light_and_dark(self):
        tab = self.open(words=WORDS + "blank \n", stems="my.stems", my_stems="walk\nwalk\nwalk\ntalk\nblank \n")
        tab.wait("S.st.warnings.length > 0 && $('change-cols').innerText.includes('Approved stem') && $('change-list').innerText.includes('walking')")
        tab.run("$('warnings-button').click()")
        self.assertIn("blank", self.text(tab, "warnings"))
        for theme in ("light", "dark"):
            tab.look(theme)
            tab.press("h")
            tab.wait("$('history').open && document.activeElement.closest('#history') !== null")
            self.assert_accessible(tab, (theme, "history"))
            tab.press("Escape")
            tab.wait("!$('history').open")
            tab.press("a")
            tab.wait("document.activeElement === $('add-words')")
            self.assert_accessible(tab, (theme, "more"))
            tab.press("Escape")
            tab.press("?")
            tab.wait("$('help').open")
            self.assert_accessible(tab, (theme, "help"))
            tab.press("Escape")
            self.save(SCRIPT.replace("do r", "do rr"))
            tab.wait("!!document.querySelector('.fault')")
            self.assert_accessible(tab, (theme, "fault"))
            self.save(SCRIPT)
            tab.wait("!S.st.fault")

    def test_before_the_first_news(self):
        tab = self.open()
        with self.live.news:
            # (no state is written as long as this is held)
            tab.go(self.server.address())
            tab.wait("typeof S !== 'undefined' && S.st.names === undefined && document.readyState === 'complete'")
            self.assertIn("The page waits for snowbench page", tab.run("document.body.innerText"))
            self.assertEqual((self.text(tab, "status"), tab.run("$('main').hidden")), ("connects", True))
        tab.wait("$('waiting').hidden && !$('main').hidden && S.words.length === 4")

    def test_figures_of_one(self):
        tab = self.open(words="walks\n")
        labels = tab.wait("$('figures').querySelector('dt') && [...$('figures').querySelectorAll('dt')].map(node => node.textContent)")
        self.assertEqual(labels, ["word", "class", "class of one word", "word in the largest class", "words are their own stem", "refused"])

    def test_the_server_is_gone(self):
        room = self.room(my_sbl=SCRIPT, my_words=WORDS)
        state = {**os.environ, "XDG_STATE_HOME": os.path.join(room, "state"), "XDG_CACHE_HOME": os.path.join(room, "cache")}

        def begin(port: str) -> "tuple[subprocess.Popen[bytes], str]":
            command = [sys.executable, "-E", "-s", "-B", CLIENT, "--page", "--program", PROGRAM, "--port", port, "my.sbl", "my.words"]
            made = subprocess.Popen(command, cwd=room, env=state, stdin=subprocess.DEVNULL, stdout=subprocess.PIPE, stderr=subprocess.DEVNULL)
            self.addCleanup(made.communicate)
            self.addCleanup(made.kill)
            return made, made.stdout.readline().decode().strip()

        page, address = begin("0")
        tab = self.browser.open(address)
        self.addCleanup(self.browser.ask, "Target.closeTarget", targetId=tab.target)
        tab.wait("typeof S !== 'undefined' && S.words.length === 4")
        page.terminate()
        page.wait()
        tab.wait("!$('lost').hidden && $('lost').innerText.includes('No connection: snowbench page has ended')")
        self.assertIn("What you see is what it had last", self.text(tab, "lost"))
        self.assertEqual(self.text(tab, "status"), "no connection")
        begin(address.split(":")[2].split("/")[0])
        tab.wait("$('lost').innerText.includes('the address of a page that has ended')")

    def test_a_fault_at_the_start(self):
        self.live = self.page(script="externals ( stem )\ndefine stem as nowhere\n")
        self.watch(self.live)
        self.server = self.serve(self.live)
        tab = self.browser.open(self.server.address())
        self.addCleanup(self.browser.ask, "Target.closeTarget", targetId=tab.target)
        tab.wait("!!document.querySelector('.fault')")
        self.assertIn("There are no results before the fault is corrected", self.text(tab))
        self.assertEqual(self.text(tab, "status"), "fault in the file")
        self.save(SCRIPT)
        tab.wait("$('no-results').hidden && S.words.length === 4")

    def test_all_faults(self):
        """A program that tells all faults has them all marked; these rows were made by hand."""
        tab = self.open()
        text = SCRIPT.replace("do r", "do rr").replace("'ed' 's'", "'s' 's'")
        known, first, last = self.live.bench.known, text.index("'s' 's'") + 4, text.index("rr )")
        lines = ["fault,17,s,%d,%d,4,40,The string is there already." % (first, first + 3), "fault,13,rr,%d,%d,6,31,rr is not declared." % (last, last + 2)]
        self.live.bench.known = lambda asked: lines if asked == "faults" else known(asked)
        self.save(text)
        tab.wait("document.querySelectorAll('.oops').length === 2")
        self.assertEqual(tab.run("[...document.querySelectorAll('.oops')].map(node => [node.textContent, node.title])"), [["'s'", "The string is there already."], ["rr", "rr is not declared."]])
        self.assertEqual(tab.run("[...document.querySelectorAll('.ln.wrong .no')].map(node => node.textContent)"), ["4", "6"])
        self.assertIn("2 faults", self.text(tab, "under"))
        self.assertIn("1 more fault", tab.run("document.querySelector('.fault').innerText"))
        self.live.bench.known = known
        self.save(SCRIPT)
        tab.wait("$('under').hidden && !document.querySelector('.oops')")

    def test_all_faults_of_the_program(self):
        tab = self.open()
        self.need(self.live, "faults")
        self.save(SCRIPT.replace("do r", "do rr").replace("'ed' 's'", "'s' 's'"))
        tab.wait("document.querySelectorAll('.oops').length === 2")
        self.assertEqual(tab.run("[...document.querySelectorAll('.oops')].map(node => node.textContent)"), ["'s'", "rr"])

    def test_widths_and_theme_are_kept(self):
        tab = self.open()
        tab.run("$('split').focus()")
        tab.press("ArrowRight")
        tab.run("$('theme').click()")
        kept = tab.run("[document.documentElement.dataset.theme, $('split').getAttribute('aria-valuenow'), $('code').clientWidth]")
        tab.go(self.server.address())
        tab.wait("typeof S !== 'undefined' && S.words.length === 4 && S.words !== window.before")
        self.assertEqual(tab.run("[document.documentElement.dataset.theme, $('split').getAttribute('aria-valuenow'), $('code').clientWidth]"), kept)

    def test_the_history_by_name(self):
        tab = self.open()
        self.need(self.live, "history", "places")
        self.save(OTHER)
        tab.wait("S.st.history.done.join() === 'saved: r'")
        tab.run("$('limit').value = '5,000', $('limit-form').requestSubmit()")
        tab.wait("S.st.history.done.join() === 'saved: r,limit 5000'")
        self.assertEqual(tab.run("[...$('history-list').querySelectorAll('button')].map(node => node.textContent)"), ["limit 5000", "saved: r", "as it was at the start"])
        tab.run("$('history-list').lastChild.firstChild.click()")
        tab.wait("S.st.history.undone.length === 2 && changes().length === 0")
        tab.run("$('history-list').firstChild.firstChild.click()")
        tab.wait("S.st.history.done.length === 2 && S.st.limit === 5000")

    def test_words_that_no_rule_of_the_script_takes(self):
        tab = self.open(script=SCRIPT.replace("'s'", "'s' 'zz'"))
        self.need(self.live, "places", "text")
        tab.wait("!!$('next-never')")
        self.assertEqual(self.text(tab, "hint"), "1 string that no word takes")
        tab.press("n")
        tab.wait("document.querySelector('.ln.at .no').textContent === '4'")

    def test_a_word_with_its_tests(self):
        tab = self.open(script=SCRIPT.replace("(delete)", "('l' or 'k' delete)"))
        tab.run("location.hash = 'word=walks'")
        tab.wait("!!document.querySelector('ol.time .end')")
        tab.run("$('word-all').click()")
        tab.wait("document.querySelectorAll('ol.time .test').length > 0")
        tests = tab.run("[...document.querySelectorAll('ol.time .test')].map(node => node.textContent)")
        self.assertTrue(any("'k'" in line and re.search(r"is true *line 4$", line) for line in tests), tests)

    def test_each_view_in_light_and_dark(self):
        tab = self.open(script=SCRIPT + "// \u202e<b>&\n", words=WORDS + "<b>x</b>s\n\u202eabc\n\x1bs\ne\u0301s\n\U0001f600s\n" + "y" * 255 + "\n")
        self.save(OTHER + "// \u202e<b>&\n")
        tab.wait("changes().length > 5 && S.st.isPartial === false")
        views = {"changes": "walking", "classes": "words", "word=walking": "walk", "rule=entry,r,1,ed": "", "families": "Understemmed"}
        for theme in ("light", "dark"):
            tab.look(theme)
            for view, expected in views.items():
                tab.run("location.hash = %r" % view)
                name = view.split("=")[0]
                tab.wait("!$('view-%s').hidden && $('view-%s').innerText.includes(%r)" % (name, name, expected))
                if view.startswith("word"):
                    tab.wait("!!document.querySelector('ol.time .end')")
                self.assert_accessible(tab, (theme, view))
                self.assertEqual(tab.run("document.querySelectorAll('.views b b, .views img, .lines b').length"), 0)
                if os.environ.get("PICTURES"):
                    tab.picture(os.path.join(os.environ["PICTURES"], "%s-%s.png" % (name, theme)))
        tab.run("location.hash = 'classes'")
        tab.wait("$('class-list').innerText.includes('U+202E') && $('lines').querySelector('.hid1').title === 'U+202E'")

    def test_a_save_a_fault_and_undo(self):
        tab = self.open()
        self.assertIn("as in the file", self.text(tab, "status"))
        self.assertIn("No word and no class differs from the mark.", self.text(tab))
        self.assertFalse(re.search(r"\b0\b", self.text(tab)))
        self.save(OTHER)
        tab.wait("$('change-list').innerText.includes('walking')")
        self.assertEqual(tab.run("[...document.querySelectorAll('#change-list ins')].map(node => node.textContent)"), ["s"])
        self.save(OTHER.replace("do r", "do rr"))
        tab.wait("document.querySelector('.fault')?.innerText.includes('rr is not declared')")
        self.assertEqual(self.text(tab, "status"), "fault in the file: all results are of the text before it")
        self.assertEqual(tab.run("document.querySelector('.ln.wrong .no').textContent"), "6")
        self.save(SCRIPT)
        tab.wait("!document.querySelector('.fault') && !changes().length")
        tab.press("u")
        tab.wait("changes().length === 4")

    def test_a_trial_by_keys_alone(self):
        tab = self.open()
        tab.press("e")
        tab.wait("document.activeElement === $('editor')")
        at = SCRIPT.index("'s'")
        tab.run("$('editor').setSelectionRange(%d, %d)" % (at, at + 3))
        tab.type("'ing'")
        tab.wait("!$('try').disabled && $('lines').innerText.includes(\"'ing'\")")
        tab.press("Enter", modifiers=2)
        tab.wait("S.st.isTrial && changes().length === 4")
        self.assertEqual(read_file(self.live.bench.script), SCRIPT.encode())
        tab.run("$('editor').setSelectionRange(0, 0)")
        tab.type("x")
        tab.wait("S.dirty")
        tab.press("Enter", modifiers=2)
        tab.wait("$('under').innerText.includes('line 1')")
        tab.run("$('editor').setSelectionRange(0, 1)")
        tab.press("Backspace", code=8)
        tab.wait("$('editor').value === S.st.text")
        tab.press("Enter", modifiers=2)
        tab.wait("!S.st.fault")
        tab.press("s", modifiers=2)
        tab.wait("!S.st.isTrial")
        self.assertEqual(read_file(self.live.bench.script), OTHER.encode())
        tab.press("Escape")
        tab.wait("!S.editing")
        for key, view in (("2", "classes"), ("3", "word"), ("4", "rule"), ("5", "families"), ("1", "changes")):
            tab.press(key)
            tab.wait("S.view === %r && document.activeElement === $('tab-%s')" % (view, view))
        tab.run("$('change-list').focus()")
        tab.press("ArrowDown")
        tab.press("Enter")
        tab.wait("S.view === 'word' && $('word-out').innerText.includes('walks')")
        before = tab.run("$('split').getAttribute('aria-valuenow')")
        tab.run("$('split').focus()")
        tab.press("ArrowRight")
        self.assertEqual(int(tab.run("$('split').getAttribute('aria-valuenow')")), int(before) + 2)
        tab.press("d")
        self.assertIn(tab.run("localStorage.getItem('voltizug.theme')"), ("light", "dark"))

    def test_counts_lead_to_words(self):
        tab = self.open()
        self.need(self.live, "places", "text")
        tab.wait("!!document.querySelector('button.cov[data-n=\"4\"]')")
        tab.press("g")
        tab.wait("document.activeElement.dataset.n === '4'")
        tab.press("Enter")
        tab.wait("S.view === 'rule' && $('rule-list').innerText.includes('walked')")
        self.assertIn("2 words take one of them", self.text(tab, "rule-head"))
        self.assertEqual(tab.run("document.querySelectorAll('.rule.on').length"), 2)

    def test_limit_and_words(self):
        tab = self.open()
        tab.run("$('more').open = true, $('add-words').value = 'talked\\ntalks', $('add-form').requestSubmit()")
        tab.wait("S.words.length === 6 && S.st.added === 2")
        tab.run("$('limit').value = '1', $('limit-form').requestSubmit()")
        tab.wait("S.out[0] === '!Steps'")
        tab.run("$('limit').value = 'x', $('limit-form').requestSubmit()")
        tab.wait("$('bar').innerText.includes('A limit is a number')")

    def test_two_tabs(self):
        first = self.open()
        second = self.tab()
        second.run("post('trial', { text: %r })" % OTHER)
        first.wait("S.st.isTrial && changes().length === 4")
        first.run("post('undo', { count: 1 })")
        second.wait("!S.st.isTrial && changes().length === 0")

    def test_a_loop_is_broken_off(self):
        tab = self.open(words="".join("x" * 200 + "%d\n" % i for i in range(100)))
        tab.run("post('limit', { limit: 10000000 })")
        tab.wait("S.st.limit === 10000000")
        self.save(LOOP)
        tab.wait("!!$('status').querySelector('button') || S.st.text.includes('repeat')")
        if tab.run("!!$('status').querySelector('button')"):
            tab.run("$('status').querySelector('button').click()")
            tab.wait("$('bar').innerText.includes('broken off') || S.st.text.includes('repeat')")

    def test_a_long_script(self):
        names = ["r%d" % i for i in range(400)]
        parts = "".join("  // %s\n  define %s as (\n    [substring] among (\n      'a%s' 'b%s'\n        (delete)\n    ) )\n" % ((name,) * 4) for name in names)
        script = "externals ( stem )\nroutines ( %s )\nbackwardmode (\n%s)\ndefine stem as backwards ( %s )\n" % (" ".join(names), parts, " ".join("do " + name for name in names))
        tab = self.open(script=script)
        self.assertEqual(tab.run("S.lines.length"), 2405)
        self.assertLess(tab.run("document.querySelectorAll('.ln').length"), 120)
        tab.run("toLine(2000)")
        tab.wait("$('lines').innerText.includes('define r332 ')")
        seconds = tab.run("(() => { const begun = performance.now(); layout(); return performance.now() - begun; })()") / 1000
        self.assertLess(seconds, 2)

    def test_porter(self):
        tab = self.open(script=example("porter.sbl"), words=example("porter.words"))
        tab.run("location.hash = 'word=relational'")
        tab.wait("$('word-out').innerText.includes('relate')")
        self.assertEqual(tab.run("document.querySelector('ol.time .put del').textContent"), "ational")

    def test_a_page_of_another_origin(self):
        """It knows the address, and can neither read nor write."""
        tab = self.open()
        page = b"<!doctype html><title>another</title>"

        class Other(http.server.BaseHTTPRequestHandler):
            def do_GET(self) -> None:
                self.send_response(200)
                self.send_header("Content-Length", str(len(page)))
                self.end_headers()
                self.wfile.write(page)

            def log_message(self, *_) -> None:
                pass

        other = http.server.ThreadingHTTPServer(("127.0.0.1", 0), Other)
        threading.Thread(target=other.serve_forever, daemon=True).start()
        self.addCleanup(other.server_close)
        self.addCleanup(other.shutdown)
        for name in ("127.0.0.1", "localhost"):
            tab.go("http://%s:%d/" % (name, other.server_address[1]))
            tab.wait("document.title === 'another'")
            result = tab.run(ATTACKS % (self.server.address(), OTHER))
            self.assertEqual(result, {"fetch": "failed", "plain": "failed", "post": "failed", "json": "failed", "stream": "failed", "script": "failed", "image": "failed", "frame": ""})
        self.assertEqual((read_file(self.live.bench.script), self.live.part("text")), (SCRIPT.encode(), SCRIPT))


ATTACKS = """(async () => {
  const base = %r, text = %r, result = {}, body = JSON.stringify({ text }), wait = node => new Promise(done => { node.onload = () => done('loaded'); node.onerror = () => done('failed'); document.body.append(node); });
  const read = async (what, more) => { try { const reply = await fetch(base + what, more); return reply.type === 'opaque' && reply.status === 0 ? 'failed' : 'read ' + reply.status; } catch (fault) { return 'failed'; } };
  result.fetch = await read('word?word=a');
  result.plain = await read('trial', { method: 'POST', mode: 'no-cors', headers: { 'Content-Type': 'text/plain' }, body });
  result.post = await read('trial', { method: 'POST', body });
  result.json = await read('trial', { method: 'POST', headers: { 'Content-Type': 'application/json' }, body });
  result.stream = await new Promise(done => { const s = new EventSource(base + 'events'); s.onmessage = () => done('read'); s.onerror = () => { s.close(); done('failed'); }; });
  result.script = await wait(Object.assign(document.createElement('script'), { src: base + 'page.js' }));
  result.image = await wait(Object.assign(new Image(), { src: base + 'page.css' }));
  const frame = Object.assign(document.createElement('iframe'), { src: base });
  await wait(frame);
  try { result.frame = frame.contentDocument ? frame.contentDocument.body.innerText : ''; } catch (fault) { result.frame = ''; }
  return result;
})()"""
