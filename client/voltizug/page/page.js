'use strict';
// All text from files goes into the page as text nodes, never as markup. No script is read here: the server says what is where.
const $ = id => document.getElementById(id);
const base = location.pathname.replace(/[^/]*$/, ''), ROW = 28, LINE = 20, TOP = 8, GAP = 80, ALL = 400;
// (also after a reload of this page it is the same one)
const TAB = (() => { try { return sessionStorage.voltizug ||= String(Math.random()); } catch (fault) { return String(Math.random()); } })();
const VIEWS = ['changes', 'classes', 'word', 'rule', 'families'];
const S = {
  st: {}, words: [], out: [], marked: [], classes: null, changed: null, view: 'changes', kind: 'changed', fkind: 'under', sort: 'size', desc: true, pick: null, sel: null,
  word: null, rule: null, fam: null, editing: false, dirty: false, base: null, saving: false, dropping: false, live: null, turns: [], leaving: null, lines: [], ruleAt: new Map(), counts: new Map(), typed: null, at: 0, idle: 0, never: 0, oops: [], drawn: new Map(),
};
const numbers = new Intl.NumberFormat('en-US'), number = n => numbers.format(n);
const count = (n, one, many) => `${number(n)} ${n === 1 ? one : many || one + 's'}`;
const later = window.requestIdleCallback || (act => setTimeout(act, 100)), notLater = window.cancelIdleCallback || clearTimeout;
const kept = { get: key => { try { return localStorage.getItem('voltizug.' + key); } catch (fault) { return null; } }, set: (key, value) => { try { localStorage.setItem('voltizug.' + key, value); } catch (fault) { /* nothing is kept */ } } };

// Elements and text

function el(tag, what, ...children) {
  const node = document.createElement(tag);
  for (const [key, value] of Object.entries(what || {})) {
    if (key === 'class') node.className = value;
    else if (key.startsWith('on')) node.addEventListener(key.slice(2), value);
    else if (key.startsWith('aria-')) node.setAttribute(key, String(value));
    else if (value !== undefined && value !== null && value !== false) node.setAttribute(key, value === true ? '' : value);
  }
  node.append(...children.flat(9).filter(child => child !== null && child !== undefined && child !== false));
  return node;
}
// Control characters, marks of direction and characters without width are named, so that they are seen and not obeyed.
const HIDDEN = /[\p{Cc}\p{Cs}\u061c\u200b\u200e\u200f\u2028-\u202e\u2060\u2066-\u2069\ufeff]/u;
function parts(text) {
  if (!HIDDEN.test(text)) return [text];
  const nodes = [];
  for (const c of text) {
    if (HIDDEN.test(c)) nodes.push(el('span', { class: 'hid' }, 'U+' + c.codePointAt(0).toString(16).toUpperCase().padStart(4, '0')));
    else if (typeof nodes[nodes.length - 1] === 'string') nodes[nodes.length - 1] += c;
    else nodes.push(c);
  }
  return nodes;
}
// The same in a text whose columns count: a mark as wide as a character. Tabs stay.
const narrow = text => text.split('\t').flatMap((part, i) => [...(i ? ['\t'] : []), ...parts(part).map(node => typeof node === 'string' ? node : el('span', { class: 'hid1', title: node.textContent }, '?'))]);
const w = (text, cls) => el('span', { class: 'w' + (cls ? ' ' + cls : ''), dir: 'auto' }, text === '' ? el('span', { class: 'empty' }, 'empty') : parts(text));
const named = text => parts(text).map(part => typeof part === 'string' ? part : `<${part.textContent}>`).join('');
const outcome = (o, cls) => o[0] === '!' ? el('span', { class: 'refused' }, 'refused: ' + o.slice(1)) : w(o.slice(1), cls);
const code = (kind, stem) => (kind === 'stem' ? '=' : '!') + stem;
// A stem before and after: what both begin with stays plain.
function versus(a, b) {
  if (a[0] === '!' || b[0] === '!') return [outcome(a), outcome(b)];
  const x = [...a.slice(1)], y = [...b.slice(1)];
  let i = 0;
  while (i < x.length && i < y.length && x[i] === y[i]) i++;
  const side = (chars, tag) => chars.length ? el('span', { class: 'w', dir: 'auto' }, parts(chars.slice(0, i).join('')), chars.length > i ? el(tag, {}, parts(chars.slice(i).join(''))) : null) : w('');
  return [side(x, 'del'), side(y, 'ins')];
}

// Lists of which only the rows in sight are in the page

class List {
  constructor(host, label, open) {
    Object.assign(this, { host, rows: [], cls: '', at: -1, open, id: host.id });
    host.tabIndex = 0;
    host.setAttribute('role', 'listbox');
    host.setAttribute('aria-label', label);
    this.pad = el('div', { class: 'pad', role: 'presentation' });
    host.append(this.pad);
    host.addEventListener('scroll', () => this.draw(), { passive: true });
    host.addEventListener('keydown', event => this.key(event));
    host.addEventListener('click', event => { const row = event.target.closest('.row'); if (row) { this.move(+row.dataset.n); this.open(this.rows[this.at]); } });
    new ResizeObserver(() => this.draw()).observe(host);
  }
  set(rows, render, cls, none) {
    Object.assign(this, { rows, render, cls, none, at: -1, from: null });
    this.pad.style.height = rows.length * ROW + 'px';
    this.host.removeAttribute('aria-activedescendant');
    this.draw();
  }
  draw() {
    const h = this.host.clientHeight;
    if (!h || !this.render) return;
    const from = Math.max(0, Math.floor(this.host.scrollTop / ROW) - 8), to = Math.min(this.rows.length, Math.ceil((this.host.scrollTop + h) / ROW) + 8);
    if (this.from === from && this.to === to && this.drawn === this.at) return;
    [this.from, this.to, this.drawn] = [from, to, this.at];
    const nodes = [];
    for (let n = from; n < to; n++) {
      const row = el('div', { class: `row ${this.cls}${n === this.at ? ' on' : ''}`, role: 'option', id: `${this.id}-${n}`, 'data-n': n, 'aria-setsize': this.rows.length, 'aria-posinset': n + 1, 'aria-selected': n === this.at }, this.render(this.rows[n]));
      row.style.top = n * ROW + 'px';
      nodes.push(row);
    }
    if (!this.rows.length && this.none) nodes.push(el('p', { class: 'none' }, this.none));
    this.pad.replaceChildren(...nodes);
  }
  move(n) {
    this.at = Math.max(0, Math.min(this.rows.length - 1, n));
    const top = this.at * ROW, host = this.host;
    if (top < host.scrollTop) host.scrollTop = top;
    else if (top + ROW > host.scrollTop + host.clientHeight) host.scrollTop = top + ROW - host.clientHeight;
    this.draw();
    host.setAttribute('aria-activedescendant', `${this.id}-${this.at}`);
  }
  key(event) {
    const page = Math.max(1, Math.floor(this.host.clientHeight / ROW) - 1);
    const by = { ArrowDown: 1, ArrowUp: -1, PageDown: page, PageUp: -page, Home: -1e9, End: 1e9 }[event.key];
    if (event.ctrlKey || event.metaKey || event.altKey) return;
    if (by !== undefined && this.rows.length) { event.preventDefault(); this.move(this.at < 0 && Math.abs(by) === 1 ? 0 : this.at + by); }
    else if (event.key === 'Enter' && this.at >= 0) { event.preventDefault(); this.open(this.rows[this.at]); }
  }
}
function segments(host, options, chosen, choose) {
  const had = host.contains(document.activeElement), focus = () => host.querySelector('[aria-checked="true"]')?.focus();
  host.replaceChildren(...options.map(([key, label, n]) => el('button', { type: 'button', role: 'radio', 'aria-checked': key === chosen, tabindex: key === chosen ? 0 : -1, onclick: () => { choose(key); focus(); } }, label, el('b', {}, typeof n === 'string' ? n : number(n)))));
  host.onkeydown = event => {
    const by = { ArrowRight: 1, ArrowLeft: -1 }[event.key], at = options.findIndex(([key]) => key === chosen);
    if (!by) return;
    event.preventDefault();
    choose(options[(at + by + options.length) % options.length][0]);
    focus();
  };
  if (had) focus();
}
function header(id, cls, labels, isNumber) {
  $(id).className = 'cols ' + cls;
  $(id).replaceChildren(...labels.map((label, i) => el('span', { class: isNumber && !i ? 'num' : '' }, label)));
}
const arrow = sign => el('span', { class: 'to' }, sign || '→');
const joined = (list, cls) => list.flatMap((part, i) => [i ? el('span', { class: 'muted' }, ' · ') : null, w(part, cls)]);

// Requests, and news

async function ask(path, query, body) {
  const what = body ? { method: 'POST', headers: { 'Content-Type': 'application/json' }, body: JSON.stringify(body) } : { cache: 'no-store' };
  const reply = await fetch(base + path + (query ? '?' + new URLSearchParams(query) : ''), what);
  const data = await reply.json().catch(() => ({ sentence: 'The answer cannot be read.' }));
  if (!reply.ok) throw Object.assign(new Error(data.sentence), { isReply: true });
  return data;
}
async function post(path, body) {
  try { return await ask(path, null, body || {}) || true; } catch (fault) {
    say(fault.isReply ? fault.message : 'The server is gone: is snowbench page still running?', true);
    return false;
  }
}
function listen() {
  const stream = new EventSource(base + 'events');
  stream.onmessage = event => { S.live = true; take(JSON.parse(event.data)); };
  stream.onerror = () => { S.live = false; showLost(); if (stream.readyState === 2) setTimeout(listen, 1000); };
}
// Says that the server is gone, or that another one is at this address.
async function showLost() {
  showStatus();
  const status = await fetch(base + 'page.css', { cache: 'no-store' }).then(reply => reply.status, () => 0);
  if (S.live) return;
  const had = S.st.names ? ' What you see is what it had last.' : '';
  $('lost').textContent = status === 404 ? 'This is the address of a page that has ended: open the one that snowbench page printed last.' + had : `No connection: ${status ? 'too many pages are open' : 'snowbench page has ended, or does not reply'}.${had} The page tries again each second.`;
  $('lost').hidden = false;
}
let ticking = 0;
function take(news) {
  const { words, outcomes, delta, marks, ...rest } = news, st = S.st, text = st.text, fault = JSON.stringify(st.fault), wasTrial = st.isTrial, wasFaulty = Boolean(st.fault) && st.fault.origin === 'trial';
  const isRead = rest.fault ? rest.fault.origin === 'file' : rest.text !== undefined && Boolean(rest.last) && (rest.last.origin === 'file' || rest.last.origin === 'trial' && rest.last.tab !== TAB);
  Object.assign(st, rest);
  // (a trial that is in the editor stays there as the file replaces it, and one with a fault as anything replaces it)
  if (S.editing && ($('editor').value === inForce() || isRead && S.dropping)) setEditor();
  else if (S.editing && (isRead && wasTrial || wasFaulty)) S.dirty = true;
  if (isRead) S.dropping = false;
  if (words) { S.words = words; S.out = outcomes; }
  if (delta) for (const [i, o] of delta) S.out[i] = o;
  // (a word that is new since the mark has no outcome there)
  if (marks) { S.marked = S.out.slice(); for (const [i, o] of marks) S.marked[i] = o; }
  if (words || delta || marks) S.classes = S.changed = null;
  if (rest.counts && rest.counts.of) S.counts = new Map(Object.entries(rest.counts.of));
  if (rest.counts && !rest.counts.of) S.counts = new Map();
  if ('script' in rest) S.fam = null;
  if (!st.names) return;
  for (const id of ['waiting', 'lost']) $(id).hidden = true;
  for (const id of ['figures', 'main']) $(id).hidden = false;
  clearInterval(ticking);
  if (st.busy) ticking = setInterval(showStatus, 500);
  document.title = `${st.fault ? '✗ ' : ''}${st.names.script.split('/').pop()} – Voltizug`;
  showTop(rest);
  if (S.editing && S.dirty && !isRead && text !== undefined && text !== st.text && st.text !== $('editor').value) say('The script has changed. The text that you type here is kept, and is based on the script of before.', false);
  if (text !== st.text || fault !== JSON.stringify(st.fault) || 'ink' in rest) showScript(); else if ('counts' in rest) layout(); else if ('script' in rest) showHint();
  showEditButtons();
  if (words || delta || marks || 'changes' in rest || 'script' in rest || 'counts' in rest && S.view === 'rule') show(true);
  document.documentElement.dataset.version = st.version;
}

// The top

function showStatus() {
  const box = $('status'), st = S.st, dot = el('span', { class: 'dot' }), last = st.last;
  box.className = '';
  box.title = last ? `${{ start: 'Begun', file: 'Read', words: 'Words read', trial: 'Tried', undo: 'Undone', redo: 'Redone', limit: 'Limit set' }[last.origin]} at ${last.at}; the outcomes of all words came after ${number(last.ms)} ms` : '';
  if (!S.live) { box.className = S.live === null ? 'busy' : 'bad'; box.replaceChildren(dot, S.live === null ? 'connects' : 'no connection'); return; }
  if (st.busy) {
    box.className = 'busy';
    box.replaceChildren(dot, `runs the words, ${Math.max(0, Math.round((Date.now() - st.busy.since) / 1000))} s `, el('button', { type: 'button', onclick: () => post('stop') }, 'Break off'));
  } else if (st.fault) {
    box.className = 'bad';
    box.replaceChildren(dot, `${st.fault.all.length > 1 ? st.fault.all.length + ' faults' : 'fault'} in ${st.fault.origin === 'trial' ? 'the trial' : st.fault.isOfScript ? 'the file' : 'a file'}${st.text === undefined ? '' : ': all results are of the text before it'}`);
  } else {
    box.className = st.isTrial || isTyped() ? 'busy' : '';
    const of = st.isTrial ? 'a trial, not in the file' : st.base === st.file ? 'as in the file' : 'not what the file has now';
    box.replaceChildren(dot, isTyped() ? `typed, not tried; the results are of ${st.isTrial ? 'the trial' : st.base === st.file ? 'the file' : 'the text before'}` : of, last ? ` · ${last.at} · ${number(last.ms)} ms` : '');
  }
}
// (of a figure what it counts, and that of one)
const FIGURES = [
  ['words', 'words', 'word'], ['classes', 'classes', 'class'], ['alone', 'classes of one word', 'class of one word'],
  ['largest', 'words in the largest class', 'word in the largest class'], ['unchanged', 'words are their own stem', 'word is its own stem'], ['refused', 'refused', 'refused'],
];
const file = path => named(path.split('/').pop());
function showTop(news) {
  const st = S.st;
  $('script-name').textContent = file(st.names.script);
  $('script-name').title = named(st.names.script);
  $('words-name').textContent = st.names.words ? 'over ' + file(st.names.words) : 'without a file of words';
  $('undo').disabled = st.history ? !st.history.done.length : !st.text;
  $('redo').disabled = st.history ? !st.history.undone.length : !st.text;
  $('history').hidden = !st.history;
  $('mark').disabled = st.text === undefined;
  $('tab-families').hidden = !st.names.hasFamilies;
  $('append').hidden = !st.added || !st.names.words;
  $('append').textContent = `Write ${count(st.added, 'added word')} to the file`;
  $('mark-stems').hidden = !st.names.stems;
  if ('limit' in news && document.activeElement !== $('limit')) $('limit').value = st.limit || '';
  if ('history' in news) showHistory();
  $('figures').hidden = !st.figures;
  $('figures').className = 'figures' + (st.fault ? ' old' : '');
  if (st.figures) $('figures').replaceChildren(...FIGURES.map(([key, many, one]) => {
    const n = st.figures[key] || 0, m = st.markFigures ? st.markFigures[key] : n, delta = n - m;
    return el('div', {}, el('dt', {}, n === 1 ? one : many), el('dd', {}, number(n)), delta ? el('dd', { class: 'delta', title: `${number(m)} at the mark` }, (delta > 0 ? '+' : '−') + number(Math.abs(delta))) : null);
  }));
  if ('warnings' in news) {
    $('warnings-button').hidden = !st.warnings.length;
    $('warnings-button').textContent = count(st.warnings.length, 'warning');
    $('warnings').replaceChildren(...st.warnings.map(line => el('li', {}, line)));
    if (!st.warnings.length) showWarnings(false);
  }
  showStatus();
  if ('fault' in news && st.fault && !st.fault.line) say(st.fault.sentence, true);
  else if ('notice' in news && st.notice && !(st.aside && isTyped())) say(st.notice, false, st.aside && ['Edit it again', () => editText(st.aside.text, st.aside.base)]);
  else if ('notice' in news || 'fault' in news) $('bar').hidden = true;
}
function say(sentence, bad, act) {
  $('bar').className = 'bar' + (bad ? ' bad' : '');
  $('bar').replaceChildren(el('p', {}, named(sentence)), act ? el('button', { type: 'button', onclick: () => { $('bar').hidden = true; act[1](); } }, act[0]) : '', el('button', { type: 'button', onclick: () => { $('bar').hidden = true; } }, 'Close'));
  $('bar').hidden = false;
}
function showWarnings(on) { $('warnings').hidden = !on; $('warnings-button').setAttribute('aria-expanded', on); }
function showHistory() {
  const { done, undone } = S.st.history || { done: [], undone: [] };
  const step = (name, current, later, act) => el('li', { class: later ? 'later' : '' }, el('button', { type: 'button', disabled: current, 'aria-current': current, title: named(name), onclick: act }, later ? '↷ ' : '', named(name)));
  const items = [step('as it was at the start', !done.length, false, () => post('undo', { count: done.length }))];
  done.forEach((name, i) => items.push(step(name, i === done.length - 1, false, () => post('undo', { count: done.length - 1 - i }))));
  undone.forEach((name, i) => items.push(step(name, false, true, () => post('redo', { count: i + 1 }))));
  $('history-list').replaceChildren(...items.reverse());
  $('undo').title = done.length ? `Undo ${named(done[done.length - 1])} (u)` : 'Undo (u)';
  $('redo').title = undone.length ? `Redo ${named(undone[0])} (r)` : 'Redo (r)';
}

// The script: of a long one only the lines in sight are drawn

const inForce = () => S.st.fault && S.st.fault.text !== null && S.st.fault.isOfScript ? S.st.fault.text : S.st.text || '';
const shownText = () => S.editing ? $('editor').value : inForce();
// What of a text is the same as in another one: its beginning and its end, by lines.
function common(shown, other) {
  if (shown === other) return { head: shown.length, tail: 0 };
  const n = Math.min(shown.length, other.length);
  let head = 0, tail = 0;
  while (head < n && shown[head] === other[head]) head++;
  while (head > 0 && shown[head - 1] !== '\n') head--;
  while (tail < n - head && shown[shown.length - 1 - tail] === other[other.length - 1 - tail]) tail++;
  while (tail > 0 && shown[shown.length - tail - 1] !== '\n') tail--;
  return { head, tail };
}
// The place in one text that is the place AT in the other one, or -1.
const moved = ({ head, tail }, at, end, to, from) => end <= head ? at : at >= from - tail ? at + to - from : -1;
function showScript() {
  if (S.editing && ($('editor').value === inForce() || !S.dirty)) setEditor();
  layout();
}
function layout() {
  const text = shownText(), ink = S.st.ink || { text: '', spans: [], rules: [] }, lines = [], fault = S.st.fault && S.st.fault.text === text ? S.st.fault : null;
  let at = 0, most = 0;
  for (const line of text.split('\n')) {
    lines.push([at, at + line.length]);
    at += line.length + 1;
    most = Math.max(most, line.length + (line.includes('\t') ? 7 * line.split('\t').length : 0));
  }
  if (lines.length > 1 && text.endsWith('\n')) lines.pop();
  Object.assign(S, { shown: text, lines, same: common(text, ink.text), fault, oops: [], gap: fault && fault.line && !S.editing ? fault.line : 0 });
  S.ruleAt = new Map(ink.rules.map((rule, i) => [rule[5], i]));
  // (a text that is not the current script has colours of its own between its beginning and its end, if they are known)
  S.inked = S.typed && S.typed.text === text ? S.typed.spans : fault ? fault.spans : [];
  $('lines').style.height = TOP + lines.length * LINE + gapHeight() + 60 + 'px';
  $('lines').style.width = `max(100%, calc(${most}ch + 150px))`;
  const all = !fault ? [] : fault.all.length ? fault.all : [[fault.line, -1, -1, fault.sentence]];
  S.oops = all.filter(([, from]) => from >= 0);
  $('under').hidden = !(fault && (S.editing || all.length > 1));
  $('under').replaceChildren(el('h3', { class: 'label' }, count(all.length, 'fault')), el('ul', {}, all.map(([n, , , sentence]) => el('li', {}, lineLink(n), ' ', named(sentence)))));
  if (S.editing) sizeEditor();
  showHint();
  const shown = JSON.stringify(fault);
  if (fault && fault.line && !S.editing && shown !== S.faultShown) toLine(fault.line, true);
  else drawLines(true);
  S.faultShown = shown;
}
// (the box below a line with a fault: the carets, and the sentence in lines of some 60 letters)
const gapHeight = () => S.gap ? Math.min(GAP, LINE + 6 + 18 * Math.ceil(S.fault.sentence.length / 60)) : 0;
const topOf = n => TOP + (n - 1) * LINE + (n > S.gap ? gapHeight() : 0);
// (all lines of a short one when there is time, so that the browser finds text in them)
function drawLines(isNew, isIdle) {
  const host = $('code'), n = S.lines.length, high = host.clientHeight, isShort = n <= ALL && !S.editing;
  if (!high) return;
  const back = S.gap ? gapHeight() / LINE + 1 : 0, all = isShort && isIdle;
  const from = all ? 0 : Math.max(0, Math.floor((host.scrollTop - TOP) / LINE - back) - 5), to = all ? n : Math.min(n, Math.ceil((host.scrollTop + high) / LINE) + 5);
  if (!isNew && S.from <= from && S.to >= to) return;
  notLater(S.idle);
  if (isShort && !isIdle) S.idle = later(() => drawLines(true, true), { timeout: 500 });
  const had = document.activeElement?.classList.contains('cov') ? +document.activeElement.dataset.n : 0, nodes = [], before = S.drawn;
  [S.from, S.to, S.drawn] = [from, to, new Map()];
  for (let k = from; k < to; k++) nodes.push(...drawLine(k, before));
  $('lines').classList.toggle('old', isOld());
  place($('lines'), nodes);
  if (had && document.activeElement?.dataset.n !== String(had)) focusCount(had, false);
}
// Makes these nodes the children; those that are there already stay, so that a browser lays out only what is new.
function place(host, nodes) {
  const wanted = new Set(nodes);
  for (const node of [...host.childNodes]) if (!wanted.has(node)) node.remove();
  let next = host.firstChild;
  for (const node of nodes) { if (node === next) next = next.nextSibling; else host.insertBefore(node, next); }
}
// The coloured parts of a line: text, class, rule.
function pieces(start, end) {
  const ink = S.st.ink || { text: '', spans: [], rules: [] }, place = moved(S.same, start, end, ink.text.length, S.shown.length), isSame = place >= 0, found = [];
  const spans = isSame ? ink.spans : S.inked, a = isSame ? place : start, b = a + end - start;
  let low = 0, high = spans.length, at = a;
  while (low < high) { const mid = (low + high) >> 1; if (spans[mid][1] <= a) low = mid + 1; else high = mid; }
  for (; low < spans.length && spans[low][0] < b; low++) {
    const from = Math.max(a, spans[low][0]), to = Math.min(b, spans[low][1]);
    if (from > at) found.push([S.shown.slice(at - a + start, from - a + start), '', undefined]);
    const rule = isSame ? S.ruleAt.get(spans[low][0]) : undefined;
    found.push([S.shown.slice(from - a + start, to - a + start), spans[low][2], from === spans[low][0] ? rule : undefined]);
    at = to;
  }
  if (at < b) found.push([S.shown.slice(at - a + start, end), '', undefined]);
  return S.oops.length ? withFaults(found, start, end) : found;
}
// The same parts, cut at the faults: with the sentence of the fault as the fourth.
function withFaults(found, start, end) {
  const bad = S.oops.filter(([, from, to]) => from < end && to > start || from === to && from >= start && from <= end), cuts = [];
  if (!bad.length) return found;
  let at = start;
  for (const [text, cls, rule] of found) {
    const places = [at, ...bad.flatMap(([, from, to]) => [from, to]).filter(place => place > at && place < at + text.length).sort((a, b) => a - b), at + text.length];
    places.slice(1).forEach((to, k) => { const from = places[k], oops = bad.find(([, a, b]) => a <= from && to <= b); if (to > from) cuts.push([S.shown.slice(from, to), cls, k ? undefined : rule, oops && oops[3]]); });
    at += text.length;
  }
  return cuts;
}
const isOld = () => !S.st.counts || S.st.counts.script !== S.st.script;
const usesOf = rule => S.counts.get(rule[0]) ?? 0;
// (a rule that is new since the last count is not known yet)
const isUnknown = rule => isOld() && !S.counts.has(rule[0]);
const isNever = rule => S.counts.size > 0 && S.words.length > 0 && !usesOf(rule) && !isUnknown(rule);
function drawLine(k, before) {
  const [start, end] = S.lines[k], n = k + 1, fault = S.fault, found = pieces(start, end).map(([text, cls, i, oops]) => [text, cls, i === undefined ? null : S.st.ink.rules[i], oops]);
  const chosen = S.view === 'rule' && S.rule ? S.rule : [], isCounted = S.counts.size > 0, look = 'ln' + (S.at === n ? ' at' : '') + (fault && (fault.line === n || S.oops.some(([line]) => line === n)) ? ' wrong' : '');
  const key = JSON.stringify([n, topOf(n), look, isCounted && S.words.length, found.map(([text, cls, rule, oops]) => rule ? [text, cls, rule[0], S.counts.get(rule[0]), isUnknown(rule), chosen.includes(rule[0]), oops] : [text, cls, oops])]), old = before.get(n);
  if (S.gap !== n && old && old.key === key) { S.drawn.set(n, old); return [old.line]; }
  const tx = el('span', { class: 'tx' }), rules = [];
  for (const [text, cls, rule, oops] of found) {
    if (rule) rules.push(rule);
    if (!cls && !oops) { tx.append(...narrow(text)); continue; }
    const is = cls + (oops ? ' oops' : '') + (rule ? ' rule' + (isNever(rule) ? ' never' : '') + (chosen.includes(rule[0]) ? ' on' : '') : '');
    tx.append(el('span', { class: is, 'data-rule': rule && rule[0], title: oops ? named(oops) : rule && isCounted && !isUnknown(rule) ? ruleName(rule) + ': ' + count(usesOf(rule), 'word') : null }, narrow(text)));
  }
  const line = el('div', { class: look }, countCell(n, rules, isCounted), el('span', { class: 'no', 'aria-hidden': 'true' }, String(n)), tx);
  S.drawn.set(n, { key, line });
  line.style.top = topOf(n) + 'px';
  if (S.gap !== n) return [line];
  const indent = S.shown.slice(start, start + fault.column - 1).replace(/[^\t]/g, ' ');
  const more = fault.all.length > 1 ? ` (${count(fault.all.length - 1, 'more fault')} below)` : '';
  const box = el('div', { class: 'fault', role: 'alert' }, el('pre', { 'aria-hidden': 'true' }, indent + '^'.repeat(Math.max(1, fault.length))), el('p', {}, named(fault.sentence) + more));
  box.style.top = topOf(n) + LINE + 'px';
  box.style.height = gapHeight() + 'px';
  return [line, box];
}
function countCell(n, rules, isCounted) {
  if (!rules.length || !isCounted) return el('span', { class: 'cov' });
  const taken = rules.filter(rule => rule[1] === 'entry'), meant = taken.length ? taken : rules.slice(0, 1), sum = meant.reduce((all, rule) => all + usesOf(rule), 0);
  const zero = (taken.length ? taken : rules).filter(isNever).length, bar = el('i');
  if (meant.some(isUnknown)) return el('span', { class: 'cov' }, '…');
  bar.style.width = (54 * Math.min(1, Math.log1p(sum) / (Math.log1p(S.words.length) || 1))).toFixed(1) + 'px';
  const title = taken.length > 1 ? `${number(sum)} in all: for each of these ${taken.length} strings the words that take it` : `${count(sum, 'word')} ${sum === 1 ? 'uses' : 'use'} this`;
  const never = zero ? `; ${count(zero, 'is', 'are')} never ${taken.length ? 'taken' : 'used'}` : '', scale = '. The bar grows with the logarithm of the number.';
  return el('button', { type: 'button', class: 'cov' + (zero ? ' has0' : ''), tabindex: -1, 'data-n': n, title: title + never + scale, 'aria-label': `line ${n}: ${title}${never}`, onclick: () => go('rule', meant.map(rule => rule[0]).join('\n')) }, bar, zero && sum ? '○ ' : '', number(sum));
}
function showHint() {
  const rules = S.st.ink ? S.st.ink.rules : [], never = rules.filter(rule => rule[1] === 'entry' && !usesOf(rule)).length;
  const known = S.counts.size && rules.length, pending = isOld() && S.st.text !== undefined && !S.st.fault;
  const said = !known ? (S.st.counts && S.st.ink && !S.st.fault && S.words.length ? 'this program writes no places or no counts' : '') : pending ? 'counting the words of each rule' : !S.words.length ? '' : never ? '' : 'some word takes each string';
  $('hint').replaceChildren(said || (known && never ? el('button', { type: 'button', class: 'link', id: 'next-never', title: 'Go to the next one (n)', onclick: toNever }, `${count(never, 'string')} that no word takes`) : ''));
}
// Goes to the next string that no word takes.
function toNever() {
  const lines = [...new Set((S.st.ink ? S.st.ink.rules : []).filter(rule => rule[1] === 'entry' && !usesOf(rule)).map(rule => rule[7]))];
  if (!lines.length || isOld()) return;
  S.never = lines.find(n => n > S.never) || lines[0];
  toLine(S.never);
}
const ruleName = ([, kind, name, k, string]) => kind === 'entry' ? `${name}, among ${k}, '${named(string)}'` : kind === 'among' ? `${name}, among ${k}` : `${kind} ${name}`;
function toLine(n, isFault) {
  S.at = isFault ? 0 : n;
  const host = $('code'), top = topOf(n);
  if (top < host.scrollTop + 40 || top > host.scrollTop + host.clientHeight - 100) host.scrollTop = top - host.clientHeight / 2;
  drawLines(true);
}
const lineLink = n => n ? el('button', { type: 'button', class: 'link place', onclick: () => toLine(n), 'aria-label': `line ${n} of the script` }, 'line ' + n) : '';
// The nearest line, from N on in one direction, that has a count.
function focusCount(n, by) {
  const find = () => $('lines').querySelector(`button.cov[data-n="${n}"]`);
  const has = k => pieces(...S.lines[k - 1]).some(([, , rule]) => rule !== undefined);
  if (by) { do n += by; while (n >= 1 && n <= S.lines.length && !has(n)); }
  if (n < 1 || n > S.lines.length) return;
  if (!find() || by) { const host = $('code'), top = topOf(n); if (top < host.scrollTop || top + LINE > host.scrollTop + host.clientHeight) host.scrollTop = top - host.clientHeight / 2; drawLines(false); }
  find()?.focus({ preventScroll: true });
}

// The script as a trial

// The text of the file that the shown text was made from.
const shownBase = () => S.st.fault && S.st.fault.text !== null && S.st.fault.isOfScript ? S.st.fault.base : S.st.base;
const isTyped = () => S.editing && S.dirty;
// Whether the file has something else than what the text was made from that a save would write.
const isOutside = () => !S.saving && (isTyped() ? S.base : S.st.isTrial ? S.st.base : S.st.file) !== S.st.file;
function setEditor() { if ($('editor').value !== inForce()) $('editor').value = inForce(); S.dirty = false; S.base = shownBase(); }
function showOutside() {
  const on = isOutside();
  if ($('outside').hidden !== on) return;
  $('outside').hidden = !on;
  $('outside').replaceChildren(...(on ? [el('p', {}, `${file(S.st.names.script)} was changed outside after your text was begun. A save does not overwrite that.`), el('button', { type: 'button', onclick: merge }, 'Take the changes in'), el('button', { type: 'button', onclick: drop }, 'Back to the file')] : []));
}
// Takes what was changed in the file into the text.
async function merge() {
  const text = S.editing ? $('editor').value : S.st.text, reply = await post('merge', { text, base: isTyped() ? S.base : S.st.base }), name = file(S.st.names.script);
  if (!reply || S.editing && $('editor').value !== text) return;
  S.st.file = reply.base;
  editText(reply.text, reply.base);
  say(reply.both ? `${count(reply.both, 'place')} of ${name} and of your text differ: there the lines of ${name} are comments. Correct that, and save.` : `The changes of ${name} are in the text now.`, false);
}
// Shows a text in the editor that is not tried. It is an edit there: Ctrl+Z brings back what was typed, with the base that this had.
function editText(text, base) {
  if (!S.editing) edit(true);
  const editor = $('editor'), old = editor.value, same = common(text, old);
  // (an edit that only inserts would be one with what was typed there before: so it has a line more)
  if (same.head + same.tail === old.length) same.tail -= (old.indexOf('\n', old.length - same.tail) + 1 || old.length) - (old.length - same.tail);
  S.turns.push([old, S.base], [text, base]);
  editor.focus({ preventScroll: true });
  editor.setSelectionRange(same.head, old.length - same.tail);
  if (!document.execCommand('insertText', false, text.slice(same.head, text.length - same.tail)) || editor.value !== text) editor.value = text;
  Object.assign(S, { base });
  typed();
}
function sizeEditor() {
  $('editor').style.height = S.lines.length * LINE + 88 + 'px';
  $('editor').style.width = Math.max($('lines').offsetWidth, $('code').clientWidth) - 112 + 'px';
}
function edit(on) {
  if (S.st.text === undefined && !S.st.fault) return;
  S.editing = on;
  document.body.classList.toggle('editing', on);
  if (on) setEditor();
  Object.assign(S, { turns: [], leaving: null });
  $('editor').hidden = !on;
  S.dirty = false;
  layout();
  showEditButtons();
  if (on) $('editor').focus({ preventScroll: true });
}
// Whether a button may drop what is in the editor: if it was tried, or at the second click.
function mayDrop(id, how, isClick) {
  const asked = id + $('editor').value, is_sure = !isTyped() || isClick && S.leaving === asked;
  S.leaving = is_sure ? null : asked;
  if (!is_sure) say(`The text has changes that were not tried: Ctrl+Enter tries them, ${how} drops them.`, false);
  return is_sure;
}
// Leaves the editor. What was dropped is there again if that was a mistake.
function leave(isClick) {
  const text = $('editor').value, { base, dirty } = S;
  if (!mayDrop('edit', isClick ? 'Leave again' : 'Leave', isClick)) return;
  edit(false);
  $('bar').hidden = true;
  if (dirty) say('What you typed is dropped.', false, ['Edit it again', () => editText(text, base)]);
}
function showEditButtons() {
  const st = S.st, is_there = st.text !== undefined;
  $('edit').setAttribute('aria-pressed', S.editing);
  $('edit').textContent = S.editing ? 'Leave' : 'Edit';
  $('edit').disabled = !is_there;
  $('try').hidden = !S.editing;
  $('try').disabled = !S.dirty;
  $('try').className = S.dirty ? 'main' : '';
  $('save').hidden = !is_there || !st.isTrial && !S.editing;
  $('save').disabled = !st.isTrial && !S.dirty;
  $('drop').hidden = !st.isTrial && !(st.fault && st.fault.origin === 'trial');
  showOutside();
  showStatus();
}
let pausing = 0, drawing = 0;
function typed(event) {
  S.dirty = true;
  if (/^history/.test(event?.inputType)) for (const [text, base] of S.turns) if (text === $('editor').value) S.base = base;
  cancelAnimationFrame(drawing);
  drawing = requestAnimationFrame(() => { layout(); showEditButtons(); });
  clearTimeout(pausing);
  pausing = setTimeout(async () => {
    const text = $('editor').value;
    try { S.typed = { text, spans: await ask('tokens', null, { text }) }; if (S.editing) layout(); } catch (fault) { /* plain then */ }
  }, 250);
}
async function tryIt() {
  if (!S.editing || !S.dirty) return;
  // (the news say what was tried)
  await post('trial', { text: $('editor').value, base: S.base, tab: TAB });
  layout();
  showEditButtons();
}
let refused = 0;
async function save() {
  if (!S.st.isTrial && !S.dirty || S.saving) return;
  const sure = performance.now() - refused < 20000, text = $('editor').value, body = { ...(isTyped() ? { text, base: S.base } : { base: S.st.base }), sure, tab: TAB };
  S.saving = true;
  const reply = await post('save', body);
  S.saving = false;
  refused = reply ? 0 : performance.now();
  // (the news may come later; what was typed meanwhile is based on what was saved)
  if (reply && reply.file) {
    Object.assign(S.st, { file: reply.file }, isTyped() ? {} : { base: reply.file, isTrial: false });
    S.base = reply.file;
  }
  layout();
  showEditButtons();
}
async function drop() {
  S.dropping = true;
  S.dropping = await post('reload') && S.dropping;
}

// The views

const lists = {};
function go(view, rest) { location.hash = rest === undefined ? view : `${view}=${encodeURIComponent(rest)}`; }
const toWord = word => go('word', word);
const toClass = stem => { Object.assign(S, { sel: stem, pick: null }); $('class-search').value = ''; go('classes'); };
function route() {
  const [view, rest] = location.hash.slice(1).split(/=(.*)/s), before = S.view;
  S.view = VIEWS.includes(view) ? view : 'changes';
  let text;
  try { text = rest === undefined ? undefined : decodeURIComponent(rest); } catch (fault) { /* an address that somebody typed */ }
  if (S.view === 'word' && text !== undefined && text !== S.word) { S.word = text; $('word-input').value = text; }
  if (S.view === 'rule' && text !== undefined) S.rule = text.split('\n');
  show(false);
  if (before === 'rule' || S.view === 'rule') drawLines(true);
}
// All rows of changes: those of words by their outcomes now and at the mark.
function changes() {
  if (!S.changed) {
    S.changed = [];
    const pair = o => [o[0] === '=' ? 'stem' : 'refused', o.slice(1)];
    S.marked.forEach((old, i) => { if (old !== null && old !== S.out[i]) S.changed.push(['changed', S.words[i], ...pair(old), ...pair(S.out[i])]); });
  }
  return S.changed.concat(S.st.changes);
}
function show(isNew) {
  const isThere = S.st.text !== undefined && S.st.changes !== undefined;
  $('no-results').hidden = isThere;
  for (const tab of document.querySelectorAll('[role="tab"]')) {
    const on = tab.dataset.view === S.view;
    tab.setAttribute('aria-selected', on);
    tab.tabIndex = on ? 0 : -1;
    $('view-' + tab.dataset.view).hidden = !on || !isThere;
  }
  if (!isThere) return;
  const rows = changes(), kinds = S.kinds = new Map();
  for (const row of rows) kinds.set(row[0], (kinds.get(row[0]) || 0) + 1);
  $('count-changes').textContent = rows.length ? number(kinds.get('changed') || rows.length) : '';
  ({ changes: showChanges, classes: showClasses, word: showWord, rule: showRule, families: showFamilies })[S.view](isNew);
}
function showChanges(isNew) {
  const st = S.st, before = st.markName ? 'Approved stem' : 'Stem at the mark', last = st.last, changed = last && last.changed;
  const options = [['changed', 'Words'], ['split', 'Split'], ['merged', 'Merged'], ['renamed', 'Renamed'], ['added', 'Added'], ['removed', 'Removed']].map(([key, label]) => [key, label, st.isPartial && key !== 'changed' ? '…' : S.kinds.get(key) || 0]).filter(([key, , n], i) => i < 4 || n && n !== '…');
  if (!options.some(([key]) => key === S.kind)) S.kind = 'changed';
  segments($('change-kinds'), options, S.kind, key => { S.kind = key; showChanges(); });
  const all = changes(), since = `Compared with ${st.markName ? 'the stems of ' + file(st.markName) : 'the mark'}.`;
  const doing = { file: 'The last save', trial: 'The last trial', undo: 'Undo', redo: 'Redo', limit: 'The limit' }[last ? last.origin : ''];
  $('change-lead').replaceChildren(all.length ? since : '', ...(doing && changed && (all.length || changed.length) ? [` ${doing} changed `, el('b', {}, count(changed.length, 'word')), '.'] : []));
  for (const id of ['change-tools', 'change-cols']) $(id).hidden = !all.length;
  const text = $('change-search').value, only = $('change-last').checked && changed ? new Set(changed.map(i => S.words[i])) : null;
  let rows = all.filter(row => row[0] === S.kind);
  if (text) rows = rows.filter(row => row.some((part, i) => i && part.includes(text) && !(row[0] === 'changed' && (i === 2 || i === 4))));
  if (only && S.kind === 'changed') rows = rows.filter(row => only.has(row[1]));
  const looks = {
    changed: ['words3', ['Word', before, '', 'Stem now'], ([, word, k0, old, k1, now]) => { const [a, b] = versus(code(k0, old), code(k1, now)); return [el('span', {}, w(word)), el('span', {}, a), arrow(), el('span', {}, b)]; }],
    merged: ['klass', ['Stem now', '', before], row => [el('span', {}, w(row[1], 'stem')), arrow('←'), el('span', {}, joined(row.slice(2)))]],
    split: ['klass', [before, '', 'Stems now'], row => [el('span', {}, w(row[1])), arrow(), el('span', {}, joined(row.slice(2), 'stem'))]],
    added: ['two', ['Word', ''], row => [el('span', {}, w(row[1])), '']],
  };
  const [cls, labels, render] = looks[S.kind] || (S.kind === 'renamed' ? looks.split : looks.added), top = lists.changes.host.scrollTop;
  header('change-cols', cls, labels);
  lists.changes.set(rows, render, cls, !all.length ? `No word and no class differs from ${st.markName ? 'the stems of ' + file(st.markName) : 'the mark'}. Save ${file(st.names.script)} in your editor, or press Edit: what that changes is shown here.` : text || only ? 'Nothing found.' : 'None.');
  if (isNew) lists.changes.host.scrollTop = top;
}
function openChange(row) {
  if (row[0] === 'changed' || row[0] === 'added') toWord(row[1]);
  else if (row[0] !== 'removed') toClass(row[0] === 'merged' ? row[1] : row[2]);
}
function classes() {
  if (S.classes) return S.classes;
  const by = new Map();
  S.out.forEach((o, i) => { if (o[0] === '=') { const c = by.get(o); if (c) c.push(i); else by.set(o, [i]); } });
  return S.classes = [...by].map(([o, words]) => ({ stem: o.slice(1), words }));
}
const size = text => { for (let i = 0; i < text.length; i++) { const c = text.charCodeAt(i); if (c > 0xd7ff && c < 0xe000) return [...text].length; } return text.length; };
// A picture of numbers: a row with its bar for each, of which one can be chosen.
function histogram(host, values, label, pick) {
  const most = Math.max(1, ...values.map(v => v.n)), isOn = v => Boolean(S.pick && S.pick.pic === v.pic && S.pick.key === v.key), had = host.contains(document.activeElement) ? [...host.children].indexOf(document.activeElement) : -1;
  host.setAttribute('aria-label', label);
  host.replaceChildren(...values.map((v, i) => {
    const bar = el('i');
    bar.style.width = v.n ? `max(1px, ${(100 * v.n / most).toFixed(2)}%)` : 0;
    return el('button', { type: 'button', class: isOn(v) ? 'on' : '', 'aria-pressed': isOn(v), tabindex: i ? -1 : 0, 'aria-label': `${v.label}: ${number(v.n)}`, title: `${v.label}: ${number(v.n)}`, onclick: () => pick(v) }, el('span', {}, v.name), el('span', { class: 'track' }, bar), el('b', {}, number(v.n)));
  }));
  host.onkeydown = event => {
    const by = { ArrowDown: 1, ArrowRight: 1, ArrowUp: -1, ArrowLeft: -1 }[event.key], rows = [...host.children], next = rows[rows.indexOf(document.activeElement) + by];
    if (by) { event.preventDefault(); next?.focus(); }
  };
  if (had >= 0) host.children[Math.min(had, values.length - 1)]?.focus();
}
const sizeOf = c => Math.min(c.words.length, 12);
const removedOf = (i, stem) => Math.max(-2, Math.min(10, size(S.words[i]) - stem));
function showPictures(pick) {
  const sizes = new Map(), removed = new Map(), add = (map, key) => map.set(key, (map.get(key) || 0) + 1);
  for (const c of classes()) { const stem = size(c.stem); add(sizes, sizeOf(c)); for (const i of c.words) add(removed, removedOf(i, stem)); }
  const range = (from, to) => Array.from({ length: to - from + 1 }, (_, i) => from + i), low = Math.min(0, ...removed.keys()), high = Math.max(4, ...removed.keys());
  histogram($('pic-sizes'), range(1, Math.max(4, ...sizes.keys())).map(s => ({ pic: 'size', key: s, name: s === 12 ? '12 or more' : String(s), n: sizes.get(s) || 0, label: 'classes of ' + (s === 12 ? '12 words or more' : count(s, 'word')) })), 'Classes by their number of words', pick);
  histogram($('pic-removed'), range(low, high).map(d => ({ pic: 'removed', key: d, name: d === 10 ? '10 or more' : d === -2 ? 'longer' : d < 0 ? 'longer by 1' : String(d), n: removed.get(d) || 0, label: 'words with ' + (d === -1 ? 'a stem longer by one character' : d < 0 ? 'a stem longer by 2 characters or more' : d === 10 ? '10 characters or more removed' : count(d, 'character') + ' removed') })), 'Words by the characters removed', pick);
}
function showClasses(isNew) {
  const all = classes(), pick = v => { S.pick = S.pick && S.pick.pic === v.pic && S.pick.key === v.key ? null : v; showClasses(); }, box = $('class-search'), text = box.value;
  showPictures(pick);
  $('class-filter').replaceChildren(...(S.pick ? [el('button', { type: 'button', class: 'chip on', onclick: () => pick(S.pick), 'aria-label': 'take the filter away: ' + S.pick.label }, S.pick.label, ' ×')] : []));
  let found = all, test = null;
  box.classList.remove('wrong');
  if (text && $('class-regex').checked) {
    try { const r = new RegExp(text, 'u'); test = t => r.test(t); } catch (fault) { box.classList.add('wrong'); $('class-found').textContent = 'no regular expression yet'; return; }
  } else if (text) test = t => t.includes(text);
  if (test) found = found.filter(c => test(c.stem) || c.words.some(i => test(S.words[i])));
  if (S.pick) found = found.filter(c => S.pick.pic === 'size' ? sizeOf(c) === S.pick.key : c.words.some(i => removedOf(i, size(c.stem)) === S.pick.key));
  const byStem = (a, b) => a.stem < b.stem ? -1 : a.stem > b.stem ? 1 : 0, turn = S.desc ? -1 : 1;
  found = [...found].sort(S.sort === 'size' ? (a, b) => turn * (a.words.length - b.words.length) || byStem(a, b) : (a, b) => turn * byStem(a, b));
  for (const button of $('class-cols').querySelectorAll('button')) {
    const on = button.dataset.sort === S.sort, name = { size: 'Words', stem: 'Stem' }[button.dataset.sort];
    button.className = on ? 'on' : '';
    button.textContent = name + (on ? S.desc ? ' ↓' : ' ↑' : '');
    button.setAttribute('aria-label', `sort by ${name === 'Words' ? 'number of words' : 'stem'}${on ? S.desc ? ', now descending' : ', now ascending' : ''}`);
  }
  $('class-found').textContent = found.length === all.length ? count(all.length, 'class', 'classes') : `${number(found.length)} of ${count(all.length, 'class', 'classes')}`;
  const top = lists.classes.host.scrollTop;
  lists.classes.set(found, c => [el('span', { class: 'num' }, number(c.words.length)), el('span', {}, w(c.stem, 'stem')), el('span', { class: 'muted' }, c.words.slice(0, 60).flatMap((i, k) => [k ? ', ' : '', w(S.words[i])]), c.words.length > 60 ? ' …' : '')], 'three', all.length ? 'No class found.' : 'There are no words.');
  if (isNew) lists.classes.host.scrollTop = top;
  const n = S.sel === null ? -1 : found.findIndex(c => c.stem === S.sel);
  $('class-detail').hidden = n < 0;
  if (n >= 0) { showClass(found[n]); if (!isNew) lists.classes.move(n); }
}
function showClass(c) {
  S.sel = c.stem;
  $('class-detail').hidden = false;
  $('class-detail').replaceChildren(el('h3', {}, w(c.stem), el('span', { class: 'muted' }, ` — ${count(c.words.length, 'word')}`)),
    el('div', { class: 'chips' }, c.words.slice(0, 500).map(i => el('button', { type: 'button', class: 'chip', onclick: () => toWord(S.words[i]), 'aria-label': `why ${named(S.words[i])}` }, w(S.words[i]))), c.words.length > 500 ? el('span', { class: 'muted' }, `and ${number(c.words.length - 500)} more`) : null));
}

// A word's way to its stem

const verdict = isTrue => el('span', { class: isTrue ? 't' : 'f', title: isTrue ? 'it signalled t' : 'it signalled f' }, isTrue ? 'true' : 'false');
const mono = text => el('span', { class: 'name' }, named(text));
function says(step) {
  if (step.kind === 'put') {
    const x = [...step.before];
    return [el('span', { class: 'before w', dir: 'auto' }, parts(x.slice(0, step.start).join('')), step.end > step.start ? el('del', {}, parts(x.slice(step.start, step.end).join(''))) : null, step.put ? el('ins', {}, parts(step.put)) : null, parts(x.slice(step.end).join(''))), el('span', { class: 'to' }, '  →  '), el('span', { class: 'before' }, w(step.after))];
  }
  return ({
    taken: () => [`among ${step.k} takes `, el('span', { class: 'lit' }, "'", step.string ? parts(step.string) : '', "'")], none: () => [`among ${step.k} takes nothing`], call: () => ['calls ', mono(step.what)],
    unknown: () => ['the tests after these are not known'], more: () => [`${number(+step.what)} more events`],
  }[step.kind] || (() => [mono(step.what), ' is ', verdict(step.true), step.times ? `, ${step.times} times` : null]))();
}
// Equal steps one after another are one with their number.
function folded(steps) {
  const found = [];
  for (const step of steps) {
    const last = found[found.length - 1];
    if (last && ['test', 'asked'].includes(step.kind) && ['kind', 'what', 'true', 'line', 'routine'].every(key => last[key] === step[key])) last.times = (last.times || 1) + 1;
    else found.push({ ...step });
  }
  return found;
}
let wordTurn = 0;
async function showWord(isNew) {
  const out = $('word-out'), word = S.word, turn = ++wordTurn;
  $('word-add').hidden = true;
  if (!word) { out.replaceChildren(el('p', { class: 'none' }, 'Type a word, or choose one in another view: you see how it comes to its stem.')); return; }
  if (S.st.text === undefined) return;
  let data;
  try { data = await ask('word', { word, all: $('word-all').checked ? 1 : '' }); } catch (fault) { if (turn === wordTurn) out.replaceChildren(el('p', { class: 'none refused' }, named(fault.message))); return; }
  if (turn !== wordTurn) return;
  const all = $('word-all').checked, steps = folded(data.steps.filter(step => all || !step.minor)), bad = data.outcome[0] === '!', top = out.scrollTop, isKnown = S.words.includes(word);
  const items = steps.map(step => el('li', { class: `${step.kind}${step.minor ? ' minor' : ''}${step.kind === 'failed' || step.true === false ? ' no' : ''}` }, el('span', { class: 'who' }, step.routine), el('span', { class: 'pin' }), el('span', {}, says(step)), lineLink(step.line)));
  const isSpent = name => name === 'steps' && data.outcome === '!Steps'; // (its number is one more than the limit)
  const figures = data.figures.map(([name, value]) => isSpent(name) ? `more than ${number(value - 1)} steps` : `${name} ${number(+value)}`).join(', ');
  items.push(el('li', { class: 'end' + (bad ? ' no' : '') }, el('span', { class: 'who' }, bad ? 'refused' : 'stem'), el('span', { class: 'pin' }), el('span', { class: 'before' }, outcome(data.outcome), data.where ? ` in ${data.where}` : ''), el('span', { class: 'muted' }, figures)));
  $('word-add').hidden = isKnown;
  out.replaceChildren(el('div', { class: 'outcome' }, w(word), el('span', { class: 'to' }, '→'), el('span', { class: 'stem' }, outcome(data.outcome))), el('p', { class: 'say' }, wordSentence(word, data, isKnown, !steps.length)), el('ol', { class: 'time' }, items));
  if (isNew) out.scrollTop = top;
}
function wordSentence(word, data, isKnown, isEmpty) {
  const said = isKnown ? [] : ['This word is not in the list. '], reason = S.st.names.refusals[data.outcome.slice(1)];
  if (data.outcome[0] === '!' && reason) said.push(`Refused: ${reason} `);
  if (data.turn) said.push(named(data.turn) + ' ');
  if (data.outcome[0] === '=') {
    const others = (classes().find(c => c.stem === data.outcome.slice(1)) || { words: [] }).words.filter(i => S.words[i] !== word);
    if (others.length) said.push(isKnown ? 'In a class with ' : 'Words with this stem: ', ...others.slice(0, 8).flatMap((i, k) => [k ? ', ' : '', el('button', { type: 'button', onclick: () => toWord(S.words[i]) }, w(S.words[i]))]), others.length > 8 ? ` and ${number(others.length - 8)} more` : '', '. ');
    else said.push(isKnown ? 'No other word has this stem. ' : 'No word of the list has this stem. ');
  }
  const mark = changes().find(row => row[0] === 'changed' && row[1] === word);
  if (mark) said.push(S.st.markName ? 'Its approved stem is ' : 'At the mark it was ', w(mark[2] === 'stem' ? mark[3] : 'refused: ' + mark[3]), '. ');
  if ($('word-all').checked && !data.hasTests) said.push('The tests of this run are not known. ');
  if (isEmpty) said.push('Nothing took a string or changed the text. ');
  return said;
}

// The words of a rule, and families

let ruleTurn = 0;
async function showRule() {
  const head = $('rule-head'), turn = ++ruleTurn, all = S.st.ink ? S.st.ink.rules : [];
  header('rule-cols', 'two', ['Word', 'Stem']);
  const none = sentence => { head.replaceChildren(el('p', { class: 'muted' }, sentence)); lists.rule.set([], () => [], 'two', ''); };
  if (!S.rule) return none('Choose a string, a routine or a grouping in the script, or a number beside it: you see the words that use it.');
  const rules = S.rule.map(key => all.find(rule => rule[0] === key)).filter(Boolean).slice(0, 200);
  if (!rules.length) return none('The script has no such rule.');
  let data;
  try { data = await ask('uses', { rules: JSON.stringify(rules.map(([, , ...rest]) => rest.slice(0, rest[2] !== '' || rules[0][1] === 'entry' ? 3 : rest[1] ? 2 : 1))) }); } catch (fault) { return turn === ruleTurn && none(fault.message); }
  if (turn !== ruleTurn) return undefined;
  const one = rules.length === 1 ? rules[0] : null, { words } = data, siblings = all.filter(rule => rule[7] === rules[0][7]), taken = rules[0][1] === 'entry';
  const chips = siblings.length > 1 ? el('div', { class: 'chips', role: 'group', 'aria-label': 'Rules of this line' }, siblings.map(rule => el('button', {
    type: 'button', class: 'chip' + (S.rule.includes(rule[0]) ? ' on' : usesOf(rule) ? '' : ' zero'), 'aria-pressed': S.rule.includes(rule[0]), onclick: () => go('rule', rule[0]),
  }, el('span', { class: 'lit' }, rule[1] === 'entry' ? ["'", parts(rule[4]), "'"] : rule[1] === 'among' ? `among ${rule[3]}` : rule[2]), el('b', {}, number(usesOf(rule)))))) : '';
  const does = `${words.length === 1 ? taken ? 'takes' : 'uses' : taken ? 'take' : 'use'} ${one ? 'it' : 'one of them'}`;
  head.replaceChildren(el('h3', {}, one ? ruleName(one) : `${rules[0][2]}, among ${rules[0][3]}: ${rules.length} strings`), el('p', { class: 'sub' }, `${count(words.length, 'word')} ${does}`, data.left ? ` (${count(data.left, 'string')} cannot be asked for)` : '', ' · ', lineLink(rules[0][7])), chips);
  lists.rule.set(words, i => [el('span', {}, w(S.words[i])), el('span', {}, S.out[i][0] === '=' ? versus('=' + S.words[i], S.out[i])[1] : outcome(S.out[i]))], 'two', 'No word of the list: the rule may be dead, or the list lacks a word for it.');
  return undefined;
}
async function showFamilies(isNew) {
  const cards = $('family-figures'), st = S.st;
  if (!st.names.hasFamilies || st.text === undefined) { cards.replaceChildren(el('p', { class: 'muted' }, 'Start with --families FILE.')); return; }
  if (!S.fam) {
    try { S.fam = (await ask('families')).rows; } catch (fault) { cards.replaceChildren(el('p', { class: 'refused' }, named(fault.message))); return; }
  }
  const of = kind => S.fam.filter(row => row[0] === kind), [within, apart, across, together] = of('pairs')[0].slice(1).map(Number), unknown = +(of('unknown')[0] || [0, 0])[1];
  const card = (title, part, all, sentence) => {
    const share = all ? part / all : 0, bar = el('i');
    bar.style.width = Math.min(100, 100 * share) + '%';
    return el('div', { class: 'card' }, el('div', { class: 'muted' }, title), el('div', { class: 'big' }, all ? (100 * share).toFixed(share < .001 && share ? 4 : 2) + ' %' : '–'), el('div', { class: 'muted' }, sentence), el('div', { class: 'track' }, bar));
  };
  cards.replaceChildren(card('Understemmed', apart, within, `${number(apart)} of ${count(within, 'pair')} within a family have different stems`), card('Overstemmed', together, across, `${number(together)} of ${count(across, 'pair')} across families have the same stem`));
  segments($('family-kinds'), [['under', 'Understemmed', of('under').length], ['over', 'Overstemmed', of('over').length]], S.fkind, key => { S.fkind = key; showFamilies(); });
  const text = $('family-search').value, isUnder = S.fkind === 'under', top = lists.families.host.scrollTop;
  const found = of(S.fkind).filter(row => !text || row.some((part, i) => i && part.includes(text))).sort((a, b) => b.length - a.length || (a[1] < b[1] ? -1 : 1));
  $('family-found').textContent = count(found.length, isUnder ? 'family' : 'stem', isUnder ? 'families' : 'stems') + (unknown ? ` · ${count(unknown, 'word')} not in the list` : '');
  header('family-cols', 'three', isUnder ? ['Stems', 'First word', 'Stems of the family'] : ['Families', 'Stem', 'First word of each family'], true);
  lists.families.set(found, row => [el('span', { class: 'num' }, number(row.length - 2)), el('span', {}, w(row[1], 'stem')), el('span', {}, joined(row.slice(2, 80)))], 'three', text ? 'Nothing found.' : 'None.');
  if (isNew) lists.families.host.scrollTop = top;
}

// Keys and buttons

function setUpViews() {
  lists.changes = new List($('change-list'), 'Changes', openChange);
  lists.classes = new List($('class-list'), 'Classes', showClass);
  lists.rule = new List($('rule-list'), 'Words of the rule', i => toWord(S.words[i]));
  lists.families = new List($('family-list'), 'Families', row => row[0] === 'under' ? toWord(row[1]) : toClass(row[1]));
  let waiting = 0;
  const soon = what => { clearTimeout(waiting); waiting = setTimeout(what, 60); };
  $('change-search').addEventListener('input', () => soon(showChanges));
  $('change-last').addEventListener('change', () => showChanges());
  $('class-search').addEventListener('input', () => soon(showClasses));
  $('class-regex').addEventListener('change', () => showClasses());
  $('family-search').addEventListener('input', () => soon(showFamilies));
  $('word-all').addEventListener('change', () => showWord());
  $('word-form').addEventListener('submit', event => { event.preventDefault(); const word = $('word-input').value; if (word === S.word) showWord(); else toWord(word); });
  $('word-add').addEventListener('click', () => post('add', { words: [S.word] }));
  $('class-cols').addEventListener('click', event => {
    const sort = event.target.dataset.sort;
    if (!sort) return;
    if (sort === S.sort) S.desc = !S.desc; else [S.sort, S.desc] = [sort, sort === 'size'];
    showClasses();
  });
  for (const tab of document.querySelectorAll('[role="tab"]')) {
    tab.addEventListener('click', () => go(tab.dataset.view, tab.dataset.view === 'word' && S.word ? S.word : tab.dataset.view === 'rule' && S.rule ? S.rule.join('\n') : undefined));
    tab.addEventListener('keydown', event => {
      const by = { ArrowRight: 1, ArrowLeft: -1 }[event.key], tabs = [...document.querySelectorAll('[role="tab"]:not([hidden])')], next = tabs[(tabs.indexOf(tab) + by + tabs.length) % tabs.length];
      if (!by) return;
      event.preventDefault();
      next.click();
      next.focus();
    });
  }
}
function setUpScript() {
  $('code').addEventListener('scroll', () => drawLines(false), { passive: true });
  new ResizeObserver(() => { if (S.editing) sizeEditor(); drawLines(true); }).observe($('code'));
  $('lines').addEventListener('click', event => { const rule = event.target.closest('.rule'); if (rule) go('rule', rule.dataset.rule); });
  $('lines').addEventListener('keydown', event => {
    const by = { ArrowDown: 1, ArrowUp: -1 }[event.key];
    if (by && event.target.matches('button.cov')) { event.preventDefault(); focusCount(+event.target.dataset.n, by); }
  });
  $('editor').addEventListener('input', typed);
  $('editor').addEventListener('keydown', event => {
    if (event.key === 'Enter' && (event.ctrlKey || event.metaKey)) { event.preventDefault(); tryIt(); }
    else if (event.key === 'Escape') leave(false);
  });
  for (const [id, act] of Object.entries({ try: tryIt, save, drop, edit: () => S.editing ? leave(true) : edit(true) })) $(id).addEventListener('click', act);
}
function setUpTop() {
  const acts = {
    undo: () => post('undo', { count: 1 }), redo: () => post('redo', { count: 1 }), mark: () => post('mark'), append: () => post('append'), reload: () => { if (mayDrop('reload', 'the same click again', true)) drop(); }, 'mark-stems': () => post('mark', { stems: true }),
    keys: () => $('help').showModal(), 'warnings-button': () => showWarnings($('warnings').hidden),
  };
  for (const [id, act] of Object.entries(acts)) $(id).addEventListener('click', act);
  $('skip').addEventListener('click', event => { event.preventDefault(); document.querySelector(`[data-view="${S.view}"]`).focus(); });
  $('limit-form').addEventListener('submit', event => { event.preventDefault(); post('limit', { limit: $('limit').value.replace(/[ ,]/g, '') }); });
  $('add-form').addEventListener('submit', async event => { event.preventDefault(); const words = $('add-words').value.split('\n').filter(Boolean); if (words.length && await post('add', { words })) $('add-words').value = ''; });
  document.addEventListener('click', event => { for (const menu of document.querySelectorAll('details.menu[open]')) if (!menu.contains(event.target)) menu.open = false; });
  const dark = matchMedia('(prefers-color-scheme: dark)');
  let theme = kept.get('theme');
  const paint = () => { document.documentElement.dataset.theme = theme || (dark.matches ? 'dark' : 'light'); };
  dark.addEventListener('change', paint);
  $('theme').addEventListener('click', () => { theme = document.documentElement.dataset.theme === 'dark' ? 'light' : 'dark'; kept.set('theme', theme); paint(); });
  paint();
  const bar = $('split'), root = document.documentElement.style;
  const widen = share => { const s = Math.max(20, Math.min(75, share)); root.setProperty('--script', s + 'fr'); root.setProperty('--results', 100 - s + 'fr'); bar.setAttribute('aria-valuenow', Math.round(s)); kept.set('split', s); };
  if (+kept.get('split')) widen(+kept.get('split'));
  bar.addEventListener('pointerdown', event => bar.setPointerCapture(event.pointerId));
  bar.addEventListener('pointermove', event => { if (bar.hasPointerCapture(event.pointerId)) widen(100 * event.clientX / innerWidth); });
  bar.addEventListener('keydown', event => { const by = { ArrowLeft: -2, ArrowRight: 2 }[event.key]; if (by) { event.preventDefault(); widen(+bar.getAttribute('aria-valuenow') + by); } });
}
function press(event) {
  if (event.key === 'Escape') { for (const menu of document.querySelectorAll('details.menu[open]')) { menu.open = false; menu.querySelector('summary').focus(); } }
  if (event.key === 's' && (event.ctrlKey || event.metaKey) && !$('save').hidden) { event.preventDefault(); save(); }
  if (event.ctrlKey || event.metaKey || event.altKey || event.target.closest('input, textarea, dialog')) return;
  const key = event.key, view = VIEWS[key - 1], acts = { u: 'undo', r: 'redo', m: 'mark', d: 'theme', '?': 'keys', e: 'edit', n: 'next-never' };
  if (view) { const tab = $('tab-' + view); if (!tab.hidden) { tab.click(); tab.focus(); } }
  else if (acts[key]) { event.preventDefault(); $(acts[key])?.click(); }
  else if (key === 'h' || key === 'a') { event.preventDefault(); const menu = $(key === 'h' ? 'history' : 'more'); menu.open = !menu.open; (menu.open && menu.querySelector('.sheet button:not(:disabled), .sheet textarea') || menu.querySelector('summary')).focus(); }
  else if (key === '/') { event.preventDefault(); $('view-' + S.view).querySelector('input[type="search"], input[type="text"]')?.focus(); }
  else if (key === 'w') { event.preventDefault(); go('word', S.word || undefined); setTimeout(() => { $('word-input').focus(); $('word-input').select(); }); }
  else if (key === 'g') { event.preventDefault(); focusCount(Math.max(0, Math.floor(($('code').scrollTop - TOP) / LINE)), 1); }
}
setUpViews();
setUpScript();
setUpTop();
document.addEventListener('keydown', press);
addEventListener('hashchange', route);
addEventListener('beforeunload', event => { if (S.dirty) event.preventDefault(); });
route();
showStatus();
listen();
