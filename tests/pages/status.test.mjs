// The script of the status page, with metrics of this file.
import assert from 'node:assert/strict';
import { readFileSync } from 'node:fs';
import { define, StillPage, test } from './page_place.mjs';

const read = (path) => readFileSync(new URL(path, import.meta.url), 'utf8');
// Samples, what the charts show of them without and with the pointer at the second sample, metrics, the facts that the page shows of
// them, and what its functions return.
const { samples: SAMPLES, shown: SHOWN, metrics: METRICS, facts: FACTS, results: RESULTS } = JSON.parse(read('status_data.json'));
// The page, which a daemon serves as it is (tests/daemon/test_metrics.py).
const [, HTML] = read('../../crates/bx_metrics/src/status_page.rt').match(/r#"([^]*)"#;/);
// The longest time for which a page may wait for metrics, in milliseconds, and how long a phone is locked.
const PATIENCE = 30000, LOCKED = 300000;
// What the page says of a server that it reads, that it read before, and that it never read.
const READING = /^reads the metrics every (\d+) s$/, LOST = /^no metrics since /, NEVER = /^no metrics at this address$/;

/** A status page whose clock stands still. `asked`: its request that has no response yet. `timer`: what it does later. */
class Page extends StillPage {
  constructor() {
    const fetch = (url, options = {}) => new Promise((resolve, reject) => {
      assert.equal(this.asked, undefined, 'a request while another one has no response');
      this.asked = { url, ...options, resolve, reject };
    });
    const setTimeout = (go, milliseconds) => {
      assert.equal(this.timer, undefined, 'two timers');
      this.timer = { go, milliseconds };
    };
    super('http://h:1/', HTML, { fetch, AbortSignal: { timeout: (milliseconds) => ({ milliseconds }) }, setTimeout });
    // jsdom drops a color that it does not know.
    define(this.window.CSSStyleDeclaration.prototype, { background: '' });
    this.run(this.document.scripts[0].textContent);
  }

  /** Returns the charts. */
  charts() {
    return [...this.document.querySelectorAll('.card')];
  }

  /** Returns the first chart with the title `title`. */
  chart(title) {
    return this.charts().find((it) => it.querySelector('h2').textContent === title);
  }

  /** Returns how many pieces the curve of the sessions has. */
  pieces() {
    return this.chart('Sessions').querySelector('.curve').getAttribute('d').split('M').length - 1;
  }

  /** Answers the request of the page. `body`: the text of the response, or null if there is none before the page gives up. */
  async answer(body, ok = true) {
    const { url, cache, signal, resolve, reject } = this.asked;
    this.asked = undefined;
    assert.deepEqual([url, cache], ['metrics', 'no-store']);
    if (body !== null) {
      resolve({ ok, status: ok ? 200 : 502, text: async () => body });
    } else {
      assert.ok(signal?.milliseconds <= PATIENCE, `the page waits for ever, or for longer than ${PATIENCE} ms`);
      this.now += signal.milliseconds;
      reject(new Error('timeout'));
    }
    await new Promise((go) => setImmediate(go));
  }

  /** Lets `milliseconds` pass, by default those until the next request, and answers this request. */
  async next(body, milliseconds = this.timer.milliseconds, ok = true) {
    const { go } = this.timer;
    this.timer = undefined;
    this.now += milliseconds;
    go();
    await this.answer(body, ok);
  }

  /** Checks what the page says of the server, and whether its charts are faint. */
  expectState(wanted) {
    const { className, textContent } = this.element('state');
    assert.match(textContent, wanted);
    if (wanted === LOST) assert.equal(textContent, `no metrics since ${new Date(this.lastRead).toLocaleTimeString()}`);
    else this.lastRead = this.now;
    assert.equal(className, wanted === READING ? 'connected' : 'interrupted');
    assert.equal(this.document.body.classList.contains('old'), wanted === LOST);
    const [, seconds] = textContent.match(READING) ?? [];
    if (seconds) assert.equal(this.timer.milliseconds, 1000 * seconds, 'the page reads as often as it says');
  }
}

const text = (root, part) => root.querySelector(part).textContent;
const metrics = (sessions) => `bayeux_uptime_seconds_total 60\nbayeux_sessions ${sessions}\n`;

// A server that answers, hangs, fails, is not a bayeuxd, and answers again. No request follows before the one before has ended.
test('a server that answers, hangs, fails, is not a bayeuxd, and answers again', async () => {
  const page = new Page();
  await page.answer(metrics(1));
  page.expectState(READING);
  for (const wrong of [[null], ['', undefined, false], ['<html>'], [metrics(1), undefined, false]]) {
    await page.next(...wrong);
    page.expectState(LOST);
    const before = page.pieces();
    await page.next(metrics(2));
    page.expectState(READING);
    assert.equal(page.pieces(), before + 1, 'a curve has a gap after a failure');
  }
  for (const wrong of [null, '<html>']) {
    const late = new Page();
    await late.answer(wrong);
    late.expectState(NEVER);
    await late.next(metrics(3));
    late.expectState(READING);
  }
});

// A page that did not run for a while, for example because a phone was locked.
test('a page that did not run for a while', async () => {
  const page = new Page();
  await page.answer(metrics(1));
  const begin = page.now;
  for (const pause of [undefined, undefined, LOCKED, undefined, LOCKED / 2]) {
    const before = page.pieces();
    await page.next(metrics(2), pause);
    page.expectState(READING);
    const what = pause === undefined ? 'a usual pause' : `${pause} ms`;
    assert.equal(page.pieces(), before + (pause === undefined ? 0 : 1), `pieces of a curve after ${what}`);
  }
  const early = new Page();
  await early.answer(metrics(1));
  await early.next(metrics(2), LOCKED);
  assert.equal(early.pieces(), 2, 'pieces of a curve with a pause after the first sample');
  // The curves show fifteen minutes. The oldest sample is the first one, and later the first one after the phone was locked.
  for (const [minutes, oldest] of [[14, 0], [16, LOCKED + 2 * page.timer.milliseconds]]) {
    await page.next(metrics(2), begin + 60000 * minutes - page.now);
    assert.equal(page.run('samples[0].time') - begin, oldest, `the oldest sample after ${minutes} minutes`);
  }
});

// Each row of a key has the colour of its curve, also if the key leaves out series, or has those with the greatest peaks. While the
// server does not answer, no row has a value.
test('each row of a key has the colour of its curve', async () => {
  const page = new Page();
  const refused = (reason, value) => `bayeux_requests_refused_total{status="400",reason="${reason}"} ${value}\n`;
  const lags = (count) => Array.from({ length: count }, (_, shard) => `bayeux_shard_lag_entries{shard="${shard}"} ${shard}\n`).join('');
  const text = (count) => `${metrics(1)}${refused('quiet', 0)}${refused('<b>first', count)}${refused('second', 2 * count)}${lags(14)}`;
  await page.answer(text(0));
  await page.next(text(30));
  const rows = (title) => [...page.chart(title).querySelectorAll('.key li')].map((it) => [it.querySelector('i').style.background, it.textContent]);
  const curves = (title) => [...page.chart(title).querySelectorAll('.curve')].map(({ style }) => style.stroke);
  const seconds = page.timer.milliseconds / 1000;
  // The place of each series among the curves, its name and its value.
  const wanted = {
    'Refusals': [[1, '400 <b>first', 30 / seconds], [2, '400 second', 60 / seconds]],
    'Shard lag': Array.from({ length: 12 }, (_, at) => [13 - at, `shard ${13 - at}`, 13 - at]),
  };
  for (const isRead of [true, false]) {
    if (!isRead) await page.next(null);
    for (const [title, series] of Object.entries(wanted)) {
      const colours = curves(title);
      for (const it of colours) assert.match(it, /^light-dark\(hsl\(([\d.]+) 70% 40%\), hsl\(\1 80% 70%\)\)$/);
      assert.equal(new Set(colours).size, colours.length, `colours of ${title}`);
      assert.deepEqual(rows(title), series.map(([index, name, value]) => [colours[index], `${name}: ${isRead ? value : '–'}`]));
    }
  }
  for (const [count, rest] of [[12, ''], [13, 'and 1 more']]) {
    await page.next(metrics(1) + lags(count));
    page.run('samples.splice(0, samples.length - 1); draw()');
    assert.deepEqual([rows('Shard lag').length, page.chart('Shard lag').querySelector('.rest').textContent], [12, rest]);
  }
});

// All that the charts show of given samples, without the pointer, with it, and after it has left. Also all facts.
test('all that the charts and the facts show', async () => {
  const page = new Page();
  await page.answer(metrics(1));
  const draw = (samples) => page.run(`samples = ${JSON.stringify(samples)}.map(([time, it]) => ({ time, values: it && parse(it) })); draw()`);
  const charts = page.charts();
  const shown = () => charts.map((root) => {
    const part = (selector) => root.querySelector(selector);
    const texts = ['h2', '.unit', '.value', '.most'].map((it) => text(root, it));
    const curves = [...root.querySelectorAll('svg .curve')].map((it) => it.getAttribute('d'));
    const key = [...root.querySelectorAll('.key li')].map((it) => it.textContent);
    const label = part('svg').getAttribute('aria-label');
    return [...texts, label, curves, key, text(root, '.rest'), part('.cursor').getAttribute('d'), text(root, '.now').split(' ')[0]];
  });
  draw(SAMPLES);
  // The system may take the pointer, for example to scroll.
  for (const end of ['pointerleave', 'pointercancel']) {
    assert.deepEqual(shown(), SHOWN[0]);
    const plot = charts[0].querySelector('.plot');
    define(plot, { getBoundingClientRect: () => ({ left: 100, width: 900 }) });
    page.dispatch(plot, 'pointermove', { clientX: 1000 - (SAMPLES.at(-1)[0] - SAMPLES[1][0]) / 1000 });
    assert.deepEqual(shown(), SHOWN[1]);
    assert.equal(charts[0].querySelector('.now').textContent, `at ${new Date(SAMPLES[1][0]).toLocaleTimeString()}`);
    page.dispatch(plot, end);
  }
  assert.deepEqual(shown(), SHOWN[0]);
  const facts = () => [...page.element('facts').children].map((it) => `${text(it, 'dt')}: ${text(it, 'dd')}`);
  assert.equal(page.document.title, 'bayeuxd at h:1');
  draw([[page.now, METRICS]]);
  assert.deepEqual(facts(), FACTS);
  draw([[page.now, 'bayeux_uptime_seconds_total 5\n']]);
  assert.deepEqual(facts(), ['Version: –', 'Uptime: 5 s', ...FACTS.slice(2).map((it) => it.replace(/1,0\d\d/g, '–'))]);
  for (const [name, results] of Object.entries(RESULTS)) {
    const found = results.map(([it]) => page.run(`${name}(${it})`));
    assert.deepEqual(found, results.map(([, it]) => it), name);
  }
});
