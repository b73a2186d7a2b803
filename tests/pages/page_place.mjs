// Pages in jsdom, whose clock stands still, and whose client sends nothing.
import assert from 'node:assert/strict';
import { readFileSync } from 'node:fs';
import { createRequire } from 'node:module';
import nodeTest from 'node:test';
import vm from 'node:vm';

const FOLDER = new URL('../../examples/', import.meta.url);
export const PAGES = ['chat/index.html', 'dashboard/index.html', 'dashboard/metrics.html'];
export const SITE = 'https://site.example/dashboard/';
// A text that would run a script if it were shown as HTML.
export const HOSTILE = '<img src=x onerror="alert(1)">&amp;';
export const NO_ANSWER = 'no answer in time';
export const read = (name) => readFileSync(new URL(name, FOLDER), 'utf8');

const { JSDOM } = (() => {
  try {
    return createRequire(import.meta.url)('jsdom');
  } catch {
    return {};
  }
})();

/** Returns the paths of the scripts of the page `name`, from examples/ on. */
function scriptsOf(name) {
  return [...read(name).matchAll(/<script src="([^"]+)">/g)].map(([, path]) => new URL(path, `file:///${name}`).pathname.slice(1));
}

/** A test, which is skipped without jsdom. Another node than Debian's finds that of Debian if NODE_PATH is /usr/share/nodejs. */
export const test = (name, check) => nodeTest(name, { skip: !JSDOM && 'there is no jsdom (package node-jsdom)' }, check);

/** The page `html` at `address`, whose clock stands still. `globals`: what its scripts find besides, or in place of jsdom's. */
export class StillPage {
  constructor(address, html, globals) {
    const page = this;
    class PageDate extends Date {
      static now = () => page.now;

      constructor(moment = page.now) {
        super(moment);
      }
    }
    this.now = Date.UTC(2026, 0, 2, 12);
    this.dom = new JSDOM(html, { url: address, runScripts: 'outside-only', pretendToBeVisual: true });
    this.window = Object.assign(this.dom.window, { Date: PageDate, URL, ...globals });
    this.document = this.window.document;
  }

  run(script) {
    return vm.runInContext(script, this.dom.getInternalVMContext());
  }

  element(id) {
    return this.document.getElementById(id);
  }

  /** Dispatches an event to `target`, which bubbles and can be canceled. Returns whether it was canceled. */
  dispatch(target, kind, members = {}) {
    return !target.dispatchEvent(new this.window.MouseEvent(kind, { bubbles: true, cancelable: true, ...members }));
  }
}

/** Gives an element, or all with this prototype, properties that jsdom has not or does not change, such as sizes. */
export function define(element, properties) {
  for (const [name, value] of Object.entries(properties)) Object.defineProperty(element, name, { value, writable: true, configurable: true });
}

/** Returns what the client says of a failure with the text `why`, or undefined if that is empty. */
function errorOf(why) {
  const status = Number(/^HTTP status (\d+)$/.exec(why)?.[1]) || undefined;
  const code = status ? 'http' : why === NO_ANSWER ? 'timeout' : /^\d{3}::/.test(why) ? 'rejected' : 'network';
  return why ? { code, status, message: why } : undefined;
}

/** The client of `page`, which sends nothing: `page.publishes` has what it would send. */
class SilentClient extends EventTarget {
  constructor(page, url) {
    super();
    Object.assign(this, { page, url, connectionType: 'long-polling', listeners: new Map(), isStarted: false });
    page.client = this;
  }

  // As the real client tells the page. A page may replace these functions.
  onstate(state, why) {
    this.state = state;
    this.tell('state', { state, why, error: errorOf(why) });
  }

  ongap(since) {
    this.tell('gap', { since });
  }

  tell(type, members) {
    this.dispatchEvent(Object.assign(new Event(type), members));
  }

  async subscribe(pattern, listener) {
    this.listeners.set(pattern, listener);
  }

  async start() {
    this.isStarted = true;
  }

  async publish(channel, data) {
    const { page } = this;
    const isBeat = channel.endsWith('/presence');
    (isBeat ? page.beats : page.publishes).push([channel, JSON.parse(JSON.stringify(data))]);
    // What a page says of its user is not slow, and does not fail.
    if (isBeat) return;
    if (page.isSlow) await new Promise((resolve, reject) => (page.publish = { resolve, reject }));
    if (page.failure) throw page.failure;
  }
}

/** The page `html` at `address`, whose charts are 600 pixels wide. */
export class Page extends StillPage {
  constructor(address, html) {
    const ResizeObserver = class { observe() {} };
    super(address, html, { ResizeObserver, setInterval: (go, milliseconds) => this.ticks.push([go, milliseconds]) });
    Object.assign(this, { ticks: [], publishes: [], beats: [] }); // beats: what it would publish of who is online
    this.window.BayeuxClient = SilentClient.bind(null, this);
    define(this.window.Element.prototype, { clientWidth: 600 });
    // The browser has another language than the page.
    this.run(`{
      const { toLocaleString } = Number.prototype;
      Number.prototype.toLocaleString = function (locale = 'de', options) { return toLocaleString.call(this, locale, options); };
    }`);
  }

  /** Returns the page of the file `name`, after its scripts have run. */
  static open(address, name) {
    const page = new Page(address, read(name));
    const [client, ...scripts] = scriptsOf(name);
    assert.equal(client, 'client/bayeux.js');
    for (const it of scripts) page.run(read(it));
    return page;
  }

  /** Lets `seconds` pass, and what the page does each second. */
  wait(seconds) {
    for (let second = 0; second < seconds; second++) {
      this.now += 1000;
      for (const [go, milliseconds] of this.ticks) {
        assert.equal(milliseconds, 1000);
        go();
      }
    }
  }

  /** Returns the text of the page's state, and its error or ''. */
  state() {
    const { hidden, textContent } = this.element('error');
    assert.equal(hidden, textContent === '');
    return [this.element('state').textContent, textContent];
  }
}
