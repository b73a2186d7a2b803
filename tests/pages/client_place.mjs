// A server that follows a script, places in which the client of examples/client runs, and windows of one origin, for scenarios in
// node. No scenario waits for a time: pauses and time limits are recorded, and end when the scenario says so.
import assert from 'node:assert/strict';
import http from 'node:http';
import test from 'node:test';
import vm from 'node:vm';
import { script } from '../../examples/client/build.mjs';

// The script that pages use, and in addition what is inside.
export const SOURCE = script('globalThis.INSIDE = { askByScript, isMatch, sessionOf }');
// What scenarios look at inside of a client.
const INSIDE = ['isShared', 'listeners', 'mayPublish', 'outbox', 'starts', 'subscribed', 'windows'];
// Milliseconds: how long a scenario waits for an event, the server's advice, and what the client adds
// to the hold of a connect (docs/PROTOCOL.md, "No answer").
export const PATIENCE = 30000;
export const ADVICE = { reconnect: 'retry', interval: 0, timeout: 30000 };
export const NETWORK_TIMEOUT = 10000;
// The longest pause after a failure (docs/CLIENT.md), and an upper limit for the first one.
export const LONGEST_PAUSE = 10000;
export const FIRST_PAUSE = 1000;
// What a request has at most: messages, and bytes of its target and its body, with the package's flags (docs/PROTOCOL.md, "Requests").
const [MOST_MESSAGES, LONGEST_TARGET, LONGEST_BODY] = [32, 64 * 1024 - 100, 65536];

/** Waits until `condition()` returns a true value, and returns it. */
export async function until(what, condition) {
  const deadline = Date.now() + PATIENCE;
  for (;;) {
    const found = condition();
    if (found) return found;
    if (Date.now() > deadline) throw new Error(`not in time: ${what}`);
    await new Promise((go) => setTimeout(go, 2));
  }
}

/** A Bayeux server with one session at a time. It records each request, and holds connects. */
export class Server {
  constructor() {
    this.requests = []; // the method, path, content type and messages of each request
    this.headers = []; // the header fields of each request
    this.answers = []; // pairs of a channel and the answer to the next message on it
    this.sessions = 0;
    this.hasBatches = true; // whether it numbers its batches of events
    this.begin();
    this.failure = new Promise((_, reject) => (this.fail = reject));
    // It ends no idle connection, which a client on a slow machine may be about to use.
    const how = { maxHeaderSize: 4 * LONGEST_TARGET, keepAliveTimeout: 0 };
    this.server = http.createServer(how, (request, response) => this.receive(request, response));
  }

  async listen() {
    await new Promise((go) => this.server.listen(0, '127.0.0.1', go));
    this.origin = `http://127.0.0.1:${this.server.address().port}`;
    this.address = `${this.origin}/cometd`;
    return this;
  }

  close() {
    this.server.closeAllConnections();
    this.server.close();
  }

  begin() {
    Object.assign(this, { batch: 0, sent: [], waiting: [], held: null });
  }

  /** Answers the next message on `channel` with `answer`: a reply, or a function of the message and the response. */
  next(channel, answer) {
    this.answers.push([channel, answer]);
  }

  /** Answers the next messages on `channel`, `count` of them, with an HTTP status. */
  refuse(channel, status, count = 1) {
    for (let number = 0; number < count; number++) this.next(channel, (_, response) => response.writeHead(status).end());
  }

  /** Returns all messages that arrived on `channel`. */
  messages(channel) {
    return this.requests.flatMap(([, , , messages]) => messages).filter((it) => it.channel === channel);
  }

  async receive(request, response) {
    let body = '';
    for await (const part of request.setEncoding('utf8')) body += part;
    const { pathname, searchParams } = new URL(request.url, this.origin);
    const callback = searchParams.get('jsonp');
    const messages = JSON.parse(callback ? searchParams.get('message') : body);
    const isTooLong = request.url.length > LONGEST_TARGET || body.length > LONGEST_BODY || messages.length > MOST_MESSAGES;
    if (isTooLong) this.fail(new Error(`a request of ${messages.length} messages, ${request.url.length} and ${body.length} bytes`));
    this.requests.push([request.method, pathname, request.headers['content-type'], messages]);
    this.headers.push(request.headers);
    const send = (items) => response.end(callback ? `${callback}(${JSON.stringify(items)})` : JSON.stringify(items));
    const items = [];
    for (const message of messages) {
      const at = this.answers.findIndex(([channel]) => channel === message.channel);
      const [, answer] = at < 0 ? [] : this.answers.splice(at, 1)[0];
      if (typeof answer === 'function') return void answer(message, response, send);
      if (answer) items.push(answer);
      else if (message.channel !== '/meta/connect') items.push(this.reply(message));
      else {
        this.response = response; // of the last connect
        return this.connect(message, send);
      }
    }
    return send(items);
  }

  reply({ channel, subscription }) {
    if (channel === '/meta/handshake') {
      this.begin();
      const clientId = `session ${++this.sessions}`;
      const supportedConnectionTypes = ['long-polling', 'callback-polling'];
      return { channel, version: '1.0', supportedConnectionTypes, clientId, successful: true, advice: ADVICE, ...this.ext(true) };
    }
    if (channel === '/meta/disconnect') this.answerHeld([], { ...ADVICE, reconnect: 'none' });
    return { channel, subscription, successful: true };
  }

  connect(message, send) {
    if (!(message.ext?.ack < this.batch)) this.sent = [];
    this.held = send;
    if (this.sent.length > 0) return this.answerHeld(this.sent);
    if (this.waiting.length > 0) return this.emit();
    return message.advice?.timeout === 0 && this.answerHeld([]);
  }

  answerHeld(events, advice = ADVICE) {
    const { held } = this;
    this.held = null;
    held?.([...events, { channel: '/meta/connect', successful: true, advice, ...this.ext(this.batch) }]);
  }

  /** Waits until it holds a connect, other than `held`, and returns what answers it. */
  holds(held = null) {
    return until('a connect is held', () => this.held !== held && this.held);
  }

  /** Does `act` once it holds a connect, and waits until it holds another one. */
  async renewed(act) {
    const held = await this.holds();
    await act();
    return this.holds(held);
  }

  /** Sends events as soon as it holds a connect. */
  async give(...events) {
    await this.holds();
    this.emit(...events);
  }

  /** Ends the session, and says so to the connect that it holds as soon as there is one. */
  async lose() {
    const held = await this.holds();
    this.begin();
    held([unknown('/meta/connect')]);
  }

  /** Returns the patterns that it was asked for, in order. */
  patterns() {
    return this.messages('/meta/subscribe').map(({ subscription }) => subscription);
  }

  /** Lets the next message on `channel` wait. The promise resolves once it has come, to a function that answers it. */
  later(channel) {
    return new Promise((come) => this.next(channel, (message, _, send) => come(() => send([this.reply(message)]))));
  }

  /** Returns the member `ext` of a reply, or nothing if this server numbers no batches. */
  ext(ack) {
    return this.hasBatches ? { ext: { ack } } : {};
  }

  /** Sends events, which are pairs of a channel and data, as the next batch. */
  emit(...events) {
    this.waiting.push(...events.map(([channel, data]) => ({ channel, data })));
    if (this.held === null) return;
    this.batch++;
    this.sent = this.waiting.splice(0);
    this.answerHeld(this.sent);
  }
}

// The places of the scenario that runs.
const places = [];

/** A page or a program with its own timers. `page`: its address, or `null` for a program. */
export class Place {
  constructor(page = null, extra = {}) {
    this.isOver = false; // whether the scenario has ended, and with it all timers and requests
    this.pauses = []; // milliseconds of each timer that ends at once: the pauses of the client
    this.endless = Infinity; // the number of the first pause that does not end by itself
    this.open = new Set(); // the timers that have not ended
    this.limits = []; // milliseconds and an end of each time limit of a request
    this.hold = ADVICE.timeout; // milliseconds for which the server may hold a connect of this place
    this.delay = NETWORK_TIMEOUT; // the option `maxNetworkDelay` of its clients
    this.lengths = []; // pairs: milliseconds of each timer of a request, and those that the documents name
    this.beacons = [];
    this.errors = []; // the messages of the errors that the functions of the page have thrown
    this.fetches = []; // the options of each request by fetch
    this.scripts = [];
    this.page = page;
    const globals = {
      URL, URLSearchParams, Blob, AbortController, Event, EventTarget, TextEncoder, queueMicrotask, console,
      reportError: ({ message }) => this.errors.push(message),
      setTimeout: (go, milliseconds) => this.setTimer(go, milliseconds),
      clearTimeout: (timer) => this.open.delete(timer) && clearTimeout(timer.id),
      fetch: (url, options) => this.send(url, options),
      AbortSignal: { timeout: (milliseconds) => this.limit(milliseconds) },
      ...(page === null ? {} : this.pageGlobals(page)),
      ...extra,
    };
    this.context = vm.createContext(globals);
    vm.runInContext(SOURCE, this.context);
    // Windows that are opened in the same millisecond differ too.
    this.random(0.999 - places.push(this) * 1e-6);
  }

  run(script) {
    return vm.runInContext(script, this.context);
  }

  random(value) {
    this.run(`Math.random = () => ${value}`);
  }

  // Timers as long as the time limit of a request do not end.
  setTimer(go, milliseconds = 0) {
    const timer = { id: null };
    const end = () => this.open.delete(timer) && !this.isOver && go();
    this.open.add(timer);
    if (milliseconds >= this.delay) {
      this.limits.push([milliseconds, end]);
      this.lengths.push([milliseconds, this.delay]);
    } else if (this.pauses.push(milliseconds) < this.endless) timer.id = setTimeout(end, 0);
    return timer;
  }

  send(url, options) {
    this.fetches.push(options);
    // The last request, which the browser sends when the page is gone, has no time limit.
    this.lengths.push(options.keepalive && !options.signal ? [] : [this.nextLimit, this.limitOf(JSON.parse(options.body))]);
    return this.isOver ? new Promise(() => {}) : fetch(new URL(url, this.page ?? undefined), options);
  }

  limit(milliseconds) {
    const controller = new AbortController();
    this.limits.push([milliseconds, () => controller.abort(new DOMException('too late', 'TimeoutError'))]);
    this.nextLimit = milliseconds; // that of the request that is sent next
    return controller.signal;
  }

  /** Returns the time limit of a request with `messages`, in milliseconds (docs/PROTOCOL.md, "No answer"). */
  limitOf(messages) {
    const connect = messages.find(({ channel }) => channel === '/meta/connect');
    return this.delay + (connect ? connect.advice?.timeout ?? this.hold : 0);
  }

  pageGlobals(address) {
    const location = new URL(address);
    const document = Object.assign(new EventTarget(), { readyState: 'complete', hidden: false });
    document.createElement = () => ({ remove() { this.isRemoved = true; } });
    document.head = { append: (script) => this.load(script) };
    const navigator = { sendBeacon: (url, body) => this.beacons.push([url, body]) };
    this.window = new EventTarget();
    this.document = document;
    return { window: this.window, document, navigator, location: { href: location.href, origin: location.origin } };
  }

  async load(script) {
    this.scripts.push(script);
    this.lengths.at(-1)[1] = this.limitOf(JSON.parse(new URL(script.src).searchParams.get('message')));
    try {
      const response = await fetch(new URL(script.src, this.page));
      const [, name, items] = (await response.text()).match(/^(\w+)\((.*)\)$/s);
      this.window[name](JSON.parse(items));
    } catch {
      script.onerror();
    }
  }

  /** Sends an event to the window. */
  dispatch(kind, members = {}) {
    this.window.dispatchEvent(Object.assign(new Event(kind), members));
  }

  /** Shows the page to the user, or hides it. */
  look(isVisible) {
    this.document.hidden = !isVisible;
    this.document.dispatchEvent(new Event('visibilitychange'));
  }

  /** Returns a client that records its states, gaps and events in `log`. */
  client(url, options, ...patterns) {
    const client = new (this.run('BayeuxClient'))(url, options);
    const session = this.run('INSIDE').sessionOf(client);
    for (const name of INSIDE) Object.defineProperty(client, name, { get: () => session[name], set: (it) => (session[name] = it) });
    client.log = [];
    client.onstate = (state, why) => {
      assert.equal(state, client.state);
      client.log.push(why ? `${state} ${why}` : state);
    };
    client.ongap = (since) => client.log.push(client.hasMoments ? ['gap', since.getTime()] : 'gap');
    client.listener = (data, channel) => client.log.push([channel, data]);
    patterns.forEach((pattern) => client.subscribe(pattern, client.listener));
    return client;
  }
}

/** What windows of one origin share: locks, and channels. A window that crashes sends nothing and gives its locks back. */
export class Origin {
  constructor(server) {
    this.server = server;
    this.channels = new Set();
    this.locks = []; // the holder of each lock and those that wait for it, in order
    this.isQuiet = false; // whether messages are lost, as if the other window did not run
    this.deaf = new Set(); // the windows that get no messages
    this.now = Date.now(); // the clock of all windows
    this.denial = null; // the error with which the browser denies each lock, if it does
  }

  /** Opens a window with a client for `patterns`, and starts it. */
  open(...patterns) {
    return this.openAt('/page.html', '/cometd', {}, ...patterns);
  }

  /** Opens the page at `path`, with a client that has `url`, `options` and `patterns`, and starts it. */
  openAt(path, url, options, ...patterns) {
    const origin = this;
    class Channel {
      constructor(name) {
        Object.assign(this, { name, place });
        origin.channels.add(this);
      }

      postMessage(data) {
        if (this.isClosed) throw new DOMException('the channel is closed', 'InvalidStateError');
        const others = [...origin.channels].filter((it) => it !== this && it.name === this.name && !origin.deaf.has(it.place));
        if (!origin.isQuiet) setImmediate(() => others.forEach((it) => origin.channels.has(it) && it.onmessage({ data })));
      }

      close() {
        this.isClosed = true;
        origin.channels.delete(this);
      }
    }
    const place = new Place(`${this.server.origin}${path}`, { origin: this.server.origin, BroadcastChannel: Channel });
    place.context.navigator.locks = { request: (name, { signal }, begin) => this.request(place, name, signal, begin) };
    place.run('Date').now = () => this.now;
    place.client = place.client(url, options, ...patterns);
    place.started = place.client.start();
    return place;
  }

  async request(place, name, signal, begin) {
    if (this.denial) throw this.denial;
    const lock = { place, name };
    const turn = new Promise((go, fail) => {
      lock.go = go;
      signal.addEventListener('abort', () => fail(Object.assign(new Error('aborted'), { name: 'AbortError' })));
    });
    this.locks.push(lock);
    this.grant();
    try {
      await turn;
      await begin();
    } finally {
      this.locks = this.locks.filter((it) => it !== lock);
      this.grant();
    }
  }

  grant() {
    new Set(this.locks.map(({ name }) => name)).forEach((name) => this.locks.find((it) => it.name === name).go());
  }

  crash(place) {
    this.channels.forEach((it) => it.place === place && this.channels.delete(it));
    place.run('globalThis').fetch = () => new Promise(() => {});
    place.client.starts++;
    this.locks = this.locks.filter((it) => it.place !== place);
    this.grant();
  }
}

/** Returns a client that is connected, and its place, once the server holds a connect. */
export async function connected(server, options = {}, ...patterns) {
  const place = new Place();
  const client = place.client(server.address, options, ...patterns);
  await client.start();
  await server.holds();
  return [client, place];
}

/** Returns an origin, its windows with these lists of patterns, and their clients, which are connected. */
export async function opened(server, ...lists) {
  const origin = new Origin(server);
  const windows = lists.map((patterns) => origin.open(...patterns));
  await Promise.all(windows.map(({ started }) => started));
  return [origin, windows, ...windows.map(({ client }) => client)];
}

/** Returns what a promise does: 'done', or the message, `mayHaveArrived` and `status` of its failure. */
export function outcomeOf(promise) {
  return promise.then(() => 'done', ({ message, mayHaveArrived, status }) => [message, mayHaveArrived, status]);
}

export const handshake = (ext = { ack: true }) => ({ channel: '/meta/handshake', version: '1.0', supportedConnectionTypes: ['long-polling'], ext });
export const connect = (session, ack, more = {}) =>
  ({ channel: '/meta/connect', connectionType: 'long-polling', ext: { ack }, clientId: `session ${session}`, ...more });
export const NOT_HELD = { advice: { timeout: 0 } };
export const rejection = (channel, error, advice) => ({ channel, successful: false, error, ...(advice ? { advice } : {}) });
export const unknown = (channel) => rejection(channel, '402::Unknown client', { interval: 0, reconnect: 'handshake' });
export const subscribe = (subscription, session = 1) => ({ channel: '/meta/subscribe', subscription, clientId: `session ${session}` });
export const unsubscribe = (...of) => ({ ...subscribe(...of), channel: '/meta/unsubscribe' });

/** A test with a server of its own, which follows a script. It fails too if the server gets a request that is too long. */
export function scenario(name, check) {
  test(name, { timeout: 2 * PATIENCE }, async ({ signal }) => {
    const server = await new Server().listen();
    const end = () => {
      server.close();
      places.splice(0).forEach((it) => (it.isOver = true));
    };
    signal.addEventListener('abort', end);
    try {
      await Promise.race([check(server), server.failure]);
      for (const { lengths } of places) assert.deepEqual(lengths.map(([found]) => found), lengths.map(([, wanted]) => wanted), 'the time limits');
    } finally {
      end();
    }
  });
}
