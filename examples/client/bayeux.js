// The client of docs/CLIENT.md. build.mjs made this file from src/: do not edit it.
(() => {
'use strict';

const NO_ANSWER = 'no answer in time';
const NOT_CONNECTED = 'not connected';
const OFFLINE = 'the browser is offline';
class BayeuxError extends Error {
  constructor(code, message, { mayHaveArrived = false, status, reason, reply, pattern, isFinal = false, cause } = {}) {
    super(message, cause === undefined ? undefined : { cause });
    Object.assign(this, { code, mayHaveArrived, status, reason, reply, pattern, isFinal });
  }
  static from({ code, message, ...more }) {
    return new BayeuxError(code, message, more);
  }
  static ofReply({ error = 'the server gave no reason', advice }, pattern) {
    const reply = Number(/^\d{3}(?=:)/.exec(error)) || undefined;
    const text = pattern === undefined ? error : `${pattern}: ${error}`;
    return new BayeuxError('rejected', text, { reply, pattern, isFinal: advice?.reconnect === 'none' });
  }
  toJSON() {
    return { ...this, message: this.message };
  }
}
BayeuxError.prototype.name = 'BayeuxError';
const noAnswer = () => new BayeuxError('timeout', NO_ANSWER, { mayHaveArrived: true });
const notConnected = () => new BayeuxError('disconnected', NOT_CONNECTED);
const offline = () => new BayeuxError('network', OFFLINE);
const stopped = () => new BayeuxError('stopped', 'stopped');

function show(failure) {
  if (typeof globalThis.reportError === 'function') globalThis.reportError(failure);
  else console.error(failure);
}
function callSafely(call) {
  try {
    const result = call();
    if (typeof result?.then === 'function') result.then(undefined, show);
  } catch (failure) {
    show(failure);
  }
}
const safely = new WeakMap();
function safeListener(listener) {
  if (typeof listener !== 'function' && typeof listener?.handleEvent !== 'function') return listener;
  const call = (event) => callSafely(() => (typeof listener === 'function' ? listener(event) : listener.handleEvent(event)));
  if (!safely.has(listener)) safely.set(listener, call);
  return safely.get(listener);
}

const IS_PAGE = typeof document !== 'undefined';
const isShown = () => !IS_PAGE || !document.hidden;
const MOST_MESSAGES = 32;
const MOST_LAST = 65536;
function eitherOf(...signals) {
  const either = new AbortController();
  signals.forEach((it) => it.addEventListener('abort', () => either.abort(it.reason), { once: true }));
  return either.signal;
}
async function askByFetch(url, messages, { timeout, headers, isLast, signal }) {
  const body = JSON.stringify(messages);
  const keepalive = isLast && byteLength(body) < MOST_LAST ? { keepalive: true } : {};
  const limit = AbortSignal.timeout(timeout);
  let response;
  try {
    response = await fetch(url, {
      method: 'POST',
      headers: { 'Content-Type': 'application/json', ...headers },
      body,
      signal: signal ? eitherOf(limit, signal) : limit,
      ...keepalive,
    });
    if (response.ok) return await response.json();
  } catch (cause) {
    if (signal?.aborted) throw signal.reason;
    if (limit.aborted) throw noAnswer();
    const { code, message } = cause.cause ?? {};
    const mayHaveArrived = code !== 'ECONNREFUSED' && code !== 'ENOTFOUND';
    throw new BayeuxError(response?.ok ? 'protocol' : 'network', message || code || cause.message, { mayHaveArrived, cause });
  }
  const { status } = response;
  const reason = response.headers.get('bayeux-error') ?? undefined;
  const text = `HTTP status ${status}${reason ? `: ${reason}` : ''}`;
  throw new BayeuxError('http', text, { mayHaveArrived: status >= 500 && status !== 501, status, reason });
}
let callbackCount = 0;
async function askByScript(url, messages, { timeout, signal }) {
  await pageIsLoaded();
  return new Promise((resolve, reject) => {
    const name = `bayeux_callback_${++callbackCount}`;
    const script = document.createElement('script');
    const finish = (settle, value) => {
      clearTimeout(timer);
      delete window[name];
      script.remove();
      settle(value);
    };
    const giveUp = (failure) => {
      finish(reject, failure);
      window[name] = () => delete window[name];
    };
    const timer = setTimeout(() => giveUp(noAnswer()), timeout);
    signal?.addEventListener('abort', () => giveUp(signal.reason), { once: true });
    window[name] = (items) => finish(resolve, items);
    script.onerror = () => finish(reject, new BayeuxError('network', 'the server cannot be reached, or refused the request', { mayHaveArrived: true }));
    const address = new URL(url, location.href);
    const query = `jsonp=${name}&message=${encodeURIComponent(JSON.stringify(messages))}`;
    address.search = address.search ? `${address.search}&${query}` : query;
    script.src = address;
    document.head.append(script);
  });
}
function pageIsLoaded() {
  if (document.readyState === 'complete') return Promise.resolve();
  return new Promise((resolve) => window.addEventListener('load', () => setTimeout(resolve), { once: true }));
}
function byteLength(text) {
  return new TextEncoder().encode(text).length;
}
const TRANSPORTS = {
  'long-polling': { ask: askByFetch, most: 60000, sizeOf: byteLength },
  'callback-polling': { ask: askByScript, most: 6000, sizeOf: (text) => encodeURIComponent(text).length },
};
function transportFor(address) {
  return IS_PAGE && address.origin !== location.origin ? 'callback-polling' : 'long-polling';
}
function sendLast(url, connectionType, messages, headers) {
  const body = JSON.stringify(messages);
  const isPolling = connectionType === 'long-polling';
  const isBeacon = (!isPolling || Object.keys(headers).length === 0) && 'sendBeacon' in (globalThis.navigator ?? {});
  const all = isPolling ? { 'Content-Type': 'application/json', ...headers } : {};
  if (isBeacon) navigator.sendBeacon(url, isPolling ? new Blob([body], { type: 'application/json' }) : body);
  else fetch(url, { method: 'POST', keepalive: true, headers: all, body }).catch(() => {});
}

function argumentError(name, expected, given) {
  const isObject = typeof given === 'object' && given !== null;
  const object = Array.isArray(given) ? 'an array' : 'an object';
  const texts = { string: JSON.stringify, function: () => 'a function', bigint: (it) => `${it}n` };
  const text = isObject ? object : (texts[typeof given] ?? String)(given);
  return new TypeError(`${name}: expected ${expected}, got ${text}`);
}
function addressOf(url) {
  const isGiven = url instanceof URL || (typeof url === 'string' && url !== '');
  try {
    const address = new URL(url, globalThis.location?.href);
    if (isGiven && /^https?:$/.test(address.protocol)) return address;
  } catch {
  }
  const kind = globalThis.location ? 'an http: or https: address' : 'an absolute http: or https: address';
  throw argumentError('url', kind, url);
}
const isRecord = (it) => typeof it === 'object' && it !== null && !(Symbol.iterator in it);
const isFunction = (it) => typeof it === 'function';
const isMilliseconds = (it) => Number.isFinite(it) && it > 0;
const connectionTypes = () => Object.keys(TRANSPORTS).filter((type) => IS_PAGE || type !== 'callback-polling');
const checkHeaders = (name, it) => check(name, 'an object with a string for each header field, or a function', it, () =>
  isFunction(it) || (isRecord(it) && Object.values(it).every((value) => typeof value === 'string')));
const milliseconds = (name, it) => check(name, 'milliseconds above 0', it, isMilliseconds);
const OPTIONS = {
  connectionType: (name, it) => check(name, connectionTypes().map((type) => `"${type}"`).join(' or '), it, () => connectionTypes().includes(it)),
  headers: checkHeaders,
  ext: (name, it) => check(name, 'an object or a function', it, () => isFunction(it) || isRecord(it)),
  share: (name, it) => check(name, 'true or false', it, () => typeof it === 'boolean'),
  name: (name, it) => check(name, 'a string', it, () => typeof it === 'string'),
  timeout: milliseconds,
  maxNetworkDelay: milliseconds,
  minPause: milliseconds,
  maxPause: milliseconds,
  queue: (name, it) => check(name, 'a whole number', it, () => Number.isInteger(it) && it >= 0),
};
function check(name, expected, value, isRight) {
  if (!isRight(value)) throw argumentError(name, expected, value);
}
function checkOptions(options) {
  if (typeof options !== 'object' || options === null) throw argumentError('options', 'an object or a connection type', options);
  const names = Object.keys(OPTIONS);
  const unknown = Object.keys(options).find((it) => !names.includes(it));
  if (unknown !== undefined) throw new TypeError(`options.${unknown}: unknown, expected one of ${names.join(', ')}`);
  for (const name of names) if (options[name] !== undefined) OPTIONS[name](`options.${name}`, options[name]);
}
function checkChannel(name, channel) {
  check(name, 'a string that begins with "/"', channel, () => typeof channel === 'string' && channel.startsWith('/'));
}
function checkListener(listener) {
  check('listener', 'a function', listener, isFunction);
}
function checkSignal(signal) {
  check('options.signal', 'an AbortSignal', signal, () => signal === undefined || isFunction(signal?.addEventListener));
}
function becomesNull(holder, name, value) {
  if (typeof value === 'number') return !Number.isFinite(value);
  if (value === null) return Object.prototype.toString.call(holder[name]) === '[object Date]';
  return Array.isArray(holder) && ['undefined', 'function', 'symbol'].includes(typeof value);
}
function messageOf(channel, data) {
  checkChannel('channel', channel);
  const expected = 'a value that JSON can express';
  const lost = [];
  let text;
  try {
    text = JSON.stringify(data, function check(name, value) {
      if (becomesNull(this, name, value)) lost.push([name === '' ? 'data' : `"${name}" in data`, value === null ? String(this[name]) : value]);
      return value;
    });
  } catch {
  }
  for (const [name, value] of lost) throw argumentError(name, expected, value);
  if (text === undefined) throw argumentError('data', expected, data);
  return { channel, data: JSON.parse(text) };
}
function messagesOf(last) {
  check('last', 'an array of messages', last, Array.isArray);
  return last.map(({ channel, data }) => messageOf(channel, data));
}

const FORBIDDEN = 403;
const REFUSED_AS_A_WHOLE = [FORBIDDEN, 413];
class Outbox {
  constructor(session) {
    this.session = session;
    this.waiting = [];
    this.sending = null;
    this.isOpen = false;
  }
  inOrder(action, isFirst = false) {
    return this.add({ action, isFirst });
  }
  publish(message, isOwn = true, atSending = () => {}) {
    return this.add({ message, isOwn, atSending });
  }
  add(entry) {
    const promise = new Promise((resolve, reject) => Object.assign(entry, { resolve, reject }));
    if (entry.isFirst) this.waiting.unshift(entry);
    else this.waiting.push(entry);
    this.send();
    return promise;
  }
  send() {
    this.sending ??= this.sendAll();
  }
  async sendAll() {
    await null;
    try {
      while (this.waiting.length > 0) {
        const [{ action, resolve, reject }] = this.waiting;
        if (action) {
          this.waiting.shift();
          await action().then(resolve, reject);
        } else if (this.session.isQueueing() || this.isRepeated()) {
          break;
        } else {
          await this.publishTogether(this.take(this.waiting));
        }
      }
    } finally {
      this.sending = null;
    }
  }
  isRepeated() {
    return this.waiting[0].isAgain === true && this.session.clientId === null;
  }
  giveUpRepeats() {
    if (this.waiting.length === 0 || this.session.isQueueing() || !this.isRepeated()) return;
    this.waiting.splice(0).forEach((entry) => (entry.action ? this.waiting.push(entry) : entry.reject(notConnected())));
  }
  take(entries, others = 0, clientId = this.session.clientId) {
    const { connectionType, mayPublish } = this.session;
    const { most, sizeOf } = TRANSPORTS[connectionType];
    let count = 0;
    let size = 0;
    for (const { message } of entries) {
      if (!message || count + others === MOST_MESSAGES) break;
      size += sizeOf(JSON.stringify({ ...message, clientId })) + 1;
      if (count > 0 && (size > most || !mayPublish)) break;
      count++;
    }
    return entries.splice(0, count);
  }
  async publishTogether(entries) {
    const { session } = this;
    const { clientId } = session;
    if (clientId === null) entries.forEach(({ reject }) => reject(notConnected()));
    else if (session.isLed()) entries.forEach(({ message, resolve, reject }) => session.windows.ask('publish', message).then(resolve, reject));
    else await this.request(entries, clientId);
  }
  async ask(messages, clientId = this.session.clientId) {
    this.isOpen = true;
    try {
      return await this.session.askAll(messages, { clientId });
    } finally {
      this.isOpen = false;
    }
  }
  async request(entries, clientId, end = [], isLast = false) {
    try {
      entries.forEach(({ atSending }) => atSending?.());
      const messages = [...entries.map(({ message }) => message), ...end];
      const replies = await (isLast ? this.session.askAll(messages, { clientId, isLast: true }) : this.ask(messages, clientId));
      this.settle(entries, replies);
      return messages.every((_, at) => replies[at]?.successful);
    } catch (failure) {
      if (entries.length + end.length > 1 && REFUSED_AS_A_WHOLE.includes(failure.status)) {
        const outcomes = [];
        for (const entry of entries) outcomes.push(await this.request([entry], clientId));
        if (end.length > 0) outcomes.push(await this.request([], clientId, end, isLast));
        return outcomes.every(Boolean);
      }
      entries.forEach(({ reject }) => reject?.(this.errorOf(failure)));
      return false;
    }
  }
  settle(entries, replies) {
    const { session } = this;
    const again = [];
    entries.forEach((entry, at) => {
      const reply = replies[at];
      if (!reply) entry.reject?.(new BayeuxError('protocol', 'the response lacks a reply', { mayHaveArrived: true }));
      else if (reply.successful) entry.resolve?.();
      else if (reply.advice?.reconnect === 'handshake' && this.mayRepeat(entry)) again.push(entry);
      else entry.reject?.(BayeuxError.ofReply(reply));
    });
    const at = this.waiting.findIndex(({ isFirst }) => !isFirst);
    this.waiting.splice(at < 0 ? this.waiting.length : at, 0, ...again);
    if (entries.some((_, at) => replies[at]?.successful)) session.setMayPublish(true);
  }
  mayRepeat(entry) {
    if (!entry.reject || this.session.opening === null) return false;
    const isFirst = !entry.isAgain;
    entry.isAgain = true;
    return isFirst || (entry.isOwn && this.session.isQueueing());
  }
  errorOf(failure) {
    if (failure.status !== FORBIDDEN) return failure;
    this.session.setMayPublish(false);
    return new BayeuxError('forbidden', `publishing is not allowed here: HTTP status ${FORBIDDEN}`, { status: FORBIDDEN, reason: failure.reason });
  }
  get length() {
    return this.waiting.filter(({ isOwn }) => isOwn).length;
  }
  takeOwn() {
    const own = this.waiting.filter(({ isOwn }) => isOwn);
    this.waiting = this.waiting.filter(({ isOwn }) => !isOwn);
    return own;
  }
  dropOthers() {
    this.waiting = this.waiting.filter(({ action, isOwn }) => action || isOwn);
  }
}
function giveUp(entries, mayHaveArrived = false) {
  entries.forEach(({ reject }) => reject?.(new BayeuxError('stopped', 'stopped', { mayHaveArrived })));
}

function canShareSession() {
  const { origin, navigator } = globalThis;
  return origin !== undefined && origin !== 'null' && 'locks' in navigator && 'BroadcastChannel' in globalThis;
}
class Windows {
  constructor(session, lead) {
    const name = `bayeux 2 ${session.connectionType} ${addressOf(session.url)}`;
    this.session = session;
    this.id = `${Date.now()} ${Math.random()}`;
    this.isLeading = false;
    this.leader = '';
    this.wanted = new Map();
    this.looking = new Set();
    this.inherited = [];
    this.asked = new Map();
    this.taken = new Set();
    this.count = 0;
    this.channel = new BroadcastChannel(name);
    this.channel.onmessage = ({ data }) => this.receive(JSON.parse(data));
    this.waiting = new AbortController();
    const left = new Promise((resolve) => (this.release = resolve));
    const begin = () => {
      if (this.waiting.signal.aborted) return undefined;
      this.begin();
      lead();
      return left;
    };
    const onLockFailure = (failure) => failure.name === 'AbortError' || begin();
    navigator.locks.request(name, { signal: this.waiting.signal }, begin).catch(onLockFailure);
    this.join();
  }
  begin() {
    this.isLeading = true;
    this.askAgain();
    this.inherited = [...this.session.subscribed];
    this.session.subscribed.clear();
    setTimeout(() => this.forget(() => (this.inherited = [])), this.session.maxNetworkDelay);
    this.post('lead');
  }
  leave() {
    this.post('leave');
    this.isLeading = false;
    this.asked.forEach((_, number) => this.settle(number, noAnswer()));
    this.channel.close();
    this.waiting.abort();
    this.release();
  }
  post(kind, content) {
    if (this.waiting.signal.aborted) return;
    this.channel.postMessage(JSON.stringify({ ...content, kind, from: this.id }));
  }
  shareState(events = []) {
    const { state, error, knownId, clientId, advice, mayPublish, hasBatches, lastBatch, lastEventTime, subscribed } = this.session;
    const session = { clientId, advice, mayPublish, hasBatches, lastBatch, lastEventTime };
    if (this.isLeading) this.post('news', { state, error, knownId, session, subscribed: [...subscribed], events });
  }
  receive(message) {
    const { session } = this;
    const isToThis = message.to === this.id;
    if (!this.isLeading) {
      if (message.kind === 'lead' || message.kind === 'news') this.leader = message.from;
      if (message.kind === 'lead') this.askAgain();
      else if (message.kind === 'news') session.mirror(message);
      else if (message.kind === 'taken' && isToThis) this.taken.add(message.number);
      else if (message.kind === 'refused' && isToThis) session.drop(BayeuxError.from(message.failure));
      else if (message.kind === 'answer' && isToThis) {
        if (message.subscribed) session.subscribed = new Set(message.subscribed);
        this.settle(message.number, message.failure && BayeuxError.from(message.failure));
      }
    } else if (message.kind === 'want') {
      this.wanted.set(message.from, message.patterns);
      this.look(message);
      this.shareState();
      this.answer(message, session.adjust(), () => ({ subscribed: [...session.subscribed] }));
    } else if (message.kind === 'publish' && isToThis) {
      const { from, number, channel, data } = message;
      this.answer(message, session.outbox.publish({ channel, data }, false, () => this.post('taken', { to: from, number })));
    } else if (message.kind === 'retry') {
      session.retry();
    } else if (message.kind === 'look') {
      this.look(message);
    } else if (message.kind === 'leave') {
      this.looking.delete(message.from);
      this.forget(() => this.wanted.delete(message.from));
    }
  }
  ask(kind, content) {
    const number = ++this.count;
    return new Promise((resolve, reject) => {
      const timer = setTimeout(() => {
        this.session.setState('interrupted', noAnswer());
        this.settle(number, noAnswer());
      }, this.session.maxNetworkDelay);
      this.asked.set(number, { kind, content, resolve, reject, timer });
      this.post(kind, { ...content, number, to: this.leader });
    });
  }
  askAgain() {
    this.asked.forEach(({ kind, content }, number) => {
      const settle = (failure) => this.settle(number, failure);
      if (kind === 'want') settle();
      else if (this.taken.has(number)) settle(noAnswer());
      else if (!this.isLeading) this.post(kind, { ...content, number, to: this.leader });
      else this.session.outbox.publish(content).then(() => settle(), settle);
    });
    this.join();
  }
  answer({ from, number }, result, more = () => ({})) {
    const reply = (content) => this.post('answer', { to: from, number, ...content });
    result.then(() => reply(more()), (failure) => reply({ failure }));
  }
  look({ from, isVisible }) {
    this.looking[isVisible ? 'add' : 'delete'](from);
    this.session.renew();
  }
  settle(number, failure) {
    const { resolve, reject, timer } = this.asked.get(number) || {};
    if (!this.asked.delete(number)) return this.join();
    this.taken.delete(number);
    clearTimeout(timer);
    return failure ? reject(failure) : resolve();
  }
  sendPatterns() {
    return this.ask('want', { patterns: [...this.session.listeners.keys()], isVisible: isShown() });
  }
  join() {
    if (!this.isLeading) this.sendPatterns().catch(() => {});
  }
  patterns() {
    return [...this.inherited, ...[...this.wanted.values()].flat()];
  }
  forget(change) {
    change();
    this.session.adjust().catch(() => {});
  }
  hasOthers() {
    return !this.isLeading || this.wanted.size > 0;
  }
  refuse(failure) {
    const isOther = (it) => it !== failure.pattern;
    this.inherited = this.inherited.filter(isOther);
    this.wanted.forEach((patterns, id) => {
      if (patterns.every(isOther)) return;
      this.wanted.set(id, patterns.filter(isOther));
      this.post('refused', { to: id, failure });
    });
  }
}

const PATTERNS_AT_ONCE = 16;
const DISCONNECT = { channel: '/meta/disconnect' };
const RENEWED = new BayeuxError('network', 'renewed');
function isMatch(pattern, channel) {
  if (!pattern.endsWith('*')) return pattern === channel;
  const path = pattern.replace(/\*+$/, '');
  const rest = channel.slice(path.length);
  return channel.startsWith(path) && rest !== '' && (pattern.endsWith('/**') || !rest.includes('/'));
}
class Session {
  constructor(url, address, options, reports) {
    this.url = String(url);
    this.reports = reports;
    this.connectionType = options.connectionType ?? transportFor(address);
    this.headers = options.headers ?? {};
    this.lastHeaders = {};
    this.ext = options.ext ?? {};
    this.name = options.name;
    this.timeout = options.timeout ?? 30000;
    this.maxNetworkDelay = options.maxNetworkDelay ?? 10000;
    this.minPause = options.minPause ?? 250;
    this.maxPause = options.maxPause ?? 10000;
    this.queue = options.queue ?? 0;
    this.isShared = (options.share ?? !(options.headers || options.ext)) && canShareSession();
    this.state = 'stopped';
    this.why = '';
    this.error = undefined;
    this.starts = 0;
    this.opening = null;
    this.watching = null;
    this.endPause = () => {};
    this.connecting = null;
    this.hold = 0;
    this.windows = null;
    this.clientId = null;
    this.knownId = null;
    this.lastEventTime = 0;
    this.advice = {};
    this.failures = 0;
    this.mayPublish = true;
    this.hasBatches = false;
    this.lastBatch = 0;
    this.listeners = new Map();
    this.subscribed = new Set();
    this.outbox = new Outbox(this);
  }
  start() {
    if (this.opening !== null) return this.opening.promise;
    const opening = {};
    opening.promise = new Promise((resolve, reject) => Object.assign(opening, { resolve, reject }));
    opening.promise.catch(() => {});
    this.opening = opening;
    this.watchPage();
    this.open();
    return opening.promise;
  }
  open() {
    const start = ++this.starts;
    this.setState('connecting');
    if (this.isShared) this.windows = new Windows(this, () => this.run(start));
    else this.run(start);
  }
  watchPage() {
    if (!IS_PAGE) return;
    this.watching = new AbortController();
    const { signal } = this.watching;
    window.addEventListener('pagehide', () => this.suspend(), { signal });
    window.addEventListener('pageshow', ({ persisted }) => persisted && this.open(), { signal });
    window.addEventListener('online', () => this.retry(), { signal });
    window.addEventListener('offline', () => this.connecting?.abort(offline()), { signal });
    document.addEventListener('visibilitychange', () => this.look(), { signal });
  }
  suspend() {
    const last = this.reports.leave();
    if (this.clientId !== null) this.endAtOnce(this.outbox.takeOwn(), last, this.endOfSession(), this.clientId);
    this.close();
  }
  retry() {
    this.failures = 0;
    if (this.state !== 'connected') this.endPause();
    if (this.isLed()) this.windows.post('retry');
  }
  look() {
    if (this.isLed()) this.windows.post('look', { isVisible: isShown() });
    else this.renew();
    if (isShown()) this.retry();
  }
  isVisible() {
    return isShown() || this.windows?.looking.size > 0;
  }
  renew() {
    if (this.hasBatches && this.hold > this.timeout && this.isVisible()) this.connecting?.abort(RENEWED);
  }
  endOfSession() {
    return this.windows?.hasOthers() ? [] : [DISCONNECT];
  }
  endAtOnce(entries, last, end, clientId) {
    const publishes = this.mayPublish ? last : [];
    const sent = this.mayPublish ? this.outbox.take(entries, publishes.length + end.length, clientId) : [];
    giveUp(sent, true);
    giveUp(entries);
    const messages = [...sent.map(({ message }) => message), ...publishes, ...end];
    if (messages.length > 0) sendLast(this.url, this.connectionType, messages.map((it) => ({ ...it, clientId })), this.headersNow());
  }
  stop(last) {
    const { clientId, outbox } = this;
    const entries = outbox.takeOwn();
    const end = this.endOfSession();
    const result = clientId === null ? entries.length + last.length === 0 : this.end([...entries, ...last.map((message) => ({ message }))], end, clientId);
    if (clientId === null) giveUp(entries);
    this.leave();
    return result;
  }
  async end(entries, end, clientId) {
    const isAllowed = this.mayPublish;
    const wanted = entries.length;
    if (!isAllowed) giveUp(entries.splice(0));
    const leaving = new AbortController();
    const hasLeft = () => leaving.signal.aborted;
    const leaveAtOnce = () => {
      leaving.abort();
      this.endAtOnce(entries.splice(0), [], end, clientId);
    };
    if (IS_PAGE) window.addEventListener('pagehide', leaveAtOnce, { signal: leaving.signal });
    let isConfirmed = isAllowed || wanted === 0;
    try {
      if (this.outbox.isOpen) await this.outbox.sending;
      while (entries.length + end.length > 0 && !hasLeft()) {
        const some = this.outbox.take(entries, end.length, clientId);
        if (entries.length === 0) leaving.abort();
        isConfirmed = (await this.sendEnd(some, entries.length === 0 ? end : [], clientId)) && isConfirmed;
        if (entries.length === 0) return isConfirmed;
      }
      return isConfirmed && !hasLeft();
    } finally {
      leaving.abort();
    }
  }
  async sendEnd(entries, end, clientId) {
    if (this.connectionType === 'long-polling' || end.length === 0) return this.outbox.request(entries, clientId, end, true);
    giveUp(entries, true);
    const messages = [...entries.map(({ message }) => message), ...end];
    sendLast(this.url, this.connectionType, messages.map((it) => ({ ...it, clientId })), {});
    return false;
  }
  leave(failure) {
    const { opening } = this;
    this.opening = null;
    this.watching?.abort();
    this.close(failure);
    giveUp(this.outbox.takeOwn());
    this.listeners.forEach((all) => all.forEach(({ fail, accept }) => (fail ?? accept)?.(failure)));
    opening?.reject(failure ?? stopped());
  }
  close(failure) {
    this.starts++;
    this.endPause();
    this.windows?.leave();
    this.windows = null;
    this.clientId = null;
    this.knownId &&= 'left';
    this.outbox.dropOthers();
    this.setState('stopped', failure);
  }
  async subscribe(pattern, entry) {
    this.listeners.set(pattern, [...(this.listeners.get(pattern) || []), entry]);
    entry.isWaiting = this.opening !== null;
    try {
      await this.adjust();
      const isOpen = entry.isWaiting && this.opening !== null && this.listeners.get(pattern)?.includes(entry);
      if (isOpen && !this.subscribed.has(pattern)) await new Promise((accept) => (entry.accept = accept));
      if (entry.failure) throw entry.failure;
    } finally {
      entry.isWaiting = false;
    }
  }
  unsubscribe(pattern, isGone) {
    const all = this.listeners.get(pattern) || [];
    const others = all.filter((it) => !isGone(it));
    all.filter(isGone).forEach(({ accept }) => accept?.());
    if (others.length > 0) this.listeners.set(pattern, others);
    else this.listeners.delete(pattern);
    return this.adjust();
  }
  drop(failure) {
    const entries = this.listeners.get(failure.pattern) || [];
    this.listeners.delete(failure.pattern);
    for (const entry of entries) {
      entry.failure = failure;
      (entry.fail ?? entry.accept)?.(failure);
    }
    if (entries.some(({ fail, isWaiting }) => !fail && !isWaiting)) this.report(this.state, failure);
  }
  confirmPatterns() {
    for (const [pattern, entries] of this.listeners) if (this.subscribed.has(pattern)) entries.forEach(({ accept }) => accept?.());
  }
  publish(message) {
    if (this.isQueueing()) return this.outbox.length < this.queue ? this.outbox.publish(message) : Promise.reject(notConnected());
    if (!this.isLed() || this.outbox.length > 0) return this.outbox.publish(message);
    return this.clientId === null ? Promise.reject(notConnected()) : this.windows.ask('publish', message);
  }
  isQueueing() {
    return this.queue > 0 && this.opening !== null && (this.clientId === null || this.state !== 'connected');
  }
  setMayPublish(mayPublish) {
    if (mayPublish === this.mayPublish) return;
    this.mayPublish = mayPublish;
    this.windows?.shareState();
  }
  isLed() {
    return this.windows !== null && !this.windows.isLeading;
  }
  adjust(isFirst = false) {
    return this.isLed() ? this.windows.sendPatterns() : this.outbox.inOrder(() => this.askForPatterns(), isFirst || this.isQueueing());
  }
  async askForPatterns() {
    const wanted = new Set([...this.listeners.keys(), ...(this.windows?.patterns() || [])]);
    const missing = [...wanted].filter((it) => !this.subscribed.has(it));
    const spare = [...this.subscribed].filter((it) => !wanted.has(it));
    const changes = [
      ...missing.map((subscription) => ({ channel: '/meta/subscribe', subscription })),
      ...spare.map((subscription) => ({ channel: '/meta/unsubscribe', subscription })),
    ];
    const { clientId } = this;
    const failures = [];
    while (clientId !== null && !this.isLed() && changes.length > 0) {
      const some = changes.splice(0, PATTERNS_AT_ONCE);
      const replies = await this.outbox.ask(some);
      if (this.clientId !== clientId) return;
      replies.forEach((reply, index) => failures.push(...this.applyReply(reply, some[index])));
    }
    this.confirmPatterns();
    if (failures.length > 0) throw failures[0];
  }
  applyReply(reply, { channel, subscription }) {
    const failure = reply.successful ? null : BayeuxError.ofReply(reply, subscription);
    if (channel === '/meta/unsubscribe') {
      this.subscribed.delete(subscription);
      return failure ? [failure] : [];
    }
    if (!failure) this.subscribed.add(subscription);
    else {
      this.drop(failure);
      this.windows?.refuse(failure);
    }
    return [];
  }
  async run(start) {
    const isOver = () => this.starts !== start;
    while (!isOver()) {
      try {
        if (this.clientId === null) await this.handshake(isOver);
        await this.adjust(true).catch((failure) => {
          if (!failure.pattern) throw failure;
        });
        if (isOver()) return;
        if (this.clientId === null) {
          await this.pauseToRetry();
          continue;
        }
        this.recordSession(this.clientId);
        if (isOver()) return;
        if (!(await this.connect()) || this.clientId === null) continue;
        if (isOver()) return;
        this.setState('connected');
        this.failures = 0;
        if (this.advice.interval > 0) await this.pause(this.advice.interval);
      } catch (failure) {
        if (isOver()) return;
        if (failure.isFinal) {
          this.leave(failure);
          return;
        }
        if (failure !== this.error) this.setState('interrupted', failure);
        if (isOver()) return;
        this.outbox.giveUpRepeats();
        await this.pauseToRetry();
      }
    }
  }
  pauseToRetry() {
    const longest = Math.min(this.maxPause, this.minPause * 2 ** this.failures++);
    return this.pause(longest * (0.5 + Math.random() / 2));
  }
  pause(milliseconds) {
    return new Promise((resolve) => {
      const timer = setTimeout(resolve, milliseconds);
      this.endPause = () => {
        clearTimeout(timer);
        resolve();
      };
    });
  }
  async handshake(isOver) {
    const supportedConnectionTypes = [this.connectionType];
    const own = typeof this.ext === 'function' ? await this.extensions() : this.ext;
    if (isOver()) return;
    const ext = { ...own, ack: true, name: this.name };
    const message = { channel: '/meta/handshake', version: '1.0', supportedConnectionTypes, ext };
    const reply = await this.ask(message);
    if (isOver()) return;
    this.clientId = reply.clientId;
    this.subscribed.clear();
    this.hasBatches = reply.ext?.ack === true;
    this.lastBatch = 0;
  }
  async extensions() {
    try {
      return await this.ext();
    } catch (cause) {
      throw new BayeuxError('network', cause.message, { cause });
    }
  }
  recordSession(id) {
    if (id === this.knownId || id === null) return;
    const hadOne = this.knownId !== null;
    const since = new Date(this.lastEventTime);
    this.knownId = id;
    this.lastEventTime = Date.now();
    this.windows?.shareState();
    if (hadOne) this.reports.gap(since);
  }
  async connect() {
    const message = { channel: '/meta/connect', connectionType: this.connectionType };
    if (this.hasBatches) message.ext = { ack: this.lastBatch };
    const isHeld = this.state === 'connected';
    const { timeout = 0 } = this.advice;
    this.hold = !isHeld ? 0 : this.isVisible() ? Math.min(timeout, this.timeout) : timeout;
    if (!isHeld || this.hold < timeout) message.advice = { timeout: this.hold };
    const connecting = new AbortController();
    this.connecting = connecting;
    try {
      await this.ask(message, { hold: this.hold, signal: connecting.signal });
      return true;
    } catch (failure) {
      if (failure !== RENEWED) throw failure;
      return false;
    } finally {
      if (this.connecting === connecting) this.connecting = null;
    }
  }
  async ask(message, how) {
    const [reply] = await this.askAll([message], how);
    if (!reply) throw new BayeuxError('protocol', 'the response lacks a reply', { mayHaveArrived: true });
    if (reply.successful) return reply;
    throw BayeuxError.ofReply(reply);
  }
  async askAll(messages, { clientId = this.clientId, ...how } = {}) {
    const begin = Date.now();
    const sent = clientId === null ? messages : messages.map((message) => ({ ...message, clientId }));
    const items = await this.items(sent, how);
    const replies = items.filter((item) => 'successful' in item);
    if (clientId !== this.clientId) return replies;
    replies.forEach(({ advice }) => (this.advice = { ...this.advice, ...advice }));
    const isAnswered = clientId !== null && clientId === this.knownId && replies.some((reply) => reply.successful);
    if (isAnswered && this.why === NO_ANSWER) this.setState('connected');
    for (const { ext } of replies) if (typeof ext?.ack === 'number') this.lastBatch = ext.ack;
    const events = items.filter((item) => !('successful' in item));
    events.forEach((event) => this.deliver(event));
    if (events.length > 0) this.lastEventTime = begin;
    if (events.length > 0) this.windows?.shareState(events);
    const lost = clientId !== null && replies.find((reply) => reply.advice?.reconnect === 'handshake');
    if (lost) this.lose(lost, messages[0].channel === '/meta/connect');
    return replies;
  }
  lose(reply, isOfConnect) {
    this.clientId = null;
    this.failures = 0;
    if (isOfConnect) return;
    this.setState('interrupted', BayeuxError.ofReply(reply));
    this.connecting?.abort(RENEWED);
    this.endPause();
  }
  async items(messages, { hold = 0, isLast, signal }) {
    const { ask } = TRANSPORTS[this.connectionType];
    try {
      let headers = this.connectionType === 'long-polling' ? this.askForHeaders() : {};
      if (typeof headers?.then === 'function') this.lastHeaders = headers = await headers;
      const items = await ask(this.url, messages, { timeout: hold + this.maxNetworkDelay, headers, isLast, signal });
      if (!Array.isArray(items)) throw new BayeuxError('protocol', 'the response is no list of messages', { mayHaveArrived: true });
      return items;
    } catch (failure) {
      if (failure.message === NO_ANSWER && this.state === 'connected') this.setState('interrupted', failure);
      throw failure instanceof BayeuxError ? failure : new BayeuxError('network', failure.message, { mayHaveArrived: false, cause: failure });
    }
  }
  askForHeaders() {
    return typeof this.headers === 'function' ? this.headers() : this.headers;
  }
  headersNow() {
    const headers = this.askForHeaders();
    if (typeof headers?.then !== 'function') return headers ?? {};
    headers.then(undefined, () => {});
    return this.lastHeaders;
  }
  mirror({ state, error, knownId, session, subscribed, events }) {
    const isNew = session.clientId !== this.clientId || !session.hasBatches || session.lastBatch > this.lastBatch;
    this.recordSession(knownId);
    Object.assign(this, session, isNew ? {} : { lastBatch: this.lastBatch });
    this.subscribed = new Set(subscribed);
    this.confirmPatterns();
    if (isNew) events.forEach((event) => this.deliver(event));
    this.setState(state, error && BayeuxError.from(error));
  }
  deliver({ channel, data }) {
    for (const [pattern, entries] of this.listeners) {
      if (!isMatch(pattern, channel)) continue;
      entries.forEach(({ listener }) => queueMicrotask(() => callSafely(() => listener(data, channel))));
    }
  }
  setState(state, error) {
    const why = error?.message ?? '';
    if (state === this.state && !why) return;
    Object.assign(this, { state, why, error });
    this.windows?.shareState();
    if (state === 'connected') {
      this.confirmStart();
      this.outbox.send();
    }
    this.report(state, error);
  }
  report(state, error) {
    this.reports.state(state, error?.message ?? '', error);
  }
  async confirmStart() {
    const { opening } = this;
    if (opening === null || opening.isConfirmed) return;
    try {
      if (this.isLed()) await this.windows.sendPatterns();
    } catch {
      return;
    }
    opening.isConfirmed = true;
    opening.resolve();
  }
}

function eventsOf(session, pattern, signal) {
  const arrived = [];
  const asked = [];
  let end = null;
  const finish = (failure) => {
    if (end !== null) return;
    end = { failure };
    signal?.removeEventListener('abort', abort);
    session.unsubscribe(pattern, (it) => it === entry).catch(() => {});
    asked.splice(0).forEach(({ resolve, reject }) => settle(resolve, reject));
  };
  const settle = (resolve, reject) => {
    const { failure } = end;
    end.failure = undefined;
    if (failure) reject(failure);
    else resolve({ value: undefined, done: true });
  };
  const abort = () => finish();
  const entry = {
    listener: (data, channel) => {
      if (end !== null) return;
      const value = { channel, data };
      if (asked.length > 0) asked.shift().resolve({ value, done: false });
      else arrived.push(value);
    },
    fail: finish,
  };
  session.subscribe(pattern, entry).catch((failure) => failure.pattern && finish(failure));
  if (signal?.aborted) finish();
  else signal?.addEventListener('abort', abort, { once: true });
  return {
    next: () => new Promise((resolve, reject) => {
      if (arrived.length > 0) resolve({ value: arrived.shift(), done: false });
      else if (end !== null) settle(resolve, reject);
      else asked.push({ resolve, reject });
    }),
    return: async (value) => {
      arrived.splice(0);
      finish();
      return { value, done: true };
    },
    [Symbol.asyncIterator]() {
      return this;
    },
  };
}

let sessionOf;
class BayeuxClient extends EventTarget {
  static BayeuxError = BayeuxError;
  onstate = () => {};
  ongap = () => {};
  onleave = () => [];
  #session;
  #reports = [];
  static {
    sessionOf = (client) => client.#session;
  }
  constructor(url, options = {}) {
    const given = typeof options === 'string' ? { connectionType: options } : options;
    checkOptions(given);
    const address = addressOf(url);
    super();
    this.#session = new Session(url, address, given, {
      state: (...args) => this.#reportState(...args),
      gap: (since) => this.#report('gap', { since }, () => this.ongap(since)),
      leave: () => this.#lastMessages(),
    });
  }
  get url() {
    return this.#session.url;
  }
  get connectionType() {
    return this.#session.connectionType;
  }
  get state() {
    return this.#session.state;
  }
  get clientId() {
    return this.#session.clientId;
  }
  get headers() {
    return this.#session.headers;
  }
  set headers(headers) {
    checkHeaders('headers', headers);
    this.#session.headers = headers;
  }
  start() {
    return this.#session.start();
  }
  stop(last = []) {
    return Promise.resolve(this.#session.stop(messagesOf(last)));
  }
  subscribe(pattern, listener, { signal } = {}) {
    checkChannel('pattern', pattern);
    checkListener(listener);
    checkSignal(signal);
    if (signal?.aborted) return Promise.resolve();
    const entry = { listener };
    signal?.addEventListener('abort', () => this.#session.unsubscribe(pattern, (it) => it === entry).catch(() => {}), { once: true });
    return this.#session.subscribe(pattern, entry);
  }
  unsubscribe(pattern, listener) {
    return this.#session.unsubscribe(pattern, (it) => !listener || it.listener === listener);
  }
  events(pattern, { signal } = {}) {
    checkChannel('pattern', pattern);
    checkSignal(signal);
    return eventsOf(this.#session, pattern, signal);
  }
  publish(channel, data) {
    return this.#session.publish(messageOf(channel, data));
  }
  addEventListener(type, listener, options) {
    super.addEventListener(type, safeListener(listener), options);
  }
  removeEventListener(type, listener, options) {
    super.removeEventListener(type, safeListener(listener), options);
  }
  #lastMessages() {
    let last = [];
    callSafely(() => {
      last = messagesOf(this.onleave() ?? []);
    });
    return last;
  }
  #reportState(state, why, error) {
    this.#report('state', { state, why, error }, () => this.onstate(state, why));
    if (error) this.#report('error', { error });
  }
  #report(type, members, handler = () => {}) {
    this.#reports.push([Object.assign(new Event(type), members), handler]);
    if (this.#reports.length > 1) return;
    for (; this.#reports.length > 0; this.#reports.shift()) {
      const [[event, call]] = this.#reports;
      callSafely(call);
      this.dispatchEvent(event);
    }
  }
}
globalThis.BayeuxClient ??= BayeuxClient;
})();
