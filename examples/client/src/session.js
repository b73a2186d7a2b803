// A session with a server: its handshake, its connects, its patterns and its events.
import { transportFor, IS_PAGE, isShown, sendLast, TRANSPORTS } from './transport.js';
import { callSafely } from './calls.js';
import { BayeuxError, NO_ANSWER, notConnected, offline, stopped } from './errors.js';
import { giveUp, Outbox } from './outbox.js';
import { canShareSession, Windows } from './windows.js';

// The greatest number of patterns in one request. It keeps the URLs of callback-polling short.
const PATTERNS_AT_ONCE = 16;
const DISCONNECT = { channel: '/meta/disconnect' };
// Why a connect ends that the client has ended itself, to send another request at once.
const RENEWED = new BayeuxError('network', 'renewed');

/** Returns whether `channel` matches: a final `*` stands for one segment, `**` for one or more. */
export function isMatch(pattern, channel) {
  if (!pattern.endsWith('*')) return pattern === channel;
  const path = pattern.replace(/\*+$/, '');
  const rest = channel.slice(path.length);
  return channel.startsWith(path) && rest !== '' && (pattern.endsWith('/**') || !rest.includes('/'));
}

/** What a client has and does inside, for this window alone or shared with others. */
export class Session {
  /**
   * `options`: as the client has checked them. `reports`: functions `state(state, why, error)`,
   * `gap(since)`, and `leave()`, which returns the messages to publish when the page is left.
   */
  constructor(url, address, options, reports) {
    this.url = String(url);
    this.reports = reports;
    this.connectionType = options.connectionType ?? transportFor(address);
    this.headers = options.headers ?? {};
    this.lastHeaders = {}; // what `headers` was when it was last known, for a page that is left
    this.ext = options.ext ?? {};
    this.name = options.name;
    this.timeout = options.timeout ?? 30000; // how long a connect may be held, unless the page is hidden
    this.maxNetworkDelay = options.maxNetworkDelay ?? 10000; // how long a response may take in addition to its hold
    this.minPause = options.minPause ?? 250; // the first pause after a failure, and the longest
    this.maxPause = options.maxPause ?? 10000;
    this.queue = options.queue ?? 0; // how many publishes may wait for a connection
    this.isShared = (options.share ?? !(options.headers || options.ext)) && canShareSession();
    this.state = 'stopped';
    this.why = '';
    this.error = undefined; // the failure that `why` describes
    this.starts = 0; // how often it was started or stopped
    this.opening = null; // the promise of `start` and its functions, until `stop`
    this.watching = null; // removes the listeners from the page, until `stop`
    this.endPause = () => {}; // ends the pause between two connects
    this.connecting = null; // the AbortController of the connect that is open
    this.hold = 0; // milliseconds for which the server may hold it
    this.windows = null; // the windows that share the session, while it is started
    this.clientId = null;
    this.knownId = null; // the client id of the session that was last subscribed
    this.lastEventTime = 0; // when its last event arrived, or it was subscribed; Date.now()
    this.advice = {};
    this.failures = 0;
    this.mayPublish = true; // whether no publish was forbidden since the last successful one
    this.hasBatches = false; // whether the server numbers its batches of events
    this.lastBatch = 0;
    this.listeners = new Map(); // a list of `{ listener, fail }` for each pattern
    this.subscribed = new Set(); // the session's patterns that the server has accepted
    this.outbox = new Outbox(this);
  }

  start() {
    if (this.opening !== null) return this.opening.promise;
    const opening = {};
    opening.promise = new Promise((resolve, reject) => Object.assign(opening, { resolve, reject }));
    // A page that does not use the promise gets the reason from `onstate`.
    opening.promise.catch(() => {});
    this.opening = opening;
    this.watchPage();
    this.open();
    return opening.promise;
  }

  // Opens or joins a session.
  open() {
    const start = ++this.starts;
    this.setState('connecting');
    if (this.isShared) this.windows = new Windows(this, () => this.run(start));
    else this.run(start);
  }

  // Stops when the user leaves the page, and starts again on return. Retries at once when the
  // network is back, and when the user looks at the page.
  watchPage() {
    if (!IS_PAGE) return;
    this.watching = new AbortController();
    const { signal } = this.watching;
    window.addEventListener('pagehide', () => this.suspend(), { signal });
    window.addEventListener('pageshow', ({ persisted }) => persisted && this.open(), { signal });
    window.addEventListener('online', () => this.retry(), { signal });
    window.addEventListener('offline', () => this.connecting?.abort(offline()), { signal });
    document.addEventListener('visibilitychange', () => this.look(), { signal });
  }

  // Stops until the user returns to the page. The promise of `start` stays open.
  suspend() {
    const last = this.reports.leave();
    // Without a session, what waits is sent when the user returns.
    if (this.clientId !== null) this.endAtOnce(this.outbox.takeOwn(), last, this.endOfSession(), this.clientId);
    this.close();
  }

  // Ends the pause after a failure. If another window has the session, that one retries.
  retry() {
    this.failures = 0;
    if (this.state !== 'connected') this.endPause();
    if (this.isLed()) this.windows.post('retry');
  }

  // Acts on whether the user looks at the page.
  look() {
    if (this.isLed()) this.windows.post('look', { isVisible: isShown() });
    else this.renew();
    if (isShown()) this.retry();
  }

  // Returns whether the user looks at one of the windows, or this is no page.
  isVisible() {
    return isShown() || this.windows?.looking.size > 0;
  }

  // Sends the connect again if the server may hold it for too long. Without acknowledgement, events
  // could be lost.
  renew() {
    if (this.hasBatches && this.hold > this.timeout && this.isVisible()) this.connecting?.abort(RENEWED);
  }

  // Returns the messages that end the session: none if other windows continue with it.
  endOfSession() {
    return this.windows?.hasOthers() ? [] : [DISCONNECT];
  }

  // Sends the last messages without waiting for anything, since the page is left: as many of
  // `entries` as one request takes, `last`, and `end`.
  endAtOnce(entries, last, end, clientId) {
    // A forbidden publish would make the server reject the whole request, with the disconnect.
    const publishes = this.mayPublish ? last : [];
    const sent = this.mayPublish ? this.outbox.take(entries, publishes.length + end.length, clientId) : [];
    giveUp(sent, true);
    giveUp(entries);
    const messages = [...sent.map(({ message }) => message), ...publishes, ...end];
    if (messages.length > 0) sendLast(this.url, this.connectionType, messages.map((it) => ({ ...it, clientId })), this.headersNow());
  }

  /** Publishes what waits and `last`, and stops. Returns whether the server has confirmed all. */
  stop(last) {
    const { clientId, outbox } = this;
    const entries = outbox.takeOwn();
    const end = this.endOfSession();
    const result = clientId === null ? entries.length + last.length === 0 : this.end([...entries, ...last.map((message) => ({ message }))], end, clientId);
    if (clientId === null) giveUp(entries);
    this.leave();
    return result;
  }

  // Sends `entries` and `end` once the request that is open has ended, so that the order is kept.
  async end(entries, end, clientId) {
    const isAllowed = this.mayPublish;
    const wanted = entries.length;
    if (!isAllowed) giveUp(entries.splice(0));
    // If the user leaves the page meanwhile, what is left is sent at once.
    const leaving = new AbortController();
    const hasLeft = () => leaving.signal.aborted;
    const leaveAtOnce = () => {
      leaving.abort();
      this.endAtOnce(entries.splice(0), [], end, clientId);
    };
    if (IS_PAGE) window.addEventListener('pagehide', leaveAtOnce, { signal: leaving.signal });
    let isConfirmed = isAllowed || wanted === 0;
    try {
      if (this.outbox.isOpen) await this.outbox.sending;
      while (entries.length + end.length > 0 && !hasLeft()) {
        const some = this.outbox.take(entries, end.length, clientId);
        if (entries.length === 0) leaving.abort();
        isConfirmed = (await this.sendEnd(some, entries.length === 0 ? end : [], clientId)) && isConfirmed;
        if (entries.length === 0) return isConfirmed;
      }
      return isConfirmed && !hasLeft();
    } finally {
      leaving.abort();
    }
  }

  // A browser may cancel a script if the page is left, but not a beacon. A beacon gets no answer.
  async sendEnd(entries, end, clientId) {
    if (this.connectionType === 'long-polling' || end.length === 0) return this.outbox.request(entries, clientId, end, true);
    giveUp(entries, true);
    const messages = [...entries.map(({ message }) => message), ...end];
    sendLast(this.url, this.connectionType, messages.map((it) => ({ ...it, clientId })), {});
    return false;
  }

  // Stops because of `failure`, or because the page has asked for it.
  leave(failure) {
    const { opening } = this;
    this.opening = null;
    this.watching?.abort();
    this.close(failure);
    giveUp(this.outbox.takeOwn());
    this.listeners.forEach((all) => all.forEach(({ fail, accept }) => (fail ?? accept)?.(failure)));
    opening?.reject(failure ?? stopped());
  }

  close(failure) {
    this.starts++;
    this.endPause();
    this.windows?.leave();
    this.windows = null;
    this.clientId = null;
    this.knownId &&= 'left';
    this.outbox.dropOthers();
    this.setState('stopped', failure);
  }

  /**
   * Calls `entry.listener` for each event of `pattern`. `entry.fail` gets the reason if it ends.
   *
   * While the client is started, the promise waits until the server has accepted or rejected it.
   */
  async subscribe(pattern, entry) {
    this.listeners.set(pattern, [...(this.listeners.get(pattern) || []), entry]);
    entry.isWaiting = this.opening !== null;
    try {
      await this.adjust();
      const isOpen = entry.isWaiting && this.opening !== null && this.listeners.get(pattern)?.includes(entry);
      if (isOpen && !this.subscribed.has(pattern)) await new Promise((accept) => (entry.accept = accept));
      if (entry.failure) throw entry.failure;
    } finally {
      entry.isWaiting = false;
    }
  }

  /** Removes the entries of `pattern` for which `isGone` is true. */
  unsubscribe(pattern, isGone) {
    const all = this.listeners.get(pattern) || [];
    const others = all.filter((it) => !isGone(it));
    all.filter(isGone).forEach(({ accept }) => accept?.());
    if (others.length > 0) this.listeners.set(pattern, others);
    else this.listeners.delete(pattern);
    return this.adjust();
  }

  // Removes the listeners of a pattern that the server has rejected. An invalid pattern stays
  // invalid. Reports it if no promise or iterator does.
  drop(failure) {
    const entries = this.listeners.get(failure.pattern) || [];
    this.listeners.delete(failure.pattern);
    for (const entry of entries) {
      entry.failure = failure;
      (entry.fail ?? entry.accept)?.(failure);
    }
    if (entries.some(({ fail, isWaiting }) => !fail && !isWaiting)) this.report(this.state, failure);
  }

  // Resolves the promises of the patterns that the server has accepted.
  confirmPatterns() {
    for (const [pattern, entries] of this.listeners) if (this.subscribed.has(pattern)) entries.forEach(({ accept }) => accept?.());
  }

  publish(message) {
    if (this.isQueueing()) return this.outbox.length < this.queue ? this.outbox.publish(message) : Promise.reject(notConnected());
    if (!this.isLed() || this.outbox.length > 0) return this.outbox.publish(message);
    return this.clientId === null ? Promise.reject(notConnected()) : this.windows.ask('publish', message);
  }

  // Returns whether publishes wait for a connection.
  isQueueing() {
    return this.queue > 0 && this.opening !== null && (this.clientId === null || this.state !== 'connected');
  }

  // Sets whether publishing is allowed. Sends a change to the other windows.
  setMayPublish(mayPublish) {
    if (mayPublish === this.mayPublish) return;
    this.mayPublish = mayPublish;
    this.windows?.shareState();
  }

  // Returns whether another window has the session.
  isLed() {
    return this.windows !== null && !this.windows.isLeading;
  }

  // Subscribes and unsubscribes as the listeners require. Without a session, `run` does this later.
  adjust(isFirst = false) {
    return this.isLed() ? this.windows.sendPatterns() : this.outbox.inOrder(() => this.askForPatterns(), isFirst || this.isQueueing());
  }

  // Subscribes to the patterns that the session lacks, and unsubscribes from those that no window
  // wants.
  async askForPatterns() {
    const wanted = new Set([...this.listeners.keys(), ...(this.windows?.patterns() || [])]);
    const missing = [...wanted].filter((it) => !this.subscribed.has(it));
    const spare = [...this.subscribed].filter((it) => !wanted.has(it));
    const changes = [
      ...missing.map((subscription) => ({ channel: '/meta/subscribe', subscription })),
      ...spare.map((subscription) => ({ channel: '/meta/unsubscribe', subscription })),
    ];
    const { clientId } = this;
    const failures = [];
    while (clientId !== null && !this.isLed() && changes.length > 0) {
      const some = changes.splice(0, PATTERNS_AT_ONCE);
      const replies = await this.outbox.ask(some);
      // If the session is gone, `run` asks for all patterns in the next one.
      if (this.clientId !== clientId) return;
      replies.forEach((reply, index) => failures.push(...this.applyReply(reply, some[index])));
    }
    this.confirmPatterns();
    if (failures.length > 0) throw failures[0];
  }

  // Records what a pattern's reply says. Returns the failure to unsubscribe, if it is one.
  applyReply(reply, { channel, subscription }) {
    const failure = reply.successful ? null : BayeuxError.ofReply(reply, subscription);
    if (channel === '/meta/unsubscribe') {
      this.subscribed.delete(subscription);
      return failure ? [failure] : [];
    }
    if (!failure) this.subscribed.add(subscription);
    else {
      this.drop(failure);
      this.windows?.refuse(failure);
    }
    return [];
  }

  // Runs the session: one handshake, followed by one connect after another. After a failure it
  // pauses, longer each time.
  async run(start) {
    const isOver = () => this.starts !== start;
    while (!isOver()) {
      try {
        if (this.clientId === null) await this.handshake(isOver);
        // A pattern that cannot be unsubscribed is no failure of the session.
        await this.adjust(true).catch((failure) => {
          if (!failure.pattern) throw failure;
        });
        if (isOver()) return;
        if (this.clientId === null) {
          await this.pauseToRetry();
          continue;
        }
        this.recordSession(this.clientId);
        if (isOver()) return;
        if (!(await this.connect()) || this.clientId === null) continue;
        if (isOver()) return;
        this.setState('connected');
        this.failures = 0;
        // Without an interval there is no pause: timers are slow in hidden pages, and a hidden page
        // may be the leader.
        if (this.advice.interval > 0) await this.pause(this.advice.interval);
      } catch (failure) {
        if (isOver()) return;
        if (failure.isFinal) {
          this.leave(failure);
          return;
        }
        // `items` reports a connect without an answer.
        if (failure !== this.error) this.setState('interrupted', failure);
        if (isOver()) return;
        this.outbox.giveUpRepeats();
        await this.pauseToRetry();
      }
    }
  }

  // Waits after a failure, for a random length, so that not all clients return at once when a server
  // restarts.
  pauseToRetry() {
    const longest = Math.min(this.maxPause, this.minPause * 2 ** this.failures++);
    return this.pause(longest * (0.5 + Math.random() / 2));
  }

  // Waits for some milliseconds, or until `endPause` is called.
  pause(milliseconds) {
    return new Promise((resolve) => {
      const timer = setTimeout(resolve, milliseconds);
      this.endPause = () => {
        clearTimeout(timer);
        resolve();
      };
    });
  }

  async handshake(isOver) {
    const supportedConnectionTypes = [this.connectionType];
    const own = typeof this.ext === 'function' ? await this.extensions() : this.ext;
    if (isOver()) return;
    const ext = { ...own, ack: true, name: this.name };
    const message = { channel: '/meta/handshake', version: '1.0', supportedConnectionTypes, ext };
    const reply = await this.ask(message);
    if (isOver()) return;
    this.clientId = reply.clientId;
    this.subscribed.clear();
    this.hasBatches = reply.ext?.ack === true;
    this.lastBatch = 0;
  }

  async extensions() {
    try {
      return await this.ext();
    } catch (cause) {
      throw new BayeuxError('network', cause.message, { cause });
    }
  }

  // Records that session `id` is subscribed. Reports a gap if it replaces an earlier one.
  recordSession(id) {
    if (id === this.knownId || id === null) return;
    const hadOne = this.knownId !== null;
    const since = new Date(this.lastEventTime);
    this.knownId = id;
    this.lastEventTime = Date.now();
    this.windows?.shareState();
    if (hadOne) this.reports.gap(since);
  }

  // Sends a connect. The server holds it until there is an event, or until its timeout has passed.
  // Returns whether it has ended by itself.
  async connect() {
    const message = { channel: '/meta/connect', connectionType: this.connectionType };
    // Each connect acknowledges the last batch that arrived. The events of a lost response are not
    // acknowledged, so the server sends them again.
    if (this.hasBatches) message.ext = { ack: this.lastBatch };
    // Until the client is connected, the server must not hold the connect, so that the page learns
    // at once that it is connected.
    const isHeld = this.state === 'connected';
    const { timeout = 0 } = this.advice;
    this.hold = !isHeld ? 0 : this.isVisible() ? Math.min(timeout, this.timeout) : timeout;
    if (!isHeld || this.hold < timeout) message.advice = { timeout: this.hold };
    const connecting = new AbortController();
    this.connecting = connecting;
    try {
      await this.ask(message, { hold: this.hold, signal: connecting.signal });
      return true;
    } catch (failure) {
      if (failure !== RENEWED) throw failure;
      return false;
    } finally {
      if (this.connecting === connecting) this.connecting = null;
    }
  }

  // Sends one message, and returns the reply. Fails if the server rejects it.
  async ask(message, how) {
    const [reply] = await this.askAll([message], how);
    if (!reply) throw new BayeuxError('protocol', 'the response lacks a reply', { mayHaveArrived: true });
    if (reply.successful) return reply;
    throw BayeuxError.ofReply(reply);
  }

  // Sends messages, passes events to their listeners, and returns the replies. `how`: `clientId`, and
  // what `items` takes.
  async askAll(messages, { clientId = this.clientId, ...how } = {}) {
    const begin = Date.now();
    const sent = clientId === null ? messages : messages.map((message) => ({ ...message, clientId }));
    const items = await this.items(sent, how);
    const replies = items.filter((item) => 'successful' in item);
    // The client has left this session meanwhile, so its events are ignored.
    if (clientId !== this.clientId) return replies;
    replies.forEach(({ advice }) => (this.advice = { ...this.advice, ...advice }));
    const isAnswered = clientId !== null && clientId === this.knownId && replies.some((reply) => reply.successful);
    if (isAnswered && this.why === NO_ANSWER) this.setState('connected');
    for (const { ext } of replies) if (typeof ext?.ack === 'number') this.lastBatch = ext.ack;
    const events = items.filter((item) => !('successful' in item));
    events.forEach((event) => this.deliver(event));
    // A frozen page gets a response long after it came. Events may be missing since the request.
    if (events.length > 0) this.lastEventTime = begin;
    if (events.length > 0) this.windows?.shareState(events);
    const lost = clientId !== null && replies.find((reply) => reply.advice?.reconnect === 'handshake');
    if (lost) this.lose(lost, messages[0].channel === '/meta/connect');
    return replies;
  }

  // The session is gone, as a reply says. If that is not a connect's, the open connect ends, and `run`
  // opens another session at once.
  lose(reply, isOfConnect) {
    this.clientId = null;
    // The server can be reached. So the next pause may be short.
    this.failures = 0;
    if (isOfConnect) return;
    this.setState('interrupted', BayeuxError.ofReply(reply));
    this.connecting?.abort(RENEWED);
    this.endPause();
  }

  // Sends messages, and returns the items of the response. `hold`: milliseconds for which the server may
  // hold it.
  async items(messages, { hold = 0, isLast, signal }) {
    const { ask } = TRANSPORTS[this.connectionType];
    try {
      let headers = this.connectionType === 'long-polling' ? this.askForHeaders() : {};
      // A page that is left cannot wait for a promise.
      if (typeof headers?.then === 'function') this.lastHeaders = headers = await headers;
      const items = await ask(this.url, messages, { timeout: hold + this.maxNetworkDelay, headers, isLast, signal });
      if (!Array.isArray(items)) throw new BayeuxError('protocol', 'the response is no list of messages', { mayHaveArrived: true });
      return items;
    } catch (failure) {
      if (failure.message === NO_ANSWER && this.state === 'connected') this.setState('interrupted', failure);
      // `headers` may have thrown an error of its own.
      throw failure instanceof BayeuxError ? failure : new BayeuxError('network', failure.message, { mayHaveArrived: false, cause: failure });
    }
  }

  askForHeaders() {
    return typeof this.headers === 'function' ? this.headers() : this.headers;
  }

  // Returns the header fields as far as they are known at once.
  headersNow() {
    const headers = this.askForHeaders();
    if (typeof headers?.then !== 'function') return headers ?? {};
    headers.then(undefined, () => {});
    return this.lastHeaders;
  }

  // Applies the leader's state, session and events. With a new leader, a batch may arrive twice.
  mirror({ state, error, knownId, session, subscribed, events }) {
    const isNew = session.clientId !== this.clientId || !session.hasBatches || session.lastBatch > this.lastBatch;
    this.recordSession(knownId);
    Object.assign(this, session, isNew ? {} : { lastBatch: this.lastBatch });
    this.subscribed = new Set(subscribed);
    this.confirmPatterns();
    if (isNew) events.forEach((event) => this.deliver(event));
    this.setState(state, error && BayeuxError.from(error));
  }

  deliver({ channel, data }) {
    for (const [pattern, entries] of this.listeners) {
      if (!isMatch(pattern, channel)) continue;
      // Each call is its own task, so that each listener gets an event before the next one comes.
      entries.forEach(({ listener }) => queueMicrotask(() => callSafely(() => listener(data, channel))));
    }
  }

  setState(state, error) {
    const why = error?.message ?? '';
    if (state === this.state && !why) return;
    Object.assign(this, { state, why, error });
    this.windows?.shareState();
    if (state === 'connected') {
      this.confirmStart();
      this.outbox.send();
    }
    this.report(state, error);
  }

  report(state, error) {
    this.reports.state(state, error?.message ?? '', error);
  }

  // Resolves the promise of `start`. If another window has the session, that one first has to
  // subscribe to the patterns of this window.
  async confirmStart() {
    const { opening } = this;
    if (opening === null || opening.isConfirmed) return;
    try {
      if (this.isLed()) await this.windows.sendPatterns();
    } catch {
      // The next connection resolves it.
      return;
    }
    opening.isConfirmed = true;
    opening.resolve();
  }
}
