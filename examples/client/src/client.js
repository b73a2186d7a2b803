// The client that pages and programs use.
import { addressOf, checkChannel, checkHeaders, checkListener, checkOptions, checkSignal, messageOf, messagesOf } from './arguments.js';
import { callSafely, safeListener } from './calls.js';
import { BayeuxError } from './errors.js';
import { eventsOf } from './events.js';
import { Session } from './session.js';

/** Returns the session of a client, for tests. */
export let sessionOf;

/**
 * A client of a Bayeux server. It has the events `state` (with `state`, `why` and `error`), `gap`
 * (with `since`) and `error` (with `error`).
 */
export class BayeuxClient extends EventTarget {
  /** The class of errors, for scripts, which cannot import it. */
  static BayeuxError = BayeuxError;

  /** Is called with 'connecting', 'connected', 'interrupted' or 'stopped', and the reason. */
  onstate = () => {};

  /**
   * Is called if events may be missing: a new session has replaced an earlier one. Gets the Date at
   * which the request for the last event began, or that of the subscription without an event.
   */
  ongap = () => {};

  /** Is called when the user leaves the page. Returns the messages to publish, as for `stop`. */
  onleave = () => [];

  #session;
  #reports = [];

  static {
    sessionOf = (client) => client.#session;
  }

  /**
   * Creates a client that is stopped. Throws a TypeError if an argument is wrong.
   *
   * `url`: the server's address, such as `/cometd`.
   * `options`: an object with these members, or the connection type alone:
   * - `connectionType`: 'long-polling' or 'callback-polling'. By default, what works from this page.
   * - `headers`: header fields for each long-polling request, or a function that returns them.
   * - `ext`: the extensions of each handshake, such as a token, or a function that returns them.
   * - `share`: whether windows share a session. By default, they do without `headers` and `ext`.
   * - `name`: the session's name, which finds it in a record of the server.
   * - `timeout`: milliseconds for which a connect may be held, unless the page is hidden.
   * - `maxNetworkDelay`: milliseconds to wait for a response, in addition to the time that it is held.
   * - `minPause`, `maxPause`: the first and the longest pause after failures, in milliseconds.
   * - `queue`: how many publishes wait while the client is not connected. By default, they fail.
   */
  constructor(url, options = {}) {
    const given = typeof options === 'string' ? { connectionType: options } : options;
    checkOptions(given);
    const address = addressOf(url);
    super();
    this.#session = new Session(url, address, given, {
      state: (...args) => this.#reportState(...args),
      gap: (since) => this.#report('gap', { since }, () => this.ongap(since)),
      leave: () => this.#lastMessages(),
    });
  }

  get url() {
    return this.#session.url;
  }

  get connectionType() {
    return this.#session.connectionType;
  }

  get state() {
    return this.#session.state;
  }

  get clientId() {
    return this.#session.clientId;
  }

  get headers() {
    return this.#session.headers;
  }

  set headers(headers) {
    checkHeaders('headers', headers);
    this.#session.headers = headers;
  }

  /**
   * Opens a session, or joins that of other windows, and keeps it until `stop`.
   *
   * The promise resolves once the client is connected and subscribed. It rejects if the client is
   * stopped first: by `stop`, or because the server does not want it to try again.
   */
  start() {
    return this.#session.start();
  }

  /**
   * Publishes what waits and `last`, a list of `{ channel, data }`. Ends the session unless other
   * windows share it. The client is stopped at once. The promise resolves when the last request has
   * ended, to whether the server has confirmed all. Throws a TypeError if `last` is wrong.
   */
  stop(last = []) {
    return Promise.resolve(this.#session.stop(messagesOf(last)));
  }

  /**
   * Calls `listener(data, channel)` for each event that matches `pattern`, until `signal` is aborted.
   *
   * The promise resolves once the server has accepted the pattern, and rejects if the server rejects
   * it. Before `start` it resolves at once, and the event `error` reports a rejection. Throws a
   * TypeError if an argument is wrong.
   */
  subscribe(pattern, listener, { signal } = {}) {
    checkChannel('pattern', pattern);
    checkListener(listener);
    checkSignal(signal);
    if (signal?.aborted) return Promise.resolve();
    const entry = { listener };
    signal?.addEventListener('abort', () => this.#session.unsubscribe(pattern, (it) => it === entry).catch(() => {}), { once: true });
    return this.#session.subscribe(pattern, entry);
  }

  /** Removes this listener of `pattern`, or all if there is no `listener`. */
  unsubscribe(pattern, listener) {
    return this.#session.unsubscribe(pattern, (it) => !listener || it.listener === listener);
  }

  /** Returns an async iterator of the events `{ channel, data }` of `pattern`, from now on. */
  events(pattern, { signal } = {}) {
    checkChannel('pattern', pattern);
    checkSignal(signal);
    return eventsOf(this.#session, pattern, signal);
  }

  /**
   * Publishes `data` to `channel`. Publishes that wait for an earlier request are sent together.
   *
   * The promise rejects with a BayeuxError if the server rejects the publish, or if no reply
   * arrives. Without a reply, `data` may have been published (`mayHaveArrived`): a page that repeats
   * it may publish it twice. If publishing is forbidden here (`code` 'forbidden'), it stays so, and
   * the session continues. Throws a TypeError if an argument is wrong.
   */
  publish(channel, data) {
    return this.#session.publish(messageOf(channel, data));
  }

  addEventListener(type, listener, options) {
    super.addEventListener(type, safeListener(listener), options);
  }

  removeEventListener(type, listener, options) {
    super.removeEventListener(type, safeListener(listener), options);
  }

  // Returns what to publish when the page is left, or nothing if `onleave` throws.
  #lastMessages() {
    let last = [];
    callSafely(() => {
      last = messagesOf(this.onleave() ?? []);
    });
    return last;
  }

  // Reports a state, and a failure if there is one.
  #reportState(state, why, error) {
    this.#report('state', { state, why, error }, () => this.onstate(state, why));
    if (error) this.#report('error', { error });
  }

  // Calls `handler` and the listeners of an event. If one of them causes another event, all hear of
  // this one first.
  #report(type, members, handler = () => {}) {
    this.#reports.push([Object.assign(new Event(type), members), handler]);
    if (this.#reports.length > 1) return;
    for (; this.#reports.length > 0; this.#reports.shift()) {
      const [[event, call]] = this.#reports;
      callSafely(call);
      this.dispatchEvent(event);
    }
  }
}
