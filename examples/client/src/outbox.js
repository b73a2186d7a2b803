// What a session sends in order: publishes, and changes of its patterns.
import { BayeuxError, notConnected } from './errors.js';
import { MOST_MESSAGES, TRANSPORTS } from './transport.js';

// HTTP statuses with which a request as a whole has no effect, because of one of its messages or of
// its size: publishing to a channel is not allowed, or the body is too large.
const FORBIDDEN = 403;
const REFUSED_AS_A_WHOLE = [FORBIDDEN, 413];

/**
 * The publishes and other actions of a session that wait.
 *
 * Each begins once those before it have succeeded or failed. Publishes that wait are sent together
 * in one request, since the server takes many at the cost of one round trip.
 */
export class Outbox {
  constructor(session) {
    this.session = session;
    this.waiting = []; // publishes with a `message`, and others with an `action`
    this.sending = null; // settles when nothing waits any more, if something does
    this.isOpen = false; // whether a request is open
  }

  /** Calls `action` in its turn, or before all that waits. Returns its promise. */
  inOrder(action, isFirst = false) {
    return this.add({ action, isFirst });
  }

  /**
   * Publishes `message` in its turn. `isOwn`: whether it is of this window. `atSending`: is called
   * before it is sent.
   */
  publish(message, isOwn = true, atSending = () => {}) {
    return this.add({ message, isOwn, atSending });
  }

  add(entry) {
    const promise = new Promise((resolve, reject) => Object.assign(entry, { resolve, reject }));
    if (entry.isFirst) this.waiting.unshift(entry);
    else this.waiting.push(entry);
    this.send();
    return promise;
  }

  /** Sends what waits, if no request is open. */
  send() {
    this.sending ??= this.sendAll();
  }

  async sendAll() {
    // All publishes of one turn of the page share a request.
    await null;
    try {
      while (this.waiting.length > 0) {
        const [{ action, resolve, reject }] = this.waiting;
        if (action) {
          this.waiting.shift();
          await action().then(resolve, reject);
        } else if (this.session.isQueueing() || this.isRepeated()) {
          break;
        } else {
          await this.publishTogether(this.take(this.waiting));
        }
      }
    } finally {
      // At once, and not later by the promise, so that nothing is added in vain meanwhile.
      this.sending = null;
    }
  }

  // Returns whether what is next was sent to a session that is gone, and there is no other one yet.
  isRepeated() {
    return this.waiting[0].isAgain === true && this.session.clientId === null;
  }

  /** Rejects what waits for another session only because its own one is gone. */
  giveUpRepeats() {
    if (this.waiting.length === 0 || this.session.isQueueing() || !this.isRepeated()) return;
    this.waiting.splice(0).forEach((entry) => (entry.action ? this.waiting.push(entry) : entry.reject(notConnected())));
  }

  /** Removes and returns the first of `entries` that fit into a request, beside `others` messages. */
  take(entries, others = 0, clientId = this.session.clientId) {
    const { connectionType, mayPublish } = this.session;
    const { most, sizeOf } = TRANSPORTS[connectionType];
    let count = 0;
    let size = 0;
    for (const { message } of entries) {
      if (!message || count + others === MOST_MESSAGES) break;
      size += sizeOf(JSON.stringify({ ...message, clientId })) + 1;
      // While publishing is forbidden, each is tried alone.
      if (count > 0 && (size > most || !mayPublish)) break;
      count++;
    }
    return entries.splice(0, count);
  }

  async publishTogether(entries) {
    const { session } = this;
    const { clientId } = session;
    if (clientId === null) entries.forEach(({ reject }) => reject(notConnected()));
    else if (session.isLed()) entries.forEach(({ message, resolve, reject }) => session.windows.ask('publish', message).then(resolve, reject));
    else await this.request(entries, clientId);
  }

  /** Sends messages in their turn, and returns the replies. */
  async ask(messages, clientId = this.session.clientId) {
    this.isOpen = true;
    try {
      return await this.session.askAll(messages, { clientId });
    } finally {
      this.isOpen = false;
    }
  }

  /** Sends publishes, and then `end`, in one request. Returns whether all have succeeded. */
  async request(entries, clientId, end = [], isLast = false) {
    try {
      entries.forEach(({ atSending }) => atSending?.());
      const messages = [...entries.map(({ message }) => message), ...end];
      const replies = await (isLast ? this.session.askAll(messages, { clientId, isLast: true }) : this.ask(messages, clientId));
      this.settle(entries, replies);
      return messages.every((_, at) => replies[at]?.successful);
    } catch (failure) {
      if (entries.length + end.length > 1 && REFUSED_AS_A_WHOLE.includes(failure.status)) {
        const outcomes = [];
        for (const entry of entries) outcomes.push(await this.request([entry], clientId));
        if (end.length > 0) outcomes.push(await this.request([], clientId, end, isLast));
        return outcomes.every(Boolean);
      }
      entries.forEach(({ reject }) => reject?.(this.errorOf(failure)));
      return false;
    }
  }

  /** Settles publishes with the replies of their request, which are in order. */
  settle(entries, replies) {
    const { session } = this;
    const again = [];
    entries.forEach((entry, at) => {
      const reply = replies[at];
      if (!reply) entry.reject?.(new BayeuxError('protocol', 'the response lacks a reply', { mayHaveArrived: true }));
      else if (reply.successful) entry.resolve?.();
      // The session is gone, so the publish has not arrived.
      else if (reply.advice?.reconnect === 'handshake' && this.mayRepeat(entry)) again.push(entry);
      else entry.reject?.(BayeuxError.ofReply(reply));
    });
    // They come after what subscribes in a new session.
    const at = this.waiting.findIndex(({ isFirst }) => !isFirst);
    this.waiting.splice(at < 0 ? this.waiting.length : at, 0, ...again);
    if (entries.some((_, at) => replies[at]?.successful)) session.setMayPublish(true);
  }

  // Returns whether to send a publish again. Without a queue, it is sent twice at most.
  mayRepeat(entry) {
    if (!entry.reject || this.session.opening === null) return false;
    const isFirst = !entry.isAgain;
    entry.isAgain = true;
    return isFirst || (entry.isOwn && this.session.isQueueing());
  }

  // Returns the error of a publish whose request failed.
  errorOf(failure) {
    if (failure.status !== FORBIDDEN) return failure;
    this.session.setMayPublish(false);
    return new BayeuxError('forbidden', `publishing is not allowed here: HTTP status ${FORBIDDEN}`, { status: FORBIDDEN, reason: failure.reason });
  }

  /** Returns how many publishes of this window wait. */
  get length() {
    return this.waiting.filter(({ isOwn }) => isOwn).length;
  }

  /** Removes and returns the publishes of this window. */
  takeOwn() {
    const own = this.waiting.filter(({ isOwn }) => isOwn);
    this.waiting = this.waiting.filter(({ isOwn }) => !isOwn);
    return own;
  }

  /** Removes the publishes of other windows. They ask their next leader for them. */
  dropOthers() {
    this.waiting = this.waiting.filter(({ action, isOwn }) => action || isOwn);
  }
}

/** Rejects the promises of publishes that are not sent, or that get no answer. */
export function giveUp(entries, mayHaveArrived = false) {
  entries.forEach(({ reject }) => reject?.(new BayeuxError('stopped', 'stopped', { mayHaveArrived })));
}
