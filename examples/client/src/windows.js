// The windows of one origin that share a session.
import { addressOf } from './arguments.js';
import { BayeuxError, noAnswer } from './errors.js';
import { isShown } from './transport.js';

/** Returns whether windows can share a session: not from disk, over HTTP only on this machine. */
export function canShareSession() {
  const { origin, navigator } = globalThis;
  return origin !== undefined && origin !== 'null' && 'locks' in navigator && 'BroadcastChannel' in globalThis;
}

/**
 * The windows that share a session.
 *
 * A browser opens at most six connections to a server over HTTP/1.1, and each connect takes one. So
 * one window, the leader, holds a lock, has the session, and acts for the others. It sends all
 * events and states to them. Once it is gone, the next window gets the lock, and continues with the
 * session as it last heard of it.
 */
export class Windows {
  constructor(session, lead) {
    // The number is that of the messages' form, so that pages of different releases share nothing.
    const name = `bayeux 2 ${session.connectionType} ${addressOf(session.url)}`;
    this.session = session;
    this.id = `${Date.now()} ${Math.random()}`;
    this.isLeading = false;
    this.leader = ''; // the id of the leader, as far as this window knows
    this.wanted = new Map(); // if this window leads: the patterns of each other window, by its id
    this.looking = new Set(); // if this window leads: the ids of the other windows that are visible
    this.inherited = []; // the session's patterns at a takeover, until the others have sent theirs
    this.asked = new Map(); // the requests to the leader that it has not answered, by their numbers
    this.taken = new Set(); // the numbers of those that the leader has sent to the server
    this.count = 0;
    this.channel = new BroadcastChannel(name);
    this.channel.onmessage = ({ data }) => this.receive(JSON.parse(data));
    this.waiting = new AbortController();
    const left = new Promise((resolve) => (this.release = resolve));
    const begin = () => {
      if (this.waiting.signal.aborted) return undefined;
      this.begin();
      lead();
      return left;
    };
    const onLockFailure = (failure) => failure.name === 'AbortError' || begin();
    navigator.locks.request(name, { signal: this.waiting.signal }, begin).catch(onLockFailure);
    this.join();
  }

  begin() {
    this.isLeading = true;
    this.askAgain();
    this.inherited = [...this.session.subscribed];
    this.session.subscribed.clear();
    setTimeout(() => this.forget(() => (this.inherited = [])), this.session.maxNetworkDelay);
    this.post('lead');
  }

  leave() {
    this.post('leave');
    this.isLeading = false;
    this.asked.forEach((_, number) => this.settle(number, noAnswer()));
    this.channel.close();
    this.waiting.abort();
    this.release();
  }

  post(kind, content) {
    if (this.waiting.signal.aborted) return;
    this.channel.postMessage(JSON.stringify({ ...content, kind, from: this.id }));
  }

  // Sends the others this window's state and session, and `events`, if this window leads.
  shareState(events = []) {
    const { state, error, knownId, clientId, advice, mayPublish, hasBatches, lastBatch, lastEventTime, subscribed } = this.session;
    const session = { clientId, advice, mayPublish, hasBatches, lastBatch, lastEventTime };
    if (this.isLeading) this.post('news', { state, error, knownId, session, subscribed: [...subscribed], events });
  }

  receive(message) {
    const { session } = this;
    const isToThis = message.to === this.id;
    if (!this.isLeading) {
      if (message.kind === 'lead' || message.kind === 'news') this.leader = message.from;
      if (message.kind === 'lead') this.askAgain();
      else if (message.kind === 'news') session.mirror(message);
      else if (message.kind === 'taken' && isToThis) this.taken.add(message.number);
      else if (message.kind === 'refused' && isToThis) session.drop(BayeuxError.from(message.failure));
      else if (message.kind === 'answer' && isToThis) {
        if (message.subscribed) session.subscribed = new Set(message.subscribed);
        this.settle(message.number, message.failure && BayeuxError.from(message.failure));
      }
    } else if (message.kind === 'want') {
      this.wanted.set(message.from, message.patterns);
      this.look(message);
      this.shareState();
      this.answer(message, session.adjust(), () => ({ subscribed: [...session.subscribed] }));
    } else if (message.kind === 'publish' && isToThis) {
      const { from, number, channel, data } = message;
      this.answer(message, session.outbox.publish({ channel, data }, false, () => this.post('taken', { to: from, number })));
    } else if (message.kind === 'retry') {
      session.retry();
    } else if (message.kind === 'look') {
      this.look(message);
    } else if (message.kind === 'leave') {
      this.looking.delete(message.from);
      this.forget(() => this.wanted.delete(message.from));
    }
  }

  // Sends a request to the leader. The promise rejects if the leader does not answer in time.
  ask(kind, content) {
    const number = ++this.count;
    return new Promise((resolve, reject) => {
      const timer = setTimeout(() => {
        this.session.setState('interrupted', noAnswer());
        this.settle(number, noAnswer());
      }, this.session.maxNetworkDelay);
      this.asked.set(number, { kind, content, resolve, reject, timer });
      this.post(kind, { ...content, number, to: this.leader });
    });
  }

  // Repeats the open requests for a new leader. Publishes that the old one had sent may have
  // arrived, so they fail instead. `join` sends the patterns again.
  askAgain() {
    this.asked.forEach(({ kind, content }, number) => {
      const settle = (failure) => this.settle(number, failure);
      if (kind === 'want') settle();
      else if (this.taken.has(number)) settle(noAnswer());
      else if (!this.isLeading) this.post(kind, { ...content, number, to: this.leader });
      else this.session.outbox.publish(content).then(() => settle(), settle);
    });
    this.join();
  }

  // `more()`: further members of an answer that is no failure.
  answer({ from, number }, result, more = () => ({})) {
    const reply = (content) => this.post('answer', { to: from, number, ...content });
    result.then(() => reply(more()), (failure) => reply({ failure }));
  }

  // Records whether another window is visible.
  look({ from, isVisible }) {
    this.looking[isVisible ? 'add' : 'delete'](from);
    this.session.renew();
  }

  settle(number, failure) {
    const { resolve, reject, timer } = this.asked.get(number) || {};
    // The answer is late, and this window has shown `interrupted` since. `join` gets the state.
    if (!this.asked.delete(number)) return this.join();
    this.taken.delete(number);
    clearTimeout(timer);
    return failure ? reject(failure) : resolve();
  }

  // Sends the leader all patterns of this window.
  sendPatterns() {
    return this.ask('want', { patterns: [...this.session.listeners.keys()], isVisible: isShown() });
  }

  join() {
    if (!this.isLeading) this.sendPatterns().catch(() => {});
  }

  /** Returns the patterns of all other windows. */
  patterns() {
    return [...this.inherited, ...[...this.wanted.values()].flat()];
  }

  // Calls `change`, which removes patterns, and unsubscribes from those that no window wants.
  forget(change) {
    change();
    this.session.adjust().catch(() => {});
  }

  /** Returns whether another window continues with the session when this one leaves. */
  hasOthers() {
    return !this.isLeading || this.wanted.size > 0;
  }

  // Informs the windows that want the pattern of `failure`, which the server has rejected.
  refuse(failure) {
    const isOther = (it) => it !== failure.pattern;
    this.inherited = this.inherited.filter(isOther);
    this.wanted.forEach((patterns, id) => {
      if (patterns.every(isOther)) return;
      this.wanted.set(id, patterns.filter(isOther));
      this.post('refused', { to: id, failure });
    });
  }
}
