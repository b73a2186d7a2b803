'use strict';
// Who is online, and who writes. Each page publishes a heartbeat, and says when its user leaves or writes.
// Copy this file: it needs nothing but a BayeuxClient.

// A visible page publishes a heartbeat every 5 seconds. Browsers let a hidden page run only once a minute.
const BEAT_SECONDS = 5;
const HIDDEN_SECONDS = 60;
// A page counts as gone this long after its heartbeat was due, in seconds. A page that is left says so.
const PATIENCE_SECONDS = 8;
// How long a user counts as writing after a key, in seconds.
const WRITING_SECONDS = 4;
// Anybody may publish anything, so the list is bounded.
const MOST_PEOPLE = 500;

/** The people whose pages publish to `channel`, such as `/chat/hall/presence`. */
class Presence {
  /** `changed`: is called when `names()` or `writers()` may have changed. */
  constructor(client, channel, changed) {
    this.client = client;
    this.publishData = client.publish.bind(client, channel);
    this.channel = channel;
    this.changed = changed;
    this.id = Math.random().toString(36).slice(2); // that of this page: two people may have the same name
    this.people = new Map(); // `{ name, due, writesUntil }` by id
    this.name = '';
    this.nextBeat = 0;
    this.lastKey = 0;
    this.isAllowed = true;
  }

  /** Shows the others that `name` is here, as long as the page is open. */
  join(name) {
    this.name = name;
    this.client.subscribe(this.channel, (data) => this.hear(data)).catch(() => {});
    this.client.addEventListener('state', ({ state }) => state === 'connected' && this.beat({ asks: true }));
    document.addEventListener('visibilitychange', () => this.beat());
    setInterval(() => this.tick(), 1000);
  }

  /** Shows the others that the user writes. Call this for each key. */
  write() {
    const now = Date.now();
    if (now - this.lastKey < 1000) return;
    this.lastKey = now;
    this.beat({ writes: true });
  }

  /** Returns the message that says that the user leaves, for `onleave`. */
  farewell() {
    return { channel: this.channel, data: { id: this.id, name: this.name, left: true } };
  }

  /** Returns the names of all who are online, each once, sorted. */
  names() {
    return [...new Set([...this.people.values()].map(({ name }) => name))].sort();
  }

  /** Returns the names of the others who write. */
  writers() {
    const now = Date.now();
    return [...new Set([...this.people].filter(([id, { writesUntil }]) => id !== this.id && writesUntil > now).map(([, { name }]) => name))].sort();
  }

  // `asks`: whether the others shall answer with a heartbeat.
  beat({ asks = false, writes = false } = {}) {
    if (this.client.state !== 'connected' || !this.isAllowed) return;
    const seconds = document.hidden ? HIDDEN_SECONDS : BEAT_SECONDS;
    this.nextBeat = Date.now() + 1000 * seconds;
    this.publishData({ id: this.id, name: this.name, seconds, asks, writes }).catch(({ status }) => {
      // Publishing is not allowed here, so this page only listens.
      if (status === 403) this.isAllowed = false;
    });
  }

  tick() {
    const now = Date.now();
    if (now >= this.nextBeat) this.beat();
    for (const [id, { due }] of this.people) if (now > due) this.people.delete(id);
    this.changed();
  }

  // Others may publish anything, so the form of `data` is checked.
  hear(data) {
    const { id, name, seconds, asks, writes, left } = data ?? {};
    if (typeof id !== 'string' || typeof name !== 'string') return;
    const isNew = !this.people.has(id);
    if (left === true) this.people.delete(id);
    else if (!isNew || this.people.size < MOST_PEOPLE) {
      const now = Date.now();
      const due = now + 1000 * (PATIENCE_SECONDS + (seconds === HIDDEN_SECONDS ? HIDDEN_SECONDS : BEAT_SECONDS));
      this.people.set(id, { name: name.slice(0, 40), due, writesUntil: writes === true ? now + 1000 * WRITING_SECONDS : 0 });
      if (asks === true && id !== this.id) this.beat();
    }
    this.changed();
  }
}
