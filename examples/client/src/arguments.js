// Checks of what a caller passes. Each throws a TypeError that says what was expected.
import { IS_PAGE, TRANSPORTS } from './transport.js';

/** Returns an error about the argument `name`: what was `expected`, and what was `given`. */
export function argumentError(name, expected, given) {
  const isObject = typeof given === 'object' && given !== null;
  const object = Array.isArray(given) ? 'an array' : 'an object';
  const texts = { string: JSON.stringify, function: () => 'a function', bigint: (it) => `${it}n` };
  const text = isObject ? object : (texts[typeof given] ?? String)(given);
  return new TypeError(`${name}: expected ${expected}, got ${text}`);
}

/** Returns `url` as an absolute address. */
export function addressOf(url) {
  const isGiven = url instanceof URL || (typeof url === 'string' && url !== '');
  try {
    const address = new URL(url, globalThis.location?.href);
    if (isGiven && /^https?:$/.test(address.protocol)) return address;
  } catch {
    // It is not an address. The error below says so.
  }
  const kind = globalThis.location ? 'an http: or https: address' : 'an absolute http: or https: address';
  throw argumentError('url', kind, url);
}

const isRecord = (it) => typeof it === 'object' && it !== null && !(Symbol.iterator in it);
const isFunction = (it) => typeof it === 'function';
const isMilliseconds = (it) => Number.isFinite(it) && it > 0;

const connectionTypes = () => Object.keys(TRANSPORTS).filter((type) => IS_PAGE || type !== 'callback-polling');
export const checkHeaders = (name, it) => check(name, 'an object with a string for each header field, or a function', it, () =>
  isFunction(it) || (isRecord(it) && Object.values(it).every((value) => typeof value === 'string')));
const milliseconds = (name, it) => check(name, 'milliseconds above 0', it, isMilliseconds);

// What each option must be.
const OPTIONS = {
  connectionType: (name, it) => check(name, connectionTypes().map((type) => `"${type}"`).join(' or '), it, () => connectionTypes().includes(it)),
  headers: checkHeaders,
  ext: (name, it) => check(name, 'an object or a function', it, () => isFunction(it) || isRecord(it)),
  share: (name, it) => check(name, 'true or false', it, () => typeof it === 'boolean'),
  name: (name, it) => check(name, 'a string', it, () => typeof it === 'string'),
  timeout: milliseconds,
  maxNetworkDelay: milliseconds,
  minPause: milliseconds,
  maxPause: milliseconds,
  queue: (name, it) => check(name, 'a whole number', it, () => Number.isInteger(it) && it >= 0),
};

function check(name, expected, value, isRight) {
  if (!isRight(value)) throw argumentError(name, expected, value);
}

/** Checks the options of a client. */
export function checkOptions(options) {
  if (typeof options !== 'object' || options === null) throw argumentError('options', 'an object or a connection type', options);
  const names = Object.keys(OPTIONS);
  const unknown = Object.keys(options).find((it) => !names.includes(it));
  if (unknown !== undefined) throw new TypeError(`options.${unknown}: unknown, expected one of ${names.join(', ')}`);
  for (const name of names) if (options[name] !== undefined) OPTIONS[name](`options.${name}`, options[name]);
}

/** Checks that `channel` is a string that begins with a slash. */
export function checkChannel(name, channel) {
  check(name, 'a string that begins with "/"', channel, () => typeof channel === 'string' && channel.startsWith('/'));
}

export function checkListener(listener) {
  check('listener', 'a function', listener, isFunction);
}

export function checkSignal(signal) {
  check('options.signal', 'an AbortSignal', signal, () => signal === undefined || isFunction(signal?.addEventListener));
}

// Returns whether JSON would have null in place of the member `value` of `holder`, such as of NaN.
function becomesNull(holder, name, value) {
  if (typeof value === 'number') return !Number.isFinite(value);
  if (value === null) return Object.prototype.toString.call(holder[name]) === '[object Date]';
  return Array.isArray(holder) && ['undefined', 'function', 'symbol'].includes(typeof value);
}

/** Returns the message that publishes `data` as it is now, even if it changes later. */
export function messageOf(channel, data) {
  checkChannel('channel', channel);
  const expected = 'a value that JSON can express';
  const lost = []; // what JSON would replace by null
  let text;
  try {
    text = JSON.stringify(data, function check(name, value) {
      if (becomesNull(this, name, value)) lost.push([name === '' ? 'data' : `"${name}" in data`, value === null ? String(this[name]) : value]);
      return value;
    });
  } catch {
    // It has a cycle or a BigInt. The error below says so.
  }
  for (const [name, value] of lost) throw argumentError(name, expected, value);
  if (text === undefined) throw argumentError('data', expected, data);
  return { channel, data: JSON.parse(text) };
}

/** Returns the messages that publish `last`. */
export function messagesOf(last) {
  check('last', 'an array of messages', last, Array.isArray);
  return last.map(({ channel, data }) => messageOf(channel, data));
}
