// How requests are sent: by long-polling, by callback-polling, and the last one of a page that is left.
import { BayeuxError, noAnswer } from './errors.js';

// Whether this is a web page, and not a worker or node.
export const IS_PAGE = typeof document !== 'undefined';

/** Returns whether the user sees this page. A worker and a program always count as seen. */
export const isShown = () => !IS_PAGE || !document.hidden;

// The most that a request has with the server's package: messages, and bytes of its body (65,536) or of
// its query. One message alone may be larger.
export const MOST_MESSAGES = 32;
// A browser sends at most 64 KiB for a page that is gone.
const MOST_LAST = 65536;

/** Returns a signal that is aborted with either of two. */
function eitherOf(...signals) {
  const either = new AbortController();
  signals.forEach((it) => it.addEventListener('abort', () => either.abort(it.reason), { once: true }));
  return either.signal;
}

/**
 * Sends messages by long-polling: by a POST of JSON. The page must be from the server's origin.
 *
 * `timeout`: milliseconds to wait. `isLast`: whether the browser shall send it even if the page is
 * gone meanwhile. `signal`: ends the request with its reason. Returns the items of the response.
 */
async function askByFetch(url, messages, { timeout, headers, isLast, signal }) {
  const body = JSON.stringify(messages);
  const keepalive = isLast && byteLength(body) < MOST_LAST ? { keepalive: true } : {};
  const limit = AbortSignal.timeout(timeout);
  let response;
  try {
    response = await fetch(url, {
      method: 'POST',
      headers: { 'Content-Type': 'application/json', ...headers },
      body,
      signal: signal ? eitherOf(limit, signal) : limit,
      ...keepalive,
    });
    if (response.ok) return await response.json();
  } catch (cause) {
    if (signal?.aborted) throw signal.reason;
    // While it reads a body, node 18 throws an error without the signal's reason.
    if (limit.aborted) throw noAnswer();
    // In node, the inner cause says more than `fetch failed`, also if there was no connection.
    const { code, message } = cause.cause ?? {};
    const mayHaveArrived = code !== 'ECONNREFUSED' && code !== 'ENOTFOUND';
    throw new BayeuxError(response?.ok ? 'protocol' : 'network', message || code || cause.message, { mayHaveArrived, cause });
  }
  const { status } = response;
  const reason = response.headers.get('bayeux-error') ?? undefined;
  const text = `HTTP status ${status}${reason ? `: ${reason}` : ''}`;
  throw new BayeuxError('http', text, { mayHaveArrived: status >= 500 && status !== 501, status, reason });
}

let callbackCount = 0;

/**
 * Sends messages by callback-polling: the response is a script that calls a function of the page.
 * The script may be from any origin.
 *
 * `timeout`: milliseconds to wait. `signal`: ends the request with its reason. Returns the items of
 * the response.
 */
async function askByScript(url, messages, { timeout, signal }) {
  await pageIsLoaded();
  return new Promise((resolve, reject) => {
    const name = `bayeux_callback_${++callbackCount}`;
    const script = document.createElement('script');
    const finish = (settle, value) => {
      clearTimeout(timer);
      delete window[name];
      script.remove();
      settle(value);
    };
    const giveUp = (failure) => {
      finish(reject, failure);
      // The script may still arrive. It then calls this.
      window[name] = () => delete window[name];
    };
    const timer = setTimeout(() => giveUp(noAnswer()), timeout);
    signal?.addEventListener('abort', () => giveUp(signal.reason), { once: true });
    window[name] = (items) => finish(resolve, items);
    script.onerror = () => finish(reject, new BayeuxError('network', 'the server cannot be reached, or refused the request', { mayHaveArrived: true }));
    const address = new URL(url, location.href);
    const query = `jsonp=${name}&message=${encodeURIComponent(JSON.stringify(messages))}`;
    address.search = address.search ? `${address.search}&${query}` : query;
    script.src = address;
    document.head.append(script);
  });
}

// Waits until the page is loaded. A script that is added earlier would keep the page loading for as
// long as the server holds the response.
function pageIsLoaded() {
  if (document.readyState === 'complete') return Promise.resolve();
  return new Promise((resolve) => window.addEventListener('load', () => setTimeout(resolve), { once: true }));
}

function byteLength(text) {
  return new TextEncoder().encode(text).length;
}

// Each connection type: how it asks, and how much fits into a request that has several messages.
export const TRANSPORTS = {
  'long-polling': { ask: askByFetch, most: 60000, sizeOf: byteLength },
  'callback-polling': { ask: askByScript, most: 6000, sizeOf: (text) => encodeURIComponent(text).length },
};

/** Returns the connection type that works from here: fetch, or in a page scripts for other origins. */
export function transportFor(address) {
  return IS_PAGE && address.origin !== location.origin ? 'callback-polling' : 'long-polling';
}

/**
 * Sends the last messages of a page that is left. The browser sends them even though the page gets no
 * answer.
 */
export function sendLast(url, connectionType, messages, headers) {
  const body = JSON.stringify(messages);
  const isPolling = connectionType === 'long-polling';
  // A beacon cannot have headers, and node has none. Another origin allows only plain text.
  const isBeacon = (!isPolling || Object.keys(headers).length === 0) && 'sendBeacon' in (globalThis.navigator ?? {});
  const all = isPolling ? { 'Content-Type': 'application/json', ...headers } : {};
  if (isBeacon) navigator.sendBeacon(url, isPolling ? new Blob([body], { type: 'application/json' }) : body);
  else fetch(url, { method: 'POST', keepalive: true, headers: all, body }).catch(() => {});
}
