'use strict';
// What the pages share: the server's address, and the texts about the connection.

const STATE_TEXTS = {
  connecting: 'connecting …',
  interrupted: 'connection lost, trying again …',
  unreached: 'no server, trying again …',
  unanswered: 'no answer, trying again …',
  rejected: 'rejected, trying again …',
  stopped: 'not connected',
};

// What an HTTP status other than 200 means. It is from bayeuxd or from a reverse proxy.
const STATUS_TEXTS = {
  401: 'requires a login. Log in, then reload this page.',
  403: 'rejects this page. Log in, or open it from the server’s own site.',
  429: 'allows no more requests at the moment. This page tries again.',
  502: 'is a proxy, and the server behind it is not running. Start bayeuxd, or wait.',
  503: 'is overloaded. This page tries again.',
  504: 'is a proxy, and got no answer from the server behind it. Restart bayeuxd, or wait.',
};
const OTHER_SERVER_TEXT = 'add another server to this page’s address, such as ?server=http://HOST:PORT/cometd.';
const WRONG_PATH_TEXT = `is not a Bayeux address. Check the path, such as /cometd, or ${OTHER_SERVER_TEXT}`;
// The statuses of a proxy that cannot reach the server, or gets no answer from it.
const NOT_RUNNING = 502;
const TOO_LATE = 504;

const element = (id) => document.getElementById(id);

// The parameters in the page's address, such as `?server=ADDRESS`.
const PARAMETERS = new URLSearchParams(location.search);

// The server's address by default: from disk one on this machine, from a web server its path.
const DEFAULT_ADDRESS = location.protocol === 'file:' ? 'http://127.0.0.1:8087/cometd' : '/cometd';

// Returns the server's address: the default, or what `?server=ADDRESS` names.
function serverAddress() {
  return PARAMETERS.get('server') || DEFAULT_ADDRESS;
}

/** Returns whether `address` is an HTTP address, absolute or relative to this page's server. */
function isAddress(address) {
  const own = location.protocol === 'file:' ? undefined : location.href;
  return URL.canParse(address, own) && /^https?:$/.test(new URL(address, own).protocol);
}

// Returns whether a failure may last. It is then shown even if the page was connected before.
const isLasting = ({ code, status }) => code === 'timeout' || [401, 403, 429].includes(status);

/** Returns the text for a state other than `connected`. `error`: the reason for `interrupted`. */
function stateText(state, error, wasConnected) {
  if (state !== 'interrupted') return STATE_TEXTS[state];
  const { code, status } = error;
  if (code === 'timeout') return STATE_TEXTS.unanswered;
  if (isLasting(error)) return STATE_TEXTS.rejected;
  if (wasConnected) return STATE_TEXTS[state];
  if (status === TOO_LATE) return STATE_TEXTS.unanswered;
  const isRejected = code === 'rejected' || (status && status !== NOT_RUNNING);
  return isRejected ? STATE_TEXTS.rejected : STATE_TEXTS.unreached;
}

/** Returns a text about what is wrong if the page cannot connect to `address`, and what to do. */
function connectionError(address, { code, status, message } = {}) {
  if (!isAddress(address)) {
    return `“${address}” is not a server address. Add one to this page’s address, such as ?server=http://127.0.0.1:8087/cometd.`;
  }
  if (status) return `${address} answers with status ${status}: it ${STATUS_TEXTS[status] || WRONG_PATH_TEXT}`;
  if (code === 'rejected') return `The server at ${address} rejects this page: ${message}. This page tries again.`;
  if (code === 'timeout') {
    return `No answer from ${address} for ten seconds. The network or the server is slow, or too many windows are open: a browser has six connections to a server, and each window can take one.`;
  }
  return `No Bayeux server answers this page at ${address}. Start bayeuxd there, or ${OTHER_SERVER_TEXT}`;
}

// Why something was not sent, by the HTTP status, the number of the server's error, or the code.
const NOT_SENT_TEXTS = {
  401: 'you are not logged in. Log in, then reload this page.',
  403: 'pages may only read here, or the server rejects this one. Sending it again does not help.',
  413: 'it is too long. Send less at once.',
  429: 'the server allows no more requests at the moment. Send it again later.',
  402: 'the server has ended the session, and a new one begins. Send it again.',
  disconnected: 'this page is not connected. Send it again once it is.',
  stopped: 'this page was left.',
};

/** Returns a sentence about the failure of a publish. */
function publishErrorText({ code, message, mayHaveArrived, status, reply }) {
  if (mayHaveArrived && status !== 403) return 'No answer: it may have been sent.';
  const text = NOT_SENT_TEXTS[status] ?? NOT_SENT_TEXTS[reply] ?? NOT_SENT_TEXTS[code];
  if (text) return `Not sent: ${text}`;
  return `Not sent: the server does not accept it (${message}). Sending it again does not help.`;
}

function formatNumber(value) {
  return value.toLocaleString('en', { maximumFractionDigits: Math.abs(value) < 10 ? 2 : 1 });
}

/** Returns the text for an age, such as `12 s ago`. */
function formatAge(milliseconds) {
  const seconds = Math.round(milliseconds / 1000);
  return seconds < 120 ? `${seconds} s ago` : `${Math.round(seconds / 60)} min ago`;
}

function showError(text) {
  element('error').textContent = text;
  element('error').hidden = text === '';
}

/**
 * Creates a client for `serverAddress()`. The page shows its state. If the address is wrong, the
 * client does not start.
 */
function newClient() {
  const address = serverAddress();
  const client = new BayeuxClient(isAddress(address) ? address : DEFAULT_ADDRESS);
  let wasConnected = false;
  client.addEventListener('state', ({ state, why, error }) => {
    const isConnected = state === 'connected';
    wasConnected ||= isConnected;
    element('state').className = state;
    element('state').textContent = isConnected ? 'connected' : stateText(state, error, wasConnected);
    element('state').title = isConnected ? client.connectionType : why;
    if (isConnected) showError('');
    else if (state === 'interrupted' && (!wasConnected || isLasting(error))) showError(connectionError(address, error));
  });
  if (!isAddress(address)) {
    client.start = () => {};
    showError(connectionError(address));
  }
  return client;
}
