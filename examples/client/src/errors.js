// The errors of the client.

export const NO_ANSWER = 'no answer in time';
export const NOT_CONNECTED = 'not connected';
export const OFFLINE = 'the browser is offline';

/**
 * Why a request failed.
 *
 * - `code`: 'timeout', 'network', 'http', 'forbidden', 'protocol', 'rejected', 'disconnected' or 'stopped'.
 * - `mayHaveArrived`: whether the server may have done what was asked, since no reply arrived.
 * - `status`: the HTTP status, if `code` is 'http' or 'forbidden'.
 * - `reason`: what the server says of this status, such as 'Bayeux is at /cometd'.
 * - `reply`: the number of the server's error, such as 402, if `code` is 'rejected'.
 * - `pattern`: the pattern that the server rejected, if it rejected one.
 * - `isFinal`: whether the server advised not to try again.
 */
export class BayeuxError extends Error {
  constructor(code, message, { mayHaveArrived = false, status, reason, reply, pattern, isFinal = false, cause } = {}) {
    super(message, cause === undefined ? undefined : { cause });
    Object.assign(this, { code, mayHaveArrived, status, reason, reply, pattern, isFinal });
  }

  // Returns the error that another window sent as JSON.
  static from({ code, message, ...more }) {
    return new BayeuxError(code, message, more);
  }

  // Returns the error of a reply that is not successful.
  static ofReply({ error = 'the server gave no reason', advice }, pattern) {
    const reply = Number(/^\d{3}(?=:)/.exec(error)) || undefined;
    const text = pattern === undefined ? error : `${pattern}: ${error}`;
    return new BayeuxError('rejected', text, { reply, pattern, isFinal: advice?.reconnect === 'none' });
  }

  // Members that JSON keeps, for other windows.
  toJSON() {
    return { ...this, message: this.message };
  }
}
BayeuxError.prototype.name = 'BayeuxError';

export const noAnswer = () => new BayeuxError('timeout', NO_ANSWER, { mayHaveArrived: true });
export const notConnected = () => new BayeuxError('disconnected', NOT_CONNECTED);
export const offline = () => new BayeuxError('network', OFFLINE);
export const stopped = () => new BayeuxError('stopped', 'stopped');
