// The events of a pattern, for `for await`.

/**
 * Returns the events of `pattern` as an async iterator of `{ channel, data }`. It subscribes now, and
 * keeps the events that are not yet asked for. It ends when the client stops, when `signal` is
 * aborted, or when the loop is left, and throws if the server rejects the pattern.
 */
export function eventsOf(session, pattern, signal) {
  const arrived = [];
  const asked = [];
  let end = null; // what `next` returns after the last event, or throws
  const finish = (failure) => {
    if (end !== null) return;
    end = { failure };
    signal?.removeEventListener('abort', abort);
    session.unsubscribe(pattern, (it) => it === entry).catch(() => {});
    asked.splice(0).forEach(({ resolve, reject }) => settle(resolve, reject));
  };
  const settle = (resolve, reject) => {
    const { failure } = end;
    end.failure = undefined;
    if (failure) reject(failure);
    else resolve({ value: undefined, done: true });
  };
  const abort = () => finish();
  const entry = {
    listener: (data, channel) => {
      if (end !== null) return;
      const value = { channel, data };
      if (asked.length > 0) asked.shift().resolve({ value, done: false });
      else arrived.push(value);
    },
    fail: finish,
  };
  session.subscribe(pattern, entry).catch((failure) => failure.pattern && finish(failure));
  if (signal?.aborted) finish();
  else signal?.addEventListener('abort', abort, { once: true });
  return {
    next: () => new Promise((resolve, reject) => {
      if (arrived.length > 0) resolve({ value: arrived.shift(), done: false });
      else if (end !== null) settle(resolve, reject);
      else asked.push({ resolve, reject });
    }),
    return: async (value) => {
      arrived.splice(0);
      finish();
      return { value, done: true };
    },
    [Symbol.asyncIterator]() {
      return this;
    },
  };
}
