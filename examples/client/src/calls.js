// Calls of the functions that a page or a program gives to the client.

/** Shows an error as uncaught. In node, which would end, it is only printed. */
function show(failure) {
  if (typeof globalThis.reportError === 'function') globalThis.reportError(failure);
  else console.error(failure);
}

/** Calls `call`. An error that it throws is shown, and stops nothing else. So is that of its promise. */
export function callSafely(call) {
  try {
    const result = call();
    if (typeof result?.then === 'function') result.then(undefined, show);
  } catch (failure) {
    show(failure);
  }
}

const safely = new WeakMap();

/** Returns what calls `listener` safely, the same for the same listener of an EventTarget. */
export function safeListener(listener) {
  if (typeof listener !== 'function' && typeof listener?.handleEvent !== 'function') return listener;
  const call = (event) => callSafely(() => (typeof listener === 'function' ? listener(event) : listener.handleEvent(event)));
  if (!safely.has(listener)) safely.set(listener, call);
  return safely.get(listener);
}
