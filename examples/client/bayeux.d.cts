// The types of the client as a module (bayeux-module.js, bayeux.cjs).

export type State = 'connecting' | 'connected' | 'interrupted' | 'stopped';
export type ConnectionType = 'long-polling' | 'callback-polling';
export type Listener<T = unknown> = (data: T, channel: string) => void;
export type HeaderFields = Record<string, string>;

export interface Message {
  channel: string;
  data: unknown;
}

export interface BayeuxEvent<T = unknown> {
  channel: string;
  data: T;
}

export interface Options {
  connectionType?: ConnectionType;
  /** Header fields for each long-polling request, or a function that returns them for each. */
  headers?: HeaderFields | (() => HeaderFields | Promise<HeaderFields>);
  /** The extensions of each handshake, such as a token, or a function that returns them. */
  ext?: Record<string, unknown> | (() => Record<string, unknown> | Promise<Record<string, unknown>>);
  /** Whether windows of one origin share a session. By default, they do without `headers` and `ext`. */
  share?: boolean;
  /** The session's name, which finds it in a record of the server. */
  name?: string;
  /** Milliseconds for which the server may hold a connect, except while the page is hidden: 30000. */
  timeout?: number;
  /** Milliseconds to wait for a response, in addition to the time that the server holds it: 10000. */
  maxNetworkDelay?: number;
  /** The first and the longest pause after failures, in milliseconds: 250 and 10000. */
  minPause?: number;
  maxPause?: number;
  /** How many publishes wait while the client is started and not connected. By default, they fail. */
  queue?: number;
}

export type ErrorCode =
  | 'timeout'      // no answer in time
  | 'network'      // no response
  | 'http'         // an HTTP status other than 200, in `status`
  | 'forbidden'    // HTTP status 403: publishing is not allowed here
  | 'protocol'     // a response that is not a Bayeux server's
  | 'rejected'     // the server's reply is an error, with the number in `reply`
  | 'disconnected' // there is no session, so nothing was sent
  | 'stopped';     // the client was stopped

export class BayeuxError extends Error {
  readonly code: ErrorCode;
  /** Whether the server may have done what was asked, since no reply arrived. */
  readonly mayHaveArrived: boolean;
  /** The HTTP status. Long-polling only. */
  readonly status?: number;
  /** What the server says of the status, such as `Bayeux is at /cometd`. Long-polling only. */
  readonly reason?: string;
  /** The number of the server's error, such as 402. */
  readonly reply?: number;
  /** The pattern that the server rejected. */
  readonly pattern?: string;
  /** Whether the server advised not to try again. */
  readonly isFinal: boolean;
}
export type Failure = BayeuxError;

export interface StateEvent extends Event {
  readonly state: State;
  /** The reason as a text, or ''. */
  readonly why: string;
  readonly error?: BayeuxError;
}
export interface GapEvent extends Event {
  readonly since: Date;
}
export interface FailureEvent extends Event {
  readonly error: BayeuxError;
}
export interface ClientEvents {
  state: StateEvent;
  gap: GapEvent;
  error: FailureEvent;
}

// Node's types have no names for these.
type Adding = Parameters<EventTarget['addEventListener']>;
type Removing = Parameters<EventTarget['removeEventListener']>;

export class BayeuxClient extends EventTarget {
  static readonly BayeuxError: typeof BayeuxError;
  /** Creates a client that is stopped. Throws a TypeError if an argument is wrong. */
  constructor(url: string | URL, options?: Options | ConnectionType);
  readonly url: string;
  readonly connectionType: ConnectionType;
  readonly state: State;
  readonly clientId: string | null;
  headers: NonNullable<Options['headers']>;
  /** Is called before the listeners of `state`. */
  onstate: (state: State, why: string) => void;
  /**
   * Is called before the listeners of `gap`, if events may be missing: a new session has replaced an
   * earlier one. `since`: when the last request that brought events began, or the subscription.
   * Events that were published shortly before it may be missing too.
   */
  ongap: (since: Date) => void;
  /** Is called when the user leaves the page. Returns the messages to publish then. */
  onleave: () => Message[] | void;
  /** Resolves once the client is connected. Rejects if it is stopped first. */
  start(): Promise<void>;
  /**
   * Publishes what waits and `last`, and ends the session unless other windows share it. Resolves when
   * the last request has ended, to whether the server has confirmed all.
   */
  stop(last?: Message[]): Promise<boolean>;
  /**
   * Calls `listener` for each event of `pattern`, until `signal` is aborted. Resolves once the server has
   * accepted the pattern, before `start` at once. Rejects if the server rejects the pattern.
   */
  subscribe<T = unknown>(pattern: string, listener: Listener<T>, options?: { signal?: AbortSignal }): Promise<void>;
  /** Removes this listener, or all of the pattern. */
  unsubscribe(pattern: string, listener?: Listener<any>): Promise<void>;
  /** The events of `pattern` from now on, until the client stops, or `signal` is aborted. */
  events<T = unknown>(pattern: string, options?: { signal?: AbortSignal }): AsyncIterableIterator<BayeuxEvent<T>>;
  /** Publishes. The promise rejects with a BayeuxError. */
  publish(channel: string, data: unknown): Promise<void>;
  addEventListener<K extends keyof ClientEvents>(type: K, listener: (event: ClientEvents[K]) => void, options?: Adding[2]): void;
  addEventListener(...args: Adding): void;
  removeEventListener<K extends keyof ClientEvents>(type: K, listener: (event: ClientEvents[K]) => void, options?: Removing[2]): void;
  removeEventListener(...args: Removing): void;
}
export default BayeuxClient;
