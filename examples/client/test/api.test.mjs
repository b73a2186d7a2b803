// The client as programs use it, with a server that follows a script.
import assert from 'node:assert/strict';
import { afterEach, beforeEach, describe, it } from 'node:test';
import { rejection, Server, until } from '../../../tests/pages/client_place.mjs';
import { BayeuxClient, BayeuxError } from '../src/index.js';

let server;
let client;
beforeEach(async () => {
  server = await new Server().listen();
});
afterEach(async () => {
  await client?.stop();
  client = null;
  server.close();
});

const open = (options = {}) => (client = new BayeuxClient(server.address, { minPause: 1, maxPause: 10, ...options }));
const start = (options) => open(options).start();
const failureOf = (promise) => promise.then(() => assert.fail('it succeeded'), (failure) => failure);
const outcomesOf = (promises) => Promise.all(promises.map((it) => it.then(() => 'done', ({ code, reply }) => reply ?? code)));
const dataSent = (channel) => server.requests.map(([, , , messages]) => messages.filter((it) => it.channel === channel).map(({ data }) => data)).filter((it) => it.length > 0);

describe('events', () => {
  it('tells each listener of states, gaps and errors, after the function of the client', async () => {
    open();
    const log = [];
    client.onstate = (state, why) => log.push(`on ${state} ${why}`.trim());
    client.ongap = (since) => log.push(`on gap ${since instanceof Date}`);
    for (const name of ['one', 'two']) client.addEventListener('state', ({ state, why, error }) => log.push([name, state, why, error?.reply]));
    client.addEventListener('gap', ({ since }) => log.push(['gap', since instanceof Date]));
    client.addEventListener('error', ({ error }) => log.push(['error', error.code, error.message]));
    await client.start();
    await server.renewed(() => server.lose());
    const all = (state, why = '', reply = undefined) => [`on ${state} ${why}`.trim(), ['one', state, why, reply], ['two', state, why, reply]];
    const lost = '402::Unknown client';
    assert.deepEqual(log, [...all('connecting'), ...all('connected'), ...all('interrupted', lost, 402), ['error', 'rejected', lost], 'on gap true', ['gap', true], ...all('connected')]);
  });

  it('tells the events in order, though a listener stops the client', async () => {
    open();
    const log = [];
    client.onstate = (state) => state === 'connecting' && client.stop();
    client.addEventListener('state', ({ state }) => log.push(state));
    await failureOf(client.start());
    assert.deepEqual(log, ['connecting', 'stopped']);
  });
});

describe('listeners that throw', () => {
  it('do not end a program, nor does a promise of theirs', async (context) => {
    open();
    const printed = context.mock.method(console, 'error', () => {});
    const fail = (text) => () => {
      throw new Error(text);
    };
    const removed = fail('removed');
    Object.assign(client, { onstate: fail('onstate'), ongap: fail('ongap') });
    for (const it of [fail('state'), { handleEvent: fail('object') }, removed]) client.addEventListener('state', it);
    client.removeEventListener('state', removed);
    for (const it of [fail('listener'), async () => fail('promise')()]) client.subscribe('/a', it);
    await client.start();
    await server.renewed(() => server.lose());
    const texts = () => printed.mock.calls.map(({ arguments: [{ message }] }) => message);
    server.emit(['/a', 1]);
    await until('all are printed', () => texts().at(-1) === 'promise');
    const each = ['onstate', 'state', 'object'];
    assert.deepEqual(texts(), [...each, ...each, ...each, 'ongap', ...each, 'listener', 'promise']);
  });
});

describe('errors', () => {
  it('have a code and a text, and say whether the publish may have arrived', async () => {
    open();
    const failed = async () => {
      const failure = await failureOf(client.publish('/a', 1));
      assert.ok(failure instanceof BayeuxError && failure instanceof Error && failure.name === 'BayeuxError');
      return ['code', 'message', 'mayHaveArrived', 'status', 'reply', 'reason'].map((it) => failure[it]);
    };
    const rest = Array(3).fill(undefined);
    assert.deepEqual(await failed(), ['disconnected', 'not connected', false, ...rest]);
    await client.start();
    const end = (status, why) => (_, response) => response.writeHead(status, why && { 'bayeux-error': why }).end();
    const send = (text) => (_, response) => response.end(text);
    const http = (status, mayHaveArrived) => [end(status), 'http', `HTTP status ${status}`, mayHaveArrived, status];
    const forbidden = ['forbidden', 'publishing is not allowed here: HTTP status 403', false, 403];
    const [place, texts] = ['Bayeux is at /cometd', 'the response is no list of messages'];
    // docs/PROTOCOL.md, "Where something fails".
    const rows = [
      ...[400, 401, 404, 405, 413, 414, 415, 429, 431, 501].map((it) => http(it, false)),
      ...[502, 503, 504].map((it) => http(it, true)),
      [end(403), ...forbidden], [end(403, 'read-only'), ...forbidden, undefined, 'read-only'], http(404, false),
      [end(404, place), 'http', `HTTP status 404: ${place}`, false, 404, undefined, place],
      [rejection('/a', '400::Invalid channel'), 'rejected', '400::Invalid channel', false, undefined, 400],
      [send('{}'), 'protocol', texts, true], [send('[]'), 'protocol', 'the response lacks a reply', true],
      [send('<html>'), 'protocol', /JSON/, true],
      [(_, response) => response.write('[{', () => response.destroy()), 'protocol', /./, true],
      [(_, response) => response.destroy(), 'network', /closed/, true],
    ];
    for (const [answer, ...expected] of rows) {
      server.next('/a', answer);
      const found = await failed();
      // Some texts are node's.
      if (expected[1] instanceof RegExp) assert.match(found[1], expected.splice(1, 1, found[1])[0]);
      assert.deepEqual(found, [...expected, ...rest].slice(0, 6));
    }
    assert.deepEqual([client.state, client.clientId], ['connected', 'session 1']);
    server.next('/meta/subscribe', rejection('/meta/subscribe', '400::Invalid pattern'));
    const { code, pattern, reply } = await failureOf(client.subscribe('/a/**/b', () => {}));
    assert.deepEqual([code, pattern, reply], ['rejected', '/a/**/b', 400]);
    // Without a connection, it has not arrived for sure.
    server.close();
    await until('it is interrupted', () => client.state === 'interrupted');
    const [reason, text, mayHaveArrived] = await failed();
    assert.deepEqual([reason, mayHaveArrived], ['network', false], text);
  });
});

describe('publishes that wait', () => {
  it('are sent together, in order, at most 32, as they were at the call, and each has its own outcome', async () => {
    await start();
    const later = server.later('/a');
    const outcomes = [client.publish('/a', 'first')];
    const go = await later;
    const data = { number: 0 };
    const numbers = Array.from({ length: 40 }, (_, number) => number);
    for (data.number of numbers) outcomes.push(client.publish('/a', data));
    server.next('/a', rejection('/a', '400::Missing data'));
    go();
    assert.deepEqual(await outcomesOf(outcomes), ['done', 400, ...Array(39).fill('done')]);
    assert.deepEqual(dataSent('/a').map((it) => it.map((sent) => sent.number ?? sent)), [['first'], numbers.slice(0, 32), numbers.slice(32)]);
  });

  it('fit into a request of 64 KiB, unless one alone does not', async () => {
    await start();
    const texts = Array.from({ length: 20 }, (_, number) => `${number} ${'ü'.repeat(5000)}`);
    await Promise.all(texts.map((text) => client.publish('/a', text)));
    assert.deepEqual(dataSent('/a').flat(), texts);
    assert.ok(dataSent('/a').every((it) => it.length > 1 && Buffer.byteLength(JSON.stringify(it)) < 65536));
  });

  it('are sent one by one if the server refuses the request because of one of them', async () => {
    await start();
    // The first answer is that to the request as a whole, the second one that to its second message alone.
    server.refuse('/a', 403);
    server.refuse('/forbidden', 403);
    const channels = ['/a', '/forbidden', '/a'];
    assert.deepEqual(await outcomesOf(channels.map((channel) => client.publish(channel, 1))), ['done', 'forbidden', 'done']);
    assert.deepEqual(server.requests.map(([, , , messages]) => messages.map(({ channel }) => channel)).filter(([it]) => !it.startsWith('/meta/')), [channels, ['/a'], ['/forbidden'], ['/a']]);
  });
});

describe('the queue', () => {
  it('keeps publishes until there is a connection, in order, and no more than it may: by default none', async () => {
    start().catch(() => {});
    assert.equal((await failureOf(client.publish('/a', 1))).code, 'disconnected');
    await client.stop();
    open({ queue: 3 });
    assert.equal((await failureOf(client.publish('/a', 0))).code, 'disconnected', 'before the start');
    server.refuse('/meta/handshake', 503);
    client.start();
    assert.deepEqual(await outcomesOf([1, 2, 3, 4].map((data) => client.publish('/a', data))), ['done', 'done', 'done', 'disconnected']);
    assert.deepEqual(dataSent('/a'), [[1, 2, 3]]);
  });

  it('does not send again what may have arrived, and fails when the client stops', async () => {
    await start({ queue: 10 });
    server.next('/a', (_, response) => response.destroy());
    assert.equal((await failureOf(client.publish('/a', 1))).mayHaveArrived, true);
    server.close();
    await until('it is interrupted', () => client.state === 'interrupted');
    const waiting = client.publish('/a', 2);
    client.stop();
    const { code } = await failureOf(waiting);
    assert.ok(['stopped', 'network'].includes(code), code);
  });
});

describe('stop', () => {
  it('sends the last messages after those that wait and the request that is open, and resolves once they have arrived', async () => {
    await start();
    const later = server.later('/a');
    const outcomes = [client.publish('/a', 'first')];
    const go = await later;
    const numbers = Array.from({ length: 600 }, (_, number) => number);
    outcomes.push(...numbers.map((number) => client.publish('/a', number)));
    const isConfirmed = client.stop([{ channel: '/a', data: 'last' }]);
    // A request that does not wait would come before these.
    for (const _ of [1, 2, 3]) await fetch(server.address, { method: 'POST', body: '[{"channel":"/other"}]' });
    assert.deepEqual([client.state, client.clientId, dataSent('/a')], ['stopped', null, [['first']]]);
    go();
    assert.deepEqual([await isConfirmed, await outcomesOf(outcomes)], [true, Array(601).fill('done')]);
    assert.deepEqual(dataSent('/a').flat(), ['first', ...numbers, 'last']);
    const { channel, clientId } = server.requests.at(-1)[3].at(-1);
    assert.deepEqual([channel, clientId, await client.stop()], ['/meta/disconnect', 'session 1', true]);
  });

  it('resolves to false if the server does not confirm them', async () => {
    for (const answer of [(_, response) => response.destroy(), rejection('/a', '400::Invalid channel')]) {
      await start();
      server.next('/a', answer);
      assert.equal(await client.stop([{ channel: '/a', data: 1 }]), false);
    }
    open();
    assert.equal(await client.stop([{ channel: '/a', data: 1 }]), false, 'without a session');
  });

  it('does not publish where that was forbidden, also in a new session, until a publish succeeds', async () => {
    for (const isAllowed of [false, true]) {
      await start();
      server.refuse('/a', 403);
      assert.equal((await failureOf(client.publish('/a', 0))).code, 'forbidden');
      if (isAllowed) await client.publish('/a', 0);
      await server.renewed(() => server.lose());
      assert.equal(await client.stop([{ channel: '/a', data: 'last' }]), isAllowed);
      assert.deepEqual(server.requests.at(-1)[3].map(({ channel }) => channel), [...(isAllowed ? ['/a'] : []), '/meta/disconnect']);
      await client.start();
      assert.equal(await client.stop(), true, 'nothing but the end');
    }
  });
});

describe('subscriptions', () => {
  it('end when their signal is aborted', async () => {
    open();
    const log = [];
    const listener = (data) => log.push(data);
    const [one, two] = [new AbortController(), new AbortController()];
    client.subscribe('/a', listener, { signal: one.signal });
    client.subscribe('/a', listener, { signal: two.signal });
    client.subscribe('/gone', listener, { signal: AbortSignal.abort() });
    await client.start();
    for (const [number, controller] of [[1, one], [2, two]]) {
      await server.give(['/a', number]);
      await until('the event comes', () => log.at(-1) === number);
      controller.abort();
    }
    await until('it unsubscribes', () => server.messages('/meta/unsubscribe').length === 1);
    assert.deepEqual([log, server.patterns()], [[1, 1, 2], ['/a']]);
  });

  it('are async iterators too, which end with the loop', async () => {
    open();
    const events = client.events('/a/*');
    await client.start();
    await server.give(['/a/x', 1], ['/a/y', 2], ['/a/x', 3]);
    const found = [];
    for await (const event of events) if (found.push(event) === 2) break;
    assert.deepEqual(found, [{ channel: '/a/x', data: 1 }, { channel: '/a/y', data: 2 }]);
    await until('it unsubscribes', () => server.messages('/meta/unsubscribe').length === 1);
    assert.deepEqual(await events.next(), { value: undefined, done: true });
  });

  it('end when the client stops or the signal is aborted, and throw if the pattern is rejected', async () => {
    await start();
    const controller = new AbortController();
    const rest = async (events) => {
      const found = [];
      for await (const { data } of events) found.push(data);
      return found;
    };
    const [one, two] = [rest(client.events('/a', { signal: controller.signal })), rest(client.events('/a'))];
    await until('they are subscribed', () => server.patterns().length > 0);
    await server.renewed(() => server.emit(['/a', 1]));
    controller.abort();
    assert.deepEqual(await one, [1]);
    server.next('/meta/subscribe', rejection('/meta/subscribe', '400::Invalid pattern'));
    assert.equal((await failureOf(rest(client.events('/a/**/b')))).pattern, '/a/**/b');
    client.stop();
    assert.deepEqual(await two, [1]);
  });
});

describe('options', () => {
  it('headers and ext may be functions, which are called for each request and each handshake', async () => {
    let count = 0;
    const ext = [() => Promise.reject(new Error('no token yet')), () => ({ token: 'stale' }), () => ({ token: 'fresh' })];
    open({ headers: async () => ({ 'X-Token': `${++count}` }), ext: () => ext.shift()() });
    const errors = [];
    client.addEventListener('error', ({ error }) => errors.push([error instanceof BayeuxError, error.message, error.mayHaveArrived]));
    server.refuse('/meta/handshake', 401);
    await client.start();
    await client.publish('/a', 1);
    // A handshake whose extensions fail is not sent, and tried again.
    assert.deepEqual(errors, [[true, 'no token yet', false], [true, 'HTTP status 401', false]]);
    assert.deepEqual(server.messages('/meta/handshake').map((it) => it.ext), [{ token: 'stale', ack: true }, { token: 'fresh', ack: true }]);
    assert.deepEqual(server.headers.map((it) => it['x-token']), server.headers.map((_, at) => `${at + 1}`));
    client.headers = () => {
      throw new Error('no token');
    };
    const { message, mayHaveArrived } = await failureOf(client.publish('/a', 1));
    assert.deepEqual([message, mayHaveArrived], ['no token', false]);
    // An object may be replaced, and may change.
    const before = server.headers.length;
    client.headers = { 'X-Token': 'second', 'X-Other': 'ok' };
    await client.publish('/a', 1);
    client.headers['X-Token'] = 'third';
    await client.stop();
    const found = server.headers.slice(before).map((it) => [it['x-token'], it['x-other'], it['content-type']]);
    assert.deepEqual(found.filter(([it]) => /d$/.test(it)), [['second', 'ok', 'application/json'], ['third', 'ok', 'application/json']]);
  });
});
