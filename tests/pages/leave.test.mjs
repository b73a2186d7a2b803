// Clients that stop, and pages that the user leaves.
import assert from 'node:assert/strict';
import { connected, FIRST_PAUSE, outcomeOf, Place, scenario, until } from './client_place.mjs';

scenario('stop in a handshake, in a pause, and before a response', async (server) => {
  const place = new Place();
  const client = place.client(server.address, {}, '/a');
  const later = server.later('/meta/handshake');
  const started = outcomeOf(client.start());
  const go = await later;
  client.stop();
  assert.deepEqual(await started, ['stopped', false, undefined]);
  go();
  await new Promise((next) => setTimeout(next, 20));
  assert.deepEqual([client.clientId, client.state, server.requests.length], [null, 'stopped', 1]);

  place.endless = 1;
  server.refuse('/meta/handshake', 503);
  client.start();
  await until('it pauses', () => place.pauses.length === 1);
  client.stop();
  assert.deepEqual([place.open.size, server.requests.length], [0, 2], 'timers that keep a program running');

  await client.start();
  const held = await server.holds();
  client.log.splice(0);
  client.stop();
  held([{ channel: '/a', data: 'late' }, { channel: '/meta/connect', successful: true, ext: { ack: 1 } }]);
  await until('the session is ended', () => server.messages('/meta/disconnect').length === 1);
  await new Promise((next) => setTimeout(next, 20));
  assert.deepEqual([client.log, client.state], [['stopped'], 'stopped']);
});

scenario('a page that stops the client in one of its functions', async (server) => {
  // What the page hears when it stops, what happens before, and whether there is a session to end.
  const [none, event, loss] = [() => {}, () => server.give(['/a', 1]), async () => {
    await event();
    await until('it is acknowledged', () => server.held && server.messages('/meta/connect').at(-1).ext.ack === 1);
    await server.lose();
  }];
  for (const [at, act, hasSession] of [
    ['connecting', none, false], ['connected', none, true], ['/a', event, true], ['interrupted 402::Unknown client', loss, false], ['gap', loss, true],
  ]) {
    const place = new Place();
    const client = place.client(server.address, {}, '/a');
    const { push } = client.log;
    client.log.push = (it) => {
      push.call(client.log, it);
      if (it === at || it[0] === at) client.stop();
    };
    if (at.startsWith('interrupted')) place.endless = 1;
    const before = server.messages('/meta/disconnect').length;
    client.start();
    await act();
    await until(`it is stopped: ${at}`, () => client.log.at(-1) === 'stopped');
    if (hasSession) await until('the session is ended', () => server.messages('/meta/disconnect').length === before + 1);
    const count = server.requests.length;
    await new Promise((next) => setTimeout(next, 20));
    assert.deepEqual([client.log.at(-1), client.state, client.clientId, place.open.size, server.requests.length], ['stopped', 'stopped', null, 0, count], at);
    assert.ok(server.messages('/meta/connect').every(({ clientId }) => clientId), 'a connect without a session');
    server.held = null;
  }
});

scenario('a page that is left, and one to which the user returns', async (server) => {
  const place = new Place(`${server.origin}/page.html`);
  const client = place.client('/cometd', { share: false }, '/a');
  const comeBack = async () => {
    place.dispatch('pageshow', { persisted: true });
    await until('it is connected again', () => client.state === 'connected');
  };
  client.onleave = () => [{ channel: '/a', data: 'left' }];
  await client.start();
  place.dispatch('pageshow', { persisted: false });
  assert.equal(client.state, 'connected');
  place.dispatch('pagehide');
  assert.deepEqual([client.state, client.clientId, place.beacons.length], ['stopped', null, 1]);
  const [[url, blob]] = place.beacons;
  const id = { clientId: 'session 1' };
  assert.deepEqual([url, blob.type], ['/cometd', 'application/json']);
  assert.deepEqual(JSON.parse(await blob.text()), [{ channel: '/a', data: 'left', ...id }, { channel: '/meta/disconnect', ...id }]);
  await comeBack();
  client.onleave = () => {
    throw new Error('onleave throws');
  };
  place.dispatch('pagehide');
  assert.deepEqual([place.errors, client.state, client.clientId], [['onleave throws'], 'stopped', null]);
  await comeBack();
  assert.equal(server.sessions, 3);
});

scenario('how the last request is sent', async (server) => {
  const [json, form] = ['long-polling', 'callback-polling'];
  const headers = { 'X-Token': 'abc' };
  const page = `${server.origin}/page.html`;
  // Where the client is, its connection type and header fields, and the content type and the header field of the last request. A
  // beacon of another origin is plain text. The browser sends each of these requests even though the page is gone.
  for (const [where, extra, type, own, contentType, token] of [
    [page, {}, json, {}, 'beacon application/json', undefined],
    [page, {}, json, headers, 'application/json', 'abc'],
    [page, {}, form, headers, 'beacon', undefined],
    [page, { navigator: {} }, json, {}, 'application/json', undefined],
    [page, { navigator: {} }, form, headers, 'text/plain;charset=UTF-8', undefined],
    [null, {}, json, headers, 'application/json', 'abc'],
  ]) {
    const place = new Place(where, extra);
    const client = place.client(server.address, { connectionType: type, share: false, headers: own }, '/a');
    await client.start();
    const before = server.messages('/meta/disconnect').length;
    if (where) place.dispatch('pagehide');
    else client.stop();
    const what = [where, Object.keys(extra), type, Object.keys(own)].join(' ');
    if (contentType.startsWith('beacon')) {
      const [[url, body], ...others] = place.beacons;
      const text = typeof body === 'string' ? body : await body.text();
      assert.deepEqual([url, `beacon ${body.type ?? ''}`.trim(), others, JSON.parse(text).map(({ channel }) => channel)], [server.address, contentType, [], ['/meta/disconnect']], what);
      continue;
    }
    await until(`the session is ended: ${what}`, () => server.messages('/meta/disconnect').length === before + 1);
    const found = server.headers.at(-1);
    assert.deepEqual([place.beacons, found['content-type'], found['x-token'], place.fetches.at(-1).keepalive], [[], contentType, token, true], what);
  }
  // A server that is gone causes no error.
  const [client, place] = await connected(server);
  place.run('globalThis').fetch = () => Promise.reject(new Error('the server is gone'));
  client.stop();
  await new Promise((next) => setImmediate(next));
});

scenario('a client that is stopped, before its first start and after its last stop', async (server) => {
  const place = new Place(`${server.origin}/page.html`);
  const client = place.client('/cometd', { share: false });
  const stopAgain = (...log) => {
    client.onleave = () => client.log.push('left');
    client.stop([{ channel: '/a', data: 'not sent' }]);
    for (const kind of ['pagehide', 'online']) place.dispatch(kind);
    place.dispatch('pageshow', { persisted: true });
    place.look(true);
    assert.deepEqual([client.state, client.clientId, client.log.splice(0), place.beacons.length, place.open.size], ['stopped', null, log, 0, 0]);
  };
  stopAgain();
  assert.equal(server.requests.length, 0);
  const first = client.start();
  assert.equal(client.start(), first);
  await first;
  client.stop();
  stopAgain('connecting', 'connected', 'stopped');
  assert.equal(server.sessions, 1);
  // The user leaves while the page opens a session, and returns: the promise of the start is kept.
  client.onleave = () => undefined;
  const later = server.later('/meta/handshake');
  const started = client.start();
  const go = await later;
  place.dispatch('pagehide');
  place.dispatch('pageshow', { persisted: true });
  await started;
  const { clientId } = client;
  go();
  await server.holds();
  assert.deepEqual([client.log, client.clientId, place.beacons.length], [['connecting', 'stopped', 'connecting', 'gap', 'connected'], clientId, 0]);
});

scenario('a connect of a visible page is held no longer than the option `timeout`, and not while the browser is offline', async (server) => {
  const place = new Place(`${server.origin}/page.html`);
  place.delay = 20000;
  const client = place.client('/cometd', { share: false, timeout: 5000, maxNetworkDelay: place.delay }, '/a');
  const short = { timeout: 5000 };
  const connects = () => server.messages('/meta/connect');
  // Waits until a new connect is held, and checks its advice.
  const expectHeld = async (advice) => {
    await until('a connect is held', () => server.held && connects().length > seen);
    seen = connects().length;
    assert.deepEqual(connects().at(-1).advice, advice);
  };
  let seen = 1;
  await client.start();
  await expectHeld(short);
  // A hidden page does not look, so it saves requests. It renews the connect once it is visible.
  place.look(false);
  server.emit(['/a', 1]);
  await expectHeld(undefined);
  place.look(true);
  await expectHeld(short);
  server.emit(['/a', 2]);
  await expectHeld(short);
  assert.deepEqual(client.log.splice(0), ['connecting', 'connected', ['/a', 1], ['/a', 2]]);
  // A network that swallows everything is noticed after the hold and the delay.
  place.limits.at(-1)[1]();
  await until('it is connected again', () => client.log.at(-1) === 'connected' && server.held);
  assert.deepEqual(client.log.splice(0), ['interrupted no answer in time', 'connected']);
  let isCut = false;
  server.response.on('close', () => (isCut = true));
  place.endless = place.pauses.length + 1;
  place.dispatch('offline');
  await until('it pauses, and the connect has ended', () => place.pauses.length === place.endless && isCut);
  server.held = null;
  place.dispatch('online');
  await until('it is connected again', () => client.log.at(-1) === 'connected' && server.held);
  assert.deepEqual(client.log, ['interrupted the browser is offline', 'connected']);
  client.stop();
  // Without acknowledgement, a connect is not renewed: its events would be lost.
  server.hasBatches = false;
  const other = place.client('/cometd', { share: false, timeout: 5000, maxNetworkDelay: place.delay });
  place.look(false);
  await other.start();
  await server.holds();
  seen = connects().length;
  place.look(true);
  // A connect that is renewed would come before these.
  for (const data of [1, 2]) await other.publish('/x', data);
  assert.equal(connects().length, seen);
  server.answerHeld([]);
  await expectHeld(short);
  other.stop();
  // So it is in a program, which has no page.
  const program = new Place().client(server.address, { timeout: 5000 });
  await program.start();
  await expectHeld(short);
  program.stop();
});

scenario('the network and the user return: at once, and with a short next pause', async (server) => {
  const place = new Place(`${server.origin}/page.html`);
  const client = place.client('/cometd', { share: false });
  await client.start();
  for (const comeBack of [() => place.dispatch('online'), () => place.look(true)]) {
    await server.holds();
    server.refuse('/meta/connect', 502, 8);
    place.pauses.splice(0);
    place.endless = 7;
    server.answerHeld([]);
    await until('it pauses', () => place.pauses.length === 7);
    place.look(false);
    await new Promise((next) => setTimeout(next, 20));
    assert.equal(server.answers.length, 1, 'a page that is hidden does not retry');
    place.document.hidden = false;
    comeBack();
    await until('it pauses again', () => place.pauses.length === 8);
    assert.ok(place.pauses[7] <= FIRST_PAUSE, `after the return, a pause of ${place.pauses[7]}`);
    place.endless = Infinity;
    comeBack();
  }
  await server.holds();
});
