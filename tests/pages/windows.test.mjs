// Windows that share a session of the client of examples/client.
import assert from 'node:assert/strict';
import { isDeepStrictEqual } from 'node:util';
import { NETWORK_TIMEOUT, opened, Origin, outcomeOf, Place, rejection, scenario, subscribe, unknown, unsubscribe, until } from './client_place.mjs';

// Returns the messages with which a window has left, or null if it has sent none.
const lastOf = ({ fetches }) => JSON.parse(fetches.find(({ keepalive }) => keepalive)?.body ?? 'null');

// Returns what a window has reported. A window may be told its state again, also after a gap.
function told({ log }) {
  const isState = (it) => typeof it === 'string' && it !== 'gap';
  return log.filter((it, at) => !isState(it) || it !== log.slice(0, at).findLast(isState));
}

scenario('windows that share a session: one for all, and its end', async (server) => {
  const [, windows, one, two, three] = await opened(server, ['/a', '/one'], ['/a', '/two'], ['/two', '/three']);
  assert.deepEqual([one, two, three].map(({ state, clientId }) => [state, clientId]), Array(3).fill(['connected', 'session 1']));
  assert.deepEqual(server.patterns().sort(), ['/a', '/one', '/three', '/two']);
  server.refuse('/a', 403);
  assert.deepEqual(await outcomeOf(two.publish('/a', 0)), ['publishing is not allowed here: HTTP status 403', false, 403]);
  await until('the others know', () => !three.mayPublish);
  assert.deepEqual(await Promise.all([3, 4].map((data) => outcomeOf(two.publish('/a', data)))), ['done', 'done']);
  await until('the others know this too', () => three.mayPublish);
  assert.deepEqual(server.messages('/a').map(({ data }) => data), [0, 3, 4]);
  await server.give(['/a', 1], ['/two', 2], ['/three', 3]);
  await until('the windows get their events', () => [two, three].every(({ log }) => log.length === 4));
  assert.deepEqual([one, two, three].map(({ log }) => log.slice(2)), [[['/a', 1]], [['/a', 1], ['/two', 2]], [['/two', 2], ['/three', 3]]]);
  // A window that goes does not end the session, and the patterns that only it had are unsubscribed.
  for (const [client, last, pattern] of [[three, [{ channel: '/a', data: 'Bye' }], '/three'], [two, [], '/two']]) {
    client.stop(last);
    await until(`${pattern} is unsubscribed`, () => server.messages('/meta/unsubscribe').at(-1)?.subscription === pattern);
  }
  one.stop();
  await until('the session is ended', () => lastOf(windows[0]));
  assert.deepEqual(windows.map(lastOf), [[{ channel: '/meta/disconnect', clientId: 'session 1' }], null, [{ channel: '/a', data: 'Bye', clientId: 'session 1' }]]);
  assert.equal(server.sessions, 1);
});

scenario('windows share a session if they have the same address and connection type', async (server) => {
  const origin = new Origin(server);
  const headers = { 'X-Token': 'abc' };
  // The page, the address, and the options of each window, and the number of its session (docs/CLIENT.md).
  const rows = [
    ['/a/page.html', 'cometd', {}, 1],
    ['/a/other.html', 'cometd', {}, 1],
    ['/b/page.html', 'cometd', {}, 2],
    ['/b/page.html', '../a/cometd', {}, 1],
    ['/page.html', new URL(`${server.origin}/a/cometd`), { name: 'Ben' }, 1],
    ['/a/page.html', '/b/cometd', { connectionType: 'long-polling' }, 2],
    ['/a/page.html', 'cometd', { connectionType: 'callback-polling' }, 3],
    ['/b/page.html', '/a/cometd', 'callback-polling', 3],
    ['/a/page.html', 'cometd?token=a', {}, 4],
    ['/a/page.html', 'cometd', { headers }, 5],
    ['/a/page.html', 'cometd', { headers }, 6],
    ['/a/page.html', 'cometd', { headers, share: true }, 1],
    ['/a/page.html', 'cometd', { share: false }, 7],
  ];
  for (const [path, url, options, session] of rows) {
    const place = origin.openAt(path, url, options);
    await place.started;
    assert.equal(place.client.clientId, `session ${session}`, `${path} ${url} ${JSON.stringify(options)}`);
  }
  // The header fields of the window that has the session are sent for all.
  const [first, second] = ['first', 'second'].map((token) => origin.openAt('/page.html', '/cometd/own', { headers: { 'X-Token': token }, share: true }));
  await Promise.all([first.started, second.started]);
  await second.client.publish('/x', 1);
  assert.deepEqual([server.headers.at(-1)['x-token'], server.messages('/x').length, second.fetches.length], ['first', 1, 0]);
});

scenario('a window takes over the session, and the open publishes of others', async (server) => {
  for (const isCrash of [false, true]) {
    server.requests.splice(0);
    const [origin, windows, one, two, three] = await opened(server, ['/a', '/one'], ['/a', '/two'], ['/a', '/three']);
    const id = one.clientId;
    const unsubscribed = () => server.messages('/meta/unsubscribe').map(({ subscription }) => subscription).join();
    // A pattern that the session had, and has no longer.
    await two.subscribe('/old', () => {});
    for (const number of [1, 2]) await server.give(['/a', number]);
    await until('the last window gets its event', () => three.log.at(-1)?.[1] === 2 && three.subscribed.has('/old'));
    await two.unsubscribe('/old');
    // The first publish has been sent, and gets no answer. The others wait for it, also those of the window that takes over.
    server.next('/sent', () => {});
    const outcomes = [three.publish('/sent', 0), ...[1, 2, 3].map((data) => three.publish('/waits', data))].map(outcomeOf);
    await until('a publish has come, and the window knows', () => server.messages('/sent').length === 1 && three.windows.taken.size === 1);
    await server.holds();
    const before = server.requests.length;
    outcomes.push(...[two.publish('/own', 4), two.subscribe('/old', () => {})].map(outcomeOf));
    if (isCrash) origin.crash(windows[0]);
    else one.stop();
    assert.deepEqual(await Promise.all(outcomes), [['no answer in time', true, undefined], ...Array(5).fill('done')]);
    const isConnect = ({ channel }) => channel === '/meta/connect';
    const again = () => server.requests.slice(before).flatMap(([, , , messages]) => messages);
    const first = await until('it continues after the last batch', () => two.windows.isLeading && again().find(isConnect));
    const asked = again().slice(0, again().indexOf(first)).map(({ subscription }) => subscription);
    assert.deepEqual([first.ext.ack, ['/a', '/two', '/old'].filter((it) => !asked.includes(it))], [2, []], `before the next connect, it asks for ${asked}`);
    assert.deepEqual(['/sent', '/waits', '/own'].map((it) => server.messages(it).map(({ data }) => data)), [[0], [1, 2, 3], [4]]);
    await server.give(['/a', 3]);
    await until('all get the next event', () => [two, three].every(({ log }) => log.at(-1)?.[1] === 3));
    for (const { log, clientId, state } of [two, three]) {
      assert.deepEqual([log.filter(Array.isArray).map(([, data]) => data), log.filter((it) => /gap|interrupted/.test(it)), clientId, state], [[1, 2, 3], [], id, 'connected']);
    }
    // The patterns of the window that is gone are kept until the others have sent theirs.
    assert.equal(unsubscribed(), '/old');
    windows[1].limits.filter(([milliseconds]) => milliseconds === NETWORK_TIMEOUT).forEach(([, end]) => end());
    await until('its pattern is unsubscribed', () => unsubscribed() === '/old,/one');
    for (const it of [three, two]) it.stop();
    assert.equal(server.messages('/meta/handshake').length, 1);
  }
});

// A gap begins with the last request that brought events, or with the subscription.
scenario('what each window is told, and the moment of each gap', async (server) => {
  const [origin, , one, two, three] = await opened(server, ['/a', '/one'], ['/a', '/two'], ['/a', '/three']);
  const windows = [one, two, three];
  windows.forEach((it) => (it.hasMoments = true));
  const next = async (moment, act, clients, last) => {
    await server.holds();
    origin.now = moment;
    await act();
    await until(`all know at ${moment}`, () => clients.every(({ log }) => isDeepStrictEqual(told({ log }).slice(-last.length), last)));
  };
  const lost = (since) => ['interrupted 402::Unknown client', ['gap', since], 'connected'];
  for (const number of [1, 2]) await next(1000 * number, () => server.emit(['/a', number]), windows, [['/a', number]]);
  await next(2500, () => server.renewed(() => server.answerHeld([])), [], []);
  await next(3000, () => server.lose(), windows, lost(1000));
  assert.deepEqual(server.messages('/meta/subscribe').slice(-4), ['/a', '/one', '/two', '/three'].map((it) => subscribe(it, 2)));
  await server.renewed(() => one.stop());
  await until('the other one knows', () => three.windows.leader === two.windows.id);
  await next(4000, () => server.lose(), [two, three], lost(3000));
  const first = ['connecting', 'connected', ['/a', 1], ['/a', 2], ...lost(1000)];
  assert.deepEqual(windows.map(told), [[...first, 'stopped'], ...Array(2).fill([...first, ...lost(3000)])]);
  assert.deepEqual([two.clientId, three.clientId, two.listeners.size], ['session 3', 'session 3', 2]);
  three.stop();
  await two.stop();
  origin.now = 9000;
  await two.start();
  assert.deepEqual(told(two).slice(-4), ['stopped', 'connecting', ['gap', 4000], 'connected']);
});

scenario('each window gets the answers to its own requests', async (server) => {
  const [, , one, two, three] = await opened(server, ['/a', '/one'], ['/a', '/two'], ['/a', '/three']);
  for (const [first, second] of [[two, three], [three, two]]) {
    // The other windows hear this too.
    await second.subscribe('/more', () => {});
    assert.equal(first.windows.count, second.windows.count - 1);
    await first.subscribe('/more', () => {});
    server.next('/x', rejection('/x', '400::Invalid channel'));
    const outcomes = [first.publish('/x', 1), second.publish('/x', 2)].map(outcomeOf);
    assert.deepEqual(await Promise.all(outcomes), [['400::Invalid channel', false, undefined], 'done']);
  }
  // The session is gone when a window publishes: its leader sends this once more, and reports a second failure.
  for (const [times, outcome, session] of [[1, 'done', 'session 2'], [2, ['402::Unknown client', false, undefined], 'session 4']]) {
    for (let time = 0; time < times; time++) server.next('/x', unknown('/x'));
    assert.deepEqual(await outcomeOf(two.publish('/x', 2)), outcome);
    await until('both are connected again', () => server.held && [one, two].every(({ state, clientId }) => state === 'connected' && clientId === session));
  }
  // What was meant for a leader that is gone, and comes late.
  const { length } = server.requests;
  for (const kind of ['answer', 'taken']) two.windows.post(kind, { to: one.windows.id, number: one.windows.count });
  assert.deepEqual([await outcomeOf(three.publish('/x', 4)), server.requests.length - length], ['done', 1]);
  // A publish to a leader that is gone is not sent before there is a new one, and then once.
  three.windows.leader = 'gone';
  const late = outcomeOf(three.publish('/late', 1));
  assert.deepEqual([await outcomeOf(two.publish('/x', 3)), server.messages('/late')], ['done', []]);
  one.windows.post('lead');
  assert.equal(await late, 'done');
  assert.equal(server.messages('/late').length, 1);
});

scenario('a batch that comes again to a new leader reaches each window once', async (server) => {
  const [origin, windows, , two, three] = await opened(server, ['/a'], ['/a'], ['/a']);
  await server.holds();
  server.batch = 2 ** 40;
  // The next leader does not hear of the batch, and the server not that it arrived.
  origin.deaf.add(windows[1]);
  server.next('/meta/connect', () => {});
  server.emit(['/a', 1], ['/a', 2]);
  await until('a window gets the batch', () => three.log.length === 4);
  origin.crash(windows[0]);
  origin.deaf.clear();
  await until('the next window gets it', () => two.log.length === 4);
  await server.give(['/a', 3]);
  for (const { log } of [two, three]) {
    await until('the next event comes', () => log.at(-1)[1] === 3);
    assert.deepEqual(log, ['connecting', 'connected', ['/a', 1], ['/a', 2], ['/a', 3]]);
  }
});

scenario('a window whose leader has no session, or does not hear it', async (server) => {
  const origin = new Origin(server);
  const later = server.later('/meta/handshake');
  const windows = [origin.open('/a'), origin.open('/a', '/two')];
  const [one, two] = windows.map(({ client }) => client);
  const go = await later;
  await until('the leader has answered', () => two.windows.leader && two.windows.asked.size === 0);
  let isStarted = false;
  windows[1].started.then(() => (isStarted = true));
  origin.deaf.add(windows[0]);
  assert.deepEqual(await outcomeOf(two.publish('/a', 0)), ['not connected', false, undefined]);
  go();
  // It hears that the leader is connected. But the leader has not subscribed for it.
  for (const event of [1, 2]) {
    await until('it is connected', () => two.state === 'connected');
    windows[1].limits.splice(0).forEach(([, end]) => end());
    await until('it gives up', () => two.state === 'interrupted');
    assert.equal(isStarted, false, 'it is not subscribed yet');
    if (event === 2) origin.deaf.clear();
    await server.give(['/a', event]);
  }
  await windows[1].started;
  assert.deepEqual([server.patterns(), one.log.slice(2), server.messages('/a')], [['/a', '/two'], [['/a', 1], ['/a', 2]], []]);
  const lost = Array(2).fill('interrupted no answer in time');
  assert.deepEqual(two.log.filter((it) => it !== 'connected'), ['connecting', lost[0], ['/a', 1], lost[1], ['/a', 2]]);
  // A subscription that fails for another reason is tried again.
  server.refuse('/meta/subscribe', 503);
  const four = origin.open('/a', '/four');
  await four.started;
  assert.deepEqual([four.client.log, server.patterns().at(-1)], [['connecting', 'connected'], '/four']);
  // If it cannot be unsubscribed, the session continues.
  server.next('/meta/unsubscribe', rejection('/meta/unsubscribe', '404::Unknown meta channel'));
  four.client.stop();
  await until('its pattern is unsubscribed', () => server.messages('/meta/unsubscribe').length === 1);
  assert.deepEqual([await outcomeOf(two.publish('/x', 1)), two.state], ['done', 'connected']);
});

scenario('windows that stop and start again, and whose leader pauses', async (server) => {
  const [, windows, one, two] = await opened(server, ['/a', '/one'], ['/a', '/two']);
  await server.holds();
  two.stop();
  await two.start();
  await server.renewed(() => one.stop());
  await one.start();
  await server.renewed(() => server.emit(['/a', 1]));
  await until('the event comes', () => one.log.at(-1)[1] === 1);
  // The user returns to a window that does not lead.
  windows[1].endless = windows[1].pauses.length + 1;
  server.refuse('/meta/connect', 502);
  server.answerHeld([]);
  await until('the other one knows of the pause', () => windows[1].pauses.length === windows[1].endless && one.state === 'interrupted');
  windows[0].dispatch('online');
  await until('both are connected', () => [one, two].every(({ state }) => state === 'connected'));
  await server.renewed(() => two.stop());
  await server.give(['/a', 2]);
  await until('the event comes', () => one.log.at(-1)[1] === 2);
  const again = ['connecting', 'connected', 'stopped', 'connecting', 'gap', 'connected', ['/a', 1], 'interrupted HTTP status 502', 'connected'];
  assert.deepEqual([told(one), told(two), server.sessions], [[...again, ['/a', 2]], [...again, 'stopped'], 1]);
  one.stop();
  assert.deepEqual(windows.map((it) => lastOf(it)?.length), [1, undefined]);
});

scenario('windows of a session without acknowledgement get each event', async (server) => {
  server.hasBatches = false;
  const many = Array.from({ length: 40 }, (_, number) => `/many/${number}`);
  const [, , one, two] = await opened(server, ['/a'], ['/a', ...many]);
  assert.deepEqual(server.patterns(), ['/a', ...many]);
  // The last batch has as many events as an answer can have.
  const batches = [...[1, 2, 3].map((number) => [['/a', number]]), Array.from({ length: 256 }, (_, number) => [number % 2 ? '/many/39' : '/a', number])];
  for (const batch of batches) await server.give(...batch);
  await until('the events come', () => two.log.length === 2 + batches.flat().length && one.log.at(-1)[1] === 254);
  assert.deepEqual([one, two].map(({ log }) => log.slice(2)), [batches.flat().filter(([channel]) => channel === '/a'), batches.flat()]);
  assert.equal(server.sessions, 1);
  for (const it of [two, one]) it.stop();
});

scenario('a window whose leader is hidden: the connect is held as if the leader were visible', async (server) => {
  const origin = new Origin(server);
  const windows = [1, 2].map(() => origin.openAt('/page.html', '/cometd', { timeout: 5000 }));
  await Promise.all(windows.map(({ started }) => started));
  const held = (advice) => until(`a connect with ${JSON.stringify(advice)} is held`, () => server.held && isDeepStrictEqual(server.messages('/meta/connect').at(-1).advice, advice));
  await held({ timeout: 5000 });
  windows[0].look(false);
  await server.renewed(() => server.answerHeld([]));
  await held({ timeout: 5000 });
  const leave = [() => windows[1].look(false), () => windows[1].client.stop()];
  for (const act of leave) {
    // Once one of them is visible, the connect is sent again.
    windows[1].look(true);
    await held({ timeout: 5000 });
    act();
    await until('the leader knows', () => windows[0].client.windows.looking.size === 0);
    server.answerHeld([]);
    await held(undefined);
  }
  assert.deepEqual(windows.map(({ client }) => client.log), [['connecting', 'connected'], ['connecting', 'connected', 'stopped']]);
  windows[0].client.stop();
});

scenario('a pattern that the server rejects for a window is asked for once, and the others get no error', async (server) => {
  const [, , one, two] = await opened(server, ['/a'], ['/a']);
  const invalid = rejection('/meta/subscribe', '400::Invalid pattern');
  const ask = (...pairs) => pairs.map(([client, pattern]) => outcomeOf(client.subscribe(pattern, client.listener)));
  const refused = (pattern) => [`${pattern}: 400::Invalid pattern`, false, undefined];
  // The leader asks for the pattern when it connects.
  const later = server.later('/meta/handshake');
  await server.lose();
  const go = await later;
  await until('a handshake has come', () => two.state === 'interrupted');
  const outcomes = ask([two, '/a/*/b'], [one, '/a/*/b'], [two, '/e']);
  server.next('/meta/subscribe', (message, _, send) => send([server.reply(message), invalid, { channel: '/meta/subscribe', successful: true }]));
  await until('the leader knows', () => one.windows.patterns().includes('/e'));
  go();
  assert.deepEqual(await Promise.all(outcomes), [refused('/a/*/b'), refused('/a/*/b'), 'done']);
  await until('both are connected', () => [one, two].every(({ state }) => state === 'connected'));
  for (const it of [one, two]) assert.deepEqual(told({ log: it.log.splice(0) }), ['connecting', 'connected', 'interrupted 402::Unknown client', 'gap', 'connected']);
  await two.unsubscribe('/e');
  server.requests.splice(0);
  // So it is while it is connected.
  server.next('/meta/subscribe', invalid);
  for (const [client, pattern, outcome] of [[two, '/a/**/b', refused('/a/**/b')], [one, '/c', 'done'], [two, '/d', 'done']]) {
    assert.deepEqual(await Promise.all(ask([client, pattern])), [outcome]);
  }
  assert.deepEqual([server.patterns(), one.log, two.log], [['/a/**/b', '/c', '/d'], [], []]);
});

scenario('a browser that denies locks: the window has its own session', async (server) => {
  const origin = new Origin(server);
  origin.denial = new DOMException('denied', 'SecurityError');
  const place = origin.open('/a');
  await place.started;
  await server.give(['/a', 1]);
  await until('the event comes', () => place.client.log.length === 3);
  assert.deepEqual(place.client.log, ['connecting', 'connected', ['/a', 1]]);
  place.client.stop();
  assert.equal(lastOf(place).length, 1);
});

scenario('which windows share a session', async () => {
  // docs/CLIENT.md, "Windows that share a session".
  const both = { locks: {}, BroadcastChannel: class {} };
  for (const [page, { locks, ...extra }, isShared] of [
    ['https://a.example/page.html', both, true],
    ['file:///home/page.html', both, false],
    ['http://a.example/page.html', { BroadcastChannel: both.BroadcastChannel }, false],
    ['https://a.example/page.html', { locks: both.locks }, false],
  ]) {
    const place = new Place(page, { origin: new URL(page).origin, ...extra });
    if (locks) place.context.navigator.locks = locks;
    assert.equal(place.client('http://127.0.0.1/cometd').isShared, isShared, page);
  }
});

scenario('a leader that does not answer, or late', async (server) => {
  const [origin, windows, , two] = await opened(server, ['/a', '/one'], ['/a', '/two']);
  const noAnswer = ['no answer in time', true, undefined];
  two.log.splice(0);
  // The leader gets no message, so the other window gives up, and joins again when it can.
  origin.isQuiet = true;
  const outcome = outcomeOf(two.publish('/a', 1));
  windows[1].limits.at(-1)[1]();
  assert.deepEqual([await outcome, two.log], [noAnswer, ['interrupted no answer in time']]);
  origin.isQuiet = false;
  await server.give(['/a', 1]);
  await until('the event comes', () => two.log.length === 3);
  assert.deepEqual([two.state, two.log.filter(Array.isArray)], ['connected', [['/a', 1]]]);
  // The answer of the leader comes too late: the window is connected again, without an event.
  const later = server.later('/late');
  const late = outcomeOf(two.publish('/late', 1));
  const go = await later;
  windows[1].limits.at(-1)[1]();
  assert.deepEqual([await late, two.state], [noAnswer, 'interrupted']);
  go();
  await until('it is connected', () => two.state === 'connected');
  // A window that stops does not wait for the leader.
  server.next('/open', () => {});
  const open = [1, 2, 3].map((data) => outcomeOf(two.publish('/open', data)));
  await until('the publish has come', () => server.messages('/open').length === 1);
  two.stop();
  assert.deepEqual([await Promise.all(open), two.state, two.log.at(-1), windows[1].open.size], [Array(3).fill(noAnswer), 'stopped', 'stopped', 0]);
});
