// The client of examples/client, against a server that follows a script (client_place.mjs).
import assert from 'node:assert/strict';
import { ADVICE, connect, connected, FIRST_PAUSE, handshake, LONGEST_PAUSE, NETWORK_TIMEOUT, NOT_HELD, Origin, outcomeOf, Place, rejection, scenario, subscribe, unknown, unsubscribe, until } from './client_place.mjs';

/** Returns what arrived since `before` requests: the channels and patterns of each, without connects of a session that is connected. */
function sentSince(server, before) {
  const isOther = ({ channel, advice, clientId }) => channel !== '/meta/connect' || advice || !clientId;
  const requests = server.requests.slice(before).map(([, , , messages]) => messages.filter(isOther));
  return requests.map((messages) => messages.map(({ channel, subscription }) => [channel.replace('/meta/', ''), subscription].join(' ').trim()).join(', ')).filter(Boolean);
}

scenario('each request of a session as a whole, and of the next one once it is lost', async (server) => {
  const [client, place] = await connected(server, { name: 'Ben' }, '/a/*', '/b/**');
  await client.publish('/b', { text: 'ü & "x"' });
  await server.renewed(() => server.emit(['/a/x', 1], ['/b/c/d', 2]));
  // The session is lost. The first reply of the next one omits the advice, so the last one applies.
  server.next('/meta/handshake', { channel: '/meta/handshake', clientId: 'session 2', successful: true, ext: { ack: true } });
  await server.renewed(() => server.lose());
  await server.renewed(() => server.emit(['/a/y', 3]));
  await client.unsubscribe('/b/**');
  const last = ['Bye', null, 0, false, [1]].map((data, number) => ({ channel: `/a/${number}`, data }));
  client.stop(last);
  await until('the last request has come', () => server.messages('/meta/disconnect').length === 1);
  const requests = [
    [handshake({ ack: true, name: 'Ben' })],
    [subscribe('/a/*'), subscribe('/b/**')],
    [connect(1, 0, NOT_HELD)],
    [connect(1, 0)],
    [{ channel: '/b', data: { text: 'ü & "x"' }, clientId: 'session 1' }],
    [connect(1, 1)],
    [handshake({ ack: true, name: 'Ben' })],
    [subscribe('/a/*', 2), subscribe('/b/**', 2)],
    [connect(2, 0, NOT_HELD)],
    [connect(2, 0)],
    [connect(2, 1)],
    [unsubscribe('/b/**', 2)],
    [...last, { channel: '/meta/disconnect' }].map((message) => ({ ...message, clientId: 'session 2' })),
  ].map((messages) => ['POST', '/cometd', 'application/json', messages]);
  assert.deepEqual(server.requests, requests);
  // The last request is sent even if the page is gone before it ends. None has an option that leaves out cookies.
  const options = place.fetches.map((it) => Object.keys(it).sort().join(' '));
  assert.deepEqual(options, [...Array(12).fill('body headers method signal'), 'body headers keepalive method signal']);
  assert.equal(place.fetches.at(-1).keepalive, true);
  assert.deepEqual(client.log, ['connecting', 'connected', ['/a/x', 1], ['/b/c/d', 2], 'interrupted 402::Unknown client', 'gap', 'connected', ['/a/y', 3], 'stopped']);
});

scenario('a response that breaks off or is lost, and comes again', async (server) => {
  const [client] = await connected(server, {}, '/**');
  server.batch = 2 ** 40;
  for (const cut of [(response) => response.destroy(), (response) => response.write('[{"channel":"/a","data":0},', () => response.destroy())]) {
    server.next('/meta/connect', (_, response) => {
      server.batch++;
      server.sent = [{ channel: '/a', data: server.batch }];
      cut(response);
    });
    await server.renewed(() => server.answerHeld([]));
    await until('the event comes', () => client.log.some((it) => it[1] === server.batch));
    await server.holds();
  }
  assert.deepEqual(client.log.filter((it) => Array.isArray(it) || it === 'gap'), [1, 2].map((number) => ['/a', 2 ** 40 + number]));
  assert.equal(server.messages('/meta/connect').at(-1).ext.ack, 2 ** 40 + 2);
});

scenario('a server without acknowledgement, and with omitted advice', async (server) => {
  const place = new Place();
  const client = place.client(server.address, { timeout: 60000 }, '/a');
  const answer = (channel, more) => server.next(channel, { channel, successful: true, ...more });
  answer('/meta/handshake', { clientId: 'session 1', advice: { ...ADVICE, interval: 2000 } });
  answer('/meta/connect');
  answer('/meta/connect', { advice: { reconnect: 'retry' } });
  server.next('/meta/connect', (_, __, send) => {
    place.hold = 60000;
    send([{ channel: '/meta/connect', successful: true, advice: { interval: 0, timeout: 60000 } }]);
  });
  await client.start();
  await server.holds();
  assert.deepEqual(server.messages('/meta/connect').map(({ ext }) => ext), Array(4).fill(undefined));
  assert.deepEqual([place.pauses, place.limits.at(-1)[0]], [[2000, 2000], 60000 + NETWORK_TIMEOUT]);
  place.hold = ADVICE.timeout;
  // A later session has acknowledgement, and the next one has not.
  for (const [hasBatches, ext] of [[true, { ack: 0 }], [false, undefined]]) {
    server.hasBatches = hasBatches;
    await server.renewed(() => server.lose());
    assert.deepEqual(server.messages('/meta/connect').at(-1).ext, ext);
  }
});

scenario('answers that are unusual', async (server) => {
  const answer = (...items) => (_, __, send) => send(items);
  const ride = { channel: '/a', data: 'rides', id: '7' };
  const done = (channel) => ({ channel, successful: true });
  const lost = ['interrupted 402::Unknown client', 'gap', 'connected'];
  const endSession = () => {
    const { held } = server;
    server.begin();
    return () => held([unknown('/meta/connect')]);
  };
  // The session is gone. The connect knows this before the request, after it, or asks again while the server answers.
  const before = async ({ channel }, _, send) => {
    endSession()();
    const { sessions } = server;
    await until('there is a new session', () => server.sessions > sessions && server.messages('/meta/handshake').length === server.sessions);
    setTimeout(() => send([unknown(channel)]), 20);
  };
  const after = ({ channel }, _, send) => {
    setTimeout(endSession(), 20);
    send([unknown(channel)]);
  };
  const between = ({ channel }, _, send) => {
    server.answerHeld([]);
    setTimeout(() => {
      server.begin();
      send([unknown(channel)]);
    }, 20);
  };
  const subscribeD = (it) => it.subscribe('/d', it.listener);
  const publishX = (it) => it.publish('/x', 1);
  // What the server answers to the next message on a channel, what the client does, its outcome, what it sends, and what it reports.
  const rows = [
    ['/x', answer(ride, done('/x')), publishX, 'done', ['/x'], [['/a', 'rides']]],
    ['/meta/subscribe', answer(ride, done('/meta/subscribe')), subscribeD, 'done', ['subscribe /d'], [['/a', 'rides']]],
    ['/meta/unsubscribe', answer(rejection('', '404::Unknown meta channel')), (it) => it.unsubscribe('/c'), ['/c: 404::Unknown meta channel', false, undefined], ['unsubscribe /c'], []],
    ...[before, after].map((how) => ['/meta/subscribe', how, subscribeD, 'done', ['subscribe /d', 'handshake', 'subscribe /a, subscribe /c, subscribe /d', 'connect'], lost]),
    ...[before, after, between].map((how) => ['/x', how, publishX, 'done', ['/x', 'handshake', 'subscribe /a, subscribe /c', '/x', 'connect'], lost]),
  ];
  for (const [channel, reply, act, outcome, sent, log] of rows) {
    const [client] = await connected(server, {}, '/a', '/c');
    const begin = server.requests.length;
    client.log.splice(0);
    server.next(channel, reply);
    assert.deepEqual(await outcomeOf(act(client)), outcome, `${sent}`);
    await until(`it is connected again: ${sent}`, () => client.log.length >= log.length && client.state === 'connected' && server.held);
    server.emit(['/a', 'end']);
    await until(`the last event comes: ${sent}`, () => client.log.at(-1)?.[1] === 'end');
    assert.deepEqual([sentSince(server, begin), client.log], [sent, [...log, ['/a', 'end']]]);
    client.stop();
  }
});

scenario('the pauses after failures', async (server) => {
  const lengths = [];
  for (const random of [0.999, 0]) {
    const [client, place] = await connected(server, {}, '/a');
    place.random(random);
    server.refuse('/meta/connect', 503, 8);
    // A session that is lost shows that the server can be reached.
    server.next('/meta/connect', unknown('/meta/connect'));
    await server.renewed(() => server.held([rejection('/meta/connect', '408::Superseded connect')]));
    const pauses = place.pauses.slice(0, 9);
    assert.ok(pauses[0] > 0 && pauses[0] <= FIRST_PAUSE, `the first pause is ${pauses[0]}`);
    for (const [at, pause] of pauses.slice(1).entries()) {
      const least = Math.min(1.9 * pauses[at], 0.4 * LONGEST_PAUSE);
      assert.ok(pause >= least && pause <= LONGEST_PAUSE, `after a pause of ${pauses[at]} comes one of ${pause}`);
    }
    assert.ok(place.pauses.length === 10 && place.pauses[9] <= FIRST_PAUSE, `after a session was lost, the pauses are ${place.pauses.slice(9)}`);
    // Each failed retry is reported.
    const failures = ['408::Superseded connect', ...Array(8).fill('HTTP status 503'), '402::Unknown client'];
    assert.deepEqual(client.log.slice(2, -2), failures.map((it) => `interrupted ${it}`));
    // After a connect that succeeds, the pauses begin anew.
    for (const count of [12, 14]) {
      server.refuse('/meta/connect', 503, 2);
      server.answerHeld([]);
      await until('the next pauses have ended, and a connect is held', () => place.pauses.length === count && server.held);
    }
    assert.deepEqual(place.pauses.slice(12), place.pauses.slice(10, 12));
    client.stop();
    // A server that takes no session gives the same advice, but it wants the client to wait. So does a window that shares one.
    const error = '503::Too many sessions';
    for (let count = 0; count < 20; count++) server.next('/meta/handshake', { ...unknown('/meta/handshake'), error });
    const rejected = new Origin(server).open();
    rejected.random(random);
    await rejected.started;
    assert.deepEqual(rejected.client.log, ['connecting', ...Array(20).fill(`interrupted ${error}`), 'connected']);
    assert.deepEqual(rejected.pauses, [...pauses.slice(0, 7), ...Array(13).fill(pauses[7])]);
    rejected.client.stop();
    lengths.push(pauses);
  }
  assert.ok(lengths[0].every((it, at) => it > 1.5 * lengths[1][at]), `they hardly differ: ${lengths.join(' and ')}`);
});

scenario('a client is connected after a connect, and after a publish only if another one had no answer', async (server) => {
  const place = new Place();
  const client = place.client(server.address, {}, '/a');
  const trace = [];
  const count = (channel) => server.messages(channel).length;
  client.onstate = (state, why) => trace.push([state, why, count('/meta/handshake'), count('/meta/connect')]);
  client.ongap = () => trace.push(['gap', count('/meta/subscribe')]);
  // The first handshake, and that of the next session, get no answer.
  for (const act of [() => client.start(), () => server.lose()]) {
    server.next('/meta/handshake', () => {});
    const before = count('/meta/handshake');
    act();
    await until('a handshake has come', () => count('/meta/handshake') > before);
    place.limits.at(-1)[1]();
    await until('it is connected', () => client.state === 'connected' && server.held);
  }
  // Nor does a publish, or its response stops in its middle.
  const lost = 'no answer in time';
  for (const begin of [() => {}, (response) => response.write('[{"channel":')]) {
    server.next('/a', (_, response) => {
      begin(response);
      setTimeout(place.limits.at(-1)[1], 20);
    });
    assert.deepEqual([await outcomeOf(client.publish('/a', 1)), await outcomeOf(client.publish('/a', 1))], [[lost, true, undefined], 'done']);
  }
  // A connect fails while a publish succeeds.
  place.endless = place.pauses.length + 1;
  server.refuse('/meta/connect', 503);
  server.answerHeld([]);
  await until('it pauses', () => place.pauses.length === place.endless);
  await client.publish('/a', 1);
  const again = [['interrupted', lost, 4, 4], ['connected', '', 4, 4]];
  assert.deepEqual(trace, [
    ['connecting', '', 0, 0], ['interrupted', lost, 1, 0], ['connected', '', 2, 1],
    ['interrupted', '402::Unknown client', 2, 2], ['interrupted', lost, 3, 2], ['gap', 2], ['connected', '', 4, 3],
    ...again, ...again, ['interrupted', 'HTTP status 503', 4, 5],
  ]);
});

scenario('a publish that finds that the session is gone: it is sent once more, in a new session, at once', async (server) => {
  const [client, place] = await connected(server, {}, '/a');
  const isBack = () => until('it is connected again', () => client.state === 'connected' && server.held);
  const notConnected = ['not connected', false, undefined];
  let isCut = false;
  server.response.on('close', () => (isCut = true));
  const begin = server.requests.length;
  // The server does not answer the connect that it holds.
  for (const _ of [1, 2]) server.next('/x', unknown('/x'));
  assert.deepEqual(await Promise.all([1, 2].map((data) => outcomeOf(client.publish('/x', data)))), ['done', 'done']);
  await isBack();
  assert.deepEqual([sentSince(server, begin).filter((it) => it !== 'connect'), place.pauses, isCut], [['/x, /x', 'handshake', 'subscribe /a', '/x, /x'], [], true]);
  assert.deepEqual(server.messages('/x').map(({ data, clientId }) => [data, clientId]), [[1, 'session 1'], [2, 'session 1'], [1, 'session 2'], [2, 'session 2']]);
  assert.deepEqual(client.log, ['connecting', 'connected', 'interrupted 402::Unknown client', 'gap', 'connected']);
  // The second time it fails. What waits behind it keeps its order.
  for (const _ of [1, 2]) server.next('/y', unknown('/y'));
  const failure = outcomeOf(client.publish('/y', 1));
  await until('it has come', () => server.messages('/y').length === 1);
  assert.deepEqual([await failure, await outcomeOf(client.publish('/z', 2))], [['402::Unknown client', false, undefined], notConnected]);
  await isBack();
  assert.equal(server.sessions, 4);
  // If there is no new session, it fails too.
  server.refuse('/meta/handshake', 503, 3);
  server.next('/y', unknown('/y'));
  assert.deepEqual(await outcomeOf(client.publish('/y', 3)), notConnected);
  await isBack();
  // So it is in a pause between two connects.
  place.endless = 0;
  server.answerHeld([], { ...ADVICE, interval: 2000 });
  await until('it pauses', () => place.pauses.at(-1) === 2000);
  server.next('/y', unknown('/y'));
  assert.equal(await outcomeOf(client.publish('/y', 4)), 'done');
});

scenario('the advice not to try again', async (server) => {
  for (const channel of ['/meta/handshake', '/meta/connect']) {
    const place = new Place();
    const client = place.client(server.address, {}, '/a');
    server.next(channel, rejection(channel, '400::Unsupported version', { reconnect: 'none' }));
    const { message, code, isFinal, reply } = await client.start().catch((it) => it);
    assert.deepEqual([message, code, isFinal, reply], ['400::Unsupported version', 'rejected', true, 400]);
    assert.deepEqual(client.log, ['connecting', 'stopped 400::Unsupported version']);
    assert.deepEqual([place.pauses, client.clientId], [[], null]);
    await client.start();
    assert.deepEqual(client.log.slice(2).filter((it) => it !== 'gap'), ['connecting', 'connected']);
    client.stop();
  }
});

scenario('listeners: each once, in order, with each kind of data, though one throws', async (server) => {
  const [client, { errors }] = await connected(server, {}, '/a/b', '/a/*', '/**', '/a/b');
  client.log.splice(0);
  const get = async (events, expected) => {
    await server.give(...events);
    await until('the last event comes', () => client.log.length === expected.length);
    assert.deepEqual(client.log.splice(0), expected);
  };
  const values = [null, false, true, 0, -0.5, 1e300, 1e-300, 0.1 + 0.2, 2 ** 53, '', 'ü\u2028</script>', [], [null], {}, { a: { b: [1] } }];
  await get(values.map((value) => ['/a/b', value]), values.flatMap((value) => Array(4).fill(['/a/b', value])));
  await Promise.all(values.map((value) => client.publish('/x', value)));
  assert.deepEqual(server.messages('/x').map(({ data }) => data), values);
  // As many events as an answer can have (docs/PROTOCOL.md, "Connect").
  const many = Array.from({ length: 256 }, (_, number) => ['/b', number]);
  await get(many, many);
  client.subscribe('/b', () => assert.fail('the listener throws'));
  await client.subscribe('/b', client.listener);
  await get([['/b', 1]], Array(2).fill(['/b', 1]));
  assert.deepEqual(errors, ['the listener throws']);
});

scenario('who unsubscribes and subscribes again gets events again', async (server) => {
  const [client] = await connected(server, {}, '/a');
  const before = server.requests.length;
  const other = () => client.log.push('other');
  await client.subscribe('/a', other);
  for (const it of [['/nothing'], ['/nothing', client.listener], ['/a', () => {}], ['/a', client.listener]]) await client.unsubscribe(...it);
  await server.give(['/a', 1]);
  await until('the other one gets it', () => client.log.length === 3);
  await client.unsubscribe('/a', other);
  await client.subscribe('/a', client.listener);
  await client.unsubscribe('/a');
  await client.subscribe('/a', client.listener);
  await server.give(['/a', 2]);
  await until('the event comes', () => client.log.length === 4);
  assert.deepEqual([client.log, sentSince(server, before)], [['connecting', 'connected', 'other', ['/a', 2]], ['unsubscribe /a', 'subscribe /a', 'unsubscribe /a', 'subscribe /a']]);
});

scenario('a rejected pattern: its own promise rejects, whoever asked for it, and the state stays', async (server) => {
  const refuse = (error = '400::Invalid pattern') => server.next('/meta/subscribe', rejection('/meta/subscribe', error));
  const [bad, refused] = ['/a/*/b', ['/a/*/b: 400::Invalid pattern', false, undefined]];
  // Right after the start, the client itself asks for all patterns.
  for (const hasStarted of [true, false]) {
    const client = new Place().client(server.address);
    refuse();
    const started = client.start();
    if (hasStarted) await started;
    assert.deepEqual(await outcomeOf(client.subscribe(bad, client.listener)), refused);
    await started;
    assert.deepEqual([client.log, [...client.listeners.keys()]], [['connecting', 'connected'], []]);
    await client.stop();
  }
  // Before the start, the promise resolves at once, so a rejection is reported without another state. Events may come between replies.
  const client = new Place().client(server.address, {}, '/c', bad, '/e');
  const errors = [];
  client.addEventListener('error', ({ error }) => errors.push([error.code, error.pattern]));
  const done = { channel: '/meta/subscribe', successful: true };
  server.next('/meta/subscribe', (_, __, send) => send([done, { channel: '/c', data: 1 }, rejection('/meta/subscribe', '400::Invalid pattern'), done]));
  await client.start();
  assert.deepEqual([client.log, errors], [['connecting', ['/c', 1], `connecting ${refused[0]}`, 'connected'], [['rejected', bad]]]);
  assert.equal(await outcomeOf(client.subscribe('/f', client.listener)), 'done');
  assert.deepEqual([[...client.listeners.keys()], server.patterns().slice(-4)], [['/c', '/e', '/f'], ['/c', bad, '/e', '/f']]);
  client.stop();
  // Until there is a session, the promise waits. Without one, it resolves when the client stops.
  const late = new Place().client(server.address);
  server.next('/meta/handshake', () => {});
  late.start();
  const waiting = outcomeOf(late.subscribe('/late', late.listener));
  late.stop();
  assert.equal(await waiting, 'done');
});

scenario('requests keep their order', async (server) => {
  const [client] = await connected(server);
  const before = server.requests.length;
  const later = server.later('/meta/subscribe');
  server.next('/a', rejection('/a', '400::Invalid channel'));
  const outcomes = [client.subscribe('/a', client.listener), client.publish('/a', 1)].map(outcomeOf);
  const go = await later;
  outcomes.push(...[client.unsubscribe('/a'), client.publish('/b', 2)].map(outcomeOf));
  go();
  assert.deepEqual(await Promise.all(outcomes), ['done', ['400::Invalid channel', false, undefined], 'done', 'done']);
  assert.deepEqual(sentSince(server, before), ['subscribe /a', '/a', 'unsubscribe /a', '/b']);
});

scenario('many patterns, which are asked for once', async (server) => {
  const place = new Place();
  // As many as a session can have, and as long (docs/PROTOCOL.md).
  const patterns = Array.from({ length: 1024 }, (_, number) => `/many/${number}/`.padEnd(256, 'x'));
  const client = place.client(server.address, {}, ...patterns, ...patterns);
  await client.start();
  assert.deepEqual(server.messages('/meta/subscribe').map(({ subscription }) => subscription), patterns);
});

scenario('callback-polling: addresses of scripts, and what is left of them', async (server) => {
  const place = new Place('http://page.example/', {});
  place.document.readyState = 'interactive';
  // An address may have a query.
  const client = place.client(`${server.address}?token=a%20b`, { name: 'Ann' }, '/a');
  const started = client.start();
  await new Promise((next) => setTimeout(next, 20));
  assert.equal(place.scripts.length, 0, 'scripts before the page was loaded');
  place.document.readyState = 'complete';
  place.dispatch('load');
  await started;
  const data = 'ü & = # + % ? \' " <b> \u2028 \u{1f600}';
  await client.publish('/a', data);
  await server.renewed(() => server.emit(['/a', data]));
  assert.deepEqual(client.log, ['connecting', 'connected', ['/a', data]]);
  assert.deepEqual(server.messages('/a').map((it) => it.data), [data]);
  assert.deepEqual(server.messages('/meta/connect').map((it) => it.connectionType), Array(3).fill('callback-polling'));
  assert.deepEqual(server.messages('/meta/handshake')[0].supportedConnectionTypes, ['callback-polling']);
  assert.deepEqual([...new Set(server.requests.map(([method, path]) => `${method} ${path}`))], ['GET /cometd']);
  // The names that are in use: those of the scripts that have not ended.
  const inUse = () => Object.keys(place.window).filter((it) => it.startsWith('bayeux_callback'));
  const nameOf = ({ src }) => new URL(src).searchParams.get('jsonp');
  assert.deepEqual([inUse(), place.scripts.filter((it) => !it.isRemoved)], [[nameOf(place.scripts.at(-1))], place.scripts.slice(-1)]);
  const open = place.open.size;
  server.refuse('/a', 403);
  assert.deepEqual(await outcomeOf(client.publish('/a', 0)), ['the server cannot be reached, or refused the request', true, undefined]);
  assert.equal(place.open.size, open, 'timers of requests that have ended');
  // A script that comes too late.
  const later = server.later('/a');
  const late = outcomeOf(client.publish('/a', 0));
  const go = await later;
  place.limits.at(-1)[1]();
  assert.deepEqual([await late, place.scripts.at(-1).isRemoved, inUse().length], [['no answer in time', true, undefined], true, 2]);
  go();
  await until('the late script has ended', () => inUse().length === 1);
  // As many patterns as fit into the address of a request.
  const long = Array.from({ length: 100 }, (_, number) => `/${number}`.padEnd(4, 'x') + 'é'.repeat(126));
  await Promise.all(long.map((it) => client.subscribe(it, () => {})));
  assert.deepEqual([...client.subscribed], ['/a', ...long]);
  client.stop([{ channel: '/a', data: 'Bye' }]);
  const id = { clientId: 'session 1' };
  // Another origin takes only plain text.
  assert.deepEqual(place.beacons, [[`${server.address}?token=a%20b`, JSON.stringify([{ channel: '/a', data: 'Bye', ...id }, { channel: '/meta/disconnect', ...id }])]]);
  assert.deepEqual([...new Set(place.scripts.map(({ src }) => new URL(src).searchParams.get('token')))], ['a b']);
  assert.equal(new Set(place.scripts.map(nameOf)).size, place.scripts.length);
});
