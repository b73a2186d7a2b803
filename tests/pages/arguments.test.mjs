// What the client of examples/client takes: arguments, addresses and patterns. Its types are tested in examples/client/test.
import assert from 'node:assert/strict';
import { Place, scenario, until } from './client_place.mjs';

scenario('wrong arguments throw at once, and neither send nor change anything', async (server) => {
  const place = new Place(`${server.origin}/page.html`);
  const Client = place.run('BayeuxClient');
  const it = place.client('/cometd', { share: false }, '/a');
  await it.start();
  await until('a connect is held', () => server.held);
  const [cycle, list] = [{}, []];
  Object.assign(cycle, { cycle });
  list.push(list);
  // A value of each kind, and what an error says of it.
  const kinds = [
    [undefined, 'undefined'], [null, 'null'], [true, 'true'], [0, '0'], [5n, '5n'], [Symbol('x'), 'Symbol(x)'], ['', '""'], ['text', '"text"'],
    [() => {}, 'a function'], [[], 'an array'], [['/a'], 'an array'], [{}, 'an object'], [cycle, 'an object'], [list, 'an array'],
  ];
  const slash = 'a string that begins with "/"';
  const strings = 'an object with a string for each header field, or a function';
  const withOption = (name) => (value) => new Client('/cometd', { [name]: value });
  const isObject = (value) => typeof value === 'object' && value !== null;
  // An argument, what it has to be, a call with it, which values are right (or have an error of their own), and other wrong values.
  const rows = [
    ['url', 'an http: or https: address', (value) => new Client(value), (value) => value === 'text', [
      ...['ws://127.0.0.1/', 'xhttp://127.0.0.1/', 'file:///a', 'http://', 'https://a b/'].map((url) => [url, JSON.stringify(url)]),
      [new URL('ftp://127.0.0.1/'), 'an object'], [{ toString: () => '/cometd' }, 'an object'],
    ]],
    ['options', 'an object or a connection type', (value) => new Client('/cometd', value), (value) => value === undefined || typeof value === 'string' || isObject(value)],
    ['options.connectionType', '"long-polling" or "callback-polling"', withOption('connectionType'), (value) => value === undefined, [['polling', '"polling"']]],
    ['options.connectionType', '"long-polling" or "callback-polling"', (value) => new Client('/cometd', value), (value) => typeof value !== 'string', [['websocket', '"websocket"']]],
    ['options.headers', strings, withOption('headers'), (value) => value === undefined || typeof value === 'function' || (isObject(value) && Object.keys(value).length === 0 && !Array.isArray(value)), [
      [new Headers({ a: 'b' }), 'an object'], [new Map(), 'an object'], [{ a: 'b', c: 1 }, 'an object'], [{ a: 1, c: 'b' }, 'an object'],
    ]],
    ['options.share', 'true or false', withOption('share'), (value) => value === undefined || value === true],
    ['options.name', 'a string', withOption('name'), (value) => value === undefined || typeof value === 'string'],
    ['options.ext', 'an object or a function', withOption('ext'), (value) => value === undefined || typeof value === 'function' || (isObject(value) && !Array.isArray(value))],
    ...['timeout', 'maxNetworkDelay', 'minPause', 'maxPause'].map((it) =>
      [`options.${it}`, 'milliseconds above 0', withOption(it), (value) => value === undefined, [[Infinity, 'Infinity'], [-1, '-1'], [NaN, 'NaN']]]),
    ['options.queue', 'a whole number', withOption('queue'), (value) => value === undefined || value === 0, [[-1, '-1'], [0.5, '0.5']]],
    ...[(signal) => it.subscribe('/b', () => {}, { signal }), (signal) => it.events('/b', { signal })].map((call) =>
      ['options.signal', 'an AbortSignal', call, (value) => value === undefined, [[new Event('x'), 'an object']]]),
    ['headers', strings, (value) => (it.headers = value), (value) => typeof value === 'function' || (isObject(value) && !Array.isArray(value))],
    ...[(value) => it.subscribe(value, () => {}), (value) => it.events(value)].map((call) => ['pattern', slash, call, () => false, [['a/b', '"a/b"']]]),
    ['listener', 'a function', (value) => it.subscribe('/b', value), (value) => typeof value === 'function'],
    ['channel', slash, (value) => it.publish(value, 1), () => false, [['a/b', '"a/b"']]],
    ['data', 'a value that JSON can express', (value) => it.publish('/a', value), (value) => ![undefined, 5n, cycle, list].includes(value) && !/symbol|function/.test(typeof value), [
      [{ toJSON() {} }, 'an object'], [NaN, 'NaN'], [-Infinity, '-Infinity'], [new Date(NaN), '"Invalid Date"'],
    ]],
    // What JSON would replace by null, within data.
    ...[[{ a: { price: NaN } }, 'price', 'NaN'], [[1, Infinity], '1', 'Infinity'], [[undefined], '0', 'undefined'], [[() => {}], '0', 'a function'], [{ at: [new Date(NaN)] }, '0', '"Invalid Date"']]
      .map(([data, name, given]) => [`"${name}" in data`, 'a value that JSON can express', () => it.publish('/a', data), () => true, [[data, given]]]),
    ['data', 'a value that JSON can express', (value) => it.stop([{ channel: '/a', data: 0 }, { channel: '/a', data: value }]), (value) => value !== undefined && value !== cycle],
    ['last', 'an array of messages', (value) => it.stop(value), (value) => value === undefined || Array.isArray(value)],
  ];
  const expectError = (call, message) => assert.throws(call, { name: 'TypeError', message }, message);
  const before = server.requests.length;
  for (const [name, expected, call, isRight, others = []] of rows) {
    for (const [value, given] of [...kinds.filter(([value]) => !isRight(value)), ...others]) {
      expectError(() => call(value), `${name}: expected ${expected}, got ${given}`);
    }
  }
  for (const [name, options] of [['header', { header: {} }], ['0', ['share']], ['b', { share: true, b: undefined, c: 1 }]]) {
    expectError(() => new Client('/cometd', options), `options.${name}: unknown, expected one of connectionType, headers, ext, share, name, timeout, maxNetworkDelay, minPause, maxPause, queue`);
  }
  for (const options of [{}, { headers: { a: 'b', c: '' }, share: false, name: '' }]) new Client('/cometd', options);
  assert.deepEqual([server.requests.length, it.log, it.state, [...it.listeners.keys()]], [before, ['connecting', 'connected'], 'connected', ['/a']]);
});

scenario('addresses, and the transport for each', async (server) => {
  const program = new Place();
  assert.equal(program.client(new URL(server.address)).url, server.address);
  assert.throws(() => program.client('/cometd'), { message: 'url: expected an absolute http: or https: address, got "/cometd"' });
  assert.throws(() => program.client(server.address, 'callback-polling'), { message: 'options.connectionType: expected "long-polling", got "callback-polling"' });
  assert.equal(program.client(server.address, 'long-polling').connectionType, 'long-polling');
  const page = new Place('https://a.example/x/y.html');
  const types = {
    'long-polling': ['/cometd', 'cometd', '//a.example/cometd', 'https://a.example/cometd', 'https://a.example:443/cometd'],
    'callback-polling': ['http://a.example/cometd', 'https://a.example:8443/cometd', 'https://b.a.example/cometd'],
  };
  for (const [type, urls] of Object.entries(types)) {
    for (const url of urls) {
      assert.equal(page.client(url).connectionType, type, url);
      for (const chosen of Object.keys(types)) {
        for (const options of [chosen, { connectionType: chosen }]) assert.equal(page.client(url, options).connectionType, chosen, url);
      }
    }
  }
});

scenario('which channels each pattern matches', async () => {
  const { isMatch } = new Place().run('INSIDE');
  const segments = ['a', 'A', 'ab', 'b', 'é', 'e\u0301', '\u00a0', '.', '$&', '[a]', '1', '\u{1f600}'];
  const few = ['a', 'A', 'b'];
  const longer = (paths, ends) => paths.flatMap((path) => ends.map((end) => `${path}/${end}`));
  const channels = [...longer([''], segments), ...longer(longer([''], segments), segments), ...longer(longer(longer([''], few), segments), few), '/a'.repeat(32)];
  const patterns = [...channels, ...longer(['', ...channels.slice(0, -1)], ['*', '**'])];
  // docs/PROTOCOL.md, "Channels and patterns".
  const ruleOf = (pattern) => new RegExp(`^${pattern.replace(/[.$[\]]/g, '\\$&').replace(/\*\*$/, '.+').replace(/\*$/, '[^/]+')}$`, 'su');
  const wrong = patterns.flatMap((pattern) => {
    const rule = ruleOf(pattern);
    return channels.filter((it) => isMatch(pattern, it) !== rule.test(it)).map((it) => [pattern, it]);
  });
  assert.deepEqual(wrong.slice(0, 5), []);
});
