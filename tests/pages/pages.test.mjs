// What the pages of examples have in common, and an example of the client's guide, without a browser.
import assert from 'node:assert/strict';
import { HOSTILE, NO_ANSWER, Page, PAGES, read, SITE, test } from './page_place.mjs';

test('the address of the server', () => {
  const local = 'http://127.0.0.1:8087/cometd';
  // The address of the page, its parameter `server`, that of the server (examples/README.md), and whether the parameter is right.
  for (const [address, given, server, isRight = true] of [
    [SITE, null, '/cometd'],
    ['file:///index.html', null, local],
    ...['https://other.example/cometd', '/other', 'other', 'HTTPS://other.example/cometd'].map((it) => [SITE, it, it]),
    [SITE, '', '/cometd'],
    ['file:///index.html', 'http://127.0.0.1:1/cometd', 'http://127.0.0.1:1/cometd'],
    // From disk, an address is absolute. The real client would throw an error for these.
    ...['ftp://127.0.0.1/', 'javascript:alert(1)', 'xhttp://127.0.0.1/', '/cometd', HOSTILE].map((it) => ['file:///index.html', it, local, false]),
    ...['ftp://127.0.0.1/', 'https://'].map((it) => [SITE, it, '/cometd', false]),
  ]) {
    const page = Page.open(`${address}?seconds=20${given === null ? '' : `&server=${encodeURIComponent(given)}`}`, 'dashboard/index.html');
    const [state, error] = page.state();
    assert.deepEqual([page.client.url, page.client.isStarted, state], [server, isRight, 'not connected'], `${address} ${given}`);
    assert.ok(isRight ? error === '' : error.startsWith(`“${given}” is not a server address.`), error);
  }
});

// docs/ERRORS.md: a page that never connected shows what is wrong. So does every page after HTTP
// status 401, 403, 429, or `no answer in time`.
test('what a page says of its connection', () => {
  const address = `/${HOSTILE}`;
  // A failure, the state, words of the text, and whether it is shown to a page that was connected before.
  const rows = [
    ...[
      [401, 'rejected', 'Log in', true], [403, 'rejected', 'the server’s own site', true], [404, 'rejected', 'Check the path'],
      [429, 'rejected', 'tries again', true], [500, 'rejected', 'Check the path'], [502, 'no server', 'Start bayeuxd'],
      [503, 'rejected', 'overloaded'], [504, 'no answer', 'Restart bayeuxd'],
    ].map(([status, state, words, isLasting]) => [`HTTP status ${status}`, state, [`status ${status}`, words], isLasting]),
    [NO_ANSWER, 'no answer', ['too many windows'], true],
    ['503::Too many sessions', 'rejected', ['503::Too many sessions', 'tries again']],
    ...['fetch failed', 'Unexpected token < in 503:: HTTP status 404'].map((it) => [it, 'no server', ['No Bayeux server', '?server=http://HOST:PORT/cometd']]),
  ];
  for (const [why, state, words, isLasting = false] of rows) {
    for (const wasConnected of [false, true]) {
      const page = Page.open(`${SITE}?server=${encodeURIComponent(address)}`, 'dashboard/index.html');
      const look = () => ['className', 'title'].map((it) => page.element('state')[it]);
      const onstate = (...args) => page.client.onstate(...args);
      onstate('connecting', '');
      assert.deepEqual(page.state(), ['connecting …', '']);
      if (wasConnected) onstate('connected', '');
      onstate('interrupted', why);
      const isShown = !wasConnected || isLasting;
      const [shown, text] = page.state();
      assert.deepEqual([shown, ...look()], [isShown ? `${state}, trying again …` : 'connection lost, trying again …', 'interrupted', why]);
      assert.ok(isShown ? [address, ...words].every((it) => text.includes(it)) : text === '', text);
      onstate('connecting', '');
      assert.deepEqual(page.state(), ['connecting …', text]);
      onstate('connected', '');
      assert.deepEqual([...page.state(), ...look()], ['connected', '', 'connected', 'long-polling']);
      onstate('stopped', why);
      assert.deepEqual([...page.state(), ...look()], ['not connected', '', 'stopped', why]);
      onstate('interrupted', 'fetch failed');
      assert.deepEqual(page.state(), ['connection lost, trying again …', '']);
    }
  }
});

test('ages, numbers and failed publishes as texts', () => {
  const { formatAge, formatNumber, publishErrorText } = Page.open(SITE, 'chat/index.html').run('({ formatAge, formatNumber, publishErrorText })');
  const ages = { 0: '0 s ago', 499: '0 s ago', 500: '1 s ago', 119499: '119 s ago', 119500: '2 min ago', 149499: '2 min ago', 149500: '3 min ago', 7200000: '120 min ago' };
  for (const [age, text] of Object.entries(ages)) assert.equal(formatAge(Number(age)), text);
  const numbers = [[0, '0'], [-0.126, '-0.13'], [1.004, '1'], [9.99, '9.99'], [-9.994, '-9.99'], [10, '10'], [10.06, '10.1'], [-12.34, '-12.3'], [-1234567.89, '-1,234,567.9'], [1e6, '1,000,000']];
  for (const [number, text] of numbers) assert.equal(formatNumber(number), text);
  // What failed, and words of the text.
  for (const [failure, ...words] of [
    [{ code: 'timeout', mayHaveArrived: true }, 'No answer', 'may have been sent'],
    [{ code: 'rejected', reply: 402 }, 'Not sent', 'a new one begins'],
    [{ code: 'disconnected' }, 'Not sent', 'not connected'],
    [{ code: 'http', status: 413, message: 'HTTP status 413' }, 'Not sent', 'too long'],
    [{ code: 'http', status: 404, message: 'HTTP status 404: Bayeux is at /cometd' }, 'Not sent', 'HTTP status 404: Bayeux is at /cometd'],
    ...[false, true].map((mayHaveArrived) => [{ code: 'forbidden', status: 403, mayHaveArrived }, 'Not sent', 'only read here']),
  ]) {
    const text = publishErrorText({ mayHaveArrived: false, ...failure });
    assert.ok(words.every((it) => text.includes(it)), text);
  }
});

// The example of the client's guide loads the state once it is connected and after a gap, and shows the newest one.
test('the example that loads the state', async () => {
  const page = new Page(SITE, '<p id="price"></p>');
  const states = [{ version: 1, price: 10 }, { version: 4, price: 13 }, { version: 4, price: 13 }];
  Object.assign(page.window, { fetch: async (url) => ({ json: async () => url === '/price.json' && states.shift() }) });
  const prices = [];
  const codes = [...read('../docs/CLIENT.md').matchAll(/^```js\n(.*?)^```$/gms)].map(([, code]) => code);
  page.run(codes.find((it) => it.includes('client.ongap = ')));
  const [[pattern, listener]] = page.client.listeners;
  assert.equal(pattern, '/price');
  for (const act of [() => {}, () => listener({ version: 3, price: 12 }), () => listener({ version: 2, price: 11 }), () => page.client.ongap(new Date())]) {
    act();
    await new Promise((go) => setTimeout(go));
    prices.push(page.element('price').textContent);
  }
  assert.deepEqual([prices, states.length], [['10', '12', '12', '13'], 1]);
});

// What a screen reader announces without being asked (WCAG 2, 4.1.3), and that the Content-Security-Policy allows all of a page.
test('the files of the pages', () => {
  for (const name of PAGES) {
    const text = read(name);
    const live = ['id="state" class="stopped" role="status"', 'id="error" role="alert"'];
    if (name.startsWith('chat/')) live.push('id="problem" role="alert"', 'aria-live="polite"');
    assert.deepEqual(live.filter((it) => !text.includes(it)), [], name);
    assert.deepEqual(text.match(/<script(?! src="[\w./-]+"><\/script>)|\son\w+=|javascript:|style=/g), null, `${name} has inline scripts or styles`);
  }
});
