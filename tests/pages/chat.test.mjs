// The chat without a browser.
import assert from 'node:assert/strict';
import { define, HOSTILE, Page, test } from './page_place.mjs';

const nextTurn = () => new Promise((go) => setTimeout(go));
const timeOf = (milliseconds) => new Date(milliseconds).toLocaleTimeString([], { hour: '2-digit', minute: '2-digit' });

/** Returns a chat in which the user `name` has joined. */
function join(name) {
  const page = Page.open('https://site.example/chat/', 'chat/index.html');
  page.element('name').value = name;
  submit(page, 'join');
  return page;
}

/** Sends a form as the browser does, which must not load the page again. */
function submit(page, form) {
  assert.ok(page.dispatch(page.element(form), 'submit'), `the form ${form} loads the page again`);
}

/** Returns what is shown of a chat, the text in its field, its problem, and the class and the texts of each item of its list. */
function chatOf(page) {
  const parts = ['join', 'messages', 'write', 'problem'].filter((it) => !page.element(it).hidden).join(' ');
  const items = [...page.element('messages').children].map((it) => [it.className, ...[...it.childNodes].map(({ textContent }) => textContent)]);
  return [parts, page.element('text').value, page.element('problem').textContent, items];
}

test('joining', () => {
  for (const blank of ['', '   ']) {
    const page = join('');
    const name = page.element('name');
    let reports = 0;
    name.addEventListener('invalid', () => reports++);
    name.value = blank;
    submit(page, 'join');
    assert.deepEqual([chatOf(page), reports, name.value, page.client.isStarted, page.client.listeners.size], [['join', '', '', []], 1, '', false, 0]);
  }
  const page = join(` ${HOSTILE} `);
  const { client, publishes } = page;
  assert.deepEqual([chatOf(page), page.document.activeElement.id], [['messages write', '', '', []], 'text']);
  assert.deepEqual([client.isStarted, [...client.listeners.keys()], page.state(), publishes], [true, ['/chat/hall', '/chat/hall/presence'], ['not connected', ''], []]);
  // One joins once, and again after one has left, for example to another page.
  const joins = ['/chat/hall', { name: HOSTILE, joined: true }];
  for (const state of ['connecting', 'connected', 'interrupted', 'connected']) client.onstate(state, 'fetch failed');
  assert.deepEqual([publishes, page.state()], [[joins], ['connected', '']]);
  const [left, gone] = JSON.parse(JSON.stringify(client.onleave()));
  assert.deepEqual([left, gone.channel, gone.data.left], [{ channel: '/chat/hall', data: { name: HOSTILE, left: true } }, '/chat/hall/presence', true]);
  for (const state of ['stopped', 'connecting', 'connected', 'connected']) client.onstate(state, '');
  assert.deepEqual(publishes, [joins, joins]);
});

test('messages, their authors and times', async () => {
  const page = join('Ann');
  const listener = page.client.listeners.get('/chat/hall');
  const wrong = [null, undefined, 5, 'text', [], {}, { name: 5, text: 'x' }, { text: 'x' }, { name: 'Ann' }, { name: 'Ann', text: 5 }];
  for (const data of [...wrong, ...['joined', 'left'].map((it) => ({ name: 'Ann', [it]: 'yes' }))]) listener(data);
  assert.deepEqual(chatOf(page)[3], [], 'what has another form is not shown');
  for (const data of [{ joined: true }, { left: true }, { text: HOSTILE }]) listener({ name: HOSTILE, ...data });
  page.client.ongap(new Date(page.now - 3600000));
  const notices = [`${HOSTILE} joined`, `${HOSTILE} left`, `Messages since ${timeOf(page.now - 3600000)} may be missing`].map((it) => ['notice', it]);
  notices.splice(2, 0, ['other', HOSTILE, HOSTILE, timeOf(page.now)]);
  assert.deepEqual(chatOf(page), ['messages write', '', '', notices]);
  // A name has the same colour in each window, and others have other colours, also those of the same letters.
  const names = ['Ann', 'Cleo', 'Oelc', 'Ken', 'Ümit \u{1f600}', 'Annabella Jones', 'Annabella Jonas', 'Onnabella Jones'];
  const [hues, others] = [page, join('Dan')].map((it) => names.map((name) => {
    it.client.listeners.get('/chat/hall')({ name, text: 'x' });
    return it.element('messages').lastChild.style.getPropertyValue('--hue');
  }));
  assert.deepEqual([hues, new Set(hues).size, hues.filter((it) => !(it >= 0 && it < 360))], [others, names.length, []]);
});

// docs/CLIENT.md, "Where a publish fails", and examples/README.md: a message that may not have been sent returns to the field, and
// leaves it if it arrives later.
test('a message that may not have been sent returns to the field', async () => {
  const page = join('Ann');
  const listener = page.client.listeners.get('/chat/hall');
  const field = page.element('text');
  const sent = () => page.publishes.map(([, { text }]) => text);
  const shown = () => [page.element('problem').hidden ? '' : page.element('problem').textContent, field.value];
  const write = (text) => {
    field.value = text;
    submit(page, 'write');
  };
  const end = async (failure) => {
    if (failure) page.publish.reject(failure);
    else page.publish.resolve();
    await nextTurn();
  };
  const [lost, refused] = [{ code: 'timeout', mayHaveArrived: true }, { code: 'rejected', reply: 402, mayHaveArrived: false }];
  const [unsure, failed] = [lost, refused].map(page.run('publishErrorText'));
  page.isSlow = true;
  for (const text of ['', '  ', ' Once', 'Twice', 'Third', 'Fourth']) write(text);
  assert.deepEqual([sent(), shown()], [[' Once'], ['', '']], 'one message at a time, and none that is blank');
  field.value = ' Once more ';
  // It may arrive before its response, and what was typed meanwhile stays.
  listener(page.publishes[0][1]);
  await end();
  assert.deepEqual([sent(), shown()], [[' Once', 'Twice'], ['', ' Once more ']]);
  await end(lost);
  assert.deepEqual([sent(), shown()], [[' Once', 'Twice'], [unsure, 'Twice Third Fourth  Once more ']]);
  // Only the message itself takes its text out of the field, not one before it or of another window.
  const [, [channel, late]] = page.publishes;
  for (const other of [page.publishes[0][1], { ...late, mark: 'another' }, { ...late, number: late.number + 1 }]) listener(other);
  assert.deepEqual(shown(), [unsure, 'Twice Third Fourth  Once more ']);
  listener(late);
  assert.deepEqual(shown(), ['', 'Third Fourth  Once more ']);
  assert.deepEqual([channel, Object.keys(late), late.name, chatOf(page)[3].map(([kind]) => kind)], ['/chat/hall', ['name', 'text', 'mark', 'number'], 'Ann', ['own', 'own', 'other', 'own', 'own']]);
  // A message that arrives before its failure does not return.
  write('Fifth');
  listener(page.publishes[2][1]);
  await end(lost);
  assert.deepEqual([sent().slice(2), shown()], [['Fifth'], ['', '']]);
  // The text stays if the user has changed it.
  write('Sixth');
  await end(refused);
  assert.deepEqual(shown(), [failed, 'Sixth']);
  field.value = 'Not the Sixth';
  listener(page.publishes[3][1]);
  assert.deepEqual(shown(), ['', 'Not the Sixth']);
  // The problem ends once the page is connected, or once the user sends again.
  for (const finish of [() => page.client.onstate('connected', ''), () => submit(page, 'write')]) {
    write('Seventh');
    await end(refused);
    page.client.onstate('interrupted', 'fetch failed');
    assert.deepEqual(shown(), [failed, 'Seventh']);
    finish();
    assert.equal(shown()[0], '');
    await end();
  }
  assert.deepEqual(sent().slice(3), ['Sixth', 'Seventh', undefined, 'Seventh', 'Seventh']);
  const own = page.publishes.map(([, it]) => it).filter(({ text }) => text);
  assert.deepEqual(own.map(({ mark, number }) => [mark, number]), own.map((_, at) => [late.mark, at + 1]));
  assert.ok(late.mark.length > 5 && join('Ann').run('OWN_MARK') !== late.mark);
});

// Who is online: all whose page has said so, until they leave or say nothing for too long (examples/common/presence.js).
test('who is online, and who writes', () => {
  const page = join('Ann');
  const listener = page.client.listeners.get('/chat/hall/presence');
  const shown = () => ['online', 'writing'].map((id) => (page.element(id).hidden ? '' : page.element(id).textContent));
  const beats = () => page.beats.splice(0).map(([channel, { id, name, ...more }]) => [channel, name, more]);
  const plain = { seconds: 5, asks: false, writes: false };
  assert.deepEqual([shown(), beats()], [['', ''], []], 'before it is connected');
  page.client.onstate('connected', '');
  const own = page.beats[0][1];
  assert.deepEqual(beats(), [['/chat/hall/presence', 'Ann', { ...plain, asks: true }]]);
  for (const data of [own, { ...plain, id: 'b', name: HOSTILE }, { ...plain, id: 'c', name: 'Cleo', asks: true }, { ...plain, id: 'd', name: 'Cleo' }]) listener(data);
  assert.deepEqual([shown(), beats()], [[`Online: ${HOSTILE}, Ann, Cleo`, ''], [['/chat/hall/presence', 'Ann', plain]]], 'who comes is answered');
  for (const data of [null, 5, 'x', {}, { id: 'x' }, { id: 5, name: 'x' }, { id: 'x', name: {} }]) listener(data);
  assert.equal(shown()[0], `Online: ${HOSTILE}, Ann, Cleo`, 'what has another form is not shown');
  // One's own writing is not shown to oneself, and it is published once a second at most.
  for (const _ of [1, 2]) page.dispatch(page.element('text'), 'input');
  assert.deepEqual(beats(), [['/chat/hall/presence', 'Ann', { ...plain, writes: true }]]);
  listener({ ...own, writes: true });
  assert.equal(shown()[1], '');
  listener({ ...plain, id: 'd', name: 'Cleo', writes: true });
  assert.equal(shown()[1], 'Cleo writes …');
  listener({ ...plain, id: 'b', name: 'Ben', writes: true });
  assert.equal(shown()[1], 'Ben, Cleo write …');
  listener({ id: 'b', name: 'Ben', left: true });
  page.wait(4);
  assert.deepEqual(shown(), ['Online: Ann, Cleo', '']);
  // A heartbeat every five seconds. Who has sent none is gone after 13 seconds, in a hidden page after 68.
  listener({ ...plain, id: 'h', name: 'Hidden', seconds: 60 });
  page.wait(1);
  assert.deepEqual(beats(), [['/chat/hall/presence', 'Ann', plain]]);
  listener(own);
  page.wait(10);
  assert.deepEqual(shown()[0], 'Online: Ann, Hidden');
  define(page.document, { hidden: true });
  page.beats.splice(0);
  page.dispatch(page.document, 'visibilitychange');
  page.wait(58);
  assert.deepEqual([shown()[0], beats()], ['', [['/chat/hall/presence', 'Ann', { ...plain, seconds: 60 }]]]);
  // The list is bounded, and so is a name.
  for (let number = 0; number < 600; number++) listener({ ...plain, id: `${number}`, name: `${number}`.padEnd(50, 'x') });
  const names = shown()[0].split(', ');
  assert.deepEqual([names.length, names.at(-1).length], [500, 40]);
});

// Where pages may only read, the page says so at once. Other failures of the first publish show in the state.
test('a page that may only read', async () => {
  for (const failure of [{ code: 'forbidden', status: 403, mayHaveArrived: false }, { code: 'timeout', mayHaveArrived: true }]) {
    const page = join('Ann');
    page.failure = failure;
    page.client.onstate('connected', '');
    await nextTurn();
    const isShown = failure.status === 403;
    assert.deepEqual(chatOf(page).slice(0, 3), [`messages write${isShown ? ' problem' : ''}`, '', isShown ? page.run('publishErrorText')(failure) : '']);
  }
});

// The list shows what the user sends, also to a user who reads further up. What others send does not move the list then.
test('the list shows what the user sends', () => {
  for (const [top, isOwn, wanted] of [[900, false, 1000], [900, true, 1000], [861, false, 1000], [859, false, 859], [0, false, 0], [0, true, 1000]]) {
    for (const data of [{ text: 'Hello' }, ...(isOwn ? [] : [{ joined: true }, { left: true }])]) {
      const page = join('Ann');
      const mark = isOwn ? page.run('OWN_MARK') : 'another';
      const list = page.element('messages');
      define(list, { scrollHeight: 1000, clientHeight: 100, scrollTop: top });
      page.client.listeners.get('/chat/hall')({ name: 'Ann', mark, number: 1, ...data });
      assert.deepEqual([list.children.length, list.scrollTop], [1, wanted], `${JSON.stringify(data)} at ${top}, own: ${isOwn}`);
    }
  }
});
