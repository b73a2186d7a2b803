'use strict';
// A chat: everybody who has joined publishes to one channel and is subscribed to it.

const CHANNEL = '/chat/hall';

// A server sends one's own messages back like those of others. So this window's messages carry this
// mark. A name would not do: two people may have the same one.
const OWN_MARK = Math.random().toString(36).slice(2);
// The list counts as read to the end if at most this many pixels follow.
const NEAR = 40;

let ownName = '';
let isSending = false;
let hasJoined = false; // whether the others know that this user has joined
let messageCount = 0; // how many messages this window has sent
let newest = {}; // the newest message that this window has sent
const waiting = []; // the texts to send after it

const client = newClient();
const presence = new Presence(client, `${CHANNEL}/presence`, showPresence);
client.onleave = () => {
  hasJoined = false;
  return [{ channel: CHANNEL, data: { name: ownName, left: true } }, presence.farewell()];
};
client.addEventListener('gap', ({ since }) => showNotice(`Messages since ${formatTime(since)} may be missing`));
client.addEventListener('state', ({ state }) => {
  if (state !== 'connected') return;
  showProblem('');
  if (!hasJoined) announce();
});

// Shows who is online, and who writes.
function showPresence() {
  const [names, writers] = [presence.names(), presence.writers()];
  showLine('online', names.length > 0 ? `Online: ${names.join(', ')}` : '');
  showLine('writing', writers.length > 0 ? `${writers.join(', ')} ${writers.length > 1 ? 'write' : 'writes'} …` : '');
}

function showLine(id, text) {
  if (element(id).textContent !== text) element(id).textContent = text;
  element(id).hidden = text === '';
}

// Shows an event. Others may publish anything, so the form of `data` is checked, and it is shown as
// text and never as HTML.
function showEvent(data) {
  if (typeof data?.name !== 'string') return;
  if (data.joined === true) showNotice(`${data.name} joined`);
  else if (data.left === true) showNotice(`${data.name} left`);
  else if (typeof data.text === 'string') {
    showMessage(data.name, data.text, data.mark === OWN_MARK);
    if (data.mark === OWN_MARK && data.number === newest.number) confirmNewest();
  }
}

// Takes the newest message out of the field if it had been put back there.
function confirmNewest() {
  const field = element('text');
  newest.hasArrived = true;
  if (!newest.isPutBack) return;
  if (field.value.startsWith(newest.text)) field.value = field.value.slice(newest.text.length).trimStart();
  showProblem('');
}

function showMessage(name, text, isOwn) {
  const item = document.createElement('li');
  const author = document.createElement('b');
  const body = document.createElement('p');
  const time = document.createElement('time');
  item.className = isOwn ? 'own' : 'other';
  item.style.setProperty('--hue', hueOf(name));
  author.textContent = name;
  body.textContent = text;
  time.textContent = formatTime(new Date());
  item.append(author, body, time);
  show(item);
}

function showNotice(text) {
  const item = document.createElement('li');
  item.className = 'notice';
  item.textContent = text;
  show(item);
}

function formatTime(date) {
  return date.toLocaleTimeString([], { hour: '2-digit', minute: '2-digit' });
}

// Appends `item` to the list. Scrolls to it if the user is at the end or has sent it.
function show(item) {
  const isRead = isAtEnd();
  element('messages').append(item);
  if (isRead || item.className === 'own') showEnd();
}

function isAtEnd() {
  const list = element('messages');
  return list.scrollHeight - list.scrollTop - list.clientHeight < NEAR;
}

function showEnd() {
  element('messages').scrollTop = element('messages').scrollHeight;
}

// Keeps the end in view if the list changes its size, such as when a phone is turned. A scroll event
// that comes with a new size is not the user's.
function keepEnd() {
  const list = element('messages');
  let isEndKept = true;
  let size = '';
  const sizeNow = () => `${list.clientWidth} ${list.clientHeight}`;
  list.addEventListener('scroll', () => {
    if (sizeNow() === size) isEndKept = isAtEnd();
  });
  new ResizeObserver(() => {
    size = sizeNow();
    if (isEndKept) showEnd();
  }).observe(list);
}

// Returns a hue, in degrees, that is the same for a name in all windows.
function hueOf(name) {
  let hue = 0;
  for (const character of name) hue = (hue * 31 + character.codePointAt(0)) % 360;
  return hue;
}

function showProblem(text) {
  element('problem').textContent = text;
  element('problem').hidden = text === '';
}

// Takes the text out of the field and sends it, after the texts that wait.
function send() {
  const field = element('text');
  if (field.value.trim() === '') return;
  waiting.push(field.value);
  field.value = '';
  if (!isSending) sendWaiting();
}

// Sends one message at a time. A message that may not have been sent is put back into the field,
// with those that wait and before what was typed meanwhile. It leaves the field if it arrives after
// all.
async function sendWaiting() {
  const field = element('text');
  isSending = true;
  while (waiting.length > 0) {
    const text = waiting.shift();
    showProblem('');
    newest = { number: ++messageCount, text, hasArrived: false, isPutBack: false };
    try {
      await client.publish(CHANNEL, { name: ownName, text, mark: OWN_MARK, number: newest.number });
    } catch (failure) {
      if (newest.hasArrived) continue;
      newest.isPutBack = true;
      field.value = [text, ...waiting.splice(0), field.value].filter((it) => it !== '').join(' ');
      showProblem(publishErrorText(failure));
    }
  }
  isSending = false;
}

keepEnd();

element('join').addEventListener('submit', (event) => {
  event.preventDefault();
  ownName = element('name').value.trim();
  if (ownName === '') {
    element('name').value = '';
    element('name').reportValidity();
    return;
  }
  element('join').hidden = true;
  element('messages').hidden = false;
  element('write').hidden = false;
  element('text').focus();
  client.subscribe(CHANNEL, showEvent);
  presence.join(ownName);
  client.start();
});

// Publishes that this user has joined.
function announce() {
  hasJoined = true;
  client.publish(CHANNEL, { name: ownName, joined: true }).catch((failure) => {
    if (failure.status === 403) showProblem(publishErrorText(failure));
  });
}

element('text').addEventListener('input', () => presence.write());

element('write').addEventListener('submit', (event) => {
  event.preventDefault();
  send();
});
