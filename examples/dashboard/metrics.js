'use strict';
// The server's own metrics in cards. The feed publishes them as
// { metrics: {NAME: NUMBER}, help: {NAME: TEXT} }. A NAME in `metrics` may have labels, such as
// bayeux_replies_total{kind="publish"}.

const CHANNEL = '/metrics/all';
const UPTIME = 'bayeux_uptime_seconds_total';
// Metrics are old after this time, in milliseconds.
const OLD_AFTER = 5000;

let before = null;

/** Returns the card of a metric, with its meaning and a line for each label. */
function card(name, lines, help, time) {
  const root = element('card').content.firstElementChild.cloneNode(true);
  root.querySelector('h2').textContent = name.replace('bayeux_', '').replace(/_total$/, ' (total)').replaceAll('_', ' ');
  root.querySelector('code').textContent = name;
  // The metrics of a histogram share its meaning.
  root.querySelector('.meaning').textContent = help[name] || help[name.replace(/_(?:bucket|sum|count)$/, '')] || '';
  // If there are several lines, those with 0 are left out.
  const shown = lines.length > 1 ? lines.filter(({ value }) => value !== 0) : lines;
  if (shown.length === 0) shown.push({ label: 'each', value: 0 });
  root.querySelector('dl').append(...shown.flatMap((line) => [
    part('dt', line.label), part('dd', formatNumber(line.value)), part('dd', changeOf(line, time), 'change'),
  ]));
  return root;
}

function part(kind, text, name = '') {
  const made = document.createElement(kind);
  made.className = name;
  made.textContent = text;
  return made;
}

// Returns the text for the change of a metric per second since the metrics before, or '' if none.
// The uptime has none, because it always grows by one.
function changeOf({ key, value }, time) {
  if (key === UPTIME || !before || !(key in before.metrics) || time <= before.time) return '';
  const change = (1000 * (value - before.metrics[key])) / (time - before.time);
  return change === 0 ? '' : `${change > 0 ? '+' : '−'}${formatNumber(Math.abs(change))}/s`;
}

function show({ metrics, help }) {
  const time = Date.now();
  const families = new Map();
  for (const [key, value] of Object.entries(metrics)) {
    if (typeof value !== 'number') continue;
    const [, name, label] = key.match(/^([^{]*)(.*)$/);
    // {kind="publish"} is shown as publish.
    const labels = label.replace(/^{|}$/g, '').replace(/\w+="([^"]*)"/g, '$1');
    families.set(name, [...(families.get(name) || []), { key, label: labels, value }]);
  }
  element('empty').hidden = true;
  element('metrics').replaceChildren(...[...families].map(([name, lines]) => card(name, lines, help, time)));
  before = { metrics, time };
  showAge();
}

// Shows the age of the metrics if they are old.
function showAge() {
  const age = before ? Date.now() - before.time : 0;
  element('metrics').classList.toggle('old', age > OLD_AFTER);
  element('age').hidden = age <= OLD_AFTER;
  element('age').textContent = `Received ${formatAge(age)}.`;
}

const isObject = (it) => typeof it === 'object' && it !== null;

const client = newClient();
client.subscribe(CHANNEL, (data) => {
  if (isObject(data) && isObject(data.metrics)) show({ metrics: data.metrics, help: isObject(data.help) ? data.help : {} });
});
setInterval(showAge, 1000);
client.start();
