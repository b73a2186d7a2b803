'use strict';
// A dashboard: a card with a live chart for each channel below /dashboard/ that gets numbers.

const PATTERN = '/dashboard/*';
// How many seconds the chart shows (`?seconds=NUMBER`).
const SECONDS = Number(PARAMETERS.get('seconds')) || 60;
// The box of the chart within its picture, in pixels. The picture is as wide as the card. `margin`:
// the space to the right of the box.
const BOX = { left: 50, margin: 8, top: 10, bottom: 144, height: 166 };
const MIN_WIDTH = 200;
// A number is old after three times the usual time between two numbers, and at least after three
// seconds (in milliseconds). The curve then has a gap.
const USUAL_TIMES = 3;
const MIN_OLD_AFTER = 3000;
const LINES = 4;

const cards = new Map();
let gaps = 0; // how often events may have been lost

/** The newest numbers of a channel, and their chart. */
class Card {
  constructor(channel) {
    this.points = [];
    this.root = element('card').content.firstElementChild.cloneNode(true);
    this.name = channel.split('/').pop().replaceAll('-', ' ');
    this.part('h2').textContent = this.name;
    this.part('.start').textContent = `${SECONDS} s ago`;
  }

  part(selector) {
    return this.root.querySelector(selector);
  }

  add(value) {
    this.points.push({ time: Date.now(), value, gaps });
    this.part('.value').textContent = formatNumber(value);
    this.draw();
  }

  // Returns the milliseconds after which a number is old.
  oldAfter() {
    const times = this.points.slice(1).map((point, index) => point.time - this.points[index].time).sort((a, b) => a - b);
    return Math.max(MIN_OLD_AFTER, USUAL_TIMES * (times[Math.floor(times.length / 2)] || 0));
  }

  // Returns the points in groups. Between two groups, numbers are missing.
  runs() {
    const runs = [];
    const oldAfter = this.oldAfter();
    this.points.forEach((point, index) => {
      const before = this.points[index - 1];
      if (!before || point.gaps > before.gaps || point.time - before.time > oldAfter) runs.push([]);
      runs[runs.length - 1].push(point);
    });
    return runs;
  }

  // Shows the age of the newest number if it is old.
  showAge(newest) {
    const age = Date.now() - newest.time;
    const isOld = age > this.oldAfter();
    const text = isOld ? formatAge(age) : '';
    this.root.classList.toggle('old', isOld);
    this.part('.age').textContent = text;
    this.part('svg').setAttribute('aria-label', `${this.name}: ${formatNumber(newest.value)} ${text || 'now'}, and the last ${SECONDS} seconds`);
  }

  // Draws the chart. Keeps one point that is older than the chart, so that the curve begins at the
  // left edge.
  draw() {
    const start = Date.now() - 1000 * SECONDS;
    while (this.points.length > 1 && this.points[1].time <= start) this.points.shift();
    const values = this.points.map((point) => point.value);
    const scale = scaleOf(values);
    const right = this.fit();
    const across = (time) => BOX.left + (right - BOX.left) * Math.max(0, (time - start) / (1000 * SECONDS));
    const up = (value) => BOX.bottom - (BOX.bottom - BOX.top) * ((value - scale.low) / (scale.high - scale.low));
    const spot = ({ time, value }) => `${across(time).toFixed(1)},${up(value).toFixed(1)}`;
    const foot = ({ time }) => `${across(time).toFixed(1)},${BOX.bottom}`;
    const newest = this.points[this.points.length - 1];
    const runs = this.runs().filter((run) => run[run.length - 1].time > start);

    // A group of one point is drawn as a dot: a line of length 0.
    this.part('.curve').setAttribute('d', runs.map((run) => `M${run.map(spot).join('L')}${run[1] ? '' : 'h0'}`).join(''));
    this.part('.area').setAttribute('d', runs.map((run) => `M${[foot(run[0]), ...run.map(spot), foot(run[run.length - 1])].join('L')}Z`).join(''));
    this.part('.newest').setAttribute('cx', across(newest.time));
    this.part('.newest').setAttribute('cy', up(newest.value));
    this.part('.newest').setAttribute('visibility', newest.time > start ? 'visible' : 'hidden');
    this.showAge(newest);
    this.drawGrid(scale, up, right);
    this.part('.min').textContent = formatNumber(Math.min(...values));
    this.part('.max').textContent = formatNumber(Math.max(...values));
    this.part('.average').textContent = formatNumber(values.reduce((sum, value) => sum + value, 0) / values.length);
  }

  // Makes the picture as wide as its card, so that its text keeps its size. Returns the right edge
  // of the box.
  fit() {
    const width = Math.max(MIN_WIDTH, this.part('svg').clientWidth);
    this.part('svg').setAttribute('viewBox', `0 0 ${width} ${BOX.height}`);
    this.part('.end').setAttribute('x', width - BOX.margin);
    return width - BOX.margin;
  }

  drawGrid(scale, up, right) {
    const parts = [];
    for (let line = 0; line <= LINES; line++) {
      const value = scale.low + ((scale.high - scale.low) * line) / LINES;
      const height = up(value);
      parts.push(shape('line', { x1: BOX.left, x2: right, y1: height, y2: height }));
      parts.push(shape('text', { x: BOX.left - 8, y: height + 4, 'text-anchor': 'end', class: 'label' }, formatBrief(value)));
    }
    this.part('.grid').replaceChildren(...parts);
  }
}

function shape(kind, attributes, text = '') {
  const made = document.createElementNS('http://www.w3.org/2000/svg', kind);
  for (const [name, value] of Object.entries(attributes)) made.setAttribute(name, value);
  made.textContent = text;
  return made;
}

// Returns round bounds for the axis that enclose `values` and 0.
function scaleOf(values) {
  const least = Math.min(0, ...values);
  const greatest = Math.max(0, ...values, least + 1e-9);
  const rough = (greatest - least) / LINES;
  const power = 10 ** Math.floor(Math.log10(rough));
  const step = [1, 2, 2.5, 5, 10].map((factor) => factor * power).find((size) => size >= rough);
  const low = Math.floor(least / step) * step;
  return { low, high: low + step * LINES < greatest ? low + 2 * step * LINES : low + step * LINES };
}

// Returns a short text for a number on the axis, such as 12.5K.
function formatBrief(value) {
  return value.toLocaleString('en', { notation: 'compact', maximumSignificantDigits: 3 });
}

const client = newClient();

client.addEventListener('gap', () => gaps++);
client.subscribe(PATTERN, (data, channel) => {
  if (typeof data !== 'number') return;
  element('empty').hidden = true;
  if (!cards.has(channel)) {
    cards.set(channel, new Card(channel));
    element('cards').append(...[...cards.keys()].sort().map((key) => cards.get(key).root));
  }
  cards.get(channel).add(data);
});

// The curve moves on even if no numbers arrive.
setInterval(() => cards.forEach((card) => card.draw()), 1000);
client.start();
