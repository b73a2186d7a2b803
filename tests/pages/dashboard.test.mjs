// The dashboard and the page of metrics without a browser.
import assert from 'node:assert/strict';
import { define, HOSTILE, Page, SITE, test } from './page_place.mjs';

const text = (root, part) => root.querySelector(part).textContent;
const attributes = (root, part, ...names) => names.map((it) => root.querySelector(part).getAttribute(it));

/** Returns a dashboard whose charts show `seconds`, what publishes a number to a channel below /dashboard/, and its cards. */
function dashboard(seconds = 60) {
  const page = Page.open(`${SITE}?seconds=${seconds}`, 'dashboard/index.html');
  const [[pattern, listener]] = page.client.listeners;
  assert.equal(pattern, '/dashboard/*');
  return { page, publish: (value, name = 'x') => listener(value, `/dashboard/${name}`), cards: () => [...page.document.querySelectorAll('.card')] };
}

/** Returns all that a card shows, except its grid. */
function cardOf(root) {
  const texts = ['h2', '.value', '.age', '.min', '.average', '.max', '.start'].map((it) => text(root, it));
  const [[size, label], newest] = [attributes(root, 'svg', 'viewBox', 'aria-label'), attributes(root, '.newest', 'visibility', 'cx', 'cy')];
  const picture = [size, ...attributes(root, '.end', 'x'), ...newest, ...attributes(root, '.curve', 'd'), ...attributes(root, '.area', 'd')];
  return [texts.join(), label, root.classList.contains('old'), picture.join(' ')];
}

// All that a card shows of 10 at once and 20 after ten seconds, in a chart of 20 seconds: from x = 50 to 8 before the right edge, and
// from y = 144 for 0 to y = 10 for the end of the axis. The last number before the chart stays, so that the curve begins at its edge.
test('all that a card shows', () => {
  for (const [width, right, middle, quarter] of [[600, 592, '321.0', '185.5'], [900, 892, '471.0', '260.5'], [150, 192, '121.0', '85.5']]) {
    const { page, publish, cards } = dashboard(20);
    publish(10, 'a/x-y-z');
    const [root] = cards();
    define(root.querySelector('svg'), { clientWidth: width });
    page.wait(0);
    const size = `0 0 ${Math.max(width, 200)} 166 ${right}`;
    const edge = `${right}.0`;
    // The seconds that pass, the number that comes then, and what is shown: texts, a label, whether the number is old, and a picture.
    for (const [seconds, value, texts, label, isOld, picture] of [
      [0, 10, '10,,10,10,10', '10 now', false, `visible ${right} 10 M${edge},10.0L${edge},10.0 M${edge},144L${edge},10.0L${edge},10.0L${edge},144Z`],
      [10, 20, '20,,10,13.3,20', '20 now', false, `visible ${right} 10 M${middle},77.0L${middle},77.0L${edge},10.0 M${middle},144L${middle},77.0L${middle},77.0L${edge},10.0L${edge},144Z`],
      [15, null, '20,,10,15,20', '20 now', false, `visible ${quarter} 10 M50.0,77.0L${quarter},10.0 M50.0,144L50.0,77.0L${quarter},10.0L${quarter},144Z`],
      [5, null, '20,20 s ago,20,20,20', '20 20 s ago', true, 'hidden 50 10  '],
    ]) {
      page.wait(seconds);
      if (value !== null) publish(value, 'a/x-y-z');
      assert.deepEqual(cardOf(root), [`x y z,${texts},20 s ago`, `x y z: ${label}, and the last 20 seconds`, isOld, `${size} ${picture}`]);
    }
  }
});

test('cards are for numbers, sorted by their channels, and a name is text', () => {
  const { page, publish, cards } = dashboard();
  for (const data of [null, '1', true, [1], { value: 1 }]) publish(data);
  assert.deepEqual([cards().length, page.element('empty').hidden], [0, false]);
  for (const name of ['b', HOSTILE, 'a-long-name', 'b']) publish(1, name);
  assert.deepEqual([cards().map((it) => text(it, 'h2')), page.element('empty').hidden], [[HOSTILE, 'a long name', 'b'].map((it) => it.replaceAll('-', ' ')), true]);
});

// A number is old after three times the usual pause between two numbers, and after three seconds. The curve then has a gap.
test('old numbers, and gaps in the curve', () => {
  const pieces = (root) => attributes(root, '.curve', 'd')[0].split('M').length - 1;
  // The seconds between numbers, those after which the last one is old, and how many pieces the curve has with the next one. Its
  // pause counts too.
  for (const [pauses, limit, count] of [[[], 3, 1], [[1, 1, 1], 3, 2], [[2, 10, 4], 12, 1], [[900, 900], 2700, 2]]) {
    const { page, publish, cards } = dashboard(7200);
    publish(5);
    const [root] = cards();
    const state = () => [text(root, '.age'), root.classList.contains('old')];
    const wait = (seconds) => {
      page.now += 1000 * (seconds - 1);
      page.wait(1);
    };
    for (const pause of pauses) {
      wait(pause);
      publish(5);
    }
    wait(limit);
    assert.deepEqual(state(), ['', false]);
    wait(1);
    assert.deepEqual([...state(), pieces(root)], [limit < 120 ? `${limit + 1} s ago` : '45 min ago', true, 1]);
    publish(7);
    assert.deepEqual([...state(), pieces(root)], ['', false, count]);
  }
  const { page, publish, cards } = dashboard();
  publish(1);
  for (const _ of [1, 2]) page.client.ongap();
  publish(2);
  assert.equal(pieces(cards()[0]), 2, 'events may be missing');
});

test('many numbers leave the chart at once', () => {
  const { page, publish, cards } = dashboard();
  for (let number = 0; number < 100; number++) publish(number);
  page.wait(61);
  assert.deepEqual(['.min', '.average', '.max'].map((it) => text(cards()[0], it)), ['99', '99', '99']);
});

// The axis encloses all values and 0, and begins at 0 if none is negative. It has five lines, and each value is where the axis has it.
test('the axis encloses all values and 0', () => {
  for (const values of [[0], [0, 0.004], [-5, 100], [-100, 5], [-3, -2, -1], [99.9, 100.1], [-7, 7], [1e9, 1], [-0.001, 2.5], [-1, 199]]) {
    const { page, publish, cards } = dashboard();
    for (const value of values) {
      publish(value);
      page.wait(1);
    }
    const [card] = cards();
    const lines = [...card.querySelectorAll('.grid line')].map((it) => ['x1', 'x2', 'y1', 'y2'].map((name) => Number(it.getAttribute(name))));
    const { low, high } = page.run('({ scaleOf })').scaleOf(values);
    const [least, greatest] = [Math.min(...values), Math.max(...values)];
    assert.ok(low <= Math.min(0, least) && high >= Math.max(0, greatest) && high > low && (least < 0 || low === 0), `${values}: from ${low} to ${high}`);
    assert.deepEqual(lines.map(([x1, x2, y1, y2]) => [x1, x2, y1 - y2]), Array(5).fill([50, 592, 0]), `${values}`);
    assert.deepEqual([lines[0][2], lines[4][2]], [144, 10], `${values}`);
    const labels = [...card.querySelectorAll('.grid text')].map((it) => it.textContent);
    const wanted = [0, 1, 2, 3, 4].map((line) => low + ((high - low) * line) / 4);
    assert.deepEqual(labels, wanted.map((it) => it.toLocaleString('en', { notation: 'compact', maximumSignificantDigits: 3 })), `${values}`);
    const heights = attributes(card, '.curve', 'd')[0].match(/(?<=,)[\d.]+/g).map(Number);
    heights.forEach((y, at) => assert.ok(Math.abs(144 - (134 * (values[at] - low)) / (high - low) - y) < 0.1, `${values}: ${values[at]} is at ${y}`));
  }
});

// What is shown of metrics: a name, its meaning, and for each label a number and its change. Others than numbers are left out.
test('the page of metrics', () => {
  const page = Page.open(SITE, 'dashboard/metrics.html');
  const listener = page.client.listeners.get('/metrics/all');
  const age = () => [page.element('age').hidden, page.element('age').textContent, page.element('metrics').classList.contains('old')];
  for (const data of [null, 5, 'text', {}, ...[null, 5, 'text'].map((metrics) => ({ metrics }))]) listener(data, '/metrics/all');
  page.wait(10);
  assert.deepEqual([page.element('metrics').children.length, page.element('empty').hidden, ...age(), page.client.isStarted], [0, false, true, 'Received 0 s ago.', false, true]);
  const quoted = HOSTILE.replaceAll('"', "'");
  const named = `bayeux_x_total{kind="${quoted}",other="{b}",third="c"}`;
  const help = { bayeux_sessions: HOSTILE, bayeux_lag: 'The lag.', bayeux_own: 'Another.', bayeux_own_sum: 'Its own.', bayeux_a_total_b: 'Another.' };
  const publish = (changed = {}, meanings = help) => {
    const zeros = Object.fromEntries([1, 0, -2, 0].map((value, at) => [`bayeux_z{a="${at}"}`, value]));
    const metrics = {
      bayeux_sessions: 3, [named]: 10, 'bayeux_x_total{kind="c"}': 0, 'bayeux_lag_bucket{le="1"}': 4, bayeux_lag_count: 7, 'bayeux_<b>zero': 0,
      bayeux_text: '3', 'bayeux_y{a="1"}': 0, 'bayeux_y{a="2"}': 0, bayeux_a_total_count_b: 5, bayeux_own_sum: 6, ...zeros,
    };
    listener({ metrics: { ...metrics, bayeux_uptime_seconds_total: page.now / 1000, ...changed }, help: meanings }, '/metrics/all');
  };
  const shown = () => [...page.element('metrics').children].map((root) => {
    const [label, value, change] = ['dt', 'dd:not(.change)', '.change'].map((part) => [...root.querySelectorAll(part)].map((it) => it.textContent));
    return [...['h2', 'code', '.meaning'].map((it) => text(root, it)), label.map((it, at) => [it, value[at], change[at]].join(' ').trim()).join(', ')];
  });
  publish();
  assert.deepEqual(shown(), [
    ['sessions', 'bayeux_sessions', HOSTILE, '3'],
    ['x (total)', 'bayeux_x_total', '', `${quoted},{b},c 10`],
    ['lag bucket', 'bayeux_lag_bucket', 'The lag.', '1 4'],
    ['lag count', 'bayeux_lag_count', 'The lag.', '7'],
    ['<b>zero', 'bayeux_<b>zero', '', '0'],
    ['y', 'bayeux_y', '', 'each 0'],
    ['a total count b', 'bayeux_a_total_count_b', '', '5'],
    ['own sum', 'bayeux_own_sum', 'Its own.', '6'],
    ['z', 'bayeux_z', '', '0 1, 2 -2'],
    ['uptime seconds (total)', 'bayeux_uptime_seconds_total', '', (page.now / 1000).toLocaleString('en')],
  ]);
  // The change in a second of a metric that was there before, if it changes. That of the same moment has none, nor has the uptime.
  const changed = () => shown().map((it) => it[3]).filter((it) => /\/s$/.test(it));
  for (const [seconds, metrics, wanted] of [
    [3, { [named]: 11 }, [`${quoted},{b},c 11 +0.33/s`]], [0, { [named]: 12 }, []], [4, { [named]: 2, bayeux_new: 1 }, [`${quoted},{b},c 2 −2.5/s`]],
    [1, { [named]: 2, bayeux_new: 1 }, []],
  ]) {
    page.wait(seconds);
    publish(metrics, seconds === 4 ? null : help);
    assert.deepEqual(changed(), wanted);
  }
  page.wait(5);
  assert.deepEqual([...age(), page.element('empty').hidden], [true, 'Received 5 s ago.', false, true]);
  page.wait(1);
  assert.deepEqual(age(), [false, 'Received 6 s ago.', true]);
  publish({}, 'no help');
  assert.deepEqual(age(), [true, 'Received 0 s ago.', false]);
});
