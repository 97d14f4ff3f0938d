// What the operators' page asks for, reads and shows.
'use strict';

const EVERY = 5;              // seconds between two questions
const HOUR = 3600;            // seconds that are kept
const SVG_HEIGHT = 100;       // as in the plots' viewBox
// What to do if no numbers have come since the page was opened.
const HINT = 'Is the service running, do its settings have the key status, and does nginx lead /metrics to the same address?'
  + ' For instance, set status = "127.0.0.1:9090" in the settings, and restart the service.';

const byId = id => document.getElementById(id);
const seen = [];              // { time, memory, mementos } of the last hour, the oldest first

// ---- reading Prometheus' text format ----

const SAMPLE = /^([A-Za-z_]\w*)(?:\{(.*)\})? (\d+)$/;
const LABEL = /([A-Za-z_]\w*)="((?:[^"\\]|\\.)*)"/g;
const ESCAPES = { '\\\\': '\\', '\\"': '"', '\\n': '\n' };

// The samples of each metric, by its name: { labels, value }.
function readMetrics(text) {
  const metrics = new Map();
  for (const line of text.split('\n')) {
    const type = /^# TYPE (\S+) /.exec(line), sample = SAMPLE.exec(line);
    if (type) metrics.set(type[1], []);
    if (!sample) continue;
    const labels = {};
    for (const [, name, value] of (sample[2] || '').matchAll(LABEL)) labels[name] = value.replace(/\\./g, pair => ESCAPES[pair] ?? pair);
    metrics.get(sample[1])?.push({ labels, value: Number(sample[3]) });
  }
  return metrics;
}

const samplesOf = (metrics, name) => metrics.get(name) ?? [];
const valueOf = (metrics, name) => samplesOf(metrics, name)[0]?.value;

// The values of a metric by two of its labels: a map of maps, each in the order of the text.
function byLabels(metrics, name, outer, inner) {
  const rows = new Map();
  for (const { labels, value } of samplesOf(metrics, name)) {
    if (!rows.has(labels[outer])) rows.set(labels[outer], new Map());
    rows.get(labels[outer]).set(labels[inner], value);
  }
  return rows;
}

const byLabel = (metrics, name, label) => new Map(samplesOf(metrics, name).map(sample => [sample.labels[label], sample.value]));

// ---- words ----

const number = n => n === undefined ? '?' : n.toLocaleString('en');
const words = text => text.replaceAll('_', ' ');
const megabytes = bytes => bytes === undefined ? '?' : number(Math.round(bytes / 1048576)) + ' MiB';
const clock = second => new Date(1000 * second).toLocaleTimeString('en-GB');

function age(seconds) {
  if (seconds < 120) return Math.max(0, seconds) + ' s';
  if (seconds < 7200) return Math.round(seconds / 60) + ' min';
  return Math.round(seconds / 3600) + ' h';
}

// The outcomes that are no success, the most frequent first.
function faultsOf(outcomes, good) {
  const bad = [...outcomes].filter(([outcome, count]) => count && !good.includes(outcome)).sort((a, b) => b[1] - a[1]);
  return { count: bad.reduce((sum, [, count]) => sum + count, 0), why: bad.map(([outcome, count]) => words(outcome) + ' ' + number(count)).join(', ') };
}

// ---- showing ----

// Puts rows of cells into a table. A cell is a text, or a text and a class.
function fill(table, rows) {
  table.tBodies[0].replaceChildren(...rows.map(({ cells, kind }) => {
    const row = document.createElement('tr');
    row.className = kind ?? '';
    for (const cell of cells) {
      const [text, name] = Array.isArray(cell) ? cell : [cell, ''];
      const data = row.insertCell();
      data.textContent = text;
      data.className = name;
    }
    return row;
  }));
}

function showRound(metrics) {
  const jobs = valueOf(metrics, 'maplewrench_round_jobs'), done = valueOf(metrics, 'maplewrench_round_jobs_done');
  byId('done').max = Math.max(1, jobs);
  byId('done').value = jobs ? done : 1;
  byId('round').textContent = number(done) + ' of ' + number(jobs) + ' jobs are done, ' + number(valueOf(metrics, 'maplewrench_round_jobs_passed_over'))
    + ' of them passed over; ' + number(valueOf(metrics, 'maplewrench_rounds_total')) + ' rounds were made.';
}

// Until when an archive isn't asked: one that is dormant, or one that asked to be left alone.
function pausedUntil(dormant, aside, now) {
  if (dormant) return dormant > now ? clock(dormant) : 'being tried';
  return aside > now ? clock(aside) + ' (busy)' : '';
}

function archiveRow(name, outcomes, seconds, until) {
  const walks = [...outcomes.values()].reduce((sum, count) => sum + count, 0), faults = faultsOf(outcomes, ['whole', 'part', 'busy']);
  return {
    kind: until ? 'dormant' : '',
    cells: [name, number(walks), number(outcomes.get('whole')), number(outcomes.get('part')), number(outcomes.get('busy')), number(faults.count),
      [faults.why, 'text'], walks ? (seconds / walks).toFixed(1) : '', until],
  };
}

function showArchives(metrics, now) {
  const seconds = byLabel(metrics, 'maplewrench_walk_seconds_total', 'archive');
  const dormant = byLabel(metrics, 'maplewrench_archive_dormant_until_timestamp_seconds', 'archive');
  const aside = byLabel(metrics, 'maplewrench_archive_aside_until_timestamp_seconds', 'archive');
  const rows = [...byLabels(metrics, 'maplewrench_walks_total', 'archive', 'outcome')]
    .map(([name, outcomes]) => archiveRow(name, outcomes, seconds.get(name), pausedUntil(dormant.get(name), aside.get(name), now)));
  const asleep = rows.filter(row => row.kind).length;
  byId('asleep').textContent = asleep ? asleep + ' of ' + rows.length + ' archives aren’t asked for a while.' : 'All ' + rows.length + ' archives are asked.';
  fill(byId('archives'), rows);
}

function showPeers(metrics, now) {
  // Two peers can have one base, so each is known by its number.
  const last = samplesOf(metrics, 'maplewrench_peer_last_delta_timestamp_seconds');
  const pulls = byLabels(metrics, 'maplewrench_pulls_total', 'number', 'outcome');
  const rows = last.map(({ labels, value: second }) => {
    const outcomes = pulls.get(labels.number) ?? new Map(), faults = faultsOf(outcomes, ['news', 'no_news']);
    return { cells: [labels.peer, number(outcomes.get('news')), number(outcomes.get('no_news')), number(faults.count), [faults.why, 'text'],
      second ? age(now - second) + ' ago' : ['never', 'bad']] };
  });
  byId('peers-part').hidden = !rows.length;
  fill(byId('peers'), rows);
}

function showGates(metrics) {
  const gates = byLabels(metrics, 'maplewrench_replies_total', 'gate', 'status');
  const statuses = [...gates.values()][0]?.keys() ?? [];
  const head = ['Gate', ...statuses].map(text => Object.assign(document.createElement('th'), { scope: 'col', textContent: text }));
  byId('gates').tHead.rows[0].replaceChildren(...head);
  fill(byId('gates'), [...gates].map(([gate, counts]) => ({ cells: [gate, ...[...counts.values()].map(number)] })));
}

function showWishes(metrics) {
  const wishes = byLabel(metrics, 'maplewrench_wishes_total', 'outcome');
  byId('wishes').textContent = wishes.size
    ? 'Wishes: ' + [...wishes].map(([outcome, count]) => number(count) + ' ' + words(outcome)).join(', ') + '.' : '';
  const most = valueOf(metrics, 'maplewrench_wanted_limit');
  if (most !== undefined) byId('wishes').textContent += ' Of ' + number(most) + ' originals that may be wished for, ' + number(valueOf(metrics, 'maplewrench_wanted_used')) + ' are known.';
}

// Snapshots, the file of originals, clocks and the version, as far as there is something to tell.
function showKept(metrics, now) {
  const written = valueOf(metrics, 'maplewrench_last_snapshot_timestamp_seconds'), outcomes = byLabel(metrics, 'maplewrench_snapshots_total', 'outcome');
  const bad = valueOf(metrics, 'maplewrench_list_bad_lines'), ahead = valueOf(metrics, 'maplewrench_revisions_ahead');
  const said = [];
  if (written !== undefined) said.push(written ? 'The last snapshot was written ' + age(now - written) + ' ago' : 'No snapshot was written yet');
  if (outcomes.get('failed')) said.push(number(outcomes.get('failed')) + ' snapshots couldn’t be written');
  if (bad) said.push(number(bad) + ' lines of the file of originals hold none');
  if (ahead) said.push(number(ahead) + ' entries have a revision that is ahead of the clock');
  said.push('Version ' + samplesOf(metrics, 'maplewrench_build_info')[0]?.labels.version);
  byId('kept').textContent = said.join('. ') + '.';
}

// A line from the left, an hour ago, to the right, now; the greatest value is at the top.
function plot(svg, now, key) {
  const most = Math.max(1, ...seen.map(each => each[key] ?? 0));
  const points = seen.filter(each => each[key] !== undefined)
    .map(each => (HOUR - (now - each.time)) + ',' + (SVG_HEIGHT * (1 - .95 * each[key] / most)).toFixed(1));
  svg.firstElementChild.setAttribute('points', points.join(' '));
}

function showPlots(metrics, now) {
  const memory = valueOf(metrics, 'process_resident_memory_bytes'), mementos = valueOf(metrics, 'maplewrench_mementos');
  seen.push({ time: now, memory, mementos });
  while (seen[0].time < now - HOUR || seen[0].time > now) seen.shift();
  byId('memory-now').textContent = 'Memory: ' + megabytes(memory);
  byId('mementos-now').textContent = 'Mementos: ' + number(mementos) + ' in ' + number(valueOf(metrics, 'maplewrench_entries')) + ' entries';
  plot(byId('memory'), now, 'memory');
  plot(byId('mementos'), now, 'mementos');
}

function show(metrics) {
  const now = valueOf(metrics, 'maplewrench_clock_seconds'), published = valueOf(metrics, 'maplewrench_last_publish_timestamp_seconds');
  const isShown = valueOf(metrics, 'maplewrench_shown') === 1;
  say((isShown ? 'Readers are answered. ' : 'Nothing is published yet. ')
    + (published ? 'The last publish was ' + age(now - published) + ' ago' : 'There was no publish yet') + ' (' + clock(now) + ').', !isShown);
  showRound(metrics);
  showPlots(metrics, now);
  showArchives(metrics, now);
  showPeers(metrics, now);
  showGates(metrics);
  showWishes(metrics);
  showKept(metrics, now);
  byId('told').hidden = false;
}

function say(text, isBad) {
  byId('state').textContent = text;
  byId('state').className = isBad ? 'bad' : '';
}

// ---- asking ----

async function ask() {
  try {
    const reply = await fetch('/metrics', { cache: 'no-store' });
    if (!reply.ok) throw new Error('status ' + reply.status);
    show(readMetrics(await reply.text()));
  } catch (fault) {
    say('No numbers come (' + fault.message + '). ' + (byId('told').hidden ? HINT : 'The numbers below are the last ones that came.'), true);
  }
  setTimeout(ask, 1000 * EVERY);
}

ask();
