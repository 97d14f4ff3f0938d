// What the readers' page shows, and what the reader does with it.
'use strict';

const ROW_HEIGHT = 32;        // pixels, as .row in page.css
const COLOURS = 8;            // the archives with a colour of their own, as .archive0 to .archive7 in page.css; the others share .archive8

// ---- showing ----

// The class that gives an archive its colour, which is another where the page is dark.
function colourOf(archive) { return 'archive' + Math.min(archive, COLOURS); }

function show() {
  const { times, names } = shown, last = times.length - 1;
  page.found.hidden = false;
  say(times.length.toLocaleString('en') + (last ? ' copies in ' : ' copy in ') + names.length + (names.length > 1 ? ' archives, ' : ' archive, ')
    + day(times[0]) + (last ? ' to ' + day(times[last]) : ''));
  drawLegend();
  page.slider.min = times[0];
  page.slider.max = Math.max(times[last], times[0] + 1000);
  page.list.setAttribute('aria-rowcount', last + 1);
  page.rows.style.height = (last + 1) * ROW_HEIGHT + 'px';
  drawTimeline();
  if (isChosen) mark(chosen, +page.slider.value);
  else choose(last, times[last]);
}

function drawLegend() {
  const { names } = shown;
  page.legend.replaceChildren(...names.slice(0, COLOURS + 1).map((host, archive) => {
    const item = make('li', { title: host }), box = make('i', { class: colourOf(archive) });
    item.append(box, archive < COLOURS ? titleOf(host) : (names.length - COLOURS) + ' more');
    return item;
  }));
}

// What an archive is called: its name where the server has one, or its host.
function titleOf(host) {
  return Object.hasOwn(titles, host) && typeof titles[host] === 'string' ? titles[host] : host;
}

// What the reader chose stays chosen while more copies come.
function pick(row, time) {
  isChosen = true;
  choose(row, time);
}

// A time for programs, in UTC, as 2021-05-09T10:59:21Z.
function stamp(time) { return new Date(time).toISOString().replace(/\.\d+Z$/, 'Z'); }

// Times for people, in UTC, as 9 May 2021 and 9 May 2021, 10:59. They don't break at a line's end.
function day(time) {
  const date = new Date(time);
  return [date.getUTCDate(), Object.keys(MONTHS)[date.getUTCMonth()], date.getUTCFullYear()].join('\u00a0');
}
function minute(time) { return day(time) + ',\u00a0' + stamp(time).slice(-9, -4); }

// Bars of one width each, stacked by archive; a square root keeps single copies visible beside thousands.
function drawTimeline() {
  const { times, archives } = shown, width = Math.max(page.timeline.clientWidth, 200), height = page.timeline.clientHeight || 176;
  const bottom = height - 18, bars = Math.max(20, Math.floor(width / 5)), from = times[0], span = Math.max(times[times.length - 1] - from, 1);
  const kinds = Math.min(shown.names.length, COLOURS + 1), counts = new Uint32Array(bars * kinds), sums = new Uint32Array(bars);
  for (let k = 0; k < times.length; k++) {
    const bar = Math.min(bars - 1, Math.floor((times[k] - from) / span * bars));
    counts[bar * kinds + Math.min(archives[k], kinds - 1)]++;
    sums[bar]++;
  }
  const most = Math.sqrt(sums.reduce((a, b) => Math.max(a, b), 1)), parts = [];
  for (let bar = 0; bar < bars; bar++) {
    if (!sums[bar]) continue;
    const full = Math.max(2, Math.sqrt(sums[bar]) / most * (bottom - 6));
    let y = bottom;
    for (let kind = 0; kind < kinds; kind++) {
      const share = counts[bar * kinds + kind] / sums[bar] * full;
      if (!share) continue;
      y -= share;
      parts.push(`<rect x="${(bar * width / bars).toFixed(1)}" y="${y.toFixed(1)}" width="${(width / bars - 1).toFixed(1)}" height="${share.toFixed(1)}" class="${colourOf(kind)}"/>`);
    }
  }
  page.timeline.setAttribute('viewBox', `0 0 ${width} ${height}`);
  page.timeline.innerHTML = `<line class="axis" x1="0" y1="${bottom}" x2="${width}" y2="${bottom}"/>` + parts.join('') + years(from, span, width, height, bottom)
    + `<line class="chosen" y1="0" y2="${bottom}"/>`;
}

// A tick at each year, or at each second, fifth or tenth where they would be too near to each other.
function years(from, span, width, height, bottom) {
  const first = new Date(from).getUTCFullYear(), last = new Date(from + span).getUTCFullYear();
  const step = [1, 2, 5, 10, 20, 50, 100, 500, 1000, 5000].find(s => (last - first + 1) / s * 44 <= width) ?? 5000;
  let ticks = '';
  for (let year = Math.ceil(first / step) * step; year <= last; year += step) {
    const x = (Date.UTC(year, 0) - from) / span * width;
    if (x >= 0 && x <= width - 30)
      ticks += `<line class="axis" x1="${x.toFixed(1)}" y1="${bottom}" x2="${x.toFixed(1)}" y2="${bottom + 4}"/><text x="${x.toFixed(1)}" y="${height - 3}">${year}</text>`;
  }
  return ticks || `<text x="0" y="${height - 3}">${day(from)}</text>`;
}

// ---- choosing ----

// The place of the copy nearest to a time, on a tie the earlier: what the TimeGate will say, shown beforehand.
function nearest(time) {
  const { times } = shown;
  let low = 0, high = times.length;
  while (low < high) {
    const middle = (low + high) >> 1;
    if (times[middle] < time) low = middle + 1; else high = middle;
  }
  if (low === times.length || (low > 0 && time - times[low - 1] <= times[low] - time)) low--;
  while (low > 0 && times[low - 1] === times[low]) low--;
  return low;
}

// The row of a copy that was shown before: others may have come before it.
function rowOf(time, uri) {
  const { times, uris } = shown, first = nearest(time);
  let row = first;
  while (times[row] === time && uris[row] !== uri) row++;
  return uris[row] === uri ? row : first;
}

// Chooses a row, and brings it into sight.
function choose(row, time) {
  const top = row * ROW_HEIGHT, { scrollTop, clientHeight } = page.list;
  if (top < scrollTop || top + ROW_HEIGHT > scrollTop + clientHeight) page.list.scrollTop = top - clientHeight / 2;
  mark(row, time);
}

function mark(row, time) {
  chosen = row;
  const x = (time - shown.times[0]) / Math.max(shown.times[shown.times.length - 1] - shown.times[0], 1) * Math.max(page.timeline.clientWidth, 200);
  const line = page.timeline.querySelector('.chosen');
  line.setAttribute('x1', x);
  line.setAttribute('x2', x);
  page.slider.value = time;
  page.slider.setAttribute('aria-valuetext', minute(time));
  page.when.value = stamp(time).slice(0, 19);
  drawRows();
}

// Only the rows in sight stand in the page, and the chosen one, which the list names as its active row.
function drawRows() {
  const first = Math.max(0, Math.floor(page.list.scrollTop / ROW_HEIGHT) - 4);
  const last = Math.min(shown.times.length, first + Math.ceil(page.list.clientHeight / ROW_HEIGHT) + 8), rows = [];
  if (chosen < first) rows.push(rowAt(chosen));
  for (let k = first; k < last; k++) rows.push(rowAt(k));
  if (chosen >= last) rows.push(rowAt(chosen));
  page.rows.replaceChildren(...rows);
  page.list.setAttribute('aria-activedescendant', 'row' + chosen);
}

function make(tag, attributes = {}) {
  const element = document.createElement(tag);
  for (const name in attributes) element.setAttribute(name, attributes[name]);
  return element;
}

// A row says when and in which archive: the rest of a copy's address is the same in most rows, and stands in the link's title.
function rowAt(k) {
  const row = make('div', { class: 'row', id: 'row' + k, role: 'row', 'aria-rowindex': k + 1, 'aria-selected': k === chosen });
  const box = make('i', { class: colourOf(shown.archives[k]) }), exact = stamp(shown.times[k]), time = make('time', { datetime: exact, title: exact });
  const link = make('a', { href: shown.uris[k], title: shown.uris[k], rel: 'noreferrer', tabindex: -1 });
  row.style.top = k * ROW_HEIGHT + 'px';
  row.dataset.k = k;
  time.textContent = minute(shown.times[k]);
  link.textContent = titleOf(shown.names[shown.archives[k]]);
  const when = make('span', { role: 'gridcell' }), where = make('span', { class: 'where', role: 'gridcell' });
  when.append(time);
  where.append(link);
  row.append(box, when, where);
  return row;
}

// The address by which the TimeGate is asked for the copy nearest to a time.
function gateAddress(time) {
  return '/at/' + stamp(time).replace(/\D/g, '').slice(0, 14) + '/' + shown.address;
}

// ---- what the reader does ----

page.ask.addEventListener('submit', event => {
  event.preventDefault();
  const address = originalOf(page.address.value);
  if (location.hash.slice(1) === address) showCopies(address);
  else location.hash = address;
});

page.go.addEventListener('submit', event => {
  event.preventDefault();
  const time = Date.parse(page.when.value + 'Z');
  if (!Number.isNaN(time)) location.assign(gateAddress(time));
});

page.copy.addEventListener('click', async () => {
  const time = Date.parse(page.when.value + 'Z');
  if (Number.isNaN(time)) return;
  const address = new URL(gateAddress(time), location.href).href, link = make('a', { href: address, id: 'linked' });
  link.textContent = address;
  try {
    await navigator.clipboard.writeText(address);
    page.copied.replaceChildren('Copied: ', link);
  } catch {
    page.copied.replaceChildren('The link: ', link);
  }
});

page.when.addEventListener('change', () => {
  const time = Date.parse(page.when.value + 'Z');
  if (!Number.isNaN(time)) pick(nearest(time), time);
});

page.slider.addEventListener('input', () => pick(nearest(+page.slider.value), +page.slider.value));

page.timeline.addEventListener('click', event => {
  const box = page.timeline.getBoundingClientRect(), { times } = shown;
  const time = times[0] + (event.clientX - box.left) / box.width * (times[times.length - 1] - times[0]);
  pick(nearest(time), Math.round(time / 1000) * 1000);
});

page.list.addEventListener('scroll', drawRows);
for (const kind of ['wheel', 'pointerdown']) page.list.addEventListener(kind, () => { isChosen = true; }, { passive: true });
page.list.addEventListener('click', event => {
  const row = event.target.closest('.row');
  if (row && event.target.tagName !== 'A') pick(+row.dataset.k, shown.times[+row.dataset.k]);
});
page.list.addEventListener('keydown', event => {
  const inSight = Math.floor(page.list.clientHeight / ROW_HEIGHT), last = shown.times.length - 1;
  const moves = { ArrowUp: chosen - 1, ArrowDown: chosen + 1, PageUp: chosen - inSight, PageDown: chosen + inSight, Home: 0, End: last };
  if (event.key in moves) {
    event.preventDefault();
    const row = Math.max(0, Math.min(last, moves[event.key]));
    pick(row, shown.times[row]);
  } else if (event.key === 'Enter') location.assign(shown.uris[chosen]);
});

page.stop.addEventListener('click', () => {
  asking.abort();
  if (listed) endPages(listed, ', since you stopped');
  else if (wished) endWish(wished, ', and you stopped');
});

page.again.addEventListener('click', () => {
  if (!listed) return;
  if (listed.isOld) showCopies(listed.address);
  else followPages(listed, newQuestion(), true);
});

addEventListener('resize', () => { if (!page.found.hidden) { drawTimeline(); choose(chosen, +page.slider.value); } });

// The address stands behind the '#', so that what is shown can be linked to.
function readHash() {
  const text = location.hash.slice(1);
  if (!text) return;
  page.address.value = text;
  showCopies(originalOf(text));
}
addEventListener('hashchange', readHash);

// What archives are called is of no need to anything else, so nothing waits for it.
async function readTitles() {
  try {
    const reply = await fetch('/archives.json');
    if (!reply.ok) return;
    titles = Object(await reply.json());
    if (page.found.hidden) return;
    drawLegend();
    drawRows();
  } catch { /* then hosts are shown */ }
}
if (location.protocol === 'file:') say('Opened from a file, this page has no aggregator to ask.');
else readTitles();
readHash();
// A phone's keyboard would hide what a link shows.
if (!location.hash) page.address.focus();
