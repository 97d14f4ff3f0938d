// Where the readers' page has its copies from: the aggregator's TimeMap, the pages of an index, and archives that are being asked.
'use strict';

const AT_ONCE = 4;            // pages of an index that are asked for at once
const TRIES = 6;              // how often a page is asked for while the server says that it is too busy
const PAUSE = 500;            // milliseconds before the second try; before each further one so many more
const WISHES = 8;             // how often a page is asked for while archives are being asked for its copies
const GROWTH = 1.5;           // by how much each pause between these is longer than the one before
const LONGEST = 60;           // the most seconds before the second of these that count
const HELD = 1000;            // milliseconds after which the reader is told that archives may be asked

const byId = id => document.getElementById(id);
const page = {};
for (const id of ['ask', 'address', 'about', 'status', 'coming', 'progress', 'count', 'stop', 'others', 'spellings', 'missing', 'faults', 'again', 'found',
  'timeline', 'slider', 'legend', 'go', 'when', 'copy', 'copied', 'list', 'rows'])
  page[id] = byId(id);

// What is shown: parallel columns, since a hundred thousand small objects are slow to sort through.
let shown = { address: '', times: new Float64Array(0), uris: [], archives: new Uint16Array(0), names: [] };
let chosen = -1;              // the row that is chosen in the list
let isChosen = false;         // whether the reader chose it, or moved the list: else it is the last that has come
let listed = null;            // the pages of the index that is shown, if one is
let wished = null;            // what archives are being asked for, if they are
let titles = {};              // names of archives by host, where the server has some
let asking = new AbortController();    // the latest question: an older one is given up

// ---- asking ----

// A new question, for which the one before is given up.
function newQuestion() {
  asking.abort();
  asking = new AbortController();
  return asking.signal;
}

// Waits for so many milliseconds, unless the question is given up.
async function pause(milliseconds, question) {
  await new Promise(resolve => setTimeout(resolve, milliseconds));
  question.throwIfAborted();
}

// The seconds after which a reply says that it may be asked again; none where it says nothing of it.
function secondsOf(reply) {
  const text = reply.headers.get('Retry-After') ?? '';
  return /^[0-9]+$/.test(text) ? Math.max(1, Math.min(+text, LONGEST)) : 0;
}

// The text at a path of this origin. While the server says that it is too busy, it is asked again after a pause.
async function textAt(path, question) {
  for (let tries = 1; ; tries++) {
    const reply = await fetch(path, { signal: question });
    if (reply.ok) return reply.text();
    if (![429, 503].includes(reply.status) || tries === TRIES)
      throw Object.assign(new Error('status ' + reply.status), { status: reply.status, seconds: secondsOf(reply) });
    await pause(tries * PAUSE, question);
  }
}

// What a text lists: its copies as parallel columns, and further pages; and the datetime from which on it lists.
async function readCopies(text, question) {
  const copies = { times: [], uris: [], hosts: [], pages: [], from: undefined };
  await readLinks(text, (target, parameters) => {
    const is = relation => (parameters.rel ?? '').toLowerCase().split(/\s+/).includes(relation);
    if (is('self')) copies.from = parameters.from;
    else if (is('timemap')) copies.pages.push({ path: pathOf(target), from: parameters.from });
    if (!is('memento')) return;
    const time = readDatetime(parameters.datetime ?? ''), host = hostOf(target);
    if (Number.isNaN(time) || !host) return;
    copies.times.push(time); copies.uris.push(target); copies.hosts.push(host);
    if (copies.times.length % 20000 === 0) say(copies.times.length.toLocaleString('en') + ' copies read ...');
  }, question);
  return copies;
}

// Why nothing is shown.
function reason(fault, address) {
  switch (fault.status) {
    case 404: return 'No archive has a copy of ' + address + ' that this aggregator knows.';
    case 400: return 'That is not an http or https address.';
    case undefined: return 'The aggregator can’t be reached, or what it sent can’t be read.';
    default: return 'The aggregator answered with status ' + fault.status + '.';
  }
}

// The text of a TimeMap. The service may hold a first question while it asks archives.
async function timeMapOf(address, question) {
  const told = setTimeout(() => question.aborted || say('The aggregator is asking archives for copies of ' + address + ', or is busy ...'), HELD);
  try {
    return await textAt('/timemap/link/' + address, question);
  } finally {
    clearTimeout(told);
  }
}

async function showCopies(address) {
  const question = newQuestion();
  listed = wished = null;
  isChosen = false;
  page.about.hidden = page.coming.hidden = page.missing.hidden = page.others.hidden = true;
  say('Asking for the copies of ' + address + ' ...');
  try {
    await showText(address, await timeMapOf(address, question), question);
  } catch (fault) {
    if (question.aborted) return;
    if (fault.status === 404 && fault.seconds) await followWish({ address, text: '', seconds: fault.seconds, tries: 1 }, question);
    else refuse(reason(fault, address), address, fault.status);
  }
}

// Shows what a text lists, or what the pages list that it names.
async function showText(address, text, question) {
  const copies = await readCopies(text, question);
  if (copies.pages.length) {
    wished = null;
    listed = { address, pages: copies.pages, parts: new Array(copies.pages.length), faults: new Map(), isOld: false, timer: 0, spent: 0 };
    await followPages(listed, question);
  } else if (copies.times.length) {
    keep(address, [copies]);
    show();
  } else fail('The TimeMap names no copy with an http or https address.');
}

// Says why nothing is shown, and where nobody has a copy, how else the address may be spelled.
function refuse(why, address, status) {
  fail(why);
  const spellings = status === 404 ? spellingsOf(address) : [];
  page.others.hidden = !spellings.length;
  page.spellings.replaceChildren(...spellings.map(spelling => {
    const item = make('li'), link = make('a', { href: '#' + spelling });
    link.textContent = spelling;
    item.append(link);
    return item;
  }));
}

// ---- copies that archives are being asked for ----

// Asks again and again, after pauses that grow, and shows what has come: the first archive's copies are rarely the last.
async function followWish(wish, question) {
  wished = wish;
  fail('No copy of ' + wish.address + ' is known here yet. Archives are being asked for it.');
  try {
    while (wish.tries < WISHES && wished === wish) {
      tellWish(wish);
      await pause(1000 * wish.seconds, question);
      wish.seconds *= GROWTH;
      wish.tries++;
      await askAnew(wish, question);
    }
  } catch (fault) {
    if (question.aborted) return;
    if (!wish.text) {
      wished = null;
      refuse(reason(fault, wish.address), wish.address, fault.status);
    }
  }
  if (wished === wish) endWish(wish, '');
}

// Shows what is known by now, if it is more than before.
async function askAnew(wish, question) {
  try {
    const text = await textAt('/timemap/link/' + wish.address, question);
    if (text === wish.text) return;
    await showText(wish.address, text, question);
    wish.text = text;
  } catch (fault) {
    if (fault.status !== 404) throw fault;
  }
}

function tellWish(wish) {
  page.coming.hidden = false;
  page.progress.removeAttribute('value');
  page.count.textContent = (wish.text ? 'More may come. ' : '') + 'This page asks again in ' + Math.round(wish.seconds) + ' s (' + wish.tries + ' of '
    + (WISHES - 1) + ' times).';
}

// Archives aren't waited for any more, for the reason told.
function endWish(wish, why) {
  wished = null;
  page.coming.hidden = true;
  if (wish.text) say(page.status.textContent);
  else refuse('No copy of ' + wish.address + ' has come from the archives so far' + why + '.', wish.address, 404);
}

// ---- the pages of an index ----

// Where a page is asked for: at this origin, whatever base the aggregator tells.
function pathOf(target) {
  const at = target.indexOf('/timemap/link/page/');
  return at < 0 ? '' : target.slice(at);
}

// A page of a list. Where it doesn't begin at the datetime that the index says, the list has changed between the two.
async function readPage(list, k, question) {
  const { path, from } = list.pages[k];
  if (!path) throw new Error('its address is not one of this aggregator');
  const copies = await readCopies(await textAt(path, question), question);
  if (copies.from !== from) {
    list.isOld = true;
    throw new Error('the list has changed since its index came');
  }
  return copies;
}

// Asks for the pages that haven't come, a few at once, and shows each: at first once all before it have come or failed. Showing
// many copies takes long, so it waits for four times as long as the last one took.
async function followPages(list, question, isAgain = false) {
  const wanted = missingOf(list);
  list.faults.clear();
  page.missing.hidden = true;
  page.coming.hidden = false;
  page.progress.max = list.pages.length;
  let next = 0;
  const asker = async () => {
    while (next < wanted.length) {
      const k = wanted[next++];
      try {
        list.parts[k] = await readPage(list, k, question);
      } catch (fault) {
        if (question.aborted) return;
        list.faults.set(k, fault instanceof TypeError ? 'it can’t be reached' : fault.message);
      }
      if (question.aborted) return;
      tellProgress(list);
      list.timer ||= setTimeout(() => { if (!question.aborted) showParts(list, isAgain); }, 4 * list.spent);
    }
  };
  tellProgress(list);
  showParts(list, isAgain);
  await Promise.all(Array.from({ length: AT_ONCE }, asker));
  if (!question.aborted) endPages(list, '');
}

// No page is to come any more, for the reason told.
function endPages(list, why) {
  page.coming.hidden = true;
  tellProgress(list);
  showParts(list, true);
  if (!list.parts.some(part => part.times.length)) fail('No page with copies of ' + list.address + ' has come.');
  tellMissing(list, why);
}

function missingOf(list) { return [...list.pages.keys()].filter(k => !list.parts[k]); }

function tellProgress(list) {
  page.progress.value = list.pages.length - missingOf(list).length;
  page.count.textContent = page.progress.value + ' of ' + list.pages.length + ' pages' + (list.faults.size ? ', ' + list.faults.size + ' failed' : '');
}

// Shows all pages that came, or those up to the first of which nothing is known yet.
function showParts(list, isAll) {
  const began = performance.now();
  clearTimeout(list.timer);
  list.timer = 0;
  let count = 0;
  while (count < list.pages.length && (isAll || list.parts[count] || list.faults.has(count))) count++;
  const parts = list.parts.slice(0, count).filter(part => part);
  if (parts.some(part => part.times.length)) {
    keep(list.address, parts);
    show();
  } else say('Asking for ' + list.pages.length + ' pages of copies of ' + list.address + ' ...');
  list.spent = performance.now() - began;
}

function tellMissing(list, why) {
  const missing = missingOf(list), faults = [...list.faults].sort((a, b) => a[0] - b[0]);
  page.missing.hidden = !missing.length;
  if (!missing.length) return;
  const told = faults.slice(0, 5).map(([k, text]) => 'page ' + (k + 1) + ' (' + text + ')').join(', ') + (faults.length > 5 ? ' and others' : '');
  page.faults.textContent = missing.length + ' of ' + list.pages.length + (missing.length > 1 ? ' pages are' : ' pages is') + ' missing' + why
    + (told ? (why ? '. Failed: ' : ': ') + told : '') + '.';
}

// Puts the copies of these parts, in order, into what is shown.
function keep(address, parts) {
  const numbers = new Map(), uris = [], count = parts.reduce((n, part) => n + part.times.length, 0);
  const times = new Float64Array(count), archives = new Uint16Array(count);
  for (const part of parts) {
    for (let k = 0; k < part.times.length; k++) {
      const host = part.hosts[k];
      if (!numbers.has(host)) numbers.set(host, numbers.size);
      times[uris.length] = part.times[k];
      archives[uris.length] = Math.min(numbers.get(host), 65535);
      uris.push(part.uris[k]);
    }
  }
  const time = shown.times[chosen], uri = shown.uris[chosen];
  shown = { address, times, uris, archives, names: [...numbers.keys()] };
  if (isChosen) chosen = rowOf(time, uri);
}

// While pages come, the text changes with each; a screen reader is to speak it when they have.
function say(text) {
  page.status.setAttribute('aria-busy', !page.coming.hidden);
  page.status.textContent = text;
}

function fail(text) {
  page.found.hidden = page.coming.hidden = true;
  say(text);
}
