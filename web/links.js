// What the readers' page reads: texts in link-format (RFC 6690, section 2), and addresses.
'use strict';

const SLICE = 12;             // milliseconds of work before the page may draw
const MONTHS = { Jan: 0, Feb: 1, Mar: 2, Apr: 3, May: 4, Jun: 5, Jul: 6, Aug: 7, Sep: 8, Oct: 9, Nov: 10, Dec: 11 };

// ---- reading link-format (RFC 6690, section 2) ----

// Calls take(target, parameters) for each link of the text, letting the page draw in between, until the question is given up.
async function readLinks(text, take, question) {
  let at = 0, until = performance.now() + SLICE;
  for (;;) {
    at = text.indexOf('<', at);
    if (at < 0) return;
    const end = text.indexOf('>', at);
    if (end < 0) throw new Error('a link without an end');
    const target = text.slice(at + 1, end);
    const parameters = Object.create(null);
    at = readParameters(text, end + 1, parameters);
    take(target, parameters);
    if (performance.now() > until) {
      await new Promise(resolve => setTimeout(resolve));
      question.throwIfAborted();
      until = performance.now() + SLICE;
    }
  }
}

const PARAMETER = /[ \t\r\n]*;[ \t\r\n]*(?:([^\s;,="<>]+)(?:[ \t\r\n]*=[ \t\r\n]*(?:"((?:[^"\\]|\\[^])*)"|([^\s;,"]+)))?)?/y;

// Reads `; name="value"`s from a place, the first of each name counting. Answers the place behind them.
function readParameters(text, at, parameters) {
  for (;;) {
    PARAMETER.lastIndex = at;
    const found = PARAMETER.exec(text);
    if (!found) return at;
    at = PARAMETER.lastIndex;
    const [, name, quoted, token] = found;
    if (name !== undefined && !(name.toLowerCase() in parameters))
      parameters[name.toLowerCase()] = quoted !== undefined ? quoted.replace(/\\([^])/g, '$1') : token ?? '';
  }
}

// The milliseconds of an IMF-fixdate such as "Sat, 01 Jan 2000 00:00:00 GMT" (RFC 9110); NaN for another text.
function readDatetime(text) {
  const parts = /^\w{3}, (\d\d) (\w{3}) (\d{4}) (\d\d):(\d\d):(\d\d) GMT$/.exec(text);
  if (!parts || !(parts[2] in MONTHS)) return NaN;
  const date = new Date(0);
  date.setUTCFullYear(+parts[3], MONTHS[parts[2]], +parts[1]);
  date.setUTCHours(+parts[4], +parts[5], +parts[6]);
  return date.getTime();
}

// The host of an address, which names its archive, as the browser reads it when it follows a link; an address that a link must not
// lead to has none.
function hostOf(uri) {
  try {
    const { protocol, host } = new URL(uri);
    return protocol === 'http:' || protocol === 'https:' ? host : '';
  } catch {
    return '';
  }
}

// ---- addresses ----

// What is put behind /timemap/link/ and /at/.../: without a fragment, with a scheme.
function originalOf(text) {
  const plain = text.trim().replace(/#.*$/s, '');
  return /^https?:\/\//i.test(plain) ? plain : 'http://' + plain;
}

// The same page as others may spell it: by the other scheme, with or without `www.`, and both. A host that is no name has no `www.`.
function spellingsOf(address) {
  const parts = /^(https?):\/\/([^/?#]*)(.*)$/is.exec(address);
  if (!parts) return [];
  const [, scheme, host, rest] = parts, other = scheme.toLowerCase() === 'http' ? 'https' : 'http';
  const isName = /^[^@:]*\.[a-z][^@:.]*\.?(?::\d*)?$/i.test(host), www = /^www\./i;
  const hosts = !isName ? [] : [www.test(host) ? host.replace(www, '') : 'www.' + host];
  return [other + '://' + host, ...hosts.flatMap(name => [scheme + '://' + name, other + '://' + name])].map(start => start + rest);
}
