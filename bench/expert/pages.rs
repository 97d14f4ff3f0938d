//! The reader of an archive's page. Links of a page mostly differ in their target and their datetime alone: what stood
//! between the two, and from there to the next link's target, is kept of the last link that was a memento and no more.
//! Where the next link has the same bytes there, its reading can only be the same. Every other link is read by the
//! grammar; and so is each if nothing is to be guessed.
use crate::dates::{self, DateReader};
use crate::scan::{find_unclean, find_unplain, is, Piece, BLANK, CLEAN, NAME, PLAIN, TARGET, TOKEN};
use crate::texts::{Memento, Texts};
use std::borrow::Cow;
use std::collections::HashSet;

const MAX_PAGE: usize = 8_388_608;
const MAX_LINKS: usize = 200_000;
const MAX_PARAMS: usize = 32;
const MAX_TEXT: usize = 8_192;

pub struct BadPage;

/// What is said of a page.
pub struct Page {
    /// In order, and each once.
    pub mementos: Vec<Memento>,
    pub further: usize,
    pub dropped: u64,
}

/// A parameter's value: where it stands, and whether backslashes stand in it.
#[derive(Clone, Copy)]
struct Value {
    start: usize,
    end: usize,
    escaped: bool,
}

#[derive(Default)]
struct Params {
    count: usize,
    rel: Option<Value>,
    datetime: Option<Value>,
    media_type: Option<Value>,
}

/// What stands around the target and the datetime of links that are alike.
struct Glue {
    before: Piece,
    after: Piece,
}

struct Reader<'a> {
    guesses: bool,
    texts: &'a mut Texts,
    dates: &'a mut DateReader,
    text: &'static [u8],
    end: usize,
    mementos: Vec<Memento>,
    is_sorted: bool,
    last: Option<u64>,
    named: HashSet<Vec<u8>>,
    dropped: u64,
    links: usize,
    /// The ends of the last memento's target and datetime, if its link may be alike the next.
    learnt: Option<(usize, usize)>,
}

fn trim(text: &[u8], is_cut: impl Fn(u8) -> bool) -> &[u8] {
    let start = text.iter().position(|b| !is_cut(*b)).unwrap_or(text.len());
    let end = text.iter().rposition(|b| !is_cut(*b)).map_or(start, |at| at + 1);
    &text[start..end]
}

fn has_word(text: &[u8], word: &[u8]) -> bool {
    text.split(|b| is(*b, BLANK)).any(|found| found.eq_ignore_ascii_case(word))
}

/// Whether a target that begins there is an http or https URL. No byte of it is below 0x20, and what ends it is none of
/// these.
#[inline(always)]
fn is_http(text: &[u8], start: usize) -> bool {
    let front = u64::from_le_bytes(text[start..start + 8].try_into().expect("eight bytes")) | 0x2020_2020_2020_2020;
    front << 8 == u64::from_le_bytes(*b"\0http://") || front == u64::from_le_bytes(*b"https://")
}

/// The address of a target that isn't clean.
fn cleaned(target: &[u8]) -> Vec<u8> {
    const DIGITS: &[u8; 16] = b"0123456789ABCDEF";
    let mut clean = Vec::with_capacity(target.len() + 16);
    for &b in target {
        if is(b, CLEAN) {
            clean.push(b);
        } else {
            clean.extend([b'%', DIGITS[usize::from(b >> 4)], DIGITS[usize::from(b & 15)]]);
        }
    }
    clean
}

impl Reader<'_> {
    fn stands(&self, at: usize, b: u8) -> bool {
        at < self.end && self.text[at] == b
    }

    /// The first place from `at` on whose byte isn't of this class. A line feed follows the page, so that no class but
    /// blanks leads behind its end, where nothing stands (`stands`).
    #[inline(always)]
    fn skip(&self, mut at: usize, class: u8) -> usize {
        while is(self.text[at], class) {
            at += 1;
        }
        at
    }

    /// The text between quotation marks, of which the first stands before `start`, and what follows.
    fn quoted(&self, start: usize) -> Result<(Value, usize), BadPage> {
        let (mut at, mut escaped) = (start, false);
        loop {
            at = find_unplain(self.text, at);
            if at >= self.end {
                return Err(BadPage);
            }
            match self.text[at] {
                b'"' => return Ok((Value { start, end: at, escaped }, at + 1)),
                b'\\'
                    if at + 1 < self.end
                        && (is(self.text[at + 1], PLAIN) || matches!(self.text[at + 1], b'"' | b'\\')) =>
                {
                    escaped = true;
                    at += 2;
                }
                b'\t' | b'\r' | b'\n' => at += 1,
                _ => return Err(BadPage),
            }
        }
    }

    /// The value behind a name, and what follows.
    fn value(&self, at: usize) -> Result<(Value, usize), BadPage> {
        let mark = self.skip(at, BLANK);
        if !self.stands(mark, b'=') {
            return Ok((Value { start: mark, end: mark, escaped: false }, mark));
        }
        let start = self.skip(mark + 1, BLANK);
        if self.stands(start, b'"') {
            return self.quoted(start + 1);
        }
        let end = self.skip(start, TOKEN);
        if end == start {
            Err(BadPage)
        } else {
            Ok((Value { start, end, escaped: false }, end))
        }
    }

    /// The parameters behind a target, and what follows them and blanks.
    fn params(&self, mut at: usize) -> Result<(Params, usize), BadPage> {
        let mut params = Params::default();
        loop {
            at = self.skip(at, BLANK);
            if !self.stands(at, b';') {
                return Ok((params, at));
            }
            let start = self.skip(at + 1, BLANK);
            at = self.skip(start, NAME);
            if at == start {
                continue;
            }
            let name = &self.text[start..at];
            let (value, behind) = self.value(at)?;
            at = behind;
            params.count += 1;
            let place = match name.len() {
                3 if name.eq_ignore_ascii_case(b"rel") => &mut params.rel,
                4 if name.eq_ignore_ascii_case(b"type") => &mut params.media_type,
                8 if name.eq_ignore_ascii_case(b"datetime") => &mut params.datetime,
                _ => continue,
            };
            place.get_or_insert(value);
        }
    }

    fn text_of(&self, value: Value) -> Cow<'static, [u8]> {
        let raw = &self.text[value.start..value.end];
        if !value.escaped {
            return Cow::Borrowed(raw);
        }
        let mut bytes = raw.iter();
        let mut text = Vec::with_capacity(raw.len());
        while let Some(&b) = bytes.next() {
            text.extend(if b == b'\\' { bytes.next().copied() } else { Some(b) });
        }
        Cow::Owned(text)
    }

    /// The second of a datetime's value, and whether it stands there as it is written.
    fn second(&mut self, value: Value) -> Option<(u64, bool)> {
        if !value.escaped && value.end - value.start == dates::LENGTH {
            return Some((self.dates.read(self.text, value.start)?, true));
        }
        let text = self.text_of(value);
        let text = trim(&text, |b| matches!(b, b' ' | b'\t'));
        let mut copy = [0; 48];
        copy.get_mut(..text.len()).filter(|copy| copy.len() == dates::LENGTH)?.copy_from_slice(text);
        Some((self.dates.read(&copy, 0)?, false))
    }

    /// The place and length of a target's address.
    fn address(&mut self, start: usize, end: usize, is_clean: bool) -> Option<(u32, u32)> {
        if !is_http(self.text, start) {
            return None;
        }
        let target = &self.text[start..end];
        if is_clean {
            return (target.len() <= MAX_TEXT).then_some((start as u32, target.len() as u32));
        }
        let clean = cleaned(target);
        (clean.len() <= MAX_TEXT).then(|| (self.texts.keep(&clean), clean.len() as u32))
    }

    #[inline(always)]
    fn push(&mut self, memento: Memento) {
        self.is_sorted &= self.last < Some(memento.at);
        self.last = Some(memento.at);
        self.mementos.push(memento);
    }

    fn add_memento(&mut self, start: usize, end: usize, is_clean: bool, datetime: Option<Value>) {
        let second = datetime.and_then(|value| Some((self.second(value)?, value)));
        match second.zip(self.address(start, end, is_clean)) {
            Some((((at, as_written), value), (place, length))) => {
                self.push(Memento { at, place, length });
                self.learnt = (as_written && is_clean).then_some((end, value.start));
            }
            None => self.dropped += 1,
        }
    }

    fn add_further(&mut self, start: usize, end: usize, media_type: Option<Value>) {
        let is_link_format = media_type.is_none_or(|value| {
            let text = self.text_of(value);
            let media_type = text.split(|b| *b == b';').next().unwrap_or_default();
            trim(media_type, |b| is(b, BLANK)).eq_ignore_ascii_case(b"application/link-format")
        });
        if !is_link_format {
            return;
        }
        let target = self.text[start..end].split(|b| *b == b'#').next().unwrap_or_default();
        match is_http(self.text, start).then(|| cleaned(target)).filter(|address| address.len() <= MAX_TEXT) {
            Some(address) => drop(self.named.insert(address)),
            None => self.dropped += 1,
        }
    }

    /// Reads the link whose `<` stands there, and answers what follows it and blanks.
    fn link(&mut self, at: usize) -> Result<usize, BadPage> {
        let start = at + 1;
        let mut close = find_unclean(self.text, start);
        let is_clean = self.stands(close, b'>');
        if !is_clean {
            close = self.skip(close, TARGET);
            if !self.stands(close, b'>') {
                return Err(BadPage);
            }
        }
        let (params, behind) = self.params(close + 1)?;
        self.links += 1;
        if close - start > MAX_TEXT || params.count > MAX_PARAMS {
            return Err(BadPage);
        }
        let Some(rel) = params.rel else { return Ok(behind) };
        let rel = self.text_of(rel);
        self.learnt = None;
        if has_word(&rel, b"memento") {
            self.add_memento(start, close, is_clean, params.datetime);
        }
        if has_word(&rel, b"timemap") && !has_word(&rel, b"self") {
            self.learnt = None;
            self.add_further(start, close, params.media_type);
        }
        Ok(behind)
    }

    /// The glue of the link that was read last, where the next one begins.
    fn learn(&mut self, next: usize) -> Option<Glue> {
        let (close, date) = self.learnt.take().filter(|_| self.guesses)?;
        let before = Piece::of(&self.text[close..date])?;
        Some(Glue { before, after: Piece::of(&self.text[date + dates::LENGTH..next + 1])? })
    }

    /// Reads the links with this glue from the one on whose `<` stands there, and answers the `<` of the first that
    /// hasn't it.
    #[inline(never)]
    fn alike(&mut self, at: usize, glue: &Glue) -> usize {
        let mut start = at + 1;
        loop {
            let close = find_unclean(self.text, start);
            let date = close + glue.before.length;
            let after = date + dates::LENGTH;
            let next = after + glue.after.length;
            let length = close - start;
            if next >= self.end
                || !glue.before.stands(self.text, close)
                || !glue.after.stands(self.text, after)
                || length > MAX_TEXT
                || !is_http(self.text, start)
            {
                return start - 1;
            }
            let Some(at) = self.dates.read(self.text, date) else { return start - 1 };
            self.push(Memento { at, place: start as u32, length: length as u32 });
            self.links += 1;
            start = next;
        }
    }

    fn read(&mut self, mut at: usize) -> Result<(), BadPage> {
        loop {
            at = self.skip(at, BLANK);
            if self.stands(at, b'<') {
                if let Some(glue) = self.learn(at) {
                    at = self.alike(at, &glue);
                }
                at = self.link(at)?;
            }
            match at < self.end {
                false if self.links > MAX_LINKS => return Err(BadPage),
                false => return Ok(()),
                true if self.text[at] == b',' => at += 1,
                true => return Err(BadPage),
            }
        }
    }
}

/// Reads the page that stands in the script from `start` to `end`.
pub fn read(
    texts: &mut Texts,
    dates: &mut DateReader,
    guesses: bool,
    start: usize,
    end: usize,
) -> Result<Page, BadPage> {
    if end - start > MAX_PAGE {
        return Err(BadPage);
    }
    let text = texts.script;
    let mut reader = Reader {
        guesses,
        texts,
        dates,
        text,
        end,
        // No memento's link is shorter than that.
        mementos: Vec::with_capacity((end - start) / 60 + 1),
        is_sorted: true,
        last: None,
        named: HashSet::new(),
        dropped: 0,
        links: 0,
        learnt: None,
    };
    reader.read(start)?;
    let Reader { mut mementos, is_sorted, named, dropped, .. } = reader;
    if !is_sorted {
        texts.sort(&mut mementos);
    }
    Ok(Page { mementos, further: named.len(), dropped })
}
