//! The link-format scanner that a Rust programmer would write with std alone: an iterator over the links of a text, in
//! one pass. A link comes with the first values of the parameters that its readers look at, which it lends from the
//! text if nothing in them is escaped. What passes a limit is told at the end, since what comes behind it may be
//! worse.
use std::borrow::Cow;

const MAX_LINKS: usize = 200_000;
const MAX_PARAMS: usize = 32;
const MAX_TARGET: usize = 8_192;

struct Value<'a> {
    text: &'a [u8],
    escaped: bool,
}

/// A link: its target, how many parameters it has, and the first values of three; empty if a parameter has none.
#[derive(Default)]
pub struct Link<'a> {
    pub target: &'a [u8],
    pub count: usize,
    pub rel: Option<Cow<'a, [u8]>>,
    pub datetime: Option<Cow<'a, [u8]>>,
    #[allow(dead_code)]
    pub media_type: Option<Cow<'a, [u8]>>,
}

#[derive(Debug)]
#[allow(dead_code)]
pub enum Fault {
    NotLinkFormat { at: usize },
    TooManyLinks,
    TooManyParams,
    TargetTooLong,
}

/// The links of a text, in its order, and behind them the fault, if there is one.
pub struct Links<'a> {
    text: &'a [u8],
    at: usize,
    count: usize,
    has_many_params: bool,
    has_long_target: bool,
    ended: bool,
}

pub const fn is_blank(b: u8) -> bool {
    matches!(b, b' ' | b'\t' | b'\r' | b'\n')
}

// What a byte can be part of, as bits, so that a run of bytes is passed by one look at a table for each.
const BLANK: u8 = 1;
const NAME: u8 = 2;
const TOKEN: u8 = 4;
const QUOTABLE: u8 = 8;
const UNESCAPED: u8 = 16;
const TARGET: u8 = 32;

const fn classes_of(b: u8) -> u8 {
    let is_visible = matches!(b, 0x21..=0x7e);
    let is_name = b.is_ascii_alphanumeric()
        || matches!(b, b'!' | b'#' | b'$' | b'&' | b'*' | b'+' | b'-' | b'.' | b'^' | b'_' | b'`' | b'|' | b'~');
    let is_text = b >= 0x20 && b != 0x7f;
    let is_quotable = is_text || matches!(b, b'\t' | b'\r' | b'\n');
    let mut classes = 0;
    if is_blank(b) {
        classes |= BLANK;
    }
    if is_name {
        classes |= NAME;
    }
    if is_visible && !matches!(b, b'"' | b',' | b';' | b'\\') {
        classes |= TOKEN;
    }
    if is_quotable {
        classes |= QUOTABLE;
    }
    if is_quotable && !matches!(b, b'"' | b'\\') {
        classes |= UNESCAPED;
    }
    if is_text && b != b'>' {
        classes |= TARGET;
    }
    classes
}

static CLASSES: [u8; 256] = {
    let mut classes = [0; 256];
    let mut b = 0;
    while b < 256 {
        classes[b] = classes_of(b as u8);
        b += 1;
    }
    classes
};

fn is(b: u8, class: u8) -> bool {
    CLASSES[usize::from(b)] & class != 0
}

impl<'a> Links<'a> {
    pub fn of(text: &'a [u8]) -> Self {
        Links { text, at: 0, count: 0, has_many_params: false, has_long_target: false, ended: false }
    }

    fn peek(&self) -> Option<u8> {
        self.text.get(self.at).copied()
    }

    /// Passes the bytes of this class, and answers them.
    fn skip(&mut self, class: u8) -> &'a [u8] {
        let rest = &self.text[self.at..];
        let length = rest.iter().position(|b| !is(*b, class)).unwrap_or(rest.len());
        self.at += length;
        &rest[..length]
    }

    fn eat(&mut self, b: u8) -> bool {
        let found = self.peek() == Some(b);
        self.at += found as usize;
        found
    }

    fn fault<T>(&self) -> Result<T, Fault> {
        Err(Fault::NotLinkFormat { at: self.at })
    }

    fn value(&mut self) -> Result<Value<'a>, Fault> {
        if !self.eat(b'"') {
            let text = self.skip(TOKEN);
            if text.is_empty() {
                return self.fault();
            }
            return Ok(Value { text, escaped: false });
        }
        let start = self.at;
        let mut escaped = false;
        loop {
            self.skip(UNESCAPED);
            match self.peek() {
                Some(b'"') => {
                    let text = &self.text[start..self.at];
                    self.at += 1;
                    return Ok(Value { text, escaped });
                }
                Some(b'\\') => {
                    escaped = true;
                    self.at += 1;
                    match self.peek() {
                        Some(b) if is(b, QUOTABLE) => self.at += 1,
                        _ => return self.fault(),
                    }
                }
                _ => return self.fault(),
            }
        }
    }

    /// What stands behind a name: the value behind a `=`, or nothing.
    fn value_behind_name(&mut self) -> Result<Value<'a>, Fault> {
        let behind = self.at;
        self.skip(BLANK);
        if !self.eat(b'=') {
            self.at = behind;
            return Ok(Value { text: b"", escaped: false });
        }
        self.skip(BLANK);
        self.value()
    }

    /// Reads the parameters behind a target.
    fn params(&mut self, link: &mut Link<'a>) -> Result<(), Fault> {
        loop {
            self.skip(BLANK);
            if !self.eat(b';') {
                return Ok(());
            }
            self.skip(BLANK);
            let name = self.skip(NAME);
            if name.is_empty() {
                continue;
            }
            link.count += 1;
            let value = self.value_behind_name()?;
            let place = if name.eq_ignore_ascii_case(b"rel") {
                &mut link.rel
            } else if name.eq_ignore_ascii_case(b"datetime") {
                &mut link.datetime
            } else if name.eq_ignore_ascii_case(b"type") {
                &mut link.media_type
            } else {
                continue;
            };
            place.get_or_insert_with(|| match value {
                Value { text, escaped: true } => Cow::Owned(unescaped(text)),
                Value { text, escaped: false } => Cow::Borrowed(text),
            });
        }
    }

    fn link(&mut self) -> Result<Link<'a>, Fault> {
        let mut link = Link { target: self.skip(TARGET), ..Link::default() };
        if !self.eat(b'>') {
            return self.fault();
        }
        self.params(&mut link)?;
        self.count += 1;
        self.has_many_params |= link.count > MAX_PARAMS;
        self.has_long_target |= link.target.len() > MAX_TARGET;
        Ok(link)
    }

    /// The limit that the links passed, if they did.
    fn passed_limit(&self) -> Option<Fault> {
        if self.count > MAX_LINKS {
            Some(Fault::TooManyLinks)
        } else if self.has_many_params {
            Some(Fault::TooManyParams)
        } else if self.has_long_target {
            Some(Fault::TargetTooLong)
        } else {
            None
        }
    }

    /// The next link, or none at the end of the text.
    fn next_link(&mut self) -> Result<Option<Link<'a>>, Fault> {
        loop {
            self.skip(BLANK);
            let link = if self.eat(b'<') { Some(self.link()?) } else { None };
            self.skip(BLANK);
            if self.at == self.text.len() {
                self.ended = true;
            } else if !self.eat(b',') {
                return self.fault();
            }
            if link.is_some() || self.ended {
                return Ok(link);
            }
        }
    }
}

impl<'a> Iterator for Links<'a> {
    type Item = Result<Link<'a>, Fault>;

    fn next(&mut self) -> Option<Self::Item> {
        if !self.ended {
            match self.next_link() {
                Ok(Some(link)) => return Some(Ok(link)),
                Ok(None) => {}
                Err(fault) => {
                    *self = Links { ended: true, ..Links::of(self.text) };
                    return Some(Err(fault));
                }
            }
        }
        let fault = self.passed_limit();
        *self = Links { ended: true, ..Links::of(self.text) };
        fault.map(Err)
    }
}

fn unescaped(text: &[u8]) -> Vec<u8> {
    let mut out = Vec::with_capacity(text.len());
    let mut bytes = text.iter();
    while let Some(&b) = bytes.next() {
        out.extend(if b == b'\\' { bytes.next().copied() } else { Some(b) });
    }
    out
}
