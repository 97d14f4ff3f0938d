//! The reader of an archive's page that a Rust programmer would write with std alone, in one pass and without a list of
//! links: what `pages` measures, and the front of `whole`. Relative targets are joined for the forms that archives use.
use crate::scanner::{self, is_blank, Link, Links};
use std::collections::HashSet;

const MAX_PAGE: usize = 8_388_608;
const MAX_ADDRESS: usize = 8_192;

const DAYS: [&[u8; 3]; 7] = [b"Mon", b"Tue", b"Wed", b"Thu", b"Fri", b"Sat", b"Sun"];
const MONTHS: [&[u8; 3]; 12] =
    [b"Jan", b"Feb", b"Mar", b"Apr", b"May", b"Jun", b"Jul", b"Aug", b"Sep", b"Oct", b"Nov", b"Dec"];

#[derive(Debug)]
#[allow(dead_code)]
pub enum Fault {
    TooLong,
    Links(scanner::Fault),
}

#[derive(Clone, PartialEq, Eq, PartialOrd, Ord)]
pub struct Memento {
    pub at: u64,
    pub uri: Box<[u8]>,
}

#[derive(Default)]
pub struct Page {
    /// In order, and each once.
    pub mementos: Vec<Memento>,
    pub further: Vec<Box<[u8]>>,
    pub dropped: u64,
}

/// The number that two digits write.
fn two_digits(text: &[u8]) -> Option<u64> {
    match text {
        [tens @ b'0'..=b'9', ones @ b'0'..=b'9'] => Some(u64::from(tens - b'0') * 10 + u64::from(ones - b'0')),
        _ => None,
    }
}

fn days_in_month(year: u64, month: u64) -> u64 {
    match month {
        2 if year % 4 == 0 && (year % 100 != 0 || year % 400 == 0) => 29,
        2 => 28,
        4 | 6 | 9 | 11 => 30,
        _ => 31,
    }
}

/// The days from the start of 1970 to this one.
fn days_before(year: u64, month: u64, day: u64) -> u64 {
    let year = year - u64::from(month < 3);
    let leap_days = year / 4 - year / 100 + year / 400;
    year * 365 + leap_days + (153 * ((month + 9) % 12) + 2) / 5 + day - 1 - 719_468
}

/// The seconds since 1970 that an IMF-fixdate names, whatever the name of its day.
fn read_imf(text: &[u8]) -> Option<u64> {
    if text.len() != 29 || &text[3..5] != b", " || &text[25..] != b" GMT" {
        return None;
    }
    if [text[7], text[11], text[16]] != [b' '; 3] || [text[19], text[22]] != [b':'; 2] {
        return None;
    }
    DAYS.iter().find(|name| text[..3] == name[..])?;
    let month = MONTHS.iter().position(|name| text[8..11] == name[..])? as u64 + 1;
    let field = |at: usize| two_digits(&text[at..at + 2]);
    let (day, year) = (field(5)?, field(12)? * 100 + field(14)?);
    let (hour, minute, second) = (field(17)?, field(20)?, field(23)?);
    if year < 1970 || day < 1 || day > days_in_month(year, month) || hour > 23 || minute > 59 || second > 59 {
        return None;
    }
    Some(days_before(year, month, day) * 86_400 + hour * 3_600 + minute * 60 + second)
}

fn is_http_target(target: &[u8]) -> bool {
    let starts = |start: &[u8]| target.get(..start.len()).is_some_and(|front| front.eq_ignore_ascii_case(start));
    starts(b"http://") || starts(b"https://")
}

fn is_clean_byte(byte: &u8) -> bool {
    byte.is_ascii_graphic() && !matches!(byte, b'"' | b'<' | b'>')
}

/// The text with each byte written as %XX that can't stand in an address.
fn clean(text: &[u8]) -> Option<Box<[u8]>> {
    let clean = if text.iter().all(is_clean_byte) {
        text.to_vec()
    } else {
        let mut clean = Vec::with_capacity(text.len() + 16);
        for byte in text {
            if is_clean_byte(byte) {
                clean.push(*byte);
            } else {
                clean.extend_from_slice(format!("%{byte:02X}").as_bytes());
            }
        }
        clean
    };
    (clean.len() <= MAX_ADDRESS).then(|| clean.into_boxed_slice())
}

/// The address that a relative target leads to from a base.
fn joined(base: &str, target: &[u8]) -> Option<Vec<u8>> {
    let target = std::str::from_utf8(target).ok()?;
    let mark = target.find([':', '/', '?', '#']);
    if mark.is_some_and(|at| target.as_bytes()[at] == b':') {
        return None;
    }
    let authority = base.find("//")? + 2;
    let host_end = base[authority..].find('/').map_or(base.len(), |at| authority + at);
    let joined = match target.as_bytes() {
        [b'/', b'/', ..] => format!("http:{target}"),
        [b'/', ..] => format!("{}{target}", &base[..host_end]),
        [b'?', ..] => format!("{base}{target}"),
        _ => format!("{}/{target}", base.rsplit_once('/').map_or(base, |(folder, _)| folder)),
    };
    Some(joined.into_bytes())
}

fn address(base: &str, target: &[u8]) -> Option<Box<[u8]>> {
    if is_http_target(target) {
        clean(target)
    } else {
        clean(&joined(base, target)?)
    }
}

fn trim(text: &[u8], is_cut: impl Fn(u8) -> bool) -> &[u8] {
    let start = text.iter().position(|byte| !is_cut(*byte)).unwrap_or(text.len());
    let end = text.iter().rposition(|byte| !is_cut(*byte)).map_or(start, |at| at + 1);
    &text[start..end]
}

/// What a link says that it leads to.
#[derive(Default)]
struct Relations {
    memento: bool,
    timemap: bool,
    self_: bool,
}

fn relations(rel: &[u8]) -> Relations {
    let mut relations = Relations::default();
    for word in rel.split(|byte| is_blank(*byte)) {
        relations.memento |= word.eq_ignore_ascii_case(b"memento");
        relations.timemap |= word.eq_ignore_ascii_case(b"timemap");
        relations.self_ |= word.eq_ignore_ascii_case(b"self");
    }
    relations
}

fn memento(base: &str, link: &Link) -> Option<Memento> {
    let at = read_imf(trim(link.datetime.as_deref()?, |byte| matches!(byte, b' ' | b'\t')))?;
    Some(Memento { at, uri: address(base, link.target)? })
}

fn is_link_format(link: &Link) -> bool {
    link.media_type.as_deref().is_none_or(|value| {
        let media_type = value.split(|byte| *byte == b';').next().unwrap_or_default();
        trim(media_type, is_blank).eq_ignore_ascii_case(b"application/link-format")
    })
}

pub fn read_page(base: &str, body: &[u8]) -> Result<Page, Fault> {
    if body.len() > MAX_PAGE {
        return Err(Fault::TooLong);
    }
    let mut page = Page::default();
    let mut seen = HashSet::new();
    for link in Links::of(body) {
        let link = link.map_err(Fault::Links)?;
        let relations = relations(link.rel.as_deref().unwrap_or_default());
        if relations.memento {
            match memento(base, &link) {
                Some(memento) => page.mementos.push(memento),
                None => page.dropped += 1,
            }
        }
        if relations.timemap && !relations.self_ && is_link_format(&link) {
            let target = link.target.split(|byte| *byte == b'#').next().unwrap_or_default();
            match address(base, target) {
                Some(address) if seen.insert(address.clone()) => page.further.push(address),
                Some(_) => {}
                None => page.dropped += 1,
            }
        }
    }
    page.mementos.sort_unstable();
    page.mementos.dedup();
    Ok(page)
}
