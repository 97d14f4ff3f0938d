//! The whole job as a plain Rust program does it: the measure for `aggregator replay`.
//!
//!     whole < SCRIPT
//!
//! Of a script's commands it knows `replicas`, `take`, `map` and `ask .. GET 0 /timemap/link/..`, for one replica and
//! originals that are in order. It takes archives' pages, and writes TimeMaps, and of lists above 1,000 mementos their
//! indexes and pages.
mod reader;
mod scanner;

use reader::{read_page, Memento};
use std::collections::BTreeMap;
use std::io::{self, Read, Write};

const PER_PAGE: usize = 1_000;
const MAX_MEMENTOS: usize = 100_000;

const DAYS: [&str; 7] = ["Thu", "Fri", "Sat", "Sun", "Mon", "Tue", "Wed"];
const MONTHS: [&str; 12] = ["Jan", "Feb", "Mar", "Apr", "May", "Jun", "Jul", "Aug", "Sep", "Oct", "Nov", "Dec"];

/// What an archive said of an original last.
struct Entry {
    revision: u64,
    mementos: Vec<Memento>,
}

/// What is known of an original: its entries by archive, and if there are several the union of their mementos, which
/// is made when it is first asked for after a change.
#[derive(Default)]
struct Known {
    entries: BTreeMap<Vec<u8>, Entry>,
    union: Option<Vec<Memento>>,
}

impl Known {
    fn take(&mut self, archive: &[u8], revision: u64, mut mementos: Vec<Memento>) {
        if let Some(entry) = self.entries.get_mut(archive) {
            if entry.revision > revision {
                return;
            }
            if entry.revision == revision {
                mementos.append(&mut entry.mementos);
                mementos.sort_unstable();
                mementos.dedup();
            }
        }
        self.union = None;
        self.entries.insert(archive.to_vec(), Entry { revision, mementos });
    }

    /// The mementos of all archives, in order, each once.
    fn list(&mut self) -> &[Memento] {
        if self.entries.len() == 1 {
            return self.entries.values().next().map_or(&[], |entry| &entry.mementos);
        }
        self.union.get_or_insert_with(|| {
            let mut union: Vec<_> = self.entries.values().flat_map(|entry| &entry.mementos).cloned().collect();
            union.sort_unstable();
            union.dedup();
            union
        })
    }
}

/// Year, month and day, counted from 1, so many days after the start of 1970.
fn civil_date(days: u64) -> (u64, u64, u64) {
    let days = days + 719_468;
    let (era, day) = (days / 146_097, days % 146_097);
    let year = (day - day / 1_460 + day / 36_524 - day / 146_096) / 365;
    let day = day - (365 * year + year / 4 - year / 100);
    let from_march = (5 * day + 2) / 153;
    let month = (from_march + 2) % 12 + 1;
    let year = 400 * era + year + u64::from(month < 3);
    (year, month, day - (153 * from_march + 2) / 5 + 1)
}

fn push_imf(out: &mut Vec<u8>, at: u64) {
    let (days, time) = (at / 86_400, at % 86_400);
    let (year, month, day) = civil_date(days);
    let two = |number: u64| [b'0' + (number / 10 % 10) as u8, b'0' + (number % 10) as u8];
    out.extend_from_slice(DAYS[(days % 7) as usize].as_bytes());
    out.extend_from_slice(b", ");
    out.extend_from_slice(&two(day));
    out.push(b' ');
    out.extend_from_slice(MONTHS[month as usize - 1].as_bytes());
    out.push(b' ');
    out.extend_from_slice(&two(year / 100));
    out.extend_from_slice(&two(year));
    out.push(b' ');
    out.extend_from_slice(&two(time / 3_600));
    out.push(b':');
    out.extend_from_slice(&two(time / 60 % 60));
    out.push(b':');
    out.extend_from_slice(&two(time % 60));
    out.extend_from_slice(b" GMT");
}

fn push_all(out: &mut Vec<u8>, texts: &[&[u8]]) {
    for text in texts {
        out.extend_from_slice(text);
    }
}

/// The texts about one original, whose list isn't empty.
struct Texts<'a> {
    base: &'a [u8],
    original: &'a [u8],
    list: &'a [Memento],
}

impl<'a> Texts<'a> {
    /// The text of a whole TimeMap, or above 1,000 mementos of an index.
    fn timemap(&self) -> Vec<u8> {
        let mut out = Vec::new();
        self.push_head(&mut out, None, self.list);
        if self.list.len() <= PER_PAGE {
            self.push_mementos(&mut out, 0, self.list);
        } else {
            for (place, held) in self.list.chunks(PER_PAGE).enumerate() {
                out.extend_from_slice(b",\n");
                self.push_listing(&mut out, Some(place + 1), "timemap", held);
            }
        }
        out.push(b'\n');
        out
    }

    /// The text of a page, if there is one of this number.
    fn page(&self, number: usize) -> Option<Vec<u8>> {
        let before = number.checked_sub(1)?.checked_mul(PER_PAGE)?;
        let held = self.list.get(before..)?.chunks(PER_PAGE).next()?;
        let mut out = Vec::with_capacity(512 + held.iter().map(|memento| memento.uri.len() + 64).sum::<usize>());
        self.push_head(&mut out, Some(number), held);
        self.push_mementos(&mut out, before, held);
        out.push(b'\n');
        Some(out)
    }

    fn push_head(&self, out: &mut Vec<u8>, number: Option<usize>, held: &[Memento]) {
        push_all(out, &[b"<", self.original, b">; rel=\"original\",\n<"]);
        push_all(out, &[self.base, b"/timegate/", self.original, b">; rel=\"timegate\",\n"]);
        self.push_listing(out, number, "self", held);
    }

    /// The link to the TimeMap, or to a page of it, with its first and last datetime.
    fn push_listing(&self, out: &mut Vec<u8>, number: Option<usize>, relation: &str, held: &[Memento]) {
        push_all(out, &[b"<", self.base, b"/timemap/link/"]);
        if let Some(number) = number {
            out.extend_from_slice(format!("page/{number}/").as_bytes());
        }
        push_all(out, &[self.original, b">; rel=\"", relation.as_bytes()]);
        out.extend_from_slice(b"\"; type=\"application/link-format\"; from=\"");
        push_imf(out, held[0].at);
        out.extend_from_slice(b"\"; until=\"");
        push_imf(out, held[held.len() - 1].at);
        out.push(b'"');
    }

    /// The lines of mementos that stand in the list behind so many others.
    fn push_mementos(&self, out: &mut Vec<u8>, before: usize, held: &[Memento]) {
        for (place, memento) in held.iter().enumerate() {
            push_all(out, &[b",\n<", &memento.uri, b">; rel=\""]);
            if before + place == 0 {
                out.extend_from_slice(b"first ");
            }
            if before + place + 1 == self.list.len() {
                out.extend_from_slice(b"last ");
            }
            out.extend_from_slice(b"memento\"; datetime=\"");
            push_imf(out, memento.at);
            out.push(b'"');
        }
    }
}

fn number(digits: &[u8]) -> Option<u64> {
    std::str::from_utf8(digits).ok()?.parse().ok()
}

fn reply(out: &mut impl Write, status: u16, media_type: &str, text: &[u8]) -> io::Result<()> {
    write!(out, "reply {status}\nContent-Type: {media_type}\nbody {}\n", text.len())?;
    out.write_all(text)
}

/// The originals by their names, and where this aggregator stands.
#[derive(Default)]
struct Aggregator<'a> {
    base: &'a [u8],
    originals: BTreeMap<&'a [u8], Known>,
}

impl<'a> Aggregator<'a> {
    /// Takes a page, and says what it held.
    fn take(&mut self, archive: &[u8], revision: u64, original: &'a [u8], body: &[u8]) -> String {
        match read_page("http://arc.example/list", body) {
            Ok(page) if page.mementos.len() <= MAX_MEMENTOS => {
                let counts = (page.mementos.len(), page.further.len(), page.dropped);
                self.originals.entry(original).or_default().take(archive, revision, page.mementos);
                format!("taken {} {} {}\n", counts.0, counts.1, counts.2)
            }
            Ok(_) => "refused too many\n".to_string(),
            Err(_) => "refused bad page\n".to_string(),
        }
    }

    /// Replies with the TimeMap of an original, or with the page of this number.
    fn reply(&mut self, out: &mut impl Write, original: &[u8], page: Option<u64>) -> io::Result<()> {
        let list = self.originals.get_mut(original).map_or(&[][..], Known::list);
        if list.is_empty() {
            return reply(out, 404, "text/plain", b"no memento\n");
        }
        let texts = Texts { base: self.base, original, list };
        let text = match page {
            None => Some(texts.timemap()),
            Some(number) => usize::try_from(number).ok().and_then(|number| texts.page(number)),
        };
        match text {
            Some(text) => reply(out, 200, "application/link-format", &text),
            None => reply(out, 404, "text/plain", b"no such page\n"),
        }
    }

    fn ask(&mut self, out: &mut impl Write, path: &[u8]) -> io::Result<()> {
        let original = path.strip_prefix(b"/timemap/link/").expect("a TimeMap's path");
        let Some(behind) = original.strip_prefix(b"page/") else {
            return self.reply(out, original, None);
        };
        let (digits, original) = behind.split_at(behind.iter().position(|byte| *byte == b'/').expect("a page's path"));
        self.reply(out, &original[1..], Some(number(digits).expect("a page's number")))
    }
}

fn main() -> io::Result<()> {
    let mut script = Vec::new();
    io::stdin().lock().read_to_end(&mut script)?;
    let mut out = io::BufWriter::new(io::stdout().lock());
    let mut aggregator = Aggregator::default();
    let mut rest = script.as_slice();
    while !rest.is_empty() {
        let end = rest.iter().position(|byte| *byte == b'\n').expect("an end of the line");
        let words: Vec<&[u8]> = rest[..end].split(|byte| *byte == b' ').collect();
        rest = &rest[end + 1..];
        match words.as_slice() {
            [b"replicas", _, base] => aggregator.base = base,
            [b"take", _, archive, revision, _, length, original] => {
                let length = number(length).expect("a length") as usize;
                let revision = number(revision).expect("a revision");
                out.write_all(aggregator.take(archive, revision, original, &rest[..length]).as_bytes())?;
                rest = &rest[length + 1..];
            }
            [b"map", _, original] => aggregator.reply(&mut out, original, None)?,
            [b"ask", _, b"GET", b"0", path] => aggregator.ask(&mut out, path)?,
            _ => panic!("a command that is unknown here"),
        }
    }
    out.flush()
}
