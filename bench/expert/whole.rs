//! The whole job as an expert writes it for one core: the second measure for `aggregator replay`.
//!
//!     rustc --edition 2021 -O -C target-cpu=x86-64-v2 whole.rs        x86-64 Linux, std alone
//!     whole < SCRIPT
//!     whole [general] [read] < SCRIPT     tells what two of its ways are worth: with `general` it reads each link by the
//!                                         grammar and guesses nothing, with `read` it reads the script and maps nothing
//!
//! It knows what bench/plain/whole.rs knows, keeps the limits of pages, and writes the same bytes; targets that don't
//! begin with `http://` or `https://` are left out. What it does otherwise: the script is mapped, and not read; a
//! memento is 16 bytes, and its address stays where it stands; bytes are looked at 16 at once; links that are like the
//! one before are read by comparing; a day is read and written once while it repeats; and a reply is written from the
//! one buffer in which it is made.
mod dates;
mod pages;
mod replies;
mod scan;
mod texts;

use dates::DateReader;
use replies::{Listed, Replies};
use std::collections::HashMap;
use std::fs::File;
use std::io::Read;
use std::mem::ManuallyDrop;
use std::os::fd::{AsRawFd, FromRawFd};
use texts::{Memento, Texts};

const MAX_MEMENTOS: usize = 100_000;

extern "C" {
    fn mmap(at: *mut u8, length: usize, protection: i32, flags: i32, file: i32, offset: i64) -> *mut u8;
}

/// A file in memory, with zeros behind it; None if it can't be mapped.
fn mapped(file: &File) -> Option<&'static [u8]> {
    const PROT_READ: i32 = 1;
    const MAP_PRIVATE: i32 = 2;
    const MAP_FIXED_POPULATED: i32 = 0x8010;
    const MAP_ANONYMOUS: i32 = 0x20;
    let found = file.metadata().ok()?;
    let length = found.len() as usize;
    if !found.is_file() || length == 0 {
        return None;
    }
    // Safety: the first call takes room, of which the second replaces the front; nobody writes there, as long as nobody
    // writes to the file.
    unsafe {
        let room = mmap(std::ptr::null_mut(), length + 8192, PROT_READ, MAP_PRIVATE | MAP_ANONYMOUS, -1, 0);
        if room as isize == -1 {
            return None;
        }
        let at = mmap(room, length, PROT_READ, MAP_PRIVATE | MAP_FIXED_POPULATED, file.as_raw_fd(), 0);
        (at == room).then(|| std::slice::from_raw_parts(room, length + scan::PADDING))
    }
}

/// Standard input with zeros behind it.
fn input(maps: bool) -> std::io::Result<&'static [u8]> {
    // Safety: standard input isn't closed.
    let mut file = ManuallyDrop::new(unsafe { File::from_raw_fd(0) });
    if let Some(script) = maps.then(|| mapped(&file)).flatten() {
        return Ok(script);
    }
    let mut script = Vec::new();
    file.read_to_end(&mut script)?;
    script.extend_from_slice(&[0; scan::PADDING]);
    Ok(script.leak())
}

/// What an archive said of an original last.
struct Entry {
    archive: &'static [u8],
    revision: u64,
    mementos: Vec<Memento>,
}

/// What is known of an original, and if it has several entries their union, which is made when it is asked for.
#[derive(Default)]
struct Known {
    entries: Vec<Entry>,
    union: Option<Vec<Memento>>,
}

impl Known {
    fn take(&mut self, texts: &Texts, archive: &'static [u8], revision: u64, mementos: Vec<Memento>) {
        let Some(entry) = self.entries.iter_mut().find(|entry| entry.archive == archive) else {
            self.union = None;
            self.entries.push(Entry { archive, revision, mementos });
            return;
        };
        if entry.revision > revision {
            return;
        }
        self.union = None;
        if entry.revision == revision {
            entry.mementos.extend(mementos);
            texts.sort(&mut entry.mementos);
        } else {
            *entry = Entry { archive, revision, mementos };
        }
    }

    /// The mementos of all archives, in order, each once.
    fn list(&mut self, texts: &Texts) -> &[Memento] {
        if let [entry] = self.entries.as_slice() {
            return &entry.mementos;
        }
        self.union.get_or_insert_with(|| {
            let mut union = self.entries.iter().flat_map(|entry| entry.mementos.iter().copied()).collect();
            texts.sort(&mut union);
            union
        })
    }
}

fn number(digits: &[u8]) -> u64 {
    std::str::from_utf8(digits).ok().and_then(|digits| digits.parse().ok()).expect("a number")
}

struct Aggregator {
    guesses: bool,
    base: &'static [u8],
    texts: Texts,
    dates: DateReader,
    originals: HashMap<&'static [u8], Known>,
    replies: Replies,
}

impl Aggregator {
    /// Takes the page that stands in the script there.
    fn take(&mut self, archive: &'static [u8], revision: u64, original: &'static [u8], start: usize, end: usize) {
        match pages::read(&mut self.texts, &mut self.dates, self.guesses, start, end) {
            Ok(page) if page.mementos.len() <= MAX_MEMENTOS => {
                self.replies.taken(page.mementos.len(), page.further, page.dropped);
                self.originals.entry(original).or_default().take(&self.texts, archive, revision, page.mementos);
            }
            Ok(_) => self.replies.line("refused too many"),
            Err(pages::BadPage) => self.replies.line("refused bad page"),
        }
    }

    /// Replies with the TimeMap of an original, or with the page of this number.
    fn reply(&mut self, original: &[u8], page: Option<u64>) {
        let list = self.originals.get_mut(original).map_or(&[][..], |known| known.list(&self.texts));
        let listed = Listed { base: self.base, original, texts: &self.texts, list };
        self.replies.reply(&listed, page);
    }

    fn ask(&mut self, path: &'static [u8]) {
        let original = path.strip_prefix(b"/timemap/link/").expect("a TimeMap's path");
        let Some(behind) = original.strip_prefix(b"page/") else {
            return self.reply(original, None);
        };
        let (digits, original) = behind.split_at(behind.iter().position(|b| *b == b'/').expect("a page's path"));
        self.reply(&original[1..], Some(number(digits)));
    }
}

fn main() -> std::io::Result<()> {
    let has = |word: &str| std::env::args().any(|other| other == word);
    let script = input(!has("read"))?;
    let texts = Texts::of(script);
    let mut aggregator = Aggregator {
        guesses: !has("general"),
        base: b"",
        texts,
        dates: DateReader::new(),
        originals: HashMap::new(),
        replies: Replies::new(),
    };
    let mut at = 0;
    while at < script.len() - scan::PADDING {
        let length = script[at..].iter().position(|b| *b == b'\n').expect("an end of the line");
        let words: Vec<&'static [u8]> = script[at..at + length].split(|b| *b == b' ').collect();
        at += length + 1;
        match words.as_slice() {
            [b"replicas", _, base] => aggregator.base = base,
            [b"take", _, archive, revision, _, length, original] => {
                let end = at + number(length) as usize;
                aggregator.take(archive, number(revision), original, at, end);
                at = end + 1;
            }
            [b"map", _, original] => aggregator.reply(original, None),
            [b"ask", _, b"GET", b"0", path] => aggregator.ask(path),
            _ => panic!("a command that is unknown here"),
        }
    }
    aggregator.replies.flush();
    Ok(())
}
