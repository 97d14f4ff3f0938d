//! Writing replies. A reply's text is made in one buffer behind room for its first lines, which tell its length; so it
//! is never copied.
use crate::dates::{imf, DateWriter, LENGTH};
use crate::texts::{Memento, Texts};
use std::fs::File;
use std::io::Write;
use std::mem::ManuallyDrop;
use std::os::fd::FromRawFd;

const PER_PAGE: usize = 1_000;
/// The room for a reply's first lines.
const FRONT: usize = 128;
/// What stands between two addresses, and how far the datetime is into it.
const BETWEEN: &[u8; 61] = b">; rel=\"memento\"; datetime=\"Thu, 00 Jan 0000 00:00:00 GMT\",\n<";
const DATE: usize = 28;

/// An original with its list of mementos.
pub struct Listed<'a> {
    pub base: &'a [u8],
    pub original: &'a [u8],
    pub texts: &'a Texts,
    pub list: &'a [Memento],
}

pub struct Replies {
    out: ManuallyDrop<File>,
    /// What stands from FRONT on is a reply's text, up to `at`; what lies behind has no meaning.
    buffer: Vec<u8>,
    at: usize,
    lines: String,
    dates: DateWriter,
}

impl Replies {
    pub fn new() -> Replies {
        // Safety: standard output isn't closed.
        let out = ManuallyDrop::new(unsafe { File::from_raw_fd(1) });
        Replies { out, buffer: vec![0; 1 << 18], at: FRONT, lines: String::new(), dates: DateWriter::new() }
    }

    pub fn line(&mut self, line: &str) {
        self.lines.push_str(line);
        self.lines.push('\n');
    }

    pub fn taken(&mut self, mementos: usize, further: usize, dropped: u64) {
        self.line(&format!("taken {mementos} {further} {dropped}"));
    }

    pub fn flush(&mut self) {
        self.out.write_all(self.lines.as_bytes()).expect("a write");
        self.lines.clear();
    }

    /// Writes the text that was made, behind its first lines.
    fn send(&mut self, status: u16, media_type: &str) {
        self.flush();
        let front = format!("reply {status}\nContent-Type: {media_type}\nbody {}\n", self.at - FRONT);
        let start = FRONT - front.len();
        self.buffer[start..FRONT].copy_from_slice(front.as_bytes());
        self.out.write_all(&self.buffer[start..self.at]).expect("a write");
        self.at = FRONT;
    }

    /// Room for so many bytes more.
    #[inline(always)]
    fn make_room(&mut self, bytes: usize) {
        if self.buffer.len() < self.at + bytes {
            self.buffer.resize(2 * (self.at + bytes), 0);
        }
    }

    fn put(&mut self, texts: &[&[u8]]) {
        for text in texts {
            self.make_room(text.len());
            self.buffer[self.at..self.at + text.len()].copy_from_slice(text);
            self.at += text.len();
        }
    }

    /// The link to the TimeMap, or to a page of it, with its first and last datetime.
    fn put_listing(&mut self, listed: &Listed, page: Option<usize>, relation: &[u8], held: &[Memento]) {
        let page = page.map_or(String::new(), |number| format!("page/{number}/"));
        self.put(&[b"<", listed.base, b"/timemap/link/", page.as_bytes(), listed.original]);
        self.put(&[b">; rel=\"", relation, b"\"; type=\"application/link-format\"; from=\"", &imf(held[0].at)]);
        self.put(&[b"\"; until=\"", &imf(held[held.len() - 1].at), b"\""]);
    }

    fn put_head(&mut self, listed: &Listed, page: Option<usize>, held: &[Memento]) {
        self.put(&[b"<", listed.original, b">; rel=\"original\",\n<"]);
        self.put(&[listed.base, b"/timegate/", listed.original, b">; rel=\"timegate\",\n"]);
        self.put_listing(listed, page, b"self", held);
    }

    /// A memento's line, with what it is besides.
    fn put_marked(&mut self, listed: &Listed, mark: &[u8], memento: &Memento) {
        self.put(&[
            b",\n<",
            listed.texts.uri(memento),
            b">; rel=\"",
            mark,
            b"memento\"; datetime=\"",
            &imf(memento.at),
            b"\"",
        ]);
    }

    /// The lines of mementos that are neither first nor last. Of an address whole 64 bytes are copied, and what is
    /// behind it is written over.
    fn put_plain(&mut self, texts: &Texts, held: &[Memento]) {
        if held.is_empty() {
            return;
        }
        self.put(&[b",\n<"]);
        let room: usize = held.iter().map(|memento| memento.length as usize + BETWEEN.len()).sum();
        self.make_room(room + 128);
        let mut room = &mut self.buffer[self.at..];
        for memento in held {
            let (from, length) = (texts.from(memento.place), memento.length as usize);
            for done in (0..length).step_by(64) {
                room[done..done + 64].copy_from_slice(&from[done..done + 64]);
            }
            let between = &mut room[length..length + BETWEEN.len()];
            between.copy_from_slice(BETWEEN);
            between[DATE..DATE + LENGTH].copy_from_slice(self.dates.text(memento.at));
            room = &mut room[length + BETWEEN.len()..];
            self.at += length + BETWEEN.len();
        }
        // Behind the last one no line follows yet.
        self.at -= b",\n<".len();
    }

    /// The lines of mementos that stand in the list behind so many others.
    fn put_mementos(&mut self, listed: &Listed, before: usize, held: &[Memento]) {
        let (mut start, mut end) = (0, held.len());
        let is_last = before + held.len() == listed.list.len();
        if before == 0 {
            let mark: &[u8] = if listed.list.len() == 1 { b"first last " } else { b"first " };
            self.put_marked(listed, mark, &held[0]);
            start = 1;
        }
        if is_last && end > start {
            end -= 1;
        }
        self.put_plain(listed.texts, &held[start..end]);
        if end < held.len() {
            self.put_marked(listed, b"last ", &held[end]);
        }
    }

    fn put_timemap(&mut self, listed: &Listed) {
        self.put_head(listed, None, listed.list);
        if listed.list.len() <= PER_PAGE {
            self.put_mementos(listed, 0, listed.list);
        } else {
            for (place, held) in listed.list.chunks(PER_PAGE).enumerate() {
                self.put(&[b",\n"]);
                self.put_listing(listed, Some(place + 1), b"timemap", held);
            }
        }
        self.put(&[b"\n"]);
    }

    /// The text of a page, if there is one of this number.
    fn put_page(&mut self, listed: &Listed, number: u64) -> Option<()> {
        let number = usize::try_from(number).ok()?;
        let before = number.checked_sub(1)?.checked_mul(PER_PAGE)?;
        let held = listed.list.get(before..)?.chunks(PER_PAGE).next()?;
        self.put_head(listed, Some(number), held);
        self.put_mementos(listed, before, held);
        self.put(&[b"\n"]);
        Some(())
    }

    fn refuse(&mut self, why: &str) {
        self.put(&[why.as_bytes(), b"\n"]);
        self.send(404, "text/plain");
    }

    /// Replies with the TimeMap or with a page of it.
    pub fn reply(&mut self, listed: &Listed, page: Option<u64>) {
        if listed.list.is_empty() {
            return self.refuse("no memento");
        }
        let found = match page {
            None => Some(self.put_timemap(listed)),
            Some(number) => self.put_page(listed, number),
        };
        match found {
            Some(()) => self.send(200, "application/link-format"),
            None => self.refuse("no such page"),
        }
    }
}
