//! The reader and writer of state texts that a Rust programmer would write with std alone: the measure for the crate
//! replica_exchange.
//!
//!     states TIMES < TEXT
//!
//! reads the text of a state and writes it again that many times, and prints the length of each text that it wrote.
use std::collections::BTreeMap;
use std::io::{Read, Write};

const MAX_LEN: usize = 268_435_456;
const LAST_SECOND: u64 = 253_402_300_799;

#[derive(PartialEq, Eq, PartialOrd, Ord)]
struct Memento {
    at: u64,
    uri: Vec<u8>,
}

struct Part {
    revision: u64,
    mementos: Vec<Memento>,
}

/// The greatest revision of a whole harvest, if there is one, and each revision that isn't older.
struct Entry {
    whole: Option<u64>,
    parts: Vec<Part>,
}

type State = BTreeMap<(Vec<u8>, Vec<u8>), Entry>;

#[derive(Debug)]
enum Fault {
    TooLong,
    NotState,
}

fn write_state(state: &State) -> Vec<u8> {
    let mut out = Vec::new();
    let written = write_lines(&mut out, state);
    written.expect("a Vec takes every byte");
    out
}

fn write_lines(out: &mut Vec<u8>, state: &State) -> std::io::Result<()> {
    write!(out, "memento-state 2\nentries {}\n", state.len())?;
    for ((archive, original), entry) in state {
        out.extend_from_slice(b"entry ");
        out.extend_from_slice(archive);
        match entry.whole {
            Some(revision) => write!(out, " {revision} ")?,
            None => out.extend_from_slice(b" - "),
        }
        write!(out, "{} ", entry.parts.len())?;
        out.extend_from_slice(original);
        out.push(b'\n');
        for part in &entry.parts {
            write_part(out, part)?;
        }
    }
    out.extend_from_slice(b"end\n");
    Ok(())
}

fn write_part(out: &mut Vec<u8>, part: &Part) -> std::io::Result<()> {
    write!(out, "at {} {}\n", part.revision, part.mementos.len())?;
    for memento in &part.mementos {
        write!(out, "{} ", memento.at)?;
        out.extend_from_slice(&memento.uri);
        out.push(b'\n');
    }
    Ok(())
}

struct Reader<'a> {
    rest: &'a [u8],
}

impl<'a> Reader<'a> {
    fn skip(&mut self, front: &[u8]) -> Result<(), Fault> {
        self.rest = self.rest.strip_prefix(front).ok_or(Fault::NotState)?;
        Ok(())
    }

    fn field(&mut self, end: u8) -> Result<&'a [u8], Fault> {
        let at = self.rest.iter().position(|b| *b == end).ok_or(Fault::NotState)?;
        let field = &self.rest[..at];
        self.rest = &self.rest[at + 1..];
        Ok(field)
    }

    fn number(&mut self, end: u8) -> Result<u64, Fault> {
        let digits = self.field(end)?;
        if digits.is_empty() || (digits.len() > 1 && digits[0] == b'0') {
            return Err(Fault::NotState);
        }
        let mut number = 0u64;
        for digit in digits {
            if !digit.is_ascii_digit() {
                return Err(Fault::NotState);
            }
            number =
                number.checked_mul(10).and_then(|n| n.checked_add(u64::from(digit - b'0'))).ok_or(Fault::NotState)?;
        }
        Ok(number)
    }

    fn clean(&mut self, max: usize) -> Result<Vec<u8>, Fault> {
        let field = self.field(b'\n')?;
        let is_clean = |b: &u8| matches!(b, 0x21..=0x7E) && !matches!(b, b'"' | b'<' | b'>');
        if field.is_empty() || field.len() > max || !field.iter().all(is_clean) {
            return Err(Fault::NotState);
        }
        Ok(field.to_vec())
    }

    fn archive(&mut self) -> Result<Vec<u8>, Fault> {
        let name = self.field(b' ')?;
        let is_name_byte = |b: &u8| matches!(b, b'a'..=b'z' | b'0'..=b'9' | b'.' | b'-');
        if name.is_empty() || name.len() > 64 || !name.iter().all(is_name_byte) {
            return Err(Fault::NotState);
        }
        Ok(name.to_vec())
    }

    fn memento(&mut self) -> Result<Memento, Fault> {
        let at = self.number(b' ')?;
        if at > LAST_SECOND {
            return Err(Fault::NotState);
        }
        let uri = self.clean(8_192)?;
        Ok(Memento { at, uri })
    }

    fn whole(&mut self) -> Result<Option<u64>, Fault> {
        match self.rest.strip_prefix(b"- ") {
            Some(rest) => {
                self.rest = rest;
                Ok(None)
            }
            None => Ok(Some(self.number(b' ')?)),
        }
    }

    fn part(&mut self) -> Result<Part, Fault> {
        self.skip(b"at ")?;
        let revision = self.number(b' ')?;
        let count = self.number(b'\n')?;
        let mut mementos = Vec::new();
        for _ in 0..count {
            let memento = self.memento()?;
            if mementos.last().is_some_and(|last| *last >= memento) {
                return Err(Fault::NotState);
            }
            mementos.push(memento);
        }
        Ok(Part { revision, mementos })
    }

    fn entry(&mut self) -> Result<((Vec<u8>, Vec<u8>), Entry), Fault> {
        self.skip(b"entry ")?;
        let archive = self.archive()?;
        let whole = self.whole()?;
        let count = self.number(b' ')?;
        let original = self.clean(4_096)?;
        let mut parts: Vec<Part> = Vec::new();
        for _ in 0..count {
            let part = self.part()?;
            if parts.last().is_some_and(|last| last.revision >= part.revision) {
                return Err(Fault::NotState);
            }
            parts.push(part);
        }
        let first = parts.first().ok_or(Fault::NotState)?;
        if whole.is_some_and(|revision| revision != first.revision) {
            return Err(Fault::NotState);
        }
        Ok(((archive, original), Entry { whole, parts }))
    }
}

fn read_state(text: &[u8]) -> Result<State, Fault> {
    if text.len() > MAX_LEN {
        return Err(Fault::TooLong);
    }
    let mut reader = Reader { rest: text };
    reader.skip(b"memento-state 2\nentries ")?;
    let count = reader.number(b'\n')?;
    let mut entries = Vec::new();
    for _ in 0..count {
        let (key, entry) = reader.entry()?;
        if entries.last().is_some_and(|(last, _)| *last >= key) {
            return Err(Fault::NotState);
        }
        entries.push((key, entry));
    }
    if reader.rest != b"end\n" {
        return Err(Fault::NotState);
    }
    Ok(entries.into_iter().collect())
}

fn main() -> std::io::Result<()> {
    let times = std::env::args().nth(1).and_then(|word| word.parse().ok());
    let mut text = Vec::new();
    std::io::stdin().read_to_end(&mut text)?;
    for _ in 0..times.unwrap_or(1) {
        let state = read_state(&text).expect("a state's text");
        println!("{}", write_state(&state).len());
    }
    Ok(())
}
