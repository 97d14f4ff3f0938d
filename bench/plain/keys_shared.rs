//! Does what `keys.rs` does, and holds texts and lists as a replica does: counted, so that a harvest, the state that
//! takes it and what is sent hold each of them once. It tells what that costs in plain Rust.
//!
//!     keys_shared COUNT
//!
//! prints how many keys there are then.
use std::cmp::Ordering;
use std::collections::btree_map::Entry;
use std::collections::BTreeMap;
use std::fmt::Write;
use std::sync::Arc;

/// A range of a buffer that several texts can share.
#[derive(Clone)]
struct Text {
    buffer: Arc<Vec<u8>>,
    start: u32,
    length: u32,
}

impl Text {
    fn new(text: &str) -> Text {
        Text { buffer: Arc::new(text.as_bytes().to_vec()), start: 0, length: text.len() as u32 }
    }

    fn as_bytes(&self) -> &[u8] {
        &self.buffer[self.start as usize..][..self.length as usize]
    }
}

impl PartialEq for Text {
    fn eq(&self, other: &Text) -> bool {
        self.as_bytes() == other.as_bytes()
    }
}

impl Eq for Text {}

impl PartialOrd for Text {
    fn partial_cmp(&self, other: &Text) -> Option<Ordering> {
        Some(self.cmp(other))
    }
}

impl Ord for Text {
    fn cmp(&self, other: &Text) -> Ordering {
        self.as_bytes().cmp(other.as_bytes())
    }
}

#[derive(Clone, PartialEq, Eq, PartialOrd, Ord)]
struct Memento {
    at: u64,
    uri: Text,
}

/// The greatest revision and its mementos, in order and each once.
#[derive(Clone)]
struct Latest {
    revision: u64,
    mementos: Arc<Vec<Memento>>,
}

impl Latest {
    fn of(revision: u64, mut mementos: Vec<Memento>) -> Latest {
        mementos.sort();
        mementos.dedup();
        Latest { revision, mementos: Arc::new(mementos) }
    }

    fn join(&mut self, other: Latest) {
        if other.revision > self.revision {
            *self = other;
        } else if other.revision == self.revision {
            let all = self.mementos.iter().chain(other.mementos.iter()).cloned().collect();
            *self = Latest::of(self.revision, all);
        }
    }
}

struct Harvest {
    archive: &'static str,
    original: Text,
    latest: Latest,
}

/// Of each archive its originals.
#[derive(Default)]
struct State {
    shelves: BTreeMap<&'static str, BTreeMap<Text, Latest>>,
}

impl State {
    fn merge(&mut self, harvest: &Harvest) {
        let shelf = self.shelves.entry(harvest.archive).or_default();
        match shelf.entry(harvest.original.clone()) {
            Entry::Vacant(place) => drop(place.insert(harvest.latest.clone())),
            Entry::Occupied(mut standing) => standing.get_mut().join(harvest.latest.clone()),
        }
    }
}

fn main() {
    let count = std::env::args().nth(1).and_then(|word| word.parse().ok()).unwrap_or(1_000_000u64);
    let mut state = State::default();
    let mut text = String::new();
    for number in 0..count {
        text.clear();
        write!(text, "http://a.example/{number}").expect("a text takes what is written");
        let mementos = vec![Memento { at: number, uri: Text::new(&text) }];
        state.merge(&Harvest { archive: "arc.example", original: Text::new(&text), latest: Latest::of(1, mementos) });
    }
    println!("{}", state.shelves.values().map(BTreeMap::len).sum::<usize>());
}
