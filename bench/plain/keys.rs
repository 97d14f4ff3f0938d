//! Merges one memento for each of many originals, one by one, into std's `BTreeMap`: the measure for the crate
//! harvest_lattice.
//!
//!     keys COUNT
//!
//! prints how many keys there are then.
use std::collections::btree_map::Entry;
use std::collections::BTreeMap;

#[derive(PartialEq, Eq, PartialOrd, Ord)]
struct Memento {
    at: u64,
    uri: String,
}

/// What is kept of an archive and original: the greatest revision and its mementos, in order and each once.
struct Latest {
    revision: u64,
    mementos: Vec<Memento>,
}

impl Latest {
    fn join(&mut self, mut other: Latest) {
        if other.revision > self.revision {
            *self = other;
        } else if other.revision == self.revision {
            self.mementos.append(&mut other.mementos);
            self.mementos.sort();
            self.mementos.dedup();
        }
    }
}

#[derive(Default)]
struct State {
    rows: BTreeMap<(String, String), Latest>,
}

impl State {
    fn merge(&mut self, archive: &str, original: String, revision: u64, mut mementos: Vec<Memento>) {
        mementos.sort();
        mementos.dedup();
        let latest = Latest { revision, mementos };
        match self.rows.entry((archive.to_string(), original)) {
            Entry::Vacant(place) => drop(place.insert(latest)),
            Entry::Occupied(mut standing) => standing.get_mut().join(latest),
        }
    }
}

fn main() {
    let count = std::env::args().nth(1).and_then(|word| word.parse().ok()).unwrap_or(1_000_000u64);
    let mut state = State::default();
    for number in 0..count {
        let uri = format!("http://a.example/{number}");
        let mementos = vec![Memento { at: number, uri: uri.clone() }];
        state.merge("arc.example", uri, 1, mementos);
    }
    println!("{}", state.rows.len());
}
