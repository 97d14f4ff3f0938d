//! Where addresses stand: mementos hold places of texts, and no text of their own.
use crate::scan::PADDING;
use std::cmp::Ordering;

/// A second, and where the address stands.
#[derive(Clone, Copy)]
pub struct Memento {
    pub at: u64,
    pub place: u32,
    pub length: u32,
}

/// The script, which zeros follow, and behind it by number the addresses that had to be cleaned.
pub struct Texts {
    pub script: &'static [u8],
    cleaned: Vec<u8>,
}

impl Texts {
    pub fn of(script: &'static [u8]) -> Texts {
        Texts { script, cleaned: vec![0; PADDING] }
    }

    /// Keeps an address, and answers its place.
    pub fn keep(&mut self, address: &[u8]) -> u32 {
        let place = self.cleaned.len() - PADDING;
        self.cleaned.truncate(place);
        self.cleaned.extend_from_slice(address);
        self.cleaned.extend_from_slice(&[0; PADDING]);
        (self.script.len() + place) as u32
    }

    /// The bytes from a place on: the address, and more that may be read.
    #[inline(always)]
    pub fn from(&self, place: u32) -> &[u8] {
        match (place as usize).checked_sub(self.script.len()) {
            None => &self.script[place as usize..],
            Some(place) => &self.cleaned[place..],
        }
    }

    pub fn uri(&self, memento: &Memento) -> &[u8] {
        &self.from(memento.place)[..memento.length as usize]
    }

    pub fn order(&self, one: &Memento, other: &Memento) -> Ordering {
        one.at.cmp(&other.at).then_with(|| self.uri(one).cmp(self.uri(other)))
    }

    /// Orders mementos, and leaves out what repeats.
    pub fn sort(&self, list: &mut Vec<Memento>) {
        list.sort_unstable_by(|one, other| self.order(one, other));
        list.dedup_by(|one, other| self.order(one, other).is_eq());
    }
}
