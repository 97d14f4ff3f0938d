//! Reads the links of a page as a plain Rust program does: the measure for the crate link_format.
//!
//!     links TIMES < PAGE
//!
//! reads the page that many times, and prints for each how many links it has, the bytes of their targets, and the bytes
//! of the first values of `rel` and `datetime`.
mod scanner;

use scanner::{Fault, Links};
use std::io::Read;

#[derive(Default)]
struct Counts {
    links: usize,
    targets: usize,
    rel: usize,
    datetime: usize,
}

fn counts_of(page: &[u8]) -> Result<Counts, Fault> {
    let mut counts = Counts::default();
    for link in Links::of(page) {
        let link = link?;
        counts.links += 1;
        counts.targets += link.target.len();
        counts.rel += link.rel.map_or(0, |value| value.len());
        counts.datetime += link.datetime.map_or(0, |value| value.len());
    }
    Ok(counts)
}

fn main() -> std::io::Result<()> {
    let times = std::env::args().nth(1).and_then(|word| word.parse().ok());
    let mut page = Vec::new();
    std::io::stdin().read_to_end(&mut page)?;
    for _ in 0..times.unwrap_or(1) {
        match counts_of(&page) {
            Ok(Counts { links, targets, rel, datetime }) => {
                println!("{links} {targets} {rel} {datetime}")
            }
            Err(fault) => println!("refused: {fault:?}"),
        }
    }
    Ok(())
}
