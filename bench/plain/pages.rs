//! Reads a page of a TimeMap as a plain Rust program does: the measure for `read_page`.
//!
//!     pages TIMES < PAGE
//!
//! reads the page that many times, and prints for each how many mementos and further TimeMaps it names, and how many
//! links were left out.
mod reader;
mod scanner;

use std::io::Read;

fn main() -> std::io::Result<()> {
    let times = std::env::args().nth(1).and_then(|word| word.parse().ok());
    let mut body = Vec::new();
    std::io::stdin().read_to_end(&mut body)?;
    for _ in 0..times.unwrap_or(1) {
        match reader::read_page("http://arc.example/list", &body) {
            Ok(page) => println!("{} {} {}", page.mementos.len(), page.further.len(), page.dropped),
            Err(fault) => println!("refused: {fault:?}"),
        }
    }
    Ok(())
}
