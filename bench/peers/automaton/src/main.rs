//! Times aho-corasick on a text, for the literals of a file, one a line.
//!
//!     automaton TEXT LITERALS dfa|packed TURNS
//!
//! `dfa` finds all occurrences; `packed` (Teddy) only leftmost ones that do not overlap, so its count
//! can be smaller. It prints the median seconds of a scan and the number of hits.
use aho_corasick::{packed, AhoCorasickBuilder};
use std::time::Instant;

fn main() {
    let words: Vec<String> = std::env::args().collect();
    let text = std::fs::read(&words[1]).unwrap();
    let list = std::fs::read(&words[2]).unwrap();
    let literals: Vec<&[u8]> = list.split(|b| *b == b'\n').filter(|l| !l.is_empty()).collect();
    let turns: usize = words[4].parse().unwrap();
    let mut scan: Box<dyn FnMut() -> usize> = if words[3] == "packed" {
        match packed::Config::new().builder().extend(&literals).build() {
            Some(searcher) => Box::new(move || searcher.find_iter(&text).count()),
            None => {
                println!("none");
                return;
            }
        }
    } else {
        let automaton = AhoCorasickBuilder::new().dfa(true).build(&literals);
        Box::new(move || automaton.find_overlapping_iter(&text).count())
    };
    let mut times = Vec::new();
    let mut hits = 0;
    for _ in 0..turns {
        let before = Instant::now();
        hits = scan();
        times.push(before.elapsed().as_secs_f64());
    }
    times.sort_by(|a, b| a.total_cmp(b));
    println!("{:.9} {}", times[turns / 2], hits);
}
