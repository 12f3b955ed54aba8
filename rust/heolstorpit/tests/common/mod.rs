//! What the differential tests share: an area between guard elements, and counts of what was seen.
#![allow(dead_code, unused_imports)]

mod convert;

use cases::Random;
pub use convert::{raw_cursor, raw_drawn, raw_log_written, raw_opened, raw_reception, raw_stepped, settings, to_raw};
use std::fmt::Debug;

/// The same memory twice, for the library and for the reference, with a lent area inside: everything outside the area
/// has to stay, and both have to end equal.
pub struct Twice<T> {
    library: Vec<T>,
    reference: Vec<T>,
    before: Vec<T>,
    start: usize,
    length: usize,
}

const GUARD: usize = 16;

impl<T: Copy + Default + PartialEq + Debug> Twice<T> {
    pub fn new(most: usize, fill: impl FnOnce(&mut [T])) -> Twice<T> {
        let mut library = vec![T::default(); most + 2 * GUARD];
        fill(&mut library);
        Twice { reference: library.clone(), before: library.clone(), library, start: GUARD, length: 0 }
    }

    /// Lends an area of this length.
    pub fn lend(&mut self, length: usize) -> (&mut [T], &mut [T]) {
        assert!(length + 2 * GUARD <= self.library.len());
        self.length = length;
        self.before.copy_from_slice(&self.library);
        let part = self.start..self.start + length;
        (&mut self.library[part.clone()], &mut self.reference[part])
    }

    /// Are both the same, and unchanged outside the area lent?
    pub fn same(&self) -> bool {
        let end = self.start + self.length;
        self.library == self.reference
            && self.library[..self.start] == self.before[..self.start]
            && self.library[end..] == self.before[end..]
    }

    pub fn unchanged(&self) -> bool {
        self.library == self.before
    }
}

/// Numbers of answers seen, by name.
#[derive(Default)]
pub struct Seen {
    counts: std::collections::BTreeMap<String, u64>,
    pub calls: u64,
}

impl Seen {
    pub fn add(&mut self, name: impl Into<String>, n: u64) {
        *self.counts.entry(name.into()).or_default() += n;
    }

    pub fn refusal(&mut self, number: u32) {
        self.calls += 1;
        self.add(if number == 0 { "accepted".to_string() } else { format!("refusal {number:2}") }, 1);
    }

    pub fn get(&self, name: &str) -> u64 {
        self.counts.get(name).copied().unwrap_or(0)
    }

    /// Prints the counts.
    pub fn report(&self, title: &str) {
        let list: Vec<String> = self.counts.iter().map(|(name, n)| format!("{name}: {n}")).collect();
        println!("{title}: {} calls compared; {}", self.calls, list.join(", "));
    }

    /// Each of these was seen this often at least: the generator does not miss it.
    pub fn at_least(&self, least: u64, names: &[&str]) {
        for name in names {
            let n = self.get(name);
            assert!(n >= least, "`{name}` was seen {n} times only: the generator misses it");
        }
    }
}

/// A length around a limit, mostly at least that.
pub fn around(r: &mut Random, limit: usize) -> usize {
    match r.below(20) {
        0 => limit - 1,
        1 => r.below(limit),
        2 => 0,
        3..=6 => limit + r.within(1, 40),
        _ => limit,
    }
}
