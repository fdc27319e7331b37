//! Looks for tables on which the search for cores goes far: from each table of `bench/tables` and some random ones it
//! makes a few changes at a time and keeps what makes the search no shorter, by the library's own count of turns and
//! fuel and not by time. The best goes to `target/bench/climbed.table`. The arguments, if any, are the seconds and a
//! seed.

use crate::baseline::{bits, Method, Plain};
use crate::{inputs, library};
use std::cmp::Reverse;
use std::time::Instant;

const DRIVES: u8 = 64;
const MOST_SETS: usize = 128;
const RANDOM_STARTS: usize = 6;
const SECONDS: f64 = 120.0;

/// A later turn is more, and less fuel left in it.
type Score = (u64, Reverse<u64>);

fn score(sets: &[u64]) -> Score {
    let effort = library::search_effort(sets);
    (effort.turn, Reverse(effort.left))
}

/// Xorshift.
struct Random(u64);

impl Random {
    fn next(&mut self) -> u64 {
        self.0 ^= self.0 << 13;
        self.0 ^= self.0 >> 7;
        self.0 ^= self.0 << 17;
        self.0
    }

    fn below(&mut self, bound: usize) -> usize {
        (self.next() % bound as u64) as usize
    }

    fn drive(&mut self) -> u64 {
        1 << self.below(DRIVES.into())
    }

    fn member(&mut self, set: u64) -> u64 {
        let place = self.below(set.count_ones() as usize);
        bits(set).nth(place).expect("a drive")
    }

    fn set(&mut self, density: u64) -> u64 {
        (0..DRIVES).filter(|_| self.next() % 100 < density).fold(0, |set, at| set | 1 << at)
    }

    fn table(&mut self) -> Vec<u64> {
        let (count, density) = (8 + self.below(MOST_SETS - 8), 3 + self.next() % 60);
        kept((0..count).map(|_| self.set(density) | self.drive()).collect(), self)
    }

    /// One to three changes: a drive more or less, two drives, a set dropped, a copy with a drive exchanged, two sets
    /// crossed, or what they share.
    fn changed(&mut self, sets: &[u64]) -> Vec<u64> {
        let mut sets = sets.to_vec();
        for _ in 0..=self.below(3) {
            let (at, other) = (self.below(sets.len()), self.below(sets.len()));
            match self.below(10) {
                0..=2 => sets[at] ^= self.drive(),
                3 | 4 => sets[at] ^= self.drive() | self.drive(),
                5 => drop(sets.swap_remove(at)),
                6 | 7 => sets.push(sets[at] & !self.member(sets[at]) | self.drive()),
                8 => {
                    let mask = self.next();
                    sets.push(sets[at] & mask | sets[other] & !mask);
                }
                _ => sets.push(sets[at] & sets[other]),
            }
            sets = kept(sets, self);
        }
        sets
    }
}

/// The normal table of those that are not empty, at most 128.
fn kept(mut sets: Vec<u64>, random: &mut Random) -> Vec<u64> {
    sets.retain(|set| *set != 0);
    if sets.is_empty() {
        sets.push(1);
    }
    let mut sets = Plain::normal(&sets);
    while sets.len() > MOST_SETS {
        sets.swap_remove(random.below(sets.len()));
    }
    sets.sort_unstable();
    sets
}

/// The best table that is found from a start within so many seconds.
fn climb(start: Vec<u64>, seconds: f64, random: &mut Random) -> (Score, Vec<u64>) {
    let clock = Instant::now();
    let mut best = (score(&start), start);
    while clock.elapsed().as_secs_f64() < seconds {
        let next = random.changed(&best.1);
        let reached = score(&next);
        if reached >= best.0 {
            best = (reached, next);
        }
    }
    best
}

pub fn main(mut arguments: impl Iterator<Item = String>) {
    let seconds: f64 = arguments.next().and_then(|seconds| seconds.parse().ok()).unwrap_or(SECONDS);
    let seed: u64 = arguments.next().and_then(|seed| seed.parse().ok()).unwrap_or(1);
    let mut random = Random(seed.wrapping_mul(0x9e37_79b9_7f4a_7c15) | 1);
    let mut starts: Vec<(String, Vec<u64>)> = inputs::hard_tables().into_iter().map(|table| (table.name, Plain::normal(&table.sets))).collect();
    starts.extend((1..=RANDOM_STARTS).map(|number| (format!("random {number}"), random.table())));
    let each = seconds / starts.len() as f64;
    let mut worst: Option<(Score, Vec<u64>)> = None;
    for (name, start) in starts {
        let found = climb(start, each, &mut random);
        let mut cores = vec![0; 1024];
        let clock = Instant::now();
        let answer = library::cores(DRIVES, &found.1, &mut cores).map_or_else(|number| format!("refused {number}"), |count| count.to_string());
        let milliseconds = clock.elapsed().as_secs_f64() * 1e3;
        let ((turn, Reverse(left)), sets) = (found.0, found.1.len());
        println!("{name:<30} turn {turn:>3} left {left:>8} sets {sets:>3} answer {answer:>10} {milliseconds:>8.2} ms");
        worst = worst.max(Some(found));
    }
    let worst = worst.expect("a start").1;
    std::fs::write("target/bench/climbed.table", inputs::table_bytes(DRIVES, &worst)).expect("target/bench");
}
