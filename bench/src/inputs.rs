//! The tables and messages that are timed.

use std::path::Path;

/// A name, n and the sets.
pub struct Input {
    pub name: String,
    pub n: u8,
    pub sets: Vec<u64>,
}

fn full(n: u8) -> u64 {
    u64::MAX >> (64 - n)
}

/// Every drive but one: at most one drops out.
pub fn all_but_one(n: u8) -> Input {
    let sets = (0..n).map(|place| full(n) & !(1 << place)).collect();
    Input { name: "44 of 45".to_string(), n, sets }
}

/// Every drive but two.
pub fn all_but_two(n: u8) -> Input {
    let pairs = (0..n).flat_map(|low| (low + 1..n).map(move |high| (low, high)));
    let sets = pairs.map(|(low, high)| full(n) & !(1 << low | 1 << high)).collect();
    Input { name: "14 of 16".to_string(), n, sets }
}

/// One drive of each of seven pairs, in every way: 128 sets, whose cores are the pairs. With a drive that all sets
/// share, if asked for.
pub fn one_of_each_pair(shared: bool) -> Input {
    let extra = if shared { 1 << 14 } else { 0 };
    let choice = |taken: u64| (0..7).map(|pair| 1 << (2 * pair + (taken >> pair & 1))).sum::<u64>();
    let sets = (0..128).map(|taken| choice(taken) | extra).collect();
    Input { name: "7 pairs, one of each".to_string(), n: if shared { 15 } else { 14 }, sets }
}

/// The tables in `bench/tables`, by name: each is hard for one search or another.
pub fn hard_tables() -> Vec<Input> {
    let mut tables: Vec<Input> = std::fs::read_dir("bench/tables")
        .expect("run from the top of the repository")
        .map(|entry| entry.expect("an entry").path())
        .filter(|path| path.extension().is_some_and(|ending| ending == "table"))
        .map(|path| read(&path))
        .collect();
    tables.sort_by(|left, right| left.name.cmp(&right.name));
    tables
}

/// A table with these sets as a file.
pub fn table_bytes(n: u8, sets: &[u64]) -> Vec<u8> {
    let records = sets.iter().flat_map(|set| [b"SV".as_slice(), &set.to_le_bytes()].concat());
    [b'F', b'R', n].into_iter().chain(records).chain([b'E', b'N', sets.len() as u8]).collect()
}

fn read(path: &Path) -> Input {
    let bytes = std::fs::read(path).expect("a table");
    let sets = bytes[3..bytes.len() - 3].chunks_exact(10).map(|record| u64::from_le_bytes(record[2..].try_into().unwrap()));
    Input { name: path.file_stem().unwrap().to_string_lossy().into_owned(), n: bytes[2], sets: sets.collect() }
}

/// What each drive opens with in the calls of one exchange, more than two bytes hold.
pub const OWN_NUMBER: u32 = 1_000_000;

/// An opening, and the messages handed over after it, so many of `size` bytes each.
#[derive(Clone)]
pub struct Start {
    pub n: u8,
    pub sets: Vec<u64>,
    pub own: u8,
    pub messages: Vec<u8>,
    pub count: usize,
    pub size: usize,
}

/// Each of the first drives alone.
fn single_sets(count: u8) -> Vec<u64> {
    (0..count).map(|place| 1 << place).collect()
}

/// Drive `own` of 64, of which the first `core` are each a set alone and so the chosen core, and `count` KWs of the other
/// core drives in round 1, each with all numbers of the core.
pub fn single_drives(core: u8, own: u8, count: usize) -> Start {
    let numbers: Vec<u8> = (0..u32::from(core)).flat_map(|place| (OWN_NUMBER + place).to_le_bytes()).collect();
    let message = |sender: u8| [&[b'K', b'W', sender, 1], &full(core).to_le_bytes()[..], &numbers].concat();
    let senders = (1..=core).filter(|&sender| sender != own);
    Start {
        n: 64,
        sets: single_sets(core),
        own,
        messages: senders.take(count).flat_map(message).collect(),
        count,
        size: 12 + numbers.len(),
    }
}

/// A table of 64 single drives and a run file in which each drive but the last stops in the round of its number, if asked
/// for, after one send.
pub fn whole_exchange(stops: bool) -> Vec<u8> {
    let mut file = table_bytes(64, &single_sets(64));
    for drive in 1..=64u8 {
        file.extend([b'P', b'W', drive]);
        file.extend((OWN_NUMBER - u32::from(drive)).to_le_bytes());
    }
    let last = if stops { 63 } else { 0 };
    for drive in 1..=last {
        file.extend([b'C', b'R', drive, drive, 1]);
    }
    file.extend([b'E', b'N', last]);
    file
}
