//! Algorithms tuned for speed: sorted sets compared with smaller ones only, the search by masks of sets, and a verdict
//! that branches on the drive that the fewest sets lack.

use super::plain::in_turns;
use super::tables::full;
use super::{bits, place, tuned_search, Method, Tuned};

impl Method for Tuned {
    fn normal(sets: &[u64]) -> Vec<u64> {
        let mut kept = sets.to_vec();
        kept.sort_unstable();
        kept.dedup();
        // smaller[k]: how many sets have fewer than k drives
        let mut smaller = [0usize; 66];
        kept.iter().for_each(|set| smaller[set.count_ones() as usize + 1] += 1);
        for size in 1..66 {
            smaller[size] += smaller[size - 1];
        }
        if smaller.iter().all(|&count| count == 0 || count == kept.len()) {
            return kept;
        }
        let (mut by_size, mut next) = (vec![0; kept.len()], smaller);
        for &set in &kept {
            let size = set.count_ones() as usize;
            by_size[next[size]] = set;
            next[size] += 1;
        }
        kept.retain(|set| by_size[..smaller[set.count_ones() as usize]].iter().all(|small| small & !set != 0));
        kept
    }

    fn minimal_hitting_sets(sets: &[u64], most: usize) -> Option<Vec<u64>> {
        let search = match sets.len() {
            0..=64 => tuned_search::search::<1>,
            65..=128 => tuned_search::search::<2>,
            129..=256 => tuned_search::search::<4>,
            257..=512 => tuned_search::search::<8>,
            _ => tuned_search::search::<16>,
        };
        in_turns(sets, |sets, fuel, look_ahead| search(sets, most, fuel, look_ahead))
    }

    /// By size in one pass, then each size by the bits turned round.
    fn sort_cores(cores: &mut [u64]) {
        let mut next = [0usize; 66];
        cores.iter().for_each(|core| next[core.count_ones() as usize + 1] += 1);
        for size in 1..66 {
            next[size] += next[size - 1];
        }
        let starts = next;
        let mut turned = vec![0; cores.len()];
        for core in cores.iter() {
            let size = core.count_ones() as usize;
            turned[next[size]] = !core.reverse_bits();
            next[size] += 1;
        }
        for size in 0..65 {
            turned[starts[size]..starts[size + 1]].sort_unstable();
        }
        cores.iter_mut().zip(turned).for_each(|(core, key)| *core = (!key).reverse_bits());
    }

    fn disjoint(k: u8, n: u8, table: &[u64]) -> Option<u64> {
        let columns = Columns::new(n, table);
        let from = |at: usize| (u128::MAX >> (128 - table.len())) & (u128::MAX << at);
        if !columns.some_apart(k, full(n), from(0)) {
            return None;
        }
        let (mut positions, mut shared, mut at) = (0, full(n), 0);
        for chosen in 0..k {
            while !columns.some_apart(k - 1 - chosen, shared & table[at], from(at)) {
                at += 1;
            }
            shared &= table[at];
            positions |= (at as u64 + 1) << (8 * chosen);
        }
        Some(positions)
    }
}

/// For each drive the places of the sets that lack it.
struct Columns<'a> {
    table: &'a [u64],
    lacking: [u128; 64],
}

impl<'a> Columns<'a> {
    fn new(n: u8, table: &'a [u64]) -> Columns<'a> {
        let mut lacking = [0; 64];
        for (at, set) in table.iter().enumerate() {
            bits(full(n) & !set).for_each(|drive| lacking[place(drive)] |= 1 << at);
        }
        Columns { table, lacking }
    }

    /// Some k of the sets allowed, repeats allowed, have no drive of `shared` in common.
    fn some_apart(&self, k: u8, shared: u64, mut allowed: u128) -> bool {
        if shared == 0 || k == 0 {
            return shared == 0;
        }
        if k == 1 {
            return bits(shared).all(|drive| {
                allowed &= self.lacking[place(drive)];
                allowed != 0
            });
        }
        let lacking = bits(shared).map(|drive| self.lacking[place(drive)] & allowed);
        let mut fewest = lacking.min_by_key(|sets| sets.count_ones()).unwrap_or(0);
        while fewest != 0 {
            let at = fewest.trailing_zeros() as usize;
            fewest &= fewest - 1;
            if self.some_apart(k - 1, shared & self.table[at], allowed) {
                return true;
            }
            allowed &= !(1 << at);
        }
        false
    }
}
