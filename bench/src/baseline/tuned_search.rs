//! The prefix search for minimal hitting sets by masks of sets, which keeps the private sets of each chosen drive.

use super::plain::Searched;
use super::{bits, place};

/// With fuel or without limit, on at most 64 W sets.
pub fn search<const W: usize>(sets: &[u64], most: usize, fuel: Option<usize>, look_ahead: bool) -> Searched {
    if look_ahead {
        Search::<W, true>::run(sets, most, fuel)
    } else {
        Search::<W, false>::run(sets, most, fuel)
    }
}

/// Places of sets.
#[derive(Clone, Copy)]
struct Places<const W: usize>([u64; W]);

impl<const W: usize> Places<W> {
    const NONE: Self = Places([0; W]);

    fn insert(&mut self, at: usize) {
        self.0[at / 64] |= 1 << (at % 64);
    }

    #[inline(always)]
    fn and(self, other: Self) -> Self {
        Places(std::array::from_fn(|word| self.0[word] & other.0[word]))
    }

    #[inline(always)]
    fn minus(self, other: Self) -> Self {
        Places(std::array::from_fn(|word| self.0[word] & !other.0[word]))
    }

    #[inline(always)]
    fn is_empty(self) -> bool {
        self.0.iter().fold(0, |all, word| all | word) == 0
    }

    #[inline(always)]
    fn first(self) -> Option<usize> {
        self.0.iter().position(|&word| word != 0).map(|word| 64 * word + place(self.0[word]))
    }

    /// All places below this one.
    #[inline(always)]
    fn below(at: usize) -> Self {
        Places(std::array::from_fn(|word| match at.saturating_sub(64 * word) {
            0 => 0,
            behind => u64::MAX >> (64 - behind.min(64)),
        }))
    }

    fn each(self) -> impl Iterator<Item = usize> {
        (0..W).flat_map(move |word| bits(self.0[word]).map(move |bit| 64 * word + place(bit)))
    }
}

struct Search<'a, const W: usize, const AHEAD: bool> {
    sets: &'a [u64],
    holding: [Places<W>; 64],
    most: usize,
    left: usize,
    found: Vec<u64>,
    ends: Vec<usize>,
}

impl<'a, const W: usize, const AHEAD: bool> Search<'a, W, AHEAD> {
    fn run(sets: &'a [u64], most: usize, fuel: Option<usize>) -> Searched {
        let (mut holding, mut missed) = ([Places::NONE; 64], Places::NONE);
        for (at, &set) in sets.iter().enumerate() {
            bits(set).for_each(|drive| holding[place(drive)].insert(at));
            missed.insert(at);
        }
        // row after row the private sets of the chosen drives, each row one longer than the row before
        let drives = sets.iter().fold(0, |all, set| all | set).count_ones() as usize;
        let depth = drives.min(sets.len()) + 1;
        let mut private = vec![Places::NONE; depth * (depth + 1) / 2 + 1];
        let (left, ends) = (fuel.unwrap_or(usize::MAX), vec![0; sets.len()]);
        let mut search = Self { sets, holding, most, left, found: Vec::new(), ends };
        search.extend(0, 0, missed, &mut private);
        if search.found.len() > most {
            return Ok(None);
        }
        if search.left == 0 {
            return Err(search.ends);
        }
        Ok(Some(search.found))
    }

    /// False where the whole search is to end.
    fn extend(&mut self, depth: usize, chosen: u64, missed: Places<W>, private: &mut [Places<W>]) -> bool {
        let Some(next) = missed.first() else {
            self.found.push(chosen);
            return self.found.len() <= self.most;
        };
        self.left -= 1;
        if AHEAD && depth > 0 && self.is_doomed(missed, &private[..depth]) {
            self.ends[next] += 1;
            return self.left != 0;
        }
        let below = Places::below(next);
        let (row, rows) = private.split_at_mut(depth);
        let mut ends = true;
        'drives: for drive in bits(self.sets[next]) {
            let holding = self.holding[place(drive)];
            for (old, new) in row.iter().zip(rows.iter_mut()) {
                *new = old.minus(holding);
                if new.and(below).is_empty() {
                    continue 'drives;
                }
            }
            if self.left == 0 {
                return false;
            }
            ends = false;
            rows[depth] = missed.and(holding);
            if !self.extend(depth + 1, chosen | drive, missed.minus(holding), rows) {
                return false;
            }
        }
        self.ends[next] += usize::from(ends);
        self.left != 0
    }

    /// Some missed set has only drives that are each in all private sets of a chosen one, or each private set of a
    /// chosen drive holds all that is left of some missed set.
    fn is_doomed(&self, missed: Places<W>, private: &[Places<W>]) -> bool {
        let barred = private.iter().fold(0, |all, sets| all | sets.each().fold(u64::MAX, |all, at| all & self.sets[at]));
        let (mut left, mut count) = ([0; 1024], 0);
        for at in missed.each() {
            left[count] = self.sets[at] & !barred;
            count += 1;
        }
        let left = &left[..count];
        let stays = |set: u64| left.iter().all(|left| left & !set != 0);
        left.contains(&0) || !private.iter().all(|sets| sets.each().any(|at| stays(self.sets[at])))
    }
}
