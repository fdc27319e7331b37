//! Tables: the calls given n and sets, the reader and the writer.

use super::{Answer, Method};

pub struct Table {
    pub n: u8,
    pub sets: Vec<u64>,
    pub cores: Vec<u64>,
}

pub fn full(n: u8) -> u64 {
    u64::MAX >> (64 - n)
}

fn is_frame(n: u8) -> bool {
    (1..=64).contains(&n)
}

fn is_set(n: u8, set: u64) -> bool {
    set != 0 && set & !full(n) == 0
}

fn complete<M: Method>(n: u8, sets: &[u64]) -> Answer<Table> {
    let sets = M::normal(sets);
    let mut cores = M::minimal_hitting_sets(&sets, 1024).ok_or(13u64)?;
    M::sort_cores(&mut cores);
    Ok(Table { n, sets, cores })
}

/// The table's own smallest sets, from its cores: 3, 13, 4, 5.
pub fn back<M: Method>(n: u8, groups: &[u64]) -> Answer<Vec<u64>> {
    if !is_frame(n) {
        return Err(3);
    }
    if groups.is_empty() || groups.len() > 1024 {
        return Err(13);
    }
    if !groups.iter().all(|group| is_set(n, *group)) {
        return Err(4);
    }
    let mut sets = M::minimal_hitting_sets(&M::normal(groups), 128).ok_or(5u64)?;
    sets.sort_unstable();
    Ok(sets)
}

/// 3, 2, 5, 4, 13.
pub fn accept<M: Method>(n: u8, sets: &[u64]) -> Answer<Table> {
    if !is_frame(n) {
        return Err(3);
    }
    if sets.is_empty() {
        return Err(2);
    }
    if sets.len() > 128 {
        return Err(5);
    }
    if !sets.iter().all(|set| is_set(n, *set)) {
        return Err(4);
    }
    complete::<M>(n, sets)
}

/// How many groups of k out of n drives there are, held at 1025.
fn group_count(n: u64, k: u64) -> u64 {
    let mut count = 1;
    for i in 0..k.min(n - k) {
        count = count * (n - i) / (i + 1);
        if count > 1024 {
            return 1025;
        }
    }
    count
}

/// The groups of k out of n drives, by mask, each from the one before; k is 1 to n.
fn groups(n: u8, k: u8, count: u64) -> Vec<u64> {
    let mut made = Vec::with_capacity(count as usize);
    let (mut group, last) = (full(k), full(k) << (n - k));
    while group != last {
        made.push(group);
        let low = group & group.wrapping_neg();
        let up = group + low;
        group = up | ((group ^ up) / low >> 2);
    }
    made.push(last);
    made
}

/// All groups of n - t drives: 3, 31, 32, 13.
pub fn threshold_sets(n: u8, t: u8) -> Answer<Vec<u64>> {
    if !is_frame(n) {
        return Err(3);
    }
    if t >= n {
        return Err(31);
    }
    let count = group_count(n.into(), t.into());
    if count > 128 {
        return Err(32);
    }
    if group_count(n.into(), u64::from(t) + 1) > 1024 {
        return Err(13);
    }
    Ok(groups(n, n - t, count))
}

/// The mark at the start of the bytes, and what stands behind it.
pub fn mark(bytes: &[u8]) -> Answer<([u8; 2], &[u8])> {
    bytes.split_first_chunk::<2>().map(|(mark, rest)| (*mark, rest)).ok_or(1)
}

/// A table and nothing more.
pub fn read<M: Method>(bytes: &[u8]) -> Answer<Table> {
    let (n, sets, rest) = listed(bytes)?;
    if !rest.is_empty() {
        return Err(7);
    }
    complete::<M>(n, &sets)
}

/// A table and what stands behind it.
pub fn read_with_rest<M: Method>(bytes: &[u8]) -> Answer<(Table, &[u8])> {
    let (n, sets, rest) = listed(bytes)?;
    Ok((complete::<M>(n, &sets)?, rest))
}

/// n and the sets as they are listed, and what stands behind them.
fn listed(bytes: &[u8]) -> Answer<(u8, Vec<u64>, &[u8])> {
    let (first, rest) = mark(bytes)?;
    if &first != b"FR" {
        return Err(2);
    }
    let (&n, mut rest) = rest.split_first().ok_or(1u64)?;
    if !is_frame(n) {
        return Err(3);
    }
    let mut sets = Vec::with_capacity(128);
    loop {
        let (next, fields) = mark(rest)?;
        match &next {
            b"SV" => {
                let (field, behind) = fields.split_first_chunk::<8>().ok_or(1u64)?;
                if sets.len() == 128 {
                    return Err(5);
                }
                let set = u64::from_le_bytes(*field);
                if !is_set(n, set) {
                    return Err(4);
                }
                sets.push(set);
                rest = behind;
            }
            b"EN" if !sets.is_empty() => {
                let (&count, behind) = fields.split_first().ok_or(1u64)?;
                if count as usize != sets.len() {
                    return Err(6);
                }
                return Ok((n, sets, behind));
            }
            _ => return Err(2),
        }
    }
}

/// The normal table from `start` on; how many bytes.
pub fn write<M: Method>(n: u8, sets: &[u64], buffer: &mut [u8], start: usize) -> Answer<usize> {
    let table = accept::<M>(n, sets)?;
    let size = 6 + 10 * table.sets.len();
    let part = buffer.get_mut(start..).ok_or(14u64)?;
    let part = part.get_mut(..size).ok_or(14u64)?;
    part[..3].copy_from_slice(&[b'F', b'R', table.n]);
    for (record, set) in part[3..].chunks_exact_mut(10).zip(&table.sets) {
        record[..2].copy_from_slice(b"SV");
        record[2..].copy_from_slice(&set.to_le_bytes());
    }
    part[size - 3..].copy_from_slice(&[b'E', b'N', table.sets.len() as u8]);
    Ok(size)
}
