//! One drive's part in an exchange: opening, send, message and close.

use super::tables::{accept, full};
use super::{bits, Answer, Method};

#[derive(Clone)]
pub struct Exchange {
    n: u8,
    own: u8,
    core: u64,
    pub round: u8,
    before: u64,
    pub heard: u64,
    known: u64,
    start: u64,
    numbers: [u32; 64],
    announced: Option<(u8, u32)>,
    pub decision: Option<u32>,
    pub halted: bool,
}

fn single(drive: u8) -> u64 {
    1 << (drive - 1)
}

/// A pattern number of two or four bytes, lowest first.
pub fn number(bytes: &[u8]) -> u32 {
    let mut wide = [0; 4];
    wide[..bytes.len()].copy_from_slice(bytes);
    u32::from_le_bytes(wide)
}

pub fn open<M: Method>(n: u8, sets: &[u64], own: u8, number: u32) -> Answer<Exchange> {
    let core = accept::<M>(n, sets)?.cores[0];
    if !(1..=n).contains(&own) {
        return Err(8);
    }
    Ok(initial(n, core, own, number))
}

/// The state at opening.
pub fn initial(n: u8, core: u64, own: u8, number: u32) -> Exchange {
    let known = core & single(own);
    let mut numbers = [0; 64];
    if known != 0 {
        numbers[own as usize - 1] = number;
    }
    Exchange {
        n,
        own,
        core,
        round: 1,
        before: core,
        heard: 0,
        known,
        start: known,
        numbers,
        announced: None,
        decision: None,
        halted: false,
    }
}

impl Exchange {
    fn is_broken(&self) -> bool {
        if !(1..=64).contains(&self.n) || self.core == 0 || self.core & !full(self.n) != 0 {
            return true;
        }
        if !(1..=self.n).contains(&self.own) {
            return true;
        }
        let own = single(self.own);
        let inside = self.before | self.heard | self.known | self.start;
        (self.core & own != 0 && self.known & self.start & own == 0)
            || self.round == 0
            || self.round as u32 > self.core.count_ones()
            || inside & !self.core != 0
    }

    /// The message of the round into the buffer, from the starting place on; how many bytes.
    pub fn send(&self, buffer: &mut [u8], start: usize) -> Answer<usize> {
        if self.is_broken() {
            return Err(28);
        }
        if self.halted {
            return Err(23);
        }
        if self.core & single(self.own) == 0 {
            return Err(27);
        }
        let size = self.decision.map_or(12 + 4 * self.start.count_ones() as usize, |_| 8);
        let part = buffer.get_mut(start..).and_then(|rest| rest.get_mut(..size)).ok_or(14u64)?;
        match self.decision {
            Some(number) => {
                part[..4].copy_from_slice(&[b'D', b'W', self.own, self.round]);
                part[4..].copy_from_slice(&number.to_le_bytes());
            }
            None => {
                part[..4].copy_from_slice(&[b'K', b'W', self.own, self.round]);
                part[4..12].copy_from_slice(&self.start.to_le_bytes());
                for (value, drive) in part[12..].chunks_exact_mut(4).zip(bits(self.start)) {
                    value.copy_from_slice(&self.numbers[drive.trailing_zeros() as usize].to_le_bytes());
                }
            }
        }
        Ok(size)
    }

    /// The close of the round.
    pub fn close(&mut self) -> Answer<()> {
        if self.is_broken() {
            return Err(28);
        }
        if self.halted {
            return Err(23);
        }
        let own = self.core & single(self.own);
        let heard = self.heard | own;
        let was = self.decision;
        if was.is_none() {
            let smallest = || bits(self.known).map(|drive| self.numbers[drive.trailing_zeros() as usize]).min();
            self.decision = match self.announced {
                Some((_, number)) => Some(number),
                None if heard != 0 && heard == self.before => smallest(),
                None => None,
            };
        }
        let decided = self.decision.is_some();
        self.halted = was.is_some() || (own == 0 && decided) || u32::from(self.round) == self.core.count_ones();
        self.round += u8::from(!self.halted);
        self.before = heard;
        self.heard = 0;
        self.start = self.known;
        self.announced = None;
        Ok(())
    }

    pub fn message(&mut self, bytes: &[u8]) -> Answer<()> {
        if self.is_broken() {
            return Err(28);
        }
        if self.halted {
            return Err(23);
        }
        let (mark, rest) = bytes.split_first_chunk::<2>().ok_or(1u64)?;
        match mark {
            b"KW" => self.known::<4>(rest),
            b"DW" => self.decide::<4>(rest),
            b"KN" => self.known::<2>(rest),
            b"DC" => self.decide::<2>(rest),
            _ => Err(2),
        }
    }

    /// 22, 26, 24, 21.
    fn admit(&self, sender: u8, round: u8, mask: u64) -> Answer<u64> {
        let one = single(sender);
        if sender == self.own || (one | mask) & !self.core != 0 {
            return Err(22);
        }
        if round != self.round {
            return Err(26);
        }
        if self.before & one == 0 {
            return Err(24);
        }
        if self.heard & one != 0 {
            return Err(21);
        }
        Ok(one)
    }

    /// A KW or KN: the numbers of four or two bytes.
    fn known<const WIDTH: usize>(&mut self, rest: &[u8]) -> Answer<()> {
        let (head, values) = rest.split_first_chunk::<10>().ok_or(1u64)?;
        let (sender, round) = (head[0], head[1]);
        let mask = u64::from_le_bytes(head[2..].try_into().unwrap());
        if !(1..=self.n).contains(&sender) {
            return Err(8);
        }
        if mask & single(sender) == 0 || mask & !full(self.n) != 0 {
            return Err(15);
        }
        let size = WIDTH * mask.count_ones() as usize;
        if values.len() != size {
            return Err(if values.len() < size { 1 } else { 7 });
        }
        let one = self.admit(sender, round, mask)?;
        let entries = || bits(mask).zip(values.chunks_exact(WIDTH));
        for (drive, value) in entries() {
            if self.known & drive != 0 && self.numbers[drive.trailing_zeros() as usize] != number(value) {
                return Err(25);
            }
        }
        for (drive, value) in entries() {
            self.numbers[drive.trailing_zeros() as usize] = number(value);
        }
        self.known |= mask;
        self.heard |= one;
        Ok(())
    }

    /// A DW or DC.
    fn decide<const WIDTH: usize>(&mut self, rest: &[u8]) -> Answer<()> {
        let (&[sender, round], rest) = rest.split_first_chunk::<2>().ok_or(1u64)?;
        let (value, behind) = rest.split_first_chunk::<WIDTH>().ok_or(1u64)?;
        if !(1..=self.n).contains(&sender) {
            return Err(8);
        }
        if !behind.is_empty() {
            return Err(7);
        }
        self.heard |= self.admit(sender, round, 0)?;
        if self.announced.is_none_or(|(lowest, _)| sender < lowest) {
            self.announced = Some((sender, number(value)));
        }
        Ok(())
    }
}
