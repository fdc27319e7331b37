//! The run program: a table, a run file, a simulated exchange by messages, and its text.

use super::exchange::{initial, number, Exchange};
use super::tables::{full, mark, read_with_rest, Table};
use super::{bits, Answer, Method};
use std::io::Write;

/// A CR: the round and the sends.
type Crash = Option<(u8, u8)>;

struct Scenario {
    table: Table,
    numbers: Vec<u32>,
    crashes: [Crash; 64],
}

fn read<M: Method>(bytes: &[u8]) -> Answer<Scenario> {
    let (table, mut rest) = read_with_rest::<M>(bytes)?;
    let (n, core) = (table.n, table.cores[0]);
    // a listener's number is read and never used
    let (mut numbers, mut last, mut owed) = (vec![0; n as usize], 0, core);
    while owed != 0 || last < n && (rest.starts_with(b"PW") || rest.starts_with(b"PR")) {
        let (kind, fields) = mark(rest)?;
        let size = match &kind {
            b"PW" => 5,
            b"PR" => 3,
            _ => return Err(2),
        };
        if fields.len() < size {
            return Err(1);
        }
        let (record, behind) = fields.split_at(size);
        let drive = record[0];
        if drive > n || drive <= last || owed & ((1 << (drive - 1)) - 1) != 0 {
            return Err(8);
        }
        numbers[drive as usize - 1] = number(&record[1..]);
        (last, owed, rest) = (drive, owed & !(1 << (drive - 1)), behind);
    }
    let (mut crashes, mut crashed, mut last, mut count) = ([None; 64], 0u64, 0, 0);
    loop {
        let (kind, fields) = mark(rest)?;
        match &kind {
            b"CR" => {
                let (&[drive, round, sends], behind) = fields.split_first_chunk::<3>().ok_or(1u64)?;
                if drive > n || drive <= last {
                    return Err(8);
                }
                if round == 0 || u32::from(round) > core.count_ones() {
                    return Err(9);
                }
                let one = 1 << (drive - 1);
                if sends > if core & one != 0 { n - 1 } else { 0 } {
                    return Err(10);
                }
                crashes[drive as usize - 1] = Some((round, sends));
                (crashed, last, count, rest) = (crashed | one, drive, count + 1, behind);
            }
            b"EN" => {
                let (&listed, behind) = fields.split_first().ok_or(1u64)?;
                if listed != count {
                    return Err(6);
                }
                if !behind.is_empty() {
                    return Err(7);
                }
                if table.sets.iter().position(|set| set & crashed == 0).is_none() {
                    return Err(11);
                }
                return Ok(Scenario { table, numbers, crashes });
            }
            _ => return Err(2),
        }
    }
}

/// The first decision of each drive: the number and the round.
fn play(s: &Scenario) -> Vec<Option<(u32, u8)>> {
    let (n, core) = (s.table.n, s.table.cores[0]);
    let mut states: Vec<Exchange> = (1..=n).map(|own| initial(n, core, own, s.numbers[own as usize - 1])).collect();
    let mut found = vec![None; n as usize];
    let mut bytes = [0; 268];
    for round in 1..=core.count_ones() as u8 {
        for sender in bits(core) {
            let at = sender.trailing_zeros() as usize;
            if s.crashes[at].is_some_and(|(gone, _)| gone < round) {
                continue;
            }
            // what a drive sends is not changed by the messages of the round
            let Ok(size) = states[at].send(&mut bytes, 0) else { continue };
            let sends = s.crashes[at].filter(|(gone, _)| *gone == round).map_or(64, |(_, sends)| sends);
            let list = bits(core & !sender).chain(bits(full(n) & !core));
            for to in list.take(sends as usize) {
                let _ = states[to.trailing_zeros() as usize].message(&bytes[..size]);
            }
        }
        for (at, state) in states.iter_mut().enumerate() {
            if state.halted || s.crashes[at].is_some_and(|(gone, _)| gone <= round) {
                continue;
            }
            let _ = state.close();
            found[at] = found[at].or(state.decision.map(|number| (number, round)));
        }
        if found.iter().all(Option::is_some) {
            break;
        }
    }
    found
}

/// The text for some bytes, from the first place of the buffer on; how many bytes.
pub fn listing<M: Method>(bytes: &[u8], out: &mut [u8]) -> usize {
    let room = out.len();
    let mut rest = &mut out[..];
    match read::<M>(bytes) {
        Err(number) => writeln!(rest, "refused {number}").unwrap(),
        Ok(s) => {
            for (at, ending) in play(&s).iter().enumerate() {
                match (s.crashes[at], ending) {
                    (Some(_), _) => writeln!(rest, "drive {} stopped", at + 1).unwrap(),
                    (None, Some((number, round))) => writeln!(rest, "drive {} decides {number} round {round}", at + 1).unwrap(),
                    (None, None) => writeln!(rest, "drive {} undecided", at + 1).unwrap(),
                }
            }
            let core = s.table.cores[0];
            let stops = bits(core).filter(|drive| s.crashes[drive.trailing_zeros() as usize].is_some()).count();
            writeln!(rest, "core {core:x} stops {stops}").unwrap();
        }
    }
    room - rest.len()
}
