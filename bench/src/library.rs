//! The calls of the proved library, as `include/regdulyn.h` declares them: a slice passes as a pointer and a length, a
//! state and a reply by value. A refusal is its number.

use crate::baseline::Answer;

/// One drive's state.
#[repr(C)]
#[derive(Clone, Copy)]
pub struct State {
    core: u64,
    before: u64,
    pub heard: u64,
    known: u64,
    start: u64,
    numbers: [u32; 64],
    told: u32,
    decision: u32,
    n: u8,
    own: u8,
    pub round: u8,
    announced: u8,
    by: u8,
    decided: u8,
    halted: u8,
    reserved: [u8; 1],
}

#[repr(C)]
struct StateReply {
    state: State,
    refusal: u32,
}

/// How many sets or bytes.
#[repr(C)]
struct SizeReply {
    size: usize,
    refusal: u32,
}

#[repr(C)]
struct TableReply {
    count: usize,
    used: usize,
    refusal: u32,
    n: u8,
}

#[repr(C)]
struct VerdictReply {
    blocks: [u64; 4],
    positions: [u8; 4],
    shared: u8,
    refusal: u32,
}

/// How many cores the search found, and how far it had to go: its turn, and the fuel then left.
#[repr(C)]
#[derive(Clone, Copy)]
pub struct Effort {
    pub found: u64,
    pub turn: u64,
    pub left: u64,
}

mod c {
    use super::{Effort, SizeReply, State, StateReply, TableReply, VerdictReply};

    extern "C" {
        pub fn regdulyn_unopened() -> State;
        pub fn regdulyn_open(state: State, n: u8, sets: *const u64, count: usize, own: u8, number: u32) -> StateReply;
        pub fn regdulyn_message(state: State, bytes: *const u8, length: usize) -> StateReply;
        pub fn regdulyn_close(state: State) -> StateReply;
        pub fn regdulyn_send(state: State, buffer: *mut u8, room: usize, start: usize) -> SizeReply;
        pub fn regdulyn_read_whole(bytes: *const u8, length: usize, sets: *mut u64, room: usize) -> TableReply;
        pub fn regdulyn_write_table(n: u8, sets: *const u64, count: usize, buffer: *mut u8, room: usize, start: usize) -> SizeReply;
        pub fn regdulyn_cores(n: u8, sets: *const u64, count: usize, cores: *mut u64, room: usize) -> SizeReply;
        pub fn regdulyn_back(n: u8, groups: *const u64, count: usize, sets: *mut u64, room: usize) -> SizeReply;
        pub fn regdulyn_threshold(n: u8, t: u8, sets: *mut u64, room: usize) -> SizeReply;
        pub fn regdulyn_verdict(k: u8, n: u8, sets: *const u64, count: usize) -> VerdictReply;
        pub fn regdulyn_run_listing(input: *const u8, length: usize, text: *mut u8, room: usize, start: usize) -> SizeReply;
        pub fn regdulyn_search_effort(sets: *const u64, count: usize) -> Effort;
    }
}

fn answer<T>(refusal: u32, result: T) -> Answer<T> {
    match refusal {
        0 => Ok(result),
        number => Err(number.into()),
    }
}

fn size(reply: SizeReply) -> Answer<u64> {
    answer(reply.refusal, reply.size as u64)
}

fn state(reply: StateReply) -> Answer<State> {
    answer(reply.refusal, reply.state)
}

pub fn open(n: u8, sets: &[u64], own: u8, number: u32) -> Answer<State> {
    unsafe { state(c::regdulyn_open(c::regdulyn_unopened(), n, sets.as_ptr(), sets.len(), own, number)) }
}

impl State {
    pub fn message(&self, bytes: &[u8]) -> Answer<State> {
        unsafe { state(c::regdulyn_message(*self, bytes.as_ptr(), bytes.len())) }
    }

    pub fn close(&self) -> Answer<State> {
        unsafe { state(c::regdulyn_close(*self)) }
    }

    pub fn send(&self, buffer: &mut [u8], start: usize) -> Answer<u64> {
        unsafe { size(c::regdulyn_send(*self, buffer.as_mut_ptr(), buffer.len(), start)) }
    }

    /// The decision, and whether the drive has halted.
    pub fn end(&self) -> (Option<u32>, bool) {
        ((self.decided != 0).then_some(self.decision), self.halted != 0)
    }
}

/// The sets of the normal table into the first places; how many.
pub fn read_table(bytes: &[u8], sets: &mut [u64]) -> Answer<u64> {
    let reply = unsafe { c::regdulyn_read_whole(bytes.as_ptr(), bytes.len(), sets.as_mut_ptr(), sets.len()) };
    answer(reply.refusal, reply.count as u64)
}

pub fn write_table(n: u8, sets: &[u64], buffer: &mut [u8], start: usize) -> Answer<u64> {
    unsafe { size(c::regdulyn_write_table(n, sets.as_ptr(), sets.len(), buffer.as_mut_ptr(), buffer.len(), start)) }
}

pub fn cores(n: u8, sets: &[u64], cores: &mut [u64]) -> Answer<u64> {
    unsafe { size(c::regdulyn_cores(n, sets.as_ptr(), sets.len(), cores.as_mut_ptr(), cores.len())) }
}

pub fn back(n: u8, groups: &[u64], sets: &mut [u64]) -> Answer<u64> {
    unsafe { size(c::regdulyn_back(n, groups.as_ptr(), groups.len(), sets.as_mut_ptr(), sets.len())) }
}

/// The sets of the table from n and t into the first places; how many.
pub fn threshold(n: u8, t: u8, sets: &mut [u64]) -> Answer<u64> {
    unsafe { size(c::regdulyn_threshold(n, t, sets.as_mut_ptr(), sets.len())) }
}

/// 0 for a yes, and for a no the positions, one byte each, the first lowest.
pub fn verdict(k: u8, n: u8, sets: &[u64]) -> Answer<u64> {
    let reply = unsafe { c::regdulyn_verdict(k, n, sets.as_ptr(), sets.len()) };
    answer(reply.refusal, u32::from_le_bytes(reply.positions).into())
}

pub fn run_listing(input: &[u8], text: &mut [u8]) -> Answer<u64> {
    unsafe { size(c::regdulyn_run_listing(input.as_ptr(), input.len(), text.as_mut_ptr(), text.len(), 0)) }
}

pub fn search_effort(sets: &[u64]) -> Effort {
    unsafe { c::regdulyn_search_effort(sets.as_ptr(), sets.len()) }
}
