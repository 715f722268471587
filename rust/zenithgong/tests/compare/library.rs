//! The library's operations under their own names, each call counted: the tests call no other way.
use std::cell::Cell;
use zenithgong::{FirstHit, Guard, Input, Listing, Refusal, Run, Source, Steps};

thread_local! {
    static CALLS: Cell<u64> = const { Cell::new(0) };
}

/// The calls that this thread has made.
pub fn calls() -> u64 {
    CALLS.with(Cell::get)
}

fn counted<T>(answer: T) -> T {
    CALLS.with(|calls| calls.set(calls.get() + 1));
    answer
}

pub fn step_vectors(period: u32, remainder: u32, window: u32) -> Result<Steps, Refusal> {
    counted(zenithgong::step_vectors(period, remainder, window))
}

pub fn first_hit(run: Run, source: Source, start: u64) -> Result<FirstHit, Refusal> {
    counted(zenithgong::first_hit(run, source, start))
}

pub fn list_hits(
    run: Run,
    source: Source,
    start: u64,
    room: &mut [u64],
) -> Result<Listing, Refusal> {
    counted(zenithgong::list_hits(run, source, start, room))
}

pub fn make_map(
    run: Run,
    periods: &[u32],
    weights: &[u32],
    phases: &[u32],
    map: &mut [u8],
) -> Result<(), Refusal> {
    counted(zenithgong::make_map(run, periods, weights, phases, map))
}

pub fn add_to_map(
    run: Run,
    periods: &[u32],
    weights: &[u32],
    phases: &[u32],
    map: &mut [u8],
) -> Result<(), Refusal> {
    counted(zenithgong::add_to_map(run, periods, weights, phases, map))
}

pub fn list_stretches(
    run: Run,
    map: &[u8],
    threshold: u8,
    guard: Guard,
    room: &mut [u32],
) -> Result<usize, Refusal> {
    counted(zenithgong::list_stretches(run, map, threshold, guard, room))
}

pub fn save(run: Run, map: &[u8], file: &mut [u8]) -> Result<(), Refusal> {
    counted(zenithgong::save(run, map, file))
}

pub fn read(file: &[u8], map: &mut [u8]) -> Result<Run, Refusal> {
    counted(zenithgong::read(file, map))
}

pub fn read_text(text: &[u8]) -> Result<Input, Refusal> {
    counted(zenithgong::read_text(text))
}
