//! Which samples of a scope sat near an edge of a known clock: the proved library, for Rust.
//!
//! No function here asks anything of its caller: bad input is refused, and a refused call stores nothing.
//! Slices are what the declarations ask of pointers: valid for their lengths, and a `&mut` one overlaps nothing.

pub mod declarations;

use declarations::{
    zenithgong_add_to_map, zenithgong_first_hit, zenithgong_list_hits, zenithgong_list_stretches,
    zenithgong_make_map, zenithgong_read, zenithgong_read_text, zenithgong_save,
    zenithgong_step_vectors, MappedReply, RunReply,
};
use std::fmt;

/// A run: the window's width and the interval in ticks, the first and the last line. Lines run from 0.
#[derive(Clone, Copy, Debug, PartialEq, Eq)]
pub struct Run {
    pub window: u32,
    pub interval: u32,
    pub first: u32,
    pub last: u32,
}

/// A source, less its weight: it has an edge at its phase, and whole periods before and after it.
#[derive(Clone, Copy, Debug, PartialEq, Eq)]
pub struct Source {
    pub period: u32,
    pub phase: u32,
}

/// A vector of the lattice: ticks of offset, to the right or (below 0) to the left, and lines on.
#[derive(Clone, Copy, Debug, PartialEq, Eq)]
pub struct Vector {
    pub offset: i64,
    pub line: u64,
}

/// The step vectors of a source.
#[derive(Clone, Copy, Debug, PartialEq, Eq)]
pub enum Steps {
    /// (α, β), which leads left, and (γ, δ), which leads right.
    Pair(Vector, Vector),
    /// No pair exists: (0, p/g).
    Single(Vector),
}

/// The first hit from a cell on.
#[derive(Clone, Copy, Debug, PartialEq, Eq)]
pub enum FirstHit {
    At(u64),
    Nothing,
}

/// How a listing ended, with the count of hits written.
#[derive(Clone, Copy, Debug, PartialEq, Eq)]
pub enum Listing {
    Done(usize),
    /// A hit is left, and this is its cell.
    More(usize, u64),
}

/// A guard part of the window: its lowest and its highest offset, which both belong to it.
#[derive(Clone, Copy, Debug, PartialEq, Eq)]
pub struct Guard {
    pub lowest: i64,
    pub highest: i64,
}

/// What a text says: a run, and its sources, each with its weight.
#[derive(Clone, Debug, PartialEq, Eq)]
pub struct Input {
    pub run: Run,
    pub sources: Vec<(Source, u32)>,
}

/// A refusal: its number and, where a source of a list is at fault, the source's place there, counted from 1.
#[derive(Clone, Copy, Debug, PartialEq, Eq)]
pub struct Refusal {
    pub number: u8,
    pub place: Option<u64>,
}

/// What a refusal's number stands for.
fn reason(number: u8) -> &'static str {
    match number {
        1 => "the window is odd, below 2 or above 4,096",
        3 => "the interval is 0",
        4 => "a period is 0 or above 2,147,483,647",
        5 => "the remainder is not below the period",
        6 => "the window is wider than the period",
        7 => "a weight is 0 or above 255",
        8 => "the starting cell is not in the run",
        9 => "the listing room is empty, or the map or the file room is not of the exact length",
        10 => "the lists of periods, weights and phases are not all of one length",
        11 => "the text is not of the form laid down",
        12 => "the text has more than 64 sources, or a run of more than 65,536 cells",
        13 => "the file has no whole number of blocks, none, or not as many as its run needs",
        14 => "a block of the file has a wrong number or check",
        15 => "a version, spare byte or filling of the file is not as laid down",
        17 => "the last line is before the first",
        18 => "the last line is above 16,777,216",
        19 => "the threshold is 0",
        20 => "the guard reaches outside the window or is upside down",
        21 => "the room holds fewer stretches than there are",
        22 => "a phase is not below its period",
        _ => "unknown reason",
    }
}

impl fmt::Display for Refusal {
    fn fmt(&self, f: &mut fmt::Formatter) -> fmt::Result {
        write!(f, "refused {}: {}", self.number, reason(self.number))?;
        match self.place {
            Some(place) => write!(f, " (source {})", place),
            None => Ok(()),
        }
    }
}

impl std::error::Error for Refusal {}

/// An answer's place where no source of a list is at fault.
const NOWHERE: u64 = 0;

/// The answer of a call that was not refused; of one that was, the number and the place.
fn unless_at_fault<T>(number: u8, place: u64, answer: T) -> Result<T, Refusal> {
    let place = Some(place).filter(|&place| place != NOWHERE);
    match number {
        0 => Ok(answer),
        _ => Err(Refusal { number, place }),
    }
}

/// The same of a call that is given no list.
fn unless_refused<T>(number: u8, answer: T) -> Result<T, Refusal> {
    unless_at_fault(number, NOWHERE, answer)
}

/// The step vectors of a period, a remainder below it and a window no wider than it.
pub fn step_vectors(period: u32, remainder: u32, window: u32) -> Result<Steps, Refusal> {
    let reply = unsafe { zenithgong_step_vectors(period, remainder, window) };
    let first = Vector {
        offset: reply.alpha,
        line: reply.beta,
    };
    let second = Vector {
        offset: reply.gamma,
        line: reply.delta,
    };
    let steps = if reply.vectors == 2 {
        Steps::Pair(first, second)
    } else {
        Steps::Single(first)
    };
    unless_refused(reply.refusal, steps)
}

/// The smallest hit cell of a run that is not below the start.
pub fn first_hit(run: Run, source: Source, start: u64) -> Result<FirstHit, Refusal> {
    let reply = unsafe {
        zenithgong_first_hit(
            run.window,
            run.interval,
            run.first,
            run.last,
            source.period,
            source.phase,
            start,
        )
    };
    let hit = if reply.found == 1 {
        FirstHit::At(reply.cell)
    } else {
        FirstHit::Nothing
    };
    unless_refused(reply.refusal, hit)
}

/// Writes the hit cells of a run that are not below the start into a room, in rising order.
pub fn list_hits(
    run: Run,
    source: Source,
    start: u64,
    room: &mut [u64],
) -> Result<Listing, Refusal> {
    let reply = unsafe {
        zenithgong_list_hits(
            run.window,
            run.interval,
            run.first,
            run.last,
            source.period,
            source.phase,
            start,
            room.as_mut_ptr(),
            room.len(),
        )
    };
    let listing = match reply.more {
        0 => Listing::Done(reply.count),
        _ => Listing::More(reply.count, reply.next),
    };
    unless_refused(reply.refusal, listing)
}

/// A map call as it is declared: the plain one or the adding one, which are given the same.
type MapCall = unsafe extern "C" fn(
    u32,
    u32,
    u32,
    u32,
    *const u32,
    usize,
    *const u32,
    usize,
    *const u32,
    usize,
    *mut u8,
    usize,
) -> MappedReply;

/// One of the two declared map calls, and what it came to.
fn call_on_map(
    call: MapCall,
    run: Run,
    periods: &[u32],
    weights: &[u32],
    phases: &[u32],
    map: &mut [u8],
) -> Result<(), Refusal> {
    let reply = unsafe {
        call(
            run.window,
            run.interval,
            run.first,
            run.last,
            periods.as_ptr(),
            periods.len(),
            weights.as_ptr(),
            weights.len(),
            phases.as_ptr(),
            phases.len(),
            map.as_mut_ptr(),
            map.len(),
        )
    };
    unless_at_fault(reply.refusal, reply.place, ())
}

/// Makes the map of a run, the plain map call: the map starts clean. Every cell becomes the sum of the weights of all sources
/// that hit it, up to 255, whatever it held; with empty lists the map is cleared. A refused call has not cleared it.
///
/// To add onto what a map holds, as block jobs do source by source, there is [`add_to_map`].
pub fn make_map(
    run: Run,
    periods: &[u32],
    weights: &[u32],
    phases: &[u32],
    map: &mut [u8],
) -> Result<(), Refusal> {
    call_on_map(zenithgong_make_map, run, periods, weights, phases, map)
}

/// Adds onto a lent map of a run, which does not start clean: every cell keeps what it held and gains the weights of all sources
/// that hit it, up to 255; with empty lists the map stays as it was. The refusals are those of [`make_map`].
pub fn add_to_map(
    run: Run,
    periods: &[u32],
    weights: &[u32],
    phases: &[u32],
    map: &mut [u8],
) -> Result<(), Refusal> {
    call_on_map(zenithgong_add_to_map, run, periods, weights, phases, map)
}

/// Writes the maximal stretches of consecutive lines of a run that each have a guard cell of its map at or above the threshold
/// into a room, in rising order, the first and the last line of each. The answer is their count.
pub fn list_stretches(
    run: Run,
    map: &[u8],
    threshold: u8,
    guard: Guard,
    room: &mut [u32],
) -> Result<usize, Refusal> {
    let reply = unsafe {
        zenithgong_list_stretches(
            run.window,
            run.interval,
            run.first,
            run.last,
            map.as_ptr(),
            map.len(),
            threshold,
            guard.lowest,
            guard.highest,
            room.as_mut_ptr(),
            room.len(),
        )
    };
    unless_refused(reply.refusal, reply.count)
}

/// Writes a run and its map into a file room.
pub fn save(run: Run, map: &[u8], file: &mut [u8]) -> Result<(), Refusal> {
    let refusal = unsafe {
        zenithgong_save(
            run.window,
            run.interval,
            run.first,
            run.last,
            map.as_ptr(),
            map.len(),
            file.as_mut_ptr(),
            file.len(),
        )
    };
    unless_refused(refusal, ())
}

fn run_of(reply: RunReply, place: u64) -> Result<Run, Refusal> {
    let RunReply {
        refusal,
        window,
        interval,
        first,
        last,
    } = reply;
    unless_at_fault(
        refusal,
        place,
        Run {
            window,
            interval,
            first,
            last,
        },
    )
}

/// The run of a file; the map is filled with its cells.
pub fn read(file: &[u8], map: &mut [u8]) -> Result<Run, Refusal> {
    let reply = unsafe { zenithgong_read(file.as_ptr(), file.len(), map.as_mut_ptr(), map.len()) };
    run_of(reply, NOWHERE)
}

/// The run and the sources that a text has.
pub fn read_text(text: &[u8]) -> Result<Input, Refusal> {
    let reply = unsafe { zenithgong_read_text(text.as_ptr(), text.len()) };
    let run = run_of(reply.run, reply.place)?;
    let sources = reply
        .periods
        .into_iter()
        .zip(reply.phases)
        .map(|(period, phase)| Source { period, phase })
        .zip(reply.weights)
        .take(reply.count)
        .collect();
    Ok(Input { run, sources })
}
