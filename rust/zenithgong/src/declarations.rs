//! The exported functions (`crates/exports_c/src/lib.rt`) and the answers that they give (`crates/exports/src/lib.rt`).
//! A slice there is a pointer and a length here. `tests/compare/declarations.rs` holds this file to that one.
//!
//! Any numbers and any lengths may be given, but memory cannot be judged. So a caller owes this much, in C too:
//! - a pointer is aligned, is not null (also with length 0) and is valid for as many elements as the length after it says,
//!   a `*mut` one for writing too;
//! - what is lent as `*mut` (a room, a map, a file room) overlaps nothing else that the call is given;
//! - during the call nobody else uses what is lent as `*mut`, or writes to the rest.

/// The step vectors.
#[repr(C)]
pub struct StepsReply {
    pub refusal: u8,
    pub vectors: u8,
    pub alpha: i64,
    pub beta: u64,
    pub gamma: i64,
    pub delta: u64,
}

/// The first hit.
#[repr(C)]
pub struct FirstHitReply {
    pub refusal: u8,
    pub found: u8,
    pub cell: u64,
}

/// How a listing ended.
#[repr(C)]
pub struct ListingReply {
    pub refusal: u8,
    pub more: u8,
    pub count: usize,
    pub next: u64,
}

/// What a map call came to, the plain one or the adding one. The place of the source at fault is counted from 1, and 0 where
/// there is none.
#[repr(C)]
pub struct MappedReply {
    pub refusal: u8,
    pub place: u64,
}

/// What the blanking call came to: how many stretches were written, two numbers each.
#[repr(C)]
pub struct BlankingReply {
    pub refusal: u8,
    pub count: usize,
}

/// A run that was read.
#[repr(C)]
pub struct RunReply {
    pub refusal: u8,
    pub window: u32,
    pub interval: u32,
    pub first: u32,
    pub last: u32,
}

/// The run and the sources of a text, or the place of the source at fault, as in the map calls.
#[repr(C)]
pub struct TextReply {
    pub run: RunReply,
    pub place: u64,
    pub count: usize,
    pub periods: [u32; 64],
    pub weights: [u32; 64],
    pub phases: [u32; 64],
}

extern "C" {
    pub fn zenithgong_step_vectors(period: u32, remainder: u32, window: u32) -> StepsReply;

    pub fn zenithgong_first_hit(
        window: u32,
        interval: u32,
        first: u32,
        last: u32,
        period: u32,
        phase: u32,
        start: u64,
    ) -> FirstHitReply;

    pub fn zenithgong_list_hits(
        window: u32,
        interval: u32,
        first: u32,
        last: u32,
        period: u32,
        phase: u32,
        start: u64,
        room: *mut u64,
        room_length: usize,
    ) -> ListingReply;

    /// The plain map call: the map starts clean. Every cell becomes the sum of the weights of all sources that hit it, up to 255,
    /// whatever it held; empty lists clear the map. A refused call has not cleared it.
    pub fn zenithgong_make_map(
        window: u32,
        interval: u32,
        first: u32,
        last: u32,
        periods: *const u32,
        periods_length: usize,
        weights: *const u32,
        weights_length: usize,
        phases: *const u32,
        phases_length: usize,
        map: *mut u8,
        map_length: usize,
    ) -> MappedReply;

    /// The adding call: adds onto a lent map, which does not start clean: every cell keeps what it held and gains the weights of all
    /// sources that hit it, up to 255; empty lists leave the map as it was. Refused as the plain call is, and then nothing is added.
    pub fn zenithgong_add_to_map(
        window: u32,
        interval: u32,
        first: u32,
        last: u32,
        periods: *const u32,
        periods_length: usize,
        weights: *const u32,
        weights_length: usize,
        phases: *const u32,
        phases_length: usize,
        map: *mut u8,
        map_length: usize,
    ) -> MappedReply;

    pub fn zenithgong_list_stretches(
        window: u32,
        interval: u32,
        first: u32,
        last: u32,
        map: *const u8,
        map_length: usize,
        threshold: u8,
        lowest: i64,
        highest: i64,
        room: *mut u32,
        room_length: usize,
    ) -> BlankingReply;

    pub fn zenithgong_save(
        window: u32,
        interval: u32,
        first: u32,
        last: u32,
        map: *const u8,
        map_length: usize,
        file: *mut u8,
        file_length: usize,
    ) -> u8;

    pub fn zenithgong_read(
        file: *const u8,
        file_length: usize,
        map: *mut u8,
        map_length: usize,
    ) -> RunReply;

    pub fn zenithgong_read_text(text: *const u8, text_length: usize) -> TextReply;
}
