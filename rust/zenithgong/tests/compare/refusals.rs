//! Every set of faults of every call, each fault in one of its forms, and everything else at an end of its range or small. What
//! is expected is the reference's, which takes the tests in 01's order, with E1's line limits and places of sources and E5's
//! phases, and those of the blanking list in E3's.
use crate::blanking::{self, Asked};
use crate::sources::Lists;
use crate::support::{trials, wide, Random};
use crate::{files, hits, maps, texts, vectors};
use reference::Reply;
use std::cell::RefCell;
use zenithgong::{Guard, Run, Source};

/// The faults of a run are the first three bits of every set but the vectors' and the blanking list's.
const RUN: u32 = 3;

fn has(faults: u64, fault: u32) -> bool {
    faults >> fault & 1 == 1
}

/// The number of a refusal, or 0.
fn number<T>(said: Reply<T>) -> u8 {
    said.map_or_else(|refusal| refusal.number, |_| 0)
}

/// Whether a number is what the first fault of a set brings, or 0 where there is none. The order has the numbers of each fault,
/// and the call takes its tests so.
fn is_first(number: u8, faults: u64, order: &[&[u8]]) -> bool {
    let first = (0..).zip(order).find(|&(fault, _)| has(faults, fault));
    first.map_or(number == 0, |(_, numbers)| numbers.contains(&number))
}

fn pick(random: &mut Random, from: &[u32]) -> u32 {
    from[random.below(from.len() as u64) as usize]
}

fn window(random: &mut Random, bad: bool) -> u32 {
    if bad {
        pick(random, &[0, 1, 3, 4_095, 4_097, 4_098, u32::MAX])
    } else {
        pick(random, &[2, 2, 4, 4_096])
    }
}

fn period(random: &mut Random, bad: bool) -> u32 {
    if bad {
        pick(random, &[0, 2_147_483_648, u32::MAX])
    } else {
        pick(random, &[1, 7, 2_147_483_647])
    }
}

/// A phase of a period: 0, near the middle, the last one; a bad one is not below the period. To a period of 0 each is bad.
fn phase(random: &mut Random, bad: bool, period: u32) -> u32 {
    if bad {
        pick(random, &[period, period.saturating_add(1), u32::MAX])
    } else {
        pick(random, &[0, period / 2, period.saturating_sub(1)])
    }
}

fn weight(random: &mut Random, bad: bool) -> u32 {
    if bad {
        pick(random, &[0, 256, u32::MAX])
    } else {
        pick(random, &[1, 255])
    }
}

const LAST: u32 = 16_777_216;

/// Lines that break a limit: 17, then 18 alone, of which two begin at line 0, then 17 with 18.
const BROKEN: [(u32, u32); 12] = [
    (1, 0),
    (7, 6),
    (LAST, LAST - 1),
    (LAST + 1, LAST),
    (1, LAST + 1),
    (LAST + 1, LAST + 1),
    (u32::MAX, u32::MAX),
    (0, LAST + 1),
    (0, u32::MAX),
    (LAST + 2, LAST + 1),
    (LAST + 3, LAST + 2),
    (u32::MAX, LAST + 1),
];

/// A run of one or two lines.
fn run(random: &mut Random, faults: u64) -> Run {
    let good = [(0, 0), (0, 1), (1, 2), (LAST - 1, LAST), (LAST, LAST)];
    let lines = if has(faults, 1) {
        &BROKEN[..]
    } else {
        &good[..]
    };
    let (first, last) = lines[random.below(lines.len() as u64) as usize];
    let interval = pick(random, &[1, u32::MAX]);
    Run {
        window: window(random, has(faults, 0)),
        interval: if has(faults, 2) { 0 } else { interval },
        first,
        last,
    }
}

/// A length that is right, or off by a step; of a faulty run the length is that of its numbers, if it is not too long.
fn length(random: &mut Random, bad: bool, right: i128, step: usize) -> usize {
    let right = right.clamp(step as i128, 20_000) as usize;
    match (bad, random.below(2)) {
        (false, _) => right,
        (true, 0) => right - step,
        (true, _) => right + step,
    }
}

/// Up to three places of lists of so many sources.
fn places(random: &mut Random, count: usize) -> Vec<usize> {
    (0..random.between(1, 3))
        .map(|_| random.below(count as u64) as usize)
        .collect()
}

/// So many sources, of which up to three may have a faulty period, up to three a faulty weight and up to three a faulty phase.
fn sources(random: &mut Random, count: usize, faults: u64, fault: u32) -> Lists {
    let mut periods: Vec<u32> = (0..count).map(|_| random.period()).collect();
    for at in places(random, count) {
        periods[at] = period(random, has(faults, fault));
    }
    let mut weights: Vec<u32> = (0..count).map(|_| random.between(1, 255)).collect();
    for at in places(random, count) {
        weights[at] = weight(random, has(faults, fault + 1));
    }
    let mut phases: Vec<u32> = periods.iter().map(|&p| phase(random, false, p)).collect();
    for at in places(random, count) {
        phases[at] = phase(random, has(faults, fault + 2), periods[at]);
    }
    Lists {
        periods,
        weights,
        phases,
    }
}

#[test]
fn of_vectors() {
    trials("faults of step vectors", 25 * 16, |random| {
        let faults = random.seed() % 16;
        let window = window(random, has(faults, 0));
        let fitting = pick(random, &[window, 2_147_483_647]);
        let period = match (has(faults, 1), has(faults, 3)) {
            (true, _) => period(random, true),
            (_, true) => window.wrapping_sub(1),
            _ => fitting,
        };
        let remainder = if has(faults, 2) {
            pick(random, &[period, u32::MAX])
        } else {
            pick(random, &[0, period.wrapping_sub(1)])
        };
        vectors::compare(period, remainder, window).ok();
    });
}

/// The order of the listing, which is that of the first hit too, but for the last.
const LISTING: [&[u8]; 7] = [&[1], &[17, 18], &[3], &[4], &[22], &[8], &[9]];

#[test]
fn of_hits() {
    trials("faults of first hit and listing", 100 * 128, |random| {
        let faults = random.seed() % 128;
        let run = run(random, faults);
        let period = period(random, has(faults, RUN));
        let phase = phase(random, has(faults, RUN + 1), period);
        let source = Source { period, phase };
        let cells = wide(run).cells().clamp(0, i64::MAX as i128) as u64;
        let starts = match has(faults, RUN + 2) {
            true => [cells, cells + 1, u64::MAX],
            false => [0, cells / 2, cells.saturating_sub(1)],
        };
        let start = starts[random.below(3) as usize];
        let room = if has(faults, RUN + 3) { 0 } else { 3 };
        let said = hits::compare_any(random, run, source, start, room);
        assert!(is_first(number(said), faults, &LISTING));
    });
}

/// The order of both map calls with one source.
const MAP: [&[u8]; 8] = [&[1], &[17, 18], &[3], &[10], &[4], &[7], &[22], &[9]];

#[test]
fn of_maps() {
    trials("faults of the map calls", 200 * 256, |random| {
        let faults = random.seed() % 256;
        let run = run(random, faults);
        let count = pick(random, &[1, 3, 9]);
        let mut lists = sources(random, count as usize, faults, RUN + 1);
        if has(faults, RUN) {
            lists.make_unequal(random);
        }
        let cells = wide(run).cells();
        let length = length(random, has(faults, RUN + 4), cells, 1);
        let map = random.bytes(length);
        let said = maps::compare(run, &lists, &map, false);
        assert!(count > 1 || is_first(number(said), faults, &MAP));
    });
}

/// The map calls and a text with the same lists, any source of which may be at fault in its period, its weight, its phase, or in
/// more than one of them.
#[test]
fn of_lists() {
    trials("faults of sources in lists", 50_000, |random| {
        let small = Run {
            window: pick(random, &[2, 4]),
            ..run(random, 0)
        };
        let count = pick(random, &[1, 2, 3, 5, 10, 64]) as u64;
        let rare = random.between(1, 2 * count) as u64;
        let source = |random: &mut Random| {
            let [of_period, of_weight, of_phase] = [(); 3].map(|_| random.one_in(rare));
            let period = period(random, of_period);
            let phase = phase(random, of_phase, period);
            (Source { period, phase }, weight(random, of_weight))
        };
        let lists: Lists = (0..count).map(|_| source(random)).collect();
        texts::compare(&texts::text_of(random, small, &lists));
        let off = random.one_in(4);
        let length = length(random, off, wide(small).cells(), 1);
        let map = random.bytes(length);
        maps::compare(small, &lists, &map, false).ok();
    });
}

/// Places of one byte, of two and of three; the two sources after the first at fault are at fault too, each in another number.
#[test]
fn of_long_lists() {
    trials("faults of sources in long lists", 1, |random| {
        let good = Lists {
            periods: vec![7; 70_000],
            weights: vec![60; 70_000],
            phases: vec![6; 70_000],
        };
        for place in [64, 254, 255, 256, 65_534, 65_535, 65_536, 69_997] {
            for turn in 0..3 {
                let mut lists = good.clone();
                lists.periods[place + turn % 3] = period(random, true);
                lists.weights[place + (turn + 1) % 3] = weight(random, true);
                lists.phases[place + (turn + 2) % 3] = phase(random, true, 7);
                let said = maps::compare(run(random, 0), &lists, &[], false);
                assert_eq!(said.unwrap_err().place, Some(place as u64 + 1));
            }
        }
    });
}

/// E3's order. A set of the blanking list's faults has a bit for each of them.
const STRETCHES: [u8; 8] = [1, 17, 18, 3, 19, 20, 9, 21];

/// A run of up to four lines with the first four of these faults: the two line limits are told apart here.
fn run_of_stretches(random: &mut Random, faults: u64) -> Run {
    let good = [(0, 0), (0, 1), (1, 4), (LAST - 3, LAST), (LAST, LAST)];
    let lines = match (has(faults, 1), has(faults, 2)) {
        (false, false) => &good[..],
        (true, false) => &BROKEN[..4],
        (false, true) => &BROKEN[4..9],
        (true, true) => &BROKEN[9..],
    };
    let (first, last) = lines[random.below(lines.len() as u64) as usize];
    let interval = pick(random, &[1, u32::MAX]);
    Run {
        window: window(random, has(faults, 0)),
        interval: if has(faults, 3) { 0 } else { interval },
        first,
        last,
    }
}

/// A guard of a window; a bad one reaches outside on a side, by one or as far as numbers go, or is upside down.
fn guard(random: &mut Random, bad: bool, window: u32) -> Guard {
    let (left, right) = (-((window / 2) as i64), (window / 2) as i64 - 1);
    let good = [(left, right), (left, left), (right, right), (0, 0)];
    let outside = [
        (left - 1, right),
        (left, right + 1),
        (right, right - 1),
        (right, left - 1),
        (right + 1, right + 1),
        (i64::MIN, left),
        (right, i64::MAX),
        (i64::MAX, i64::MIN),
    ];
    let from = if bad { &outside[..] } else { &good[..] };
    let (lowest, highest) = from[random.below(from.len() as u64) as usize];
    Guard { lowest, highest }
}

/// The length of a room for so many stretches; a bad one lacks a number or two, or holds no stretch at all.
fn room_for(random: &mut Random, bad: bool, stretches: u32) -> usize {
    let exact = 2 * stretches;
    let length = if bad {
        pick(random, &[exact - 1, exact - 2, 0, 1])
    } else {
        pick(random, &[exact, exact + 1, exact + 5])
    };
    length as usize
}

/// A map of so many cells in which every second line, the first among them, is as large as can be, and the others are 0.
fn striped(cells: usize, window: u32) -> Vec<u8> {
    let window = window.max(1) as usize;
    let mut map = vec![0; cells];
    for two in map.chunks_mut(2 * window) {
        let line = window.min(two.len());
        two[..line].fill(255);
    }
    map
}

/// One blanking list with these faults, and the number of its refusal, or 0.
fn stretches_refused(random: &mut Random, faults: u64) -> u8 {
    let run = run_of_stretches(random, faults);
    let threshold = pick(random, &[1, 128, 255]) as u8;
    let asked = Asked {
        run,
        threshold: if has(faults, 4) { 0 } else { threshold },
        guard: guard(random, has(faults, 5), run.window),
    };
    let cells = length(random, has(faults, 6), wide(run).cells(), 1);
    let stretches = run.last.saturating_sub(run.first).min(3) / 2 + 1;
    let room = room_for(random, has(faults, 7), stretches);
    let said = blanking::compare(random, &asked, &striped(cells, run.window), room);
    number(said)
}

/// What is refused is the first fault of the set: so each number is given as often as there are sets that lack all before it.
/// Of each number and the next in the order, there are calls with just these two as the first of their faults.
#[test]
fn of_stretches() {
    let each = 64;
    let (given, pairs) = (RefCell::new([0; 22]), RefCell::new([[0; 8]; 8]));
    trials("faults of the blanking list", each * 256, |random| {
        let faults = random.seed() % 256;
        let mut found = (0..8).filter(|&fault| has(faults, fault as u32));
        let (first, second) = (found.next(), found.next());
        let number = stretches_refused(random, faults);
        let first_number = first.map_or(0, |fault: usize| STRETCHES[fault]);
        assert_eq!(number, first_number);
        given.borrow_mut()[number as usize] += 1;
        if let (Some(first), Some(second)) = (first, second) {
            pairs.borrow_mut()[first][second] += 1;
        }
    });
    let (given, pairs) = (given.into_inner(), pairs.into_inner());
    assert_eq!(given[0], each);
    for (fault, &number) in STRETCHES.iter().enumerate() {
        assert_eq!(given[number as usize], each << (7 - fault), "{}", number);
    }
    for fault in 0..7 {
        assert_eq!(pairs[fault][fault + 1], each << (6 - fault));
    }
    let two_or_more: u64 = pairs.iter().flatten().sum();
    assert_eq!(two_or_more, each * (256 - 8 - 1));
}

#[test]
fn of_saving() {
    trials("faults of saving", 100 * 32, |random| {
        let faults = random.seed() % 32;
        let run = run(random, faults);
        let cells = wide(run).cells();
        let size = length(random, has(faults, RUN), cells, 1);
        let step = if random.one_in(2) { 1 } else { 512 };
        let bytes = 512 + (cells.clamp(0, 20_000) + 503) / 504 * 512;
        let room = length(random, has(faults, RUN + 1), bytes, step);
        let map = random.bytes(size);
        files::compare_save(random, run, &map, room);
    });
}

/// Faults of a file's heading: numbers of its run, then the version, a spare byte or the filling.
fn spoil_heading(random: &mut Random, file: &mut [u8], faults: u64) {
    let bad = run(random, faults);
    let numbers = [
        (0, 8, bad.window),
        (2, 12, bad.interval),
        (1, 16, bad.first),
        (1, 20, bad.last),
    ];
    for (fault, at, number) in numbers {
        if has(faults, fault) {
            file[at..at + 4].copy_from_slice(&number.to_le_bytes());
        }
    }
    if has(faults, RUN) {
        let at = pick(random, &[4, 5, 7, 24, 507]) as usize;
        file[at] = random.between(2, 255) as u8;
    }
    files::seal(file, 0);
}

/// Faults of the other block, which is filled from byte 536 on, and of both blocks' numbers and checks.
fn spoil_blocks(random: &mut Random, file: &mut [u8], faults: u64) {
    if has(faults, RUN + 1) {
        file[536 + random.below(484) as usize] = 1;
        files::seal(file, 512);
    }
    for (fault, block) in [(RUN + 2, 0), (RUN + 3, 512)] {
        if has(faults, fault) && random.one_in(2) {
            file[block] = 2;
            files::seal(file, block);
        } else if has(faults, fault) {
            file[block + 511] = 1;
        }
    }
}

/// A file of the document's run, or of one as long from line 0, with faults put in: first what stands under a check, then the
/// checks, then the length.
#[test]
fn of_reading() {
    trials("faults of reading", 16 * 1024, |random| {
        let faults = random.seed() % 1024;
        let first = random.below(2) as u32;
        let good = Run {
            window: 4,
            interval: 10,
            first,
            last: first + 4,
        };
        let map = random.bytes(20);
        let mut file = reference::file_of(&wide(good), &map);
        spoil_heading(random, &mut file, faults);
        spoil_blocks(random, &mut file, faults);
        if has(faults, RUN + 4) {
            file.resize(if random.one_in(2) { 512 } else { 1_536 }, 0);
        }
        if has(faults, RUN + 5) {
            file.push(0);
        }
        let cells = length(random, has(faults, RUN + 6), 20, 1);
        files::compare_read(random, &file, cells);
    });
}

/// Ends of a text that are not of the form.
const ENDS: [&str; 12] = [
    "\n",
    " \n",
    "src 1\n",
    "scr 1 1\n",
    "src 01 1\n",
    "src 4294967296 1\n",
    "src 1 1",
    "src 1 1 0",
    "src 1 1 \n",
    "src 1 1 00\n",
    "src 1 1 4294967296\n",
    "src 1 1 0 0\n",
];

#[test]
fn of_texts() {
    trials("faults of texts", 100 * 512, |random| {
        let faults = random.seed() % 512;
        let mut run = run(random, faults);
        if has(faults, RUN + 1) && !has(faults, 1) {
            run.last = 16_777_216;
            run.first = run.last - 65_536 / run.window.max(1);
        }
        let count = if has(faults, RUN) {
            65
        } else {
            pick(random, &[1, 5, 64])
        };
        let lists = sources(random, count as usize, faults, RUN + 2);
        let mut text = texts::text_of(random, run, &lists);
        if has(faults, RUN + 5) {
            let end = ENDS[random.below(ENDS.len() as u64) as usize];
            text.extend(end.bytes());
        }
        texts::compare(&text);
    });
}
