use crate::library;
use crate::support::{told, trials, wide, wide_source, Random};
use reference::Reply;
use std::cell::Cell;
use zenithgong::{FirstHit, Listing, Run, Source, Steps};

fn ours_first(run: Run, source: Source, start: u64) -> Reply<Option<i128>> {
    match library::first_hit(run, source, start) {
        Ok(FirstHit::At(cell)) => Ok(Some(cell as i128)),
        Ok(FirstHit::Nothing) => Ok(None),
        Err(refusal) => Err(told(refusal)),
    }
}

fn ours_listing(
    run: Run,
    source: Source,
    start: u64,
    room: &mut [u64],
) -> Reply<(usize, Option<i128>)> {
    match library::list_hits(run, source, start, room) {
        Ok(Listing::Done(count)) => Ok((count, None)),
        Ok(Listing::More(count, next)) => Ok((count, Some(next as i128))),
        Err(refusal) => Err(told(refusal)),
    }
}

/// One first hit, and one listing in a room of this length, held to the hits that the reference knows; and the listing's reply.
fn compare(
    random: &mut Random,
    run: Run,
    source: Source,
    start: u64,
    length: usize,
    hits: &[i128],
) -> Reply<(usize, Option<i128>)> {
    let (wide, asked, from) = (wide(run), wide_source(source), start as i128);
    let words = || format!("{:?}, {:?}, start {}, room {}", run, source, start, length);
    let expected = reference::first_hit(&wide, asked, from, hits);
    assert_eq!(ours_first(run, source, start), expected, "{}", words());
    let mut room: Vec<u64> = (0..length).map(|_| random.next()).collect();
    let mut after = room.clone();
    let expected = reference::list_hits(&wide, asked, from, &mut after, hits);
    let said = ours_listing(run, source, start, &mut room);
    assert_eq!(said, expected, "{}", words());
    assert!(room == after, "{}: the rooms differ", words());
    said
}

/// The same of a run and a source that may be refused, the run otherwise of few cells.
pub fn compare_any(
    random: &mut Random,
    run: Run,
    source: Source,
    start: u64,
    length: usize,
) -> Reply<(usize, Option<i128>)> {
    let hits = hits_of(run, source);
    compare(random, run, source, start, length, &hits)
}

fn hits_of(run: Run, source: Source) -> Vec<i128> {
    reference::hits_of(&wide(run), wide_source(source))
}

#[test]
fn every_start_of_small_runs() {
    trials("every start of small runs", 4_500, |random| {
        let run = random.small_run();
        let source = random.source(run);
        let hits = hits_of(run, source);
        assert_eq!(hits, wide(run).hits_by_line(wide_source(source)));
        let cells = wide(run).cells() as u64;
        for start in 0..=cells {
            let length = random.below(hits.len() as u64 + 2) as usize;
            compare(random, run, source, start, length, &hits).ok();
        }
    });
}

#[test]
fn anything() {
    trials("any hits", 60_000, |random| {
        let run = random.any_run();
        let source = random.any_source(run);
        let start = match random.below(4) {
            0 => random.next(),
            _ => random.below(80),
        };
        let length = random.below(4) as usize;
        compare_any(random, run, source, start, length).ok();
    });
}

/// All hits of a run, listed through a room of this length, each call going on where the one before stopped.
fn listed(run: Run, source: Source, length: usize) -> Vec<i128> {
    let mut room = vec![0; length];
    let (mut listed, mut start) = (Vec::new(), 0);
    loop {
        let (count, next) = ours_listing(run, source, start, &mut room).unwrap();
        listed.extend(room[..count].iter().map(|&x| x as i128));
        match next {
            Some(x) => start = x as u64,
            None => return listed,
        }
    }
}

#[test]
fn going_on_where_it_stopped() {
    trials("listings through small rooms", 3_000, |random| {
        let run = random.small_run();
        let source = random.source(run);
        let length = random.between(1, 4) as usize;
        assert_eq!(listed(run, source, length), hits_of(run, source));
    });
}

#[test]
fn of_blocks() {
    trials("listings of blocks", 3_000, |random| {
        let run = random.small_run();
        let source = random.source(run);
        let (mut joined, mut first) = (Vec::new(), run.first);
        while first <= run.last {
            let last = (first + random.below(4) as u32).min(run.last);
            let shift = ((first - run.first) * run.window) as i128;
            let block = listed(
                Run { first, last, ..run },
                source,
                random.between(1, 4) as usize,
            );
            joined.extend(block.iter().map(|x| x + shift));
            first = last + 1;
        }
        assert_eq!(joined, hits_of(run, source));
    });
}

/// Every phase of small periods: each cell of a run is hit with just one of those below the period, and the next is refused.
#[test]
fn every_phase() {
    trials("every phase of small periods", 60, |random| {
        let run = random.small_run();
        let cells = wide(run).cells();
        for period in 1..=24 {
            let mut joined = Vec::new();
            for phase in 0..period {
                let source = Source { period, phase };
                let (start, length) = (random.below(cells as u64), random.below(4) as usize);
                compare_any(random, run, source, start, length).ok();
                joined.extend(listed(run, source, 5));
            }
            joined.sort();
            assert!(joined.into_iter().eq(0..cells), "{:?}, {}", run, period);
            let phase = period;
            let refused = compare_any(random, run, Source { period, phase }, 0, 1);
            assert_eq!(refused.unwrap_err().number, 22);
        }
    });
}

/// How many lines on a single vector leads.
fn single_step(run: Run, period: u32) -> i128 {
    match library::step_vectors(period, run.interval % period, run.window) {
        Ok(Steps::Single(vector)) => vector.line as i128,
        other => panic!("{:?}, period {}: {:?}", run, period, other),
    }
}

/// The hits of a single vector "may then sit at another single offset, or nowhere": at the offset i of the window for which
/// g divides i + s, on each line that is p/g after another, if there is one. Answers with that offset.
fn hits_at_one_offset(run: Run, source: Source, hits: &[i128]) -> Option<i128> {
    let step = single_step(run, source.period);
    let (run, source) = (wide(run), wide_source(source));
    let (factor, half) = (source.period / step, run.window / 2);
    let offset = (-half..half).find(|i| (i + source.phase) % factor == 0);
    let lines = run.last - run.first + 1;
    let at_least = offset.map_or(0, |_| lines / step);
    let words = || format!("{:?}, {:?}: {:?}", run, source, hits);
    assert!(hits.len() as i128 >= at_least, "{}", words());
    for x in hits {
        assert_eq!(Some(x % run.window - half), offset, "{}", words());
    }
    for two in hits.windows(2) {
        assert_eq!(two[1] - two[0], step * run.window, "{}", words());
    }
    offset
}

/// Sources with a single vector: the phase brings hits or none, both often.
#[test]
fn of_single_vectors() {
    let (found, missed) = (Cell::new(0), Cell::new(0));
    trials("hits of single vectors", 4_000, |random| {
        let (run, factor) = random.run_with_factor();
        let source = random.single_source(run, factor);
        let hits = hits_of(run, source);
        let kind = match hits_at_one_offset(run, source, &hits) {
            Some(_) => &found,
            None => &missed,
        };
        kind.set(kind.get() + 1);
        for start in [0, random.below(wide(run).cells() as u64)] {
            let length = random.below(4) as usize;
            compare(random, run, source, start, length, &hits).ok();
        }
    });
    assert!(found.get() >= 500 && missed.get() >= 500);
}

/// The 300,000 lines up to the last.
fn last_lines(window: u32, interval: u32) -> Run {
    Run {
        window,
        interval,
        first: 16_477_217,
        last: 16_777_216,
    }
}

/// All hits of a long run, then so often from a hit on, from the cell after it, from any cell, from the last and from past it.
fn compare_long(random: &mut Random, run: Run, source: Source, times: usize) {
    let hits = wide(run).hits_by_line(wide_source(source));
    let cells = wide(run).cells() as u64;
    compare(random, run, source, 0, hits.len() + 1, &hits).ok();
    for _ in 0..times {
        let hit = hits.get(random.below(hits.len().max(1) as u64) as usize);
        let near = hit.map_or(0, |&x| x as u64);
        let length = random.below(50) as usize;
        for start in [near, near + 1, random.below(cells), cells - 1, cells] {
            compare(random, run, source, start, length, &hits).ok();
        }
    }
}

#[test]
fn long_runs() {
    trials("runs of 300,000 lines up to the last", 40, |random| {
        let interval = 4_294_967_295 - random.below(100_000) as u32;
        let run = last_lines(2 * random.between(1, 2_048), interval);
        let period = match random.below(2) {
            0 => 2_147_483_647 - random.below(1_000) as u32,
            _ => {
                let longest = 2_147_483_647 >> random.below(18);
                random.between(4_096, longest)
            }
        };
        let source = random.source_of(run, period);
        compare_long(random, run, source, 8);
    });
}

/// The interval and the period share a factor, from half the window on: the hits are at one offset or at two, or nowhere.
#[test]
fn long_runs_with_a_common_factor() {
    trials("long runs with a common factor", 40, |random| {
        let window = 2 * random.between(1, 2_048);
        let longest = window * [2, 100][random.below(2) as usize];
        let factor = random.between(window as u64 / 2, longest as u64);
        let multiple = |random: &mut Random, limit: u32| {
            let most = (limit / factor) as u64 >> random.below(12);
            factor * random.between(1, most)
        };
        let interval = multiple(random, 4_294_967_295);
        let period = multiple(random, 2_147_483_647);
        let run = last_lines(window, interval);
        let source = random.source_of(run, period);
        compare_long(random, run, source, 8);
    });
}

#[test]
fn longest_runs() {
    trials("runs of 16,777,217 lines", 6, |random| {
        let window = [2, 64, 512, 4096][random.below(4) as usize];
        let run = Run {
            window,
            interval: 4_294_967_295 - random.below(100) as u32,
            first: 0,
            last: 16_777_216,
        };
        let longest = 2_147_483_647;
        let low = 32 * window as u64;
        let high = (low + 1000) << random.below(16);
        let period = match random.below(3) {
            0 => longest - random.below(100) as u32,
            _ => random.between(low, high.min(longest as u64)),
        };
        let source = random.source_of(run, period);
        compare_long(random, run, source, 500);
    });
}
