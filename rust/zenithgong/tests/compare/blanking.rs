use crate::library;
use crate::support::{told, trials, wide, Random};
use reference::Reply;
use zenithgong::{Guard, Run};

/// What a blanking list is asked for, besides the map and the room.
#[derive(Clone, Copy, Debug)]
pub struct Asked {
    pub run: Run,
    pub threshold: u8,
    pub guard: Guard,
}

/// Numbers on either side of a room that no call may touch.
const MARGIN: usize = 2;

fn expected(asked: &Asked, map: &[u8], room: &mut [u32]) -> Reply<usize> {
    let guard = reference::Guard {
        lowest: asked.guard.lowest as i128,
        highest: asked.guard.highest as i128,
    };
    reference::list_stretches(&wide(asked.run), map, asked.threshold, &guard, room)
}

fn ours(asked: &Asked, map: &[u8], room: &mut [u32]) -> Reply<usize> {
    let Asked {
        run,
        threshold,
        guard,
    } = *asked;
    library::list_stretches(run, map, threshold, guard, room).map_err(told)
}

/// One call in a room of this length, held to the reference with the room and the numbers around it; and the reply.
pub fn compare(random: &mut Random, asked: &Asked, map: &[u8], length: usize) -> Reply<usize> {
    let around = length + 2 * MARGIN;
    let mut room: Vec<u32> = (0..around).map(|_| random.next() as u32).collect();
    let mut after = room.clone();
    let lent = MARGIN..MARGIN + length;
    let expected = expected(asked, map, &mut after[lent.clone()]);
    let said = ours(asked, map, &mut room[lent]);
    let words = || format!("{:?}, {} cells, room {}", asked, map.len(), length);
    assert_eq!(said, expected, "{}", words());
    assert!(room == after, "{}: the rooms differ", words());
    said
}

/// A run of these lines, from line 0, up to the last line, or placed anywhere.
fn run_of(random: &mut Random, window: u32, lines: u32) -> Run {
    let highest = 16_777_217 - lines;
    let first = match random.below(4) {
        0 => 0,
        1 => highest,
        _ => random.number().min(highest),
    };
    Run {
        window,
        interval: random.number().max(1),
        first,
        last: first + lines - 1,
    }
}

fn threshold(random: &mut Random) -> u8 {
    match random.below(4) {
        0 => 1,
        1 => 255,
        _ => random.between(1, 255) as u8,
    }
}

/// An offset of a window.
fn offset(random: &mut Random, window: u32) -> i64 {
    random.below(window as u64) as i64 - (window / 2) as i64
}

/// A guard within a window: all of it, one offset, that at an end, a part from an end on, or any.
fn guard(random: &mut Random, window: u32) -> Guard {
    let (left, right) = (-((window / 2) as i64), (window / 2) as i64 - 1);
    let (one, other) = (offset(random, window), offset(random, window));
    let (lowest, highest) = match random.below(8) {
        0 => (left, right),
        1 => (one, one),
        2 => (left, left),
        3 => (right, right),
        4 => (left, one),
        5 => (one, right),
        _ => (one.min(other), one.max(other)),
    };
    Guard { lowest, highest }
}

/// Two offsets, each in the window, at its edges, far outside it, or at the ends of all numbers.
fn any_guard(random: &mut Random, window: u32) -> Guard {
    let half = (window / 2) as i64;
    let any = |random: &mut Random| match random.below(12) {
        0 => i64::MIN,
        1 => i64::MAX,
        2 => random.next() as i64,
        3 => half,
        4 => -half - 1,
        5 => half - 1,
        6 => -half,
        7 => i64::MIN + half,
        8 => i64::MAX - half,
        _ => offset(random, window.max(1)),
    };
    Guard {
        lowest: any(random),
        highest: any(random),
    }
}

/// A valid call for a run of these lines.
fn asked(random: &mut Random, window: u32, lines: u32) -> Asked {
    Asked {
        run: run_of(random, window, lines),
        threshold: threshold(random),
        guard: guard(random, window),
    }
}

/// Whether a line with this place in its run, counted from 0, is to be blanked.
type Pattern = fn(&mut Random, u32) -> bool;

/// A map whose lines reach the threshold by one guard cell each where the pattern says so. All other guard cells are below
/// it; the cells beside the guard are below it too, or in every second map as large as can be.
fn map_of(random: &mut Random, asked: &Asked, pattern: Pattern) -> Vec<u8> {
    let Run {
        window,
        first,
        last,
        ..
    } = asked.run;
    let (half, threshold) = ((window / 2) as i64, asked.threshold as u64);
    let from = (asked.guard.lowest + half) as usize;
    let to = (asked.guard.highest + half) as usize;
    let loud = random.one_in(2);
    let mut map = Vec::new();
    for place in 0..=last - first {
        let mut line: Vec<u8> = (0..window).map(|_| random.below(threshold) as u8).collect();
        if loud {
            line[..from].fill(255);
            line[to + 1..].fill(255);
        }
        if pattern(random, place) {
            let at = random.between(from as u64, to as u64) as usize;
            line[at] = random.between(threshold, 255) as u8;
        }
        map.extend(line);
    }
    map
}

/// No line, all of them, every second from the first or from the next on, the first alone, few lines, and most of them.
const PATTERNS: [Pattern; 7] = [
    |_, _| false,
    |_, _| true,
    |_, place| place % 2 == 0,
    |_, place| place % 2 == 1,
    |_, place| place == 0,
    |random, _| random.one_in(8),
    |random, _| !random.one_in(4),
];

/// How many stretches a pattern makes of so many lines; of the last two it cannot be told.
fn stretches(pattern: usize, lines: usize) -> Option<usize> {
    [0, 1, (lines + 1) / 2, lines / 2, 1].get(pattern).copied()
}

/// Each pattern of lines, in rooms of all lengths around what its stretches take.
#[test]
fn patterns() {
    trials("blanking lists of patterns", 7 * 500, |random| {
        let (window, lines) = (2 * random.between(1, 6), random.between(1, 12));
        let asked = asked(random, window, lines);
        let pattern = random.seed() as usize % 7;
        let map = map_of(random, &asked, PATTERNS[pattern]);
        let count = compare(random, &asked, &map, 12).unwrap();
        let known = stretches(pattern, lines as usize);
        assert_eq!(known.unwrap_or(count), count, "{:?}", asked);
        for length in (2 * count).saturating_sub(3)..=2 * count + 3 {
            let fits = compare(random, &asked, &map, length).is_ok();
            assert_eq!(fits, length >= 2 * count, "{:?}", asked);
        }
    });
}

#[test]
fn anything() {
    trials("any blanking lists", 20_000, |random| {
        let run = random.any_run();
        let cells = wide(run).cells().clamp(0, 20_000) as u64;
        let length = if random.one_in(10) { cells ^ 1 } else { cells };
        let map = random.bytes(length as usize);
        let threshold = match random.below(8) {
            0 => 0,
            _ => threshold(random),
        };
        let guard = match random.below(4) {
            0 => any_guard(random, run.window),
            _ => guard(random, run.window.max(1)),
        };
        let asked = Asked {
            run,
            threshold,
            guard,
        };
        let room = random.below(16) as usize;
        compare(random, &asked, &map, room).ok();
    });
}

/// Every guard of small windows, good or not, with both offsets up to two outside.
#[test]
fn every_guard() {
    trials("every guard of small windows", 10, |random| {
        for half in 1..=4 {
            let mut asked = asked(random, 2 * half, 6);
            let map = random.bytes(12 * half as usize);
            let half = half as i64;
            for lowest in -half - 2..=half + 1 {
                for highest in -half - 2..=half + 1 {
                    asked.guard = Guard { lowest, highest };
                    let good = -half <= lowest && lowest <= highest && highest < half;
                    let said = compare(random, &asked, &map, 6);
                    assert_eq!(said.is_ok(), good, "{:?}", asked);
                }
            }
        }
    });
}

/// In guards of every length up to 140 each cell, and the cell on either side, is the only one of a line to reach 7.
#[test]
fn every_cell_of_a_guard() {
    trials("every cell of a guard", 1, |random| {
        for cells in 1..=140 {
            let mut asked = asked(random, 200, 1);
            let from = random.between(1, 199 - cells as u64) as usize;
            let lowest = from as i64 - 100;
            let highest = lowest + cells as i64 - 1;
            (asked.threshold, asked.guard) = (7, Guard { lowest, highest });
            for at in from - 1..=from + cells {
                let mut map = vec![6; 200];
                map[at] = 7;
                let inside = from <= at && at < from + cells;
                let said = compare(random, &asked, &map, 2);
                assert_eq!(said, Ok(inside as usize), "{:?}, cell {}", asked, at);
            }
        }
    });
}

#[test]
fn of_65_536_cells() {
    trials("blanking lists of 65,536 cells", 42, |random| {
        let window = 2 << random.below(12);
        let lines = 65_536 / window;
        let asked = asked(random, window, lines);
        let map = map_of(random, &asked, PATTERNS[random.seed() as usize % 7]);
        let count = compare(random, &asked, &map, lines as usize + 1).unwrap();
        compare(random, &asked, &map, 2 * count).unwrap();
        let short = (2 * count).saturating_sub(1);
        assert_eq!(compare(random, &asked, &map, short).is_ok(), count == 0);
    });
}

/// Every second line of the longest run is blanked, the first and the last line too.
#[test]
fn of_the_longest_run() {
    trials("the blanking list of 16,777,217 lines", 1, |random| {
        let run = Run {
            window: 2,
            interval: 4_294_967_295,
            first: 0,
            last: 16_777_216,
        };
        let line = |place| if place % 2 == 0 { [8, 9] } else { [9, 8] };
        let map: Vec<u8> = (0..=run.last).flat_map(line).collect();
        let (lowest, highest, threshold) = (0, 0, 9);
        let asked = Asked {
            run,
            threshold,
            guard: Guard { lowest, highest },
        };
        let said = compare(random, &asked, &map, 16_777_218);
        assert_eq!(said, Ok(8_388_609));
    });
}
