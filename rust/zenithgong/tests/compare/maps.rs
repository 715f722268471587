use crate::library;
use crate::sources::Lists;
use crate::support::{told, trials, wide, Random};
use reference::Reply;
use zenithgong::{Run, Source};

/// The two map calls, which are given the same.
#[derive(Clone, Copy, Debug)]
enum Call {
    /// The plain one: the map starts clean.
    Make,
    /// The adding one: the map is as it was lent.
    Add,
}

impl Call {
    fn ours(self, run: Run, lists: &Lists, map: &mut [u8]) -> Reply<()> {
        let call = match self {
            Call::Make => library::make_map,
            Call::Add => library::add_to_map,
        };
        call(run, &lists.periods, &lists.weights, &lists.phases, map).map_err(told)
    }

    fn expected(self, run: Run, lists: &Lists, map: &mut [u8], by_line: bool) -> Reply<()> {
        let hits = |run: &reference::Run, source: reference::Source| {
            if by_line {
                run.hits_by_line(source)
            } else {
                run.hits(source)
            }
        };
        let Lists {
            periods,
            weights,
            phases,
        } = lists;
        let run = &wide(run);
        match self {
            Call::Make => reference::make_map(run, periods, weights, phases, map, hits),
            Call::Add => reference::add_to_map(run, periods, weights, phases, map, hits),
        }
    }

    /// One call on a copy of a map, held to the reference, which goes by all cells or by lines; and the copy after it, or the
    /// refusal.
    fn compare(self, run: Run, lists: &Lists, map: &[u8], by_line: bool) -> Reply<Vec<u8>> {
        let (mut map, mut after) = (map.to_vec(), map.to_vec());
        let expected = self.expected(run, lists, &mut after, by_line);
        let words = || format!("{:?} {:?}, {:?}", self, run, lists);
        assert_eq!(self.ours(run, lists, &mut map), expected, "{}", words());
        assert!(map == after, "{}: the maps differ", words());
        expected.map(|()| after)
    }
}

/// Both calls, each on a copy of the map, held to the reference, which judges both alike; and what they say.
pub fn compare(run: Run, lists: &Lists, map: &[u8], by_line: bool) -> Reply<()> {
    Call::Make.compare(run, lists, map, by_line).ok();
    Call::Add.compare(run, lists, map, by_line).map(drop)
}

/// What a map call is given: any run, sources most often within the limits, and a random map most often of the run's length.
fn given(random: &mut Random) -> (Run, Lists, Vec<u8>) {
    let run = random.any_run();
    let count = random.below(5);
    let mut lists = random.lists(run, count);
    if random.one_in(8) {
        let at = random.below(count + 1) as usize;
        lists.insert(at, random.any_source(run), random.number());
    }
    if random.one_in(12) {
        lists.make_unequal(random);
    }
    let cells = wide(run).cells().clamp(0, 20_000) as u64;
    let length = if random.one_in(10) { cells ^ 1 } else { cells };
    let map = random.bytes(length as usize);
    (run, lists, map)
}

#[test]
fn small() {
    trials("small maps", 20_000, |random| {
        let (run, lists, map) = given(random);
        compare(run, &lists, &map, false).ok();
    });
}

/// Request E6: "the plain call equals it on a map of zeros", whatever map the plain call is lent. They are refused alike, and
/// then the plain call has not cleared.
#[test]
fn made_or_added_onto_zeros() {
    trials("maps made or added onto zeros", 20_000, |random| {
        let (run, lists, map) = given(random);
        let (mut made, mut added) = (map.clone(), vec![0; map.len()]);
        let said = Call::Make.ours(run, &lists, &mut made);
        assert_eq!(Call::Add.ours(run, &lists, &mut added), said);
        let zeros = vec![0; map.len()];
        assert!(said.is_ok() || added == zeros, "{:?}, {:?}", run, lists);
        let expected = if said.is_ok() { added } else { map };
        assert!(made == expected, "{:?}, {:?}", run, lists);
    });
}

/// The plain call a second time says the same and leaves the map that it has made, or has refused to make.
#[test]
fn made_twice() {
    trials("maps made twice", 10_000, |random| {
        let (run, lists, mut map) = given(random);
        let said = Call::Make.ours(run, &lists, &mut map);
        let once = map.clone();
        assert_eq!(Call::Make.ours(run, &lists, &mut map), said);
        assert!(map == once, "{:?}, {:?}", run, lists);
    });
}

/// Sources with a single vector, whose hits are at one offset each, or nowhere.
#[test]
fn of_single_vectors() {
    trials("maps of single vectors", 4_000, |random| {
        let (run, factor) = random.run_with_factor();
        let source =
            |random: &mut Random| (random.single_source(run, factor), random.between(1, 255));
        let lists: Lists = (0..random.below(5)).map(|_| source(random)).collect();
        let map = random.bytes(wide(run).cells() as usize);
        compare(run, &lists, &map, false).unwrap();
    });
}

/// A cut into blocks of up to four lines.
fn cut(random: &mut Random, run: Run) -> Vec<Run> {
    let (mut blocks, mut first) = (Vec::new(), run.first);
    while first <= run.last {
        let last = (first + random.below(4) as u32).min(run.last);
        blocks.push(Run { first, last, ..run });
        first = last + 1;
    }
    blocks
}

fn shuffle<T>(random: &mut Random, items: &mut [T]) {
    for k in (1..items.len()).rev() {
        items.swap(k, random.below(k as u64 + 1) as usize);
    }
}

/// The cells of a block in the map of its run.
fn part(map: &mut [u8], run: Run, block: Run) -> &mut [u8] {
    let start = ((block.first - run.first) * run.window) as usize;
    &mut map[start..start + wide(block).cells() as usize]
}

/// The lists of one source alone.
fn one(source: (Source, u32)) -> Lists {
    Lists::from_iter([source])
}

/// The adding call on each block of a cut, once with each source, all in a random order: of this map it makes the whole.
fn add_in_blocks(random: &mut Random, run: Run, lists: &Lists, mut map: Vec<u8>, whole: &[u8]) {
    let alone: Vec<Lists> = lists.sources().into_iter().map(one).collect();
    let of_block = |block: Run| (0..alone.len()).map(move |k| (block, k));
    let mut calls: Vec<_> = cut(random, run).into_iter().flat_map(of_block).collect();
    shuffle(random, &mut calls);
    for &(block, k) in &calls {
        let cells = part(&mut map, run, block);
        Call::Add.ours(block, &alone[k], cells).unwrap();
    }
    assert!(map == whole, "{:?}, {:?} by {:?}", run, lists, calls);
}

/// Block jobs, by the adding call: onto a random map they come to what the adding call makes of it, and onto a map that the plain
/// call has cleared, with empty lists, to what the plain call makes.
#[test]
fn blocks_in_any_order() {
    trials("maps of blocks", 2_000, |random| {
        let (run, count) = (random.small_run(), random.below(5));
        let lists = random.lists(run, count);
        let mut map = random.bytes(wide(run).cells() as usize);
        let added = Call::Add.compare(run, &lists, &map, false).unwrap();
        let made = Call::Make.compare(run, &lists, &map, false).unwrap();
        add_in_blocks(random, run, &lists, map.clone(), &added);
        Call::Make.ours(run, &Lists::default(), &mut map).unwrap();
        add_in_blocks(random, run, &lists, map, &made);
    });
}

/// The plain call on each block of a cut, with all sources and in a random order, makes the run's map.
#[test]
fn made_in_blocks() {
    trials("maps made in blocks", 2_000, |random| {
        let (run, count) = (random.small_run(), random.below(5));
        let lists = random.lists(run, count);
        let mut map = random.bytes(wide(run).cells() as usize);
        let whole = Call::Make.compare(run, &lists, &map, false).unwrap();
        let mut blocks = cut(random, run);
        shuffle(random, &mut blocks);
        for &block in &blocks {
            let cells = part(&mut map, run, block);
            Call::Make.ours(block, &lists, cells).unwrap();
        }
        assert!(map == whole, "{:?}, {:?} by {:?}", run, lists, blocks);
    });
}

/// A run of these lines, from line 0 one time in four or placed anywhere, at any interval.
fn run_of(random: &mut Random, window: u32, lines: u32) -> Run {
    let first = match random.below(4) {
        0 => 0,
        _ => random.between(0, 16_777_217 - lines as u64),
    };
    let interval = random.number().max(1);
    Run {
        window,
        interval,
        first,
        last: first + lines - 1,
    }
}

#[test]
fn of_65_536_cells() {
    trials("maps of 65,536 cells", 40, |random| {
        let window = 2 << random.below(12);
        let run = run_of(random, window, 65_536 / window);
        let lists = random.lists(run, 8);
        let map = random.bytes(65_536);
        compare(run, &lists, &map, true).unwrap();
    });
}

/// The widest window, the narrowest, or any.
fn any_window(random: &mut Random) -> u32 {
    match random.below(3) {
        0 => 4_096,
        1 => 2,
        _ => 2 * random.between(1, 2_048),
    }
}

/// Maps of as many whole lines as 262,144 cells have, of one less, or of one or two more. Only above that number of cells are sources
/// added block by block, and only with periods below 2,048: by turns there is no source, or all have such periods, or none, or some.
#[test]
fn of_262_144_cells() {
    trials("maps of about 262,144 cells", 48, |random| {
        let window = any_window(random);
        let lines = 262_144 / window + random.between(0, 3) - 1;
        let run = run_of(random, window, lines);
        let (count, shortest, longest) = match random.seed() % 4 {
            0 => (0, 1, 1),
            1 => (4, 1, 2_047),
            2 => (4, 2_048, 2_147_483_647),
            _ => (4, 2_040, 2_055),
        };
        let source = |random: &mut Random| {
            let period = random.between(shortest, longest);
            (random.source_of(run, period), random.between(1, 60))
        };
        let lists: Lists = (0..count).map(|_| source(random)).collect();
        let map = random.bytes((window * lines) as usize);
        compare(run, &lists, &map, true).unwrap();
    });
}

/// Maps above 1 MiB by at most two lines. Periods below 2,048 are added to them block by block, others not: both come, and all
/// between. At one interval in three, multiples of 2,048 have a single vector, if they are as long as the window. The weights are
/// small, so that few cells come to the ceiling.
#[test]
fn long() {
    trials("maps above 1 MiB", 40, |random| {
        let window = any_window(random);
        let lines = 1_048_576 / window + random.between(1, 2);
        let mut run = run_of(random, window, lines);
        if random.one_in(3) {
            run.interval = 122_880 * random.between(1, 30_000);
        }
        let source = |random: &mut Random| {
            let period = match random.below(4) {
                0 => random.between(1, 2_047),
                1 => random.between(2_040, 2_055),
                2 => 2_048 * random.between(1, 6),
                _ => random.between(1, 2_147_483_647),
            };
            (random.source_of(run, period), random.between(1, 60))
        };
        let lists: Lists = (0..6).map(|_| source(random)).collect();
        let map = random.bytes((window * lines) as usize);
        compare(run, &lists, &map, true).unwrap();
    });
}

/// A million and three ticks as the period of one source; the others, whose period divides the interval, hit offset -1 on every
/// line and nothing.
#[test]
fn of_the_longest_run() {
    trials("the map of 16,777,217 lines", 1, |random| {
        let run = Run {
            window: 2,
            interval: 4_294_967_294,
            first: 0,
            last: 16_777_216,
        };
        let lists = Lists {
            periods: vec![1_000_003, 2_147_483_647, 2_147_483_647],
            weights: vec![200, 100, 50],
            phases: vec![1_000_002, 1, 2_147_483_646],
        };
        let map = vec![random.between(1, 255) as u8; 33_554_434];
        compare(run, &lists, &map, true).unwrap();
    });
}
