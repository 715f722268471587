//! The bench figures of document 01, examples of request E1's refusals, of request E2's runs, of request E3's stretches, of
//! request E4's columns, of request E5's phases and of request E6's clean maps, and the words of all refusals.
use crate::library::*;
use crate::sources::Lists;
use crate::support::{trials, wide};
use crate::{files, texts};
use zenithgong::{FirstHit, Guard, Input, Listing, Refusal, Run, Source, Steps, Vector};

/// A refusal that concerns no source of a list.
fn alone<T>(number: u8) -> Result<T, Refusal> {
    let place = None;
    Err(Refusal { number, place })
}

fn of_source<T>(number: u8, place: u64) -> Result<T, Refusal> {
    let place = Some(place);
    Err(Refusal { number, place })
}

fn source(period: u32, phase: u32) -> Source {
    Source { period, phase }
}

fn pair(p: u32, r: u32, window: u32, left: (i64, u64), right: (i64, u64)) {
    let vector = |(offset, line)| Vector { offset, line };
    let expected = Steps::Pair(vector(left), vector(right));
    assert_eq!(
        step_vectors(p, r, window),
        Ok(expected),
        "p {} r {} I {}",
        p,
        r,
        window
    );
}

fn single(p: u32, r: u32, window: u32, line: u64) {
    let expected = Steps::Single(Vector { offset: 0, line });
    assert_eq!(
        step_vectors(p, r, window),
        Ok(expected),
        "p {} r {} I {}",
        p,
        r,
        window
    );
}

#[test]
fn step_vectors_of_the_document() {
    trials("the document's step vectors", 1, |_| {
        pair(7, 3, 4, (-1, 2), (3, 1));
        pair(7, 5, 4, (-2, 1), (3, 2));
        pair(11, 4, 6, (-3, 2), (4, 1));
        pair(4, 1, 4, (-3, 1), (1, 1));
        assert_eq!(step_vectors(4, 1, 6), alone(6));
        single(12, 6, 6, 2);
        pair(12, 6, 8, (-6, 1), (6, 1));
        single(9, 0, 4, 1);
        pair(2, 1, 2, (-1, 1), (1, 1));
    });
}

#[test]
fn hits_of_the_document() {
    trials("the document's hits", 1, |_| {
        let run = |last| Run {
            window: 6,
            interval: 4,
            first: 1,
            last,
        };
        let mut room = [0; 7];
        let eleven = source(11, 0);
        let listing = list_hits(run(11), eleven, 0, &mut room);
        assert_eq!(listing, Ok(Listing::Done(6)));
        let cell = |&x: &u64| (x as i64 % 6 - 3, x / 6 + 1);
        let cells: Vec<_> = room[..6].iter().map(cell).collect();
        assert_eq!(cells, [(-3, 2), (1, 3), (-2, 5), (2, 6), (-1, 8), (0, 11)]);
        assert!(first_hit(run(16_777_216), eleven, 0).is_ok());
        assert_eq!(first_hit(run(16_777_217), eleven, 0), alone(18));
    });
}

/// What a text says, and the map of its sources, both by the library; the map held nines before.
fn mapped(text: &str) -> (Input, Vec<u8>) {
    let input = read_text(text.as_bytes()).unwrap();
    let Lists {
        periods,
        weights,
        phases,
    } = input.sources.iter().copied().collect();
    let mut map = vec![9; wide(input.run).cells() as usize];
    make_map(input.run, &periods, &weights, &phases, &mut map).unwrap();
    (input, map)
}

/// The map of the document's example.
const MAP: [u8; 20] = [
    200, 0, 0, 200, 0, 255, 0, 0, 0, 0, 200, 0, 255, 0, 0, 200, 0, 200, 0, 60,
];

/// The run of the document's example, its map and its file, all of them by the library.
fn example() -> (Run, Vec<u8>, [u8; 1024]) {
    let (Input { run, .. }, map) = mapped("run 4 10 1 5\nsrc 7 60\nsrc 3 200\n");
    let mut file = [0; 1024];
    save(run, &map, &mut file).unwrap();
    (run, map, file)
}

#[test]
fn map_and_file_of_the_document() {
    trials("the document's map and file", 1, |_| {
        let (run, map, file) = example();
        assert_eq!(map, MAP);
        let check = |at: usize| u32::from_le_bytes(file[at..at + 4].try_into().unwrap());
        assert_eq!((check(508), check(1020)), (294, 22_327));
        let mut back = [0; 20];
        assert_eq!(read(&file, &mut back), Ok(run));
        assert_eq!(map, back);
    });
}

/// The numbers of a table's row.
fn numbers(row: &str) -> Vec<u32> {
    let number = |cell: &str| cell.trim().parse().ok();
    row.split('|').filter_map(number).collect()
}

/// The sheet of request E4 on the example's file: docs/CHECK.md shows its rows from 485 on, and in those before them all is 0.
#[test]
fn columns_of_the_page() {
    trials("the page's columns", 1, |_| {
        let page = include_str!("../../../../docs/CHECK.md");
        let rows: Vec<_> = page
            .lines()
            .map(numbers)
            .filter(|row| row.len() == 8)
            .collect();
        assert_eq!(rows.len(), 24);
        for (block, bytes) in example().2.chunks(512).enumerate() {
            let (mut total, mut sum) = (0, 0);
            for row in 1..=508 {
                let byte = bytes[508 - row] as u32;
                total += byte;
                sum += total;
                if row < 485 {
                    assert_eq!((byte, total, sum), (0, 0, 0));
                    continue;
                }
                let shown = &rows[row - 485];
                assert_eq!(shown[..2], [row as u32, 508 - row as u32]);
                assert_eq!(shown[2 + 3 * block..][..3], [byte, total, sum]);
            }
            assert_eq!(bytes[508..], (sum + 1).to_le_bytes());
        }
    });
}

/// A text's answer, the library's and the reference's.
fn text_says(text: &str, answer: Result<Input, Refusal>) {
    assert_eq!(read_text(text.as_bytes()), answer, "{}", text);
    texts::compare(text.as_bytes());
}

/// Lines that break a limit, or two, and the refusal that comes.
const LINES: [(u32, u32, u8); 7] = [
    (1, 0, 17),
    (7, 6, 17),
    (16_777_217, 16_777_216, 17),
    (16_777_219, 16_777_218, 17),
    (0, 16_777_217, 18),
    (1, 16_777_217, 18),
    (16_777_217, 16_777_217, 18),
];

/// Every call with a run tells the line limit before the interval of 0, and before all that is wrong besides.
#[test]
fn line_limits_of_the_request() {
    trials("the request's line limits", 1, |_| {
        for (first, last, number) in LINES {
            let run = Run {
                window: 4,
                interval: 0,
                first,
                last,
            };
            let nothing = source(0, 0);
            assert_eq!(first_hit(run, nothing, u64::MAX), alone(number));
            let listing = list_hits(run, nothing, u64::MAX, &mut []);
            assert_eq!(listing, alone(number));
            assert_eq!(refused_map(run, &[0], &[0, 0], &[], 20), alone(number));
            let (lowest, highest) = (1, 0);
            let guard = Guard { lowest, highest };
            assert_eq!(list_stretches(run, &[], 0, guard, &mut []), alone(number));
            assert_eq!(save(run, &[], &mut []), alone(number));
            text_says(&format!("run 4 0 {} {}\n", first, last), alone(number));
            let file = reference::file_of(&wide(run), &[0; 20]);
            let mut map = [9; 20];
            assert_eq!(read(&file, &mut map), alone(number));
            assert_eq!(map, [9; 20]);
        }
    });
}

const BENCH: Run = Run {
    window: 4,
    interval: 10,
    first: 1,
    last: 5,
};

/// The run's file is read, and written again with the same bytes.
fn reads_back(run: Run, map: &[u8]) {
    let file = reference::file_of(&wide(run), map);
    let mut back = vec![9; map.len()];
    assert_eq!(read(&file, &mut back), Ok(run));
    assert_eq!(back, map);
    let mut again = vec![9; file.len()];
    assert_eq!(save(run, &back, &mut again), Ok(()));
    assert_eq!(again, file);
}

/// The hits of a run of 24 cells, listed by the library.
fn listed(run: Run, source: Source) -> Vec<u64> {
    let mut room = [9; 24];
    match list_hits(run, source, 0, &mut room) {
        Ok(Listing::Done(count)) => room[..count].to_vec(),
        other => panic!("{:?}, {:?}: {:?}", run, source, other),
    }
}

/// A text with a run of 24 cells: how many hits each of its sources has, and the cells above 0 of its map, with their values.
fn text_gives(text: &str, hits: &[usize], above_0: &[(usize, u8)]) {
    texts::compare(text.as_bytes());
    let (Input { run, sources }, map) = mapped(text);
    let count = |&(source, _): &(Source, u32)| listed(run, source).len();
    let counts: Vec<_> = sources.iter().map(count).collect();
    assert_eq!(counts, hits, "{}", text);
    let cells = map.iter().copied().enumerate();
    let found: Vec<_> = cells.filter(|&(_, value)| value > 0).collect();
    assert_eq!(found, above_0, "{}", text);
    reads_back(run, &map);
}

/// The example of request E2: the document's sources from line 0 on.
#[test]
fn map_and_file_from_line_0() {
    trials("a map and a file from line 0", 1, |_| {
        let above_0 = [
            (2, 255),
            (4, 200),
            (7, 200),
            (9, 255),
            (14, 200),
            (16, 255),
            (19, 200),
            (21, 200),
            (23, 60),
        ];
        let text = "run 4 10 0 5\nsrc 7 60\nsrc 3 200\n";
        text_gives(text, &[4, 8], &above_0);
    });
}

/// An example of request E5: the same run with a phase; a line without one means phase 0.
#[test]
fn map_and_file_of_phases() {
    trials("a map and a file of phases", 1, |_| {
        let above_0 = [
            (0, 60),
            (2, 200),
            (4, 200),
            (7, 255),
            (9, 200),
            (14, 255),
            (16, 200),
            (19, 200),
            (21, 255),
        ];
        for three in ["src 3 200\n", "src 3 200 0\n"] {
            let text = ["run 4 10 0 5\nsrc 7 60 2\n", three].concat();
            text_gives(&text, &[4, 8], &above_0);
            let (input, _) = mapped(&text);
            assert_eq!(input.sources, [(source(7, 2), 60), (source(3, 0), 200)]);
        }
    });
}

/// The last phase of the longest period: one edge a tick before sample 0, and no other near.
#[test]
fn last_phase_of_the_longest_period() {
    trials("the last phase of the longest period", 1, |_| {
        let text = "run 4 10 0 5\nsrc 2147483647 1 2147483646\n";
        text_gives(text, &[1], &[(3, 1)]);
    });
}

/// Where the period divides the interval, request E5's hits sit at one offset, on each line, or nowhere: the phases -i mod 9 of
/// the offsets i are 2, 1, 0 and 8.
#[test]
fn phases_of_a_single_vector() {
    trials("the phases of a single vector", 1, |_| {
        single(9, 0, 4, 1);
        let run = Run {
            window: 4,
            interval: 9,
            first: 0,
            last: 5,
        };
        assert_eq!(listed(run, source(9, 1)), [1, 5, 9, 13, 17, 21]);
        for phase in 0..9 {
            let at = [2, 1, 0, 8].iter().position(|&s| s == phase);
            let cell = |line: u64| at.map(|distance| 4 * line + distance as u64);
            let expected: Vec<u64> = (0..6).filter_map(cell).collect();
            assert_eq!(listed(run, source(9, phase)), expected, "{}", phase);
            let first = cell(0).map_or(FirstHit::Nothing, FirstHit::At);
            assert_eq!(first_hit(run, source(9, phase), 0), Ok(first));
        }
        assert_eq!(first_hit(run, source(9, 9), 0), alone(22));
    });
}

/// Request E5's refusals in a text: 22 after 4 and 7 in each source, and a number too many or too large is not of the form.
#[test]
fn texts_with_refused_phases() {
    trials("texts with refused phases", 1, |_| {
        let says = |sources: &str, answer| text_says(&["run 4 10 0 5\n", sources].concat(), answer);
        says("src 7 0 7\n", of_source(7, 1));
        says("src 7 1 7\n", of_source(22, 1));
        says("src 0 1 0\n", of_source(4, 1));
        says("src 0 0 0\n", of_source(4, 1));
        says("src 2147483648 1 4294967295\n", of_source(4, 1));
        says("src 2147483647 1 2147483647\n", of_source(22, 1));
        says("src 7 60 4294967295\n", of_source(22, 1));
        says("src 7 60 4294967296\n", alone(11));
        says("src 7 60 2 1\n", alone(11));
        says("src 7 60 7 1\n", alone(11));
        says("src 7 60\nsrc 7 60 7\nsrc 0 60\n", of_source(22, 2));
        says("src 7 60 6\nsrc 7 0 7\nsrc 7 60 7\n", of_source(7, 2));
        text_says("run 4 10 1 0\nsrc 7 60 7\n", alone(17));
        text_says("run 4 0 0 5\nsrc 7 60 7\n", alone(3));
    });
}

/// In the calls with one source 22 comes after 4 and before 8 and 9, and has no place.
#[test]
fn hits_with_refused_phases() {
    trials("hits with refused phases", 1, |_| {
        let refused = [
            (source(0, 0), u64::MAX, 4),
            (source(2_147_483_648, u32::MAX), 0, 4),
            (source(7, 7), u64::MAX, 22),
            (source(7, 8), 20, 22),
            (source(1, 1), 0, 22),
            (source(7, u32::MAX), 0, 22),
            (source(2_147_483_647, 2_147_483_647), 0, 22),
            (source(7, 6), 20, 8),
        ];
        for (source, start, number) in refused {
            assert_eq!(first_hit(BENCH, source, start), alone(number));
            let mut room = [9];
            for length in 0..=1 {
                let listing = list_hits(BENCH, source, start, &mut room[..length]);
                assert_eq!(listing, alone(number));
            }
            assert_eq!(room, [9]);
        }
        assert_eq!(list_hits(BENCH, source(7, 6), 19, &mut []), alone(9));
    });
}

/// A heading of the document's run whose first line is made 0: the run then has a line more.
#[test]
fn heading_with_line_0() {
    trials("a file whose first line is made 0", 1, |_| {
        let mut file = reference::file_of(&wide(BENCH), &[0; 20]);
        let mut map = [9; 24];
        file[16] = 0;
        assert_eq!(read(&file, &mut map), alone(14));
        files::seal(&mut file, 16);
        assert_eq!(read(&file, &mut map[..20]), alone(9));
        assert_eq!(map, [9; 24]);
        assert_eq!(read(&file, &mut map), Ok(Run { first: 0, ..BENCH }));
        assert_eq!(map, [0; 24]);
    });
}

/// The smallest run from line 0, and the last cell of the largest.
#[test]
fn ends_of_runs_from_line_0() {
    trials("the ends of runs from line 0", 1, |_| {
        let run = |window, interval, last| Run {
            window,
            interval,
            first: 0,
            last,
        };
        reads_back(run(2, 1, 0), &[7, 8]);
        let smallest = |phase, start| first_hit(run(2, 1, 0), source(5, phase), start);
        assert_eq!(smallest(0, 0), Ok(FirstHit::At(1)));
        assert_eq!(smallest(1, 0), Ok(FirstHit::At(0)));
        assert_eq!(smallest(1, 1), Ok(FirstHit::Nothing));
        assert_eq!(smallest(4, 0), Ok(FirstHit::Nothing));
        assert_eq!(smallest(0, 2), alone(8));
        text_says("run 4 10 0 16777217\n", alone(18));
        let largest = run(4096, 10, 16_777_216);
        let last = 68_719_480_831;
        let every = source(1, 0);
        let reply = Ok(FirstHit::At(last));
        assert_eq!(first_hit(largest, every, last), reply);
        assert_eq!(first_hit(largest, every, last + 1), alone(8));
        let mut room = [0; 2];
        let listing = list_hits(largest, every, last, &mut room);
        assert_eq!((listing, room), (Ok(Listing::Done(1)), [last, 0]));
        assert_eq!(list_hits(largest, every, last + 1, &mut room), alone(8));
        let edge = |phase| first_hit(largest, source(2_147_483_647, phase), last);
        assert_eq!(edge(167_770_113), reply);
        assert_eq!(edge(167_770_112), Ok(FirstHit::Nothing));
        assert_eq!(edge(167_770_114), Ok(FirstHit::Nothing));
    });
}

/// A blanking list of the document's run: what is answered, and what a room of so many nines then holds.
fn blanking(
    map: &[u8],
    threshold: u8,
    (lowest, highest): (i64, i64),
    length: usize,
) -> (Result<usize, Refusal>, Vec<u32>) {
    let mut room = vec![9; length];
    let guard = Guard { lowest, highest };
    let answer = list_stretches(BENCH, map, threshold, guard, &mut room);
    (answer, room)
}

/// The document's map, by the library; it held nines before.
fn bench_map() -> [u8; 20] {
    let mut map = [9; 20];
    make_map(BENCH, &[7, 3], &[60, 200], &[0, 0], &mut map).unwrap();
    map
}

/// The example of request E3: the blanking lists of the document's map. All lines reach 200, none reaches 255 at offset 1.
#[test]
fn stretches_of_the_request() {
    trials("the request's stretches", 1, |_| {
        let map = bench_map();
        let list = |threshold, guard, length| blanking(&map, threshold, guard, length);
        assert_eq!(list(255, (-2, 1), 4), (Ok(2), vec![2, 2, 4, 4]));
        assert_eq!(list(255, (-2, 1), 6), (Ok(2), vec![2, 2, 4, 4, 9, 9]));
        assert_eq!(list(255, (-2, 1), 3), (alone(21), vec![9; 3]));
        assert_eq!(list(200, (-2, -2), 5), (Ok(2), vec![1, 1, 4, 4, 9]));
        assert_eq!(list(200, (-2, 1), 2), (Ok(1), vec![1, 5]));
        assert_eq!(list(200, (-2, 1), 1), (alone(21), vec![9]));
        assert_eq!(list(200, (-1, 0), 4), (Ok(2), vec![2, 3, 5, 5]));
        assert_eq!(list(255, (1, 1), 0), (Ok(0), vec![]));
        assert_eq!(list(255, (1, 1), 1), (Ok(0), vec![9]));
    });
}

/// Its refusals, each before what comes later in the order, and a room left as it was.
#[test]
fn refused_stretches_of_the_request() {
    trials("the request's refused stretches", 1, |_| {
        let map = bench_map();
        let list = |cells, threshold, guard| blanking(&map[..cells], threshold, guard, 1);
        let outside = [
            (-2, 2),
            (-3, 1),
            (1, 0),
            (2, 2),
            (-3, -3),
            (i64::MIN, 1),
            (-2, i64::MAX),
            (i64::MIN, i64::MAX),
            (i64::MAX, i64::MIN),
        ];
        for guard in outside {
            assert_eq!(list(20, 255, guard), (alone(20), vec![9]), "{:?}", guard);
            assert_eq!(list(19, 255, guard), (alone(20), vec![9]), "{:?}", guard);
            assert_eq!(list(19, 0, guard), (alone(19), vec![9]), "{:?}", guard);
        }
        assert_eq!(list(20, 0, (-2, 1)), (alone(19), vec![9]));
        assert_eq!(list(19, 0, (-2, 1)), (alone(19), vec![9]));
        assert_eq!(list(19, 255, (-2, 1)), (alone(9), vec![9]));
        assert_eq!(list(20, 255, (-2, 1)), (alone(21), vec![9]));
    });
}

/// What both map calls say with these lists and a map of so many nines. They have to refuse it, and to leave the nines.
fn refused_map(
    run: Run,
    periods: &[u32],
    weights: &[u32],
    phases: &[u32],
    cells: usize,
) -> Result<(), Refusal> {
    let [made, added] = [make_map, add_to_map].map(|call| {
        let mut map = vec![9; cells];
        let answer = call(run, periods, weights, phases, &mut map);
        assert_eq!(map, vec![9; cells], "{:?}", answer);
        answer
    });
    assert_eq!(made, added);
    made
}

#[test]
fn places_of_the_request() {
    trials("the request's places", 1, |_| {
        let text = "run 4 10 1 5\nsrc 7 60\nsrc 0 0\nsrc 9 0\n";
        text_says(text, of_source(4, 2));
        let said = |periods: &[u32], weights: &[u32], phases: &[u32]| {
            refused_map(BENCH, periods, weights, phases, 19)
        };
        assert_eq!(said(&[7, 3], &[60, 256], &[6, 2]), of_source(7, 2));
        assert_eq!(said(&[7, 0, 9], &[60, 0, 0], &[0; 3]), of_source(4, 2));
        assert_eq!(said(&[7, 3, 0], &[0, 256, 0], &[0; 3]), of_source(7, 1));
        assert_eq!(said(&[7, 3], &[60, 255], &[6, 3]), of_source(22, 2));
        assert_eq!(said(&[7, 3], &[60, 256], &[7, 3]), of_source(22, 1));
        assert_eq!(said(&[7, 3], &[0, 60], &[7, 3]), of_source(7, 1));
        assert_eq!(said(&[7, 3], &[60, 255], &[6, 2]), alone(9));
        assert_eq!(said(&[0, 3], &[60], &[0, 0]), alone(10));
        assert_eq!(said(&[0], &[60, 0], &[0, 0]), alone(10));
        assert_eq!(said(&[0, 3], &[60, 0], &[0]), alone(10));
        assert_eq!(said(&[0, 3], &[60, 0], &[0; 3]), alone(10));
        assert_eq!(said(&[], &[], &[7]), alone(10));
        assert_eq!(said(&[], &[], &[]), alone(9));
    });
}

/// The example of request E6, on a map of nines. The adding call with empty lists changes nothing, and it adds the document's
/// sources to the nines; the plain call with empty lists clears the map, and of the sources it makes the document's.
#[test]
fn nines_of_the_request() {
    trials("the request's maps of nines", 1, |_| {
        let mut map = [9; 20];
        assert_eq!(add_to_map(BENCH, &[], &[], &[], &mut map), Ok(()));
        assert_eq!(map, [9; 20]);
        let mut added = map;
        add_to_map(BENCH, &[7, 3], &[60, 200], &[0, 0], &mut added).unwrap();
        let expected = [
            209, 9, 9, 209, 9, 255, 9, 9, 9, 9, 209, 9, 255, 9, 9, 209, 9, 209, 9, 69,
        ];
        assert_eq!(added, expected);
        assert_eq!(make_map(BENCH, &[], &[], &[], &mut map), Ok(()));
        assert_eq!(map, [0; 20]);
        assert_eq!(bench_map(), MAP);
    });
}

/// The trainee of request E6: the document's first source was found, and its second was left. The plain call, lent the as-found
/// map, makes that of the second alone; it takes the adding call to get both.
#[test]
fn as_found_and_as_left() {
    trials("the request's as-found map", 1, |_| {
        let mut found = [9; 20];
        make_map(BENCH, &[7], &[60], &[0], &mut found).unwrap();
        let first = [
            0, 0, 0, 0, 0, 60, 0, 0, 0, 0, 0, 0, 60, 0, 0, 0, 0, 0, 0, 60,
        ];
        assert_eq!(found, first);
        let mut left = found;
        make_map(BENCH, &[3], &[200], &[0], &mut left).unwrap();
        let second = [
            200, 0, 0, 200, 0, 200, 0, 0, 0, 0, 200, 0, 200, 0, 0, 200, 0, 200, 0, 0,
        ];
        assert_eq!(left, second);
        add_to_map(BENCH, &[3], &[200], &[0], &mut found).unwrap();
        assert_eq!(found, MAP);
    });
}

/// A refused call has not cleared: every refusal of the map calls, those of the run and of the map's length with empty lists too.
#[test]
fn refused_maps_of_the_request() {
    trials("the request's refused maps", 1, |_| {
        let runs = [
            (5, 10, 5, 1),
            (4, 10, 0, 17),
            (4, 10, 16_777_217, 18),
            (4, 0, 5, 3),
        ];
        for (window, interval, last, number) in runs {
            let run = Run {
                window,
                interval,
                last,
                ..BENCH
            };
            assert_eq!(refused_map(run, &[], &[], &[], 20), alone(number));
            assert_eq!(refused_map(run, &[7], &[60], &[0], 20), alone(number));
        }
        let said = |periods: &[u32], weights: &[u32], phases: &[u32]| {
            refused_map(BENCH, periods, weights, phases, 20)
        };
        assert_eq!(said(&[7], &[], &[]), alone(10));
        assert_eq!(said(&[], &[], &[0]), alone(10));
        assert_eq!(said(&[0], &[60], &[0]), of_source(4, 1));
        assert_eq!(said(&[7], &[0], &[0]), of_source(7, 1));
        assert_eq!(said(&[7], &[60], &[7]), of_source(22, 1));
        assert_eq!(said(&[7, 3], &[60, 200], &[0, 3]), of_source(22, 2));
        for cells in [0, 19, 21] {
            assert_eq!(refused_map(BENCH, &[], &[], &[], cells), alone(9));
            assert_eq!(refused_map(BENCH, &[7], &[60], &[0], cells), alone(9));
        }
    });
}

/// Where no list is given, and where the list as a whole or the form is at fault, there is no place.
#[test]
fn refusals_without_a_place() {
    trials("refusals without a place", 1, |_| {
        assert_eq!(step_vectors(0, 0, 4), alone(4));
        assert_eq!(first_hit(BENCH, source(0, 0), 0), alone(4));
        assert_eq!(list_hits(BENCH, source(0, 0), 0, &mut [0]), alone(4));
        let run = "run 4 10 1 5\n";
        text_says(&[run, &"src 0 0\n".repeat(65)].concat(), alone(12));
        text_says(&[run, &"src 7 60 7\n".repeat(65)].concat(), alone(12));
        text_says(&[run, "src 0 0\nsrc 7\n"].concat(), alone(11));
    });
}

/// What a refusal is said to be, after its number.
fn reason(number: u8) -> String {
    let place = None;
    let words = Refusal { number, place }.to_string();
    let start = format!("refused {}: ", number);
    words.strip_prefix(&start).unwrap().to_string()
}

/// There are words for all numbers that are given, which are those up to 22 without 2 and 16, and no two share them.
#[test]
fn every_refusal_has_its_words() {
    let unknown = reason(0);
    for number in 1..=23 {
        let given = ![2, 16, 23].contains(&number);
        assert_eq!(reason(number) != unknown, given, "{}", number);
        for other in 1..number {
            let same = reason(other) == reason(number);
            assert!(!(given && same), "{} and {}", other, number);
        }
    }
}

#[test]
fn words_with_a_place() {
    let (number, place) = (4, Some(2));
    let words = "refused 4: a period is 0 or above 2,147,483,647 (source 2)";
    assert_eq!(Refusal { number, place }.to_string(), words);
}
