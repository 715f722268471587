use crate::library;
use crate::support::{told, trials, wide, Random};
use zenithgong::Run;

fn ours_read(file: &[u8], map: &mut [u8]) -> reference::Reply<reference::Run> {
    library::read(file, map).map(wide).map_err(told)
}

/// Reads a file into a room of this length, held to the reference.
pub fn compare_read(random: &mut Random, file: &[u8], length: usize) {
    let mut map = random.bytes(length);
    let mut after = map.clone();
    let expected = reference::read(file, &mut after);
    assert_eq!(
        ours_read(file, &mut map),
        expected,
        "a file of {} bytes",
        file.len()
    );
    assert!(
        map == after,
        "a file of {} bytes: the maps differ",
        file.len()
    );
}

/// Saves a map into a room of this length, held to the reference.
pub fn compare_save(random: &mut Random, run: Run, map: &[u8], length: usize) {
    let mut file = random.bytes(length);
    let mut after = file.clone();
    let expected = reference::save(&wide(run), map, &mut after);
    let said = library::save(run, map, &mut file).map_err(told);
    assert_eq!(said, expected, "{:?}, a map of {} bytes", run, map.len());
    assert!(file == after, "{:?}: the files differ", run);
}

/// Writes the check of the block that has this byte, so that only what stands before it is wrong.
pub fn seal(file: &mut [u8], byte: usize) {
    let block = &mut file[byte / 512 * 512..][..512];
    let check = reference::check(block).to_le_bytes();
    block[508..].copy_from_slice(&check);
}

#[test]
fn saved_and_read() {
    trials("files saved and read", 10_000, |random| {
        let run = random.any_run();
        let cells = wide(run).cells().clamp(0, 20_000) as usize;
        let length = if random.one_in(10) { cells + 1 } else { cells };
        let map = random.bytes(length);
        let blocks = 1 + (cells + 503) / 504;
        let room = if random.one_in(10) {
            random.between(0, 2000) as usize
        } else {
            512 * blocks
        };
        compare_save(random, run, &map, room);
        let file = reference::file_of(&wide(run), &map);
        let length = if random.one_in(10) { cells ^ 1 } else { cells };
        compare_read(random, &file, length);
    });
}

/// A file, and how many cells it has.
struct Example {
    file: Vec<u8>,
    cells: usize,
}

/// The document's run of 20 cells; 504 cells, from line 0 on, which fill a block; two more, up to the last line; and 600.
fn examples(random: &mut Random) -> [Example; 4] {
    let runs = [
        (4, 10, 1, 5),
        (4, 1, 0, 125),
        (2, 4_294_967_295, 16_776_964, 16_777_216),
        (100, 7, 3, 8),
    ];
    runs.map(|(window, interval, first, last)| {
        let run = wide(Run {
            window,
            interval,
            first,
            last,
        });
        let cells = run.cells() as usize;
        let file = reference::file_of(&run, &random.bytes(cells));
        Example { file, cells }
    })
}

/// Every byte of the heading is changed in every way, with its check as it was and put right; in the other blocks of all but
/// the first file, in every fourth way.
#[test]
fn every_byte_changed() {
    trials("every byte of a file changed", 1, |random| {
        for (k, Example { file, cells }) in examples(random).iter().enumerate() {
            for byte in 0..file.len() {
                for change in 1..=255u8 {
                    let heading = byte < 32;
                    let mut damaged = file.clone();
                    damaged[byte] ^= change;
                    if heading || k == 0 || change % 4 == 3 {
                        compare_read(random, &damaged, *cells);
                    }
                    if heading || change % 32 == 7 {
                        seal(&mut damaged, byte);
                        compare_read(random, &damaged, *cells);
                    }
                }
            }
        }
    });
}

#[test]
fn two_bytes_changed() {
    trials("two bytes of a file changed", 20_000, |random| {
        let kind = random.below(4) as usize;
        let Example { mut file, cells } = examples(random).into_iter().nth(kind).unwrap();
        for _ in 0..2 {
            let byte = match random.below(2) {
                0 => random.below(32) as usize,
                _ => random.below(file.len() as u64) as usize,
            };
            file[byte] = random.number() as u8;
            seal(&mut file, byte);
        }
        compare_read(random, &file, cells);
    });
}

/// A block more at the end has its number and its check, or nothing but zeros.
#[test]
fn every_length() {
    trials("every length of a file", 1, |random| {
        for Example { file, cells } in examples(random) {
            for length in 0..=2 * file.len() {
                let mut other = file.clone();
                other.resize(length, 0);
                compare_read(random, &other, cells);
                if length == file.len() + 512 {
                    other[file.len()] = (file.len() / 512) as u8;
                    seal(&mut other, file.len());
                    compare_read(random, &other, cells);
                }
            }
        }
    });
}

#[test]
fn of_65_536_cells() {
    trials("files of 65,536 cells", 6, |random| {
        let window = 2 << random.below(12);
        let run = Run {
            window,
            interval: random.number().max(1),
            first: 0,
            last: 65_536 / window - 1,
        };
        let map = random.bytes(65_536);
        compare_save(random, run, &map, 512 * 132);
        let file = reference::file_of(&wide(run), &map);
        compare_read(random, &file, 65_536);
        for byte in (0..file.len()).step_by(251) {
            let mut damaged = file.clone();
            damaged[byte] ^= 1 << random.below(8);
            if random.one_in(2) {
                seal(&mut damaged, byte);
            }
            compare_read(random, &damaged, 65_536);
        }
    });
}
