use crate::library;
use crate::sources::Lists;
use crate::support::{told, trials, wide, wide_source, Random};
use reference::Refusal;
use zenithgong::{Run, Source};

/// Reads a text, held to the reference.
pub fn compare(text: &[u8]) {
    let ours = match library::read_text(text) {
        Ok(input) => {
            let source = |&(source, weight): &(Source, u32)| (wide_source(source), weight as i128);
            Ok((
                wide(input.run),
                input.sources.iter().map(source).collect::<Vec<_>>(),
            ))
        }
        Err(refusal) => Err(told(refusal)),
    };
    let words = String::from_utf8_lossy(text);
    assert_eq!(ours, reference::read_text(text), "{:?}", words);
}

/// The text of a run and its sources; every second phase of 0 is left out.
pub fn text_of(random: &mut Random, run: Run, lists: &Lists) -> Vec<u8> {
    let mut text = format!(
        "run {} {} {} {}\n",
        run.window, run.interval, run.first, run.last
    );
    for (Source { period, phase }, weight) in lists.sources() {
        text += &format!("src {} {}", period, weight);
        if phase > 0 || random.one_in(2) {
            text += &format!(" {}", phase);
        }
        text += "\n";
    }
    text.into_bytes()
}

/// A source and its weight: most often within the limits and in every second of these the phase 0, or any numbers.
fn source(random: &mut Random, run: Run) -> (Source, u32) {
    if random.one_in(20) {
        return (random.any_source(run), random.number());
    }
    let mut source = random.source(run);
    if random.one_in(2) {
        source.phase = 0;
    }
    (source, random.between(1, 255))
}

/// A text of the form, most often within the limits.
fn text(random: &mut Random) -> Vec<u8> {
    let run = random.any_run();
    let count = if random.one_in(20) {
        random.between(60, 70)
    } else {
        random.below(4) as u32
    };
    let lists: Lists = (0..count).map(|_| source(random, run)).collect();
    text_of(random, run, &lists)
}

#[test]
fn of_the_form() {
    trials("texts of the form", 20_000, |random| {
        compare(&text(random));
    });
}

#[test]
fn damaged() {
    const BYTES: &[u8] = b" \n0123456789runsc-+\t\r\0\xff";
    trials("damaged texts", 100_000, |random| {
        let mut text = text(random);
        let byte = BYTES[random.below(BYTES.len() as u64) as usize];
        let at = random.below(text.len() as u64) as usize;
        match random.below(5) {
            0 => text[at] = byte,
            1 => text.insert(at, byte),
            2 => drop(text.remove(at)),
            3 => text.truncate(at),
            _ => text.push(byte),
        }
        compare(&text);
    });
}

#[test]
fn every_byte_changed() {
    trials("every byte of a text changed", 1, |_| {
        let text = b"run 4 10 1 5\nsrc 7 60 2\nsrc 3 200\n";
        for at in 0..text.len() {
            for byte in 0..=255 {
                let mut other = text.to_vec();
                other[at] = byte;
                compare(&other);
            }
        }
    });
}

/// A text that ends with so many sources, the first lines as given.
fn with_sources(head: &str, source: &str, count: usize) -> Vec<u8> {
    [head, &source.repeat(count)].concat().into_bytes()
}

/// Up to 70 sources, and about as many as 4,096 bytes hold, in either spelling and in both by turns.
#[test]
fn many_sources() {
    trials("texts of many sources", 1, |_| {
        for source in ["src 7 60\n", "src 7 60 6\n", "src 7 60\nsrc 7 60 0\n"] {
            for count in (0..=70).chain(200..=210).chain(360..=460) {
                compare(&with_sources("run 4 10 1 5\n", source, count));
                compare(&with_sources("run 4 10 1 555\n", source, count));
            }
        }
    });
}

/// Runs at the limits of the window and of both lines.
fn run_lines() -> Vec<String> {
    let mut lines = Vec::new();
    for window in [0, 1, 2, 3, 4094, 4096, 4098] {
        for last in [0, 1, 15, 16, 17, 32767, 32768, 32769, 16777216, 16777217] {
            lines.extend(
                [0, 1, 16777216, 16777217, 16777218]
                    .map(|first| format!("run {} 1 {} {}\n", window, first, last)),
            );
        }
    }
    lines
}

#[test]
fn limits() {
    trials("texts at the limits", 1, |_| {
        let tried = |text: Vec<u8>| compare(&text);
        for line in run_lines() {
            tried(line.into_bytes());
        }
        for number in [
            "0",
            "00",
            "01",
            "4294967295",
            "4294967296",
            "9999999999",
            "42949672950",
        ] {
            for period in ["1", "0", "2147483647", "2147483648", number] {
                tried(format!("run 4 {} 1 5\nsrc {} {}\n", number, period, number).into_bytes());
                tried(format!("run 4 10 1 5\nsrc {} 60 {}\n", period, number).into_bytes());
            }
        }
        for text in [
            "",
            "\n",
            "run",
            "run 4 10 1 5",
            " run 4 10 1 5\n",
            "run 4 10 1 5\n\n",
            "src 1 1\n",
        ] {
            tried(text.as_bytes().to_vec());
        }
    });
}

const PERIODS: [&str; 7] = [
    "0",
    "1",
    "7",
    "2147483647",
    "2147483648",
    "4294967295",
    "4294967296",
];

const WEIGHTS: [&str; 6] = ["0", "1", "255", "256", "4294967295", "4294967296"];

/// The phase with the space before it, or none; and a number too many.
const PHASES: [&str; 14] = [
    "",
    " 0",
    " 1",
    " 6",
    " 7",
    " 8",
    " 2147483646",
    " 2147483647",
    " 2147483648",
    " 4294967294",
    " 4294967295",
    " 4294967296",
    " 0 0",
    " 2 1",
];

/// Sources with periods, weights and phases at the limits or past them, each with each.
fn source_lines() -> Vec<String> {
    let mut lines = Vec::new();
    for period in PERIODS {
        for weight in WEIGHTS {
            lines.extend(PHASES.map(|phase| format!("src {} {}{}\n", period, weight, phase)));
        }
    }
    lines
}

/// Each such source alone, and in either spelling's company: after a source within the limits, before one that is not.
#[test]
fn sources_at_the_limits() {
    const COMPANY: [(&str, &str); 3] = [
        ("", ""),
        ("src 3 200\n", "src 9 1 9\n"),
        ("src 3 200 2\n", "src 0 0\n"),
    ];
    trials("texts with sources at the limits", 1, |_| {
        for source in source_lines() {
            for (before, after) in COMPANY {
                let text = ["run 4 10 0 5\n", before, &source, after].concat();
                compare(text.as_bytes());
            }
        }
    });
}

/// A text of this length, whose sources are these but for the first.
fn of_length(length: usize, source: &str) -> Vec<u8> {
    let (head, last) = ("run 4 10 1 5\nsrc 1", " 1\n");
    let left = length - head.len() - last.len();
    let digits = "0".repeat(left % source.len());
    let sources = source.repeat(left / source.len());
    [head, &digits, last, &sources].concat().into_bytes()
}

#[test]
fn longest() {
    trials("texts of about 4,096 bytes", 1, |_| {
        for length in 4_080..=4_110 {
            for source in ["src 1 1\n", "src 1 1 0\n"] {
                let text = of_length(length, source);
                assert_eq!(text.len(), length);
                let number = if length <= 4_096 { 12 } else { 11 };
                assert_eq!(reference::read_text(&text), Err(Refusal::alone(number)));
                compare(&text);
            }
        }
    });
}

/// Lines that are not of the form.
const MALFORMED: [&str; 58] = [
    "",
    "x",
    "\0",
    "run",
    "src",
    "run 4 10 1",
    "run 4 10 1 ",
    "run 4 10 1 5 6",
    "run\t4 10 1 5",
    " run 4 10 1 5",
    "run 4 10 1 5 ",
    "run  4 10 1 5",
    "run 4 10 1  5",
    "run 4 10 1 5\r",
    "Run 4 10 1 5",
    "ru 4 10 1 5",
    "runs 4 10 1 5",
    "run 04 10 1 5",
    "run 4 10 1 05",
    "run 4 00 1 5",
    "run +4 10 1 5",
    "run -4 10 1 5",
    "run 4 1O 1 5",
    "run 4 10 1 5.",
    "run 4 0x10 1 5",
    "run 4 10 1 5x",
    "run 4294967296 10 1 5",
    "src 7",
    "src 7 ",
    "src 7 60 2 1",
    "src 7 60 0 0",
    "src 7 60 2 1 1",
    "src 7 60 2 ",
    "src 7 60  2",
    "src 7 60\t2",
    "src 7 60 2\r",
    "src 7 60 02",
    "src 7 60 00",
    "src 7 60 +2",
    "src 7 60 -1",
    "src 7 60 2.",
    "src 7 60 2x",
    "src 7 60 4294967296",
    "src 7 60 18446744073709551618",
    "src 7  60",
    "src 7 60 ",
    "src 7 60\r",
    " src 7 60",
    "source 7 60",
    "SRC 7 60",
    "src 07 60",
    "src 7 060",
    "src 7 +60",
    "src 7 6O",
    "src 7 4294967356",
    "src 4294967296 60",
    "src 18446744073709551623 60",
    "src 7 99999999999999999999999999",
];

/// Texts that have a line as the first, as the last, alone, or among sources in either spelling.
fn texts_with(line: &str) -> Vec<String> {
    let run = "run 4 10 1 5\n";
    let mut texts = vec![format!("{}\n", line), format!("{}{}\n", run, line)];
    for source in ["src 7 60\n", "src 7 60 2\n"] {
        texts.extend([
            format!("{}\n{}", line, source),
            format!("{}{}{}\n", run, source, line),
            format!("{}{}\n{}", run, line, source),
        ]);
    }
    texts
}

#[test]
fn malformed() {
    trials("malformed lines", 1, |_| {
        for line in MALFORMED {
            for text in texts_with(line) {
                let expected = reference::read_text(text.as_bytes());
                assert_eq!(expected, Err(Refusal::alone(11)), "{:?}", text);
                compare(text.as_bytes());
            }
            compare(format!("run 4 10 1 5\n{}", line).as_bytes());
        }
    });
}
