//! Random inputs, one seed a trial; what a trial calls is counted.
use crate::library::calls;
use zenithgong::{Refusal, Run, Source};

/// Numbers at and around which something changes.
const EDGES: [u64; 8] = [
    0,
    256,
    4_096,
    65_536,
    16_777_216,
    1 << 30,
    2_147_483_647,
    4_294_967_295,
];

/// Splitmix: a sequence for each seed.
pub struct Random {
    state: u64,
    seed: u64,
}

impl Random {
    fn of(seed: u64) -> Random {
        let state = seed.wrapping_mul(0x2545_f491_4f6c_dd1d);
        Random { state, seed }
    }

    /// The number of the trial, so that trials may go through cases in turn.
    pub fn seed(&self) -> u64 {
        self.seed
    }

    pub fn next(&mut self) -> u64 {
        self.state = self.state.wrapping_add(0x9e37_79b9_7f4a_7c15);
        let mut z = self.state;
        z = (z ^ (z >> 30)).wrapping_mul(0xbf58_476d_1ce4_e5b9);
        z = (z ^ (z >> 27)).wrapping_mul(0x94d0_49bb_1331_11eb);
        z ^ (z >> 31)
    }

    pub fn below(&mut self, n: u64) -> u64 {
        self.next() % n
    }

    pub fn between(&mut self, low: u64, high: u64) -> u32 {
        (low + self.below(high - low + 1)) as u32
    }

    pub fn one_in(&mut self, n: u64) -> bool {
        self.below(n) == 0
    }

    /// Any number: small, near an edge, or of any length in bits.
    pub fn number(&mut self) -> u32 {
        match self.below(4) {
            0 => self.below(20) as u32,
            1 => (EDGES[self.below(8) as usize] + self.below(5)).saturating_sub(2) as u32,
            _ => (self.next() >> 32) as u32 >> self.below(32),
        }
    }

    /// A period within the limits: short, or any.
    pub fn period(&mut self) -> u32 {
        match self.below(4) {
            0 => self.number().clamp(1, 2_147_483_647),
            _ => self.between(1, 40),
        }
    }

    /// A first line within the limits: 0 one time in four, else anywhere.
    fn first_line(&mut self) -> u32 {
        match self.below(4) {
            0 => 0,
            _ => self.number().min(16_777_216),
        }
    }

    /// A run within the limits, of a few lines.
    pub fn small_run(&mut self) -> Run {
        let first = self.first_line();
        Run {
            window: 2 * self.between(1, 6),
            interval: self.number().max(1),
            first,
            last: (first + self.below(12) as u32).min(16_777_216),
        }
    }

    /// The same, with one number or more out of place at times.
    pub fn any_run(&mut self) -> Run {
        let mut run = self.small_run();
        match self.below(12) {
            0 => run.window = self.number(),
            1 => run.interval = 0,
            2 => run.first = self.number(),
            3 => run.last = self.number(),
            4 => (run.first, run.last) = (self.number(), self.number()),
            5 => {
                run = Run {
                    window: 3,
                    interval: 0,
                    first: 2,
                    last: 1,
                }
            }
            _ => {}
        }
        let long = run.last.saturating_sub(run.first) > 12;
        if long && run.last <= 16_777_216 {
            run.last = run.first + 5;
        }
        run
    }

    pub fn bytes(&mut self, count: usize) -> Vec<u8> {
        (0..count).map(|_| self.next() as u8).collect()
    }
}

pub fn wide(run: Run) -> reference::Run {
    reference::Run {
        window: run.window as i128,
        interval: run.interval as i128,
        first: run.first as i128,
        last: run.last as i128,
    }
}

/// A source, as the reference has it.
pub fn wide_source(source: Source) -> reference::Source {
    reference::Source {
        period: source.period as i128,
        phase: source.phase as i128,
    }
}

/// A refusal with its place, as the reference has it.
pub fn told(refusal: Refusal) -> reference::Refusal {
    let Refusal { number, place } = refusal;
    reference::Refusal { number, place }
}

/// Names the seed where a trial fails.
struct Named<'a>(&'a str, u64);

impl Drop for Named<'_> {
    fn drop(&mut self) {
        if std::thread::panicking() {
            eprintln!("{} failed at seed {}", self.0, self.1);
        }
    }
}

/// Runs a trial once for each seed, and tells how often it has called the library.
pub fn trials(name: &str, seeds: u64, trial: impl Fn(&mut Random)) {
    let before = calls();
    for seed in 0..seeds {
        let named = Named(name, seed);
        trial(&mut Random::of(seed));
        drop(named);
    }
    println!("calls {} {}", calls() - before, name);
}
