//! Random sources, and the three lists of them that the map calls are lent.
use crate::support::Random;
use zenithgong::{Run, Source};

impl Random {
    /// The phase of a source with an edge on a line of a run: at one of the line's cells, or a tick beside the window.
    fn aimed_phase(&mut self, run: Run, period: u32) -> u32 {
        let line = self.between(run.first as u64, run.last.max(run.first) as u64);
        let distance = self.below(run.window as u64 + 2) as i128 - 1;
        let offset = distance - (run.window / 2) as i128;
        let instant = run.interval as i128 * line as i128 - offset;
        instant.rem_euclid(period as i128) as u32
    }

    /// A phase below a period: 0, the last one, any, or one that is aimed at a line of the run.
    pub fn phase(&mut self, run: Run, period: u32) -> u32 {
        match self.below(8) {
            0 => 0,
            1 => period - 1,
            2 | 3 => self.below(period as u64) as u32,
            _ => self.aimed_phase(run, period),
        }
    }

    /// A source of this period, which is within the limits; so is the phase.
    pub fn source_of(&mut self, run: Run, period: u32) -> Source {
        let phase = self.phase(run, period);
        Source { period, phase }
    }

    /// A source within the limits.
    pub fn source(&mut self, run: Run) -> Source {
        let period = self.period();
        self.source_of(run, period)
    }

    /// A run of few lines, and a factor of its interval that is no shorter than its window: periods that are multiples of the
    /// factor have a single vector.
    pub fn run_with_factor(&mut self) -> (Run, u32) {
        let shape = self.small_run();
        let window = shape.window as u64;
        let longest = [window, window + 3, 300_000_000][self.below(3) as usize];
        let factor = self.between(window, longest);
        let interval = factor * self.between(1, 14);
        (Run { interval, ..shape }, factor)
    }

    /// A source whose period is a multiple of that factor.
    pub fn single_source(&mut self, run: Run, factor: u32) -> Source {
        let period = factor * self.between(1, 7);
        self.source_of(run, period)
    }

    /// A source of any period; in every second one the phase is the period, the number after it, the largest number, or any.
    pub fn any_source(&mut self, run: Run) -> Source {
        let period = self.number();
        let phase = match self.below(8) {
            0 => period,
            1 => period.saturating_add(1),
            2 => u32::MAX,
            3 => self.number(),
            _ => self.phase(run, period.max(1)),
        };
        Source { period, phase }
    }

    /// So many sources and their weights, all within the limits.
    pub fn lists(&mut self, run: Run, count: u64) -> Lists {
        (0..count)
            .map(|_| (self.source(run), self.between(1, 255)))
            .collect()
    }
}

/// Lists of sources, of one length unless a test has made them unequal.
#[derive(Clone, Debug, Default)]
pub struct Lists {
    pub periods: Vec<u32>,
    pub weights: Vec<u32>,
    pub phases: Vec<u32>,
}

impl Lists {
    pub fn insert(&mut self, at: usize, source: Source, weight: u32) {
        self.periods.insert(at, source.period);
        self.weights.insert(at, weight);
        self.phases.insert(at, source.phase);
    }

    /// The sources and their weights.
    pub fn sources(&self) -> Vec<(Source, u32)> {
        let phases = self.phases.iter().copied();
        let sources = self.periods.iter().copied().zip(phases);
        sources
            .map(|(period, phase)| Source { period, phase })
            .zip(self.weights.iter().copied())
            .collect()
    }

    /// Makes a list a number shorter, another a number longer, or both.
    pub fn make_unequal(&mut self, random: &mut Random) {
        let mut lists = [&mut self.periods, &mut self.weights, &mut self.phases];
        lists.rotate_left(random.below(3) as usize);
        let [one, other, _] = lists;
        let kind = random.below(3);
        if kind != 0 {
            one.pop();
        }
        if kind != 1 {
            other.push(1);
        }
    }
}

impl FromIterator<(Source, u32)> for Lists {
    fn from_iter<I: IntoIterator<Item = (Source, u32)>>(sources: I) -> Lists {
        let mut lists = Lists::default();
        for (source, weight) in sources {
            lists.insert(lists.periods.len(), source, weight);
        }
        lists
    }
}
