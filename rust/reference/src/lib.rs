//! Document 01, with the requests E1 to E3, E5 and E6 of 02, once more: written from their text and not from the library's code.
//! Hits are found by looking at every cell, or in long runs at every line; step vectors by trying all vectors, or for long
//! periods by 01's conditions on what was answered; stretches by looking at every cell. The numbers of runs, sources, cells,
//! vectors and guards are i128. An answer is `Ok`, a refusal `Err`.
use std::ops::RangeInclusive;

#[derive(Clone, Copy, Debug, PartialEq, Eq)]
pub struct Run {
    pub window: i128,
    pub interval: i128,
    pub first: i128,
    pub last: i128,
}

/// "A source has a period p and a weight"; it "gets a third number, its phase s" (E5). The weight stands beside it in lists.
#[derive(Clone, Copy, Debug, PartialEq, Eq)]
pub struct Source {
    pub period: i128,
    pub phase: i128,
}

/// "A refusal carries the reason and, where it concerns a source, that place."
#[derive(Clone, Copy, Debug, PartialEq, Eq)]
pub struct Refusal {
    pub number: u8,
    pub place: Option<u64>,
}

impl Refusal {
    /// One that concerns no source of a list.
    pub fn alone(number: u8) -> Refusal {
        let place = None;
        Refusal { number, place }
    }
}

pub type Reply<T> = Result<T, Refusal>;

/// "Given when": the number, if this is so.
fn refuse_if(wrong: bool, number: u8) -> Reply<()> {
    if wrong {
        Err(Refusal::alone(number))
    } else {
        Ok(())
    }
}

fn judge_window(window: i128) -> Reply<()> {
    refuse_if(window % 2 != 0 || !(2..=4096).contains(&window), 1)
}

fn judge_period(period: i128) -> Reply<()> {
    refuse_if(period == 0 || period > 2_147_483_647, 4)
}

fn judge_weight(weight: i128) -> Reply<()> {
    refuse_if(weight == 0 || weight > 255, 7)
}

/// "22 phase not below period."
fn judge_phase(source: Source) -> Reply<()> {
    refuse_if(source.phase >= source.period, 22)
}

/// 22 comes "after 4 where no weight is given".
fn judge_source(source: Source) -> Reply<()> {
    judge_period(source.period)?;
    judge_phase(source)
}

/// "Where a source in a list is at fault (4 or 7 so far) they also want its place, counted from 1": source by source, 4
/// before 7, and 22 "after 7 in each source".
fn judge_sources(sources: &[(Source, i128)]) -> Reply<()> {
    for (place, &(source, weight)) in (1..).zip(sources) {
        let judged = judge_period(source.period)
            .and(judge_weight(weight))
            .and(judge_phase(source));
        let place = Some(place);
        judged.map_err(|refusal| Refusal { place, ..refusal })?;
    }
    Ok(())
}

impl Run {
    /// 1, then the line limits: "last line before the first, last line above the limit" (E1); "lines run from 0" (E2); then 3.
    fn judge(&self) -> Reply<()> {
        judge_window(self.window)?;
        refuse_if(self.last < self.first, 17)?;
        refuse_if(self.last > 16_777_216, 18)?;
        refuse_if(self.interval == 0, 3)
    }

    pub fn cells(&self) -> i128 {
        self.window * (self.last - self.first + 1)
    }

    /// "It hits (i, j) exactly when p divides T·j - i - s", of the cell with number x.
    pub fn is_hit(&self, source: Source, x: i128) -> bool {
        let line = self.first + x / self.window;
        let offset = x % self.window - self.window / 2;
        (self.interval * line - offset - source.phase) % source.period == 0
    }

    /// All hit cells, in rising order: a walk over all cells.
    pub fn hits(&self, source: Source) -> Vec<i128> {
        (0..self.cells())
            .filter(|&x| self.is_hit(source, x))
            .collect()
    }

    /// The same for long runs: on each line, the first offset that is hit, and from there in steps of p.
    pub fn hits_by_line(&self, source: Source) -> Vec<i128> {
        let Source { period, phase } = source;
        let mut hits = Vec::new();
        for line in self.first..=self.last {
            let left = -self.window / 2;
            let base = (line - self.first) * self.window;
            let mut distance = (self.interval * line - left - phase).rem_euclid(period);
            while distance < self.window {
                hits.push(base + distance);
                distance += period;
            }
        }
        hits
    }
}

fn gcd(a: i128, b: i128) -> i128 {
    if b == 0 {
        a
    } else {
        gcd(b, a % b)
    }
}

#[derive(Clone, Copy, Debug, PartialEq, Eq)]
pub enum Steps {
    Pair((i128, i128), (i128, i128)),
    Single((i128, i128)),
}

fn judge_vectors(p: i128, r: i128, window: i128) -> Reply<()> {
    judge_window(window)?;
    judge_period(p)?;
    refuse_if(r >= p, 5)?;
    refuse_if(window > p, 6)
}

/// "Both lie in the lattice, β > 0, δ > 0, -I < α ≤ 0 ≤ γ < I, γ - α ≥ I, and β·γ - α·δ = p."
pub fn is_pair(p: i128, r: i128, window: i128, left: (i128, i128), right: (i128, i128)) -> bool {
    let ((alpha, beta), (gamma, delta)) = (left, right);
    (alpha - r * beta) % p == 0
        && (gamma - r * delta) % p == 0
        && beta > 0
        && delta > 0
        && -window < alpha
        && alpha <= 0
        && 0 <= gamma
        && gamma < window
        && gamma - alpha >= window
        && beta * gamma - alpha * delta == p
}

/// The step vectors, the pair being looked for among all vectors of at most p lines. ("At most one such pair exists";
/// β·γ and -α·δ add up to p, so that no longer vectors need be tried.)
pub fn step_vectors(p: i128, r: i128, window: i128) -> Reply<Steps> {
    judge_vectors(p, r, window)?;
    let g = gcd(r, p);
    if g >= window {
        return Ok(Steps::Single((0, p / g)));
    }
    let within = |from: i128, to: i128| {
        let lattice = move |i: i128, j: i128| (i - r * j) % p == 0;
        (1..=p).flat_map(move |j| {
            (from..=to)
                .filter(move |&i| lattice(i, j))
                .map(move |i| (i, j))
        })
    };
    let rights: Vec<_> = within(0, window - 1).collect();
    for left in within(1 - window, 0) {
        for &right in &rights {
            if is_pair(p, r, window, left, right) {
                return Ok(Steps::Pair(left, right));
            }
        }
    }
    panic!("no pair for p {} r {} I {}", p, r, window)
}

/// Whether these are the step vectors, of any size: the conditions alone.
pub fn are_steps(p: i128, r: i128, window: i128, steps: &Reply<Steps>) -> bool {
    match (judge_vectors(p, r, window), steps) {
        (Err(refusal), _) => *steps == Err(refusal),
        (Ok(()), Err(_)) => false,
        (Ok(()), Ok(Steps::Single(v))) => {
            let g = gcd(r, p);
            g >= window && *v == (0, p / g)
        }
        (Ok(()), Ok(Steps::Pair(left, right))) => is_pair(p, r, window, *left, *right),
    }
}

fn judge_start(run: &Run, source: Source, start: i128) -> Reply<()> {
    run.judge()?;
    judge_source(source)?;
    refuse_if(start >= run.cells(), 8)
}

/// The hits of a source in a run, both of them within the limits, else none.
pub fn hits_of(run: &Run, source: Source) -> Vec<i128> {
    if run.judge().is_ok() && judge_source(source).is_ok() {
        run.hits(source)
    } else {
        Vec::new()
    }
}

/// The first hit, given all hits of the source in the run.
pub fn first_hit(run: &Run, source: Source, start: i128, hits: &[i128]) -> Reply<Option<i128>> {
    judge_start(run, source, start)?;
    Ok(hits[hits.partition_point(|&x| x < start)..]
        .first()
        .copied())
}

/// The count written and the next hit, and what the room then holds.
pub fn list_hits(
    run: &Run,
    source: Source,
    start: i128,
    room: &mut [u64],
    hits: &[i128],
) -> Reply<(usize, Option<i128>)> {
    judge_start(run, source, start)?;
    refuse_if(room.is_empty(), 9)?;
    let from = &hits[hits.partition_point(|&x| x < start)..];
    let count = from.len().min(room.len());
    for (place, &hit) in room.iter_mut().zip(from) {
        *place = hit as u64;
    }
    Ok((count, from.get(count).copied()))
}

/// "The source lists carry phases beside periods and weights", all of one length: each source with its weight.
fn sources_of(periods: &[u32], weights: &[u32], phases: &[u32]) -> Vec<(Source, i128)> {
    let source = |k: usize| {
        let (period, phase) = (periods[k] as i128, phases[k] as i128);
        (Source { period, phase }, weights[k] as i128)
    };
    (0..periods.len()).map(source).collect()
}

/// The sources of a map call with their weights, or its refusal: 01's order, with E1's line limits and places and E5's phases.
/// E6 names no refusal, so that both calls have it.
fn judge_map(
    run: &Run,
    periods: &[u32],
    weights: &[u32],
    phases: &[u32],
    map: &[u8],
) -> Reply<Vec<(Source, i128)>> {
    run.judge()?;
    let count = periods.len();
    refuse_if(weights.len() != count || phases.len() != count, 10)?;
    let sources = sources_of(periods, weights, phases);
    judge_sources(&sources)?;
    refuse_if(map.len() as i128 != run.cells(), 9)?;
    Ok(sources)
}

/// "The plain map call shall clear first" (E6): cell by cell, the smaller of 255 and the weights of all list entries that hit it,
/// whatever it held. `hits` gives the hits of each source, rising, for runs of a length of the caller's choice.
pub fn make_map(
    run: &Run,
    periods: &[u32],
    weights: &[u32],
    phases: &[u32],
    map: &mut [u8],
    hits: impl Fn(&Run, Source) -> Vec<i128>,
) -> Reply<()> {
    let sources = judge_map(run, periods, weights, phases, map)?;
    let mut entries: Vec<_> = sources
        .into_iter()
        .map(|(source, weight)| (hits(run, source).into_iter().peekable(), weight))
        .collect();
    for (x, cell) in (0i128..).zip(map) {
        let mut sum: i128 = 0;
        for (hits_left, weight) in &mut entries {
            if hits_left.next_if_eq(&x).is_some() {
                sum += *weight;
            }
        }
        *cell = sum.min(255) as u8;
    }
    Ok(())
}

/// "Adding onto a lent map becomes a call of its own under the old rule" (E6), which is 01's: "the smaller of 255 and old value +
/// weights of all list entries that hit it". `hits` is as above.
pub fn add_to_map(
    run: &Run,
    periods: &[u32],
    weights: &[u32],
    phases: &[u32],
    map: &mut [u8],
    hits: impl Fn(&Run, Source) -> Vec<i128>,
) -> Reply<()> {
    let sources = judge_map(run, periods, weights, phases, map)?;
    let mut sums: Vec<u64> = map.iter().map(|&cell| cell as u64).collect();
    for (source, weight) in sources {
        for x in hits(run, source) {
            sums[x as usize] += weight as u64;
        }
    }
    for (cell, sum) in map.iter_mut().zip(sums) {
        *cell = sum.min(255) as u8;
    }
    Ok(())
}

/// E3: "a guard part of the window (lowest and highest offset)".
#[derive(Clone, Copy, Debug, PartialEq, Eq)]
pub struct Guard {
    pub lowest: i128,
    pub highest: i128,
}

impl Guard {
    /// "20 guard outside the window or upside down": an offset that is none of the window's, or the lowest above the highest.
    fn judge(&self, window: i128) -> Reply<()> {
        let offsets = -window / 2..window / 2;
        let outside = !offsets.contains(&self.lowest) || !offsets.contains(&self.highest);
        refuse_if(outside || self.lowest > self.highest, 20)
    }

    /// Whether a line of these cells has "a guard cell at or above the threshold".
    fn is_reached(&self, line: &[u8], threshold: u8) -> bool {
        let left = -(line.len() as i128) / 2;
        (left..)
            .zip(line)
            .any(|(i, &cell)| self.lowest <= i && i <= self.highest && cell >= threshold)
    }
}

/// "The maximal stretches of consecutive lines that each have a guard cell at or above the threshold", rising: a line goes to
/// the stretch before it, if that ends on the line before, or begins one. The map has the run's cells.
fn stretches(run: &Run, map: &[u8], threshold: u8, guard: &Guard) -> Vec<[u32; 2]> {
    let mut stretches: Vec<[u32; 2]> = Vec::new();
    let lines = (run.first as u32..).zip(map.chunks(run.window as usize));
    for (line, _) in lines.filter(|(_, cells)| guard.is_reached(cells, threshold)) {
        match stretches.last_mut() {
            Some([_, last]) if *last + 1 == line => *last = line,
            _ => stretches.push([line, line]),
        }
    }
    stretches
}

/// The count of the stretches, and what the room then holds: "first and last line as two 32-bit numbers each".
pub fn list_stretches(
    run: &Run,
    map: &[u8],
    threshold: u8,
    guard: &Guard,
    room: &mut [u32],
) -> Reply<usize> {
    run.judge()?;
    refuse_if(threshold == 0, 19)?;
    guard.judge(run.window)?;
    refuse_if(map.len() as i128 != run.cells(), 9)?;
    let stretches = stretches(run, map, threshold, guard);
    refuse_if(room.len() / 2 < stretches.len(), 21)?;
    for (place, &line) in room.iter_mut().zip(stretches.iter().flatten()) {
        *place = line;
    }
    Ok(stretches.len())
}

/// "Check = 1 + sum of (k+1)·byte k for k = 0..507."
pub fn check(block: &[u8]) -> u32 {
    let sum: u64 = (0..508).map(|k| (k as u64 + 1) * block[k] as u64).sum();
    (1 + sum) as u32
}

/// A block: its number, its contents filled up with zeros, its check.
fn block(number: u32, contents: &[u8]) -> Vec<u8> {
    let mut bytes = number.to_le_bytes().to_vec();
    bytes.extend(contents);
    bytes.resize(508, 0);
    bytes.extend(check(&bytes).to_le_bytes());
    bytes
}

/// The file of a run within the limits and its map.
pub fn file_of(run: &Run, map: &[u8]) -> Vec<u8> {
    let mut heading = vec![1, 0, 0, 0];
    for number in [run.window, run.interval, run.first, run.last] {
        heading.extend((number as u32).to_le_bytes());
    }
    let mut file = block(0, &heading);
    for (k, cells) in map.chunks(504).enumerate() {
        file.extend(block(k as u32 + 1, cells));
    }
    file
}

pub fn save(run: &Run, map: &[u8], file: &mut [u8]) -> Reply<()> {
    run.judge()?;
    refuse_if(map.len() as i128 != run.cells(), 9)?;
    let whole = file_of(run, map);
    refuse_if(file.len() != whole.len(), 9)?;
    file.copy_from_slice(&whole);
    Ok(())
}

fn number_at(bytes: &[u8], at: usize) -> u32 {
    u32::from_le_bytes(bytes[at..at + 4].try_into().unwrap())
}

/// "14: wrong block number or check."
fn judge_block(number: usize, block: &[u8]) -> Reply<()> {
    let wrong = number_at(block, 0) != number as u32 || number_at(block, 508) != check(block);
    refuse_if(wrong, 14)
}

fn zeros(bytes: &[u8]) -> bool {
    bytes.iter().all(|&byte| byte == 0)
}

pub fn read(file: &[u8], map: &mut [u8]) -> Reply<Run> {
    refuse_if(file.len() % 512 != 0 || file.is_empty(), 13)?;
    let blocks: Vec<&[u8]> = file.chunks(512).collect();
    judge_block(0, blocks[0])?;
    let laid_down = file[4] == 1 && zeros(&file[5..8]) && zeros(&file[24..508]);
    refuse_if(!laid_down, 15)?;
    let at = |place| number_at(file, place) as i128;
    let run = Run {
        window: at(8),
        interval: at(12),
        first: at(16),
        last: at(20),
    };
    run.judge()?;
    let needed = (run.cells() + 503) / 504 + 1;
    refuse_if(blocks.len() as i128 != needed, 13)?;
    let mut cells: Vec<u8> = Vec::new();
    for (number, block) in blocks.iter().enumerate().skip(1) {
        judge_block(number, block)?;
        let left = (run.cells() as usize - cells.len()).min(504);
        cells.extend(&block[4..4 + left]);
        refuse_if(!zeros(&block[4 + left..508]), 15)?;
    }
    refuse_if(map.len() != cells.len(), 9)?;
    map.copy_from_slice(&cells);
    Ok(run)
}

/// "Decimal numbers up to 4,294,967,295 without sign or leading zeros (0 itself is `0`)."
fn decimal(word: &str) -> Option<i128> {
    let digits = !word.is_empty() && word.bytes().all(|byte| byte.is_ascii_digit());
    let leads = word.len() > 1 && word.starts_with('0');
    if !digits || leads || word.len() > 10 {
        return None;
    }
    word.parse().ok().filter(|&number| number <= 4_294_967_295)
}

/// The numbers of a line that is this keyword and as many numbers as it may have, with single spaces.
fn numbers(line: &str, keyword: &str, counts: RangeInclusive<usize>) -> Option<Vec<i128>> {
    let mut words = line.split(' ');
    if words.next() != Some(keyword) {
        return None;
    }
    let numbers: Option<Vec<i128>> = words.map(decimal).collect();
    numbers.filter(|numbers| counts.contains(&numbers.len()))
}

/// "The text line becomes `src period weight phase`, and a line without it means phase 0."
fn source(line: &str) -> Option<(Source, i128)> {
    let numbers = numbers(line, "src", 2..=3)?;
    let source = Source {
        period: numbers[0],
        phase: numbers.get(2).copied().unwrap_or(0),
    };
    Some((source, numbers[1]))
}

/// What a text of the form says, before any limit is looked at.
fn parse(text: &[u8]) -> Option<(Run, Vec<(Source, i128)>)> {
    if text.len() > 4096 {
        return None;
    }
    let lines = std::str::from_utf8(text).ok()?.strip_suffix('\n')?;
    let mut lines = lines.split('\n');
    let run = numbers(lines.next()?, "run", 4..=4)?;
    let run = Run {
        window: run[0],
        interval: run[1],
        first: run[2],
        last: run[3],
    };
    let sources: Option<Vec<_>> = lines.map(source).collect();
    Some((run, sources?))
}

pub fn read_text(text: &[u8]) -> Reply<(Run, Vec<(Source, i128)>)> {
    let (run, sources) = parse(text).ok_or(Refusal::alone(11))?;
    run.judge()?;
    refuse_if(sources.len() > 64 || run.cells() > 65_536, 12)?;
    judge_sources(&sources)?;
    Ok((run, sources))
}
