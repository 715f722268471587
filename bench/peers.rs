//! The same walk and the same blanking list in plain, safe Rust.

#[repr(C)]
#[derive(Clone, Copy)]
pub struct Run {
    window: u32,
    interval: u32,
    first: u32,
    last: u32,
}

/// A source, less its weight: it has an edge at its phase, and whole periods before and after it.
#[repr(C)]
#[derive(Clone, Copy)]
pub struct Source {
    period: u32,
    phase: u32,
}

#[repr(C)]
#[derive(Clone, Copy)]
pub struct Vector {
    offset: i64,
    line: u64,
}

/// Two vectors, or one and zeros.
#[repr(C)]
pub struct Pair {
    left: Vector,
    right: Vector,
}

/// The pair of step vectors of a window no wider than the period, or the single one.
fn vectors(period: u32, remainder: u32, window: u32) -> Pair {
    let (mut n, mut m, mut b, mut c, mut right) = (period, remainder, 0u64, 1u64, true);
    while m >= window {
        (n, m, b, c, right) = (m, n % m, c, b + (n / m) as u64 * c, !right);
    }
    if m == 0 {
        return Pair { left: Vector { offset: 0, line: c }, right: Vector { offset: 0, line: 0 } };
    }
    let turns = (n - window) / m + 1;
    let size = n as i64 - turns as i64 * m as i64;
    let lines = b + turns as u64 * c;
    if right {
        Pair { left: Vector { offset: -size, line: lines }, right: Vector { offset: m as i64, line: c } }
    } else {
        Pair { left: Vector { offset: -(m as i64), line: c }, right: Vector { offset: size, line: lines } }
    }
}

#[derive(Clone, Copy)]
struct Step {
    offset: i64,
    cells: u64,
}

/// What the walk goes by: how far each step leads, and where it may be taken.
struct Plan {
    left: Step,
    right: Step,
    low: i64,
    high: i64,
}

fn plan(run: Run, period: u32) -> Plan {
    let width = period.min(run.window);
    let pair = vectors(period, run.interval % period, width);
    let right = if pair.right.line == 0 { pair.left } else { pair.right };
    let step = |v: Vector| Step { offset: v.offset, cells: (v.line as i64 * run.window as i64 + v.offset) as u64 };
    let edge = -(run.window as i64 / 2);
    Plan { left: step(pair.left), right: step(right), low: edge - pair.left.offset, high: edge + width as i64 - right.offset }
}

impl Plan {
    /// The first hit of the next line that has one.
    fn next(&self, i: i64, x: u64) -> (i64, u64) {
        if i >= self.low {
            (i + self.left.offset, x + self.left.cells)
        } else if i < self.high {
            (i + self.right.offset, x + self.right.cells)
        } else {
            (i + self.left.offset + self.right.offset, x + self.left.cells + self.right.cells)
        }
    }
}

/// The first hit on a line or a later one, or a number past the run's cells; d is the source's distance on that line.
fn seek(run: Run, period: u32, mut line: u64, mut d: u32) -> u64 {
    let window = run.window;
    let (mut n, mut m, mut b, mut c, mut right) = (period, run.interval % period, 0u64, 1u64, true);
    while line <= run.last as u64 && d >= window && m != 0 {
        if d >= m && right {
            let turns = (n - d - 1) / m + 1;
            d = (d as u64 + turns as u64 * m as u64 - n as u64) as u32;
            line += turns as u64 * c + b;
        } else if d >= m {
            let turns = (d - m.max(window)) / m + 1;
            d -= turns * m;
            line += turns as u64 * c;
        }
        (n, m, b, c, right) = (m, n % m, c, b + (n / m) as u64 * c, !right);
    }
    if d < window {
        (line - run.first as u64) * window as u64 + d as u64
    } else {
        u64::MAX
    }
}

/// How far right of the window's left edge a source's first edge on a line is; it may lie past the window.
fn distance(run: Run, source: Source, line: u64) -> u32 {
    let lacking = source.period - source.phase;
    ((run.interval as u64 * line + run.window as u64 / 2 + lacking as u64) % source.period as u64) as u32
}

/// The first hit not below a cell, or the number of cells.
fn first_hit(run: Run, source: Source, start: u64) -> u64 {
    let (window, period) = (run.window as u64, source.period);
    let (row, from) = (start / window, start % window);
    let line = run.first as u64 + row;
    let d = distance(run, source, line);
    let at = from + (d as u64 + (period as u64 - from % period as u64)) % period as u64;
    if at < window {
        return row * window + at;
    }
    let next = ((d as u64 + (run.interval % period) as u64) % period as u64) as u32;
    seek(run, period, line + 1, next).min(cells(run))
}

fn cells(run: Run) -> u64 {
    run.window as u64 * (run.last - run.first + 1) as u64
}

fn add_rows(run: Run, source: Source, weight: u8, map: &mut [u8]) {
    let period = source.period as usize;
    let mut start = distance(run, source, run.first as u64) as usize;
    let by = run.interval as usize % period;
    for line in map.chunks_exact_mut(run.window as usize) {
        let mut x = start;
        while let Some(cell) = line.get_mut(x) {
            *cell = cell.saturating_add(weight);
            x += period;
        }
        start += by;
        if start >= period {
            start -= period;
        }
    }
}

fn add_hits(run: Run, source: Source, weight: u8, map: &mut [u8]) {
    let plan = plan(run, source.period);
    let first = run.first as u64;
    let mut x = seek(run, source.period, first, distance(run, source, first));
    let mut i = (x % run.window as u64) as i64 - run.window as i64 / 2;
    while let Some(cell) = map.get_mut(x as usize) {
        *cell = cell.saturating_add(weight);
        (i, x) = plan.next(i, x);
    }
}

/// The hits not below a cell into the room, their number, and the first that did not fit or the number of cells.
fn list(run: Run, source: Source, start: u64, room: &mut [u64]) -> (usize, u64) {
    let period = source.period;
    let plan = plan(run, period);
    let (all, window, half) = (cells(run), run.window as u64, run.window as i64 / 2);
    let mut cell = first_hit(run, source, start);
    let from = cell % window;
    let mut x = cell - from + from % period as u64;
    let mut i = (from % period as u64) as i64 - half;
    let mut n = 0;
    while cell < all {
        let end = x - (i + half) as u64 + window;
        while cell < end {
            let Some(slot) = room.get_mut(n) else {
                return (n, cell);
            };
            *slot = cell;
            n += 1;
            cell += period as u64;
        }
        (i, x) = plan.next(i, x);
        cell = x;
    }
    (n, all)
}

/// What a blanking list goes by: a threshold, and the lowest and the highest offset of the guard.
#[repr(C)]
#[derive(Clone, Copy)]
pub struct Guard {
    threshold: u8,
    lowest: i64,
    highest: i64,
}

/// The stretches of blanked lines into the room, and how many they are. They are counted first: if there are too many, none is
/// written.
fn blank(run: Run, guard: Guard, map: &[u8], room: &mut [u32]) -> usize {
    let half = (run.window / 2) as i64;
    let (from, to) = ((guard.lowest + half) as usize, (guard.highest + half) as usize);
    let is_blanked = |line: &[u8]| line[from..=to].iter().any(|&cell| cell >= guard.threshold);
    let lines = || map.chunks_exact(run.window as usize).map(is_blanked);
    let (mut count, mut before) = (0, false);
    for blanked in lines() {
        if blanked && !before {
            count += 1;
        }
        before = blanked;
    }
    if room.len() / 2 < count {
        return count;
    }
    let mut places = room.iter_mut();
    before = false;
    for (line, blanked) in (run.first..).zip(lines()) {
        if blanked != before {
            *places.next().unwrap() = if blanked { line } else { line - 1 };
        }
        before = blanked;
    }
    if before {
        *places.next().unwrap() = run.last;
    }
    count
}

#[no_mangle]
pub extern "C" fn rust_vectors(period: u32, remainder: u32, window: u32) -> Pair {
    vectors(period, remainder, window)
}

#[no_mangle]
pub extern "C" fn rust_first_hit(run: Run, source: Source, start: u64) -> u64 {
    first_hit(run, source, start)
}

/// # Safety
/// The room has `length` numbers, and `next` is one.
#[no_mangle]
pub unsafe extern "C" fn rust_list(run: Run, source: Source, start: u64, room: *mut u64, length: usize, next: *mut u64) -> usize {
    let (n, after) = list(run, source, start, std::slice::from_raw_parts_mut(room, length));
    *next = after;
    n
}

/// # Safety
/// The lists have `n` numbers and the map the run's cells.
#[no_mangle]
pub unsafe extern "C" fn rust_walk(run: Run, periods: *const u32, weights: *const u32, phases: *const u32, n: usize, map: *mut u8) {
    let cells = run.window as usize * (run.last - run.first + 1) as usize;
    let of = |numbers| std::slice::from_raw_parts(numbers, n);
    let map = std::slice::from_raw_parts_mut(map, cells);
    for ((&period, &weight), &phase) in of(periods).iter().zip(of(weights)).zip(of(phases)) {
        let source = Source { period, phase };
        if period < run.window {
            add_rows(run, source, weight as u8, map);
        } else {
            add_hits(run, source, weight as u8, map);
        }
    }
}

/// # Safety
/// The map has the run's cells, the guard lies in its window, and the room has `length` numbers.
#[no_mangle]
pub unsafe extern "C" fn rust_blank(run: Run, guard: Guard, map: *const u8, room: *mut u32, length: usize) -> usize {
    let map = std::slice::from_raw_parts(map, cells(run) as usize);
    blank(run, guard, map, std::slice::from_raw_parts_mut(room, length))
}
