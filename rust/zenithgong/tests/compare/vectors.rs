use crate::library;
use crate::support::{told, trials, Random};
use reference::{Reply, Steps};
use zenithgong::Vector;

/// One call, held to the reference by 01's conditions.
pub fn compare(p: u32, r: u32, window: u32) -> Reply<Steps> {
    let steps = ours(p, r, window);
    let right = reference::are_steps(p as i128, r as i128, window as i128, &steps);
    assert!(right, "p {} r {} I {}: {:?}", p, r, window, steps);
    steps
}

fn ours(p: u32, r: u32, window: u32) -> Reply<Steps> {
    let pair = |v: Vector| (v.offset as i128, v.line as i128);
    match library::step_vectors(p, r, window) {
        Ok(zenithgong::Steps::Pair(left, right)) => Ok(Steps::Pair(pair(left), pair(right))),
        Ok(zenithgong::Steps::Single(only)) => Ok(Steps::Single(pair(only))),
        Err(refusal) => Err(told(refusal)),
    }
}

#[test]
fn every_small_one() {
    trials("every small period, remainder and window", 1, |_| {
        for p in 0..=24 {
            for r in 0..=p + 1 {
                for window in 0..=p + 3 {
                    let expected = reference::step_vectors(p as i128, r as i128, window as i128);
                    assert_eq!(ours(p, r, window), expected, "p {} r {} I {}", p, r, window);
                }
            }
        }
    });
}

/// A remainder with a share in the period, or any.
fn remainder(random: &mut Random, p: u32) -> u32 {
    match random.below(6) {
        0 => 0,
        1 => p.saturating_sub(random.below(3) as u32),
        2 => p / random.between(1, 3000) * random.between(0, 3000).min(2),
        3 => random.number(),
        _ => random.below(p.max(1) as u64) as u32,
    }
}

#[test]
fn any() {
    trials("any vectors", 250_000, |random| {
        let p = random.number();
        let r = remainder(random, p);
        let window = match random.below(5) {
            0 => random.number(),
            _ => 2 * random.between(1, 2048),
        };
        compare(p, r, window).ok();
    });
}

#[test]
fn longest() {
    trials("vectors of the longest periods", 50_000, |random| {
        let p = 2_147_483_647 - random.below(1000) as u32;
        let r = remainder(random, p).min(p - 1);
        let window = 2 * random.between(1, 2048);
        assert!(compare(p, r, window).is_ok());
    });
}

#[test]
fn with_a_common_factor() {
    trials("vectors with a large common factor", 20_000, |random| {
        let (factor, times) = (random.between(1, 6_000), random.between(1, 10_000));
        let (p, r) = (factor * times, factor * random.below(times as u64) as u32);
        compare(p, r, 2 * random.between(1, 2_048)).ok();
    });
}
