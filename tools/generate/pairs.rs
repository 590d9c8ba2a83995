//! A depot sheet and a plan sheet, fixed by a seed.

use super::damage::damage;
use super::random::Random;
use super::{families, limits, plans};

pub struct Pair {
    pub depot: Vec<u8>,
    pub plan: Vec<u8>,
}

pub fn pair(seed: u64) -> Pair {
    let mut random = Random::from_seed(seed.wrapping_mul(0x2545_f491_4f6c_dd1d));
    let random = &mut random;
    let mut draft = if random.percent(15) { limits::any_limit(random) } else { families::any_depot(random) };
    let mut plan = plans::plan(random, &mut draft);
    if random.percent(14) {
        (0..random.between(1, 3)).for_each(|_| plans::spoil(random, &mut plan));
    }
    let mut pair = Pair { depot: draft.sheet(), plan: plans::sheet(&plan) };
    if random.percent(20) {
        damaged(random, &mut pair.depot);
    }
    if random.percent(8) {
        damaged(random, &mut pair.plan);
    }
    if random.percent(1) {
        lengthen(random, &mut pair.plan, 16_384);
    }
    if random.percent(1) {
        lengthen(random, &mut pair.depot, 32_768);
    }
    pair
}

fn damaged(random: &mut Random, sheet: &mut Vec<u8>) {
    match random.below(40) {
        0 => sheet.clear(),
        1 => *sheet = b"\n".to_vec(),
        2..=29 => damage(random, sheet),
        _ => (0..random.between(2, 4)).for_each(|_| damage(random, sheet)),
    }
}

/// Adds lines that mean nothing until a sheet has as many bytes as it may, or one more.
fn lengthen(random: &mut Random, sheet: &mut Vec<u8>, limit: usize) {
    let length = limit + random.below(2);
    while sheet.len() < length {
        let line: &[u8] = if random.percent(50) { b"Z\tz\n" } else { b"zzzzzzzz\tz\n" };
        sheet.extend(&line[..line.len().min(length - sheet.len())]);
    }
}
