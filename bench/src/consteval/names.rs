//! Name tables, in the archive's form and as a list for the others.

use super::archive::biased;
use compare::gen::rng::Rng;

/// Pairs of a name and its value, the newest last.
pub struct Names {
    pub pairs: Vec<(u32, i32)>,
    /// The archive's form: the pairs, and more numbers that do not count.
    pub flat: Vec<u32>,
    /// How many pairs count for the archive, if it has that many.
    pub used: usize,
}

/// Values that a table gives often.
const ENDS: [i32; 12] = [
    i32::MIN,
    i32::MIN + 1,
    -65_536,
    -2,
    -1,
    0,
    1,
    2,
    5,
    65_536,
    i32::MAX - 1,
    i32::MAX,
];

impl Names {
    /// Up to 12 pairs of names below `bound`, so that some names come twice, and places that do not
    /// count: pairs past the last, half a pair, or a `used` past the end.
    pub fn random(rng: &mut Rng, bound: u64) -> Names {
        let count = rng.below(13) as usize;
        let pairs: Vec<(u32, i32)> = (0..count)
            .map(|_| (rng.below(bound) as u32, value(rng)))
            .collect();
        let mut flat = flattened(&pairs);
        let mut used = count;
        match rng.below(4) {
            0 => flat.extend((0..rng.below(9)).map(|_| rng.below(bound) as u32)),
            1 => used += rng.below(3) as usize,
            2 => {
                flat.push(rng.below(bound) as u32);
                used += rng.below(2) as usize * (usize::MAX / 2);
            }
            _ => {}
        }
        Names { pairs, flat, used }
    }

    /// Just these pairs.
    pub fn of(pairs: &[(u32, i32)]) -> Names {
        Names {
            pairs: pairs.to_vec(),
            flat: flattened(pairs),
            used: pairs.len(),
        }
    }

    /// The newest value of a name.
    pub fn get(&self, name: u32) -> Option<i32> {
        let newest = self.pairs.iter().rev().find(|pair| pair.0 == name)?;
        Some(newest.1)
    }
}

fn flattened(pairs: &[(u32, i32)]) -> Vec<u32> {
    pairs.iter().flat_map(|p| [p.0, biased(p.1)]).collect()
}

fn value(rng: &mut Rng) -> i32 {
    match rng.below(4) {
        0 => rng.pick(&ENDS),
        1 => rng.draw() as i32,
        _ => rng.range(-40, 40) as i32,
    }
}
