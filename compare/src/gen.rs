//! The seeded generator of texts, and the stored vectors.
//!
//! Text `i` of a profile depends on the profile, the seed and `i` alone.

mod bits;
mod damaged;
mod dense;
mod expr;
mod fields;
pub mod limits;
mod loops;
mod maker;
mod plan;
pub mod refusals;
pub mod rng;
mod rounds;
mod sites;
mod small;
mod values;
pub mod vectors;

use rng::Rng;

/// The profiles, in the order in which `gen --list` names them:
///
/// - `small`: every form, names that fit and names that do not
/// - `sites`: outputs driven in many parts
/// - `blocks`: regs, mems and blocks
/// - `loops`: loops within modules and through instances
/// - `ties`: the same with few STARTs
/// - `values`: constants, each shown by a report
/// - `limits`: each limit and one past it
/// - `damaged`: texts of the others with something wrong in them
/// - `dense`: a few names that everything shares; repeats around the rounds that are left
/// - `bits`: shifts and bit operators, in two texts of three in constant places too
/// - `fields`: fields of signals, of instance outputs and of other forms in every place that is read
pub const PROFILES: &[&str] = &[
    "small", "sites", "blocks", "loops", "ties", "values", "limits", "damaged", "dense", "bits",
    "fields",
];

/// Text `i` of a profile under a seed; none where there is no such profile.
pub fn text(profile: &str, seed: u64, i: u64) -> Option<Vec<u8>> {
    let r = Rng::new(profile, seed, i);
    let text = match profile {
        "small" => small::small(r),
        "sites" => sites::sites(r),
        "blocks" => small::blocks(r),
        "loops" => loops::loops(r),
        "ties" => loops::ties(r),
        "values" => values::values(r),
        "limits" => limits::limits(r, i),
        "dense" => dense::dense(r),
        "bits" => bits::bits(r, i),
        "fields" => fields::fields(r, i),
        "damaged" => return Some(damage_one(r, seed, i)),
        _ => return None,
    };
    Some(text.into_bytes())
}

/// A text of another profile, damaged.
fn damage_one(mut r: Rng, seed: u64, i: u64) -> Vec<u8> {
    let from = r.weighted(&[40, 12, 14, 16, 6, 10, 2]);
    let whole = text(PROFILES[from], seed, i).unwrap_or_default();
    damaged::damage(r, whole)
}
