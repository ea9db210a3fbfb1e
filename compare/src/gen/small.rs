//! `small`: one to three modules with every form, names that fit and names that do not.

use super::expr::Pool;
use super::maker::{Maker, Weights};
use super::plan::{Kind, Mod, Starts};
use super::rng::Rng;

/// Port out, port in, wire, reg, mem, const, drive, on, inst, repeat, constif.
const WEIGHTS: Weights = [14, 4, 16, 8, 5, 7, 20, 9, 8, 7, 6];
/// `blocks` has mostly regs, mems and blocks.
const BLOCK_WEIGHTS: Weights = [2, 1, 2, 16, 12, 2, 6, 46, 1, 9, 5];
/// Names 0 to 9 get a kind, most of them.
const NAMES: u32 = 10;
const LITERALS: [u64; 14] = [0, 0, 1, 1, 2, 3, 3, 4, 5, 7, 8, 9, 15, 4096];

pub fn small(r: Rng) -> String {
    design(r, &WEIGHTS)
}

pub fn blocks(mut r: Rng) -> String {
    let mut mods = plan(&mut r);
    for m in &mut mods {
        more_state(&mut r, m);
    }
    let starts = Starts::Few(2 + r.below(5));
    write(r, starts, &mods, &BLOCK_WEIGHTS, 9)
}

fn design(mut r: Rng, weights: &Weights) -> String {
    let most = r.pick(&[5, 9, 14]);
    let mods = plan(&mut r);
    let starts = match r.weighted(&[70, 22, 8]) {
        0 => Starts::fresh(&mut r),
        1 => Starts::Few(12),
        _ => Starts::Any,
    };
    write(r, starts, &mods, weights, most)
}

fn write(r: Rng, starts: Starts, mods: &[Mod], weights: &Weights, most: i64) -> String {
    let vars = vec![20, 21, 22];
    let mut m = Maker {
        r,
        starts,
        mods,
        me: 0,
        pool: Pool::default(),
        vars,
    };
    let any = any_names(&mut m.r);
    let mut out = String::new();
    for (k, plan) in mods.iter().enumerate() {
        out.push_str(&plan.header(k, &mut m.r));
        m.enter(k, &any, &LITERALS);
        for _ in 0..m.r.range(0, most) {
            out.push_str(&m.item(weights, 2));
            out.push('\n');
        }
    }
    out
}

/// The names in play: few, so that they meet, and now and then the last.
fn any_names(r: &mut Rng) -> Vec<u32> {
    let mut names: Vec<u32> = (0..NAMES).collect();
    names.extend([20, 21, 22, 255]);
    names.truncate(6 + r.below(9) as usize);
    names
}

fn plan(r: &mut Rng) -> Vec<Mod> {
    let count = r.weighted(&[2, 50, 30, 18]);
    (0..count).map(|_| plan_module(r)).collect()
}

fn plan_module(r: &mut Rng) -> Mod {
    let mut kinds = Vec::new();
    let mut vals = Vec::new();
    for name in 0..NAMES {
        if r.chance(80) {
            kinds.push((name, some_kind(r)));
        }
        if r.chance(10) {
            vals.push((name, some_value(r)));
        }
    }
    for name in [20, 21, 22, 254, 255] {
        if r.chance(12) {
            kinds.push((name, some_kind(r)));
        }
        if r.chance(12) {
            vals.push((name, some_value(r)));
        }
    }
    if r.chance(20) && !vals.is_empty() {
        let again = (r.pick(&vals).0, some_value(r));
        vals.push(again);
    }
    Mod {
        bound: r.chance(72),
        kinds,
        vals,
    }
}

fn some_kind(r: &mut Rng) -> Kind {
    Kind::ALL[r.weighted(&[18, 26, 24, 14, 8, 10])]
}

fn some_value(r: &mut Rng) -> i64 {
    match r.weighted(&[70, 12, 12, 3, 3]) {
        0 => r.range(0, 8),
        1 => r.range(-4, -1),
        2 => r.pick(&[4095, 4096, 4097, 100]),
        3 => 2_147_483_647,
        _ => -2_147_483_648,
    }
}

/// Turns most names into regs and mems.
fn more_state(r: &mut Rng, m: &mut Mod) {
    for (_, kind) in &mut m.kinds {
        let keep = if matches!(kind, Kind::Out | Kind::Wire) {
            15
        } else {
            50
        };
        if !r.chance(keep) {
            *kind = if r.chance(60) { Kind::Reg } else { Kind::Mem };
        }
    }
}
