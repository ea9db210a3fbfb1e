//! The archive `bench_c` on grids and on random expressions: the same answer as exact
//! arithmetic everywhere, and as the original but for the differences that are stated; an answer on
//! any bytes.

use bench::consteval::exact::{Exact, Met};
use bench::consteval::make::{Maker, MOODS};
use bench::consteval::names::Names;
use bench::consteval::tree::{Op, Tree};
use bench::consteval::{archive, inside, original, read, Answer, DEPTH, INT_MAX, INT_MIN};
use compare::gen::rng::Rng;
use std::collections::{BTreeMap, BTreeSet};

const EXPRESSIONS: u64 = 100_000;
const DAMAGED: u64 = 30_000;
const DEEPEST: u64 = 30;
const SEED: u64 = 1;

/// Bytes that a text of the format has at most.
const LONGEST: usize = 32_768;

/// Names come from these, so that some come twice in a table.
const NAME_BOUND: u64 = 20;

/// What was compared, by what came out.
#[derive(Debug, Default)]
struct Counts {
    inside_with_value: u64,
    inside_without_value: u64,
    outside: u64,
    /// Of `outside`, by what the original gives in the end, which is not compared.
    outside_at_the_end: u64,
    outside_then_inside_again: u64,
    outside_then_without_value: u64,
    /// Not outside, since the part that is outside is not evaluated.
    outside_part_not_evaluated: u64,
    /// Not outside, and `shr` of a positive number by 0 was evaluated.
    shr_by_zero_other_answer: u64,
    shr_by_zero_same_answer: u64,
    shr_by_zero_then_outside_there: u64,
    value_at_an_end_of_int: u64,
    name_known: u64,
    name_unknown: u64,
    name_twice_in_table: u64,
    field_index_or_all: u64,
    nested_25_or_more: u64,
    nested_30: u64,
}

impl Counts {
    fn listed(&self) -> [(&'static str, u64); 17] {
        [
            (
                "inside INT, a value: archive = exact, and = original but for the next three",
                self.inside_with_value,
            ),
            (
                "inside INT, no value: archive = exact, and = original but for the next three",
                self.inside_without_value,
            ),
            (
                "  of both, shr of a positive number by 0, which ends in another answer of the original",
                self.shr_by_zero_other_answer,
            ),
            (
                "  of both, shr of a positive number by 0, which ends in the same answer",
                self.shr_by_zero_same_answer,
            ),
            (
                "  of both, shr of a positive number by 0, and then the original goes outside INT",
                self.shr_by_zero_then_outside_there,
            ),
            ("a part outside INT: archive = exact", self.outside),
            (
                "  of them, the original ends outside INT",
                self.outside_at_the_end,
            ),
            (
                "  of them, the original ends inside INT",
                self.outside_then_inside_again,
            ),
            (
                "  of them, the original ends without a value",
                self.outside_then_without_value,
            ),
            (
                "not outside, but a part not evaluated would be",
                self.outside_part_not_evaluated,
            ),
            ("the value is an end of INT", self.value_at_an_end_of_int),
            ("a known name in it", self.name_known),
            ("an unknown name in it", self.name_unknown),
            (
                "a name in it that is twice in the table",
                self.name_twice_in_table,
            ),
            ("f, ix or all in it", self.field_index_or_all),
            ("nested 25 or more", self.nested_25_or_more),
            ("nested 30", self.nested_30),
        ]
    }

    /// Prints the counts and fails where one is 0.
    fn show(&self) {
        for (class, count) in self.listed() {
            println!("{count:>8}  {class}");
        }
        for (class, count) in self.listed() {
            assert!(count > 0, "nothing was compared: {class}");
        }
    }

    fn add_tree(&mut self, tree: &Tree, names: &Names) {
        let has = |test: &dyn Fn(&Tree) -> bool| u64::from(tree.any(&mut |t| test(t)));
        let uses = |t: &Tree| match t {
            Tree::Name(n) => Some(names.pairs.iter().filter(|pair| pair.0 == *n).count()),
            _ => None,
        };
        self.name_known += has(&|t| uses(t) > Some(0));
        self.name_unknown += has(&|t| uses(t) == Some(0));
        self.name_twice_in_table += has(&|t| uses(t) > Some(1));
        self.field_index_or_all += has(&without_value);
        self.nested_25_or_more += u64::from(tree.nesting() >= 25);
        self.nested_30 += u64::from(tree.nesting() == 30);
    }

    fn add_answer(&mut self, tree: &Tree, names: &Names, answer: Answer, original: Answer) {
        match answer {
            Answer::Known(v) => {
                self.inside_with_value += 1;
                let end = v == i64::from(i32::MIN) || v == i64::from(i32::MAX);
                self.value_at_an_end_of_int += u64::from(end);
            }
            Answer::Missing => self.inside_without_value += 1,
            Answer::Outside => return self.add_outside(original),
        }
        let mut exact = Exact::default();
        let outside = tree.any(&mut |part| exact.eval(part, names) == Answer::Outside);
        self.outside_part_not_evaluated += u64::from(outside);
    }

    /// `theirs` is outside where its `shr` by 0 took a later part outside INT.
    fn add_shr_by_zero(&mut self, wanted: Answer, theirs: Answer) {
        match theirs {
            Answer::Outside => self.shr_by_zero_then_outside_there += 1,
            _ if theirs == wanted => self.shr_by_zero_same_answer += 1,
            _ => self.shr_by_zero_other_answer += 1,
        }
    }

    fn add_outside(&mut self, original: Answer) {
        self.outside += 1;
        match original {
            Answer::Known(_) => self.outside_then_inside_again += 1,
            Answer::Missing => self.outside_then_without_value += 1,
            Answer::Outside => self.outside_at_the_end += 1,
        }
    }
}

fn without_value(t: &Tree) -> bool {
    matches!(t, Tree::Field(..) | Tree::Apply(Op::Ix | Op::All, _))
}

/// An expression and a table; they depend on the number alone.
fn case(profile: &str, i: u64) -> (Tree, Names) {
    let mut rng = Rng::new(profile, SEED, i);
    let names = Names::random(&mut rng, NAME_BOUND);
    let depth = rng.below(DEEPEST + 1) as u32;
    let mood = MOODS[(i % MOODS.len() as u64) as usize];
    let mut maker = Maker {
        rng: &mut rng,
        names: &names,
        mood,
        ops: &Op::ALL,
    };
    (maker.spine(depth), names)
}

/// The archive's answer with the format's depth, which is also that with the least depth.
fn archive_answer(tree: &Tree, bytes: &[u8], names: &Names) -> Result<Answer, u64> {
    let answer = archive::eval(bytes, DEPTH, &names.flat, names.used);
    let least = archive::eval(bytes, tree.nesting(), &names.flat, names.used);
    assert_eq!(answer, least, "{}", String::from_utf8_lossy(bytes));
    answer
}

/// The answer that the archive and exact arithmetic give alike, and the original's.
fn both_answers(exact: &mut Exact, tree: &Tree, names: &Names) -> (Answer, Answer) {
    let bytes = tree.bytes();
    let shown = || format!("{} {:?}", String::from_utf8_lossy(&bytes), names.pairs);
    let wanted = exact.eval(tree, names);
    let answer = archive_answer(tree, &bytes, names);
    assert_eq!(answer, Ok(wanted), "{}", shown());
    let syntax = read::expr(&bytes).unwrap_or_else(|e| panic!("{}: {e}", shown()));
    (wanted, original::eval(&syntax, &original::env(names)))
}

/// The original is held against exact arithmetic with its own `shr` by 0, as long as that stays
/// inside INT; where no positive number is shifted by 0 that is exact arithmetic itself.
#[test]
fn random_expressions() {
    let (mut counts, mut exact) = (Counts::default(), Exact::default());
    for i in 0..EXPRESSIONS {
        let (tree, names) = case("eval", i);
        let shown = || format!("{i}: {} {:?}", tree.shown(), names.pairs);
        let before = exact.met(Met::ShrByZero);
        let (wanted, original) = both_answers(&mut exact, &tree, &names);
        let by_zero = exact.met(Met::ShrByZero) > before;
        let theirs = match by_zero {
            true => Exact::as_original().eval(&tree, &names),
            false => wanted,
        };
        if theirs != Answer::Outside {
            assert_eq!(original, theirs, "{}", shown());
        }
        if by_zero && wanted != Answer::Outside {
            counts.add_shr_by_zero(wanted, theirs);
        }
        counts.add_tree(&tree, &names);
        counts.add_answer(&tree, &names, wanted, original);
    }
    println!("{EXPRESSIONS:>8}  expressions");
    counts.show();
    show_operators(&exact);
    show_met(&exact);
}

/// How often evaluations came by what is special about shifts; each at least once.
fn show_met(exact: &Exact) {
    for what in Met::ALL {
        println!("{:>8}  times {}", exact.met(what), what.words());
    }
    assert!(Met::ALL.iter().all(|what| exact.met(*what) > 0));
}

/// How often each operator had all its operands; each at least once.
fn show_operators(exact: &Exact) {
    for (op, done) in Op::ALL.iter().zip(&exact.done) {
        println!("{done:>8}  times {} had its operands", op.word());
    }
    assert!(exact.done.iter().all(|done| *done > 0));
}

/// Where the original has another answer, and why; `Same` where it has not.
#[derive(Clone, Copy, Debug, PartialEq, Eq, PartialOrd, Ord)]
enum Class {
    Same,
    /// `shr` of a positive number by 0: here it stays, there its top bit is taken for a sign.
    ShrByZero,
    /// `shl` of a number other than 0 past the width limit: outside here, no value there.
    ShlTooWide,
    /// A part is outside INT, and the original goes on with it.
    PartOutside,
    /// A shift amount is outside INT, and the original rejects or takes it.
    AmountOutside,
    /// A shift amount is past 128 bits, of which the original takes the lowest.
    AmountPast128,
    /// The argument of `clog2` is outside INT.
    Clog2Outside,
}

/// What a grid held: expressions of each class and kind of answer here.
#[derive(Default)]
struct Held(BTreeMap<(Class, &'static str), u64>);

impl Held {
    /// Holds an expression whose answers here and there are foretold.
    fn hold(&mut self, tree: &Tree, names: &Names, class: Class, ours: Answer, theirs: Answer) {
        let shown = || format!("{} {:?}", tree.shown(), names.pairs);
        let got = both_answers(&mut Exact::default(), tree, names);
        assert_eq!(got, (ours, theirs), "{}", shown());
        assert_eq!(
            ours == theirs,
            class == Class::Same,
            "{class:?} {}",
            shown()
        );
        *self.0.entry((class, kind(ours))).or_default() += 1;
    }

    /// Prints the counts and fails where one of these classes has none, or another one some.
    fn show(&self, title: &str, classes: &[Class]) {
        println!("{title}: {} expressions", self.0.values().sum::<u64>());
        for ((class, kind), count) in &self.0 {
            println!("{count:>8}  {class:?}, here {kind}");
        }
        let held: BTreeSet<Class> = self.0.keys().map(|(class, _)| *class).collect();
        assert_eq!(held, classes.iter().copied().collect(), "{title}");
    }
}

fn kind(answer: Answer) -> &'static str {
    match answer {
        Answer::Known(_) => "a value",
        Answer::Missing => "no value",
        Answer::Outside => "outside",
    }
}

/// Operands of the grids: 0, around each power of two, and INT's ends.
fn operands() -> BTreeSet<i128> {
    let around = |k: u32| [(1 << k) - 1, 1 << k, (1 << k) + 1];
    let sizes = (0..=30).flat_map(around).chain([0, INT_MAX - 1, INT_MAX]);
    sizes.flat_map(|v| [v, -v]).chain([INT_MIN]).collect()
}

/// Shift amounts of the grids: around 0, INT's width, limbs of the original and its width limit.
fn amounts() -> Vec<i128> {
    let first = [INT_MIN, -1, 0, 1, 2, 3];
    let widths = (29..=33).chain([63, 64, 127, 128]);
    let limit = (999_967..=1_000_001).chain([INT_MAX]);
    first.into_iter().chain(widths).chain(limit).collect()
}

/// z * 2^e, rounded down, as the last result of an evaluation; e may be negative.
fn scaled(z: i128, e: i128) -> Answer {
    let v = match e {
        0.. if z == 0 => 0,
        0..=32 => z << e,
        33.. => return Answer::Outside,
        _ => z >> e.unsigned_abs().min(127),
    };
    match inside(v) {
        true => Answer::Known(v as i64),
        false => Answer::Outside,
    }
}

/// What the scope says of a shift of z by n, both inside INT.
fn our_shift(op: Op, z: i128, n: i128) -> Answer {
    match op {
        _ if n < 0 => Answer::Missing,
        Op::Shr => scaled(z, -n),
        _ if z == 0 && n >= 999_999 => Answer::Missing,
        _ => scaled(z, n),
    }
}

/// What the original gives for a shift of z by n, n below 2^32.
fn their_shift(op: Op, z: i128, n: i128) -> Answer {
    match op {
        _ if n < 0 => Answer::Missing,
        Op::Shr if n == 0 => scaled(original::shr_by_zero(z), 0),
        Op::Shr => scaled(z, -n),
        _ if original::too_wide(z, n) => Answer::Missing,
        _ => scaled(z, n),
    }
}

fn shift_class(op: Op, z: i128, n: i128) -> Class {
    match op {
        Op::Shr if z > 0 && n == 0 => Class::ShrByZero,
        Op::Shl if z != 0 && n >= 0 && original::too_wide(z, n) => Class::ShlTooWide,
        _ => Class::Same,
    }
}

fn apply(op: Op, parts: &[&Tree]) -> Tree {
    Tree::Apply(op, parts.iter().map(|part| (*part).clone()).collect())
}

/// The operator on two values, each as a form and as a name.
fn spellings(op: Op, l: i128, r: i128) -> (Vec<Tree>, Names) {
    let names = Names::of(&[(0, 9), (1, 9), (0, l as i32), (1, r as i32)]);
    let (lefts, rights) = (
        [Tree::spelled(l), Tree::Name(0)],
        [Tree::spelled(r), Tree::Name(1)],
    );
    let pairs = lefts
        .iter()
        .flat_map(|left| rights.iter().map(move |right| [left, right]));
    (pairs.map(|pair| apply(op, &pair)).collect(), names)
}

#[test]
fn shifts_on_a_grid() {
    let mut held = Held::default();
    for op in [Op::Shl, Op::Shr] {
        for (z, n) in pairs(&operands(), &amounts()) {
            let (trees, names) = spellings(op, z, n);
            let (ours, theirs) = (our_shift(op, z, n), their_shift(op, z, n));
            for tree in trees {
                held.hold(&tree, &names, shift_class(op, z, n), ours, theirs);
            }
        }
    }
    let classes = [Class::Same, Class::ShrByZero, Class::ShlTooWide];
    held.show("shifts", &classes);
}

fn pairs<'a>(
    left: impl IntoIterator<Item = &'a i128> + Copy,
    right: impl IntoIterator<Item = &'a i128> + Copy,
) -> Vec<(i128, i128)> {
    let beside = |l: &'a i128| right.into_iter().map(|r| (*l, *r));
    left.into_iter().flat_map(beside).collect()
}

/// The bits of both put together one by one, with the sign of each going on for ever.
fn bitwise(op: Op, l: i128, r: i128) -> i128 {
    if [0, -1].contains(&l) && [0, -1].contains(&r) {
        return -i128::from(bit(op, l != 0, r != 0));
    }
    let (low_l, low_r) = (l.rem_euclid(2), r.rem_euclid(2));
    let rest = bitwise(op, (l - low_l) / 2, (r - low_r) / 2);
    2 * rest + i128::from(bit(op, low_l == 1, low_r == 1))
}

fn bit(op: Op, l: bool, r: bool) -> bool {
    match op {
        Op::Band => l && r,
        Op::Bor => l || r,
        _ => l != r,
    }
}

#[test]
fn bit_operators_on_a_grid() {
    let mut held = Held::default();
    for op in [Op::Band, Op::Bor, Op::Bxor] {
        for (l, r) in pairs(&operands(), &operands()) {
            let (trees, names) = spellings(op, l, r);
            let answer = Answer::Known(bitwise(op, l, r) as i64);
            for tree in trees {
                held.hold(&tree, &names, Class::Same, answer, answer);
            }
        }
    }
    held.show("bit operators", &[Class::Same]);
}

/// `shl` and then `shr`: what leaves INT is outside here, and in the original it can come back.
#[test]
fn shifts_there_and_back() {
    let mut held = Held::default();
    for (z, n) in pairs(&operands(), &amounts()) {
        let backs: BTreeSet<i128> = [0, 1, 38, n - 31, n - 1, n, n + 1].into();
        for m in backs.into_iter().filter(|m| (0..=INT_MAX).contains(m)) {
            let shifted = apply(Op::Shl, &[&Tree::spelled(z), &Tree::spelled(n)]);
            let tree = apply(Op::Shr, &[&shifted, &Tree::spelled(m)]);
            let ours = match our_shift(Op::Shl, z, n) {
                Answer::Known(v) => our_shift(Op::Shr, v.into(), m),
                gone => gone,
            };
            let (class, theirs) = there_and_back(z, n, m, ours);
            held.hold(&tree, &Names::of(&[]), class, ours, theirs);
        }
    }
    let classes = [
        Class::Same,
        Class::ShrByZero,
        Class::ShlTooWide,
        Class::PartOutside,
    ];
    held.show("shl and then shr", &classes);
}

/// What the original gives for `shl` of z by n and then `shr` by m >= 0.
fn there_and_back(z: i128, n: i128, m: i128, ours: Answer) -> (Class, Answer) {
    let class = shift_class(Op::Shl, z, n);
    if class == Class::ShlTooWide || n < 0 || original::too_wide(z, n) {
        return (class, Answer::Missing);
    }
    // By 0 it takes the top bit of z * 2^n, which is that of z, for a sign.
    let theirs = match m {
        0 => scaled(original::shr_by_zero(z), n),
        _ => scaled(z, n - m),
    };
    let class = match ours {
        _ if ours == theirs => Class::Same,
        Answer::Outside => Class::PartOutside,
        _ => shift_class(Op::Shr, z, m),
    };
    (class, theirs)
}

/// Amounts outside INT, and what the original takes them for: it looks at the lowest 128 bits, and
/// rejects what is negative or from 2^32 on.
fn amounts_outside() -> Vec<(Tree, Class, i128)> {
    let number = |v: i128| Tree::spelled(v);
    let power = |n: i128| apply(Op::Shl, &[&number(1), &number(n)]);
    let sum = |a: &Tree, v: i128| apply(Op::Add, &[a, &number(v)]);
    let square = apply(Op::Mul, &[&number(65_536), &number(65_536)]);
    let (outside, past) = (Class::AmountOutside, Class::AmountPast128);
    vec![
        (sum(&number(INT_MAX), 1), outside, 1 << 31),
        (sum(&square, -1), outside, (1 << 32) - 1),
        (square, outside, -1),
        (sum(&number(-INT_MAX), -2), outside, -1),
        (power(127), outside, -1),
        (power(128), past, 0),
        (sum(&power(128), 1), past, 1),
        (sum(&power(128), 31), past, 31),
        (sum(&power(128), -1), outside, -1),
        (power(999_967), past, 0),
        (apply(Op::Neg, &[&power(128)]), outside, -1),
    ]
}

#[test]
fn shift_amounts_outside_int() {
    let mut held = Held::default();
    for op in [Op::Shl, Op::Shr] {
        for z in operands() {
            for (amount, class, taken) in amounts_outside() {
                let tree = apply(op, &[&Tree::spelled(z), &amount]);
                let theirs = their_shift(op, z, taken);
                let class = match theirs {
                    Answer::Outside => Class::Same,
                    _ => class,
                };
                held.hold(&tree, &Names::of(&[]), class, Answer::Outside, theirs);
            }
        }
    }
    let classes = [Class::Same, Class::AmountOutside, Class::AmountPast128];
    held.show("shift amounts outside INT", &classes);
}

/// `clog2` of 2^k and of 2^k + 1: the original takes what is outside INT too, of its lowest 128 bits.
#[test]
fn clog2_of_powers() {
    let mut held = Held::default();
    for (k, more) in (0..=130).flat_map(|k| [(k, 0), (k, 1)]) {
        let power = apply(Op::Shl, &[&Tree::spelled(1), &Tree::spelled(k)]);
        let sum = apply(Op::Add, &[&power, &Tree::spelled(more)]);
        let tree = apply(Op::Clog2, &[&sum]);
        let bits = Answer::Known((k + more).max(1) as i64);
        let (class, ours, theirs) = match k {
            0..=30 => (Class::Same, bits, bits),
            31..=127 => (Class::Clog2Outside, Answer::Outside, bits),
            _ => (Class::Clog2Outside, Answer::Outside, Answer::Known(1)),
        };
        held.hold(&tree, &Names::of(&[]), class, ours, theirs);
    }
    held.show("clog2 of powers", &[Class::Same, Class::Clog2Outside]);
}

/// Answers that the scope states, and the ends of INT. The original gives them too, but for those of
/// `APART`.
#[test]
fn stated_answers() -> Result<(), String> {
    let names = Names::of(&[(0, i32::MIN), (1, i32::MAX), (2, 9), (2, 5)]);
    let known = Answer::Known;
    let cases = [
        ("(clog2 1)", known(1)),
        ("(clog2 2)", known(1)),
        ("(clog2 5)", known(3)),
        ("(clog2 2147483647)", known(31)),
        ("(clog2 0)", Answer::Missing),
        ("(clog2 (n 0))", Answer::Missing),
        ("(n 0)", known(-2_147_483_648)),
        ("(n 1)", known(2_147_483_647)),
        ("(n 2)", known(5)),
        ("(n 3)", Answer::Missing),
        ("2147483647", known(2_147_483_647)),
        ("2147483648", Answer::Outside),
        ("(neg (n 0))", Answer::Outside),
        ("(neg 2147483647)", known(-2_147_483_647)),
        ("(sub (neg 2147483647) 1)", known(-2_147_483_648)),
        ("(sub (neg 2147483647) 2)", Answer::Outside),
        ("(add 2147483647 1)", Answer::Outside),
        ("(mul (n 0) (n 0))", Answer::Outside),
        ("(mul (n 0) (neg 1))", Answer::Outside),
        ("(mul 65536 (neg 32768))", known(-2_147_483_648)),
        ("(and 0 (n 3))", Answer::Missing),
        ("(or 1 (n 3))", Answer::Missing),
        ("(add (n 3) (neg (n 0)))", Answer::Missing),
        ("(if 2 7 (neg (n 0)))", known(7)),
        ("(if 0 (n 3) 8)", known(8)),
        ("(if (n 3) 7 8)", Answer::Missing),
        ("(f 1 2)", Answer::Missing),
        ("(ix (neg (n 0)) 2)", Answer::Missing),
        ("(all)", Answer::Missing),
        // The bit operators, on two's complement without an end.
        ("(band 12 10)", known(8)),
        ("(bor 12 10)", known(14)),
        ("(bxor 12 10)", known(6)),
        ("(band (neg 1) 12)", known(12)),
        ("(band (neg 8) (neg 3))", known(-8)),
        ("(bor (neg 8) 3)", known(-5)),
        ("(bxor (neg 1) 5)", known(-6)),
        ("(band (n 0) (n 1))", known(0)),
        ("(bor (n 0) (n 1))", known(-1)),
        ("(bxor (n 0) (n 1))", known(-1)),
        ("(bxor (n 0) (n 0))", known(0)),
        ("(band 0 (n 3))", Answer::Missing),
        ("(bor (n 3) (neg (n 0)))", Answer::Missing),
        // `shl`.
        ("(shl 1 12)", known(4096)),
        ("(shl 5 0)", known(5)),
        ("(shl 1 30)", known(1_073_741_824)),
        ("(shl 1 31)", Answer::Outside),
        ("(shl (neg 1) 31)", known(-2_147_483_648)),
        ("(shl (neg 1) 32)", Answer::Outside),
        ("(shl (n 0) 1)", Answer::Outside),
        ("(shl 1 999998)", Answer::Outside),
        ("(shl 0 999998)", known(0)),
        ("(shl 0 999999)", Answer::Missing),
        ("(shl 0 2147483647)", Answer::Missing),
        // `shr`, rounded towards minus infinity.
        ("(shr 5 1)", known(2)),
        ("(shr (neg 5) 1)", known(-3)),
        ("(shr (neg 5) 0)", known(-5)),
        ("(shr 0 0)", known(0)),
        ("(shr (neg 1) 2147483647)", known(-1)),
        ("(shr (n 0) 30)", known(-2)),
        ("(shr (n 0) 31)", known(-1)),
        ("(shr (n 1) 30)", known(1)),
        ("(shr (n 1) 31)", known(0)),
        ("(shr 0 2147483647)", known(0)),
        // A negative amount is rejected, of 0 too; a missing operand ends it before the next.
        ("(shl 1 (neg 1))", Answer::Missing),
        ("(shr 1 (neg 1))", Answer::Missing),
        ("(shl 0 (neg 1))", Answer::Missing),
        ("(shr 0 (neg 1))", Answer::Missing),
        ("(shr 0 (n 0))", Answer::Missing),
        ("(shl (n 3) (neg 1))", Answer::Missing),
        ("(shl (n 3) (add 2147483647 1))", Answer::Missing),
        ("(shr (n 3) (mul 65536 65536))", Answer::Missing),
        ("(shl 1 (n 3))", Answer::Missing),
        ("(shr 0 (n 3))", Answer::Missing),
        ("(if 1 2 (shl 1 40))", known(2)),
        ("(if (shl 0 999999) 1 2)", Answer::Missing),
    ];
    for (text, wanted) in cases {
        assert_eq!(stated(text, &names)?, (wanted, wanted), "{text}");
    }
    for (text, wanted, theirs) in APART {
        assert_eq!(stated(text, &names)?, (wanted, theirs), "{text}");
        assert_ne!(wanted, theirs, "{text}");
    }
    println!("{:>8}  stated answers", cases.len() + APART.len());
    Ok(())
}

/// The archive's answer and the original's.
fn stated(text: &str, names: &Names) -> Result<(Answer, Answer), String> {
    let answer = archive::eval(text.as_bytes(), DEPTH, &names.flat, names.used);
    let syntax = read::expr(text.as_bytes())?;
    let theirs = original::eval(&syntax, &original::env(names));
    let answer = answer.map_err(|code| format!("{text}: the code {code} means nothing"))?;
    Ok((answer, theirs))
}

/// Stated answers of which the original has others: those behind.
const APART: [(&str, Answer, Answer); 19] = [
    ("(or 1 (neg (n 0)))", Answer::Outside, Answer::Known(1)),
    ("(add (neg (n 0)) (n 3))", Answer::Outside, Answer::Missing),
    ("(clog2 (add (n 1) 1))", Answer::Outside, Answer::Known(31)),
    ("(clog2 (shl 1 31))", Answer::Outside, Answer::Known(31)),
    ("(band 0 (neg (n 0)))", Answer::Outside, Answer::Known(0)),
    // Both operands before anything is rejected.
    (
        "(shl (add 2147483647 1) (neg 1))",
        Answer::Outside,
        Answer::Missing,
    ),
    (
        "(shr (add 2147483647 1) (neg 1))",
        Answer::Outside,
        Answer::Missing,
    ),
    ("(shl (neg (n 0)) (n 3))", Answer::Outside, Answer::Missing),
    // An amount outside INT, and one past 128 bits.
    (
        "(shr 0 (mul 65536 65536))",
        Answer::Outside,
        Answer::Missing,
    ),
    (
        "(shl 0 (mul 65536 65536))",
        Answer::Outside,
        Answer::Missing,
    ),
    (
        "(shr 5 (add 2147483647 1))",
        Answer::Outside,
        Answer::Known(0),
    ),
    ("(shl 5 (shl 1 128))", Answer::Outside, Answer::Known(5)),
    ("(shr 5 (shl 1 128))", Answer::Outside, Answer::Known(-3)),
    // A number other than 0 past the width limit, and a result that comes back.
    ("(shl 1 999999)", Answer::Outside, Answer::Missing),
    ("(shl (neg 1) 2147483647)", Answer::Outside, Answer::Missing),
    ("(shr (shl 1 40) 38)", Answer::Outside, Answer::Known(4)),
    // A positive number by 0.
    ("(shr 1 0)", Answer::Known(1), Answer::Known(-1)),
    ("(shr 5 0)", Answer::Known(5), Answer::Known(-3)),
    (
        "(shr (n 1) 0)",
        Answer::Known(2_147_483_647),
        Answer::Known(-1),
    ),
];

/// Pieces of which damaged expressions are made.
const PIECES: [&[u8]; 25] = [
    b"(",
    b")",
    b" ",
    b"(",
    b")",
    b" ",
    b"add",
    b"(if ",
    b"(neg ",
    b"(n ",
    b"clog2",
    b"(shl ",
    b"(shr ",
    b"band",
    b"(bor ",
    b"bxor",
    b"true",
    b"0",
    b"7",
    b"(all",
    b"(f ",
    b"4294967296",
    b"-1",
    b"\n",
    b"\xff",
];

/// Any bytes, pieces in any order, or an expression with a few bytes changed, lost or doubled.
fn damaged(i: u64) -> Vec<u8> {
    let mut rng = Rng::new("damaged", SEED, i);
    match i % 3 {
        0 => (0..rng.below(400)).map(|_| rng.draw() as u8).collect(),
        1 => (0..rng.below(200))
            .flat_map(|_| rng.pick(&PIECES).to_vec())
            .collect(),
        _ => changed(&mut rng, case("damaged", i).0.bytes()),
    }
}

fn changed(rng: &mut Rng, mut bytes: Vec<u8>) -> Vec<u8> {
    for _ in 0..=rng.below(4) {
        let at = rng.below(bytes.len() as u64) as usize;
        match rng.below(4) {
            0 => bytes.truncate(at),
            1 => bytes.insert(at, rng.pick(b"() 0n\x00")),
            2 => drop(bytes.drain(at..at.saturating_add(2).min(bytes.len()))),
            _ => bytes.extend_from_within(at..),
        }
    }
    bytes
}

fn any_depth(rng: &mut Rng) -> u32 {
    match rng.below(3) {
        0 => rng.below(4) as u32,
        1 => rng.below(40) as u32,
        _ => rng.draw() as u32,
    }
}

/// An answer on any bytes, at any depth, over any table; what lies behind the slices is not read.
#[test]
fn damaged_bytes() {
    let (mut known, mut missing, mut outside, mut longest) = (0, 0, 0, 0);
    for i in 0..DAMAGED {
        let bytes = damaged(i);
        longest = longest.max(bytes.len());
        let mut rng = Rng::new("tables", SEED, i);
        let depth = any_depth(&mut rng);
        let names: Vec<u32> = (0..rng.below(9)).map(|_| rng.below(300) as u32).collect();
        let used = rng.draw() as usize >> rng.below(64);
        let answer = |behind: &[u8]| {
            let longer = [&bytes[..], behind].concat();
            let more: Vec<u32> = names
                .iter()
                .copied()
                .chain(behind.iter().map(|b| u32::from(*b)))
                .collect();
            archive::eval(&longer[..bytes.len()], depth, &more[..names.len()], used)
        };
        let first = answer(b"");
        assert_eq!(first, answer(b"(add 1 1) 77)))"), "{i}: {bytes:?} {depth}");
        assert_eq!(first, answer(b")0"), "{i}: {bytes:?} {depth}");
        match first {
            Ok(Answer::Known(_)) => known += 1,
            Ok(Answer::Missing) => missing += 1,
            Ok(Answer::Outside) => outside += 1,
            Err(code) => panic!("{i}: the code {code} means nothing: {bytes:?} {depth}"),
        }
    }
    println!("{DAMAGED:>8}  damaged, to {longest} bytes, at any depth");
    println!("{known:>8}  with a value, {missing} without, {outside} outside INT");
    assert!(known > 0 && missing > 0 && outside > 0);
}

/// As long as a text of the format can be, and as deep: one piece again and again.
#[test]
fn long_bytes() {
    let mut done = 0;
    for (k, piece) in PIECES.iter().enumerate() {
        for depth in [0, 1, 2, 31, DEPTH] {
            let bytes: Vec<u8> = piece.iter().copied().cycle().take(LONGEST - k).collect();
            let answer = archive::eval(&bytes, depth, &[], 0);
            assert!(answer.is_ok(), "{k} {depth}: {answer:?}");
            done += 1;
        }
    }
    println!("{done:>8}  damaged, about {LONGEST} bytes, to depth {DEPTH}");
}
