//! The claim about loops and rest, held against the original by running: from one module on, where
//! the premises hold from there on; a text for each premise that breaks it alone, and texts that
//! meet them.

use compare::compare::rules::loop_module;
use compare::gen::rng::Rng;
use compare::model::opened::{Node, Opened, Premises, Signal};
use compare::oracle::{self, fields};
use compare::{gen, model};
use std::collections::{BTreeMap, BTreeSet};

/// Opened designs with more signals are passed over.
const SIGNALS: usize = 3_000;

/// What the original reports where it reads fields of signals too.
fn reported(text: &[u8]) -> Vec<String> {
    let rewritten = fields::rewritten(text);
    oracle::check(rewritten.as_deref().unwrap_or(text)).unwrap()
}

/// The modules of which a loop is reported.
fn modules_of_loops(reports: &[String]) -> BTreeSet<usize> {
    reports.iter().filter_map(|r| loop_module(r)).collect()
}

/// The modules of which the original reports a loop where it reads fields of signals too.
fn looped(text: &[u8]) -> BTreeSet<usize> {
    modules_of_loops(&reported(text))
}

/// The same where it does not read them; none where the text has no such field.
fn looped_without_fields(text: &[u8]) -> Option<BTreeSet<usize>> {
    fields::rewritten(text)?;
    Some(modules_of_loops(&oracle::check(text).unwrap()))
}

/// Accepted texts of the generator, each with its design.
fn designs(count: u64) -> impl Iterator<Item = (Vec<u8>, Opened)> {
    let profiles = ["small", "loops", "ties", "dense", "values", "fields"];
    profiles.into_iter().flat_map(move |profile| {
        (0..count).filter_map(move |i| {
            let text = gen::text(profile, 11, i).unwrap();
            let opened = model::opened(&text)?;
            Some((text, opened))
        })
    })
}

/// What the claim needs.
fn enough(p: Premises) -> bool {
    p.not_inside_itself && p.inputs_not_wired && p.outputs_are_ports
}

/// The modules from which on the premises hold, whatever the rest of the text breaks.
fn held(opened: &Opened) -> impl Iterator<Item = usize> + '_ {
    (0..opened.modules()).filter(|&m| enough(opened.premises_from(m)))
}

#[test]
fn a_loop_is_reported_exactly_where_an_opened_design_has_one() {
    let (mut closed, mut open, mut elsewhere) = (0, 0, 0);
    let (mut with_fields, mut through_fields) = (0, 0);
    for (text, opened) in designs(3_000) {
        let looped = looped(&text);
        let broken = !enough(opened.premises());
        let unread = looped_without_fields(&text);
        for m in held(&opened) {
            let Some(signals) = opened.signals(m, SIGNALS) else {
                continue;
            };
            let closes = opened.closes(m, &signals);
            let reported = !looped.is_disjoint(&opened.leads(m));
            let shown = String::from_utf8_lossy(&text);
            assert_eq!(closes, reported, "{m} of {shown}");
            if !opened.inside(m).is_empty() {
                closed += closes as u32;
                open += !closes as u32;
                elsewhere += broken as u32;
            }
            if let Some(unread) = &unread {
                with_fields += 1;
                through_fields += (closes && unread.is_disjoint(&opened.leads(m))) as u32;
            }
        }
    }
    println!(
        "modules with instances: {}, in {closed} a walk closes, in {open} none; \
         {elsewhere} of them in a text that breaks a premise elsewhere; modules of texts with \
         fields of signals: {with_fields}, in {through_fields} walks close only through those",
        closed + open
    );
    assert!(closed > 2_000 && open > 1_000, "{closed} {open}");
    assert!(elsewhere > 300, "{elsewhere}");
    assert!(
        with_fields > 1_000 && through_fields > 50,
        "{with_fields} {through_fields}"
    );
}

#[test]
fn no_loop_report_is_false_whatever_the_premises() {
    let mut reports = 0;
    for (text, opened) in designs(3_000) {
        if enough(opened.premises()) {
            continue;
        }
        for m in looped(&text) {
            let Some(signals) = opened.signals(m, SIGNALS) else {
                continue;
            };
            assert!(
                opened.closes(m, &signals),
                "{m} of {}",
                String::from_utf8_lossy(&text)
            );
            reports += 1;
        }
    }
    println!("modules with a loop report, of texts outside the premises: {reports}");
    assert!(reports > 500, "{reports}");
}

/// A value for each signal.
type State = BTreeMap<Signal, u64>;

/// What a signal's function gives: any number that its reads decide.
fn gives(opened: &Opened, m: usize, state: &State, signal: &Signal) -> u64 {
    let reads = opened.reads(m, signal);
    let seed = reads
        .iter()
        .fold(1, |h: u64, r| h.wrapping_mul(31).wrapping_add(state[r]));
    Rng::new("value", seed, signal.0.len() as u64).below(4)
}

/// One round: all at once, or singly in some order.
fn round(opened: &Opened, m: usize, state: &mut State, r: &mut Rng) {
    let mut order: Vec<Signal> = state.keys().cloned().collect();
    if r.below(2) == 0 {
        let last = state.clone();
        for s in order {
            let v = gives(opened, m, &last, &s);
            state.insert(s, v);
        }
        return;
    }
    r.shuffle(&mut order);
    for s in order {
        let v = gives(opened, m, state, &s);
        state.insert(s, v);
    }
}

/// The states from one start: after as many rounds as there are signals, and after each of three
/// later ones.
fn ends(opened: &Opened, m: usize, signals: &BTreeSet<Signal>, start: u64) -> Vec<State> {
    let mut r = Rng::new("rest", start, m as u64);
    let mut state: State = signals.iter().map(|s| (s.clone(), r.below(4))).collect();
    for _ in 0..signals.len() {
        round(opened, m, &mut state, &mut r);
    }
    let mut ends = vec![state.clone()];
    for _ in 0..3 {
        round(opened, m, &mut state, &mut r);
        ends.push(state.clone());
    }
    ends
}

/// Two starts end in one state, it rests, and it stands after each later round.
#[track_caller]
fn comes_to_rest(opened: &Opened, m: usize, signals: &BTreeSet<Signal>, shown: &str) {
    let ends = [0, 1].map(|start| ends(opened, m, signals, start)).concat();
    let rest = &ends[0];
    let rests = |s: &Signal| rest[s] == gives(opened, m, rest, s);
    assert!(signals.iter().all(rests), "{m} of {shown}");
    assert!(ends.iter().all(|end| end == rest), "{m} of {shown}");
}

#[test]
fn without_a_loop_every_start_ends_in_one_state_at_rest() {
    let (mut rested, mut elsewhere, mut loops_elsewhere, mut with_fields) = (0, 0, 0, 0);
    for (text, opened) in designs(1_500) {
        let looped = looped(&text);
        let broken = !enough(opened.premises());
        for m in held(&opened).filter(|&m| looped.is_disjoint(&opened.leads(m))) {
            let Some(signals) = opened.signals(m, 60) else {
                continue;
            };
            comes_to_rest(&opened, m, &signals, &String::from_utf8_lossy(&text));
            if signals.len() > 4 {
                rested += 1;
                elsewhere += broken as u32;
                loops_elsewhere += !looped.is_empty() as u32;
                with_fields += fields::rewritten(&text).is_some() as u32;
            }
        }
    }
    println!(
        "modules of 5 to 60 signals that come to rest from two starts: {rested}; \
         {elsewhere} of them in a text that breaks a premise elsewhere, \
         {loops_elsewhere} in one with a loop elsewhere, {with_fields} in one with fields of signals"
    );
    assert!(rested > 1_000, "{rested}");
    assert!(elsewhere > 200, "{elsewhere}");
    assert!(loops_elsewhere > 200, "{loops_elsewhere}");
    assert!(with_fields > 100, "{with_fields}");
}

const INSIDE_ITSELF: &str = "\
(module 0 bound)
(kind 1 in)
(kind 2 out)
(kind 4 in)
(kind 5 inst)
(port out 2 bit 10)
(drive (lv 2 20) (all (n 1) (f (n 5) 2)))
(inst 5 - 0 30 (conn 1 (n 4)) (conn 4 (f (n 5) 2)))
";

const WIRED_INPUT: &str = "\
(module 0 bound)
(kind 5 inst)
(inst 5 - 1 10 (conn 2 (f (n 5) 3)))
(module 1 bound)
(kind 1 in)
(kind 2 in)
(kind 3 out)
(port out 3 bit 20)
(wire 1 (n 2) 30)
(drive (lv 3 40) (n 1))
";

const NO_PORT: &str = "\
(module 0 bound)
(kind 5 inst)
(inst 5 - 1 10 (conn 1 (f (n 5) 1)))
(module 1 bound)
(kind 1 in)
";

const ALL: Premises = Premises {
    not_inside_itself: true,
    inputs_not_wired: true,
    registers_not_wired: true,
    inputs_no_ports: true,
    outputs_are_ports: true,
};

/// The original and the model print these reports; the text, as a whole, meets just these premises.
#[track_caller]
fn checked(text: &str, reports: &[&str], premises: Premises) -> Opened {
    assert_eq!(reported(text.as_bytes()), reports);
    let printed: String = reports.iter().map(|r| format!("{r}\n")).collect();
    assert_eq!(model::printed(text.as_bytes()), printed.into_bytes());
    let opened = model::opened(text.as_bytes()).unwrap();
    assert_eq!(opened.premises(), premises);
    opened
}

#[test]
fn a_loop_is_unseen_in_a_module_that_contains_itself() {
    let opened = checked(
        INSIDE_ITSELF,
        &[],
        Premises {
            not_inside_itself: false,
            ..ALL
        },
    );
    assert!(opened.signals(0, SIGNALS).is_none());
    // (u 5 - 2), 2 and (u 5 - 2) of the copy, 2 and 1 of its copy, 4 of the copy
    let out = opened.reads(0, &(vec![0], Node::Sig(4))).remove(0);
    let steps = [
        (vec![], out.1),
        (vec![0], Node::Sig(2)),
        (vec![0], out.1),
        (vec![0, 0], Node::Sig(2)),
        (vec![0, 0], Node::Sig(1)),
        (vec![0], Node::Sig(4)),
        (vec![], out.1),
    ];
    for step in steps.windows(2) {
        assert!(opened.reads(0, &step[0]).contains(&step[1]), "{step:?}");
    }
}

#[test]
fn a_loop_is_unseen_behind_a_wired_input() {
    let opened = checked(
        WIRED_INPUT,
        &[],
        Premises {
            inputs_not_wired: false,
            ..ALL
        },
    );
    assert!(opened.closes(0, &opened.signals(0, SIGNALS).unwrap()));
}

#[test]
fn a_loop_is_unseen_through_a_name_that_is_no_port() {
    let opened = checked(
        NO_PORT,
        &[],
        Premises {
            outputs_are_ports: false,
            ..ALL
        },
    );
    assert!(opened.closes(0, &opened.signals(0, SIGNALS).unwrap()));
}

#[test]
fn a_wired_register_reads() {
    let text = "\
(module 0 bound)
(kind 1 in)
(kind 4 reg)
(wire 4 (n 1) 10)
";
    let opened = checked(
        text,
        &[],
        Premises {
            registers_not_wired: false,
            ..ALL
        },
    );
    let register = (vec![], Node::Sig(4));
    assert_eq!(opened.reads(0, &register).len(), 1);
}

#[test]
fn an_out_port_with_the_name_of_an_input_hides_nothing() {
    let broken = Premises {
        inputs_no_ports: false,
        ..ALL
    };
    let alone = "(module 0 bound)\n(kind 1 in)\n(port out 1 bit 10)\n";
    checked(alone, &["(E0502 0 10 1 never)"], broken);
    let text = "\
(module 0 bound)
(kind 5 inst)
(inst 5 - 1 10 (conn 1 (f (n 5) 1)))
(module 1 bound)
(kind 1 in)
(port out 1 bit 20)
";
    let opened = checked(
        text,
        &[
            "(E0504 0 10 (walk (u 5 - 1) (u 5 - 1)))",
            "(E0502 1 20 1 never)",
        ],
        broken,
    );
    assert!(opened.closes(0, &opened.signals(0, SIGNALS).unwrap()));
}

/// Output 2 reads output 3 of an instance, which reads input 1.
const QUIET_INSTANCE: &str = "\
(module 0 bound)
(kind 1 in)
(kind 2 out)
(kind 5 inst)
(port out 2 bit 10)
(inst 5 - 1 20 (conn 1 (n 1)))
(drive (lv 2 30) (f (n 5) 3))
(module 1 bound)
(kind 1 in)
(kind 3 out)
(port out 3 bit 40)
(drive (lv 3 50) (n 1))
";

/// The same, but the instance's input is connected to output 2.
const LOOPED_INSTANCE: &str = "\
(module 0 bound)
(kind 2 out)
(kind 5 inst)
(port out 2 bit 10)
(inst 5 - 1 20 (conn 1 (n 2)))
(drive (lv 2 30) (f (n 5) 3))
(module 1 bound)
(kind 1 in)
(kind 3 out)
(port out 3 bit 40)
(drive (lv 3 50) (n 1))
";

/// Module 1 contains itself, and module 0 does not lead there.
const BESIDE_ITSELF: &str = "\
(module 0 bound)
(kind 1 in)
(kind 2 out)
(port out 2 bit 10)
(drive (lv 2 20) (n 1))
(module 1 bound)
(kind 5 inst)
(inst 5 - 1 30)
";

/// The signals of the design opened from a module, as text.
fn listed(opened: &Opened, m: usize) -> Vec<String> {
    let signals = opened.signals(m, SIGNALS).unwrap().into_iter();
    signals.map(|(copy, n)| format!("{copy:?} {n}")).collect()
}

/// No walk closes in the design opened from a module, and it comes to rest.
#[track_caller]
fn is_quiet(opened: &Opened, m: usize, text: &str) {
    let signals = opened.signals(m, SIGNALS).unwrap();
    assert!(!opened.closes(m, &signals));
    comes_to_rest(opened, m, &signals, text);
}

#[test]
fn within_all_premises_an_instance_without_a_loop_comes_to_rest() {
    let opened = checked(QUIET_INSTANCE, &[], ALL);
    let signals = ["[] 1", "[] 2", "[] (u 5 - 3)", "[0] 1", "[0] 3"];
    assert_eq!(listed(&opened, 0), signals);
    is_quiet(&opened, 0, QUIET_INSTANCE);
    is_quiet(&opened, 1, QUIET_INSTANCE);
}

#[test]
fn within_all_premises_a_loop_through_an_instance_is_reported() {
    let report = "(E0504 0 20 (walk (u 5 - 3) 2 (u 5 - 3)))";
    let opened = checked(LOOPED_INSTANCE, &[report], ALL);
    assert!(opened.closes(0, &opened.signals(0, SIGNALS).unwrap()));
    is_quiet(&opened, 1, LOOPED_INSTANCE);
}

/// The same text with a field of each thing that is read.
fn with_fields(text: &str) -> String {
    text.replace("(n 1))", "(f (n 1) 7))")
        .replace("(n 2)", "(f (n 2) 8)")
        .replace("(f (n 5) 3)", "(f (f (n 5) 3) 9)")
}

#[test]
fn fields_are_read_as_what_they_are_fields_of() {
    let quiet = with_fields(QUIET_INSTANCE);
    let opened = checked(&quiet, &[], ALL);
    let signals = ["[] 1", "[] 2", "[] (u 5 - 3)", "[0] 1", "[0] 3"];
    assert_eq!(listed(&opened, 0), signals);
    is_quiet(&opened, 0, &quiet);
    let report = "(E0504 0 20 (walk (u 5 - 3) 2 (u 5 - 3)))";
    let opened = checked(&with_fields(LOOPED_INSTANCE), &[report], ALL);
    assert!(opened.closes(0, &opened.signals(0, SIGNALS).unwrap()));
}

/// A loop that the original does not see.
#[test]
fn a_loop_through_a_field_is_reported() {
    let text = "(module 0 bound)\n(kind 3 wire)\n(wire 3 (f (n 3) 1) 10)\n";
    let opened = checked(text, &["(E0504 0 10 (walk 3 3))"], ALL);
    assert!(opened.closes(0, &opened.signals(0, SIGNALS).unwrap()));
    assert_eq!(oracle::check(text.as_bytes()).unwrap(), [""; 0]);
}

#[test]
fn an_index_of_an_instance_is_not_read_and_another_is() {
    let text = "\
(module 0 bound)
(kind 3 wire)
(kind 4 wire)
(kind 5 inst)
(kind 6 wire)
(wire 3 (all (f (ix (n 7) (n 4)) 8) (f (f (ix (n 5) (n 6)) 1) 8) (f (ix (n 5) (if 1 2 (n 6))) 1)) 10)
";
    let opened = checked(text, &[], ALL);
    let reads = opened.reads(0, &(vec![], Node::Sig(3))).into_iter();
    let reads: Vec<String> = reads.map(|(_, node)| node.to_string()).collect();
    assert_eq!(reads, ["4", "(u 5 2 1)"]);
}

#[test]
fn what_a_module_does_not_lead_to_breaks_no_premise_of_it() {
    let broken = Premises {
        not_inside_itself: false,
        ..ALL
    };
    let opened = checked(BESIDE_ITSELF, &[], broken);
    assert_eq!(opened.premises_from(0), ALL);
    assert_eq!(opened.premises_from(1), broken);
    is_quiet(&opened, 0, BESIDE_ITSELF);
}

#[test]
fn an_instance_output_that_nothing_reads_is_a_signal() {
    let text = QUIET_INSTANCE.replace("(f (n 5) 3)", "(n 1)");
    let opened = checked(&text, &[], ALL);
    assert!(listed(&opened, 0).contains(&"[] (u 5 - 3)".to_string()));
}

/// The premises of an accepted text of which no loop is reported, though from module 0, three
/// copies deep at most, a walk closes.
fn unseen(text: &str) -> Option<Premises> {
    let opened = model::opened(text.as_bytes())?;
    if !looped(text.as_bytes()).is_empty() {
        return None;
    }
    let mut found = BTreeSet::new();
    let mut open: Vec<Signal> = (0..6)
        .map(|o| Node::InstOut {
            inst: 5,
            index: None,
            out: o,
        })
        .map(|node| (vec![], node))
        .collect();
    while let Some(s) = open.pop() {
        if s.0.len() < 4 && found.insert(s.clone()) {
            open.extend(opened.reads(0, &s));
        }
    }
    opened.closes(0, &found).then(|| opened.premises())
}

#[test]
fn no_line_of_these_texts_can_be_left_out() {
    for text in [INSIDE_ITSELF, WIRED_INPUT, NO_PORT] {
        let whole = unseen(text).unwrap();
        let lines: Vec<&str> = text.split_inclusive('\n').collect();
        for i in 0..lines.len() {
            let less = [&lines[..i], &lines[i + 1..]].concat().concat();
            assert_ne!(unseen(&less), Some(whole), "{less}");
        }
    }
}
