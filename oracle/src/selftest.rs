//! Shows that the checks find faults: plants them one at a time and expects each to be told.
use crate::faults::{self, Fault, Shape};
use crate::merge::list::run as merged_lists;
use crate::merge::run as merges;
use crate::tally::{self, Found};
use crate::{comparisons, fusing, lists, matrix, number};
use std::collections::BTreeMap;
use std::panic::{catch_unwind, resume_unwind, AssertUnwindSafe};
use std::rc::Rc;

/// A call, and a run that compares it.
struct Topic {
    shape: Shape,
    run: Rc<dyn Fn() -> u64>,
}

/// Every call, each with fewer cases than the quick form has.
fn topics() -> Vec<Topic> {
    let mut all = Vec::new();
    let mut add = |shapes: Vec<Shape>, run: Rc<dyn Fn() -> u64>| {
        all.extend(shapes.into_iter().map(|shape| Topic { shape, run: run.clone() }));
    };
    for (name, run) in number::calls() {
        add(vec![number::shape(name)], Rc::new(move || run(10_000)));
    }
    for (group, call) in matrix::calls() {
        let count = ((group.count)(false, (call.sides)().len()) / 8).clamp(4, 40);
        add(vec![matrix::shape(call)], Rc::new(move || matrix::run_call(group, call, count)));
    }
    add(vec![comparisons::shape()], Rc::new(|| comparisons::run(2)));
    add(vec![fusing::run::shape()], Rc::new(|| fusing::run::run(2)));
    let few = lists::Amount { each: 1, damaged: 40, random: 10_000, refused_writes: 10_000, all_short: false };
    add(lists::shapes().into(), Rc::new(move || lists::run(&few)));
    add(merges::shapes().into(), Rc::new(|| merges::run(5_000, false)));
    add(vec![merged_lists::shape()], Rc::new(|| merged_lists::run(6_000, false)));
    all
}

/// Whether a run tells a difference.
fn tells(run: &dyn Fn() -> u64) -> bool {
    match catch_unwind(AssertUnwindSafe(run)) {
        Ok(differences) => differences != 0,
        Err(reason) if reason.is::<Found>() => true,
        Err(reason) => resume_unwind(reason),
    }
}

/// The fault's name without its places.
fn kind(fault: Fault) -> String {
    format!("{fault:?}").chars().take_while(|c| c.is_alphabetic()).collect()
}

/// Plants every fault in every call, and answers how many were not told. A call that differs without a fault is one, too.
pub fn run() -> u64 {
    tally::stop_at_the_first_difference();
    let topics = topics();
    let mut missed = 0;
    let mut kinds: BTreeMap<String, (u64, u64)> = BTreeMap::new();
    for topic in &topics {
        let name = topic.shape.name;
        if tells(&*topic.run) {
            println!("selftest: {name} differs without a fault");
            missed += 1;
        }
        for fault in faults::all(&topic.shape) {
            faults::set(Some((name, fault)));
            let found = tells(&*topic.run);
            faults::set(None);
            let (of, all) = kinds.entry(kind(fault)).or_default();
            *of += u64::from(found);
            *all += 1;
            if !found {
                println!("selftest: {name}: not found: {fault:?}");
                missed += 1;
            }
        }
    }
    let of: Vec<String> = kinds.iter().map(|(kind, (found, all))| format!("{kind} {found} of {all}")).collect();
    println!("selftest: {}", of.join(", "));
    let (found, all) = kinds.values().fold((0, 0), |(a, b), (found, all)| (a + found, b + all));
    println!("selftest: {found} of {all} planted faults found, in {} calls", topics.len());
    missed
}
