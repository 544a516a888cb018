//! Compares the Rust oracle and this, call by call, in one process. oracle/compare builds and runs it.
//! usage: compare lists FILE | writes FILE | slots FILE | rates FILE | large CALLS | refusals LISTS
//! FILE has scripts of the trial's language, a form feed between two; `writes` also writes any bits between the calls, and `slots` has
//! entries and free places name other slots, `rates` new rates between the calls.
#![allow(dead_code, unused_parens)]
mod both;
mod group;
mod key;
mod large;
mod lines;
mod questions;
mod refusals;
mod report;
mod rules;
mod shed;
mod standin;
mod steps;
mod store;
mod tables;
mod tankpost;
mod units;
use both::Both;
use steps::{Random, Step};
use std::fmt::Write;

const UNITS: [usize; 12] = [1, 2, 3, 7, 40, 100, 256, 300, 1_000, 4_000, 16_384, 131_072];
const COUNTED: [usize; 8] = [2, 3, 5, 17, 65, 200, 1_000, 4_097];

struct List {
    units: usize,
    counted: usize,
    steps: Vec<Step>,
    any_bits: Option<u64>,
    any_slots: bool,
}

/// The place of the first difference seen and what it is.
fn run(list: &List, stride: Option<usize>) -> Result<(), (usize, String)> {
    let mut both = Both::new(list.units, list.counted, stride, list.any_bits, list.any_slots);
    for (i, step) in list.steps.iter().enumerate() {
        both.step(step).map_err(|text| (i, text))?;
    }
    both.same_all(usize::MAX).map_err(|text| (list.steps.len() - 1, text))
}

/// A difference is sought again with all compared at each step; the list up to it goes into a file.
fn must_agree(name: &str, list: &List, stride: Option<usize>) {
    let Err((last, text)) = run(list, stride) else { return };
    let shorter = List { steps: list.steps[..=last].to_vec(), ..*list };
    let (i, text) = run(&shorter, Some(1)).err().unwrap_or((last, text));
    let mut all = format!("{} units, {} counted\n", list.units, list.counted);
    for step in &list.steps[..=i] {
        writeln!(all, "{step:x?}").unwrap();
    }
    std::fs::write("difference.txt", all).unwrap();
    println!("{name} differs at step {i}, {:x?}: {}", list.steps[i], text.chars().take(2_000).collect::<String>());
    println!("the list up to there is in difference.txt");
    std::process::exit(1);
}

#[derive(Clone, Copy, PartialEq)]
enum Kind {
    Calls,
    Writes,
    Slots,
    Rates,
}

/// The calls of a script, with what the kind writes between them: how many are calls.
fn steps_of(script: &[u8], kind: Kind, random: &mut Random) -> (usize, Vec<Step>) {
    let mut steps = steps::of_lines(script, random);
    if kind == Kind::Rates {
        steps = steps::with_rates(steps, random);
    }
    let calls = steps.len();
    if kind == Kind::Writes || (matches!(kind, Kind::Slots | Kind::Rates) && random.below(2) == 0) {
        steps = steps::with_writes(steps, random);
    }
    if kind == Kind::Slots {
        steps = steps::with_slots(steps, random);
    }
    (calls, steps)
}

fn lists(file: &str, kind: Kind) {
    let text = std::fs::read(file).unwrap();
    let any_slots = kind == Kind::Slots;
    // where any slot is named all is compared at each step, in stores that allow it
    let (rooms, stride) = if any_slots { (&UNITS[..10], Some(1)) } else { (&UNITS[..], None) };
    let (mut count, mut calls, mut written, mut changes) = (0, 0, 0, 0);
    for (i, script) in text.split(|b| *b == 12).enumerate() {
        let mut random = Random(i as u64 + ((kind as u64) << 32));
        let (made, steps) = steps_of(script, kind, &mut random);
        (calls, written) = (calls + made, written + steps.len() - made);
        changes += steps.iter().filter(|s| matches!(s, Step::Rates(..))).count();
        let (units, counted) = (random.one(rooms), random.one(&COUNTED));
        let any_bits = (i % 2 == 1).then(|| random.word());
        must_agree(&format!("list {i}"), &List { units, counted, steps, any_bits, any_slots }, stride);
        count += 1;
    }
    let slots = if any_slots { format!(" {};", store::met()) } else { String::new() };
    println!("{count} lists, {calls} calls, {changes} of them new rates, {written} writes: no difference;{slots} {}", rules::met());
}

fn main() {
    let args: Vec<String> = std::env::args().collect();
    match args[1].as_str() {
        "lists" => lists(&args[2], Kind::Calls),
        "writes" => lists(&args[2], Kind::Writes),
        "slots" => lists(&args[2], Kind::Slots),
        "rates" => lists(&args[2], Kind::Rates),
        "large" => {
            let steps = large::list(args[2].parse().unwrap());
            let list = List { units: large::UNITS, counted: large::COUNTED, steps, any_bits: Some(1), any_slots: false };
            must_agree("the large list", &list, None);
            println!("1 list of {} units and {} counted records, {} calls: no difference; {}", list.units, list.counted, list.steps.len(), rules::met());
        }
        "refusals" => match refusals::run(args[2].parse().unwrap()) {
            Ok(made) => println!("{} lists of refusals, calls by number (0: not refused) {made:?}: no difference", args[2]),
            Err(text) => {
                println!("{text}");
                std::process::exit(1);
            }
        },
        other => panic!("no such list: {other}"),
    }
}
