//! Document 01's trial program over the oracle: lines on standard input, answers on standard output.
//! --units N, --kept N: the capacities (256 and 64). --hash: each line is a label; prints its table and its hash >> 11.
//! --met: behind the answer to each judgement that is taken, a line of what it met (see `Met`).
#![allow(dead_code, unused_parens)]
mod group;
mod key;
mod lines;
mod report;
mod shed;
mod standin;
mod tables;
use lines::Line;
use shed::{Cause, Cost, Rates, Shedder, Unit};
use std::io::{Read, Write};
use std::sync::atomic::Ordering;

const MOST: u64 = 1 << 40;
const STAMP: u64 = (1 << 53) - 1;
const REPORT: usize = 4_096;

fn refused(n: u64) -> String {
    format!("refused {n}\n")
}

fn start(s: &mut Option<Shedder>, n: [u64; 4]) -> String {
    let unbounded = n[0] == u64::MAX && n[1] == u64::MAX;
    if !unbounded && !n[..2].iter().all(|r| (1..=MOST).contains(r)) {
        return refused(1);
    }
    let rates = |r, b| Rates { receptions_per_s: r, bytes_per_s: b };
    *s = Some(Shedder::new(rates(n[0], n[1]), rates(n[2], n[3])));
    "started\n".to_owned()
}

/// What a judgement meets: the levels' bits, and of the record that it uses whether that is its own and there already (`found`),
/// its own (`added`) or overflow's, the fresh mark and the stamp. Behind them, from after it, the bits of the attempted sums.
struct Met {
    levels: [u64; 2],
    record: &'static str,
    fresh: u64,
    at_ms: u64,
}

fn used(s: &Shedder, u: Unit) -> [u64; 6] {
    s.use_words(u).unwrap_or_else(|| s.head_words()[13..19].try_into().unwrap())
}

fn met(s: &Shedder, u: Unit) -> Met {
    let head = s.head_words();
    let levels = [head[31], head[32]];
    let room = u != Unit::Overflow && (head[39] as usize) < standin::UNITS_TRACKED.load(Ordering::Relaxed);
    let words = used(s, u);
    match s.use_words(u) {
        None if room => Met { levels, record: "added", fresh: 1, at_ms: 0 },
        found => Met { levels, record: if found.is_some() { "found" } else { "overflow" }, fresh: words[5], at_ms: words[4] },
    }
}

fn met_line(m: &Met, after: [u64; 6]) -> String {
    let [a, b] = m.levels;
    format!("met {a} {b} {} {} {} {} {}\n", m.record, m.fresh, m.at_ms, after[0], after[1])
}

fn answer(s: &mut Option<Shedder>, line: Line, says_met: bool) -> String {
    if let Line::Start(n) = line {
        return start(s, n);
    }
    let Some(s) = s else {
        return refused(8);
    };
    let costly = |c: [u64; 2]| c.iter().any(|x| *x > MOST);
    let cost = |c: [u64; 2]| Cost { receptions: c[0], bytes: c[1] };
    match line {
        Line::Judge(_, c, _) | Line::Cut(_, _, c) if costly(c) => refused(5),
        Line::Judge(_, _, t) if t > STAMP => refused(6),
        Line::Judge(u, c, t) => {
            let m = met(s, u);
            let told = match s.judge(u, cost(c), t) {
                Ok(()) => "ok\n",
                Err(Cause::ReceiverCeiling) => "receiver-ceiling\n",
                Err(Cause::OverShare) => "over-share\n",
                Err(Cause::RelayRate) => "relay-rate\n",
            };
            told.to_owned() + &if says_met { met_line(&m, used(s, u)) } else { String::new() }
        }
        Line::Cut(u, cause, c) => {
            s.cut(u, cause, cost(c));
            "counted\n".to_owned()
        }
        _ => {
            let text = report::text_of(&s.report());
            if text.len() > REPORT { refused(7) } else { text }
        }
    }
}

fn hash(line: &[u8]) -> String {
    match lines::unit(line) {
        Some(u) => format!("{} {:x}\n", Shedder::table_of_unit(u), Shedder::hash53_of_unit(u)),
        None => "bad\n".to_owned(),
    }
}

fn main() {
    let args: Vec<String> = std::env::args().collect();
    for (name, size) in [("--units", &standin::UNITS_TRACKED), ("--kept", &standin::SOURCES_COUNTED)] {
        if let Some(i) = args.iter().position(|a| a == name) {
            size.store(args[i + 1].parse().unwrap(), Ordering::Relaxed);
        }
    }
    let [hashes, says_met] = ["--hash", "--met"].map(|name| args.iter().any(|a| a == name));
    let mut input = Vec::new();
    std::io::stdin().read_to_end(&mut input).unwrap();
    let mut all: Vec<&[u8]> = input.split(|b| *b == b'\n').collect();
    if all.last().is_some_and(|l| l.is_empty()) {
        all.pop();
    }
    let mut shed = None;
    let mut out = String::new();
    for bytes in all {
        out += &match lines::line(bytes) {
            _ if hashes => hash(bytes),
            Some(line) => answer(&mut shed, line, says_met),
            None => refused(8),
        };
    }
    std::io::stdout().write_all(out.as_bytes()).unwrap();
}
