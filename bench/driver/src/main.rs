//! Times `judge` and the report of the original Rust and of this, in one process, on the same sequence, and prints a table.
//! With the word `churn` it times senders that come and go instead, with the word `visits` the visits of one table.
#![allow(dead_code, unused_parens)]
mod churn;
mod group;
mod key;
mod report;
mod shed;
mod tankpost;
mod visits;
use group::Group;
use key::PublicKey;
use report::text_of;
use shed::{Cause, Cost, Rates, Unit};
use std::hint::black_box;
use tankpost::{Verdict, Words};

const SOURCES: usize = 4_096;

extern "C" {
    fn clock_gettime(clock: i32, at: *mut [i64; 2]) -> i32;
}

/// The nanoseconds of processor time that the thread has used (Linux's clock 3).
fn used() -> f64 {
    let mut at = [0; 2];
    assert_eq!(unsafe { clock_gettime(3, &mut at) }, 0);
    at[0] as f64 * 1e9 + at[1] as f64
}

/// A linear congruential generator (Knuth's MMIX constants); the high bits are used.
struct Lcg(u64);

impl Lcg {
    fn below(&mut self, n: u64) -> u64 {
        self.0 = self.0.wrapping_mul(6364136223846793005).wrapping_add(1442695040888963407);
        ((u128::from(self.0) * u128::from(n)) >> 64) as u64
    }
}

/// Every second sender is a key, the others are V6 groups.
fn sender(i: usize, lcg: &mut Lcg) -> (Unit, Words) {
    if i % 2 == 1 {
        let words = Words { kind: 2, a: i as u64, ..Words::default() };
        return (Unit::Group(Some(Group::V6(i as u32))), words);
    }
    let w: [u64; 4] = std::array::from_fn(|_| lcg.below(u64::MAX));
    let mut key = [0; 32];
    for (bytes, word) in key.chunks_mut(8).zip(w) {
        bytes.copy_from_slice(&word.to_be_bytes());
    }
    let words = Words { kind: 0, a: w[0], b: w[1], c: w[2], d: w[3] };
    (Unit::Corroborated(PublicKey(key)), words)
}

struct Call {
    sender: usize,
    cost: [u64; 2],
    stamp: u64,
}

/// Senders that each send about one batch a second: 1 to 4 receptions, 100 to 1,000 bytes.
struct Calls {
    lcg: Lcg,
    senders: usize,
    made: u64,
}

impl Calls {
    fn next(&mut self, sender: usize) -> Call {
        self.made += 1;
        let cost = [1 + self.lcg.below(4), 100 + self.lcg.below(901)];
        Call { sender, cost, stamp: 1_000 + self.made * 1_000 / self.senders as u64 }
    }

    /// Each sender once, so that all are tracked.
    fn each(&mut self) -> Vec<Call> {
        (0..self.senders).map(|i| self.next(i)).collect()
    }

    fn some(&mut self, n: usize) -> Vec<Call> {
        (0..n)
            .map(|_| {
                let i = self.lcg.below(self.senders as u64) as usize;
                self.next(i)
            })
            .collect()
    }
}

fn rust_run(s: &shed::Shedder, units: &[Unit], calls: &[Call]) -> u64 {
    let mut admitted = 0;
    for c in calls {
        let cost = Cost { receptions: c.cost[0], bytes: c.cost[1] };
        admitted += u64::from(s.judge(units[c.sender], cost, c.stamp).is_ok());
    }
    admitted
}

fn here_run(s: &mut tankpost::Shedder, words: &[Words], calls: &[Call]) -> u64 {
    let mut admitted = 0;
    for c in calls {
        let (verdict, _) = s.judge(words[c.sender], c.cost, c.stamp).expect("not refused");
        admitted += u64::from(verdict == Verdict::Admitted);
    }
    admitted
}

/// The nanoseconds of one call in the best of the turns, the two taking turns on the same calls; and what each admitted.
fn judging(senders: usize, turns: usize, each: usize) -> ([f64; 2], [u64; 2]) {
    let mut lcg = Lcg(senders as u64);
    let (units, words): (Vec<Unit>, Vec<Words>) = (0..senders).map(|i| sender(i, &mut lcg)).unzip();
    let rate = [2 * senders as u64, 600 * senders as u64];
    let rust = shed::Shedder::new(
        Rates { receptions_per_s: rate[0], bytes_per_s: rate[1] },
        Rates { receptions_per_s: 0, bytes_per_s: 0 },
    );
    let mut here = tankpost::Shedder::new(1 << 17, SOURCES + 1);
    assert_eq!(here.start(rate, [0, 0]), 0);
    let mut calls = Calls { lcg, senders, made: 0 };
    let first = calls.each();
    let mut admitted = [rust_run(&rust, &units, &first), here_run(&mut here, &words, &first)];
    let mut best = [f64::INFINITY; 2];
    for _ in 0..turns {
        let list = calls.some(each);
        let began = used();
        admitted[0] += rust_run(&rust, &units, &list);
        let between = used();
        admitted[1] += here_run(&mut here, &words, &list);
        best[0] = best[0].min((between - began) / each as f64);
        best[1] = best[1].min((used() - between) / each as f64);
    }
    assert_eq!(rust.report().active_sources, here.head.tracked);
    (best, admitted)
}

/// The nanoseconds of a report of 4,096 sources: the Rust's struct, its struct and text, and this.
fn reporting(turns: usize) -> [f64; 3] {
    let mut lcg = Lcg(1);
    let rust = shed::Shedder::new(
        Rates { receptions_per_s: 100, bytes_per_s: 100 },
        Rates { receptions_per_s: 0, bytes_per_s: 0 },
    );
    let mut here = tankpost::Shedder::new(1 << 17, SOURCES + 1);
    assert_eq!(here.start([100, 100], [0, 0]), 0);
    for i in 0..SOURCES {
        let (unit, words) = sender(i, &mut lcg);
        for _ in 0..1 + lcg.below(50) {
            rust.cut(unit, Cause::OverShare, Cost { receptions: 3, bytes: 5 });
            assert_eq!(here.cut(words, 1, [3, 5]), 0);
        }
    }
    let mut out = vec![0; 8_192];
    let mut best = [f64::INFINITY; 3];
    for _ in 0..turns {
        let began = used();
        black_box(rust.report());
        best[0] = best[0].min(used() - began);
        let began = used();
        let text = black_box(text_of(&rust.report()));
        best[1] = best[1].min(used() - began);
        let began = used();
        let written = here.report(&mut out);
        best[2] = best[2].min(used() - began);
        assert_eq!(written.refusal, 0);
        assert_eq!(&out[..written.value as usize], text.as_bytes());
    }
    best
}

/// The nanoseconds of a call of new rates; the Rust has none.
fn changing(turns: usize, each: u64) -> f64 {
    let mut here = tankpost::Shedder::new(1 << 17, SOURCES + 1);
    assert_eq!(here.start([100, 100], [0, 0]), 0);
    let mut best = f64::INFINITY;
    for turn in 0..turns as u64 {
        let began = used();
        for i in 0..each {
            assert_eq!(here.set_rates([100 + i % 64, 10_000 + i % 64], [0, 0], turn * each + i), 0);
        }
        best = best.min((used() - began) / each as f64);
    }
    best
}

fn main() {
    match std::env::args().nth(1).as_deref() {
        Some("churn") => return churn::table(),
        Some("visits") => return visits::table(),
        _ => {}
    }
    println!("| What | Rust, ns a call | here, ns a call | here / Rust | admitted, Rust and here |");
    println!("|---|---|---|---|---|");
    // so many calls in a turn that it has the scans that fall to it: one begins each half second, so each senders / 2 calls
    for (senders, turns, each) in [(16, 60, 64_000), (1_024, 40, 51_200), (16_384, 20, 24_576), (131_072, 4, 65_536)] {
        let (ns, admitted) = judging(senders, turns, each);
        println!(
            "| judge, {senders} senders | {:.0} | {:.0} | {:.2} | {} and {} of {} |",
            ns[0], ns[1], ns[1] / ns[0], admitted[0], admitted[1], senders + turns * each
        );
    }
    println!("| new rates | | {:.0} | | |", changing(20, 100_000));
    let ns = reporting(200);
    println!("| report, 4,096 sources | {:.0} (struct), {:.0} (and its text) | {:.0} | {:.2}, {:.2} | |", ns[0], ns[1], ns[2], ns[2] / ns[0], ns[2] / ns[1]);
}
