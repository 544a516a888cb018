//! Times `judge` where senders come and go: each sends one batch every 20 seconds, is dropped 8 seconds after it by the scans,
//! and is added again with its next batch.
use crate::shed::{self, Cost, Rates, Unit};
use crate::group::Group;
use crate::tankpost::{self, Words};
use crate::{sender, used, Lcg, SOURCES};

/// Seconds from a sender's batch to its next.
const PAUSE: u64 = 20;

/// The senders in their order, each with its batch; the round says when, and `pause` is the seconds of a round.
struct Round {
    pause: u64,
    units: Vec<Unit>,
    words: Vec<Words>,
    costs: Vec<[u64; 2]>,
}

impl Round {
    fn new(senders: usize, pause: u64) -> Self {
        let mut lcg = Lcg(senders as u64);
        let (units, words) = (0..senders).map(|i| sender(i, &mut lcg)).unzip();
        let costs = (0..senders).map(|_| [1 + lcg.below(4), 100 + lcg.below(901)]).collect();
        Self { pause, units, words, costs }
    }

    fn stamp(&self, round: u64, i: usize) -> u64 {
        1_000 * self.pause * (1 + round) + i as u64 * 1_000 * self.pause / self.units.len() as u64
    }
}

/// Both, from a start at a rate that admits all.
struct Two {
    rust: shed::Shedder,
    here: tankpost::Shedder,
}

impl Two {
    fn new() -> Self {
        let rate = [1 << 30, 1 << 40];
        let none = Rates { receptions_per_s: 0, bytes_per_s: 0 };
        let rust = shed::Shedder::new(Rates { receptions_per_s: rate[0], bytes_per_s: rate[1] }, none);
        let mut here = tankpost::Shedder::new(1 << 17, SOURCES + 1);
        assert_eq!(here.start(rate, [0, 0]), 0);
        Self { rust, here }
    }

    fn rust_call(&self, r: &Round, round: u64, i: usize) -> bool {
        let cost = Cost { receptions: r.costs[i][0], bytes: r.costs[i][1] };
        self.rust.judge(r.units[i], cost, r.stamp(round, i)).is_ok()
    }

    fn here_call(&mut self, r: &Round, round: u64, i: usize) -> bool {
        self.here.decision(r.words[i], r.costs[i], r.stamp(round, i)).verdict == tankpost::VERDICT_ADMITTED
    }
}

/// The nanoseconds of one call in the best of the rounds behind the first, and the records alive at the end.
fn mean(r: &Round, rounds: u64) -> ([f64; 2], usize) {
    let mut two = Two::new();
    let n = r.units.len();
    let mut best = [f64::INFINITY; 2];
    for round in 0..rounds {
        let began = used();
        let rust: usize = (0..n).map(|i| usize::from(two.rust_call(r, round, i))).sum();
        let between = used();
        let here: usize = (0..n).map(|i| usize::from(two.here_call(r, round, i))).sum();
        let ended = used();
        assert_eq!(rust, here);
        if round > 0 {
            best[0] = best[0].min((between - began) / n as f64);
            best[1] = best[1].min((ended - between) / n as f64);
        }
    }
    assert_eq!(two.rust.report().active_sources, two.here.head.tracked);
    (best, two.here.head.tracked)
}

/// The longest single call of the second round, and the one that 999 of 1,000 are not longer than, in nanoseconds: each call is
/// timed in several runs from the start, and the shortest of its times is taken, so that what else the machine does falls out.
fn longest(r: &Round, runs: usize) -> [[f64; 2]; 2] {
    let n = r.units.len();
    let mut times = vec![[f64::INFINITY; 2]; n];
    for _ in 0..runs {
        let mut two = Two::new();
        for i in 0..n {
            two.rust_call(r, 0, i);
            two.here_call(r, 0, i);
        }
        for (i, best) in times.iter_mut().enumerate() {
            let began = used();
            two.rust_call(r, 1, i);
            let between = used();
            two.here_call(r, 1, i);
            best[0] = best[0].min(between - began);
            best[1] = best[1].min(used() - between);
        }
    }
    [most(&times, 0), most(&times, times.len() / 1_000)]
}

/// Of each side's times the one that so many are longer than.
fn most(times: &[[f64; 2]], longer: usize) -> [f64; 2] {
    [0, 1].map(|side| {
        let mut sorted: Vec<f64> = times.iter().map(|t| t[side]).collect();
        sorted.sort_by(|x, y| y.total_cmp(x));
        sorted[longer]
    })
}

/// All senders of a round fall silent, and one sends on a minute later: the longest of its calls, which drop all others.
fn silent(r: &Round, runs: usize) -> [f64; 2] {
    let mut times = vec![[f64::INFINITY; 2]; 64];
    for _ in 0..runs {
        let mut two = Two::new();
        for i in 0..r.units.len().min(1 << 17) {
            let _ = two.rust.judge(r.units[i], Cost { receptions: 1, bytes: 1 }, r.stamp(0, 0));
            two.here.decision(r.words[i], [1, 1], r.stamp(0, 0));
        }
        for best in times.iter_mut() {
            let began = used();
            two.rust_call(r, 3, 0);
            let between = used();
            two.here_call(r, 3, 0);
            best[0] = best[0].min(between - began);
            best[1] = best[1].min(used() - between);
        }
        assert_eq!(two.here.head.tracked, 1);
    }
    most(&times, 0)
}

/// FNV-1a over an IPv6 group's bytes: the hash is public, so a sender may choose it.
fn hash(prefix: u32) -> u64 {
    let number = (1u64 << 33) + u64::from(prefix);
    std::iter::once(1).chain(number.to_be_bytes()).fold(14695981039346656037, |h, byte| (h ^ u64::from(byte)).wrapping_mul(1099511628211))
}

/// So many groups of one table and one tag (of all V6 groups some 65,700 have it), judged in turn: the nanoseconds of one call.
fn chosen(n: usize, turns: usize) -> [f64; 2] {
    let groups = (0..).filter(|prefix| hash(*prefix) & (63 << 58 | 1_023) == 0);
    let (units, words): (Vec<Unit>, Vec<Words>) =
        groups.take(n).map(|p| (Unit::Group(Some(Group::V6(p))), Words { kind: 2, a: u64::from(p), ..Words::default() })).unzip();
    let r = Round { pause: PAUSE, units, words, costs: vec![[1, 100]; n] };
    let mut two = Two::new();
    let mut best = [f64::INFINITY; 2];
    for _ in 0..turns {
        let began = used();
        for i in 0..n {
            two.rust_call(&r, 0, i);
        }
        let between = used();
        for i in 0..n {
            two.here_call(&r, 0, i);
        }
        best[0] = best[0].min((between - began) / n as f64);
        best[1] = best[1].min((used() - between) / n as f64);
    }
    assert_eq!(two.here.head.tracked, n);
    best
}

pub fn table() {
    println!("| Senders, each every {PAUSE} s | records alive | Rust, ns a call | here, ns a call | here / Rust | 99.9 % of calls, Rust and here, µs | longest call, Rust and here, µs | all silent: longest, Rust and here, µs |");
    println!("|---|---|---|---|---|---|---|---|");
    for (senders, rounds) in [(2_400, 40), (39_000, 8), (300_000, 3)] {
        let r = Round::new(senders, PAUSE);
        let (ns, alive) = mean(&r, rounds);
        let [top, rare] = longest(&r, 3);
        let quiet = silent(&r, 3);
        println!(
            "| {senders} | {alive} | {:.0} | {:.0} | {:.1} | {:.1}, {:.1} | {:.0}, {:.0} | {:.0}, {:.0} |",
            ns[0], ns[1], ns[1] / ns[0], rare[0] / 1e3, rare[1] / 1e3, top[0] / 1e3, top[1] / 1e3, quiet[0] / 1e3, quiet[1] / 1e3
        );
    }
    println!();
    println!("| Senders, each every second | 99.9 % of calls, Rust and here, µs | longest call, Rust and here, µs |");
    println!("|---|---|---|");
    for senders in [16_384, 131_072] {
        let [top, rare] = longest(&Round::new(senders, 1), 3);
        println!("| {senders} | {:.1}, {:.1} | {:.0}, {:.0} |", rare[0] / 1e3, rare[1] / 1e3, top[0] / 1e3, top[1] / 1e3);
    }
    println!();
    println!("| Groups of one tag | Rust, ns a call | here, ns a call |");
    println!("|---|---|---|");
    for n in [256, 4_096, 65_536] {
        let ns = chosen(n, 5);
        println!("| {n} | {:.0} | {:.0} |", ns[0], ns[1]);
    }
}
