//! Times the visit of one table that holds every unit: the call in which the records of those that fell silent are dropped.
use crate::key::PublicKey;
use crate::shed::{self, Cost, Rates, Unit};
use crate::tankpost::{self, Words};
use crate::{used, Lcg, SOURCES};

/// FNV-1a over a key's kind and bytes.
fn hash(key: &[u8; 32]) -> u64 {
    std::iter::once(&0).chain(key).fold(14695981039346656037, |h, byte| (h ^ u64::from(*byte)).wrapping_mul(1099511628211))
}

/// So many keys of table 0, sought by their hash.
fn keys(n: usize) -> (Vec<Unit>, Vec<Words>) {
    let mut lcg = Lcg(n as u64);
    let keys = std::iter::repeat_with(move || {
        let w: [u64; 4] = std::array::from_fn(|_| lcg.below(u64::MAX));
        let mut key = [0; 32];
        for (bytes, word) in key.chunks_mut(8).zip(w) {
            bytes.copy_from_slice(&word.to_be_bytes());
        }
        (key, Words { kind: 0, a: w[0], b: w[1], c: w[2], d: w[3] })
    });
    keys.filter(|(key, _)| hash(key) >> 58 == 0).take(n).map(|(key, words)| (Unit::Corroborated(PublicKey(key)), words)).unzip()
}

/// Both, from a start at a rate that admits all.
struct Two {
    rust: shed::Shedder,
    here: tankpost::Shedder,
}

impl Two {
    fn new(n: usize) -> Self {
        let rate = [1 << 30, 1 << 40];
        let none = Rates { receptions_per_s: 0, bytes_per_s: 0 };
        let rust = shed::Shedder::new(Rates { receptions_per_s: rate[0], bytes_per_s: rate[1] }, none);
        let mut here = tankpost::Shedder::new(n, SOURCES + 1);
        assert_eq!(here.start(rate, [0, 0]), 0);
        Self { rust, here }
    }

    /// The nanoseconds that each takes for a batch.
    fn call(&mut self, unit: Unit, words: Words, stamp: u64) -> [f64; 2] {
        let began = used();
        assert!(self.rust.judge(unit, Cost { receptions: 1, bytes: 100 }, stamp).is_ok());
        let between = used();
        assert_eq!(self.here.decision(words, [1, 100], stamp).verdict, tankpost::VERDICT_ADMITTED);
        [between - began, used() - between]
    }
}

/// All units send at one second, and those of which `again` holds five seconds later; the last unit's batch at ten seconds meets the
/// visit that drops the others. The nanoseconds of that call, and how many records are left.
fn visit(units: &[Unit], words: &[Words], again: fn(usize) -> bool) -> ([f64; 2], usize) {
    let n = units.len();
    let mut two = Two::new(n);
    for i in 0..n {
        two.call(units[i], words[i], 1_000);
    }
    for i in (0..n).filter(|i| again(*i)) {
        two.call(units[i], words[i], 6_000);
    }
    assert_eq!(two.here.head.tracked, n);
    let times = two.call(units[n - 1], words[n - 1], 10_000);
    assert_eq!(two.rust.report().active_sources, two.here.head.tracked);
    (times, two.here.head.tracked)
}

/// The visits: what is dropped, which units send again, and how many records are left of n. In the last the sender's own record is
/// dropped too, and comes in anew.
const VISITS: [(&str, fn(usize) -> bool, fn(usize) -> usize); 4] = [
    ("none", |_| true, |n| n),
    ("the first", |i| i > 0, |n| n - 1),
    ("every other one", |i| i % 2 == 1, |n| n / 2),
    ("all", |_| false, |_| 1),
];

pub fn table() {
    println!("| Dropped | 16,384 units: Rust and here, µs | 131,072 units: Rust and here, µs | ratio of the two, Rust and here |");
    println!("|---|---|---|---|");
    let sets = [keys(1 << 14), keys(1 << 17)];
    for (name, again, left) in VISITS {
        let times = [0, 1].map(|k: usize| {
            let (units, words): &(Vec<Unit>, Vec<Words>) = &sets[k];
            let mut best = [f64::INFINITY; 2];
            for _ in 0..5 {
                let (ns, alive) = visit(units, words, again);
                assert_eq!(alive, left(units.len()));
                best = [best[0].min(ns[0]), best[1].min(ns[1])];
            }
            best
        });
        println!(
            "| {name} | {:.0}, {:.0} | {:.0}, {:.0} | {:.1}, {:.1} |",
            times[0][0] / 1e3, times[0][1] / 1e3, times[1][0] / 1e3, times[1][1] / 1e3, times[1][0] / times[0][0], times[1][1] / times[0][1]
        );
    }
}
