
// ---- appended by make_oracle.py, no part of the original: the state read and written from outside ----

/// A not-a-number has one pattern here: which one it has is left open.
pub fn bits(x: f64) -> u64 {
    if x.is_nan() { f64::NAN.to_bits() } else { x.to_bits() }
}

fn held<T>(m: &Mutex<T>) -> std::sync::MutexGuard<'_, T> {
    m.lock().unwrap()
}

/// The question that decided a batch: `within` the level, and the first dimension that lacked.
#[derive(Clone, Copy, Debug, PartialEq)]
pub enum Asked {
    Admitted(f64),
    Credit { within: bool, dim: usize },
    Tokens { within: bool, dim: usize },
    Reserve { dim: usize, mark: f64, part: f64 },
}

thread_local! {
    /// That of the last judgement of a bounded relay.
    static ASKED: std::cell::Cell<Option<Asked>> = const { std::cell::Cell::new(None) };
}

/// Document 02, K1: each question asked by itself of receptions, then of bytes.
fn asked(wants: f64, rank: f64, credit: [f64; DIMS], buckets: &[Bucket; DIMS], cost: [f64; DIMS]) -> Asked {
    let within = wants <= 1.0;
    let first = |holds: &dyn Fn(usize) -> bool| (0..DIMS).find(|dim| !holds(*dim));
    if let Some(dim) = first(&|dim| credit[dim] >= cost[dim]) {
        return Asked::Credit { within, dim };
    }
    if let Some(dim) = first(&|dim| buckets[dim].tokens >= cost[dim]) {
        return Asked::Tokens { within, dim };
    }
    let mark = RESERVE * (1.0 - 1.0 / (wants * (1.0 + rank * 1e-6)));
    let part = |dim: usize| (buckets[dim].tokens - cost[dim]) / buckets[dim].burst;
    match first(&|dim| within || part(dim) >= mark) {
        Some(dim) => Asked::Reserve { dim, mark, part: part(dim) },
        None => Asked::Admitted(wants),
    }
}

/// The question that decided the last judgement of a bounded relay.
pub fn last_asked() -> Option<Asked> {
    ASKED.get()
}

/// A unit's use: two sums, two credits, stamp, fresh.
pub type UseWords = [u64; 6];

impl Use {
    fn words(&self) -> UseWords {
        let [a, b] = self.attempted.map(bits);
        let [c, d] = self.credit.map(bits);
        [a, b, c, d, self.at_ms, u64::from(self.fresh)]
    }

    fn of_words(w: &[u64]) -> Self {
        let f = |i: usize| f64::from_bits(w[i]);
        Self { attempted: [f(0), f(1)], credit: [f(2), f(3)], at_ms: w[4], fresh: w[5] != 0 }
    }
}

impl Shedder {
    /// Document 02, K3: the clock and the refill of a judgement, then rates, bursts and rates per millisecond as at a start; of the
    /// tokens no more than the burst.
    pub fn set_rates(&self, rate: Rates, ceiling: Rates, stamp: u64) {
        let mut flow = self.flow();
        let now = stamp.max(flow.at_ms);
        let elapsed = now - flow.at_ms;
        flow.at_ms = now;
        let fresh = Self::new(rate, ceiling);
        let started = fresh.flow();
        for (bucket, full) in flow.buckets.iter_mut().zip(&started.buckets) {
            let tokens = (bucket.tokens + elapsed as f64 * bucket.rate_per_ms).min01(bucket.burst);
            *bucket = Bucket { tokens: tokens.min01(full.burst), burst: full.burst, rate_per_ms: full.rate_per_ms };
        }
        (flow.rate, flow.ceiling) = (rate, ceiling);
    }
}

/// The words of the head: those of link/tankpost.rs in their order, without the two capacities.
pub const HEAD_WORDS: usize = 41;

impl Shedder {
    pub fn head_words(&self) -> [u64; HEAD_WORDS] {
        let (f, s) = (self.flow(), held(&self.scan));
        let mut w = vec![f.rate.receptions_per_s, f.rate.bytes_per_s, f.ceiling.receptions_per_s, f.ceiling.bytes_per_s];
        for b in &f.buckets {
            w.extend([b.tokens, b.burst, b.rate_per_ms].map(bits));
        }
        w.push(f.at_ms);
        w.extend(f.admitted.map(bits));
        w.extend(held(&self.overflow).words());
        w.extend([s.remaining as u64, s.next as u64, s.at_ms, s.began_ms]);
        w.extend(s.trim.map(bits));
        w.extend(s.open.map(bits));
        w.push(s.read_ms);
        w.extend(s.read_admitted.map(bits));
        w.push(self.visits.load(Ordering::Relaxed));
        w.extend([0, 1].map(|d| bits(self.level(d))));
        w.extend(self.batches.iter().chain(&self.receptions).map(|n| n.load(Ordering::Relaxed)));
        w.extend([self.tracked.load(Ordering::Relaxed) as u64, held(&self.counted).len() as u64]);
        w.try_into().unwrap()
    }

    /// Writes the words but for the rates, the ceiling and the numbers of records.
    pub fn set_head_words(&self, w: &[u64; HEAD_WORDS]) {
        let (mut f, mut s) = (self.flow(), held(&self.scan));
        let pair = |i: usize| [f64::from_bits(w[i]), f64::from_bits(w[i + 1])];
        for (i, b) in f.buckets.iter_mut().enumerate() {
            let [tokens, burst, rate_per_ms] = [0, 1, 2].map(|k| f64::from_bits(w[4 + 3 * i + k]));
            *b = Bucket { tokens, burst, rate_per_ms };
        }
        f.at_ms = w[10];
        f.admitted = pair(11);
        *held(&self.overflow) = Use::of_words(&w[13..19]);
        (s.remaining, s.next, s.at_ms, s.began_ms) = (w[19] as usize, w[20] as usize, w[21], w[22]);
        (s.trim, s.open, s.read_ms, s.read_admitted) = (pair(23), pair(25), w[27], pair(28));
        self.visits.store(w[30], Ordering::Relaxed);
        for i in 0..DIMS {
            self.level[i].store(w[31 + i], Ordering::Relaxed);
        }
        for i in 0..CAUSES {
            self.batches[i].store(w[33 + i], Ordering::Relaxed);
            self.receptions[i].store(w[36 + i], Ordering::Relaxed);
        }
    }

    /// The units of a table in order of arrival.
    pub fn table_words(&self, table: usize) -> Vec<(Unit, UseWords)> {
        self.tables.get(table).map_or(Vec::new(), |t| held(t).units.iter().map(|(u, used)| (*u, used.words())).collect())
    }

    pub fn use_words(&self, unit: Unit) -> Option<UseWords> {
        held(self.tables.get(table_of(unit))?).units.get(&unit).map(Use::words)
    }

    /// The records of a table become these; how many are tracked in all does not change.
    pub fn set_table(&self, table: usize, records: &[(Unit, UseWords)]) {
        let mut units = HashMap::new();
        for (unit, words) in records {
            units.insert(*unit, Use::of_words(words));
        }
        held(&self.tables[table]).units = units;
    }

    /// The judgement without its scan, which the Rust leaves out while another holds it.
    pub fn judge_unscanned(&self, unit: Unit, cost: Cost, stamp: u64) -> Result<(), Cause> {
        let _scanning = held(&self.scan);
        self.judge(unit, cost, stamp)
    }

    /// The scan of the judgement just made.
    pub fn scan(&self) {
        let now = self.flow().at_ms;
        self.scanned(now);
    }

    /// A record in this table, which need not be its unit's.
    pub fn push_unit(&self, table: usize, unit: Unit, words: &UseWords) {
        held(&self.tables[table]).units.insert(unit, Use::of_words(words));
        self.tracked.fetch_add(1, Ordering::Relaxed);
    }

    pub fn counted_words(&self) -> Vec<(Unit, [u64; CAUSES])> {
        held(&self.counted).iter().map(|(u, counts)| (*u, *counts)).collect()
    }

    pub fn push_counted(&self, unit: Unit, counts: [u64; CAUSES]) {
        held(&self.counted).insert(unit, counts);
    }

    /// The histogram of a dimension: counts and sums.
    pub fn wants_words(&self, dim: usize) -> (Vec<u32>, Vec<u64>) {
        let s = held(&self.scan);
        (s.wants[dim].counts.clone(), s.wants[dim].sums.iter().map(|x| bits(*x)).collect())
    }

    pub fn set_want(&self, dim: usize, bucket: usize, count: u32, sum: u64) {
        let mut s = held(&self.scan);
        s.wants[dim].counts[bucket] = count;
        s.wants[dim].sums[bucket] = f64::from_bits(sum);
    }

    pub fn table_of_unit(unit: Unit) -> usize {
        table_of(unit)
    }

    pub fn hash53_of_unit(unit: Unit) -> u64 {
        (unit.rank() * (1u64 << 53) as f64) as u64
    }
}
