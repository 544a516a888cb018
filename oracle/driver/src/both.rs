//! The Rust and this side by side: each step is made on both, and what they answer and hold is compared.
use crate::questions;
use crate::report::text_of;
use crate::rules;
use crate::shed::{self, bits, Cause, Cost, Rates, Unit, HEAD_WORDS};
use crate::standin::{SOURCES_COUNTED, UNITS_TRACKED};
use crate::steps::{Random, Step};
use crate::store::Store;
use crate::tankpost::{Bucket, Head, Shedder, Words};
use crate::units::{reads, tag_of, words_of};
use std::sync::atomic::Ordering;

pub struct Both {
    rust: Option<shed::Shedder>,
    here: Shedder,
    /// the memory as the last start left it, the most records in use since, and the slots used since
    found: Shedder,
    most: [usize; 2],
    used: Vec<bool>,
    /// the tags and words of the records written since the last start
    written: Vec<(u16, Words)>,
    /// what the unit records hold, where entries may name any slot
    store: Option<Store>,
    /// all is compared each so many steps, the head and the unit's record at each
    stride: Option<usize>,
    steps: usize,
}

pub fn differs<T: PartialEq + std::fmt::Debug>(what: &str, rust: T, here: T) -> Result<(), String> {
    if rust == here { Ok(()) } else { Err(format!("{what}: the Rust has {rust:x?}, this has {here:x?}")) }
}

fn row_words(row: &[u64]) -> Words {
    Words { kind: row[0], a: row[1], b: row[2], c: row[3], d: row[4] }
}

fn head_words(h: &Head) -> [u64; HEAD_WORDS] {
    let (f, o, s) = (&h.flow, &h.overflow, &h.scan);
    let mut w: Vec<u64> = f.rate.into_iter().chain(f.ceiling).collect();
    for b in &f.buckets {
        w.extend([b.tokens, b.burst, b.rate_per_ms].map(bits));
    }
    w.push(f.at_ms);
    w.extend(f.admitted.into_iter().chain(o.attempted).chain(o.credit).map(bits));
    w.extend([o.at_ms, u64::from(o.fresh != 0), s.remaining as u64, s.next as u64, s.at_ms, s.began_ms]);
    w.extend(s.trim.into_iter().chain(s.open).map(bits));
    w.push(s.read_ms);
    w.extend(s.read_admitted.map(bits));
    w.push(h.visits);
    w.extend(h.level.map(bits));
    w.extend(h.batches.into_iter().chain(h.receptions));
    w.extend([h.tracked as u64, h.counted as u64]);
    w.try_into().unwrap()
}

fn set_head_words(h: &mut Head, w: &[u64; HEAD_WORDS]) {
    let f = |i: usize| f64::from_bits(w[i]);
    let pair = |i: usize| [f(i), f(i + 1)];
    for (i, b) in h.flow.buckets.iter_mut().enumerate() {
        *b = Bucket { tokens: f(4 + 3 * i), burst: f(5 + 3 * i), rate_per_ms: f(6 + 3 * i) };
    }
    (h.flow.at_ms, h.flow.admitted) = (w[10], pair(11));
    (h.overflow.attempted, h.overflow.credit, h.overflow.at_ms, h.overflow.fresh) = (pair(13), pair(15), w[17], w[18]);
    (h.scan.remaining, h.scan.next, h.scan.at_ms, h.scan.began_ms) = (w[19] as usize, w[20] as usize, w[21], w[22]);
    (h.scan.trim, h.scan.open, h.scan.read_ms, h.scan.read_admitted) = (pair(23), pair(25), w[27], pair(28));
    (h.visits, h.level) = (w[30], pair(31));
    h.batches = [w[33], w[34], w[35]];
    h.receptions = [w[36], w[37], w[38]];
}

fn unit_row(s: &Shedder, slot: usize) -> ([u64; 7], [u64; 4]) {
    (s.units[slot], s.uses[slot].map(f64::to_bits))
}

/// The places of a table's entries in the index.
fn part(s: &Shedder, table: usize) -> std::ops::Range<usize> {
    s.offsets[table] as usize..s.offsets[table + 1] as usize
}

/// A slot that there is not reads as slot 0.
fn slot_of(s: &Shedder, word: u32) -> usize {
    let slot = word as usize;
    if slot < s.units.len() { slot } else { 0 }
}

/// The slot of an entry's rows.
fn slot_at(s: &Shedder, i: usize) -> usize {
    slot_of(s, s.slots[i])
}

/// The slot that the next record takes.
fn next_slot(s: &Shedder) -> Option<u32> {
    s.free[..s.free.len() - s.head.tracked].last().copied()
}

fn rates_of(r: [u64; 2]) -> Rates {
    Rates { receptions_per_s: r[0], bytes_per_s: r[1] }
}

fn index(cause: Cause) -> u64 {
    match cause {
        Cause::ReceiverCeiling => 0,
        Cause::OverShare => 1,
        Cause::RelayRate => 2,
    }
}

impl Both {
    /// Memory of these sizes, of zeros or of any bits; its entries may come to name any slots.
    pub fn new(units: usize, counted: usize, stride: Option<usize>, any_bits: Option<u64>, any_slots: bool) -> Self {
        UNITS_TRACKED.store(units, Ordering::Relaxed);
        SOURCES_COUNTED.store(counted - 1, Ordering::Relaxed);
        let mut here = Shedder::new(units, counted);
        if let Some(seed) = any_bits {
            let mut random = Random(seed);
            here.tags.fill_with(|| random.word() as u16);
            here.slots.fill_with(|| random.word() as u32);
            here.offsets = [(); 65].map(|_| random.word() as u32);
            here.free.fill_with(|| random.word() as u32);
            here.units.fill_with(|| [(); 7].map(|_| random.word()));
            here.uses.fill_with(|| [(); 4].map(|_| f64::from_bits(random.word())));
            here.counted.fill_with(|| [(); 8].map(|_| random.word()));
            here.sums[1].fill_with(|| f64::from_bits(random.word()));
            here.counts[0].fill_with(|| random.word() as u32);
        }
        let store = any_slots.then(|| Store::new(&here));
        Self { rust: None, found: here.clone(), here, most: [0; 2], used: vec![false; units], written: Vec::new(), store, stride, steps: 0 }
    }

    fn start(&mut self, rate: [u64; 2], ceiling: [u64; 2]) -> Result<(), String> {
        let asked = questions::start(&self.here, rate);
        differs("start", asked, self.here.start(rate, ceiling))?;
        if asked == 0 {
            self.rust = Some(shed::Shedder::new(rates_of(rate), rates_of(ceiling)));
            self.found = self.here.clone();
            self.most = [0; 2];
            self.used.fill(false);
            self.written.clear();
            self.store.iter_mut().for_each(Store::start);
        }
        Ok(())
    }

    fn set_rates(&mut self, rate: [u64; 2], ceiling: [u64; 2], stamp: u64) -> Result<(), String> {
        let asked = questions::set_rates(&self.here, rate, stamp);
        differs("new rates", asked, self.here.set_rates(rate, ceiling, stamp))?;
        if let Some(rust) = self.rust.as_ref().filter(|_| asked == 0) {
            rust.set_rates(rates_of(rate), rates_of(ceiling), stamp);
        }
        Ok(())
    }

    /// Into so much room, and into room for just the text, for one byte more, and for 4,096 bytes.
    fn report(&mut self, room: usize) -> Result<(), String> {
        let text = self.rust.as_ref().map_or(String::new(), |r| text_of(&r.report()));
        for room in [room, text.len(), text.len() + 1, 4_096] {
            self.report_into(room, &text)?;
        }
        Ok(())
    }

    /// The answer, the text and every byte behind it.
    fn report_into(&mut self, room: usize, text: &str) -> Result<(), String> {
        let before: Vec<u8> = (0..room).map(|i| (i * 7) as u8).collect();
        let mut expected = before.clone();
        let mut out = before;
        let refusal = self.here.report_refusal(&out);
        let written = self.here.report(&mut out);
        let asked = match questions::report(&self.here) {
            0 if text.len() > room => 7,
            number => number,
        };
        if asked == 0 {
            expected[..text.len()].copy_from_slice(text.as_bytes());
        }
        differs("report's refusal", [asked; 2], [refusal, written.refusal])?;
        differs("report's length", if asked == 0 { text.len() as u64 } else { 0 }, written.value)?;
        differs("report", expected, out)
    }

    /// A write goes into both; none is made before a start, nor a record into a relay that is not bounded or has no room.
    fn write(&mut self, step: &Step) {
        let Some(rust) = &self.rust else { return };
        let h = &mut self.here;
        match *step {
            Step::Head(i, word) => {
                let mut w = head_words(&h.head);
                w[i] = word;
                set_head_words(&mut h.head, &w);
                rust.set_head_words(&w);
            }
            Step::Tables(remaining, next) => {
                let mut w = head_words(&h.head);
                (w[19], w[20]) = (remaining, next);
                set_head_words(&mut h.head, &w);
                rust.set_head_words(&w);
            }
            Step::Want(dim, bucket, count, sum) => {
                h.counts[dim][bucket] = count;
                h.sums[dim][bucket] = f64::from_bits(sum);
                rust.set_want(dim, bucket, count, sum);
            }
            Step::Record(table, tag, words, used, fresh) if rust.is_bounded() && h.head.tracked < h.head.unit_room => {
                let (at, end) = (h.offsets[table + 1] as usize, h.head.tracked);
                let word = next_slot(h).unwrap();
                let i = slot_of(h, word);
                h.tags.copy_within(at..end, at + 1);
                h.slots.copy_within(at..end, at + 1);
                (h.tags[at], h.slots[at]) = (tag, word);
                h.offsets[table + 1..].iter_mut().for_each(|o| *o += 1);
                h.units[i] = [words.kind, words.a, words.b, words.c, words.d, used[4], if used[5] != 0 { fresh } else { 0 }];
                h.uses[i] = [0, 1, 2, 3].map(|k| f64::from_bits(used[k]));
                h.head.tracked += 1;
                rust.push_unit(table, reads(tag, words), &used);
                self.written.push((tag, words));
                if let Some(store) = &mut self.store {
                    store.write(rust, table, tag, words, used);
                }
            }
            Step::Counted(tag, words, counts) if h.head.counted + 1 < h.head.counted_room => {
                h.tags[h.units.len() + h.head.counted] = tag;
                h.counted[h.head.counted] = [words.kind, words.a, words.b, words.c, words.d, counts[0], counts[1], counts[2]];
                h.head.counted += 1;
                rust.push_counted(reads(tag, words), counts);
                self.written.push((tag, words));
            }
            Step::Slot(entry, named) => {
                if let Some((at, word)) = self.store.as_mut().and_then(|store| store.name_entry(rust, entry, named)) {
                    h.slots[at] = word;
                }
            }
            Step::Free(place, named) => {
                if let Some((at, word)) = self.store.as_mut().and_then(|store| store.name_free(place, named)) {
                    h.free[at] = word;
                }
            }
            _ => {}
        }
    }

    /// The Rust's judgement. Where entries may name any slots the store has what the others read then.
    fn judged(&mut self, unit: Unit, cost: Cost, stamp: u64) -> Result<Option<rules::Answer>, String> {
        let Some(rust) = &self.rust else { return Ok(None) };
        let verdict = match &mut self.store {
            Some(store) => store.judge(rust, unit, cost, stamp)?,
            None => rust.judge(unit, cost, stamp),
        };
        Ok(Some(rules::judged(rust, verdict)))
    }

    /// The Rust's cut, likewise.
    fn cut(&mut self, unit: Unit, cause: Cause, cost: Cost) -> Result<(), String> {
        let Some(rust) = &self.rust else { return Ok(()) };
        rust.cut(unit, cause, cost);
        self.store.as_mut().map_or(Ok(()), |store| store.cut(rust, unit))
    }

    fn call(&mut self, step: &Step) -> Result<(), String> {
        let cost_of = |c: [u64; 2]| Cost { receptions: c[0], bytes: c[1] };
        match *step {
            Step::Start(rate, ceiling) => self.start(rate, ceiling),
            Step::Judge(unit, cost, stamp) => {
                let asked = questions::judge(&self.here, cost, stamp);
                let answer = self.here.decision(words_of(unit), cost, stamp);
                let judged = if asked == 0 { self.judged(unit, cost_of(cost), stamp)? } else { None };
                let expected = judged.unwrap_or(rules::refused(asked));
                differs("judge", expected, rules::words_of(&answer))?;
                differs("judge by name", rules::named(&expected), rules::told(answer.told()))?;
                self.same_unit(unit)
            }
            Step::Cut(unit, cause, cost) => {
                let asked = questions::cut(&self.here, cost);
                differs("cut", asked, self.here.cut(words_of(unit), index(cause), cost))?;
                if asked == 0 {
                    self.cut(unit, cause, cost_of(cost))?;
                }
                self.same_unit(unit)
            }
            Step::Rates(rate, ceiling, stamp) => self.set_rates(rate, ceiling, stamp),
            Step::Report(room) => self.report(room),
            _ => {
                self.write(step);
                Ok(())
            }
        }
    }

    pub fn step(&mut self, step: &Step) -> Result<(), String> {
        let next = self.rust.as_ref().and_then(|_| next_slot(&self.here)).map(|word| slot_of(&self.here, word));
        self.call(step)?;
        self.steps += 1;
        // a call adds one record at most
        if let Some(slot) = next.filter(|slot| unit_row(&self.here, *slot) != unit_row(&self.found, *slot)) {
            self.used[slot] = true;
        }
        self.most = [self.most[0].max(self.here.head.tracked), self.most[1].max(self.here.head.counted)];
        let Some(rust) = &self.rust else { return Ok(()) };
        differs("head", rust.head_words(), head_words(&self.here.head))?;
        self.same_readings()?;
        let held = self.here.head.tracked + self.here.head.counted;
        let stride = self.stride.unwrap_or(if held < 600 { 1 } else { 64 + held / 64 });
        if self.steps % stride == 0 { self.same_all(8) } else { Ok(()) }
    }

    fn same_readings(&self) -> Result<(), String> {
        let Some(rust) = &self.rust else { return Ok(()) };
        let w = rust.head_words();
        let h = &self.here;
        let mut here = vec![h.visited()];
        here.extend([0, 1, 2].map(|c| h.cut_batches(c)));
        here.extend([h.rate(0), h.rate(1), h.is_bounded()]);
        differs("refusals of readings", 0, here.iter().map(|c| c.refusal).sum::<u64>() + h.level(0).refusal + h.level(1).refusal)?;
        let rate = rust.rate().map_or([u64::MAX; 2], |r| [r.receptions_per_s, r.bytes_per_s]);
        let mut expected = vec![rust.visited()];
        expected.extend([Cause::ReceiverCeiling, Cause::OverShare, Cause::RelayRate].map(|c| rust.cut_batches(c)));
        expected.extend([rate[0], rate[1], u64::from(rust.is_bounded())]);
        differs("readings", expected, here.iter().map(|c| c.value).collect())?;
        differs("levels", [w[31], w[32]], [bits(h.level(0).value), bits(h.level(1).value)])
    }

    fn record(&self, i: usize) -> (Unit, shed::UseWords) {
        let slot = slot_at(&self.here, i);
        let (row, used) = (&self.here.units[slot], self.here.uses[slot].map(bits));
        (reads(self.here.tags[i], row_words(row)), [used[0], used[1], used[2], used[3], row[5], u64::from(row[6] != 0)])
    }

    /// The unit's record, where its own table has one. Overflow's stands in the head.
    fn same_unit(&self, unit: Unit) -> Result<(), String> {
        let Some(rust) = self.rust.as_ref().filter(|_| unit != Unit::Overflow) else { return Ok(()) };
        let h = &self.here;
        // the same as that it reads as the unit, without a hash for each record
        let (tag, words) = (tag_of(unit), words_of(unit));
        let own = |i: &usize| h.tags[*i] == tag && row_words(&h.units[slot_at(h, *i)]) == words;
        let here = part(h, usize::from(tag >> 10)).find(own).map(|i| self.record(i).1);
        differs("record", rust.use_words(unit), here)
    }

    /// All that both hold, and of the free rows so many behind those that were in use.
    pub fn same_all(&mut self, behind: usize) -> Result<(), String> {
        let Some(rust) = &self.rust else { return Ok(()) };
        let h = &self.here;
        differs("offsets", true, questions::parts(h))?;
        for i in 0..64 {
            differs(&format!("table {i}"), rust.table_words(i), part(h, i).map(|k| self.record(k)).collect())?;
        }
        let row = |(tag, r): (&u16, &[u64; 8])| (reads(*tag, row_words(r)), [r[5], r[6], r[7]]);
        let counted = || h.tags[h.units.len()..].iter().zip(&h.counted[..h.head.counted]);
        differs("counted", rust.counted_words(), counted().map(row).collect())?;
        counted().try_for_each(|(tag, r)| self.same_name(*tag, row_words(r)))?;
        for dim in 0..2 {
            let (counts, sums) = rust.wants_words(dim);
            differs("histogram's counts", &counts[..], &h.counts[dim][..])?;
            differs("histogram's sums", sums, h.sums[dim].iter().map(|x| bits(*x)).collect())?;
        }
        match &self.store {
            Some(store) => store.same(h)?,
            None => {
                (0..h.head.tracked).try_for_each(|i| self.same_name(h.tags[i], row_words(&h.units[slot_at(h, i)])))?;
                self.same_free_slots(behind)?;
            }
        }
        self.same_free_counted(behind)
    }

    /// What reads as overflow is overflow's own, or was written so: the Rust does not have its tag and words.
    fn same_name(&self, tag: u16, words: Words) -> Result<(), String> {
        let own = (tag_of(Unit::Overflow), words_of(Unit::Overflow));
        let known = reads(tag, words) != Unit::Overflow || (tag, words) == own || self.written.contains(&(tag, words));
        differs("what reads as overflow", true, known)
    }

    /// Each slot is an entry's or free, once. Places of the index behind those in use are zero where one stood since the start, else as
    /// the start left them; so are the rows of free slots. A place that was used and freed within one call shows only here.
    fn same_free_slots(&mut self, behind: usize) -> Result<(), String> {
        let h = &self.here;
        let (tracked, room) = (h.head.tracked, h.units.len());
        let entry = |s: &Shedder, i: usize| (s.tags[i], s.slots[i]);
        if self.most[0] < room && entry(h, self.most[0]) == (0, 0) {
            self.most[0] += 1;
        }
        for i in tracked..room.min(self.most[0].saturating_add(behind)) {
            let expected = if i < self.most[0] { (0, 0) } else { entry(&self.found, i) };
            differs("a free place of the index", expected, entry(h, i))?;
        }
        let mut named = vec![false; room];
        for slot in h.slots[..tracked].iter().chain(&h.free[..room - tracked]) {
            differs("a slot named twice", Some(&false), named.get(*slot as usize))?;
            named[*slot as usize] = true;
        }
        for slot in h.free[..room - tracked].iter().map(|slot| *slot as usize) {
            let expected = if self.used[slot] { ([0; 7], [0; 4]) } else { unit_row(&self.found, slot) };
            differs("a free slot", expected, unit_row(h, slot))?;
        }
        Ok(())
    }

    /// The same of the counted records.
    fn same_free_counted(&mut self, behind: usize) -> Result<(), String> {
        let h = &self.here;
        let counted_row = |s: &Shedder, i: usize| (s.tags[s.units.len() + i], s.counted[i]);
        if self.most[1] < h.counted.len() && counted_row(h, self.most[1]) == (0, [0; 8]) {
            self.most[1] += 1;
        }
        for i in h.head.counted..h.counted.len().min(self.most[1].saturating_add(behind)) {
            let expected = if i < self.most[1] { (0, [0; 8]) } else { counted_row(&self.found, i) };
            differs("a free counted record", expected, counted_row(h, i))?;
        }
        Ok(())
    }
}
