//! The unit records in lent memory whose entries and free places may name any slot, by docs/SPECIFICATION.md (The state; The sender
//! and its record; The scan): an index of tags and slots, table by table; rows in slots; a stack of free slots. What a call writes to
//! a record, and which records a scan drops, is the Rust's, which has a record of its own for each entry. Here is where that stands,
//! and what the entries read then that name the same slot: two entries of one slot read and write the same rows.
use crate::both::differs;
use crate::shed::{self, bits, Cause, Cost, Unit, UseWords};
use crate::steps::Named;
use crate::tankpost::{Shedder, Words};
use crate::units::{reads, tag_of, words_of};
use std::collections::BTreeSet;
use std::ops::Range;
use std::sync::atomic::{AtomicU64, Ordering};

pub type Row = (Words, UseWords);

const TABLES: usize = 64;
const NO_ROW: Row = (Words { kind: 0, a: 0, b: 0, c: 0, d: 0 }, [0; 6]);

/// How many records were written to a slot that other entries name, how many of them newcomers'; how many entries stayed of a slot
/// that was dropped, and how often a slot was dropped that the same call had dropped before.
static MET: [AtomicU64; 4] = [const { AtomicU64::new(0) }; 4];

pub fn met() -> String {
    let [written, new, left, twice] = [0, 1, 2, 3].map(|i: usize| MET[i].load(Ordering::Relaxed));
    format!(
        "{written} calls used a slot that other entries name, {new} of them for a newcomer; {left} entries stayed of a slot that was dropped, \
         {twice} times one was dropped again in the same call"
    )
}

fn meet(i: usize, n: usize) {
    MET[i].fetch_add(n as u64, Ordering::Relaxed);
}

pub struct Store {
    tags: Vec<u16>,
    slots: Vec<u32>,
    offsets: [usize; TABLES + 1],
    free: Vec<u32>,
    rows: Vec<Row>,
}

/// The rows in a slot of lent memory.
fn row(s: &Shedder, slot: usize) -> Row {
    let [kind, a, b, c, d, at_ms, fresh] = s.units[slot];
    let [x, y, z, w] = s.uses[slot].map(bits);
    (Words { kind, a, b, c, d }, [x, y, z, w, at_ms, u64::from(fresh != 0)])
}

impl Store {
    /// As the memory is before any call.
    pub fn new(s: &Shedder) -> Self {
        let room = s.units.len();
        Self {
            tags: s.tags[..room].to_vec(),
            slots: s.slots.clone(),
            offsets: [0; TABLES + 1],
            free: s.free.clone(),
            rows: (0..room).map(|slot| row(s, slot)).collect(),
        }
    }

    /// Every slot is free, the lowest taken first; no record is written.
    pub fn start(&mut self) {
        self.offsets = [0; TABLES + 1];
        self.free = (0..self.room() as u32).rev().collect();
    }

    fn room(&self) -> usize {
        self.rows.len()
    }

    fn tracked(&self) -> usize {
        self.offsets[TABLES]
    }

    /// The slots that are free, the next one last.
    fn stack(&self) -> &[u32] {
        &self.free[..self.room() - self.tracked()]
    }

    /// A slot that there is not reads as slot 0.
    fn slot_of(&self, word: u32) -> usize {
        let slot = word as usize;
        if slot < self.room() { slot } else { 0 }
    }

    fn part(&self, table: usize) -> Range<usize> {
        self.offsets[table]..self.offsets[table + 1]
    }

    fn record(&self, i: usize) -> (Unit, UseWords) {
        let (words, used) = self.rows[self.slot_of(self.slots[i])];
        (reads(self.tags[i], words), used)
    }

    /// What the entries of a table read as, in order.
    fn records(&self, table: usize) -> Vec<(Unit, UseWords)> {
        self.part(table).map(|i| self.record(i)).collect()
    }

    /// The entries of a slot.
    fn sharing(&self, slot: usize) -> usize {
        self.slots[..self.tracked()].iter().filter(|word| self.slot_of(**word) == slot).count()
    }

    // ---- what a write and a call make of it

    fn word(&self, named: Named) -> u32 {
        let (room, tracked) = (self.room(), self.tracked());
        match named {
            Named::Beyond(more) => (room as u32).saturating_add(more),
            Named::Entry(i) => self.slots[i % tracked.max(1)],
            Named::Free(k) if tracked < room => self.stack()[room - tracked - 1 - k % (room - tracked)],
            Named::Slot(i) | Named::Free(i) => (i % room) as u32,
        }
    }

    /// An entry comes to name another slot; none where there is no entry. Its place and the word.
    pub fn name_entry(&mut self, rust: &shed::Shedder, entry: usize, named: Named) -> Option<(usize, u32)> {
        let at = entry.checked_rem(self.tracked())?;
        self.slots[at] = self.word(named);
        self.set(rust);
        Some((at, self.slots[at]))
    }

    /// A free place, counted from the next one taken, comes to name another slot; none where no place is free.
    pub fn name_free(&mut self, place: usize, named: Named) -> Option<(usize, u32)> {
        let left = self.room() - self.tracked();
        let from_top = place.checked_rem(left)?;
        let at = left - 1 - from_top;
        self.free[at] = self.word(named);
        Some((at, self.free[at]))
    }

    /// A record that the caller writes at the end of a table's part, of any bits.
    pub fn write(&mut self, rust: &shed::Shedder, table: usize, tag: u16, words: Words, used: UseWords) {
        let float = |i: usize| bits(f64::from_bits(used[i]));
        self.add(table, tag, words, [float(0), float(1), float(2), float(3), used[4], used[5]]);
        self.set(rust);
    }

    /// A record more at the end of a table's part, in the slot that is taken next; its slot.
    fn add(&mut self, table: usize, tag: u16, words: Words, used: UseWords) -> usize {
        let (at, n) = (self.offsets[table + 1], self.tracked());
        let word = *self.stack().last().unwrap();
        self.tags[at..=n].rotate_right(1);
        self.slots[at..=n].rotate_right(1);
        (self.tags[at], self.slots[at]) = (tag, word);
        self.offsets[table + 1..].iter_mut().for_each(|o| *o += 1);
        let slot = self.slot_of(word);
        self.rows[slot] = (words, used);
        slot
    }

    fn put(&mut self, i: usize, used: UseWords) -> usize {
        let slot = self.slot_of(self.slots[i]);
        self.rows[slot].1 = used;
        slot
    }

    /// Of the entries of a table's part those go at which it says so; their slots.
    fn drop(&mut self, table: usize, goes: &[bool]) -> Vec<usize> {
        let (part, n) = (self.part(table), self.tracked());
        let gone: Vec<u32> = part.clone().filter(|i| goes[i - part.start]).map(|i| self.slots[i]).collect();
        let stays = |i: &usize| !part.contains(i) || !goes[i - part.start];
        let mut index: Vec<(u16, u32)> = (0..n).filter(stays).map(|i| (self.tags[i], self.slots[i])).collect();
        index.resize(n, (0, 0));
        for (i, entry) in index.into_iter().enumerate() {
            (self.tags[i], self.slots[i]) = entry;
        }
        self.offsets[table + 1..].iter_mut().for_each(|o| *o -= gone.len());
        let first = self.room() - n;
        self.free[first..first + gone.len()].copy_from_slice(&gone);
        let cleared: Vec<usize> = gone.into_iter().map(|word| self.slot_of(word)).collect();
        cleared.iter().for_each(|slot| self.rows[*slot] = NO_ROW);
        cleared
    }

    // ---- with the Rust

    /// The Rust's records become what the entries read as: one for each entry, in its part's table and in order.
    pub fn set(&self, rust: &shed::Shedder) {
        if rust.is_bounded() {
            (0..TABLES).for_each(|table| rust.set_table(table, &self.records(table)));
        }
    }

    /// After a call's verdict or hand-back the Rust has another use in one record, the unit's, or one record more: it goes into the
    /// slot of its entry.
    fn take_use(&mut self, rust: &shed::Shedder, unit: Unit) -> Result<(), String> {
        let table = usize::from(tag_of(unit) >> 10);
        let theirs = rust.table_words(table);
        let found = theirs.iter().position(|(u, _)| *u == unit).filter(|_| unit != Unit::Overflow);
        let Some(k) = found else { return self.same_but(rust, None) };
        let is_new = theirs.len() > self.part(table).len();
        let slot = if is_new { self.add(table, tag_of(unit), words_of(unit), theirs[k].1) } else { self.put(self.part(table).start + k, theirs[k].1) };
        if self.sharing(slot) > 1 {
            meet(0, 1);
            meet(1, usize::from(is_new));
        }
        self.same_but(rust, Some((slot, self.part(table).start + k)))
    }

    /// The Rust's records are what the entries read as, but where the slot that was written is read by another entry than the one
    /// that wrote it.
    fn same_but(&self, rust: &shed::Shedder, written: Option<(usize, usize)>) -> Result<(), String> {
        for table in 0..TABLES {
            let theirs = rust.table_words(table);
            differs("records of a table", theirs.len(), self.part(table).len())?;
            for (i, record) in self.part(table).zip(theirs) {
                if !written.is_some_and(|(slot, at)| i != at && self.slot_of(self.slots[i]) == slot) {
                    differs("a record that the call did not use", record, self.record(i))?;
                }
            }
        }
        Ok(())
    }

    /// Which records of a table the Rust's scan dropped. Records that are alike are all dropped or all kept, since the stamp decides.
    fn gone(&self, rust: &shed::Shedder, table: usize) -> Result<Vec<bool>, String> {
        let left = rust.table_words(table);
        let mut k = 0;
        let mut goes = Vec::new();
        for record in self.records(table) {
            let stays = left.get(k) == Some(&record);
            k += usize::from(stays);
            goes.push(!stays);
        }
        differs("records that a scan leaves", left.len(), k)?;
        Ok(goes)
    }

    /// What the Rust's scan dropped, table by table. All tables are read before a row is cleared.
    fn take_drops(&mut self, rust: &shed::Shedder) -> Result<(), String> {
        let goes: Vec<Vec<bool>> = (0..TABLES).map(|table| self.gone(rust, table)).collect::<Result<_, _>>()?;
        let mut cleared = Vec::new();
        for (table, goes) in goes.iter().enumerate().filter(|(_, goes)| goes.contains(&true)) {
            cleared.extend(self.drop(table, goes));
        }
        let slots: BTreeSet<usize> = cleared.iter().copied().collect();
        meet(2, slots.iter().map(|slot| self.sharing(*slot)).sum());
        meet(3, cleared.len() - slots.len());
        Ok(())
    }

    /// A judgement by the Rust, whose scan comes after its verdict: in it all entries of the slot that was written are as it left them.
    /// Between the two visits of a scan nothing need be shared: the entries of one slot have one stamp, so all that are visited go or
    /// none, and none that stays reads a row that was cleared.
    pub fn judge(&mut self, rust: &shed::Shedder, unit: Unit, cost: Cost, stamp: u64) -> Result<Result<(), Cause>, String> {
        let verdict = rust.judge_unscanned(unit, cost, stamp);
        if rust.is_bounded() {
            self.take_use(rust, unit)?;
            self.set(rust);
            rust.scan();
            self.take_drops(rust)?;
            self.set(rust);
        }
        Ok(verdict)
    }

    /// A cut that the Rust has made.
    pub fn cut(&mut self, rust: &shed::Shedder, unit: Unit) -> Result<(), String> {
        if rust.is_bounded() {
            self.take_use(rust, unit)?;
            self.set(rust);
        }
        Ok(())
    }

    // ---- against lent memory

    /// All places of the index, the offsets, the free slots and the rows of every slot.
    pub fn same(&self, s: &Shedder) -> Result<(), String> {
        let room = self.room();
        differs("the index's tags", &self.tags[..], &s.tags[..room])?;
        differs("the index's slots", &self.slots[..], &s.slots[..])?;
        differs("offsets", self.offsets, s.offsets.map(|o| o as usize))?;
        differs("the free slots", self.stack(), &s.free[..self.stack().len()])?;
        match (0..room).find(|slot| self.rows[*slot] != row(s, *slot)) {
            Some(slot) => differs(&format!("slot {slot}"), self.rows[slot], row(s, slot)),
            None => Ok(()),
        }
    }
}
