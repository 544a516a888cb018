//! Document 01's questions, and document 02's 10, written from their text: the number of the first answered no, 0 where all are answered yes.
use crate::tankpost::{Head, Shedder};

const MOST: u64 = 1 << 40;
const STAMP: u64 = (1 << 53) - 1;

fn rates(rate: [u64; 2]) -> bool {
    rate == [u64::MAX; 2] || rate.iter().all(|r| (1..=MOST).contains(r))
}

fn rooms(units: usize, counted: usize) -> bool {
    (1..=131_072).contains(&units) && (2..=4_097).contains(&counted)
}

fn head(h: &Head) -> bool {
    let s = &h.scan;
    rates(h.flow.rate)
        && [h.flow.at_ms, s.at_ms, s.began_ms, s.read_ms].iter().all(|t| *t <= STAMP)
        && ((s.remaining <= 64 && s.remaining.checked_add(s.next) == Some(64)) || (s.remaining == 0 && s.next == 0))
        && rooms(h.unit_room, h.counted_room)
        && h.tracked <= h.unit_room
        && h.counted <= h.counted_room - 1
}

/// The offsets begin at 0, never fall and end at the number of records in use.
pub fn parts(s: &Shedder) -> bool {
    let o = &s.offsets;
    o[0] == 0 && o.windows(2).all(|w| w[0] <= w[1]) && o[64] as usize == s.head.tracked
}

fn whole(s: &Shedder) -> bool {
    head(&s.head) && parts(s)
}

/// A tag for each unit record and each counted record.
fn tags(s: &Shedder) -> bool {
    s.tags.len() == s.units.len() + s.counted.len()
}

fn memory(s: &Shedder) -> bool {
    tags(s) && [s.slots.len(), s.free.len(), s.units.len(), s.uses.len()] == [s.head.unit_room; 4] && s.counted.len() == s.head.counted_room
}

fn first_no(answers: &[(u64, bool)]) -> u64 {
    answers.iter().find(|(_, yes)| !yes).map_or(0, |(number, _)| *number)
}

fn costs(cost: [u64; 2]) -> bool {
    cost.iter().all(|c| *c <= MOST)
}

pub fn start(s: &Shedder, rate: [u64; 2]) -> u64 {
    let fits = tags(s) && [s.slots.len(), s.free.len(), s.uses.len()] == [s.units.len(); 3];
    first_no(&[(1, rates(rate)), (2, fits && rooms(s.units.len(), s.counted.len()))])
}

pub fn judge(s: &Shedder, cost: [u64; 2], stamp: u64) -> u64 {
    if !whole(s) {
        return 3;
    }
    first_no(&[(4, memory(s)), (5, costs(cost)), (6, stamp <= STAMP)])
}

pub fn cut(s: &Shedder, cost: [u64; 2]) -> u64 {
    judge(s, cost, 0)
}

/// New rates: question 1 is asked of them, and 10 of the running ones too.
pub fn set_rates(s: &Shedder, rate: [u64; 2], stamp: u64) -> u64 {
    if !whole(s) {
        return 3;
    }
    let bounded = s.head.flow.rate != [u64::MAX; 2] && rate != [u64::MAX; 2];
    first_no(&[(4, memory(s)), (1, rates(rate)), (6, stamp <= STAMP), (10, bounded)])
}

/// Question 7 is asked of the text, which is the caller's.
pub fn report(s: &Shedder) -> u64 {
    judge(s, [0; 2], 0)
}

pub fn read(s: &Shedder) -> u64 {
    if whole(s) { 0 } else { 3 }
}
