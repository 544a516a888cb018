//! The steps of a list: calls, and writes of any bits into the state between them.
use crate::lines::{self, Line};
use crate::shed::{Cause, Unit, UseWords};
use crate::tankpost::Words;
use crate::units::{tag_of, unit_of, words_of};

#[derive(Clone, Copy, Debug)]
pub enum Step {
    Start([u64; 2], [u64; 2]),
    Judge(Unit, [u64; 2], u64),
    Cut(Unit, Cause, [u64; 2]),
    /// new rates, the ceiling, the stamp
    Rates([u64; 2], [u64; 2], u64),
    /// with so much room in the buffer
    Report(usize),
    /// a word of the head
    Head(usize, u64),
    /// tables still to visit, and the next
    Tables(u64, u64),
    /// a bucket of a dimension's histogram: count and sum
    Want(usize, usize, u32, u64),
    /// a record more at the end of this table's part, of this tag and these words, with this word for fresh
    Record(usize, u16, Words, UseWords, u64),
    /// a counted source more
    Counted(u16, Words, [u64; 3]),
    /// this entry (modulo those in use) names another slot
    Slot(usize, Named),
    /// this free place (modulo those that are free, from the next one taken) names another slot
    Free(usize, Named),
}

/// What an entry or a free place comes to name.
#[derive(Clone, Copy, Debug)]
pub enum Named {
    /// a slot that there is not: so many behind the first such, at most u32::MAX
    Beyond(u32),
    /// what this entry names (modulo those in use)
    Entry(usize),
    /// what this free place names (as above)
    Free(usize),
    /// this slot (modulo the room)
    Slot(usize),
}

/// splitmix64
pub struct Random(pub u64);

impl Random {
    pub fn word(&mut self) -> u64 {
        self.0 = self.0.wrapping_add(0x9e37_79b9_7f4a_7c15);
        let z = (self.0 ^ (self.0 >> 30)).wrapping_mul(0xbf58_476d_1ce4_e5b9);
        let z = (z ^ (z >> 27)).wrapping_mul(0x94d0_49bb_1331_11eb);
        z ^ (z >> 31)
    }

    pub fn below(&mut self, n: usize) -> usize {
        (self.word() % n as u64) as usize
    }

    pub fn one<T: Copy>(&mut self, of: &[T]) -> T {
        of[self.below(of.len())]
    }

    /// A number of any size up to 64 bits.
    pub fn sized(&mut self) -> u64 {
        self.word() >> self.below(64)
    }

    /// The bits of a double: any, or one of those that matter.
    pub fn float(&mut self) -> u64 {
        let special = [0.0, -0.0, 1.0, 0.5, -1.0, f64::INFINITY, f64::NEG_INFINITY, f64::NAN, f64::MIN_POSITIVE, 1e15, f64::MAX];
        match self.below(4) {
            0 => self.word(),
            1 => self.one(&special).to_bits(),
            2 => (self.sized() as f64).to_bits(),
            _ => (self.word() as f64 / (1u64 << 40) as f64).to_bits(),
        }
    }

    pub fn stamp(&mut self) -> u64 {
        self.sized() >> 11
    }
}

/// The lines that have a form, as steps; a report gets a buffer of a size of its own.
pub fn of_lines(script: &[u8], random: &mut Random) -> Vec<Step> {
    let step = |line| match line {
        Line::Start(n) => Step::Start([n[0], n[1]], [n[2], n[3]]),
        Line::Judge(unit, cost, stamp) => Step::Judge(unit, cost, stamp),
        Line::Cut(unit, cause, cost) => Step::Cut(unit, cause, cost),
        Line::Report => Step::Report(random.one(&[0, 60, 200, 1_000, 4_096, 8_192])),
    };
    script.split(|b| *b == b'\n').filter_map(lines::line).map(step).collect()
}

fn a_use(random: &mut Random) -> UseWords {
    let [a, b, c, d] = [(); 4].map(|_| random.float());
    let at = if random.below(2) == 0 { random.stamp() } else { random.word() };
    [a, b, c, d, at, random.word() & 1]
}

/// The tag and the words of a unit of the list, or of any unit; now and then a kind that there is not, a prefix too large, other
/// bits in words that the unit does not use, or another tag.
fn some_name(random: &mut Random, known: &[Unit]) -> (u16, Words) {
    let mut words = some_words(random, known);
    let own = tag_of(unit_of(words));
    if words.kind > 0 && random.below(8) == 0 {
        words.d = random.word();
    }
    let tag = match random.below(12) {
        0 => random.word() as u16,
        // of the same table
        1 => own ^ 1,
        _ => own,
    };
    (tag, words)
}

fn some_words(random: &mut Random, known: &[Unit]) -> Words {
    let odd = |kind, a| Words { kind, a, ..Words::default() };
    match random.below(8) {
        0 => odd(5 + random.sized() % 1_000, random.word()),
        1 => odd(1, 65_536 + random.sized() % 1_000),
        2 => odd(2, (1 << 32) + random.sized() % 1_000),
        3 => odd(1, random.word() & 0xffff),
        _ => words_of(random.one(known)),
    }
}

/// A write of some part of the state.
pub fn a_write(random: &mut Random, known: &[Unit]) -> Step {
    match random.below(8) {
        0 | 1 => {
            let (tag, words) = some_name(random, known);
            // now and then in another table's part, where it is not found
            let table = if random.below(8) == 0 { random.below(64) } else { usize::from(tag >> 10) };
            Step::Record(table, tag, words, a_use(random), random.word() | 1)
        }
        2 => Step::Want(random.below(2), random.below(768), random.sized() as u32, random.float()),
        3 => {
            let remaining = random.below(65) as u64;
            if random.below(3) == 0 { Step::Tables(0, 0) } else { Step::Tables(remaining, 64 - remaining) }
        }
        4 => {
            let n = random.one(&[u64::MAX, u64::MAX - 1, 0, 1, 2]);
            let (tag, words) = some_name(random, known);
            Step::Counted(tag, words, [n, random.sized(), random.sized()])
        }
        5 => Step::Head(random.one(&[10, 21, 22, 27]), random.stamp()),
        6 => Step::Head(random.one(&[17, 18, 30, 33, 34, 35, 36, 37, 38]), random.word()),
        _ => Step::Head(random.one(&[4, 5, 6, 7, 8, 9, 11, 12, 13, 14, 15, 16, 23, 24, 25, 26, 28, 29, 31, 32]), random.float()),
    }
}

/// The list with a write before about every fourth step.
pub fn with_writes(list: Vec<Step>, random: &mut Random) -> Vec<Step> {
    let known: Vec<Unit> = list
        .iter()
        .filter_map(|s| match s {
            Step::Judge(u, ..) | Step::Cut(u, ..) => Some(*u),
            _ => None,
        })
        .chain([Unit::Overflow, Unit::Group(None)])
        .collect();
    let mut out = Vec::new();
    for (i, step) in list.into_iter().enumerate() {
        if i > 0 && random.below(4) == 0 {
            out.push(a_write(random, &known));
        }
        out.push(step);
    }
    out
}

/// A slot that there is not, another entry's, which may be a neighbour of entry i, a free one, or any.
fn some_named(random: &mut Random, i: usize) -> Named {
    match random.below(8) {
        0..=2 => {
            let any = random.word() as u32;
            Named::Beyond(random.one(&[0, 1, u32::MAX, any]))
        }
        3 | 4 => Named::Entry(i + 1 + random.below(3)),
        5 => Named::Entry(random.below(1 << 20)),
        6 => Named::Free(random.below(3)),
        _ => Named::Slot(random.below(1 << 20)),
    }
}

/// Another slot for an entry, or for one of the next free places.
fn a_slot(random: &mut Random) -> Step {
    let i = random.below(1 << 20);
    match random.below(4) {
        0 => Step::Free(random.below(4), some_named(random, i)),
        _ => Step::Slot(i, some_named(random, i)),
    }
}

/// The list with another slot before about every fourth step, or more seldom.
pub fn with_slots(list: Vec<Step>, random: &mut Random) -> Vec<Step> {
    let every = random.one(&[4, 20, 100]);
    let mut out = Vec::new();
    for step in list {
        if random.below(every) == 0 {
            out.push(a_slot(random));
        }
        out.push(step);
    }
    out
}

/// A rate: the ends of its range, one of a list's size, or now and then one that is refused.
fn a_rate(random: &mut Random) -> u64 {
    let sized = 1 + random.sized() % 100_000;
    random.one(&[1, 1 << 40, 1 << 40, sized, sized, sized, 10, 1_000, (1 << 40) + 1])
}

/// New rates at the stamp of the judgement before, an older one, a later one, or now and then one far ahead.
fn some_rates(random: &mut Random, last: u64) -> Step {
    let rate = if random.below(20) == 0 { [u64::MAX; 2] } else { [(); 2].map(|_| a_rate(random)) };
    let ceiling = [(); 2].map(|_| random.one(&[0, 0, 50, 1 << 40, u64::MAX]));
    let stamp = match random.below(40) {
        0 => random.stamp(),
        1 => 1 << 53,
        2..=9 => last.saturating_sub(random.sized() % 10_000),
        10..=19 => last.saturating_add(random.sized() % 3_000),
        _ => last,
    };
    Step::Rates(rate, ceiling, stamp)
}

/// The list with new rates now and then, often or seldom.
pub fn with_rates(list: Vec<Step>, random: &mut Random) -> Vec<Step> {
    let every = random.one(&[3, 10, 50]);
    let mut last = 0;
    let mut out = Vec::new();
    for step in list {
        if random.below(every) == 0 {
            out.push(some_rates(random, last));
        }
        if let Step::Judge(_, _, stamp) = step {
            last = stamp;
        }
        out.push(step);
    }
    out
}
