//! Lists of refusals: heads, memory, costs and stamps that the questions refuse. The number is that of the model in
//! questions.rs; head and all lent memory are compared byte for byte before and after.
use crate::questions;
use crate::rules;
use crate::shed::Unit;
use crate::steps::Random;
use crate::tankpost::{Shedder, Words};
use crate::units::words_of;

const STAMP: u64 = (1 << 53) - 1;
const MOST: u64 = 1 << 40;

fn bytes_of<T>(rows: &[T]) -> &[u8] {
    unsafe { std::slice::from_raw_parts(rows.as_ptr().cast(), std::mem::size_of_val(rows)) }
}

/// Head and memory as bytes; each byte of the head belongs to a field.
fn held(s: &Shedder) -> Vec<u8> {
    let mut out = bytes_of(std::slice::from_ref(&s.head)).to_vec();
    for rows in [bytes_of(&s.tags), bytes_of(&s.slots), bytes_of(&s.offsets), bytes_of(&s.free), bytes_of(&s.units), bytes_of(&s.uses), bytes_of(&s.counted)] {
        out.extend(rows);
    }
    out.extend(bytes_of(std::slice::from_ref(&*s.counts)));
    out.extend(bytes_of(std::slice::from_ref(&*s.sums)));
    out
}

/// A shedder after some calls.
fn used(random: &mut Random) -> Shedder {
    let mut s = Shedder::new(1 + random.below(20), 2 + random.below(8));
    s.tags.fill_with(|| random.word() as u16);
    s.slots.fill_with(|| random.word() as u32);
    s.offsets = [(); 65].map(|_| random.word() as u32);
    s.free.fill_with(|| random.word() as u32);
    s.uses.fill_with(|| [(); 4].map(|_| f64::from_bits(random.word())));
    let rate = if random.below(5) == 0 { [u64::MAX; 2] } else { [1 + random.below(50) as u64, 1 + random.below(5_000) as u64] };
    assert_eq!(s.start(rate, [random.sized(), random.sized()]), 0);
    for i in 0..random.below(200) as u64 {
        let unit = Words { kind: 1, a: random.below(30) as u64, ..Words::default() };
        s.decision(unit, [random.below(20) as u64, random.below(2_000) as u64], 40 * i);
    }
    s
}

/// One field of the head, one length or some offsets become others.
fn spoil(s: &mut Shedder, random: &mut Random) {
    let h = &mut s.head;
    let stamp = random.one(&[STAMP, STAMP + 1, u64::MAX, 0]);
    let size = random.one(&[0, 1, 2, 63, 64, 65, 131_072, 131_073, 4_097, 4_098, usize::MAX]);
    match random.below(25) {
        0 => h.flow.rate[random.below(2)] = random.one(&[0, 1, MOST, MOST + 1, u64::MAX, u64::MAX - 1]),
        1 => h.flow.at_ms = stamp,
        2 => h.scan.at_ms = stamp,
        3 => h.scan.began_ms = stamp,
        4 => h.scan.read_ms = stamp,
        5 => h.scan.remaining = size,
        6 => h.scan.next = size,
        7 => (h.scan.remaining, h.scan.next) = (size, 64usize.wrapping_sub(size)),
        8 => h.unit_room = size,
        9 => h.counted_room = size,
        10 => h.tracked = random.one(&[h.unit_room, h.unit_room.wrapping_add(1), size]),
        11 => h.counted = random.one(&[h.counted_room.wrapping_sub(1), h.counted_room, size]),
        12 => s.tags.truncate(random.below(30)),
        13 => s.tags.push(0),
        14 => s.units.push([0; 7]),
        15 => s.uses.truncate(random.below(22)),
        16 => s.counted.push([0; 8]),
        17 => s.slots.truncate(random.below(22)),
        18 => s.slots.push(0),
        19 => s.free.truncate(random.below(22)),
        20 => s.free.push(0),
        21 => s.offsets[random.below(65)] = random.one(&[0, 1, 2, 20, 21, 131_072, u32::MAX]),
        22 => s.offsets[random.below(65)..].iter_mut().for_each(|o| *o = o.wrapping_add(1)),
        23 => s.offsets[0] = 1,
        _ => s.counted.truncate(random.below(9)),
    }
}

/// One call on the shedder: the model's number and the answer's refusal. A report has a buffer of no bytes, so that question
/// 7 is answered no where it is asked.
fn call(s: &mut Shedder, random: &mut Random) -> (u64, u64) {
    let unit = words_of(random.one(&[Unit::Overflow, Unit::Group(None)]));
    let cost = [(); 2].map(|_| random.one(&[0, 1, MOST, MOST + 1, u64::MAX]));
    let stamp = random.one(&[0, 5_000, STAMP, STAMP + 1, u64::MAX]);
    match random.below(10) {
        0 => {
            let rate = [(); 2].map(|_| random.one(&[0, 1, MOST, MOST + 1, u64::MAX]));
            (questions::start(s, rate), s.start(rate, cost))
        }
        1 | 2 => {
            let asked = questions::judge(s, cost, stamp);
            let answer = s.decision(unit, cost, stamp);
            assert!(asked == 0 || rules::words_of(&answer) == rules::refused(asked), "refused with a verdict or a rule: {answer:?}");
            (asked, answer.refusal)
        }
        3 => (questions::cut(s, cost), s.cut(unit, random.sized(), cost)),
        4 | 5 => {
            let asked = questions::report(s);
            let answer = s.report(&mut []);
            assert_eq!(answer.value, 0);
            assert_eq!(answer.refusal, s.report_refusal(&[]));
            (if asked == 0 { 7 } else { asked }, answer.refusal)
        }
        6 => (questions::read(s), s.visited().refusal),
        7 => {
            let level = s.level(random.sized());
            assert!(level.refusal == 0 || level.value == 0.0);
            (questions::read(s), level.refusal)
        }
        8 => {
            let rate = if random.below(3) == 0 { [u64::MAX; 2] } else { [(); 2].map(|_| random.one(&[0, 1, MOST, MOST + 1, u64::MAX])) };
            (questions::set_rates(s, rate, stamp), s.set_rates(rate, cost, stamp))
        }
        _ => {
            let (a, b, c) = (s.cut_batches(random.sized()), s.rate(random.sized()), s.is_bounded());
            assert!(a.refusal == b.refusal && b.refusal == c.refusal);
            assert!(a.refusal == 0 || [a.value, b.value, c.value] == [0; 3]);
            (questions::read(s), a.refusal)
        }
    }
}

/// So many lists of 100 calls; the numbers of calls by their refusal, 0 for none.
pub fn run(lists: u64) -> Result<[u64; 11], String> {
    let mut made = [0; 11];
    for seed in 0..lists {
        let mut random = Random(seed);
        let whole = used(&mut random);
        for i in 0..100 {
            let mut s = whole.clone();
            for _ in 0..random.below(3) {
                spoil(&mut s, &mut random);
            }
            let before = held(&s);
            let (asked, answer) = call(&mut s, &mut random);
            made[asked as usize] += 1;
            if asked != answer {
                return Err(format!("list {seed}, call {i}: the documents have number {asked}, the answer is {answer}"));
            }
            if asked != 0 && before != held(&s) {
                return Err(format!("list {seed}, call {i}: refused by {asked}, but head or memory changed"));
            }
        }
    }
    Ok(made)
}
