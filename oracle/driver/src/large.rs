//! A list for the largest capacities: more senders than unit records, and more sources cut than counted records.
use crate::group::Group;
use crate::shed::{Cause, Unit};
use crate::key::PublicKey;
use crate::steps::{Random, Step};

pub const UNITS: usize = 131_072;
pub const COUNTED: usize = 4_097;
const SENDERS: usize = 140_000;

fn sender(i: usize, random: &mut Random) -> Unit {
    match i % 3 {
        0 => {
            let mut key = [0; 32];
            key.fill_with(|| random.word() as u8);
            Unit::Corroborated(PublicKey(key))
        }
        1 if i < 65_536 => Unit::Group(Some(Group::V4(i as u16))),
        _ => Unit::Group(Some(Group::V6(i as u32))),
    }
}

/// Each sender once in four seconds, so that the store fills up and none is dropped; then so many calls of any sender; then
/// calls of a few, ten seconds later, while scans drop the others.
pub fn list(calls: usize) -> Vec<Step> {
    let mut random = Random(7);
    let senders: Vec<Unit> = (0..SENDERS).map(|i| sender(i, &mut random)).collect();
    let mut out = vec![Step::Start([30_000, 10_000_000], [0, 100])];
    let cost = |random: &mut Random| [1 + random.below(4) as u64, 100 + random.below(900) as u64];
    for (i, unit) in senders.iter().enumerate() {
        let c = cost(&mut random);
        out.push(Step::Judge(*unit, c, 1_000 + i as u64 / 35));
    }
    for i in 0..calls {
        let (unit, c) = (random.one(&senders), cost(&mut random));
        out.push(match random.below(12) {
            0 => Step::Cut(unit, random.one(&[Cause::ReceiverCeiling, Cause::OverShare, Cause::RelayRate]), c),
            1 if i % 64 == 0 => Step::Report(8_192),
            _ => Step::Judge(unit, c, 5_000 + i as u64 / 35),
        });
    }
    for i in 0..400 {
        let c = cost(&mut random);
        out.push(Step::Judge(senders[random.below(50)], c, 30_000 + 20 * i));
    }
    out.push(Step::Report(8_192));
    out
}
