//! A unit of the Rust and its words here, and the hash that a record keeps, from document 01.
use crate::group::Group;
use crate::shed::Unit;
use crate::key::PublicKey;
use crate::tankpost::Words;

fn number(kind: u64, a: u64) -> Words {
    Words { kind, a, ..Words::default() }
}

pub fn words_of(unit: Unit) -> Words {
    match unit {
        Unit::Corroborated(key) => {
            let w = |i: usize| u64::from_be_bytes(key.0[8 * i..8 * i + 8].try_into().unwrap());
            Words { kind: 0, a: w(0), b: w(1), c: w(2), d: w(3) }
        }
        Unit::Group(Some(Group::V4(prefix))) => number(1, prefix.into()),
        Unit::Group(Some(Group::V6(prefix))) => number(2, prefix.into()),
        Unit::Group(None) => number(3, 0),
        Unit::Overflow => number(4, 0),
    }
}

/// Any other kind, and a prefix too large for its group, is overflow.
pub fn unit_of(w: Words) -> Unit {
    match w.kind {
        0 => {
            let mut key = [0; 32];
            for (bytes, word) in key.chunks_mut(8).zip([w.a, w.b, w.c, w.d]) {
                bytes.copy_from_slice(&word.to_be_bytes());
            }
            Unit::Corroborated(PublicKey(key))
        }
        1 => u16::try_from(w.a).map_or(Unit::Overflow, |n| Unit::Group(Some(Group::V4(n)))),
        2 => u32::try_from(w.a).map_or(Unit::Overflow, |n| Unit::Group(Some(Group::V6(n)))),
        3 => Unit::Group(None),
        _ => Unit::Overflow,
    }
}

/// What a record reads as: the unit whose record has exactly this tag and these words, else overflow.
pub fn reads(tag: u16, w: Words) -> Unit {
    let unit = unit_of(w);
    if tag_of(unit) == tag && words_of(unit) == w { unit } else { Unit::Overflow }
}

/// What a record keeps of the unit's hash: the table, and the ten lowest bits.
pub fn tag_of(unit: Unit) -> u16 {
    let hash = hash_of(unit);
    ((hash >> 58 << 10) | (hash & 1023)) as u16
}

/// 64-bit FNV-1a over document 01's bytes.
fn hash_of(unit: Unit) -> u64 {
    let mut bytes = Vec::new();
    match unit {
        Unit::Corroborated(key) => {
            bytes.push(0);
            bytes.extend(key.0);
        }
        Unit::Group(Some(Group::V4(prefix))) => {
            bytes.push(1);
            bytes.extend(((1 << 32) + u64::from(prefix)).to_be_bytes());
        }
        Unit::Group(Some(Group::V6(prefix))) => {
            bytes.push(1);
            bytes.extend(((1 << 33) + u64::from(prefix)).to_be_bytes());
        }
        Unit::Group(None) => bytes.push(2),
        Unit::Overflow => bytes.push(3),
    }
    bytes.iter().fold(0xcbf2_9ce4_8422_2325, |h, b| (h ^ u64::from(*b)).wrapping_mul(0x0100_0000_01b3))
}
