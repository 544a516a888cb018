//! The trial's lines, read as document 01 has them.
use crate::group::Group;
use crate::shed::{Cause, Unit};
use crate::key::PublicKey;
use std::net::Ipv6Addr;

pub enum Line {
    Start([u64; 4]),
    Judge(Unit, [u64; 2], u64),
    Cut(Unit, Cause, [u64; 2]),
    Report,
}

fn number(s: &[u8], most: u64) -> Option<u64> {
    if s.len() > 20 || !s.iter().all(u8::is_ascii_digit) || (s.len() > 1 && s[0] == b'0') {
        return None;
    }
    let n: u64 = std::str::from_utf8(s).ok()?.parse().ok()?;
    (n <= most).then_some(n)
}

pub fn unit(s: &[u8]) -> Option<Unit> {
    let t = std::str::from_utf8(s).ok()?;
    let u = if t == "no-address" {
        Unit::Group(None)
    } else if t == "overflow" {
        Unit::Overflow
    } else if let Some(digits) = t.strip_prefix("key:") {
        let mut key = [0; 32];
        for (i, byte) in key.iter_mut().enumerate() {
            *byte = u8::from_str_radix(digits.get(2 * i..2 * i + 2)?, 16).ok()?;
        }
        Unit::Corroborated(PublicKey(key))
    } else if let Some(rest) = t.strip_prefix("v4:") {
        let (a, b) = rest.strip_suffix(".0.0/16")?.split_once('.')?;
        let (a, b) = (number(a.as_bytes(), 255)?, number(b.as_bytes(), 255)?);
        Unit::Group(Some(Group::V4((a << 8 | b) as u16)))
    } else {
        let address: Ipv6Addr = t.strip_prefix("v6:")?.strip_suffix("/32")?.parse().ok()?;
        Unit::Group(Some(Group::V6((u128::from(address) >> 96) as u32)))
    };
    // the label, and only it
    (u.label() == t).then_some(u)
}

fn cause(s: &[u8]) -> Option<Cause> {
    match s {
        b"receiver-ceiling" => Some(Cause::ReceiverCeiling),
        b"over-share" => Some(Cause::OverShare),
        b"relay-rate" => Some(Cause::RelayRate),
        _ => None,
    }
}

/// The call of a line, none where it has no form.
pub fn line(bytes: &[u8]) -> Option<Line> {
    let f: Vec<&[u8]> = bytes.split(|b| *b == b' ').collect();
    let n = |i: usize| number(f[i], u64::MAX);
    match (f[0], f.len()) {
        _ if bytes.len() > 200 => None,
        (b"R", 5) => Some(Line::Start([n(1)?, n(2)?, n(3)?, n(4)?])),
        (b"J", 5) => Some(Line::Judge(unit(f[1])?, [n(2)?, n(3)?], n(4)?)),
        (b"C", 5) => Some(Line::Cut(unit(f[1])?, cause(f[2])?, [n(3)?, n(4)?])),
        (b"P", 1) => Some(Line::Report),
        _ => None,
    }
}
