//! The answer of a judgement as words: refusal, verdict, rule, dimension and two doubles, with the numbers of link/README.md.
use crate::shed::{bits, last_asked, Asked, Cause, Shedder};
use crate::tankpost::{Decision, Dim, Rule, Side, Verdict};
use std::sync::atomic::{AtomicU64, Ordering};

pub type Answer = [u64; 6];

const NO_DIM: u64 = u64::MAX;

/// How many judgements the Rust decided by each rule: admitted, then each other rule in receptions and in bytes.
static MET: [AtomicU64; 11] = [const { AtomicU64::new(0) }; 11];

/// The judgements compared so far, by rule.
pub fn met() -> String {
    let n = |i: usize| MET[i].load(Ordering::Relaxed);
    let pair = |i: usize| format!("{} and {}", n(2 * i - 1), n(2 * i));
    format!(
        "judgements by rule, of receptions and of bytes: admitted {}, credit within {}, credit over {}, tokens within {}, tokens over {}, reserve {}",
        n(0), pair(1), pair(2), pair(3), pair(4), pair(5)
    )
}

pub fn words_of(d: &Decision) -> Answer {
    [d.refusal, d.verdict, d.rule, d.dim, bits(d.want_or_mark), bits(d.part)]
}

pub fn refused(number: u64) -> Answer {
    [number, 0, 0, NO_DIM, 0, 0]
}

fn rule_words(asked: Asked) -> [u64; 4] {
    let side = |code: u64, within: bool| if within { code } else { code + 1 };
    match asked {
        Asked::Admitted(want) => [1, NO_DIM, bits(want), 0],
        Asked::Credit { within, dim } => [side(2, within), dim as u64, 0, 0],
        Asked::Tokens { within, dim } => [side(4, within), dim as u64, 0, 0],
        Asked::Reserve { dim, mark, part } => [6, dim as u64, bits(mark), bits(part)],
    }
}

/// The Rust's own verdict on the judgement just made, and beside it the question that decided.
pub fn judged(rust: &Shedder, verdict: Result<(), Cause>) -> Answer {
    let verdict = match verdict {
        Ok(()) => 1,
        Err(Cause::OverShare) => 2,
        Err(_) => 3,
    };
    let asked = if rust.is_bounded() { last_asked().unwrap() } else { Asked::Admitted(0.0) };
    let [rule, dim, a, b] = rule_words(asked);
    let at = if rule == 1 { 0 } else { 2 * (rule as usize - 2) + 1 + dim as usize };
    MET[at].fetch_add(1, Ordering::Relaxed);
    [0, verdict, rule, dim, a, b]
}

/// The same as text, to compare with what link/tankpost.rs says by name.
pub fn named(words: &Answer) -> String {
    let [refusal, verdict, rule, dim, a, b] = *words;
    let dim = || ["receptions", "bytes"][dim as usize];
    let rule = match rule {
        0 => return format!("refused {refusal}"),
        1 => format!("admitted {a:x}"),
        2 => format!("credit within {}", dim()),
        3 => format!("credit over {}", dim()),
        4 => format!("tokens within {}", dim()),
        5 => format!("tokens over {}", dim()),
        _ => format!("reserve {} {a:x} {b:x}", dim()),
    };
    format!("{} {rule}", ["", "admitted", "over-share", "relay-rate"][verdict as usize])
}

pub fn told(answer: Result<(Verdict, Rule), u64>) -> String {
    let side = |s: Side| match s {
        Side::Within => "within",
        Side::Over => "over",
    };
    let dim = |d: Dim| match d {
        Dim::Receptions => "receptions",
        Dim::Bytes => "bytes",
    };
    let (verdict, rule) = match answer {
        Ok(told) => told,
        Err(number) => return format!("refused {number}"),
    };
    let verdict = match verdict {
        Verdict::Admitted => "admitted",
        Verdict::OverShare => "over-share",
        Verdict::RelayRate => "relay-rate",
    };
    match rule {
        Rule::Admitted(want) => format!("{verdict} admitted {:x}", bits(want)),
        Rule::Credit(s, d) => format!("{verdict} credit {} {}", side(s), dim(d)),
        Rule::Tokens(s, d) => format!("{verdict} tokens {} {}", side(s), dim(d)),
        Rule::Reserve { dim: d, mark, part } => format!("{verdict} reserve {} {:x} {:x}", dim(d), bits(mark), bits(part)),
    }
}
