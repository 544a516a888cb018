//! The Rust's report as document 01's text.
use crate::shed::ShedReport;
use std::fmt::Write;

pub fn text_of(r: &ShedReport) -> String {
    let mut t = String::new();
    for (word, rates) in [("rate", r.rate), ("ceiling", r.ceiling)] {
        match rates {
            Some(x) => writeln!(t, "{word} {} {}", x.receptions_per_s, x.bytes_per_s).unwrap(),
            None => writeln!(t, "{word} none").unwrap(),
        }
    }
    writeln!(t, "active {}", r.active_sources).unwrap();
    for (word, cuts) in [("receiver-ceiling", r.receiver_ceiling), ("over-share", r.over_share), ("relay-rate", r.relay_rate)] {
        writeln!(t, "{word} {} {}", cuts.batches, cuts.receptions).unwrap();
    }
    for s in &r.sources {
        writeln!(t, "source {} {} {} {}", s.source, s.receiver_ceiling, s.over_share, s.relay_rate).unwrap();
    }
    t
}
