#!/usr/bin/env python3
"""Makes shed.rs and group.rs from a checkout of the original, by the edits listed here and no others.

usage: make_oracle.py CHECKOUT FOLDER [--plain | --original]
CHECKOUT has crates/relay/src/shed.rs and directory.rs; the two files are written to FOLDER.
--plain keeps the Rust's own exp, log2, min, max and clamp, to see what the stand-ins change.
--original makes only the edits without which the file does not compile alone, and appends nothing: for bench/.

An edit is (kind, label, old text, new text, number of matches). An old text `FROM ... TO` is all from FROM to the next TO.
Kinds: alone (does not compile without), map (records in order of arrival), sizes (capacities by parameter), numbers (the
stand-ins of document 01 for what Rust leaves open), rule (which question decided, asked beside the verdict: document 02, K1),
label (a V6 group's prefix as std prints an address, by RFC 5952: document 02, K5), order (the counts of a level are added from the
highest bucket down: document 02, K7).
"""
import os
import sys

EDITS = [
    ('map', 'arrival-ordered map', 'use std::collections::HashMap;', 'use crate::standin::OrderedMap as HashMap;', 1),
    ('alone', 'no gauge', 'use std::sync::{Arc, Mutex};', 'use std::sync::Mutex;', 1),
    ('alone', 'PublicKey stand-in', 'use tally_wire::PublicKey;', 'use crate::key::PublicKey;', 1),
    ('alone', 'no gauge', 'use crate::budget::{Charge, Gauge};\n', '', 1),
    ('alone', 'no footprint', 'use crate::footprint::{self, Table};\n', '', 1),
    ('alone', 'Group of directory.rs', 'use crate::ingest::Group;', 'use crate::group::Group;', 1),
    ('alone', 'no serde', ', serde::Serialize', '', 4),
    ('alone', 'no BYTES_PER_UNIT', 'pub const BYTES_PER_UNIT ... ;\n', '', 1),
    ('alone', 'no KEPT_WITHIN', 'const KEPT_WITHIN: usize = 4;\n', '', 1),
    ('alone', 'no charges', '    table: Table,\n    charge: Charge,\n', '', 1),
    ('alone', 'no charges', '        self.table.kept( ... ());\n', '', 1),
    ('alone', 'no room', '    room: Option<Arc<Gauge>>,\n', '', 1),
    ('alone', 'no room', '            room: None,\n', '', 1),
    ('alone', 'no room', '    #[must_use]\n    pub fn within( ... \n    }\n', '', 1),
    ('alone', 'no room', 'let room = match &self.room { ... None => ', 'let room = (', 1),
    ('alone', 'no room', '< UNITS_TRACKED,\n        };', '< UNITS_TRACKED);', 1),
    ('alone', 'no charges', '        let capacity = ... settle();\n        }\n', '', 1),
    ('sizes', 'UNITS_TRACKED', 'pub const UNITS_TRACKED: usize = 1 << 17;', 'use crate::standin::UNITS_TRACKED;', 1),
    ('sizes', 'UNITS_TRACKED', '< UNITS_TRACKED)', '< UNITS_TRACKED.load(Ordering::Relaxed))', 1),
    ('sizes', 'SOURCES_COUNTED', 'pub const SOURCES_COUNTED: usize = 4_096;', 'use crate::standin::SOURCES_COUNTED;', 1),
    ('sizes', 'SOURCES_COUNTED', '> SOURCES_COUNTED {', '> SOURCES_COUNTED.load(Ordering::Relaxed) {', 1),
    ('numbers', 'stand-ins', 'use crate::key::PublicKey;', 'use crate::key::PublicKey;\nuse crate::standin::Doc01;', 1),
    ('numbers', 'fade', '(-(now.saturating_sub(self.at_ms) as f64) / WINDOW_MS as f64).exp()', 'crate::standin::fade(now.saturating_sub(self.at_ms))', 2),
    ('numbers', 'bucket', 'let bucket = if want ... };', 'let bucket = crate::standin::bucket_of(want);', 1),
    ('numbers', 'max', 'BURST_SECS).max(burst_floor[dim]).max(1.0)', 'BURST_SECS).max01(burst_floor[dim]).max01(1.0)', 1),
    ('numbers', 'min', 'rates[dim].min(1e15)', 'rates[dim].min01(1e15)', 1),
    ('numbers', 'min', ').min(bucket.burst)', ').min01(bucket.burst)', 2),
    ('numbers', 'min', 'self.level(dim).min(', 'self.level(dim).min01(', 1),
    ('numbers', 'min', ').min(depth)', ').min01(depth)', 1),
    ('numbers', 'max', '.fold(0.0, f64::max)', '.fold(0.0, Doc01::max01)', 1),
    ('numbers', 'max', 'cost).max(0.0)', 'cost).max01(0.0)', 2),
    ('numbers', 'clamp', '.clamp(1.0 - TRIM_STEP', '.clamp01(1.0 - TRIM_STEP', 1),
    ('numbers', 'clamp', '.clamp(TRIM_FLOOR', '.clamp01(TRIM_FLOOR', 1),
    ('numbers', 'max', 'scan.trim[dim]).max(1.0)', 'scan.trim[dim]).max01(1.0)', 1),
    ('label', 'RFC 5952', 'format!("v6:{:x}:{:x}::/32", prefix >> 16, prefix & 0xffff)',
     'format!("v6:{}/32", std::net::Ipv6Addr::from(u128::from(prefix) << 96))', 1),
    ('order', 'counts from the top', '            .counts\n            .iter()\n            .map(|count| f64::from(*count))',
     '            .counts\n            .iter()\n            .rev()\n            .map(|count| f64::from(*count))', 1),
    ('rule', 'the questions beside the verdict', '        if verdict.is_ok() {\n            for (bucket, cost)',
     '        ASKED.set(Some(asked(wants, resolved.rank(), used.credit, &flow.buckets, attempted)));\n'
     '        if verdict.is_ok() {\n            for (bucket, cost)', 1),
]


def edited(text, label, old, new, count):
    """The text with each match of old replaced; a wrong number of matches is an error."""
    first, dots, last = old.partition(' ... ')
    assert text.count(first) == count, (label, old, text.count(first))
    if not dots:
        return text.replace(old, new)
    for _ in range(count):
        at = text.index(first)
        end = text.index(last, at + len(first)) + len(last)
        text = text[:at] + new + text[end:]
    return text


def main():
    checkout, folder = sys.argv[1:3]
    mode = sys.argv[3] if len(sys.argv) > 3 else ''
    kinds = {'': 'alone map sizes numbers label order rule', '--plain': 'alone map sizes label order rule', '--original': 'alone'}[mode].split()
    source = os.path.join(checkout, 'crates', 'relay', 'src')
    text = open(os.path.join(source, 'shed.rs')).read()
    made = [edit for edit in EDITS if edit[0] in kinds]
    for _, label, old, new, count in made:
        text = edited(text, label, old, new, count)
    if mode != '--original':
        here = os.path.dirname(os.path.abspath(__file__))
        text += open(os.path.join(here, 'crate', 'src', 'state.rs')).read()
    open(os.path.join(folder, 'shed.rs'), 'w').write(text)
    text = open(os.path.join(source, 'directory.rs')).read()
    group = text[text.index('/// Where an offer answered from'):text.index('    /// The group of an offer naming `address`')]
    open(os.path.join(folder, 'group.rs'), 'w').write(group.rstrip() + '\n}\n')
    print(f'{len(made)} edits made')


main()
