#!/usr/bin/env python3
"""Makes the list that crates/check_wants replays, with the Rust oracle.

usage: make_wants_list.py ORACLE > crates/check_wants/stdin

ORACLE is the folder in which the oracle was built (with src/shed.rs, standin.rs, tables.rs, group.rs and key.rs).
The histogram and its level are those of the oracle's shed.rs; the bucket is its stand-in of document 01's rule.

Lines, all numbers decimal, a double as its bit pattern (one pattern for every not-a-number):
B want bucket             the bucket of a want
C                         the histogram is cleared
A dim want                a want is added
S dim bucket count sum    a bucket is set
L dim rate level          the level at a rate
"""
import os
import shutil
import subprocess
import sys
import tempfile

MAIN = """#![allow(dead_code)]
mod group;
mod key;
mod shed;
mod standin;
mod tables;

fn main() {
    shed::listing::run();
}
"""

LISTING = """
pub mod listing {
    use super::*;
    use crate::standin::bucket_of;
    use crate::tables::T;

    const NAN: u64 = 0x7ff8_0000_0000_0000;

    fn bits(x: f64) -> u64 {
        if x.is_nan() { NAN } else { x.to_bits() }
    }

    /// A generator of random numbers with a fixed start (splitmix64).
    struct Random(u64);
    impl Random {
        fn next(&mut self) -> u64 {
            self.0 = self.0.wrapping_add(0x9e37_79b9_7f4a_7c15);
            let mut z = self.0;
            z = (z ^ (z >> 30)).wrapping_mul(0xbf58_476d_1ce4_e5b9);
            z = (z ^ (z >> 27)).wrapping_mul(0x94d0_49bb_1331_11eb);
            z ^ (z >> 31)
        }
        fn below(&mut self, n: u64) -> u64 {
            self.next() % n
        }
        /// A double of random digits from 2^low up to 2^high.
        fn scaled(&mut self, low: i64, high: i64) -> f64 {
            let exponent = low + self.below((high - low) as u64) as i64;
            f64::from_bits((((1023 + exponent) as u64) << 52) | (self.next() >> 12))
        }
        /// Any bits, with the special values among them.
        fn any(&mut self) -> f64 {
            match self.below(8) {
                0 => f64::NAN,
                1 => f64::INFINITY,
                2 => f64::NEG_INFINITY,
                3 => -self.scaled(-4, 40),
                4 => 0.0,
                5 => -0.0,
                _ => f64::from_bits(self.next()),
            }
        }
    }

    fn bucket(want: f64) {
        println!("B {} {}", bits(want), bucket_of(want));
    }

    fn buckets(random: &mut Random) {
        for border in T {
            for near in [border - 1, border, border + 1] {
                bucket(f64::from_bits(near));
            }
        }
        for special in [
            0.0,
            -0.0,
            -1.0,
            -2.0,
            1.0,
            1.5,
            2.0,
            f64::NAN,
            f64::INFINITY,
            f64::NEG_INFINITY,
            f64::MIN_POSITIVE,
            f64::from_bits(1),
            f64::from_bits(0x000f_ffff_ffff_ffff),
            -f64::from_bits(1),
            f64::MAX,
            f64::MIN,
            2f64.powi(48),
            2f64.powi(48).next_down(),
            2f64.powi(48).next_up(),
            2f64.powi(53),
            1.0f64.next_up(),
            1.0f64.next_down(),
        ] {
            bucket(special);
        }
        for _ in 0..500 {
            bucket(random.scaled(0, 50));
        }
        for _ in 0..100 {
            bucket(random.any());
        }
    }

    fn levels(random: &mut Random, wants: &[Wants; DIMS], low: i64, high: i64) {
        for (dim, wants) in wants.iter().enumerate() {
            for rate in [random.scaled(low, high), random.scaled(low, high).floor(), random.scaled(0, 41).floor()] {
                println!("L {} {} {}", dim, bits(rate), bits(wants.level(rate)));
            }
        }
    }

    fn histograms(random: &mut Random) {
        let mut wants: [Wants; DIMS] = std::array::from_fn(|_| Wants::new());
        for round in 0..250 {
            println!("C");
            wants.iter_mut().for_each(Wants::clear);
            let units = random.below(40);
            let high = 1 + random.below(45) as i64;
            for _ in 0..units {
                let dim = random.below(DIMS as u64) as usize;
                let want = match round % 10 {
                    8 if random.below(4) == 0 => random.any(),
                    _ if random.below(3) == 0 => random.scaled(0, high).floor(),
                    _ => random.scaled(-2, high),
                };
                println!("A {} {}", dim, bits(want));
                wants[dim].add(want);
            }
            if round % 10 == 9 {
                for _ in 0..random.below(30) {
                    let dim = random.below(DIMS as u64) as usize;
                    let at = random.below(BUCKETS as u64) as usize;
                    let count = [0, 1, 2, u32::MAX, random.next() as u32][random.below(5) as usize];
                    let sum = if random.below(4) == 0 { random.any() } else { random.scaled(-10, 60) };
                    println!("S {} {} {} {}", dim, at, count, bits(sum));
                    wants[dim].counts[at] = count;
                    wants[dim].sums[at] = f64::from_bits(bits(sum));
                }
                // the count of bucket 0 at its end, and one more: it wraps
                println!("S 0 0 {} {}", u32::MAX, bits(7.0));
                wants[0].counts[0] = u32::MAX;
                wants[0].sums[0] = 7.0;
                println!("A 0 {}", bits(0.5));
                wants[0].add(0.5);
            }
            levels(random, &wants, 0, high + 6);
        }
    }

    pub fn run() {
        let mut random = Random(1);
        buckets(&mut random);
        histograms(&mut random);
    }
}
"""


def main():
    if len(sys.argv) != 2:
        sys.exit(__doc__)
    source = os.path.join(sys.argv[1], "src")
    with tempfile.TemporaryDirectory() as folder:
        for name in ("group.rs", "key.rs", "standin.rs", "tables.rs"):
            shutil.copy(os.path.join(source, name), folder)
        with open(os.path.join(source, "shed.rs")) as shed, open(os.path.join(folder, "shed.rs"), "w") as out:
            out.write(shed.read() + LISTING)
        with open(os.path.join(folder, "main.rs"), "w") as out:
            out.write(MAIN)
        program = os.path.join(folder, "list")
        subprocess.run(
            ["rustc", "--edition", "2021", "-O", "--cap-lints", "allow", "-o", program, os.path.join(folder, "main.rs")],
            check=True,
        )
        subprocess.run([program], check=True)


main()
