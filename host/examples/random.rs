//! How often random bytes read as a hatch: N payloads of 16 to 64 random bytes for each release, read from bit 0, texts inline.
//!
//! cargo run --release --manifest-path host/Cargo.toml --target-dir target/host --example random -- SEED N

use std::process::ExitCode;

use dwg_hatch::{HatchBody, Release};

/// A generator of 64 random bits (splitmix64), so that a seed gives the same payloads everywhere.
struct Random(u64);

impl Random {
    fn next(&mut self) -> u64 {
        self.0 = self.0.wrapping_add(0x9e37_79b9_7f4a_7c15);
        let mixed = (self.0 ^ self.0 >> 30).wrapping_mul(0xbf58_476d_1ce4_e5b9);
        let mixed = (mixed ^ mixed >> 27).wrapping_mul(0x94d0_49bb_1331_11eb);
        mixed ^ mixed >> 31
    }

    /// A payload of 16 to 64 bytes.
    fn payload(&mut self) -> Vec<u8> {
        let length = 16 + (self.next() % 49) as usize;
        let mut bytes: Vec<u8> = (0..length.div_ceil(8)).flat_map(|_| self.next().to_le_bytes()).collect();
        bytes.truncate(length);
        bytes
    }
}

/// How many payloads of a release are read: all, those that are read but for a byte at most, and those with a path.
#[derive(Default)]
struct Counts {
    read: u64,
    to_the_end: u64,
    with_paths: u64,
}

fn counts(release: Release, seed: u64, count: u64) -> Counts {
    let mut random = Random(seed ^ release.number() << 32);
    let mut counts = Counts::default();
    for _ in 0..count {
        let payload = random.payload();
        let Ok(read) = HatchBody::new(&payload, 0, release).decode() else { continue };
        counts.read += 1;
        counts.to_the_end += u64::from(8 * payload.len() - read.hatch.places.main <= 8);
        counts.with_paths += u64::from(read.hatch.num_paths > 0);
    }
    counts
}

fn main() -> ExitCode {
    let words: Vec<u64> = std::env::args().skip(1).filter_map(|word| word.parse().ok()).collect();
    let &[seed, count] = words.as_slice() else {
        eprintln!("usage: random SEED N, two numbers");
        return ExitCode::from(2);
    };
    println!("release, of {count} random payloads of 16 to 64 bytes: read as a hatch, of these read but for a byte at most, with a path");
    for release in Release::ALL {
        let Counts { read, to_the_end, with_paths } = counts(release, seed, count);
        println!("{release} {read} {to_the_end} {with_paths}");
    }
    ExitCode::SUCCESS
}
