//! A small deterministic generator (SplitMix64), so that a printed seed repeats a run.

use std::env;
use std::process;
use std::sync::OnceLock;
use std::time::SystemTime;

/// The seed of this run: LESSON_SEED, or a fresh one for the process.
pub fn seed() -> u64 {
    static SEED: OnceLock<u64> = OnceLock::new();
    *SEED.get_or_init(|| match env::var("LESSON_SEED") {
        Ok(text) => text
            .parse()
            .unwrap_or_else(|_| panic!("LESSON_SEED is not a number: {text}")),
        Err(_) => fresh(),
    })
}

/// A seed of ten digits at most, from the clock and the process's number.
fn fresh() -> u64 {
    let clock = SystemTime::UNIX_EPOCH.elapsed().expect("it is after 1970");
    let mixed = clock.as_nanos() as u64 ^ u64::from(process::id()) << 32;
    Rng::new(mixed).word() >> 32
}

pub struct Rng {
    state: u64,
}

impl Rng {
    pub fn new(seed: u64) -> Self {
        Rng { state: seed }
    }

    /// A stream of its own for each name, so that no test's books depend on which tests ran before.
    pub fn named(seed: u64, name: &str) -> Self {
        let mut rng = Rng::new(seed);
        for byte in name.bytes() {
            rng.state = rng.word() ^ u64::from(byte);
        }
        rng
    }

    pub fn word(&mut self) -> u64 {
        self.state = self.state.wrapping_add(0x9E37_79B9_7F4A_7C15);
        let mut z = self.state;
        z = (z ^ (z >> 30)).wrapping_mul(0xBF58_476D_1CE4_E5B9);
        z = (z ^ (z >> 27)).wrapping_mul(0x94D0_49BB_1331_11EB);
        z ^ (z >> 31)
    }

    pub fn byte(&mut self) -> u8 {
        (self.word() >> 56) as u8
    }

    pub fn bytes(&mut self, length: usize) -> Vec<u8> {
        (0..length).map(|_| self.byte()).collect()
    }

    /// One of 0 to `end` - 1.
    pub fn below(&mut self, end: usize) -> usize {
        assert!(end > 0, "nothing to choose from");
        ((u128::from(self.word()) * end as u128) >> 64) as usize
    }

    /// One of `first` to `last`, both included.
    pub fn range(&mut self, first: usize, last: usize) -> usize {
        first + self.below(last - first + 1)
    }

    pub fn chance(&mut self, percent: usize) -> bool {
        self.below(100) < percent
    }

    pub fn pick<T: Copy>(&mut self, from: &[T]) -> T {
        from[self.below(from.len())]
    }

    pub fn shuffle<T>(&mut self, items: &mut [T]) {
        for i in (1..items.len()).rev() {
            items.swap(i, self.below(i + 1));
        }
    }
}
