//! A small random generator (splitmix64).

use std::env;

pub struct Random {
    state: u64,
}

/// The environment variable with a number by which all tests draw other inputs. Without it, and by 0,
/// each draws those of its own seed.
pub const SEED: &str = "WEGBARO_SEED";

impl Random {
    /// The generator of a test's seed.
    pub fn new(seed: u64) -> Random {
        Random::with(seed, env::var(SEED).ok().as_deref())
    }

    /// The same, with what the environment variable has.
    pub fn with(seed: u64, number: Option<&str>) -> Random {
        let number: u64 = match number {
            Some(text) => text.parse().unwrap_or_else(|_| panic!("{SEED} is no number: {text}")),
            None => 0,
        };
        Random { state: seed.wrapping_add(number << 32) }
    }

    /// The next 64 bits.
    pub fn word(&mut self) -> u64 {
        self.state = self.state.wrapping_add(0x9E37_79B9_7F4A_7C15);
        let mut word = self.state;
        word = (word ^ (word >> 30)).wrapping_mul(0xBF58_476D_1CE4_E5B9);
        word = (word ^ (word >> 27)).wrapping_mul(0x94D0_49BB_1331_11EB);
        word ^ (word >> 31)
    }

    /// A number below the bound.
    pub fn below(&mut self, bound: usize) -> usize {
        (self.word() % bound as u64) as usize
    }

    /// A number from 0 to the most, both included.
    pub fn up_to(&mut self, most: usize) -> usize {
        self.below(most + 1)
    }

    pub fn byte(&mut self) -> u8 {
        self.word() as u8
    }

    /// A byte below 2^width.
    pub fn bits(&mut self, width: u8) -> u8 {
        self.below(1 << width) as u8
    }

    /// True one time in so many.
    pub fn one_in(&mut self, many: usize) -> bool {
        self.below(many) == 0
    }

    pub fn pick<T: Copy>(&mut self, from: &[T]) -> T {
        from[self.below(from.len())]
    }

    pub fn shuffle<T>(&mut self, items: &mut [T]) {
        for place in (1..items.len()).rev() {
            items.swap(place, self.up_to(place));
        }
    }

    /// That many random bytes.
    pub fn bytes(&mut self, length: usize) -> Vec<u8> {
        (0..length).map(|_| self.byte()).collect()
    }
}
