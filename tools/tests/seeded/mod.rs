//! Random generators of the tests, with a seed from outside if one is given.

use wegbaro_tests::random::Random;

/// A generator with the seed of this test. With the environment variable `WEGBARO_SEED`, a number, it
/// has another one, which is still a test's own.
pub fn seeded(own: u64) -> Random {
    match std::env::var("WEGBARO_SEED") {
        Ok(given) => {
            let seed = given.parse::<u64>().expect("WEGBARO_SEED is a number");
            println!("WEGBARO_SEED={seed}");
            Random::new(seed.wrapping_mul(1_000).wrapping_add(own))
        }
        Err(_) => Random::new(own),
    }
}
