//! A run of seeded comparisons, of which the seed and the number may come from the environment.

use outside::random::{Random, count_from_environment, seed_from_environment};
use std::time::Instant;

/// Prints the seed, compares, and prints how long it took. CUNDARIVO_SEED gives another seed, the variable
/// with this name after CUNDARIVO_ a larger number.
pub fn seeded(seed: u64, name: &str, count: u64, compare: impl FnOnce(Random, u64)) {
    let seed = seed_from_environment(seed);
    println!("seed: {seed}");
    let started = Instant::now();
    compare(Random::new(seed), count_from_environment(name, count));
    println!("seconds: {:.1}", started.elapsed().as_secs_f64());
}
