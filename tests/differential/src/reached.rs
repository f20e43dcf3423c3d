//! How often each outcome and each kind of input was met, by name.

use std::collections::BTreeMap;

#[derive(Default)]
pub struct Reached {
    counts: BTreeMap<String, u64>,
}

impl Reached {
    pub fn count(&mut self, name: String) {
        *self.counts.entry(name).or_default() += 1;
    }

    pub fn print(&self) {
        for (name, count) in &self.counts {
            println!("{name}: {count}");
        }
    }

    /// Stops the tests where the name was met less often.
    pub fn require(&self, name: &str, least: u64) {
        let count = self.counts.get(name).copied().unwrap_or(0);
        assert!(count >= least, "met {count} times, not {least}: {name}");
    }
}
