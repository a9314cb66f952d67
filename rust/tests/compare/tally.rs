//! How often a call gave each refusal.

use std::collections::BTreeMap;

#[derive(Default)]
pub struct Tally(BTreeMap<u8, u64>);

impl Tally {
    pub fn add<T>(&mut self, answer: Result<T, u8>) {
        *self.0.entry(answer.err().unwrap_or(0)).or_default() += 1;
    }

    /// Prints the counts. 01 names the refusals of each call: all of them must have been met, and
    /// no other; the call must have answered without one, too.
    pub fn finish(self, call: &str, refusals: &[u8]) {
        let total: u64 = self.0.values().sum();
        let counts: Vec<_> = self.0.iter().map(|(number, n)| format!("{number}: {n}")).collect();
        println!("{call}: {total} inputs, by refusal (0: none) {}", counts.join(", "));
        let met: Vec<u8> = self.0.into_keys().filter(|&number| number != 0).collect();
        assert_eq!(met, refusals, "{call}");
    }
}
