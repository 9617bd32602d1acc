//! What sessions met, counted, so that a comparison which no longer comes to
//! something can fail.

use std::collections::BTreeMap;

#[derive(Clone, Debug, Default)]
pub struct Met {
    pub sessions: u64,
    /// The calls, setup included.
    pub calls: u64,
    /// Refusals by their number.
    pub refused: [u64; 20],
    pub counts: BTreeMap<&'static str, u64>,
}

impl Met {
    pub fn count(&mut self, name: &'static str) {
        self.count_if(true, name);
    }

    pub fn count_if(&mut self, met: bool, name: &'static str) {
        self.add_to(name, met as u64);
    }

    pub fn add_to(&mut self, name: &'static str, by: u64) {
        if by > 0 {
            *self.counts.entry(name).or_default() += by;
        }
    }

    pub fn add(&mut self, other: &Met) {
        self.sessions += other.sessions;
        self.calls += other.calls;
        for (sum, count) in self.refused.iter_mut().zip(other.refused) {
            *sum += count;
        }
        for (name, count) in &other.counts {
            self.add_to(name, *count);
        }
    }

    /// Each of these occurs so often at least.
    pub fn hold(&self, least: u64, names: &[&str]) {
        for name in names {
            let count = self.counts.get(name).copied().unwrap_or(0);
            assert!(count >= least, "{name}: met {count} times, {self:?}");
        }
    }

    pub fn hold_refusals(&self, least: u64, numbers: &[usize]) {
        for number in numbers {
            let count = self.refused[*number];
            assert!(count >= least, "{number}: met {count} times, {self:?}");
        }
    }
}
