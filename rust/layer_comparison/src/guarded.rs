//! Words to lend to a call, between words that no call may write.

const GUARD: [u64; 4] = [0x5eed_0f1e_1d5a_fe00; 4];

#[derive(Clone, Debug, PartialEq, Eq)]
pub struct Guarded(Vec<u64>);

impl Guarded {
    pub fn new(words: &[u64]) -> Self {
        Guarded([&GUARD, words, &GUARD].concat())
    }

    /// The words between the guards.
    pub fn lent(&mut self) -> &mut [u64] {
        let end = self.0.len() - GUARD.len();
        &mut self.0[GUARD.len()..end]
    }

    /// The same, to be read.
    pub fn words(&self) -> &[u64] {
        &self.0[GUARD.len()..self.0.len() - GUARD.len()]
    }

    /// Whether no guard was written.
    pub fn stands(&self) -> bool {
        self.0.starts_with(&GUARD) && self.0.ends_with(&GUARD)
    }

    /// Becomes the other, in the memory that it has.
    pub fn copy_from(&mut self, other: &Self) {
        self.0.clone_from(&other.0);
    }

    /// The first word that is not the same as among those that a definition
    /// gives, guards included.
    pub fn first_unlike(&self, defined: &Self) -> Option<String> {
        let place = self.0.iter().zip(&defined.0).position(|(a, b)| a != b)?;
        let word = place as i64 - GUARD.len() as i64;
        let [a, b] = [self.0[place], defined.0[place]];
        Some(format!("word {word}: ours {a:x}, defined {b:x}"))
    }
}
