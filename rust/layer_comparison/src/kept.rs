//! Kept evaluations the source's way: a map with the default hasher, and a
//! queue of its keys.

use std::collections::{HashMap, VecDeque};
use std::hash::Hash;

#[derive(Clone, Debug, PartialEq, Eq)]
pub struct Evaluation {
    pub terms: [u64; 7],
    pub rows: Vec<[u64; 3]>,
}

pub struct Kept<Key> {
    k: usize,
    evaluations: HashMap<Key, Evaluation>,
    order: VecDeque<Key>,
    rows: usize,
}

impl<Key: Copy + Eq + Hash> Kept<Key> {
    /// Room for `k` rows, with nothing kept.
    pub fn new(k: usize) -> Self {
        Kept {
            k,
            evaluations: HashMap::new(),
            order: VecDeque::new(),
            rows: 0,
        }
    }

    pub fn get(&self, key: &Key) -> Option<&Evaluation> {
        self.evaluations.get(key)
    }

    /// Keeps an evaluation that was not found, the oldest out until it fits. It
    /// is copied, since the caller goes on with it. Gives how many went, or
    /// nothing where there are too many rows to keep.
    pub fn keep(&mut self, key: Key, evaluation: &Evaluation) -> Option<usize> {
        let more = evaluation.rows.len();
        if more > self.k {
            return None;
        }
        let mut gone = 0;
        while self.rows + more > self.k {
            let oldest = self.order.pop_front().expect("every row has its key");
            let removed = self.evaluations.remove(&oldest);
            self.rows -= removed.expect("every key has its rows").rows.len();
            gone += 1;
        }
        self.order.push_back(key);
        self.rows += more;
        self.evaluations.insert(key, evaluation.clone());
        Some(gone)
    }

    pub fn entries(&self) -> usize {
        self.evaluations.len()
    }

    pub fn cached_rows(&self) -> usize {
        self.rows
    }
}
