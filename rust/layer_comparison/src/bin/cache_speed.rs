//! Times the kept evaluations beside a map and a queue in one run. Build with
//! `--release`.
//!
//! Ours are called through the C face, over words that were written before, so
//! that no page is new. The map has the default hasher and the source's key of
//! two effects; an evaluation that is kept there is copied, as the source does
//! it. Rounds of the two sides alternate, and the shortest of each counts. Keys
//! are looked for in no order, so that with many entries it is memory that
//! takes the time: the last lines look for the same few keys among ever more.

use layer_comparison::kept::{Evaluation, Kept};
use layer_comparison::random::Random;
use std::hint::black_box;
use std::time::{Duration, Instant};
use test_exports::cache::{self, CacheKey, AT_FIRST, WORDS_FOR_A_ROW};

/// The source's key of two effects.
type Tuple = (usize, u64, u64, u64, u64);

/// The same key on both sides.
#[derive(Clone, Copy)]
struct Key {
    words: [u64; 7],
    tuple: Tuple,
}

/// Kept evaluations on both sides, and the keys to come.
struct Sides {
    k: usize,
    words: Vec<u64>,
    order: [u64; 4],
    map: Kept<Tuple>,
    evaluation: Evaluation,
    keys: Vec<Key>,
    next: usize,
}

fn main() {
    println!("     K  rows  entries  call                     map ns    ours ns   ours/map");
    for k in [64, 1_000, 100_000] {
        for rows in [1, 10] {
            let mut sides = Sides::new(k, rows);
            sides.time_empty();
            sides.time_filling();
            sides.fill(k / rows);
            sides.time_full();
        }
    }
    println!("the same 64 keys among ever more entries of one row");
    for entries in [64, 1_000, 10_000, 100_000] {
        let mut sides = Sides::new(100_000, 1);
        sides.fill(entries);
        let hits: Vec<Key> = sides.keys[..64].to_vec();
        sides.time_looks("find, there", &hits);
        let misses = sides.strangers(64);
        sides.time_looks("find, not there", &misses);
    }
}

impl Sides {
    /// Nothing kept. There are three times the keys that fill K rows, so that
    /// one that comes round again has long gone.
    fn new(k: usize, rows: usize) -> Self {
        let random = &mut Random::new(k as u64);
        Sides {
            k,
            words: vec![1; WORDS_FOR_A_ROW * k],
            order: AT_FIRST,
            map: Kept::new(k),
            evaluation: Evaluation {
                terms: [0; 7].map(|_| random.word()),
                rows: (0..rows).map(|_| [0; 3].map(|_| random.word())).collect(),
            },
            keys: (0..3 * (k / rows)).map(|_| drawn(random)).collect(),
            next: 0,
        }
        .emptied()
    }

    fn emptied(mut self) -> Self {
        self.empty();
        self
    }

    fn empty(&mut self) {
        self.words.fill(0);
        self.order = AT_FIRST;
        self.map = Kept::new(self.k);
        self.next = 0;
    }

    /// Keeps so many evaluations on each side.
    fn fill(&mut self, count: usize) {
        self.insert_into_map(count);
        self.insert_into_ours(count);
        self.next += count;
    }

    /// The keys to come, from the first again after the last.
    fn coming(&self, count: usize) -> impl Iterator<Item = &Key> {
        let from = self.next % self.keys.len();
        self.keys.iter().cycle().skip(from).take(count)
    }

    fn insert_into_map(&mut self, count: usize) -> Duration {
        let mut map = std::mem::replace(&mut self.map, Kept::new(0));
        let begun = Instant::now();
        for key in self.coming(count) {
            black_box(map.keep(black_box(key.tuple), &self.evaluation));
        }
        let elapsed = begun.elapsed();
        self.map = map;
        elapsed
    }

    fn insert_into_ours(&mut self, count: usize) -> Duration {
        let mut words = std::mem::take(&mut self.words);
        let (mut order, Evaluation { terms, rows }) = (self.order, &self.evaluation);
        let (n, rows) = (rows.len(), rows.as_flattened());
        let begun = Instant::now();
        for key in self.coming(count) {
            let key = black_box(&key.words);
            cache::insert(&mut words, self.k, &mut order, key, terms, n, rows, 0);
        }
        let elapsed = begun.elapsed();
        (self.words, self.order) = (words, order);
        elapsed
    }

    fn entries(&self) -> usize {
        (self.order[1] - self.order[0]) as usize
    }

    /// Keys that were never kept.
    fn strangers(&self, count: usize) -> Vec<Key> {
        let random = &mut Random::new(!0);
        (0..count).map(|_| drawn(random)).collect()
    }

    fn time_empty(&mut self) {
        let misses = self.strangers(1_024);
        self.time_looks("find, not there", &misses);
    }

    /// From nothing until all rows are taken, over and over.
    fn time_filling(&mut self) {
        let full = self.k / self.evaluation.rows.len();
        let times = 1_024usize.div_ceil(full);
        let both = alternating(times * full, || {
            let mut both = [Duration::ZERO; 2];
            for _ in 0..times {
                self.empty();
                both[0] += self.insert_into_map(full);
                both[1] += self.insert_into_ours(full);
            }
            both
        });
        self.empty();
        self.tell("insert, until full", both);
    }

    fn time_full(&mut self) {
        let entries = self.entries();
        let random = &mut Random::new(72);
        let kept = &self.keys[..entries];
        let looks = entries.max(1_024);
        let hits: Vec<Key> = (0..looks).map(|_| random.pick(kept)).collect();
        self.time_looks("find, there", &hits);
        let misses = self.strangers(looks);
        self.time_looks("find, not there", &misses);
        self.time_taking(&hits);
        let both = alternating(looks, || {
            let both = [self.insert_into_map(looks), self.insert_into_ours(looks)];
            self.next += looks;
            both
        });
        self.tell("insert, the oldest out", both);
    }

    fn time_looks(&self, call: &str, keys: &[Key]) {
        let both = alternating(keys.len(), || {
            let map = timed(keys, |key| self.map.get(&key.tuple).is_some());
            let ours = timed(keys, |key| self.find(key));
            [map, ours]
        });
        self.tell(call, both);
    }

    /// A hit with what was kept: a copy of its own there, and words that are
    /// lent for it here.
    fn time_taking(&self, keys: &[Key]) {
        let n = self.evaluation.rows.len();
        let mut rows = vec![0; 3 * n];
        let both = alternating(keys.len(), || {
            let map = timed(keys, |key| self.map.get(&key.tuple).cloned());
            let ours = timed(keys, |key| {
                let slot = self.find(key).expect("it is kept");
                cache::copy_rows(&self.words, self.k, slot, n, &mut rows, 0);
                black_box(&rows);
                cache::terms(&self.words, self.k, slot)
            });
            [map, ours]
        });
        self.tell("find and copy", both);
    }

    fn find(&self, key: &Key) -> Option<usize> {
        cache::find(&self.words, self.k, &self.order, &key.words)
    }

    fn tell(&self, call: &str, [map, ours]: [f64; 2]) {
        let (k, rows) = (self.k, self.evaluation.rows.len());
        println!(
            "{k:6} {rows:5} {:8}  {call:22} {map:8.1} {ours:10.1} {:10.2}",
            self.entries(),
            ours / map
        );
    }
}

/// A key of one of few subjects at any point.
fn drawn(random: &mut Random) -> Key {
    let subject = random.below(40) as usize;
    let [theta, eta] = [0; 2].map(|_| [0; 2].map(|_| random.uniform(-4., 4.)));
    let key = CacheKey::two_effects(subject, theta, eta);
    let [t, u] = key.theta;
    let [v, w] = key.eta;
    Key {
        words: key.words(),
        tuple: (subject, t, u, v, w),
    }
}

fn timed<T>(keys: &[Key], mut call: impl FnMut(&Key) -> T) -> Duration {
    let begun = Instant::now();
    for key in keys {
        black_box(call(black_box(key)));
    }
    begun.elapsed()
}

/// The shortest of many rounds on each side, for one of the calls in a round.
fn alternating(calls: usize, mut round: impl FnMut() -> [Duration; 2]) -> [f64; 2] {
    const LONG_ENOUGH: Duration = Duration::from_millis(400);
    const FEWEST: usize = 20;
    let mut shortest = [Duration::MAX; 2];
    let begun = Instant::now();
    let mut rounds = 0;
    while rounds < FEWEST || begun.elapsed() < LONG_ENOUGH {
        let both = round();
        for (shortest, elapsed) in shortest.iter_mut().zip(both) {
            *shortest = elapsed.min(*shortest);
        }
        rounds += 1;
    }
    shortest.map(|shortest| shortest.as_secs_f64() * 1e9 / calls as f64)
}
