//! Random sequences of evaluations, kept by Curlewstand's words and the
//! source's way: each is looked for and, where it is not found, kept.

use crate::cache_keys::{pool, Like, Made};
use crate::kept::{Evaluation, Kept};
use crate::random::Random;
use crate::rules_cache::{chain, has_bits, has_key, hash, head, low, may_have};
use std::fmt::Write;
use test_exports::cache::{Cache, CacheKey, CachedTerms};

/// What both sides are given. Everything else follows from it.
#[derive(Clone, Debug)]
pub struct Sequence {
    pub k: usize,
    pub keys: Vec<Made>,
    /// The number of a key, and how many rows its evaluation has.
    pub asked: Vec<(usize, usize)>,
}

/// How many rows the evaluations have.
#[derive(Clone, Copy, Debug)]
pub enum Sizes {
    One,
    Few,
    /// 1 to somewhat more than K.
    Any,
    /// Few, but now and then nearly K, K or more.
    Unlike,
}

impl Sizes {
    pub const ALL: [Sizes; 4] = [Sizes::One, Sizes::Few, Sizes::Any, Sizes::Unlike];

    fn draw(self, random: &mut Random, k: usize) -> usize {
        let most = match self {
            Sizes::One => 1,
            Sizes::Few => 4,
            Sizes::Any => k as u64 + 2,
            Sizes::Unlike if random.below(1_000) == 0 => {
                return random.pick(&[k / 2 + 1, k.max(2) - 1, k, k + 1, 2 * k]);
            }
            Sizes::Unlike => random.pick(&[1, 2, 20]),
        };
        1 + random.below(most) as usize
    }

    /// How many entries about fill K rows.
    fn entries(self, k: usize) -> usize {
        match self {
            Sizes::One => k,
            Sizes::Few => k / 3 + 1,
            Sizes::Any => 2,
            Sizes::Unlike => k / 5 + 1,
        }
    }
}

/// A sequence over so many keys that hits, evictions and returns abound.
pub fn draw(random: &mut Random, k: usize, sizes: Sizes, steps: usize) -> Sequence {
    let entries = sizes.entries(k) as u64;
    let count = 2 + random.below(2 * entries + 8) as usize;
    let twins = random.below(14);
    let keys = pool(random, count, twins);
    let mut asked: Vec<(usize, usize)> = Vec::with_capacity(steps);
    for step in 0..steps {
        let latest = asked.len().min(8) as u64;
        let key = match random.below(4) {
            0 if latest > 0 => asked[step - 1 - random.below(latest) as usize].0,
            1 => keys[random.below(count as u64) as usize].other,
            _ => random.below(count as u64) as usize,
        };
        asked.push((key, sizes.draw(random, k)));
    }
    Sequence { k, keys, asked }
}

/// What was met, to see that everything occurs.
#[derive(Clone, Debug, Default)]
pub struct Met {
    pub steps: u64,
    pub hits: u64,
    pub misses: u64,
    /// Keys that were kept, had gone and were kept again.
    pub returns: u64,
    pub evictions: u64,
    /// Evaluations that made several others go at once.
    pub several_gone: u64,
    pub too_large: u64,
    pub filling_all: u64,
    /// Evaluations in a slot that had been used before.
    pub slots_again: u64,
    /// Evaluations whose rows go around the end.
    pub rows_around: u64,
    /// Entries of the same chain that were passed over on the way.
    pub passed_by_bits: u64,
    pub passed_by_key: u64,
    /// Dead entries at the head of a chain.
    pub dead_ends: u64,
    /// Looks that a filter ended although its chain has a live entry, and those
    /// that it let through to a chain without the key.
    pub filtered: u64,
    pub let_through: u64,
    /// Hits and misses while the key that this one is like was kept.
    pub hits_beside: [u64; 6],
    pub misses_beside: [u64; 6],
    /// Looks at every key.
    pub looks: u64,
}

/// Both sides after some steps.
struct Sides<'a> {
    sequence: &'a Sequence,
    ours: Cache,
    theirs: Kept<CacheKey>,
    kept_before: Vec<bool>,
    copy: Vec<[u64; 3]>,
}

/// Where the two sides differ, in words, and at which step.
pub struct Difference {
    step: usize,
    what: String,
}

/// Leads both sides through the sequence. Every key is looked for at the end
/// and a few times before.
pub fn run(sequence: &Sequence, met: &mut Met) -> Result<(), Difference> {
    let mut sides = Sides {
        sequence,
        ours: Cache::new(sequence.k),
        theirs: Kept::new(sequence.k),
        kept_before: vec![false; sequence.keys.len()],
        copy: Vec::new(),
    };
    let between = sequence.asked.len().div_ceil(4).max(1);
    for step in 0..sequence.asked.len() {
        let failed = |what| Difference { step, what };
        sides.step(step, met).map_err(failed)?;
        if (step + 1) % between == 0 || step + 1 == sequence.asked.len() {
            sides.look_at_all(met).map_err(failed)?;
        }
    }
    Ok(())
}

impl Sides<'_> {
    fn step(&mut self, step: usize, met: &mut Met) -> Result<(), String> {
        let (number, rows) = self.sequence.asked[step];
        let key = self.sequence.keys[number].key;
        met.steps += 1;
        let hit = self.look(&key)?;
        self.count_look(number, hit, met);
        if hit {
            met.hits += 1;
        } else {
            met.misses += 1;
            self.keep(number, &evaluation(step, rows), met);
        }
        let [ours, theirs] = [self.ours.cached_rows(), self.theirs.cached_rows()];
        if ours != theirs {
            return Err(format!("{ours} rows are kept by ours, {theirs} by theirs"));
        }
        Ok(())
    }

    /// Looks for a key on both sides: both have the same evaluation, or none.
    fn look(&mut self, key: &CacheKey) -> Result<bool, String> {
        let slot = self.ours.find(key);
        let kept = self.theirs.get(key);
        let (Some(slot), Some(kept)) = (slot, kept) else {
            return match (slot, kept) {
                (None, None) => Ok(false),
                (slot, _) => Err(format!("ours finds {slot:?}, theirs the other way")),
            };
        };
        let terms = self.ours.terms(slot).words();
        if terms != kept.terms {
            return Err(format!("terms {terms:x?}, theirs {:x?}", kept.terms));
        }
        self.copy.clear();
        self.copy.resize(kept.rows.len(), [!0; 3]);
        self.ours.rows(slot, &mut self.copy);
        let rows = self.copy.iter().zip(&kept.rows).enumerate();
        if let Some((row, (ours, theirs))) = rows.into_iter().find(|(_, (a, b))| a != b) {
            return Err(format!("row {row} is {ours:x?}, theirs {theirs:x?}"));
        }
        Ok(true)
    }

    fn look_at_all(&mut self, met: &mut Met) -> Result<(), String> {
        let [ours, theirs] = [self.ours.entries(), self.theirs.entries()];
        if ours != theirs {
            return Err(format!("{ours} entries in ours, {theirs} in theirs"));
        }
        for made in &self.sequence.keys {
            met.looks += 1;
            let of_key = |what| format!("looking for {:x?}: {what}", made.key.words());
            self.look(&made.key).map_err(of_key)?;
        }
        Ok(())
    }

    fn keep(&mut self, number: usize, evaluation: &Evaluation, met: &mut Met) {
        let key = self.sequence.keys[number].key;
        let (rows, k) = (evaluation.rows.len(), self.sequence.k);
        let [_, next, _, next_row] = *self.ours.order();
        let terms = CachedTerms::of_words(&evaluation.terms);
        self.ours.insert(&key, &terms, &evaluation.rows);
        let Some(gone) = self.theirs.keep(key, evaluation) else {
            met.too_large += 1;
            return;
        };
        met.evictions += gone as u64;
        met.several_gone += (gone > 1) as u64;
        met.filling_all += (rows == k) as u64;
        met.slots_again += (next > k as u64) as u64;
        met.rows_around += (next_row as usize % k + rows > k) as u64;
        met.returns += self.kept_before[number] as u64;
        self.kept_before[number] = true;
    }

    fn count_look(&self, number: usize, hit: bool, met: &mut Met) {
        let made = &self.sequence.keys[number];
        let key = made.key.words();
        let (words, k, order) = (self.ours.words(), self.ours.k(), self.ours.order());
        let live = chain(words, k, order, &key).next().is_some();
        let open = may_have(words, k, &key);
        met.filtered += (live && !open) as u64;
        met.let_through += (live && open && !hit) as u64;
        let others = |entry: &u64| open && !has_key(words, k, *entry, &key);
        for entry in chain(words, k, order, &key).take_while(others) {
            match has_bits(words, k, entry, &key) {
                true => met.passed_by_key += 1,
                false => met.passed_by_bits += 1,
            }
        }
        let latest = low(words[head(hash(&key), k)]);
        met.dead_ends += (0 < latest && latest < order[0]) as u64;
        let other = &self.sequence.keys[made.other].key;
        if made.like != Like::Nothing && self.theirs.get(other).is_some() {
            match hit {
                true => met.hits_beside[made.like as usize] += 1,
                false => met.misses_beside[made.like as usize] += 1,
            }
        }
    }
}

/// What an evaluation finds: no two steps find the same. No term is a NaN,
/// whose bits a float need not keep.
fn evaluation(step: usize, rows: usize) -> Evaluation {
    let mut random = Random::new(step as u64);
    let stamp = random.word();
    Evaluation {
        terms: [0; 7].map(|_| random.word() & !(1 << 62)),
        rows: (0..rows as u64)
            .map(|row| [stamp ^ row, stamp.wrapping_add(row), !row])
            .collect(),
    }
}

/// How often a sequence is run again to make it shorter.
const TRIES: usize = 2_000;

/// Runs the sequence; where the sides differ, tells of the shortest sequence
/// found that still shows a difference.
pub fn compare(sequence: &Sequence, met: &mut Met) -> Result<(), String> {
    let Err(mut difference) = run(sequence, met) else {
        return Ok(());
    };
    let mut sequence = sequence.clone();
    sequence.asked.truncate(difference.step + 1);
    let mut piece = sequence.asked.len() / 2;
    let mut tries = TRIES;
    while piece > 0 && tries > 0 {
        let mut from = 0;
        while from < sequence.asked.len() && tries > 0 {
            let mut shorter = sequence.clone();
            let end = (from + piece).min(sequence.asked.len());
            shorter.asked.drain(from..end);
            tries -= 1;
            match run(&shorter, &mut Met::default()) {
                Err(found) => {
                    shorter.asked.truncate(found.step + 1);
                    (sequence, difference) = (shorter, found);
                }
                Ok(()) => from += piece,
            }
        }
        piece /= 2;
    }
    Err(report(&sequence, &difference))
}

fn report(sequence: &Sequence, difference: &Difference) -> String {
    let mut text = format!("kept evaluations differ with K {}\n", sequence.k);
    for (step, (number, rows)) in sequence.asked.iter().enumerate() {
        let key = sequence.keys[*number].key.words();
        writeln!(text, "  step {step}: {rows} rows under {key:x?}").unwrap();
    }
    writeln!(text, "  at the last: {}", difference.what).unwrap();
    text
}
