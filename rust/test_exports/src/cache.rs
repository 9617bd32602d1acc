//! The kept evaluations: at most K rows of them, the oldest out first.
//!
//!     use test_exports::cache::*;
//!
//!     let mut cache = Cache::new(64);
//!     let key = CacheKey::one_effect(0, 1., -0.5, None);
//!     assert_eq!(cache.find(&key), None);
//!     // two rows of the caller's own words, say prediction, time and side
//!     let rows = [[1, 2, 3], [4, 5, 6]];
//!     let terms = CachedTerms {
//!         nll: 0.25,
//!         ..CachedTerms::default()
//!     };
//!     cache.insert(&key, &terms, &rows);
//!     let slot = cache.find(&key).unwrap();
//!     assert_eq!(cache.terms(slot), terms);
//!     let mut copy = [[0; 3]; 2];
//!     cache.rows(slot, &mut copy);
//!     assert_eq!(copy, rows);

use crate::Sums;
use crate::ffi::*;

/// The words of a row.
pub const ROW_WORDS: usize = 3;

/// The most rows that can be kept.
pub const MOST_ROWS: usize = 100_000;

/// The words that are lent for each row of K.
pub const WORDS_FOR_A_ROW: usize = 24;

/// The order of a cache that has kept nothing, whose words are all zero.
pub const AT_FIRST: [u64; 4] = [1, 1, 0, 0];

/// What an evaluation is kept under. Floats are told apart by their bits, so
/// the sign of a zero counts. With one effect the second theta and eta are 0.
///
///     use test_exports::cache::CacheKey;
///
///     let [zero, minus_zero] = [0., -0.].map(|eta| CacheKey::one_effect(0, 1., eta, None));
///     assert_ne!(zero, minus_zero);
#[derive(Clone, Copy, Debug, PartialEq, Eq, Hash)]
pub struct CacheKey {
    /// The subject's number.
    pub subject: u64,
    /// The typical values' bits.
    pub theta: [u64; 2],
    /// The effects' bits.
    pub eta: [u64; 2],
    /// The additive override's bits, where there is one.
    pub additive: Option<u64>,
}

impl CacheKey {
    /// The key of an evaluation with one effect.
    ///
    ///     # use test_exports::cache::CacheKey;
    ///     let key = CacheKey::one_effect(3, 1., -0.5, Some(0.2));
    ///     assert_eq!((key.subject, key.additive), (3, Some(0.2f64.to_bits())));
    pub fn one_effect(subject: usize, theta: f64, eta: f64, additive: Option<f64>) -> Self {
        CacheKey {
            additive: additive.map(f64::to_bits),
            ..CacheKey::two_effects(subject, [theta, 0.], [eta, 0.])
        }
    }

    /// The key of an evaluation with two effects, which have no override.
    ///
    ///     # use test_exports::cache::CacheKey;
    ///     let key = CacheKey::two_effects(0, [1., 2.], [0., 0.5]);
    ///     assert_eq!(key.eta, [0, 0.5f64.to_bits()]);
    pub fn two_effects(subject: usize, theta: [f64; 2], eta: [f64; 2]) -> Self {
        CacheKey {
            subject: subject as u64,
            theta: theta.map(f64::to_bits),
            eta: eta.map(f64::to_bits),
            additive: None,
        }
    }

    /// As the C face has it: subject, both thetas, both etas, whether there is an
    /// override, and it.
    ///
    ///     # use test_exports::cache::CacheKey;
    ///     let words = CacheKey::one_effect(3, 0., 0., None).words();
    ///     assert_eq!(words, [3, 0, 0, 0, 0, 0, 0]);
    pub fn words(&self) -> [u64; 7] {
        let [theta, theta1] = self.theta;
        let [eta, eta1] = self.eta;
        let additive = self.additive.unwrap_or(0);
        let has_additive = self.additive.is_some() as u64;
        [
            self.subject,
            theta,
            theta1,
            eta,
            eta1,
            has_additive,
            additive,
        ]
    }
}

/// What an evaluation found, without the prior.
///
///     use test_exports::{Sums, cache::CachedTerms};
///
///     let sums = Sums { nll: 0.5, ..Sums::default() };
///     assert_eq!(CachedTerms::from(sums).nll, 0.5);
#[derive(Clone, Copy, Debug, Default, PartialEq)]
pub struct CachedTerms {
    /// The negative log likelihood.
    pub nll: f64,
    /// Its derivatives by the effects.
    pub score: [f64; 2],
    /// The expected information.
    pub information: [[f64; 2]; 2],
}

impl CachedTerms {
    /// As the C face has them: negative log likelihood, both scores, information
    /// by rows, each float as its bits.
    ///
    ///     # use test_exports::cache::CachedTerms;
    ///     assert_eq!(CachedTerms::default().words(), [0; 7]);
    pub fn words(&self) -> [u64; 7] {
        let [s, t] = self.score;
        let [[a, b], [c, d]] = self.information;
        [self.nll, s, t, a, b, c, d].map(f64::to_bits)
    }

    /// The terms that have these words.
    ///
    ///     # use test_exports::cache::CachedTerms;
    ///     let terms = CachedTerms { score: [-1., 2.], ..CachedTerms::default() };
    ///     assert_eq!(CachedTerms::of_words(&terms.words()), terms);
    pub fn of_words(words: &[u64; 7]) -> Self {
        let [nll, s, t, a, b, c, d] = words.map(f64::from_bits);
        CachedTerms {
            nll,
            score: [s, t],
            information: [[a, b], [c, d]],
        }
    }
}

impl From<Sums> for CachedTerms {
    fn from(sums: Sums) -> Self {
        CachedTerms {
            nll: sums.nll,
            score: sums.score,
            information: sums.information,
        }
    }
}

impl From<CachedTerms> for Sums {
    fn from(terms: CachedTerms) -> Self {
        Sums {
            nll: terms.nll,
            score: terms.score,
            information: terms.information,
        }
    }
}

/// Kept evaluations in words of its own. See [the module](self) for an example.
#[derive(Clone, Debug, PartialEq, Eq)]
pub struct Cache {
    words: Vec<u64>,
    k: usize,
    order: [u64; 4],
}

impl Cache {
    /// Room for `k` rows with nothing kept.
    ///
    ///     # use test_exports::cache::Cache;
    ///     assert_eq!(Cache::new(64).cached_rows(), 0);
    ///
    /// # Panics
    ///
    /// Where `k` is not from 1 to [`MOST_ROWS`].
    pub fn new(k: usize) -> Self {
        assert!((1..=MOST_ROWS).contains(&k), "no room for {k} rows");
        Cache {
            words: vec![0; WORDS_FOR_A_ROW * k],
            k,
            order: AT_FIRST,
        }
    }

    /// The slot of the evaluation with this key. It stands there until the next
    /// `insert`.
    ///
    ///     # use test_exports::cache::*;
    ///     let mut cache = Cache::new(64);
    ///     let key = CacheKey::one_effect(0, 1., 0.5, None);
    ///     cache.insert(&key, &CachedTerms::default(), &[[0; ROW_WORDS]]);
    ///     assert!(cache.find(&key).is_some());
    ///     assert!(cache.find(&CacheKey::one_effect(1, 1., 0.5, None)).is_none());
    pub fn find(&self, key: &CacheKey) -> Option<usize> {
        find(&self.words, self.k, &self.order, &key.words())
    }

    /// The terms in a slot that [`find`](Self::find) gave.
    ///
    ///     # use test_exports::cache::*;
    ///     # let mut cache = Cache::new(64);
    ///     # let key = CacheKey::one_effect(0, 1., 0.5, None);
    ///     let terms = CachedTerms { nll: 0.25, ..CachedTerms::default() };
    ///     cache.insert(&key, &terms, &[[0; ROW_WORDS]]);
    ///     assert_eq!(cache.terms(cache.find(&key).unwrap()), terms);
    pub fn terms(&self, slot: usize) -> CachedTerms {
        CachedTerms::of_words(&terms(&self.words, self.k, slot))
    }

    /// Copies the rows in a slot, as many as are lent: how many an evaluation
    /// has is for the caller to know. More than K are not copied.
    ///
    ///     # use test_exports::cache::*;
    ///     # let mut cache = Cache::new(64);
    ///     # let key = CacheKey::one_effect(0, 1., 0.5, None);
    ///     cache.insert(&key, &CachedTerms::default(), &[[1, 2, 3]]);
    ///     let mut copy = [[0; ROW_WORDS]];
    ///     cache.rows(cache.find(&key).unwrap(), &mut copy);
    ///     assert_eq!(copy, [[1, 2, 3]]);
    pub fn rows(&self, slot: usize, rows: &mut [[u64; ROW_WORDS]]) {
        let n = rows.len();
        copy_rows(&self.words, self.k, slot, n, rows.as_flattened_mut(), 0);
    }

    /// Keeps an evaluation that was not found, the oldest out until it fits.
    /// One without rows, or with more than K, is not kept.
    ///
    ///     # use test_exports::cache::*;
    ///     let mut cache = Cache::new(2);
    ///     let [old, new] = [0, 1].map(|subject| CacheKey::one_effect(subject, 1., 0.5, None));
    ///     cache.insert(&old, &CachedTerms::default(), &[[0; ROW_WORDS]]);
    ///     cache.insert(&new, &CachedTerms::default(), &[[0; ROW_WORDS]; 2]);
    ///     assert!(cache.find(&old).is_none() && cache.find(&new).is_some());
    pub fn insert(&mut self, key: &CacheKey, terms: &CachedTerms, rows: &[[u64; ROW_WORDS]]) {
        insert(
            &mut self.words,
            self.k,
            &mut self.order,
            &key.words(),
            &terms.words(),
            rows.len(),
            rows.as_flattened(),
            0,
        );
    }

    /// The most rows that are kept.
    ///
    ///     # use test_exports::cache::Cache;
    ///     assert_eq!(Cache::new(64).k(), 64);
    pub fn k(&self) -> usize {
        self.k
    }

    /// How many evaluations are kept.
    ///
    ///     # use test_exports::cache::*;
    ///     let mut cache = Cache::new(64);
    ///     let key = CacheKey::one_effect(0, 1., 0.5, None);
    ///     cache.insert(&key, &CachedTerms::default(), &[[0; ROW_WORDS]; 5]);
    ///     assert_eq!((cache.entries(), cache.cached_rows()), (1, 5));
    pub fn entries(&self) -> usize {
        (self.order[1] - self.order[0]) as usize
    }

    /// How many rows they have.
    ///
    ///     # use test_exports::cache::Cache;
    ///     assert_eq!(Cache::new(64).cached_rows(), 0);
    pub fn cached_rows(&self) -> usize {
        (self.order[3] - self.order[2]) as usize
    }

    /// The words as the C face has them, see [`curlewstand_cache_find`].
    ///
    ///     # use test_exports::cache::*;
    ///     assert_eq!(Cache::new(64).words().len(), 64 * WORDS_FOR_A_ROW);
    pub fn words(&self) -> &[u64] {
        &self.words
    }

    /// The order as the C face has it.
    ///
    ///     # use test_exports::cache::*;
    ///     assert_eq!(Cache::new(64).order(), &AT_FIRST);
    pub fn order(&self) -> &[u64; 4] {
        &self.order
    }
}

/// The slot of the entry with a key, for words of any kind: what [`Cache::find`]
/// is over words of its own.
///
///     use test_exports::cache::*;
///
///     let words = [0; WORDS_FOR_A_ROW];
///     let key = CacheKey::one_effect(0, 1., 0., None);
///     assert_eq!(find(&words, 1, &AT_FIRST, &key.words()), None);
pub fn find(words: &[u64], k: usize, order: &[u64; 4], key: &[u64; 7]) -> Option<usize> {
    let mut slot = 0;
    let found =
        unsafe { curlewstand_cache_find(words.as_ptr(), words.len(), k, order, key, &mut slot) };
    found.then_some(slot)
}

/// The terms in a slot, for words of any kind.
///
///     use test_exports::cache::*;
///
///     assert_eq!(terms(&[0; WORDS_FOR_A_ROW], 1, 0), [0; 7]);
pub fn terms(words: &[u64], k: usize, slot: usize) -> [u64; 7] {
    let mut terms = [0; 7];
    unsafe { curlewstand_cache_terms(words.as_ptr(), words.len(), k, slot, &mut terms) };
    terms
}

/// Copies the first `n` rows in a slot to `out`, from word `to` on, where they
/// fit.
///
///     use test_exports::cache::*;
///
///     let mut out = [9; 4];
///     copy_rows(&[0; WORDS_FOR_A_ROW], 1, 0, 1, &mut out, 1);
///     assert_eq!(out, [9, 0, 0, 0]);
pub fn copy_rows(words: &[u64], k: usize, slot: usize, n: usize, out: &mut [u64], to: usize) {
    unsafe {
        curlewstand_cache_copy_rows(
            words.as_ptr(),
            words.len(),
            k,
            slot,
            n,
            out.as_mut_ptr(),
            out.len(),
            to,
        )
    }
}

/// Keeps an evaluation whose `n` rows stand in `rows` from word `from` on, or
/// leaves words and order as they are.
///
///     use test_exports::cache::*;
///
///     let (mut words, mut order) = ([0; WORDS_FOR_A_ROW], AT_FIRST);
///     let key = CacheKey::one_effect(0, 1., 0., None).words();
///     insert(&mut words, 1, &mut order, &key, &[0; 7], 1, &[1, 2, 3], 0);
///     assert!(find(&words, 1, &order, &key).is_some());
#[allow(clippy::too_many_arguments)]
pub fn insert(
    words: &mut [u64],
    k: usize,
    order: &mut [u64; 4],
    key: &[u64; 7],
    terms: &[u64; 7],
    n: usize,
    rows: &[u64],
    from: usize,
) {
    unsafe {
        curlewstand_cache_insert(
            words.as_mut_ptr(),
            words.len(),
            k,
            order,
            key,
            terms,
            n,
            rows.as_ptr(),
            rows.len(),
            from,
        )
    }
}
