//! Keys of kept evaluations that are easily mistaken for each other: alike but
//! for a sign, the override or a word, or made so that their hashes collide.

use crate::random::Random;
use crate::rules_cache::{hash, high, low, mixed, part, sum, ADDED, FACTORS, HALF};
use test_exports::cache::CacheKey;

/// How a key is like an earlier one.
#[derive(Clone, Copy, Debug, PartialEq, Eq)]
pub enum Like {
    /// In nothing.
    Nothing,
    /// In all but the sign of a zero theta or eta.
    AllButASign,
    /// In all but the override: none, a zero of either sign, or another.
    AllButTheOverride,
    /// In all but one word.
    AllButAWord,
    /// In its chain alone.
    Chain,
    /// In its whole hash.
    Hash,
}

impl Like {
    pub const ALL: [Like; 6] = [
        Like::Nothing,
        Like::AllButASign,
        Like::AllButTheOverride,
        Like::AllButAWord,
        Like::Chain,
        Like::Hash,
    ];
}

#[derive(Clone, Copy, Debug)]
pub struct Made {
    pub key: CacheKey,
    pub like: Like,
    /// The number of the earlier key, its own where there is none.
    pub other: usize,
}

/// So many keys, no two of them the same. A share of `twins` in 16 is like an
/// earlier one.
pub fn pool(random: &mut Random, count: usize, twins: u64) -> Vec<Made> {
    let mut pool: Vec<Made> = Vec::with_capacity(count);
    let mut seen = std::collections::HashSet::new();
    while pool.len() < count {
        let mut made = Made {
            key: unlike(random),
            like: Like::Nothing,
            other: pool.len(),
        };
        if !pool.is_empty() && random.below(16) < twins {
            made.like = random.pick(&Like::ALL[1..]);
            // the first few get families of some size
            let among = random.pick(&[pool.len(), 1 + pool.len() / 64]);
            made.other = random.below(among as u64) as usize;
            made.key = alike(random, &pool[made.other].key, made.like);
        }
        if seen.insert(made.key) {
            pool.push(made);
        }
    }
    pool
}

/// A key as a search has them: often round numbers and zeros, few subjects. In
/// some a word adds nothing to the sum, whatever its high half.
fn unlike(random: &mut Random) -> CacheKey {
    let mut float = |zero: u64| match random.below(8) {
        few if few < zero => random.pick(&[0., -0.]),
        5 => random.below(17) as f64 / 8. - 1.,
        6 => f64::from_bits(random.word()),
        _ => random.uniform(-4., 4.),
    };
    let (theta, eta) = ([float(1), float(4)], [float(2), float(4)]);
    let mut key = CacheKey::two_effects(random.below(9) as usize, theta, eta);
    if random.coin() {
        key.additive = Some(random.uniform(0., 2.).to_bits());
    }
    if random.below(8) == 0 {
        let place = random.below(5);
        let word = word_mut(&mut key, place);
        *word = word_of(place as usize, 0, high(*word));
    }
    key
}

fn alike(random: &mut Random, other: &CacheKey, like: Like) -> CacheKey {
    let mut key = *other;
    match like {
        Like::Nothing => key = unlike(random),
        Like::AllButASign => flip_a_zero(random, &mut key),
        Like::AllButTheOverride => {
            let overrides = [None, Some(0.), Some(-0.), Some(1.)];
            key.additive = random.pick(&overrides).map(f64::to_bits);
        }
        Like::AllButAWord => {
            let any = random.word();
            let changed = random.pick(&[1, 1 << 31, 1 << 32, 1 << 63, any]);
            *word_mut(&mut key, random.below(5)) ^= changed;
        }
        Like::Chain => {
            let bits = random.below(HALF);
            return with_sum(random, sum_with_low_half(low(hash(&other.words())), bits));
        }
        Like::Hash => return with_hash_of(random, other),
    }
    key
}

fn word_mut(key: &mut CacheKey, place: u64) -> &mut u64 {
    match place {
        0 => &mut key.subject,
        1 => &mut key.theta[0],
        2 => &mut key.theta[1],
        3 => &mut key.eta[0],
        _ => &mut key.eta[1],
    }
}

/// Turns the sign of one zero; where there is none, nothing is changed.
fn flip_a_zero(random: &mut Random, key: &mut CacheKey) {
    let zeros: Vec<u64> = (1..5)
        .filter(|place| f64::from_bits(*word_mut(key, *place)) == 0.)
        .collect();
    if !zeros.is_empty() {
        *word_mut(key, random.pick(&zeros)) ^= 1 << 63;
    }
}

/// Another key with the same hash: by one word alone, by the same sum, or by
/// another sum that is mixed to the same.
fn with_hash_of(random: &mut Random, other: &CacheKey) -> CacheKey {
    let sum = sum(&other.words());
    match random.below(4) {
        0 | 1 => with_another_word(random, *other),
        2 => with_sum(random, sum),
        _ => with_sum(random, mixed_alike(sum).unwrap_or(sum)),
    }
}

/// The sign of a word that adds nothing is turned; where there is none, the
/// halves of one are exchanged.
fn with_another_word(random: &mut Random, mut key: CacheKey) -> CacheKey {
    let words = key.words();
    if let Some(place) = (0..5).find(|place| part(*place, words[*place]) == 0) {
        *word_mut(&mut key, place as u64) ^= 1 << 63;
    } else {
        let place = random.below(5);
        let word = word_mut(&mut key, place);
        *word = exchanged(place as usize, *word);
    }
    key
}

/// The word whose halves, with what is added to them, are the other's
/// exchanged, so that the product is the same.
fn exchanged(place: usize, word: u64) -> u64 {
    let [to_low, to_high] = ADDED[place];
    word_of(place, low(high(word) + to_high), low(low(word) + to_low))
}

/// The word at a place whose part is the product of two numbers below 2^32.
fn word_of(place: usize, first: u64, second: u64) -> u64 {
    let [to_low, to_high] = ADDED[place];
    low(second + HALF - to_high) * HALF + low(first + HALF - to_low)
}

/// A key with this sum. Both etas are solved for: one with nearly all of what
/// is missing, the other with the rest of a division.
fn with_sum(random: &mut Random, sum: u64) -> CacheKey {
    loop {
        let mut key = unlike(random);
        let words = key.words();
        let others = [0, 1, 2, 5, 6].map(|place| part(place, words[place]));
        let missing = others.into_iter().fold(sum, u64::wrapping_sub);
        let divisor = HALF - 1 - random.below(1 << 20);
        if missing / divisor < HALF {
            key.eta = [
                word_of(3, divisor, missing / divisor),
                word_of(4, missing % divisor, 1),
            ];
            return key;
        }
    }
}

/// A sum with this high half whose hash has the given low half.
fn sum_with_low_half(of_hash: u64, high: u64) -> u64 {
    let missing = (of_hash as u32).wrapping_sub((high * FACTORS[1]) as u32);
    let first = missing.wrapping_mul(inverse(FACTORS[0] as u32));
    high * HALF + first as u64
}

/// The inverse of an odd number by Newton's rule: each round doubles the bits
/// that are right, three at first.
fn inverse(odd: u32) -> u32 {
    (0..4).fold(odd, |inverse, _| {
        inverse.wrapping_mul(2u32.wrapping_sub(odd.wrapping_mul(inverse)))
    })
}

/// Another sum that is mixed to the same, where one half can take up what the
/// other gives.
fn mixed_alike(sum: u64) -> Option<u64> {
    let [first, second] = FACTORS;
    let other = if low(sum) >= second && high(sum) + first < HALF {
        (high(sum) + first) * HALF + low(sum) - second
    } else if low(sum) + second < HALF && high(sum) >= first {
        (high(sum) - first) * HALF + low(sum) + second
    } else {
        return None;
    };
    assert_eq!(mixed(sum), mixed(other));
    Some(other)
}
