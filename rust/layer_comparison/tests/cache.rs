//! The kept evaluations: in step with the source's map and queue, with the
//! original itself, and call by call over words of any kind.

use layer_comparison::cache_keys::Like;
use layer_comparison::cache_sequences::{compare, draw, Met, Sizes};
use layer_comparison::cache_words::{self, over_seeds};
use layer_comparison::kept::{Evaluation, Kept};
use layer_comparison::random::Random;
use layer_comparison::rules_cache::ENTRY_NUMBERS;
use std::time::Instant;
use test_exports::cache::{self, AT_FIRST};

/// Sequences of so many steps for each of the K.
fn sequences(met: &mut Met, seed: u64, ks: &[usize], sizes: &[Sizes], steps: usize) {
    for (number, k) in ks.iter().enumerate() {
        for (kind, sizes) in sizes.iter().enumerate() {
            let seed = seed + (100 * number + kind) as u64;
            let sequence = draw(&mut Random::new(seed), *k, *sizes, steps);
            if let Err(told) = compare(&sequence, met) {
                panic!("seed {seed}, {sizes:?}, {steps} steps: {told}");
            }
        }
    }
}

#[test]
fn sequences_beside_map_and_queue() {
    let begun = Instant::now();
    let mut met = Met::default();
    let mut random = Random::new(130);
    for round in 0..10 {
        let seed = 10_000 * (round + 1);
        sequences(&mut met, seed, &[1, 2, 3, 7, 64, 1_000], &Sizes::ALL, 4_000);
        let any = [0; 4].map(|_| 1 + random.below(500) as usize);
        sequences(&mut met, seed + 5_000, &any, &Sizes::ALL, 4_000);
    }
    let any = [0; 6].map(|_| 1 + random.below(20_000) as usize);
    sequences(
        &mut met,
        200_000,
        &any,
        &[Sizes::Few, Sizes::Unlike],
        20_000,
    );
    sequences(&mut met, 300_000, &[100_000], &[Sizes::One], 400_000);
    sequences(&mut met, 310_000, &[100_000], &[Sizes::Unlike], 60_000);
    let elapsed = begun.elapsed();
    layer_comparison::say(&format!("beside map and queue: {met:?}, {elapsed:.1?}"));
    hold(&met);
}

/// Everything occurs.
fn hold(met: &Met) {
    assert!(met.steps >= 1_000_000, "{met:?}");
    for count in [
        met.hits,
        met.misses,
        met.returns,
        met.evictions,
        met.several_gone,
        met.too_large,
        met.filling_all,
        met.slots_again,
        met.rows_around,
        met.passed_by_bits,
        met.passed_by_key,
        met.dead_ends,
        met.filtered,
        met.let_through,
    ] {
        assert!(count > 10_000, "{met:?}");
    }
    for like in &Like::ALL[1..] {
        let like = *like as usize;
        assert!(met.hits_beside[like] > 1_000, "{met:?}");
        assert!(met.misses_beside[like] > 1_000, "{met:?}");
    }
}

#[test]
fn calls_over_any_words() {
    let begun = Instant::now();
    assert!(over_seeds("cache_find", 1 << 32, 300_000, cache_words::find) > 40_000);
    assert!(over_seeds("cache_terms", 2 << 32, 200_000, cache_words::terms) > 80_000);
    assert!(over_seeds("cache_copy_rows", 3 << 32, 300_000, cache_words::copy_rows) > 80_000);
    assert!(over_seeds("cache_insert", 4 << 32, 300_000, cache_words::insert) > 60_000);
    layer_comparison::say(&format!("calls over any words: {:.1?}", begun.elapsed()));
}

#[test]
fn words_for_the_largest_k() {
    cache_words::at_full_size(131, 60);
}

/// Outside document 01's domain words and map part: an evaluation without rows
/// is not kept, nor is any once the numbers have come to their end. Setup sees
/// to it that each subject has an observation, and no session has more
/// evaluations than there are numbers.
#[test]
fn where_words_and_map_part() {
    let (key, empty, one) = ([0; 7], evaluation(0), evaluation(1));
    let mut map = Kept::new(1);
    assert_eq!(map.keep(key, &empty), Some(0));
    assert!(map.get(&key).is_some());
    let (mut words, mut order) = ([0; 24], AT_FIRST);
    cache::insert(&mut words, 1, &mut order, &key, &key, 0, &[], 0);
    assert_eq!((words, order), ([0; 24], AT_FIRST));

    // the last number is given out, and after it none
    let last = ENTRY_NUMBERS - 1;
    let mut order = [last, last, 0, 0];
    let rows = one.rows.as_flattened();
    cache::insert(&mut words, 1, &mut order, &key, &key, 1, rows, 0);
    assert_eq!(cache::find(&words, 1, &order, &key), Some(0));
    let (words_before, order_before) = (words, order);
    let other = [1; 7];
    cache::insert(&mut words, 1, &mut order, &other, &key, 1, rows, 0);
    assert_eq!((words, order), (words_before, order_before));
    assert_eq!(map.keep(other, &one), Some(0));
    assert!(map.get(&other).is_some());
}

fn evaluation(rows: usize) -> Evaluation {
    Evaluation {
        terms: [0; 7],
        rows: vec![[0; 3]; rows],
    }
}

#[cfg(source_at_hand)]
mod beside_the_original {
    use layer_comparison::cache_sessions::{evaluations, searches, Met};
    use oracle::{OneEffect, TwoEffects};

    fn hold(name: &str, met: &Met, hits: u64, misses: u64) {
        layer_comparison::say(&format!("{name}: {met:?}"));
        assert!(met.hits > hits && met.misses > misses, "{met:?}");
        assert!(met.refused > 100, "{met:?}");
        assert!(met.evictions > 1_000, "{met:?}");
        assert!(met.too_large > 100, "{met:?}");
    }

    #[test]
    fn single_evaluations() {
        let mut met = Met::default();
        for seed in 0..40 {
            evaluations::<OneEffect>(140 + seed, 1_000, &mut met);
        }
        hold("evaluations, one effect", &met, 5_000, 5_000);
        let mut met = Met::default();
        for seed in 0..40 {
            evaluations::<TwoEffects>(240 + seed, 1_000, &mut met);
        }
        hold("evaluations, two effects", &met, 5_000, 5_000);
    }

    #[test]
    fn whole_searches() {
        let mut met = Met::default();
        for seed in 0..60 {
            searches::<OneEffect>(340 + seed, 30, &mut met);
        }
        hold("searches, one effect", &met, 3_000, 5_000);
        let mut met = Met::default();
        for seed in 0..60 {
            searches::<TwoEffects>(440 + seed, 20, &mut met);
        }
        hold("searches, two effects", &met, 5_000, 5_000);
    }
}
