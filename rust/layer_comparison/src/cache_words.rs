//! Calls of the kept evaluations over words, orders and numbers of any kind,
//! beside their definitions in plain Rust.

use crate::guarded::Guarded;
use crate::random::Random;
use crate::rules_cache::{self, ENTRY_NUMBERS, ROW_NUMBERS};
use test_exports::cache::{self, AT_FIRST, MOST_ROWS};
use test_exports::ffi::curlewstand_cache_find;

/// What is lent to a call.
#[derive(Clone, Debug)]
pub struct Lent {
    pub words: Vec<u64>,
    pub k: usize,
    pub order: [u64; 4],
    pub key: [u64; 7],
    pub terms: [u64; 7],
    pub slot: usize,
    pub n: usize,
    /// The rows to keep, or the words to copy them to.
    pub rows: Vec<u64>,
    /// Where the rows begin.
    pub place: usize,
}

/// Kept evaluations with a few of their words, numbers and lengths changed.
pub fn draw(random: &mut Random) -> Lent {
    let k = random.pick(&[1, 1, 2, 3, 5, 8, 20]);
    let mut lent = kept(random, k);
    for _ in 0..random.pick(&[0, 0, 1, 3, 40]) {
        disturb_a_word(random, &mut lent);
    }
    if random.below(4) == 0 {
        disturb_order(random, &mut lent.order);
    }
    if random.below(4) == 0 {
        let full = 21 * k;
        let any = random.below(24 * k as u64) as usize;
        let length = random.pick(&[0, 1, full - 1, full, full + 1, any]);
        lent.words.resize(length, 1);
    }
    if random.below(6) == 0 {
        let any = random.below(1 << 20) as usize;
        lent.k = random.pick(&[0, 1, k - 1, k + 1, 99_999, 100_000, 100_001, any, !0]);
    }
    let any = random.word() as usize;
    lent.slot = match random.below(4) {
        0 => random.pick(&[k, k + 1, 100_000, !0, any]),
        _ => random.below(k as u64) as usize,
    };
    draw_rows(random, &mut lent);
    lent
}

/// Some evaluations kept one after the other, often with numbers that come to
/// their end; and a key that is among them or nearly so.
fn kept(random: &mut Random, k: usize) -> Lent {
    let mut lent = Lent {
        words: vec![0; random.pick(&[21, 24]) * k],
        k,
        order: AT_FIRST,
        key: [0; 7],
        terms: [0; 7].map(|_| random.word()),
        slot: 0,
        n: 0,
        rows: Vec::new(),
        place: 0,
    };
    if random.below(4) == 0 {
        let [entry, row] = [random.below(5), random.below(9)];
        let (entry, row) = (ENTRY_NUMBERS - entry, ROW_NUMBERS - row);
        lent.order = [entry, entry, row, row];
    }
    let keys: [[u64; 7]; 4] = [[0; 7]; 4].map(|key| key.map(|_| random.below(3)));
    let rows: Vec<u64> = (0..3 * k).map(|_| random.word()).collect();
    let Lent {
        words, order, key, ..
    } = &mut lent;
    for _ in 0..random.below(2 * k as u64 + 3) {
        *key = random.pick(&keys);
        let terms = [0; 7].map(|_| random.word());
        let any = 1 + random.below(k as u64) as usize;
        let n = random.pick(&[1, 1, any]);
        rules_cache::insert(words, k, order, key, &terms, n, &rows, 0);
    }
    if random.coin() {
        lent.key = random.pick(&keys);
    }
    if random.below(4) == 0 {
        let changed = random.pick(&[1, 1 << 32, 1 << 63, !0]);
        lent.key[random.below(7) as usize] ^= changed;
    }
    lent
}

/// Mostly numbers that entries may have, so that links lead somewhere.
fn disturb_a_word(random: &mut Random, lent: &mut Lent) {
    let heads_and_links = 2 * lent.k;
    let among = random.pick(&[lent.words.len(), heads_and_links]);
    let place = random.below(among as u64) as usize;
    let word = lent.words[place];
    let [oldest, next, ..] = lent.order;
    let about = oldest
        .wrapping_add(random.below(lent.k as u64 + 3))
        .wrapping_sub(1);
    lent.words[place] = match random.below(8) {
        0 => random.word(),
        1 => random.pick(&[0, 1, !0, 1 << 32, next]),
        2 => word ^ 1 << random.below(64),
        3 => lent.words[random.below(among as u64) as usize],
        4 => about,
        _ => word >> 32 << 32 | about & 0xffff_ffff,
    };
}

fn disturb_order(random: &mut Random, order: &mut [u64; 4]) {
    let any = random.word();
    let ends = [0, 1, ENTRY_NUMBERS - 1, ENTRY_NUMBERS, ROW_NUMBERS - 1];
    for number in order {
        *number = match random.below(8) {
            0 => random.pick(&[ends[0], ends[1], ends[2], ends[3], ends[4], ROW_NUMBERS]),
            1 => random.pick(&[any, !0, any >> 40]),
            2 => number.wrapping_add(random.below(5)).wrapping_sub(2),
            _ => *number,
        };
    }
}

/// Room for the rows that is ample, exact, one word short or none; and places
/// within and beyond.
fn draw_rows(random: &mut Random, lent: &mut Lent) {
    let k = lent.k;
    let usual = 1 + random.below(k.clamp(1, 20) as u64) as usize;
    let most = k.min(200);
    lent.n = random.pick(&[usual, usual, usual, 0, most, most + 1, k, !0]);
    let wanted = 3 * lent.n.min(300);
    let before = random.below(9) as usize;
    let length = match random.below(8) {
        0 => 0,
        1 => (wanted + before).saturating_sub(1),
        2 => wanted + before + 5,
        _ => wanted + before,
    };
    lent.rows = (0..length).map(|_| random.word()).collect();
    lent.place = match random.below(8) {
        0 => random.pick(&[0, length, length + 1, !0, !0 - wanted + 1]),
        _ => before,
    };
}

/// True where the call did or found something, or where the sides differ.
pub type Compared = Result<bool, String>;

pub fn find(lent: &Lent) -> Compared {
    const UNTOUCHED: usize = 0x5eed;
    let Lent {
        words,
        k,
        order,
        key,
        ..
    } = lent;
    let mut slot = UNTOUCHED;
    let found =
        unsafe { curlewstand_cache_find(words.as_ptr(), words.len(), *k, order, key, &mut slot) };
    let defined = rules_cache::find(words, *k, order, key);
    if found != defined.is_some() || slot != defined.unwrap_or(UNTOUCHED) {
        return Err(format!("ours {found} with {slot}, defined {defined:?}"));
    }
    Ok(found)
}

pub fn terms(lent: &Lent) -> Compared {
    let mut ours = [0x5eed; 7];
    let Lent { words, k, slot, .. } = lent;
    unsafe {
        test_exports::ffi::curlewstand_cache_terms(
            words.as_ptr(),
            words.len(),
            *k,
            *slot,
            &mut ours,
        )
    };
    let defined = rules_cache::terms(words, *k, *slot);
    if ours != defined {
        return Err(format!("ours {ours:x?}, defined {defined:x?}"));
    }
    Ok(ours != [0; 7])
}

pub fn copy_rows(lent: &Lent) -> Compared {
    let Lent {
        words,
        k,
        slot,
        n,
        rows,
        place,
        ..
    } = lent;
    let [mut ours, mut defined] = [Guarded::new(rows), Guarded::new(rows)];
    cache::copy_rows(words, *k, *slot, *n, ours.lent(), *place);
    rules_cache::copy_rows(words, *k, *slot, *n, defined.lent(), *place);
    match ours.first_unlike(&defined) {
        Some(unlike) => Err(unlike),
        None => Ok(ours.lent() != &rows[..]),
    }
}

pub fn insert(lent: &Lent) -> Compared {
    let Lent {
        k,
        key,
        terms,
        n,
        rows,
        place,
        ..
    } = lent;
    let mut orders = [lent.order; 2];
    let [order, defined_order] = &mut orders;
    let [mut ours, mut defined] = [&lent.words; 2].map(|words| Guarded::new(words));
    let words = ours.lent();
    cache::insert(words, *k, order, key, terms, *n, rows, *place);
    let words = defined.lent();
    rules_cache::insert(words, *k, defined_order, key, terms, *n, rows, *place);
    if orders[0] != orders[1] {
        return Err(format!(
            "order: ours {:x?}, defined {:x?}",
            orders[0], orders[1]
        ));
    }
    match ours.first_unlike(&defined) {
        Some(unlike) => Err(unlike),
        None => Ok(orders[0] != lent.order),
    }
}

/// Compares so many calls, each drawn from a seed of its own. Gives how many
/// did or found something.
pub fn over_seeds(
    name: &str,
    first_seed: u64,
    count: u64,
    compared: impl Fn(&Lent) -> Compared,
) -> u64 {
    let mut done = 0;
    for seed in first_seed..first_seed + count {
        let lent = draw(&mut Random::new(seed));
        match compared(&lent) {
            Ok(did) => done += did as u64,
            Err(what) => panic!("{name} differs at seed {seed}: {what}\n{}", told(&lent)),
        }
    }
    crate::say(&format!("{name}: {count} calls alike, {done} with effect"));
    done
}

/// Evaluations kept one after the other in words for the largest K, which are
/// of any kind at first and are all compared after each.
pub fn at_full_size(seed: u64, count: usize) {
    let random = &mut Random::new(seed);
    let k = MOST_ROWS;
    let mut words: Vec<u64> = (0..21 * k).map(|_| random.below(40)).collect();
    let rows: Vec<u64> = (0..3 * k).map(|_| random.word()).collect();
    let mut order = [3, 40, 7, 7 + random.below(k as u64)];
    let (mut defined, mut defined_order) = (words.clone(), order);
    for step in 0..count {
        let key = [0; 7].map(|_| random.word());
        let any = random.below(k as u64) as usize;
        let n = random.pick(&[1, 2, 50, any, k - 1, k, k + 1]);
        cache::insert(&mut words, k, &mut order, &key, &key, n, &rows, 0);
        let (defined, defined_order) = (&mut defined, &mut defined_order);
        rules_cache::insert(defined, k, defined_order, &key, &key, n, &rows, 0);
        let place = words.iter().zip(&*defined).position(|(a, b)| a != b);
        assert_eq!((place, order), (None, *defined_order), "step {step}, n {n}");
        let found = cache::find(&words, k, &order, &key);
        assert_eq!(found.is_some(), n <= k, "step {step}, n {n}");
        assert_eq!(found, rules_cache::find(defined, k, &order, &key));
    }
}

fn told(lent: &Lent) -> String {
    let (words, rows) = (lent.words.len(), lent.rows.len());
    format!(
        "  {words} words, K {}, order {:x?}, key {:x?}\n  slot {}, n {}, {rows} words of rows, place {}",
        lent.k, lent.order, lent.key, lent.slot, lent.n, lent.place
    )
}
