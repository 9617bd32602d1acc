//! The kept evaluations once more, in plain Rust: what is defined of each call
//! over words of any kind. A word beyond the end is read as 0 and not written.
//! Numbers are wide enough that no sum runs over.

use test_exports::cache::{MOST_ROWS, ROW_WORDS};

/// Where links, entries and rows begin, for each row of K, and the words of an
/// entry.
const LINKS: usize = 1;
const ENTRIES: usize = 2;
const ROWS: usize = 18;
const ENTRY_WORDS: usize = 16;

/// Where an entry has the number of its rows and the number of the first.
const COUNT: usize = 14;
const FIRST: usize = 15;

pub const HALF: u64 = 1 << 32;

/// From here on no further entry is numbered, and no further row.
pub const ENTRY_NUMBERS: u64 = HALF;
pub const ROW_NUMBERS: u64 = 1 << 60;

/// What is added to the low and the high half of each of a key's words.
pub const ADDED: [[u64; 2]; 7] = [
    [0x9e37_79b1, 0x85eb_ca77],
    [0xc2b2_ae3d, 0x27d4_eb2f],
    [0x1656_67b1, 0xd3a2_646d],
    [0xfd70_46c5, 0xb55a_4f09],
    [0x8f1b_bcdd, 0x6ed9_eba1],
    [0x5a82_7999, 0xca62_c1d7],
    [0xb7e1_5163, 0x7f4a_7c15],
];

/// The factors of the sum's low and high half.
pub const FACTORS: [u64; 2] = [1_640_531_527, 2_146_121_005];

pub fn low(word: u64) -> u64 {
    word % HALF
}

pub fn high(word: u64) -> u64 {
    word / HALF
}

/// The share of the key's word at a place in the sum.
pub fn part(place: usize, word: u64) -> u64 {
    let [to_low, to_high] = ADDED[place];
    low(low(word) + to_low) * low(high(word) + to_high)
}

pub fn sum(key: &[u64; 7]) -> u64 {
    let parts = (0..7).map(|place| part(place, key[place]));
    parts.fold(0, u64::wrapping_add)
}

pub fn mixed(sum: u64) -> u64 {
    low(sum) * FACTORS[0] + high(sum) * FACTORS[1]
}

pub fn hash(key: &[u64; 7]) -> u64 {
    mixed(sum(key))
}

pub fn head(hash: u64, k: usize) -> usize {
    (low(hash) * k as u64 / HALF) as usize
}

fn is_room(k: usize) -> bool {
    (1..=MOST_ROWS).contains(&k)
}

pub fn at(words: &[u64], place: usize) -> u64 {
    words.get(place).copied().unwrap_or(0)
}

pub fn put(words: &mut [u64], place: usize, word: u64) {
    if let Some(stands) = words.get_mut(place) {
        *stands = word;
    }
}

fn slot(k: usize, entry: u64) -> usize {
    (entry % k as u64) as usize
}

fn link_place(k: usize, entry: u64) -> usize {
    LINKS * k + slot(k, entry)
}

fn entry_place(k: usize, entry: u64) -> usize {
    ENTRIES * k + ENTRY_WORDS * slot(k, entry)
}

/// Where word `offset` from row `row` on stands.
fn row_place(k: usize, row: u64, offset: usize) -> usize {
    let word = row as u128 * ROW_WORDS as u128 + offset as u128;
    ROWS * k + (word % (ROW_WORDS * k) as u128) as usize
}

/// The entries of a key's chain that are not dead, the latest first, in at most
/// as many steps as there are entries. `k` is in range.
pub fn chain<'a>(
    words: &'a [u64],
    k: usize,
    order: &[u64; 4],
    key: &[u64; 7],
) -> impl Iterator<Item = u64> + 'a {
    let oldest = order[0];
    let most = order[1].saturating_sub(oldest) as usize;
    let latest = low(at(words, head(hash(key), k)));
    let before = move |entry: &u64| Some(low(at(words, link_place(k, *entry))));
    std::iter::successors(Some(latest), before)
        .take_while(move |entry| *entry >= oldest)
        .take(most)
}

/// The bit that an entry sets in its chain's filter.
fn bit(key: &[u64; 7]) -> u64 {
    1 << (high(hash(key)) % 32)
}

/// Whether the filter of the key's chain has the key's bit.
pub fn may_have(words: &[u64], k: usize, key: &[u64; 7]) -> bool {
    high(at(words, head(hash(key), k))) & bit(key) != 0
}

/// Whether the entry has the bits of the key's hash beside its link.
pub fn has_bits(words: &[u64], k: usize, entry: u64, key: &[u64; 7]) -> bool {
    high(at(words, link_place(k, entry))) == high(hash(key))
}

pub fn has_key(words: &[u64], k: usize, entry: u64, key: &[u64; 7]) -> bool {
    let place = entry_place(k, entry);
    (0..7).all(|word| at(words, place + word) == key[word])
}

pub fn find(words: &[u64], k: usize, order: &[u64; 4], key: &[u64; 7]) -> Option<usize> {
    if !is_room(k) || order[1].saturating_sub(order[0]) > k as u64 || !may_have(words, k, key) {
        return None;
    }
    chain(words, k, order, key)
        .find(|entry| has_bits(words, k, *entry, key) && has_key(words, k, *entry, key))
        .map(|entry| slot(k, entry))
}

pub fn terms(words: &[u64], k: usize, slot: usize) -> [u64; 7] {
    if !is_room(k) {
        return [0; 7];
    }
    let place = entry_place(k, slot as u64);
    std::array::from_fn(|term| at(words, place + 7 + term))
}

/// Whether `n` rows stand, or have room, in so many words from a place on.
fn fit(n: usize, words: usize, place: usize) -> bool {
    place as u128 + ROW_WORDS as u128 * n as u128 <= words as u128
}

pub fn copy_rows(words: &[u64], k: usize, slot: usize, n: usize, out: &mut [u64], to: usize) {
    if !is_room(k) || n > k || words.len() < (ROWS + ROW_WORDS) * k || !fit(n, out.len(), to) {
        return;
    }
    let first = at(words, entry_place(k, slot as u64) + FIRST);
    for offset in 0..ROW_WORDS * n {
        out[to + offset] = at(words, row_place(k, first, offset));
    }
}

/// The order once the oldest have gone, until at most `room` rows are left.
fn evicted(words: &[u64], k: usize, room: usize, order: [u64; 4]) -> [u64; 4] {
    let [mut oldest, next, mut first_row, next_row] = order;
    while oldest < next && next_row.saturating_sub(first_row) > room as u64 {
        let gone = at(words, entry_place(k, oldest) + COUNT);
        // more rows cannot go than there are
        first_row = first_row.saturating_add(gone).min(next_row);
        oldest += 1;
    }
    // where no entry is left there is no row
    if oldest >= next {
        first_row = next_row;
    }
    [oldest, next, first_row, next_row]
}

fn is_kept(k: usize, order: &[u64; 4], n: usize, rows: usize, from: usize) -> bool {
    is_room(k)
        && (1..=k).contains(&n)
        && fit(n, rows, from)
        && order[1].saturating_sub(order[0]) <= k as u64
        && order[1] < ENTRY_NUMBERS
        && order[3] < ROW_NUMBERS
}

#[allow(clippy::too_many_arguments)]
pub fn insert(
    words: &mut [u64],
    k: usize,
    order: &mut [u64; 4],
    key: &[u64; 7],
    terms: &[u64; 7],
    n: usize,
    rows: &[u64],
    from: usize,
) {
    if !is_kept(k, order, n, rows.len(), from) {
        return;
    }
    let [oldest, next, first_row, next_row] = evicted(words, k, k - n, *order);
    let head = head(hash(key), k);
    let [latest, filter] = [low(at(words, head)), high(at(words, head))];
    let link = latest + high(hash(key)) * HALF;
    // a chain without a live entry begins anew
    let kept = if latest < oldest { 0 } else { filter };
    put(words, head, next + (kept | bit(key)) * HALF);
    put(words, link_place(k, next), link);
    let entry = [&key[..], terms, &[n as u64, next_row]].concat();
    for (word, value) in entry.into_iter().enumerate() {
        put(words, entry_place(k, next) + word, value);
    }
    for offset in 0..ROW_WORDS * n {
        put(words, row_place(k, next_row, offset), rows[from + offset]);
    }
    *order = [oldest, next + 1, first_row, next_row + n as u64];
}
