//! Random evaluations: replies that are whole and others, floats of every kind
//! in them, sums that overflow, rows in any order and beyond the end.

use crate::evaluations::Lent;
use crate::plausible::{self, stray, subnormal};
use crate::random::Random;
use crate::rules_evaluation::Reply;
use crate::simulators::divided;
use test_exports::cache::ROW_WORDS;
use test_exports::evaluation::{Observation, OUT_WORDS};
use test_exports::ffi::Question;

pub type Draw = fn(&mut Random) -> Lent;

/// Mostly what a session may lend: one or two effects, 1 to 64 outputs, outputs
/// below that. The reply, the observations' rows and every float may be
/// anything.
pub fn draw(random: &mut Random) -> Lent {
    let effects = 1 + random.below(2) as u32;
    let mut lent = match random.below(8) {
        0 => overflowing(random, effects),
        _ => predicted(random, effects),
    };
    if random.below(3) == 0 {
        for _ in 0..1 + random.below(3) {
            disturb_a_float(random, &mut lent);
        }
    }
    if random.below(8) == 0 {
        misplace_a_row(random, &mut lent);
    }
    if random.below(6) == 0 {
        change_length(random, &mut lent);
    }
    draw_override(random, &mut lent);
    draw_budget(random, &mut lent);
    surround(random, &mut lent);
    lent
}

/// The same with other numbers and lengths, whatever they are.
pub fn draw_any(random: &mut Random) -> Lent {
    let mut lent = draw(random);
    for _ in 0..random.below(4) {
        disturb(random, &mut lent);
    }
    lent
}

fn draw_width(random: &mut Random) -> u32 {
    let any = 1 + random.below(64);
    let few = 1 + random.below(8);
    random.pick(&[1, 1, 2, 3, few, few, any, 64]) as u32
}

fn draw_count(random: &mut Random) -> usize {
    let most = random.pick(&[1, 2, 4, 4, 8, 8, 12]);
    match random.below(128) {
        0 => 50 + random.below(80) as usize,
        _ => 1 + random.below(most) as usize,
    }
}

/// An individual value: one that a session's question carries.
fn draw_individual(random: &mut Random) -> f64 {
    match random.below(8) {
        0..3 => random.pick(&[1., 2., 0.5]),
        3 => random.magnitude(-1022, 1023),
        4 => random.pick(&[5e-324, f64::MIN_POSITIVE, f64::MAX]),
        _ => random.magnitude(-3, 3) * oracle::libm::exp(random.uniform(-4., 4.)),
    }
}

fn draw_side(random: &mut Random) -> u64 {
    let any = random.word();
    random.pick(&[0, 0, 0, 0, 1, 1, 1, 2, !0, 1 << 32, 1 << 63, any])
}

fn draw_time(random: &mut Random) -> u64 {
    let time = random.uniform(0., 100.);
    match random.below(16) {
        0 => random.word(),
        1 => random
            .pick(&[f64::NAN, f64::INFINITY, f64::NEG_INFINITY, -0., 0.])
            .to_bits(),
        2 => subnormal(random).to_bits(),
        _ => time.to_bits(),
    }
}

/// A question with rows enough for it, without any observation yet.
fn blank(random: &mut Random, effects: u32, rows: usize) -> Lent {
    let mut lent = Lent {
        observations: Vec::new(),
        question: Question {
            from: 0,
            to: 0,
            individual: draw_individual(random),
            individual_2: draw_individual(random),
            has_additive: false,
            additive: f64::from_bits(random.word()),
            width: draw_width(random),
            effects,
            output_budget: u32::MAX,
            block: 0,
        },
        reply: Vec::new(),
        work: Vec::new(),
        out: Vec::new(),
    };
    let words = rows * lent.reply().row_words;
    append(random, &mut lent, words);
    lent
}

/// So many words more, those of a row one after the other. What no observation
/// asks for is of any bits, or a plain float.
fn append(random: &mut Random, lent: &mut Lent, words: usize) {
    let row_words = lent.reply().row_words;
    let plain = random.coin();
    for _ in 0..words {
        let word = match lent.reply.len() % row_words {
            0 => draw_time(random),
            1 => draw_side(random),
            _ if plain => 1023 << 52 | random.word() >> 12,
            _ => random.word(),
        };
        lent.reply.push(word);
    }
}

/// Adds an observation of any output, and writes what predicts it: its value,
/// both deviations, the prediction and the sensitivities by each eta.
fn observe(random: &mut Random, lent: &mut Lent, row: usize, drawn: [f64; 6]) {
    let [value, additive, proportional, prediction, first, second] = drawn;
    let given = lent.question;
    let output = random.below(given.width as u64) as usize;
    let words = [
        prediction,
        divided(first, given.individual),
        divided(second, given.individual_2),
    ];
    let place = row * lent.reply().row_words + 2 + output;
    for (block, x) in words.iter().enumerate().take(1 + given.effects as usize) {
        lent.reply[place + block * given.width as usize] = x.to_bits();
    }
    lent.observations.push(Observation {
        output,
        row,
        value,
        additive,
        proportional,
    });
    lent.question.to += 1;
}

/// Observations with rows of which most are valid, or with rows of fits that
/// come to their limits; each in its own row in order, or in any of few rows.
fn predicted(random: &mut Random, effects: u32) -> Lent {
    let count = draw_count(random);
    let [gentle, in_order] = [random.coin(), random.below(3) == 0];
    let rows = match in_order {
        true => count,
        false => 1 + random.below(count.min(12) as u64 + 1) as usize,
    };
    let mut lent = blank(random, effects, rows);
    for number in 0..count {
        let row = match in_order {
            true => number,
            false => random.below(rows as u64) as usize,
        };
        let drawn = match gentle {
            true => gentle_row(random),
            false => plausible::add_row(random),
        };
        observe(random, &mut lent, row, drawn);
    }
    lent
}

/// As `plausible::add_row` has it.
fn gentle_row(random: &mut Random) -> [f64; 6] {
    let [value, prediction, first, second] = [0; 4].map(|_| random.uniform(-3., 9.));
    let [additive, proportional] = [0; 2].map(|_| random.uniform(0.1, 2.));
    [value, additive, proportional, prediction, first, second]
}

/// Residuals and sensitivities of unit variance such that each term is finite,
/// but not the sum of two or three: that of the likelihood, of the score, of the
/// information, or any.
const HUGE: [[f64; 2]; 4] = [
    [1.3e154, 0.],
    [1.3e154, 0.9e154],
    [0., 1.2e154],
    [1.2e154, 1.2e154],
];

/// Sensitivities of unit variance such that the sums off the diagonal alone
/// overflow. In the first two rows those of the second effect are one float
/// above and one below the first's, so that both sums of squares are the same
/// but for rounding, and that of the products, rounded, is above them; the third
/// row fills the larger sum of squares up to the largest float.
fn off_diagonal(random: &mut Random) -> Lent {
    let mut lent = blank(random, 2, 3);
    (lent.question.individual, lent.question.individual_2) = (1., 1.);
    let rows = loop {
        let first = random.uniform(9.3e153, 9.47e153);
        let [above, below] = [first.next_up(), first.next_down()];
        let squares = (first * first + first * first).max(above * above + below * below);
        if squares < first * above + first * below {
            let last = (f64::MAX - squares).sqrt();
            break [[first, above], [first, below], [last, last]];
        }
    };
    for (row, [first, second]) in rows.into_iter().enumerate() {
        observe(random, &mut lent, row, [0., 1., 0., 0., first, second]);
    }
    lent
}

/// Sums that overflow; and then, now and then, an observation that is refused.
fn overflowing(random: &mut Random, effects: u32) -> Lent {
    if effects == 2 && random.below(16) == 0 {
        return off_diagonal(random);
    }
    let count = 2 + random.below(5) as usize;
    let mut lent = blank(random, effects, count);
    (lent.question.individual, lent.question.individual_2) = (1., 0.5);
    let [value, slope] = random.pick(&HUGE);
    let huge_rows = random.pick(&[2, count]);
    let a_zero_in = random.pick(&[2, 4, 9]);
    let one_signed = random.coin();
    for row in 0..count {
        let [value, first, second] = [value, slope, slope].map(|size| {
            let huge = row < huge_rows && random.below(a_zero_in) != 0;
            let size = if huge { size } else { 0. };
            match one_signed {
                true => size,
                false => random.signed(size),
            }
        });
        observe(random, &mut lent, row, [value, 1., 0., 0., first, second]);
    }
    let last = lent.observations.last_mut().unwrap();
    match random.below(8) {
        0 => last.row = random.pick(&[count, count + 1, !0]),
        1 => last.additive = 0.,
        2 => last.value = random.pick(&[1e200, f64::INFINITY, f64::NAN]),
        _ => {}
    }
    lent
}

/// Any float but a usual one.
fn odd(random: &mut Random, x: f64) -> f64 {
    match random.below(4) {
        0 => {
            let size = subnormal(random);
            random.signed(size)
        }
        1 => {
            let size = random.magnitude(-1022, 1023);
            random.signed(size)
        }
        _ => stray(random, x),
    }
}

/// One of an observation's floats, or one that predicts it.
fn disturb_a_float(random: &mut Random, lent: &mut Lent) {
    let number = random.below(lent.observations.len() as u64) as usize;
    let reply = lent.reply();
    let one = lent.observations[number];
    let first = one.row.saturating_mul(reply.row_words);
    let width = lent.question.width as usize;
    let block = random.below(1 + lent.question.effects as u64) as usize;
    let place = random.pick(&[first, first.saturating_add(2 + block * width + one.output)]);
    let one = &mut lent.observations[number];
    let float = match random.below(7) {
        0 => &mut one.value,
        1 => &mut one.additive,
        2 => &mut one.proportional,
        _ => {
            if let Some(word) = lent.reply.get_mut(place) {
                *word = odd(random, f64::from_bits(*word)).to_bits();
            }
            return;
        }
    };
    *float = odd(random, *float);
}

/// An observation asks for a row that is not there. Of the rows far off some are
/// such that their first word is at a small place if its number runs over.
fn misplace_a_row(random: &mut Random, lent: &mut Lent) {
    let Reply {
        row_words, rows, ..
    } = lent.reply();
    let any = random.word() as usize;
    let around = usize::MAX / row_words + 1;
    let far = random.pick(&[rows + 1, 1 << 32, 1 << 63, usize::MAX, around, any]);
    let number = random.below(lent.observations.len() as u64) as usize;
    lent.observations[number].row = random.pick(&[rows, rows, far]);
}

/// A row less, rows more, a word less or more, none at all, or any number.
fn change_length(random: &mut Random, lent: &mut Lent) {
    let row_words = lent.reply().row_words;
    let length = lent.reply.len();
    let any = random.below(length as u64 + 1) as usize;
    let more = row_words * (1 + random.below(3) as usize);
    let to = match random.below(16) {
        0..5 => length.saturating_sub(row_words),
        5..10 => length + more,
        10 | 11 => length.saturating_sub(1),
        12 | 13 => length + 1,
        14 => 0,
        _ => any,
    };
    lent.reply.truncate(to);
    let missing = to - lent.reply.len();
    append(random, lent, missing);
}

/// With two effects an override is there to be ignored.
fn draw_override(random: &mut Random, lent: &mut Lent) {
    let rarely = if lent.question.effects == 2 { 8 } else { 3 };
    if random.below(rarely) != 0 {
        return;
    }
    lent.question.has_additive = true;
    lent.question.additive = match random.below(8) {
        0 => odd(random, 1.),
        1 => random.pick(&[0., -0., -2.]),
        _ => random.uniform(0.1, 3.),
    };
}

/// Ample, just enough, one short, or any.
fn draw_budget(random: &mut Random, lent: &mut Lent) {
    let wanted = lent.reply().output_values() as u32;
    let any = random.word() as u32;
    lent.question.output_budget = match random.below(32) {
        0 => wanted.saturating_sub(1),
        1 => random.pick(&[0, wanted / 2, any]),
        2..10 => wanted,
        10 => wanted + 1,
        _ => u32::MAX,
    };
}

/// Other observations before and after the subject's, and room for rows and
/// sums with some words about them.
fn surround(random: &mut Random, lent: &mut Lent) {
    let [before, after] = [0; 2].map(|_| random.below(4) as usize);
    let mut other = || Observation {
        output: random.below(3) as usize,
        row: random.below(3) as usize,
        value: random.uniform(-5., 5.),
        additive: random.uniform(0., 2.),
        proportional: 0.5,
    };
    let others: Vec<Observation> = (0..before + after).map(|_| other()).collect();
    let count = lent.observations.len();
    lent.observations
        .splice(0..0, others[..before].iter().copied());
    lent.observations.extend(&others[before..]);
    (lent.question.from, lent.question.to) = (before, before + count);
    lent.question.block = random.below(6) as usize;
    let room = lent.question.block + ROW_WORDS * count;
    let short = random.below(room as u64) as usize;
    let words = match random.below(16) {
        0 => short,
        _ => room + random.below(5) as usize,
    };
    lent.work = (0..words).map(|_| random.word()).collect();
    let out = match random.below(16) {
        0 => random.below(OUT_WORDS as u64) as usize,
        _ => OUT_WORDS + random.below(3) as usize,
    };
    lent.out = (0..out).map(|_| random.word()).collect();
}

fn any_number(random: &mut Random, about: usize) -> usize {
    let any = random.word() as usize;
    match random.below(3) {
        0 => random.pick(&[0, 1 << 32, 1 << 63, !0, !0 - 1]),
        1 => random.pick(&[any, any >> 40]),
        _ => about.wrapping_add(random.below(5) as usize).wrapping_sub(2),
    }
}

/// One of the numbers, floats, lists or lengths becomes anything.
fn disturb(random: &mut Random, lent: &mut Lent) {
    let number = random.below(lent.observations.len().max(1) as u64) as usize;
    let question = &mut lent.question;
    match random.below(13) {
        0 | 1 => disturb_shape(random, lent),
        2 => question.from = any_number(random, question.from),
        3 => question.to = any_number(random, question.to),
        4 => question.block = any_number(random, lent.work.len()),
        5 => question.individual = odd(random, question.individual),
        6 => question.individual_2 = odd(random, question.individual_2),
        7 => question.output_budget = any_number(random, question.output_budget as usize) as u32,
        8 => {
            if let Some(one) = lent.observations.get_mut(number) {
                one.output = any_number(random, question.width as usize);
            }
        }
        9 => lent.work.resize(random.below(12) as usize, !0),
        10 => lent.out.resize(random.below(12) as usize, !0),
        11 => lent.reply = any_list(random, 200, Random::word),
        _ => lent.observations = any_list(random, 6, any_observation),
    }
}

/// Another width or number of effects; the reply has often whole rows for them.
fn disturb_shape(random: &mut Random, lent: &mut Lent) {
    let any = random.word() as u32;
    let question = &mut lent.question;
    match random.coin() {
        true => question.effects = random.pick(&[0, 0, 1, 2, 3, 3, 5, u32::MAX, any]),
        false => {
            let width = question.width;
            let near = [width.saturating_sub(1), width.saturating_add(1)];
            question.width = random.pick(&[0, near[0], near[1], 65, u32::MAX, any]);
        }
    }
    let row_words = lent.reply().row_words;
    if row_words < 500 && random.below(4) != 0 {
        let rows = random.below(5) as usize;
        lent.reply.truncate(rows * row_words);
        let missing = rows * row_words - lent.reply.len();
        append(random, lent, missing);
    }
}

fn any_list<T>(random: &mut Random, most: u64, any: fn(&mut Random) -> T) -> Vec<T> {
    (0..random.below(most)).map(|_| any(random)).collect()
}

fn any_observation(random: &mut Random) -> Observation {
    let [value, additive, proportional] = [0; 3].map(|_| f64::from_bits(random.word()));
    Observation {
        output: any_number(random, 1),
        row: any_number(random, 1),
        value,
        additive,
        proportional,
    }
}
