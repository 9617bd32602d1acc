//! What evaluations met, to see that everything occurs.

use crate::evaluation_draws::Draw;
use crate::evaluations::{compare, Ask, Lent};
use crate::random::Random;
use crate::rules_evaluation::{self, are_finite, Evaluated};
use std::collections::BTreeMap;
use std::num::FpCategory;
use test_exports::cache::ROW_WORDS;
use test_exports::evaluation::{Observation, OUT_WORDS};

/// What one evaluation may meet.
#[derive(Clone, Copy, Debug, PartialEq, Eq, PartialOrd, Ord)]
pub enum Case {
    // how it ended
    Summed,
    SummedMany,
    SummedNothing,
    NotWholeRows,
    OverBudget,
    // 10
    ReplyWithoutRows,
    RowAfterTheLast,
    RowFarOff,
    LargestRow,
    /// Its first word would be within the reply if its number ran over.
    RowThatRunsOver,
    NoSuchOutput,
    // 11
    VarianceNotFinite,
    VarianceNotPositive,
    FirstSensitivityNotFinite,
    SecondSensitivityNotFinite,
    // 12 of a row
    RowNllNotFinite,
    RowScoreNotFinite,
    RowInformationNotFinite,
    // 12 of the sums, any of them that are not finite
    SumNll,
    SumScore,
    SumScore2,
    Sum00,
    Sum01,
    Sum10,
    Sum11,
    // and the ones that alone are not
    SumNllAlone,
    SumScoreAlone,
    SumScore2Alone,
    Sum00Alone,
    SumsOffDiagonalAlone,
    Sum11Alone,
    // refused at an observation
    AtTheFirst,
    AtALater,
    // refused at one although a sum had overflown
    MissingAfterOverflow,
    InvalidAfterOverflow,
    TermsAfterOverflow,
    // the reply
    EmptyReply,
    AWordMore,
    AWordLess,
    OtherWordsLeftOver,
    TooShort,
    JustLongEnough,
    TooLong,
    // the question
    BudgetMet,
    BudgetOneShort,
    BudgetZero,
    BudgetLargest,
    NoOverride,
    Override,
    OverrideDecides,
    PartOfAList,
    RowsRepeated,
    RowsOutOfOrder,
    SideZero,
    SideOne,
    SideOther,
    // sums with
    TinyProportional,
    UnlikeOffDiagonal,
    // what no session lends
    WidthZero,
    WidthTooLarge,
    FromAfterTo,
    ToBeyondTheEnd,
    NoIndividualValue,
    WorkTooShort,
    WorkWithoutBlock,
    OutTooShort,
}

use Case::*;

/// Which floats of an evaluation are looked at.
pub const FIELDS: [&str; 10] = [
    "value",
    "additive",
    "proportional",
    "override",
    "prediction",
    "derivative",
    "second derivative",
    "time",
    "individual",
    "second individual",
];

/// And for what.
pub const KINDS: [&str; 5] = ["NaN", "infinite", "subnormal", "0", "-0"];
pub const SUBNORMAL: usize = 2;

#[derive(Clone, Debug, Default)]
pub struct Met {
    pub calls: u64,
    /// How many of them the original was asked too.
    pub asked: u64,
    /// How often each case was met: with one effect, with two, with any other
    /// number.
    pub cases: BTreeMap<Case, [u64; 3]>,
    /// By field and kind, among the observations that were reached.
    pub floats: [[u64; KINDS.len()]; FIELDS.len()],
    /// Sums by the number of outputs.
    pub widths: BTreeMap<u32, u64>,
}

impl Met {
    /// Compares so many evaluations, each drawn from a seed of its own.
    pub fn over_seeds(first_seed: u64, count: u64, draw: Draw, ask: Ask) -> Self {
        let mut met = Met::default();
        for seed in first_seed..first_seed + count {
            let lent = draw(&mut Random::new(seed));
            match compare(&lent, ask) {
                Ok((evaluated, asked)) => met.count(&lent, &evaluated, asked),
                Err(told) => panic!("seed {seed}: {told}"),
            }
        }
        met
    }

    fn count(&mut self, lent: &Lent, evaluated: &Evaluated, asked: bool) {
        self.calls += 1;
        self.asked += asked as u64;
        let effects = match lent.question.effects {
            1 => 0,
            2 => 1,
            _ => 2,
        };
        let mut met = |case, occurs: bool| {
            if occurs {
                self.cases.entry(case).or_default()[effects] += 1;
            }
        };
        ends(lent, evaluated, &mut met);
        replies(lent, &mut met);
        questions(lent, evaluated, &mut met);
        rows(lent, evaluated, &mut met);
        beyond_sessions(lent, evaluated, &mut met);
        if evaluated.refusal.is_none() {
            *self.widths.entry(lent.question.width).or_default() += 1;
        }
        self.count_floats(lent, evaluated);
    }

    fn count_floats(&mut self, lent: &Lent, evaluated: &Evaluated) {
        let reply = lent.reply();
        let given = &lent.question;
        let if_read = |read: bool, x: f64| if read { x } else { 1. };
        let two = given.effects == 2;
        for one in &lent.subject()[..evaluated.rows.len()] {
            let [prediction, first, second] =
                [0, 1, 2].map(|block| f64::from_bits(reply.word(one, block)));
            let fields = [
                one.value,
                one.additive,
                one.proportional,
                if_read(given.has_additive && !two, given.additive),
                prediction,
                first,
                if_read(two, second),
                f64::from_bits(reply.time(one)),
                given.individual,
                if_read(two, given.individual_2),
            ];
            for (field, x) in fields.into_iter().enumerate() {
                if let Some(kind) = kind(x) {
                    self.floats[field][kind] += 1;
                }
            }
        }
    }

    /// How often a case was met with so many effects, 0 for any other number.
    pub fn of(&self, case: Case, effects: u32) -> u64 {
        let place = match effects {
            0 => 2,
            effects => effects as usize - 1,
        };
        self.cases.get(&case).map_or(0, |counts| counts[place])
    }

    /// Holds each of the cases to have been met so often with each of these
    /// numbers of effects.
    pub fn hold(&self, fewest: u64, effects: &[u32], cases: &[Case]) {
        for case in cases {
            for effects in effects {
                let count = self.of(*case, *effects);
                assert!(count >= fewest, "{case:?}, {effects}: only {count}");
            }
        }
    }

    pub fn text(&self) -> String {
        let floats = FIELDS.iter().zip(self.floats);
        let floats: Vec<String> = floats
            .map(|(field, counts)| format!("{field} {counts:?}"))
            .collect();
        format!(
            "{} calls alike, {} of them beside the original; by effects (1, 2, other) {:?}; {KINDS:?} in {}",
            self.calls,
            self.asked,
            self.cases,
            floats.join(", ")
        )
    }
}

fn kind(x: f64) -> Option<usize> {
    match x.classify() {
        FpCategory::Nan => Some(0),
        FpCategory::Infinite => Some(1),
        FpCategory::Subnormal => Some(SUBNORMAL),
        FpCategory::Zero => Some(3 + x.is_sign_negative() as usize),
        FpCategory::Normal => None,
    }
}

fn ends(lent: &Lent, evaluated: &Evaluated, met: &mut impl FnMut(Case, bool)) {
    let Some(refusal) = evaluated.refusal else {
        met(Summed, true);
        met(SummedMany, evaluated.rows.len() >= 50);
        met(SummedNothing, evaluated.rows.is_empty());
        let [_, _, _, _, b, c, _] = evaluated.sums;
        return met(UnlikeOffDiagonal, b != c);
    };
    met(NotWholeRows, refusal.number == 8);
    met(OverBudget, refusal.number == 9);
    let overflown = !are_finite(&evaluated.sums);
    let Some(number) = refusal.observation else {
        if refusal.number == 12 {
            sums(&evaluated.sums, met);
        }
        return;
    };
    met(AtTheFirst, number == 0);
    met(AtALater, number > 0);
    let one = &lent.subject()[number];
    match refusal.number {
        10 => missing(lent, one, met),
        11 => invalid(lent, one, met),
        _ => terms(lent, one, met),
    }
    met(MissingAfterOverflow, overflown && refusal.number == 10);
    met(InvalidAfterOverflow, overflown && refusal.number == 11);
    met(TermsAfterOverflow, overflown && refusal.number == 12);
}

fn missing(lent: &Lent, one: &Observation, met: &mut impl FnMut(Case, bool)) {
    let reply = lent.reply();
    if one.output >= lent.question.width as usize {
        return met(NoSuchOutput, true);
    }
    met(ReplyWithoutRows, reply.rows == 0);
    met(RowAfterTheLast, one.row == reply.rows);
    met(RowFarOff, one.row > reply.rows);
    met(LargestRow, one.row == usize::MAX);
    let run_over = one.row.wrapping_mul(reply.row_words);
    met(RowThatRunsOver, run_over < lent.reply.len());
}

fn invalid(lent: &Lent, one: &Observation, met: &mut impl FnMut(Case, bool)) {
    let row = lent.reply().row(one, &lent.question);
    met(
        match row.variance {
            variance if !variance.is_finite() => VarianceNotFinite,
            variance if variance <= 0. => VarianceNotPositive,
            _ if !row.f_eta[0].is_finite() => FirstSensitivityNotFinite,
            _ => SecondSensitivityNotFinite,
        },
        true,
    );
}

fn terms(lent: &Lent, one: &Observation, met: &mut impl FnMut(Case, bool)) {
    let row = lent.reply().row(one, &lent.question);
    let [nll, score, _, information, ..] = row.terms(one, lent.question.effects);
    met(RowNllNotFinite, !nll.is_finite());
    met(RowScoreNotFinite, !score.is_finite());
    met(RowInformationNotFinite, !information.is_finite());
}

fn sums(sums: &[f64; 7], met: &mut impl FnMut(Case, bool)) {
    let each = [SumNll, SumScore, SumScore2, Sum00, Sum01, Sum10, Sum11];
    for (sum, case) in sums.iter().zip(each) {
        met(case, !sum.is_finite());
    }
    let alone: [(Case, &[usize]); 6] = [
        (SumNllAlone, &[0]),
        (SumScoreAlone, &[1]),
        (SumScore2Alone, &[2]),
        (Sum00Alone, &[3]),
        (SumsOffDiagonalAlone, &[4, 5]),
        (Sum11Alone, &[6]),
    ];
    let infinite = (0..sums.len()).filter(|place| !sums[*place].is_finite());
    let infinite: Vec<usize> = infinite.collect();
    for (case, places) in alone {
        met(case, infinite == places);
    }
}

fn replies(lent: &Lent, met: &mut impl FnMut(Case, bool)) {
    let reply = lent.reply();
    let left_over = reply.words_left_over();
    met(EmptyReply, lent.reply.is_empty());
    met(AWordMore, left_over == 1);
    met(AWordLess, left_over == reply.row_words - 1);
    met(
        OtherWordsLeftOver,
        left_over > 1 && left_over < reply.row_words - 1,
    );
    let largest = lent.subject().iter().map(|one| one.row).max();
    if let Some(largest) = largest.filter(|_| left_over == 0) {
        met(TooShort, reply.rows <= largest);
        met(JustLongEnough, largest.checked_add(1) == Some(reply.rows));
        met(TooLong, reply.rows > largest.saturating_add(1));
    }
}

fn questions(lent: &Lent, evaluated: &Evaluated, met: &mut impl FnMut(Case, bool)) {
    let given = &lent.question;
    let [budget, wanted] = [given.output_budget as usize, lent.reply().output_values()];
    if lent.reply().words_left_over() == 0 && wanted > 0 {
        met(BudgetMet, budget == wanted);
        met(BudgetOneShort, budget + 1 == wanted);
        met(BudgetZero, budget == 0);
        met(BudgetLargest, budget == u32::MAX as usize);
    }
    met(NoOverride, !given.has_additive);
    met(Override, given.has_additive);
    if given.has_additive {
        let mut own = lent.clone();
        own.question.has_additive = false;
        let own = rules_evaluation::evaluated(&own.observations, &own.question, &own.reply);
        met(OverrideDecides, own.end() != evaluated.end());
    }
    met(
        PartOfAList,
        given.from > 0 && given.to < lent.observations.len(),
    );
}

fn rows(lent: &Lent, evaluated: &Evaluated, met: &mut impl FnMut(Case, bool)) {
    let reached = &lent.subject()[..evaluated.rows.len()];
    let mut rows: Vec<usize> = reached.iter().map(|one| one.row).collect();
    met(RowsOutOfOrder, !rows.is_sorted());
    rows.sort();
    met(RowsRepeated, rows.windows(2).any(|two| two[0] == two[1]));
    let reply = lent.reply();
    let side = |is: fn(u64) -> bool| reached.iter().any(|one| is(reply.side(one)));
    met(SideZero, side(|word| word == 0));
    met(SideOne, side(|word| word == 1));
    met(SideOther, side(|word| word > 1));
    let tiny = |one: &Observation| 0. < one.proportional && one.proportional < 1e-150;
    met(
        TinyProportional,
        evaluated.refusal.is_none() && reached.iter().any(tiny),
    );
}

fn beyond_sessions(lent: &Lent, evaluated: &Evaluated, met: &mut impl FnMut(Case, bool)) {
    let given = &lent.question;
    met(WidthZero, given.width == 0);
    met(WidthTooLarge, given.width > 64);
    met(FromAfterTo, given.from > given.to);
    met(ToBeyondTheEnd, given.to > lent.observations.len());
    let individual = given.individual;
    met(
        NoIndividualValue,
        !(individual.is_finite() && individual > 0.),
    );
    let wanted = ROW_WORDS * evaluated.rows.len();
    let room = lent.work.len().saturating_sub(given.block);
    met(WorkTooShort, 0 < room && room < wanted);
    met(WorkWithoutBlock, room == 0 && wanted > 0);
    met(OutTooShort, lent.out.len() < OUT_WORDS);
}
