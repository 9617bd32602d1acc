//! Evaluations: individual values, the check of the observations, and a
//! subject's sums from the words of a reply, bit by bit and word by word.

use layer_comparison::compare::Comparison;
#[cfg(source_at_hand)]
use layer_comparison::evaluation_asked::ask;
use layer_comparison::evaluation_draws::{draw, draw_any, Draw};
use layer_comparison::evaluation_met::Case::*;
use layer_comparison::evaluation_met::{Case, Met, FIELDS, SUBNORMAL};
use layer_comparison::floats::{classes, dozen};
use layer_comparison::leaves::{ours, rust};
use layer_comparison::{observation_checks, plausible};
use std::time::Instant;

#[test]
fn individual_values() {
    let mut comparison = Comparison::new(
        "individual_values",
        &ours::individual_values,
        &rust::individual_values,
    );
    let dozen = &dozen()[..];
    let effects = &[0., 1., 2., 3., 4294967295.][..];
    comparison.cross([dozen, dozen, dozen, dozen, effects]);
    comparison.mixture(160, 500_000, &classes());
    comparison.bits(161, 200_000);
    comparison.random(162, 4_500_000, plausible::individual_values);
    comparison.done(&[0, 7]);
}

#[test]
fn checks_of_observations() {
    let begun = Instant::now();
    let met = observation_checks::Met::over_seeds(1 << 41, 1_100_000);
    let elapsed = begun.elapsed();
    layer_comparison::say(&format!("check_observations: {met:?}, {elapsed:.1?}"));
    assert!(met.calls >= 1_000_000, "{met:?}");
    assert_eq!(met.causes.len(), 7, "{met:?}");
    let pairs = [met.unsound_at, met.unsound_in].concat();
    let single = [
        met.sound,
        met.unsound_beyond_counts,
        met.unsound_after_a_count_of_zero,
        met.widths_beyond_sessions,
    ];
    let causes = met.causes.values();
    let all = pairs.iter().chain(&single).chain(&met.unsound_by_room);
    for count in all.chain(&met.counted).chain(causes) {
        assert!(*count > 10_000, "{met:?}");
    }
}

/// Where the source is not at hand, nothing can be asked of the original.
#[cfg(not(source_at_hand))]
fn ask(_: &layer_comparison::evaluations::Lent) -> Option<layer_comparison::evaluations::Asked> {
    None
}

fn evaluations(name: &str, first_seed: u64, count: u64, draw: Draw) -> Met {
    let begun = Instant::now();
    let met = Met::over_seeds(first_seed, count, draw, &ask);
    let text = met.text();
    layer_comparison::say(&format!("{name}: {text}, {:.1?}", begun.elapsed()));
    met
}

/// What evaluations with one effect and with two meet alike.
const MET_BY_BOTH: &[Case] = &[
    Summed,
    SummedMany,
    OverBudget,
    NotWholeRows,
    ReplyWithoutRows,
    RowAfterTheLast,
    RowFarOff,
    LargestRow,
    RowThatRunsOver,
    VarianceNotFinite,
    VarianceNotPositive,
    FirstSensitivityNotFinite,
    SumNll,
    SumScore,
    Sum00,
    SumNllAlone,
    SumScoreAlone,
    Sum00Alone,
    AtTheFirst,
    AtALater,
    MissingAfterOverflow,
    InvalidAfterOverflow,
    EmptyReply,
    AWordMore,
    AWordLess,
    OtherWordsLeftOver,
    TooShort,
    JustLongEnough,
    TooLong,
    BudgetMet,
    BudgetOneShort,
    BudgetZero,
    BudgetLargest,
    NoOverride,
    Override,
    PartOfAList,
    RowsRepeated,
    RowsOutOfOrder,
    SideZero,
    SideOne,
    SideOther,
    TinyProportional,
    WorkTooShort,
    WorkWithoutBlock,
    OutTooShort,
];

const MET_BY_ONE: &[Case] = &[
    RowNllNotFinite,
    RowScoreNotFinite,
    RowInformationNotFinite,
    TermsAfterOverflow,
    OverrideDecides,
];

const MET_BY_TWO: &[Case] = &[
    SecondSensitivityNotFinite,
    SumScore2,
    Sum01,
    Sum10,
    Sum11,
    SumScore2Alone,
    SumsOffDiagonalAlone,
    Sum11Alone,
    UnlikeOffDiagonal,
];

const BEYOND_SESSIONS: &[Case] = &[
    SummedNothing,
    NoSuchOutput,
    WidthZero,
    WidthTooLarge,
    FromAfterTo,
    ToBeyondTheEnd,
    NoIndividualValue,
];

/// Everything that a session may meet occurs.
fn hold(met: &Met, fewest: u64) {
    met.hold(fewest, &[1, 2], MET_BY_BOTH);
    met.hold(fewest, &[1], MET_BY_ONE);
    met.hold(fewest, &[2], MET_BY_TWO);
    // with two effects no row's terms are looked at, and no override
    for case in MET_BY_ONE {
        assert_eq!(met.of(*case, 2), 0, "{case:?}");
    }
    for width in 1..=64 {
        let count = met.widths.get(&width).copied().unwrap_or(0);
        assert!(count >= fewest, "width {width}: {count}");
    }
    for (field, kinds) in FIELDS.iter().zip(met.floats) {
        // those of a session are finite and above 0
        let met = match field.contains("individual") {
            true => &kinds[SUBNORMAL..SUBNORMAL + 1],
            false => &kinds[..],
        };
        assert!(
            met.iter().all(|count| *count >= fewest),
            "{field}: {kinds:?}"
        );
    }
}

#[test]
fn subjects() {
    let met = evaluations("evaluate", 1 << 40, 1_500_000, draw);
    hold(&met, 300);
    met.hold(300_000, &[1, 2], &[Summed]);
    let often = [MissingAfterOverflow, BudgetMet, BudgetOneShort];
    met.hold(3_000, &[1, 2], &often);
    assert!(met.asked >= 1_000_000 || !oracle::SOURCE_AT_HAND);
}

/// Numbers, lengths and words as no session has them, too.
#[test]
fn subjects_of_any_words() {
    let met = evaluations("evaluate, any words", 2 << 40, 500_000, draw_any);
    hold(&met, 25);
    met.hold(500, &[1, 2, 0], BEYOND_SESSIONS);
    let with_other_effects = [Summed, NotWholeRows, RowFarOff, WorkWithoutBlock];
    met.hold(500, &[0], &with_other_effects);
    assert!(met.floats.as_flattened().iter().all(|count| *count >= 100));
    assert!(met.asked >= 200_000 || !oracle::SOURCE_AT_HAND);
}

/// What the simulator is asked by the original, or its 7.
#[cfg(source_at_hand)]
#[test]
fn individual_values_beside_subject() {
    let mut comparison = Comparison::new(
        "individual_values beside subject",
        &ours::individual_values,
        &layer_comparison::leaves::original::individual_values,
    );
    comparison.mixture(163, 100_000, &classes());
    comparison.random(164, 900_000, plausible::individual_values);
    comparison.done_with(1_000_000, &[0, 7]);
}
