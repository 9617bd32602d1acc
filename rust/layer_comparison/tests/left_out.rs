//! Says so where the original's source is not at hand.

#[test]
fn the_source_is_at_hand_or_its_absence_is_told() {
    if !oracle::SOURCE_AT_HAND {
        layer_comparison::say(
            "layer_comparison: the original's source is not at hand, matrices, rows, whole searches, sessions with kept evaluations, evaluations by the original's `subject`, whole sessions and the program `focei` were left out",
        );
    }
}
