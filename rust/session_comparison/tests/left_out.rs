//! Says so where the original's source is not at hand.

#[test]
fn the_source_is_at_hand_or_its_absence_is_told() {
    if !oracle::SOURCE_AT_HAND {
        layer_comparison::say(
            "session_comparison: the original's source is not at hand, whole sessions at scale were left out",
        );
    }
}
