//! Says so where the source is not at hand. The line goes past the capture of
//! a passing test's output.

#[test]
fn the_source_is_at_hand_or_its_absence_is_told() {
    use std::io::Write;
    if !oracle::SOURCE_AT_HAND {
        let line = "oracle: the source is not at hand, the tests of the original were left out\n";
        std::io::stderr().write_all(line.as_bytes()).unwrap();
    }
}
