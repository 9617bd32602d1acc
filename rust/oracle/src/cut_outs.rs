//! What was cut out, and from where, for the test that holds it to the source.

/// The lines of one item in the source, counted from 1, both ends included.
pub struct CutOut {
    pub file: &'static str,
    pub source: &'static str,
    pub item: &'static str,
    pub first: usize,
    pub last: usize,
}

include!(concat!(env!("OUT_DIR"), "/list.rs"));

/// The texts that were compiled, by the names of their files.
pub const TEXTS: &[(&str, &str)] = &[
    (
        "population_focei.rs",
        include_str!(concat!(env!("OUT_DIR"), "/population_focei.rs")),
    ),
    (
        "population_focei_2d.rs",
        include_str!(concat!(env!("OUT_DIR"), "/population_focei_2d.rs")),
    ),
];
