//! The cut-out items of the source's `population_focei_2d.rs`, a child of the
//! other file's module as in the source.
use super::*;

include!(concat!(env!("OUT_DIR"), "/population_focei_2d.rs"));

pub(crate) mod two_effects;
