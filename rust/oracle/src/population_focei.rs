//! The cut-out items of the source's `population_focei.rs`, in a module that
//! supplies the names they use.
// The text is not ours to tidy, and not all of it is called from here.
#![allow(dead_code, clippy::all)]

use crate::session::SensitivitySample;
use crate::stand_ins::*;
use std::collections::VecDeque;
use std::sync::Arc;

/// Reads along in every text that the items format, see `noted`.
macro_rules! format {
    ($($text:tt)*) => { noted(std::format!($($text)*)) };
}

include!(concat!(env!("OUT_DIR"), "/population_focei.rs"));

pub(crate) mod multivariate;
pub(crate) mod one_effect;
