//! `curlewstand --version`.

use crate::arguments::too_many;
use crate::stop::Stop;
use crate::streams;
use curlewstand::{Setup, ffi, grouped};
use std::ffi::OsString;

/// Writes the version, and of the library that is linked the number of its interface and
/// the ceilings with one effect and two. No word may follow.
pub fn show(words: &[OsString]) -> Result<(), Stop> {
    if let Some(word) = words.first() {
        return Err(too_many(word));
    }
    let setups = [
        Setup::one_effect(0),
        Setup::two_effects([[1., 0.], [0., 1.]], 0),
    ];
    let [one, two] = setups.map(|setup| grouped(setup.booked(1)));
    let version = env!("CARGO_PKG_VERSION");
    let interface = ffi::curlewstand_interface_2();
    let line = format!("curlewstand {version} (interface {interface}), ceilings {one} and {two}\n");
    streams::write(&line)
}
