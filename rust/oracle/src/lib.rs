//! The original as judge: the items that Curlewstand ports, taken out of the
//! source's own text at build time and compiled unchanged, behind plain
//! functions and values. No source text is kept here.

pub mod libm;
pub mod session;

/// Whether the source was there when this was built. Where it was not, only
/// `libm` and the plain values are at hand.
pub const SOURCE_AT_HAND: bool = cfg!(source_at_hand);

#[cfg(source_at_hand)]
pub mod cut_outs;
#[cfg(source_at_hand)]
mod population_focei;
#[cfg(source_at_hand)]
mod stand_ins;

#[cfg(source_at_hand)]
pub use population_focei::{
    multivariate::two_effects::{determinant, dot, inverse_positive, product, Rows2, TwoEffects},
    one_effect::{row_terms, OneEffect},
};
#[cfg(source_at_hand)]
pub use stand_ins::asked;

/// The source calls this by its path from the root of its crate. Solvers are
/// the host's affair: every one is accepted.
#[cfg(source_at_hand)]
fn validate_solver(_solver: stand_ins::Solver) -> Result<(), stand_ins::Error> {
    Ok(())
}
