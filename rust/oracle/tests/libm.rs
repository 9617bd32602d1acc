//! The stand-ins for `libm` at the places where their definition turns.

use oracle::libm::{exp, log};

#[test]
fn log_at_its_edges() {
    assert_eq!(log(1.).to_bits(), 0);
    assert_eq!(log(0.), f64::NEG_INFINITY);
    assert_eq!(log(-0.), f64::NEG_INFINITY);
    assert_eq!(log(f64::INFINITY), f64::INFINITY);
    assert!(log(f64::NAN).is_nan());
    assert!(log(-f64::NAN).is_nan());
    assert!(log(-1.).is_nan());
    assert!(log(f64::NEG_INFINITY).is_nan());
    // ln 2^-1074 and ln of the largest number, to the last place
    assert_eq!(log(f64::from_bits(1)), -744.4400719213812);
    assert_eq!(log(f64::MAX), 709.782712893384);
}

#[test]
fn exp_at_its_edges() {
    assert_eq!(exp(0.), 1.);
    assert_eq!(exp(-0.), 1.);
    // musl's exp is within one unit in the last place, and at 1 it is off by one.
    assert_eq!(exp(1.), std::f64::consts::E.next_up());
    assert_eq!(exp(16.), 8886110.520507872);
    assert_eq!(exp(-16.), 1.1253517471925912e-7);
    assert!(exp(16f64.next_up()).is_nan());
    assert!(exp((-16f64).next_down()).is_nan());
    assert!(exp(f64::INFINITY).is_nan());
    assert!(exp(f64::NEG_INFINITY).is_nan());
    assert!(exp(f64::NAN).is_nan());
}
