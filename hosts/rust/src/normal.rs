//! The normal distribution and what it is made of, each one fixed series of operations, so that the bits are the same on every machine.
//! Not-a-number gives not-a-number.
//!
//! ```
//! use kitesettee::normal;
//!
//! assert_eq!(normal::sqrt(0.25), 0.5);
//! assert_eq!(normal::cdf(0.0), 0.5);
//! assert_eq!(normal::exp(-745.5), 0.0);
//! assert!(normal::exp(-745.0) > 0.0);
//! assert!(normal::ln(-1.0).is_nan());
//! ```
use crate::ffi;

/// The square root, correctly rounded.
pub fn sqrt(x: f64) -> f64 {
    // SAFETY: numbers only, and every input is answered.
    unsafe { ffi::kite_sqrt(x) }
}

/// e to the x; above 709 infinity, below -745 0.0; in between above 0.0, and subnormal from about -708.4 down.
pub fn exp(x: f64) -> f64 {
    // SAFETY: as for `sqrt`.
    unsafe { ffi::kite_exp(x) }
}

/// The natural logarithm; of 0 minus infinity, below 0 not-a-number.
pub fn ln(x: f64) -> f64 {
    // SAFETY: as for `sqrt`.
    unsafe { ffi::kite_ln(x) }
}

/// The complementary error function.
pub fn erfc(x: f64) -> f64 {
    // SAFETY: as for `sqrt`.
    unsafe { ffi::kite_erfc(x) }
}

/// The density of the normal distribution.
pub fn pdf(x: f64) -> f64 {
    // SAFETY: as for `sqrt`.
    unsafe { ffi::kite_pdf(x) }
}

/// The normal distribution.
pub fn cdf(x: f64) -> f64 {
    // SAFETY: as for `sqrt`.
    unsafe { ffi::kite_cdf(x) }
}
