//! Stands in for voxr's `js_math`: document 01 replaces `js_pow(10, -2)`, which calls the platform's
//! `powf`, by the double nearest 0.01, on both sides of the comparison.

/// `Math.pow(10, -2)`. No other power is asked.
pub(crate) fn js_pow(x: f64, y: f64) -> f64 {
    assert!(x == 10.0 && y == -2.0, "js_pow({x}, {y})");
    0.01
}
