//! Stands in for voxr's `transcriber`, of which `peak` alone is taken: build.rs cuts it out of the
//! file, unchanged.

use super::envelope::RATE;
use crate::check::HeardWord;
use crate::js::js_max;

include!(concat!(env!("OUT_DIR"), "/peak.rs"));

/// `peak` of a word with these times.
pub(crate) fn peak_between(pcm: &[f32], start: f64, end: f64) -> f64 {
    let text = Default::default();
    peak(pcm, &HeardWord { text, start, end })
}
