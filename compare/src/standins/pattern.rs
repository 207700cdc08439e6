//! Stands in for voxr's `pattern`: a word's text is numbers, and no pattern is asked of it.

use crate::check::Text;
use crate::error::Result;

pub(crate) struct Patterns;

impl Patterns {
    pub(crate) fn get() -> Result<&'static Patterns> {
        Ok(&Patterns)
    }
}

pub(crate) fn utf16_len(text: &Text) -> usize {
    text.units as usize
}
