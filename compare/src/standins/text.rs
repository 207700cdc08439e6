//! Stands in for voxr's `text`: the span of a phrase. Its text is the number of words that it takes.

/// A phrase's text, of which only the number of its words is asked.
#[derive(Debug, Clone, Copy, Default, PartialEq)]
pub struct Script {
    pub count: u32,
}

impl Script {
    /// No text: the stand-in of `align_script`, which is given it, reads none.
    pub(crate) fn as_str(&self) -> &'static str {
        ""
    }
}

/// A phrase's text, and its times, in seconds.
#[derive(Debug, Clone, Copy, Default, PartialEq)]
pub struct Cue {
    pub text: Script,
    pub start: f64,
    pub end: f64,
}
