//! Stands in for voxr's `check`: of a word that was heard, what the files taken ask of it. A word's
//! text is the three numbers that document 01 puts in its place.

use crate::error::Result;

/// What is asked of a word's text: what `letters` and `utf16_len` give, and the number that stands
/// for its joined `norm`.
#[derive(Debug, Clone, Copy, Default, PartialEq)]
pub struct Text {
    pub letters: u32,
    pub units: u32,
    pub key: u32,
}

/// A word's text, and its times, in seconds.
#[derive(Debug, Clone, Copy, Default, PartialEq)]
pub struct HeardWord {
    pub text: Text,
    pub start: f64,
    pub end: f64,
}

/// The words themselves.
pub(crate) fn align_script(words: &[HeardWord], _: &str) -> Result<Vec<HeardWord>> {
    Ok(words.to_vec())
}

pub(crate) mod speech_match {
    use std::ops::{Deref, Range};

    use super::Text;
    use crate::pattern::Patterns;
    use crate::text::Script;

    /// What only `find_phrase` asks, which is not taken.
    fn not_taken() -> ! {
        unreachable!("find_phrase is not taken")
    }

    /// What has a key: a word's text.
    pub(crate) trait Keyed {
        fn key(&self) -> u32;
    }

    impl Keyed for Text {
        fn key(&self) -> u32 {
            self.key
        }
    }

    impl Keyed for str {
        fn key(&self) -> u32 {
            not_taken()
        }
    }

    /// A key, to be joined.
    pub(crate) struct Normed(u32);

    impl Normed {
        /// A text that is its own for each key: its digits to the base 128, as five bytes.
        pub(crate) fn join(&self, _: &str) -> String {
            let digit = |at: u32| (self.0 >> (7 * at)) as u8 & 0x7F;
            String::from_utf8([0, 1, 2, 3, 4].map(digit).to_vec()).unwrap()
        }
    }

    impl Deref for Normed {
        type Target = [String];

        fn deref(&self) -> &[String] {
            not_taken()
        }
    }

    impl IntoIterator for Normed {
        type Item = String;
        type IntoIter = std::vec::IntoIter<String>;

        fn into_iter(self) -> Self::IntoIter {
            not_taken()
        }
    }

    pub(crate) fn norm<T: Keyed + ?Sized>(_: &Patterns, text: &T) -> Normed {
        Normed(text.key())
    }

    pub(crate) fn letters(_: &Patterns, text: &Text) -> usize {
        text.letters as usize
    }

    /// As many words as the span takes.
    pub(crate) fn script_words(_: &Patterns, text: &Script) -> Range<usize> {
        0..text.count as usize
    }

    pub(crate) fn alike(_: &str, _: &str) -> bool {
        not_taken()
    }
}
