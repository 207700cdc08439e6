//! The library's functions, as include/qiluvrait.h declares them.

use crate::places::Places;
use crate::sounds::Sound;
use crate::words::{Lent, Spans, Work};

/// The answer of an envelope.
#[repr(C)]
pub struct Heard {
    pub refusal: u32,
    pub floor: f64,
}

/// The answer of the pieces.
#[repr(C)]
pub struct Cut {
    pub refusal: u32,
    pub pieces: usize,
}

/// The answer of a peak.
#[repr(C)]
pub struct Level {
    pub refusal: u32,
    pub level: f64,
}

/// The answer of the loops: whether any was found, and how many words are left.
#[repr(C)]
#[derive(Debug, PartialEq)]
pub struct Left {
    pub refusal: u32,
    pub found: u32,
    pub count: usize,
}

/// The answer of placing: how many words are kept.
#[repr(C)]
#[derive(Debug, PartialEq)]
pub struct Placed {
    pub refusal: u32,
    pub count: usize,
}

/// The answer of the last run: whether there is sound, and its times.
#[repr(C)]
#[derive(Clone, Copy)]
pub struct Run {
    pub refusal: u32,
    pub found: u32,
    pub start: f64,
    pub end: f64,
}

/// The answer of a full run.
#[repr(C)]
#[derive(Clone, Copy, Debug)]
pub struct Report {
    pub refusal: u32,
    pub found: u32,
    pub pieces: usize,
    pub words: usize,
    pub floor: f64,
}

unsafe extern "C" {
    pub safe fn qiluvrait_js_min(a: f64, b: f64) -> f64;
    pub safe fn qiluvrait_js_max(a: f64, b: f64) -> f64;
    pub safe fn qiluvrait_js_to_fixed(x: f64) -> f64;
    pub safe fn qiluvrait_sqrt(x: f64) -> f64;
    pub safe fn qiluvrait_frame_at(t: f64) -> i64;
    pub safe fn qiluvrait_frame_ceil(t: f64) -> i64;
    pub safe fn qiluvrait_frame_from_zero(t: f64) -> i64;
    pub safe fn qiluvrait_frame_seconds(k: i64) -> f64;
    fn qiluvrait_envelope(
        samples: *const f32,
        n_samples: usize,
        levels: *mut f64,
        n_levels: usize,
    ) -> Heard;
    fn qiluvrait_own_floor(levels: *const f64, n: usize, floor: f64) -> bool;
    fn qiluvrait_pieces(
        levels: *const f64,
        n_levels: usize,
        floor: f64,
        count: usize,
        starts: *mut usize,
        n_starts: usize,
        ends: *mut usize,
        n_ends: usize,
    ) -> Cut;
    fn qiluvrait_peak(samples: *const f32, n: usize, start: f64, end: f64) -> Level;
    fn qiluvrait_collapse_loops(
        starts: *mut f64,
        n_starts: usize,
        ends: *mut f64,
        n_ends: usize,
        letters: *mut u32,
        n_letters: usize,
        units: *mut u32,
        n_units: usize,
        keys: *mut u32,
        n_keys: usize,
    ) -> Left;
    fn qiluvrait_hand_back_tails(
        starts: *mut f64,
        n_starts: usize,
        ends: *mut f64,
        n_ends: usize,
        letters: *const u32,
        n_letters: usize,
        units: *const u32,
        n_units: usize,
        keys: *const u32,
        n_keys: usize,
        levels: *const f64,
        n_levels: usize,
        floor: f64,
        count: usize,
    ) -> u32;
    fn qiluvrait_snap_onsets(
        starts: *mut f64,
        n_starts: usize,
        ends: *const f64,
        n_ends: usize,
        letters: *const u32,
        n_letters: usize,
        units: *const u32,
        n_units: usize,
        keys: *const u32,
        n_keys: usize,
        levels: *const f64,
        n_levels: usize,
        floor: f64,
        count: usize,
    ) -> u32;
    fn qiluvrait_snap_ends(
        starts: *mut f64,
        n_starts: usize,
        ends: *mut f64,
        n_ends: usize,
        letters: *const u32,
        n_letters: usize,
        units: *const u32,
        n_units: usize,
        keys: *const u32,
        n_keys: usize,
        levels: *const f64,
        n_levels: usize,
        floor: f64,
        count: usize,
        duration: f64,
    ) -> u32;
    fn qiluvrait_even_out(
        starts: *mut f64,
        n_starts: usize,
        ends: *mut f64,
        n_ends: usize,
        letters: *const u32,
        n_letters: usize,
        units: *const u32,
        n_units: usize,
        keys: *const u32,
        n_keys: usize,
        limit: f64,
    ) -> u32;
    fn qiluvrait_align_phrases(
        starts: *mut f64,
        n_starts: usize,
        ends: *mut f64,
        n_ends: usize,
        letters: *mut u32,
        n_letters: usize,
        units: *mut u32,
        n_units: usize,
        keys: *mut u32,
        n_keys: usize,
        span_starts: *const f64,
        n_span_starts: usize,
        span_ends: *const f64,
        n_span_ends: usize,
        counts: *const u32,
        n_counts: usize,
        phrases: *mut u32,
        n_phrases: usize,
    ) -> Placed;
    fn qiluvrait_last_run(
        levels: *const f64,
        n_levels: usize,
        floor: f64,
        count: usize,
        from: f64,
        to: f64,
    ) -> Run;
    fn qiluvrait_fit_to_sound(
        starts: *mut f64,
        n_starts: usize,
        ends: *mut f64,
        n_ends: usize,
        letters: *const u32,
        n_letters: usize,
        units: *const u32,
        n_units: usize,
        keys: *const u32,
        n_keys: usize,
        levels: *const f64,
        n_levels: usize,
        floor: f64,
        count: usize,
        duration: f64,
    ) -> u32;
    fn qiluvrait_fit_file(
        starts: *mut f64,
        n_starts: usize,
        ends: *mut f64,
        n_ends: usize,
        letters: *const u32,
        n_letters: usize,
        units: *const u32,
        n_units: usize,
        keys: *const u32,
        n_keys: usize,
        phrases: *const u32,
        n_phrases: usize,
        span_starts: *const f64,
        n_span_starts: usize,
        span_ends: *const f64,
        n_span_ends: usize,
        counts: *const u32,
        n_counts: usize,
        levels: *const f64,
        n_levels: usize,
        floor: f64,
        count: usize,
        work_starts: *mut f64,
        n_work_starts: usize,
        work_ends: *mut f64,
        n_work_ends: usize,
        work_letters: *mut u32,
        n_work_letters: usize,
    ) -> u32;
    fn qiluvrait_tally(
        starts: *const f64,
        n_starts: usize,
        ends: *const f64,
        n_ends: usize,
        letters: *const u32,
        n_letters: usize,
        units: *const u32,
        n_units: usize,
        keys: *const u32,
        n_keys: usize,
        phrases: *const u32,
        n_phrases: usize,
        span_starts: *const f64,
        n_span_starts: usize,
        span_ends: *const f64,
        n_span_ends: usize,
        counts: *const u32,
        n_counts: usize,
        levels: *const f64,
        n_levels: usize,
        floor: f64,
        count: usize,
        places: *mut usize,
        n_places: usize,
    ) -> u32;
    fn qiluvrait_full_run(
        samples: *const f32,
        n_samples: usize,
        starts: *mut f64,
        n_starts: usize,
        ends: *mut f64,
        n_ends: usize,
        letters: *mut u32,
        n_letters: usize,
        units: *mut u32,
        n_units: usize,
        keys: *mut u32,
        n_keys: usize,
        span_starts: *const f64,
        n_span_starts: usize,
        span_ends: *const f64,
        n_span_ends: usize,
        counts: *const u32,
        n_counts: usize,
        phrases: *mut u32,
        n_phrases: usize,
        levels: *mut f64,
        n_levels: usize,
        piece_starts: *mut usize,
        n_piece_starts: usize,
        piece_ends: *mut usize,
        n_piece_ends: usize,
        work_starts: *mut f64,
        n_work_starts: usize,
        work_ends: *mut f64,
        n_work_ends: usize,
        work_letters: *mut u32,
        n_work_letters: usize,
    ) -> Report;
}

pub fn envelope(samples: &[f32], levels: &mut Places) -> Heard {
    let (n, lent) = (samples.len(), levels.lent());
    // SAFETY: both are as long as is said, and no one else holds the places.
    unsafe { qiluvrait_envelope(samples.as_ptr(), n, levels.doubles(), lent) }
}

pub fn own_floor(levels: &[f64], floor: f64) -> bool {
    // SAFETY: the levels are as many as is said.
    unsafe { qiluvrait_own_floor(levels.as_ptr(), levels.len(), floor) }
}

pub fn pieces(
    levels: &[f64],
    floor: f64,
    count: usize,
    starts: &mut Places,
    ends: &mut Places,
) -> Cut {
    let (n, n_starts, n_ends) = (levels.len(), starts.lent(), ends.lent());
    let (levels, starts, ends) = (levels.as_ptr(), starts.wholes(), ends.wholes());
    // SAFETY: each is as long as is said, and no one else holds the places.
    unsafe { qiluvrait_pieces(levels, n, floor, count, starts, n_starts, ends, n_ends) }
}

pub fn peak(samples: &[f32], start: f64, end: f64) -> Level {
    // SAFETY: the samples are as many as is said.
    unsafe { qiluvrait_peak(samples.as_ptr(), samples.len(), start, end) }
}

/// Calls a function of words: the five lists of `Lent`, each with its length, then what follows.
macro_rules! of_words {
    ($function:ident, $words:expr $(, $more:expr)*) => {{
        let Lent { starts, ends, letters, units, keys } = $words;
        // SAFETY: each list is as long as is said, and no one else holds the places.
        unsafe {
            $function(
                starts.doubles(),
                starts.lent(),
                ends.doubles(),
                ends.lent(),
                letters.numbers(),
                letters.lent(),
                units.numbers(),
                units.lent(),
                keys.numbers(),
                keys.lent(),
                $($more),*
            )
        }
    }};
}

/// The sound that a call of words is told of: its levels, its floor and its number of samples.
#[derive(Clone, Copy)]
pub struct Over<'a> {
    pub levels: &'a [f64],
    pub floor: f64,
    pub count: usize,
}

impl<'a> From<&'a Sound> for Over<'a> {
    fn from(sound: &'a Sound) -> Over<'a> {
        Over {
            levels: &sound.levels.env,
            floor: sound.levels.floor,
            count: sound.count,
        }
    }
}

pub fn collapse_loops(words: &mut Lent) -> Left {
    of_words!(qiluvrait_collapse_loops, words)
}

pub fn hand_back_tails(words: &mut Lent, over: Over) -> u32 {
    let (levels, n) = (over.levels.as_ptr(), over.levels.len());
    let (floor, count) = (over.floor, over.count);
    of_words!(qiluvrait_hand_back_tails, words, levels, n, floor, count)
}

pub fn snap_onsets(words: &mut Lent, over: Over) -> u32 {
    let (levels, n) = (over.levels.as_ptr(), over.levels.len());
    let (floor, count) = (over.floor, over.count);
    of_words!(qiluvrait_snap_onsets, words, levels, n, floor, count)
}

pub fn snap_ends(words: &mut Lent, over: Over, duration: f64) -> u32 {
    let (levels, n) = (over.levels.as_ptr(), over.levels.len());
    let (floor, count) = (over.floor, over.count);
    of_words!(
        qiluvrait_snap_ends,
        words,
        levels,
        n,
        floor,
        count,
        duration
    )
}

pub fn even_out(words: &mut Lent, limit: f64) -> u32 {
    of_words!(qiluvrait_even_out, words, limit)
}

pub fn align_phrases(words: &mut Lent, spans: &mut Spans, phrases: &mut Places<u32>) -> Placed {
    let Spans {
        starts: from,
        ends: to,
        counts,
    } = spans;
    of_words!(
        qiluvrait_align_phrases,
        words,
        from.doubles(),
        from.lent(),
        to.doubles(),
        to.lent(),
        counts.numbers(),
        counts.lent(),
        phrases.numbers(),
        phrases.lent()
    )
}

pub fn last_run(over: Over, from: f64, to: f64) -> Run {
    let (levels, n) = (over.levels.as_ptr(), over.levels.len());
    // SAFETY: the levels are as many as is said.
    unsafe { qiluvrait_last_run(levels, n, over.floor, over.count, from, to) }
}

pub fn fit_to_sound(words: &mut Lent, over: Over, duration: f64) -> u32 {
    let (levels, n) = (over.levels.as_ptr(), over.levels.len());
    let (floor, count) = (over.floor, over.count);
    of_words!(
        qiluvrait_fit_to_sound,
        words,
        levels,
        n,
        floor,
        count,
        duration
    )
}

/// What fitting by phrase is lent beside the words: their phrase numbers, the spans, and work space.
#[derive(Clone)]
pub struct Grouped {
    pub phrases: Places<u32>,
    pub spans: Spans,
    pub work: Work,
}

pub fn fit_file(words: &mut Lent, grouped: &mut Grouped, over: Over) -> u32 {
    let (levels, n) = (over.levels.as_ptr(), over.levels.len());
    let Grouped {
        phrases,
        spans,
        work,
    } = grouped;
    of_words!(
        qiluvrait_fit_file,
        words,
        phrases.numbers(),
        phrases.lent(),
        spans.starts.doubles(),
        spans.starts.lent(),
        spans.ends.doubles(),
        spans.ends.lent(),
        spans.counts.numbers(),
        spans.counts.lent(),
        levels,
        n,
        over.floor,
        over.count,
        work.starts.doubles(),
        work.starts.lent(),
        work.ends.doubles(),
        work.ends.lent(),
        work.letters.numbers(),
        work.letters.lent()
    )
}

pub fn tally(
    words: &mut Lent,
    phrases: &mut Places<u32>,
    spans: &mut Spans,
    over: Over,
    places: &mut Places,
) -> u32 {
    let (levels, n) = (over.levels.as_ptr(), over.levels.len());
    of_words!(
        qiluvrait_tally,
        words,
        phrases.numbers(),
        phrases.lent(),
        spans.starts.doubles(),
        spans.starts.lent(),
        spans.ends.doubles(),
        spans.ends.lent(),
        spans.counts.numbers(),
        spans.counts.lent(),
        levels,
        n,
        over.floor,
        over.count,
        places.wholes(),
        places.lent()
    )
}

/// What a full run is lent beside the samples.
#[derive(Clone)]
pub struct Lending {
    pub words: Lent,
    pub spans: Spans,
    pub phrases: Places<u32>,
    pub levels: Places,
    pub piece_starts: Places,
    pub piece_ends: Places,
    pub work: Work,
}

pub fn full_run(samples: &[f32], lending: &mut Lending) -> Report {
    let Lending {
        words,
        spans,
        phrases,
        levels,
        piece_starts,
        piece_ends,
        work,
    } = lending;
    // SAFETY: each list is as long as is said, and no one else holds the places.
    unsafe {
        qiluvrait_full_run(
            samples.as_ptr(),
            samples.len(),
            words.starts.doubles(),
            words.starts.lent(),
            words.ends.doubles(),
            words.ends.lent(),
            words.letters.numbers(),
            words.letters.lent(),
            words.units.numbers(),
            words.units.lent(),
            words.keys.numbers(),
            words.keys.lent(),
            spans.starts.doubles(),
            spans.starts.lent(),
            spans.ends.doubles(),
            spans.ends.lent(),
            spans.counts.numbers(),
            spans.counts.lent(),
            phrases.numbers(),
            phrases.lent(),
            levels.doubles(),
            levels.lent(),
            piece_starts.wholes(),
            piece_starts.lent(),
            piece_ends.wholes(),
            piece_ends.lent(),
            work.starts.doubles(),
            work.starts.lent(),
            work.ends.doubles(),
            work.ends.lent(),
            work.letters.numbers(),
            work.letters.lent(),
        )
    }
}
