//! What is compared of rows of levels: the lists of pieces, and the refusals. One entry each.

use crate::ffi;
use crate::inputs::Random;
use crate::places::Places;
use crate::recordings::{HOP, MAX_SAMPLES};
use crate::report::{Case, Compared};
use crate::rows::Row;
use crate::transcript::pieces::pieces;

/// What is compared of one row.
pub struct OfRow {
    name: &'static str,
    weight: u64,
    judge: fn(&Row, &mut Random) -> Case,
}

pub const OF_ROWS: &[OfRow] = &[
    OfRow {
        name: "pieces",
        weight: 40,
        judge: Row::list,
    },
    OfRow {
        name: "pieces_refused",
        weight: 400,
        judge: Row::refusals,
    },
];

/// The least number of frames from a piece's start to its cut.
const LEAST_CUT: usize = 1203;

/// The places that the pieces of so many frames need.
pub fn need(frames: usize) -> usize {
    frames.saturating_sub(1) / LEAST_CUT + usize::from(frames > 0)
}

/// Document 01's refusal for so many levels, samples and places; 0 where there is none.
fn refusal(levels: usize, count: usize, [starts, ends]: [usize; 2]) -> u32 {
    if count > MAX_SAMPLES {
        return 4;
    }
    if levels != count / HOP {
        return 7;
    }
    6 * u32::from(starts.min(ends) < need(levels))
}

/// The first piece that differs.
pub fn first_difference(rust: &[(usize, usize)], starts: &Places, ends: &Places) -> Option<String> {
    let at = |n: usize| (starts.bits()[n] as usize, ends.bits()[n] as usize);
    let n = (0..rust.len()).find(|&n| at(n) != rust[n])?;
    let (ours, rust) = (at(n), rust[n]);
    Some(format!("piece {n}: ours {ours:?}, the Rust's {rust:?}"))
}

/// The first cut that lies too near its piece's start, or where the next piece does not start.
fn first_cut_astray(rust: &[(usize, usize)]) -> Option<String> {
    let astray = |cut: &&[(usize, usize)]| {
        let [(start, end), (next, _)] = [cut[0], cut[1]];
        end < start + LEAST_CUT * HOP || next != end
    };
    let cut = rust.windows(2).find(astray)?;
    Some(format!("the Rust cuts {:?} and {:?}", cut[0], cut[1]))
}

impl Row {
    /// The list of pieces, in enough places or some more.
    pub fn list(&self, random: &mut Random) -> Case {
        let rust = pieces(&self.levels, self.count);
        let need = need(self.levels.env.len());
        let [mut starts, mut ends] = [(); 2].map(|()| Places::new(need + random.below(3) as usize));
        let (levels, floor) = (&self.levels.env, self.levels.floor);
        let ours = ffi::pieces(levels, floor, self.count, &mut starts, &mut ends);
        let n = rust.len();
        let difference = if (ours.refusal, ours.pieces) == (0, n) {
            let stay = || starts.stay(n).or_else(|| ends.stay(n));
            first_difference(&rust, &starts, &ends)
                .or_else(stay)
                .or_else(|| first_cut_astray(&rust))
        } else {
            let (refusal, pieces) = (ours.refusal, ours.pieces);
            Some(format!(
                "refusal {refusal}, {pieces} pieces; the Rust's {n}"
            ))
        };
        Case::new(1, difference)
    }

    /// A call that has to be refused, and to leave every place.
    fn refused(&self, count: usize, lent: [usize; 2]) -> Option<String> {
        let (levels, floor) = (&self.levels.env, self.levels.floor);
        let refusal = refusal(levels.len(), count, lent);
        let [mut starts, mut ends] = lent.map(Places::new);
        let ours = ffi::pieces(levels, floor, count, &mut starts, &mut ends);
        if (ours.refusal, ours.pieces) != (refusal, 0) {
            let (ours, n) = (ours.refusal, ours.pieces);
            return Some(format!(
                "{count} samples, places {lent:?}: ours {ours} and {n} pieces, and it is {refusal}"
            ));
        }
        starts.stay(0).or_else(|| ends.stay(0))
    }

    /// One place too few in either list or in both, one frame too many or too few, too many samples.
    fn refusals(&self, _: &mut Random) -> Case {
        let frames = self.levels.env.len();
        let need = need(frames);
        let mut calls = Vec::new();
        if need > 0 {
            let lent = [
                [need - 1, need],
                [need + 1, need - 1],
                [need - 1; 2],
                [0; 2],
            ];
            calls.extend(lent.map(|lent| (self.count, lent)));
            calls.extend([[need; 2], [0; 2]].map(|lent| (frames * HOP - 1, lent)));
        }
        for count in [frames * HOP + HOP, MAX_SAMPLES + 1, usize::MAX] {
            calls.extend([[need; 2], [0; 2]].map(|lent| (count, lent)));
        }
        let difference = calls.iter().find_map(|&(n, lent)| self.refused(n, lent));
        Case::new(calls.len(), difference)
    }
}

impl OfRow {
    fn case(&self, row: &Row, random: &mut Random) -> Case {
        let mut case = (self.judge)(row, random);
        let (kind, n, floor) = (row.kind, row.levels.env.len(), row.levels.floor);
        case.difference = case
            .difference
            .map(|text| format!("{kind}, {n} levels, floor {floor:?}: {text}"));
        case
    }
}

impl Compared for OfRow {
    fn name(&self) -> &str {
        self.name
    }

    fn weight(&self) -> u64 {
        self.weight
    }

    fn limits(&self) -> Vec<Case> {
        let mut random = Random::new(0, 3);
        let rows = Row::limits(&mut random);
        rows.iter().map(|row| self.case(row, &mut random)).collect()
    }

    fn random(&self, random: &mut Random) -> Case {
        let row = Row::random(random);
        self.case(&row, random)
    }
}
