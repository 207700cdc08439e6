//! Two full runs over a recording and the same one louder or softer, of either sign: the pieces, the
//! final count, `found`, the phrase places and every bit of the words' places have to be the same,
//! whatever the other lent places hold, and however many they are. The Rust is not called for that.

use crate::ffi::{self, Lending, Report};
use crate::full::Full;
use crate::full_rule::{RIGHT, Rule};
use crate::inputs::Random;
use crate::pairs::Refused;
use crate::places::{Bits, Places};
use crate::recorded::Recorded;
use crate::recordings::HOP;
use crate::report::{Case, Reached};
use crate::scaled::{reaches, times};
use crate::sounds::paused;
use crate::transcript::envelope::envelope;
use crate::words::{named, same};

/// The branches, by their names.
pub const BRANCHES: &[&str] = &[
    "skipped: no level of one reaches 1e-9",
    "louder",
    "softer",
    "as loud",
    "the sign changed",
    "2^100 or more, or 2^-100 or less",
    "subnormal samples in the first",
    "subnormal samples in the second",
    "zeros of other signs",
    "no frame",
    "several pieces",
    "a loop found",
    "words dropped",
    "spans",
    "no spans, with words",
    "a time moved",
    "1,000 words or more",
    "another number of places",
    "another outcome where the floor stays",
    "an infinite sample",
];

const SKIPPED: usize = 0;

/// The sizes of a recording's samples: a whole number of up to three binary digits times a power of
/// two, so that many powers of two leave all of them exact. Quiet frames have at most about a hundredth
/// of the loudest, down to the least sample above zero.
fn in_short_numbers(random: &mut Random) -> Vec<f32> {
    let most = random.of(&[4, 40, 120, 120, 200]);
    let frames = random.below(most) as usize;
    let loud = paused(frames, random);
    let top = random.of(&[-29, -28, -20, 0, 0, 100, 123]);
    let size = |exponent: i32, random: &mut Random| {
        let digits = 1 + random.below(7);
        (digits as f64 * 2f64.powi(exponent.max(-149))) as f32
    };
    let mut samples = Vec::new();
    for is_loud in loud {
        let by = random.of(&[7, 8, 9, 30, 100, 120]);
        let sample = match (is_loud, random.below(4)) {
            (true, _) => size(top, random),
            (false, 0) => random.of(&[0.0, -0.0]),
            (false, _) => size(top - by, random),
        };
        let flips = random.bits();
        let signed = |at: usize| match flips >> (at % 64) & 1 {
            0 => sample,
            _ => -sample,
        };
        samples.extend((0..HOP).map(signed));
    }
    let tail = random.below(HOP as u64) as usize;
    samples.extend(std::iter::repeat_n(1.0, random.of(&[0, 0, tail])));
    samples
}

/// Two recordings.
struct Two {
    full: Full,
    other: Vec<f32>,
    power: i32,
    turned: bool,
}

impl Two {
    /// A power from -200 to 200, or one nearer to 0 that leaves every sample exact.
    fn random(random: &mut Random) -> Two {
        let mut full = Full::finite(random);
        if random.below(2) == 0 {
            let samples = in_short_numbers(random);
            full = Full::over(Recorded::heard(samples), full.counts(), random);
        }
        if random.below(16) == 0 && !full.samples.is_empty() {
            let at = random.below(full.samples.len() as u64) as usize;
            full.samples[at] = random.of(&[f32::INFINITY, f32::NEG_INFINITY]);
        }
        let turned = random.below(2) == 0;
        let most = random.of(&[3, 20, 40, 160, 200]);
        let mut power = random.around(most) as i32;
        loop {
            if let Some(other) = times(&full.samples, power, turned, random) {
                return Two {
                    full,
                    other,
                    power,
                    turned,
                };
            }
            power = power * 3 / 4;
        }
    }

    /// The places of both runs: the words, spans and phrase places are alike, and the others are drawn
    /// for each, with any bits in them.
    fn lendings(&self, random: &mut Random) -> [Lending; 2] {
        let [mut one, mut other] = [(); 2].map(|()| self.full.lending(random));
        other.phrases = one.phrases.clone();
        for lending in [&mut one, &mut other] {
            let work = &mut lending.work;
            let pieces = [&mut lending.piece_starts, &mut lending.piece_ends];
            let doubles = [&mut lending.levels, &mut work.starts, &mut work.ends];
            for list in pieces.into_iter().chain(doubles) {
                list.held().fill_with(|| random.bits());
            }
            let letters = work.letters.held();
            letters.fill_with(|| random.bits() as u32);
        }
        [one, other]
    }

    /// Notes what there is to the two runs.
    fn look(&self, [one, other]: [&Lending; 2], report: &Report, reached: &mut Reached) {
        let (n, power) = (self.full.words.len(), self.power);
        let subnormal = |samples: &[f32]| samples.iter().any(|s| s.is_subnormal());
        let turned = |(a, b): (&f32, &f32)| {
            *a == 0.0 && (a.is_sign_negative() != b.is_sign_negative()) != self.turned
        };
        let given = self.full.words.iter().map(|w| w.start.to_bits());
        let moved = one.words.starts.bits().iter().zip(given);
        let yes = [
            power > 0,
            power < 0,
            power == 0,
            self.turned,
            power.abs() >= 100,
            subnormal(&self.full.samples),
            subnormal(&self.other),
            self.full.samples.iter().zip(&self.other).any(turned),
            self.full.samples.len() < HOP,
            report.pieces > 1,
            report.found == 1,
            report.words < n,
            !self.full.spans.is_empty(),
            self.full.spans.is_empty() && n > 0,
            moved.take(report.words).any(|(a, b)| *a != b),
            n >= 1000,
            one.levels.lent() != other.levels.lent(),
            self.is_told(),
            self.full.samples.iter().any(|s| s.is_infinite()),
        ];
        for (at, yes) in yes.into_iter().enumerate() {
            reached.add(SKIPPED + 1 + at, yes);
        }
    }

    /// Whether the Rust's stages differ where the second recording keeps the first one's floor.
    fn is_told(&self) -> bool {
        let heard = envelope(&self.full.samples);
        let second = envelope(&self.other);
        let kept = Some(heard.floor);
        let wrong = Rule {
            snap_floor: kept,
            fit_floor: kept,
            ..RIGHT
        };
        let (right, _) = RIGHT.run(&self.full, &heard);
        let (told, _) = wrong.run(&self.full, &second);
        right.differs(&told).is_some()
    }
}

/// The first of so many places at which the lists differ.
fn first_of<T: Bits>(one: &Places<T>, other: &Places<T>, n: usize) -> Option<String> {
    let at = (0..n).find(|&at| one.bits()[at] != other.bits()[at])?;
    let (one, other) = (one.bits()[at], other.bits()[at]);
    Some(format!("place {at}: {one:X} and {other:X}"))
}

/// What differs of two runs that have to agree.
fn differ(one: (&Report, &Lending), other: (&Report, &Lending)) -> Option<String> {
    let answer = |report: &Report| (report.found, report.pieces, report.words);
    let ((a, one), (b, other)) = (one, other);
    if answer(a) != answer(b) {
        return Some(format!("{a:?} and {b:?}"));
    }
    let (starts, ends) = (&one.piece_starts, &one.piece_ends);
    named(
        "piece starts",
        first_of(starts, &other.piece_starts, a.pieces),
    )
    .or_else(|| named("piece ends", first_of(ends, &other.piece_ends, a.pieces)))
    .or_else(|| named("phrases", same(&one.phrases, &other.phrases)))
    .or_else(|| one.words.stay(&other.words))
}

/// Tries two runs.
pub fn judge(random: &mut Random) -> Result<Case, Refused> {
    let two = Two::random(random);
    let mut reached = Reached::default();
    if !reaches(&envelope(&two.full.samples).env) || !reaches(&envelope(&two.other).env) {
        reached.add(SKIPPED, true);
        return Ok(Case {
            reached,
            ..Case::new(0, None)
        });
    }
    let [mut one, mut other] = two.lendings(random);
    let a = ffi::full_run(&two.full.samples, &mut one);
    let b = ffi::full_run(&two.other, &mut other);
    if a.refusal + b.refusal > 0 {
        return Err(Refused(a.refusal.max(b.refusal)));
    }
    two.look([&one, &other], &a, &mut reached);
    let difference = differ((&a, &one), (&b, &other)).map(|text| {
        let power = two.power;
        two.full.describe(format!("2^{power}: {text}"))
    });
    Ok(Case {
        reached,
        ..Case::new(1, difference)
    })
}
