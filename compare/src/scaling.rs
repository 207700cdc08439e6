//! Two calls over a recording and the same one louder or softer, heard by the library: a last run,
//! words that are fitted and words that are fitted by phrase have to have the same bits.

use crate::ffi::{self, Over};
use crate::files::Filed;
use crate::inputs::Random;
use crate::pairs::{Refused, differ, fit_file, fit_to_sound};
use crate::report::{Case, Reached};
use crate::runs::{answer, two_times};
use crate::scaled::Scaled;
use crate::words::{LAST, Lent};

/// The branches, by their names.
pub const BRANCHES: &[&str] = &[
    "louder",
    "softer",
    "the sign changed",
    "2^60 or more, or 2^-60 or less",
    "subnormal samples",
    "no frame",
    "a last run found",
    "no last run found",
    "words moved by fitting",
    "words moved by fitting by phrase",
    "other times where the floor stays",
];

const LOUDER: usize = 0;
const SOFTER: usize = 1;
const TURNED: usize = 2;
const FAR: usize = 3;
const SUBNORMAL: usize = 4;
const NO_FRAME: usize = 5;
const FOUND: usize = 6;
const NOT_FOUND: usize = 7;
const FITTED: usize = 8;
const FILED: usize = 9;
const TOLD: usize = 10;

/// What a recording's calls answer.
struct Answers {
    /// Whether a last run was found, and the bits of its times.
    run: (u32, u64, u64),
    fitted: Lent,
    filed: Lent,
}

/// What is asked of both recordings.
struct Asked {
    list: Filed,
    from: f64,
    to: f64,
    duration: f64,
}

impl Asked {
    fn random(random: &mut Random) -> Asked {
        let list = Filed::recorded(random);
        let (from, to) = two_times(&list.sound, random);
        let own = list.sound.count as f64 / 16000.0;
        let duration = random.of(&[own, own, to, LAST]);
        Asked {
            list,
            from,
            to,
            duration,
        }
    }

    fn answers(&self, over: Over, random: &mut Random) -> Result<Answers, Refused> {
        let Filed {
            words,
            phrases,
            spans,
            ..
        } = &self.list;
        let run = ffi::last_run(over, self.from, self.to);
        if run.refusal != 0 {
            return Err(Refused(run.refusal));
        }
        Ok(Answers {
            run: answer(&run),
            fitted: fit_to_sound(words, over, self.duration)?,
            filed: fit_file(words, phrases, spans, over, random)?,
        })
    }

    /// The first answer that differs.
    fn differs(&self, one: &Answers, other: &Answers) -> Option<String> {
        let all: Vec<usize> = (0..self.list.words.len()).collect();
        let runs = || format!("runs {:X?} and {:X?}", one.run, other.run);
        (one.run != other.run)
            .then(runs)
            .or_else(|| differ(&one.fitted, &other.fitted, &all))
            .or_else(|| differ(&one.filed, &other.filed, &all))
    }

    /// Notes what there is to the two recordings.
    fn look(&self, scaled: &Scaled, one: &Answers, reached: &mut Reached) {
        let all: Vec<usize> = (0..self.list.words.len()).collect();
        let given = Lent::new(&self.list.words);
        let power = scaled.power;
        reached.add(LOUDER, power > 0);
        reached.add(SOFTER, power < 0);
        reached.add(TURNED, scaled.turned);
        reached.add(FAR, power.abs() >= 60);
        reached.add(SUBNORMAL, scaled.subnormal && power != 0);
        reached.add(NO_FRAME, scaled.one.levels.is_empty());
        reached.add(FOUND, one.run.0 == 1);
        reached.add(NOT_FOUND, one.run.0 == 0);
        reached.add(FITTED, differ(&given, &one.fitted, &all).is_some());
        reached.add(FILED, differ(&given, &one.filed, &all).is_some());
    }
}

/// Tries two recordings. With the first one's floor for the second, the answers have to differ for
/// some.
pub fn judge(random: &mut Random) -> Result<Case, Refused> {
    let asked = Asked::random(random);
    let samples = asked.list.samples.as_deref().unwrap_or_default();
    let scaled = Scaled::random(samples, random);
    let one = asked.answers(scaled.one.over(), random)?;
    let other = asked.answers(scaled.other.over(), random)?;
    let floor = scaled.one.floor;
    let stays = Over {
        floor,
        ..scaled.other.over()
    };
    let told = asked.answers(stays, random)?;
    let mut reached = Reached::default();
    asked.look(&scaled, &one, &mut reached);
    reached.add(TOLD, asked.differs(&one, &told).is_some());
    let difference = asked.differs(&one, &other).map(|text| {
        let (power, frames) = (scaled.power, asked.list.sound.loud.len());
        format!("2^{power}, {frames} levels: {text}")
    });
    Ok(Case {
        reached,
        ..Case::new(3, difference)
    })
}
