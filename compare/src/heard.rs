//! What is compared of recordings: the levels and the floor, the refusals, whose floor it is, and the
//! pieces. One entry each.

use crate::ffi;
use crate::inputs::Random;
use crate::places::Places;
use crate::recordings::{self, HOP, MAX_SAMPLES, Recording};
use crate::report::{Case, Compared};
use crate::rows::Row;
use crate::transcript::envelope::{Envelope, envelope};

/// What is compared of one recording.
pub struct OfRecording {
    name: &'static str,
    weight: u64,
    judge: fn(&[f32], &mut Random) -> Case,
    /// The limit cases beside those of `recordings::limits`: the longest recording.
    further: fn(&mut Random) -> Vec<Case>,
}

pub const OF_RECORDINGS: &[OfRecording] = &[
    OfRecording {
        name: "envelope",
        weight: 4000,
        judge: levels,
        further: |random| vec![levels(&vec![0.25; MAX_SAMPLES], random)],
    },
    OfRecording {
        name: "envelope_refused",
        weight: 20_000,
        judge: refusals,
        further: |random| vec![refusals(&vec![0.0; MAX_SAMPLES], random), too_many()],
    },
    OfRecording {
        name: "own_floor",
        weight: 10_000,
        judge: own_floors,
        further: |_| vec![],
    },
    OfRecording {
        name: "pieces_heard",
        weight: 10_000,
        judge: pieces,
        further: |_| vec![],
    },
];

/// Whether these are the same double, or two NaN.
fn same(ours: u64, rust: u64) -> bool {
    let nan = |bits| f64::from_bits(bits).is_nan();
    ours == rust || nan(ours) && nan(rust)
}

/// The first level that differs, or the floor.
pub fn first_difference(places: &Places, floor: f64, rust: &Envelope) -> Option<String> {
    let pairs = places.bits().iter().zip(&rust.env);
    let pairs = pairs.map(|(&ours, rust)| (ours, rust.to_bits()));
    let pairs = pairs.chain([(floor.to_bits(), rust.floor.to_bits())]);
    let mut differ = pairs.enumerate().filter(|(_, (a, b))| !same(*a, *b));
    let (at, (ours, theirs)) = differ.next()?;
    let what = if at < rust.env.len() {
        format!("level {at}")
    } else {
        "the floor".into()
    };
    Some(format!(
        "{what}: ours {ours:016X}, the Rust's {theirs:016X}"
    ))
}

/// The levels and the floor, in enough places or some more.
fn levels(samples: &[f32], random: &mut Random) -> Case {
    let rust = envelope(samples);
    let frames = rust.env.len();
    let mut places = Places::new(frames + random.below(4) as usize);
    let ours = ffi::envelope(samples, &mut places);
    let difference = match ours.refusal {
        0 => first_difference(&places, ours.floor, &rust).or_else(|| places.stay(frames)),
        refusal => Some(format!("refused {refusal}")),
    };
    Case::new(frames + 1, difference)
}

/// A call that has to be refused, and to leave every place.
fn refused(samples: &[f32], lent: usize, refusal: u32) -> Option<String> {
    let mut places = Places::new(lent);
    let ours = ffi::envelope(samples, &mut places);
    if (ours.refusal, ours.floor.to_bits()) != (refusal, 0) {
        let (ours, floor) = (ours.refusal, ours.floor);
        return Some(format!(
            "{lent} places: ours {ours} and floor {floor:?}, and it is {refusal}"
        ));
    }
    places.stay(0)
}

/// Too few places: none, any number, or one less than needed.
fn refusals(samples: &[f32], random: &mut Random) -> Case {
    let need = samples.len() / HOP;
    if need == 0 {
        return Case::new(0, None);
    }
    let lent = [0, random.below(need as u64) as usize, need - 1];
    Case::new(3, lent.into_iter().find_map(|n| refused(samples, n, 6)))
}

/// One sample more than is taken, in places that are enough, and in none: 4 comes before 6. The
/// zeros of so long a list are pages that the system has not laid out.
fn too_many() -> Case {
    let samples = vec![0.0; MAX_SAMPLES + 1];
    let lent = [MAX_SAMPLES / HOP, 0];
    Case::new(2, lent.into_iter().find_map(|n| refused(&samples, n, 4)))
}

/// Floors that a recording's levels may be asked about.
fn floors(own: f64, random: &mut Random) -> [f64; 9] {
    let other = envelope(&recordings::random(random).samples).floor;
    let nan = f64::from_bits(0xFFF0_0000_0000_0001);
    let infinity = f64::INFINITY;
    let (up, down) = (own.next_up(), own.next_down());
    [own, up, down, other, -own, 0.0, infinity, f64::NAN, nan]
}

/// A floor is a recording's own when it has the bits of the Rust's, or both are NaN.
fn own_floors(samples: &[f32], random: &mut Random) -> Case {
    let rust = envelope(samples);
    let floors = floors(rust.floor, random);
    let wrong = |&&floor: &&f64| {
        ffi::own_floor(&rust.env, floor) != same(floor.to_bits(), rust.floor.to_bits())
    };
    let difference = floors.iter().find(wrong).map(|floor| {
        let (own, floor) = (rust.floor.to_bits(), floor.to_bits());
        format!("own floor {own:016X}, asked of {floor:016X}")
    });
    Case::new(floors.len(), difference)
}

/// The pieces of a recording, cut by its levels.
fn pieces(samples: &[f32], random: &mut Random) -> Case {
    let row = Row {
        kind: "a recording's",
        levels: envelope(samples),
        count: samples.len(),
    };
    row.list(random)
}

impl OfRecording {
    fn case(&self, recording: Recording, random: &mut Random) -> Case {
        let Recording { kind, samples } = recording;
        let mut case = (self.judge)(&samples, random);
        let n = samples.len();
        case.difference = case
            .difference
            .map(|text| format!("{kind}, {n} samples: {text}"));
        case
    }
}

impl Compared for OfRecording {
    fn name(&self) -> &str {
        self.name
    }

    fn weight(&self) -> u64 {
        self.weight
    }

    fn limits(&self) -> Vec<Case> {
        let (mut sound, mut random) = (Random::new(0, 1), Random::new(0, 2));
        let limits = recordings::limits(&mut sound);
        let mut cases: Vec<Case> = limits.map(|r| self.case(r, &mut random)).collect();
        cases.extend((self.further)(&mut random));
        cases
    }

    fn random(&self, random: &mut Random) -> Case {
        let recording = recordings::random(random);
        self.case(recording, random)
    }
}
