//! Job files that are drawn: runs as they occur and at the limits, and what can be wrong with them.

use crate::full::Full;
use crate::inputs::Random;
use crate::job::{MOST, SIZES, TABLE, Table, whole, written};
use crate::process::Way;
use crate::recorded::Recorded;
use crate::sounds::paused;

/// A job, how it comes to the program, and what was done to it.
pub struct Job {
    pub bytes: Vec<u8>,
    pub way: Way,
    pub kinds: Vec<&'static str>,
}

/// The bytes of a job, with the places of its bodies as it was written.
struct Bytes {
    bytes: Vec<u8>,
    places: [usize; 4],
}

/// A way to damage a job, or to bring it to a limit.
type Fault = fn(&mut Bytes, &mut Random);

const FAULTS: &[(&str, Fault)] = &[
    ("a word's time", |job, random| job.put_time(0, random)),
    ("a span's time", |job, random| job.put_time(1, random)),
    ("letters or units", Bytes::put_text),
    ("a span's count", Bytes::put_count),
    ("samples", Bytes::put_samples),
    ("a number", Bytes::put_number),
    ("an offset", Bytes::put_offset),
    ("two offsets in turn", Bytes::turn_offsets),
    ("a bit of the table", |job, random| {
        job.flip(0, TABLE, random)
    }),
    ("a bit of the words", |job, random| job.flip_in(0, random)),
    ("a bit of the spans", |job, random| job.flip_in(1, random)),
    ("a bit of the samples", |job, random| job.flip_in(2, random)),
    ("cut", Bytes::cut),
    ("longer", Bytes::lengthen),
    ("random bytes", Bytes::scramble),
];

/// Times at the ends of what is taken, and past them.
const TIMES: [f64; 20] = [
    7200.0,
    -7200.0,
    7200.000000000001,
    -7200.000000000001,
    7201.0,
    -7201.0,
    1e300,
    f64::MAX,
    f64::MIN,
    f64::INFINITY,
    f64::NEG_INFINITY,
    f64::NAN,
    -f64::NAN,
    0.0,
    -0.0,
    5e-324,
    0.5,
    86_400.0,
    7199.999999999999,
    f64::MAX,
];

/// Samples that are no numbers, or at an end of what they can be.
const SAMPLES: [f32; 6] = [
    f32::NAN,
    -f32::NAN,
    f32::INFINITY,
    f32::NEG_INFINITY,
    f32::MAX,
    1e-45,
];

impl Bytes {
    fn of(full: &Full) -> Bytes {
        let bytes = written(full);
        let places = Table::of(&bytes).unwrap().places();
        Bytes { bytes, places }
    }

    /// Puts bytes at a place, as far as the job goes.
    fn put(&mut self, at: usize, bytes: &[u8]) {
        for (place, &byte) in self.bytes.iter_mut().skip(at).zip(bytes) {
            *place = byte;
        }
    }

    /// Where one of the words, spans or samples begins, if there is one.
    fn any(&self, body: usize, random: &mut Random) -> Option<usize> {
        let from = self.places[body];
        let n = (self.places[body + 1] - from) / SIZES[body];
        (n > 0).then(|| from + SIZES[body] * random.below(n as u64) as usize)
    }

    fn put_time(&mut self, body: usize, random: &mut Random) {
        let [any, limit] = [f64::from_bits(random.bits()), random.of(&TIMES)];
        let time = random.of(&[limit, limit, limit, any]);
        if let Some(at) = self.any(body, random) {
            let place = random.of(&[0, 8]);
            self.put(at + place, &time.to_le_bytes());
        }
    }

    fn put_text(&mut self, random: &mut Random) {
        let any = random.bits() as u32;
        let letters = random.of(&[0, 1, 1000, 1001, 256, any]);
        let units = random.of(&[0, 1, 10_000, 10_001, 65_536, any]);
        if let Some(at) = self.any(0, random) {
            let (place, number) = random.of(&[(16, letters), (20, units)]);
            self.put(at + place, &number.to_le_bytes());
        }
    }

    fn put_count(&mut self, random: &mut Random) {
        let any = random.bits() as u32;
        let count = random.of(&[4096, 4097, 4097, 65_536, 1 << 31, u32::MAX, any]);
        if let Some(at) = self.any(1, random) {
            self.put(at + 16, &count.to_le_bytes());
        }
    }

    fn put_samples(&mut self, random: &mut Random) {
        for _ in 0..random.of(&[1, 1, 2, 200]) {
            let nan = f32::from_bits(0x7F80_0001 | random.bits() as u32);
            let limit = random.of(&SAMPLES);
            let sample = random.of(&[limit, limit, nan]);
            if let Some(at) = self.any(2, random) {
                self.put(at, &sample.to_le_bytes());
            }
        }
    }

    /// Another number in the table: one more or less, at a limit, or so large that its bytes are as many
    /// as before where they are counted in 32 bits. Sometimes the offsets and the length follow it.
    fn put_number(&mut self, random: &mut Random) {
        let body = random.below(3) as usize;
        let at = 8 * body + 4;
        if self.bytes.len() < TABLE {
            return;
        }
        let (now, most, any) = (whole(&self.bytes, at), MOST[body], random.bits() as u32);
        let number = random.of(&[
            now.wrapping_add(1),
            now.wrapping_sub(1),
            most,
            most + 1,
            now ^ 1 << 30,
            now.wrapping_add(1 << 30),
            u32::MAX,
            any,
        ]);
        self.put(at, &number.to_le_bytes());
        if random.below(3) == 0 {
            self.follow();
        }
    }

    /// Gives the table the offsets that its numbers ask for, and the job its length, where it isn't long.
    fn follow(&mut self) {
        let Some(table) = Table::of(&self.bytes) else {
            return;
        };
        let places = table.places();
        for (at, place) in places[..3].iter().enumerate() {
            self.put(8 * at, &(*place as u32).to_le_bytes());
        }
        if places[3] < 1 << 20 {
            self.bytes.resize(places[3], 0);
        }
    }

    fn put_offset(&mut self, random: &mut Random) {
        let at = 8 * random.below(3) as usize;
        if self.bytes.len() < TABLE {
            return;
        }
        let (now, any) = (whole(&self.bytes, at), random.bits() as u32);
        let step = random.of(&[1, 4, 20, 28, u32::MAX, 1 << 31]);
        let offset = random.of(&[now.wrapping_add(step), 0, 24, u32::MAX, any]);
        self.put(at, &offset.to_le_bytes());
    }

    fn turn_offsets(&mut self, random: &mut Random) {
        let [one, other] = random.of(&[[0, 8], [8, 16], [0, 16]]);
        if self.bytes.len() >= TABLE {
            let [a, b] = [one, other].map(|at| whole(&self.bytes, at));
            self.put(one, &b.to_le_bytes());
            self.put(other, &a.to_le_bytes());
        }
    }

    fn flip(&mut self, from: usize, to: usize, random: &mut Random) {
        let (from, to) = (from.min(self.bytes.len()), to.min(self.bytes.len()));
        if from < to {
            let at = from + random.below((to - from) as u64) as usize;
            self.bytes[at] ^= 1 << random.below(8);
        }
    }

    fn flip_in(&mut self, body: usize, random: &mut Random) {
        for _ in 0..random.of(&[1, 1, 2, 5]) {
            self.flip(self.places[body], self.places[body + 1], random);
        }
    }

    /// Cuts the job within the table, at an end of a body or beside it, or anywhere.
    fn cut(&mut self, random: &mut Random) {
        let n = self.bytes.len();
        let [table, any] = [TABLE, n].map(|n| random.below(n as u64 + 1) as usize);
        let edge = random.of(&self.places) + random.of(&[0, 0, 1]);
        let beside = edge.saturating_sub(random.of(&[0, 1, 4]));
        let at = random.of(&[table, any, beside, beside, n.saturating_sub(1)]);
        self.bytes.truncate(at);
    }

    fn lengthen(&mut self, random: &mut Random) {
        let more = random.of(&[1, 1, 1, 2, 3, 4, 20, 28, 640, 4096, 70_000]);
        let byte = random.bits() as u8;
        self.bytes.resize(self.bytes.len() + more, byte);
    }

    /// Random bytes from a place on.
    fn scramble(&mut self, random: &mut Random) {
        let any = random.below(self.bytes.len() as u64 + 1) as usize;
        let from = random.of(&[0, TABLE, TABLE, any]);
        for place in self.bytes.iter_mut().skip(from).take(400) {
            *place = random.bits() as u8;
        }
    }
}

/// A run with exactly so many words, spans and samples.
fn sized(numbers: [u32; 3], random: &mut Random) -> Full {
    let [words, spans, samples] = numbers.map(|n| n as usize);
    let recorded = Recorded::new(paused(samples / 160, random), random);
    let mut full = Full::over(recorded, [words, spans], random);
    let last = full.words.last().copied().unwrap_or_default();
    full.words.resize(words, last);
    full.samples.resize(samples, 0.25);
    full
}

/// A small run: up to three words and spans, and up to two frames.
fn small(random: &mut Random) -> Full {
    let numbers = [4, 4, 480].map(|n| random.below(n) as u32);
    sized(numbers, random)
}

/// A run at the limits: one of its numbers, or, one in eight, all, at the most, one more or one less.
fn large(random: &mut Random) -> Full {
    let mut numbers = [12, 6, 4000].map(|n| random.below(n) as u32);
    let own = random.of(&[0, 0, 0, 1, 1, 1, 2]);
    let bodies = if random.below(8) == 0 {
        0..3
    } else {
        own..own + 1
    };
    for at in bodies {
        let most = MOST[at];
        numbers[at] = random.of(&[most, most, most, most + 1, most - 1]);
    }
    sized(numbers, random)
}

/// Bytes that are no job.
fn any_bytes(random: &mut Random) -> Vec<u8> {
    let most = random.of(&[8, 23, 24, 25, 26, 200, 2000]);
    let n = random.below(most + 1).max(random.of(&[0, most]));
    let is_zero = random.below(4) == 0;
    let byte = |bits: u64| if is_zero { 0 } else { bits as u8 };
    (0..n).map(|_| byte(random.bits())).collect()
}

fn way(random: &mut Random) -> Way {
    match random.below(16) {
        0..6 => Way::File,
        6..10 => Way::Pipe,
        10..15 => Way::Parts(random.bits()),
        _ => Way::Endless,
    }
}

impl Job {
    pub fn random(random: &mut Random) -> Job {
        let way = way(random);
        let (kind, full) = match random.below(512) {
            0..16 => ("large", large(random)),
            16..240 => ("run", Full::random(random)),
            240..500 => ("small", small(random)),
            _ => {
                let bytes = any_bytes(random);
                let kinds = vec!["any bytes"];
                return Job { bytes, way, kinds };
            }
        };
        let mut job = Bytes::of(&full);
        let mut kinds = vec![kind];
        let faults = match kind {
            "small" => random.of(&[0, 1, 1, 1, 2, 2, 3, 4]),
            _ => random.of(&[0, 0, 0, 0, 0, 0, 1, 2]),
        };
        for _ in 0..faults {
            let (name, fault) = random.of(FAULTS);
            fault(&mut job, random);
            kinds.push(name);
        }
        let bytes = job.bytes;
        Job { bytes, way, kinds }
    }

    /// The jobs that are always compared: a small one cut at every byte, one to 40 bytes longer, and
    /// with each bit of its table turned; each number at its most and one more, alone and together; no
    /// words, spans and samples; and each way.
    pub fn limits(random: &mut Random) -> Vec<Job> {
        let mut list = Vec::new();
        let mut add = |kind: &'static str, bytes: Vec<u8>, way: Way| {
            let kinds = vec![kind];
            list.push(Job { bytes, way, kinds });
        };
        let own = written(&sized([2, 2, 170], random));
        for at in 0..own.len() {
            add("cut", own[..at].to_vec(), Way::File);
        }
        for more in 1..=40 {
            add("longer", [&own[..], &vec![0; more]].concat(), Way::Pipe);
        }
        for bit in 0..8 * TABLE {
            let mut bytes = own.clone();
            bytes[bit / 8] ^= 1 << (bit % 8);
            add("a bit of the table", bytes, Way::File);
        }
        let [words, spans, samples] = MOST;
        let few = [3, 2, 480];
        let mut sizes = vec![[0; 3], few, MOST, MOST.map(|most| most + 1)];
        sizes.extend([[words, 2, 480], [3, spans, 480], [3, 2, samples]]);
        sizes.extend([
            [words + 1, 2, 480],
            [3, spans + 1, 480],
            [3, 2, samples + 1],
        ]);
        for numbers in sizes {
            for way in [
                Way::File,
                Way::Pipe,
                Way::Parts(random.bits()),
                Way::Endless,
            ] {
                add("sized", written(&sized(numbers, random)), way);
            }
        }
        list
    }
}
