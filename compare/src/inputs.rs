//! Inputs: a small generator with a fixed seed, the families of numbers that it draws from, and
//! the limit cases.

/// Splitmix64 (Steele, Lea and Flood, 2014).
pub struct Random(u64);

impl Random {
    /// A generator of its own for each `stream`.
    pub fn new(seed: u64, stream: u64) -> Random {
        let mut random = Random(seed ^ stream.wrapping_mul(0xD6E8_FEB8_6659_FD93));
        random.bits();
        random
    }

    /// 64 random bits.
    pub fn bits(&mut self) -> u64 {
        self.0 = self.0.wrapping_add(0x9E37_79B9_7F4A_7C15);
        let mut z = self.0;
        z = (z ^ (z >> 30)).wrapping_mul(0xBF58_476D_1CE4_E5B9);
        z = (z ^ (z >> 27)).wrapping_mul(0x94D0_49BB_1331_11EB);
        z ^ (z >> 31)
    }

    /// From 0 to below `n`.
    pub fn below(&mut self, n: u64) -> u64 {
        self.bits() % n
    }

    /// From -n to n.
    pub fn around(&mut self, n: i64) -> i64 {
        self.below(2 * n as u64 + 1) as i64 - n
    }

    /// A whole number of any width up to `width` bits.
    pub fn wide(&mut self, width: u32) -> u64 {
        self.bits() >> (64 - width) >> self.below(u64::from(width))
    }

    /// One of `list`.
    pub fn of<T: Copy>(&mut self, list: &[T]) -> T {
        list[self.below(list.len() as u64) as usize]
    }

    /// One of two, to write in.
    pub fn of_two<'a, T>(&mut self, one: &'a mut T, other: &'a mut T) -> &'a mut T {
        if self.below(2) == 0 { one } else { other }
    }

    /// A double, as its bits, from any of the families.
    pub fn float(&mut self) -> u64 {
        let x = match self.below(14) {
            // every bit pattern alike
            0 | 1 => return self.bits(),
            // times as they occur, in seconds: whole thousandths, hundredths and half thousandths
            2 => self.around(8_000_000) as f64 * 0.001,
            3 => self.around(8_000_000) as f64 / 1000.0,
            4 => self.around(800_000) as f64 * 0.01,
            5 => self.around(800_000) as f64 / 100.0,
            6 => self.around(16_000_000) as f64 * 0.0005,
            // halves of a thousandth of any size
            7 => self.wide(60) as f64 / 2000.0,
            // odd sixteenths: the only doubles that are exactly half a thousandth
            8 => (self.wide(53) | 1) as f64 / 16.0,
            // a power of two
            9 => f64::from_bits(self.below(0x7FF) << 52),
            // a limit
            10 => self.of(&LIMITS),
            // less than any normal number
            11 => f64::from_bits(self.wide(52)),
            // a square of a number of 26 digits, or one whose root is nearly half way between two
            12 => self.square(),
            _ => return self.special(),
        };
        self.near(x)
    }

    /// `x` or one of its neighbours, up to four steps away, of either sign.
    fn near(&mut self, x: f64) -> u64 {
        let steps = self.around(4);
        x.to_bits().wrapping_add_signed(steps) ^ (self.below(2) << 63)
    }

    /// A square of a number of 26 digits times a power of four, or the product of two neighbours.
    fn square(&mut self) -> f64 {
        let (n, exponent) = (self.bits() >> 38, self.around(480) as i32);
        let x = if self.below(2) == 0 {
            (n * n) as f64
        } else {
            let n = u128::from(self.bits() >> 11);
            (n * (n + 1)) as f64
        };
        x * 4f64.powi(exponent)
    }

    /// A NaN of any payload and sign, an infinity or a zero.
    fn special(&mut self) -> u64 {
        let sign = self.below(2) << 63;
        sign | match self.below(4) {
            0 => 0,
            1 => INFINITY,
            _ => INFINITY | (self.bits() >> 12).max(1),
        }
    }

    /// A frame of which the Rust can say the seconds: `k * 160` fits an i64.
    pub fn frame(&mut self) -> u64 {
        let limit = i64::MAX / 160;
        let k = match self.below(4) {
            0 => self.around(limit),
            1 => self.wide(57) as i64,
            2 => self.around(800_000),
            _ => self.of(&FRAME_LIMITS).saturating_add(self.around(4)),
        };
        let k = if self.below(2) == 0 { k } else { -k };
        k.clamp(-limit, limit) as u64
    }
}

const INFINITY: u64 = 0x7FF0_0000_0000_0000;

/// Numbers at which some rule changes. Their neighbours are drawn too.
const LIMITS: [f64; 24] = [
    0.0,
    1.0,
    // halves of a thousandth: a tie is one of the odd sixteenths
    0.0005,
    0.0015,
    0.0625,
    0.9995,
    // x * 1000 + 0.5 rounds to the wrong whole number here
    2254.2585,
    // t * 100 falls in the frame before
    0.29,
    0.005,
    // the ends of the times that are taken and that are left
    7200.0,
    8192.0,
    // 2^43: from here on the nearest double to n / 1000 is x itself
    8_796_093_022_208.0,
    // 2^49: from here on document 01 gives x back
    562_949_953_421_312.0,
    // 2^52, 2^53, 2^54: around them halves, odd and even whole numbers end
    4_503_599_627_370_496.0,
    9_007_199_254_740_992.0,
    18_014_398_509_481_984.0,
    // toFixed stops rounding here
    1e21,
    // frames end here: 2^63 / 100; and 2^63, 2^64
    92_233_720_368_547_760.0,
    9_223_372_036_854_775_808.0,
    18_446_744_073_709_551_616.0,
    // t * 16000 is infinite beyond this
    f64::MAX / 16000.0,
    f64::MAX / 100.0,
    f64::MAX,
    // the least normal number
    f64::MIN_POSITIVE,
];

/// Frames at which `k * 160` passes 2^53, 2^54 and the end of i64, and frames as they occur.
const FRAME_LIMITS: [i64; 6] = [
    0,
    720_000,
    (1 << 53) / 160,
    (1 << 54) / 160,
    (1 << 62) / 160,
    i64::MAX / 160,
];

/// The limit cases that are always compared: each limit with both neighbours and both signs, the
/// infinities, the least and the largest subnormal, and NaNs of several payloads.
pub fn limits() -> Vec<u64> {
    let mut list = Vec::new();
    for x in LIMITS {
        for bits in [x.to_bits().wrapping_sub(1), x.to_bits(), x.to_bits() + 1] {
            list.push(bits);
        }
    }
    list.extend([1, 2, 0x000F_FFFF_FFFF_FFFF, 0x3FEF_FFFF_FFFF_FFFF]);
    list.extend([INFINITY, INFINITY + 1, 0x7FF4_0000_0000_0001]);
    list.extend([
        0x7FF8_0000_0000_0000,
        0x7FF8_0000_0000_0123,
        0x7FFF_FFFF_FFFF_FFFF,
    ]);
    let negative: Vec<u64> = list.iter().map(|bits| bits ^ (1 << 63)).collect();
    list.extend(negative);
    list
}

/// The frames that are always compared.
pub fn frame_limits() -> Vec<u64> {
    let limit = i64::MAX / 160;
    let near = |k: i64| (k - 2..=k + 2).filter(move |k| k.abs() <= limit);
    let list = FRAME_LIMITS.iter().flat_map(|&k| near(k).chain(near(-k)));
    list.map(|k| k as u64).collect()
}

/// Times from 0 to 7,200 seconds, for the bench.
pub fn times(seed: u64, count: usize) -> Vec<f64> {
    let mut random = Random::new(seed, 0);
    let step = 7200.0 / (1u64 << 53) as f64;
    (0..count)
        .map(|_| (random.bits() >> 11) as f64 * step)
        .collect()
}
