//! Random numbers that a seed fixes. Each input has a stream of its own, so that it can be drawn again without those before it.

/// A stream of random numbers.
pub struct Draw {
    state: u64,
}

/// The odd step of the splitmix64 generator.
const STEP: u64 = 0x9E37_79B9_7F4A_7C15;

/// The mixing of the splitmix64 generator: every bit of the result depends on every bit given.
fn mixed(word: u64) -> u64 {
    let once = (word ^ (word >> 30)).wrapping_mul(0xBF58_476D_1CE4_E5B9);
    let twice = (once ^ (once >> 27)).wrapping_mul(0x94D0_49BB_1331_11EB);
    twice ^ (twice >> 31)
}

impl Draw {
    /// The stream of one input of a seed.
    pub fn new(seed: u64, number: u64) -> Draw {
        let start = mixed(seed.wrapping_add(STEP));
        Draw { state: mixed(start ^ mixed(number.wrapping_add(1).wrapping_mul(STEP))) }
    }

    /// 64 random bits.
    pub fn word(&mut self) -> u64 {
        self.state = self.state.wrapping_add(STEP);
        mixed(self.state)
    }

    /// A number from 0 to one less than the limit, which is at least 1 and below 2^32.
    pub fn below(&mut self, limit: usize) -> usize {
        (((self.word() >> 32) * limit as u64) >> 32) as usize
    }

    /// A number from `low` to `high`, both included.
    pub fn between(&mut self, low: usize, high: usize) -> usize {
        low + self.below(high - low + 1)
    }

    /// True in so many cases of a hundred.
    pub fn percent(&mut self, percent: usize) -> bool {
        self.below(100) < percent
    }

    /// One of the things given, each as often.
    pub fn pick<T: Copy>(&mut self, among: &[T]) -> T {
        among[self.below(among.len())]
    }

    /// A place in the list of weights, each as often as its weight says.
    pub fn weighted(&mut self, weights: &[usize]) -> usize {
        let mut left = self.below(weights.iter().sum());
        for (place, weight) in weights.iter().enumerate() {
            if left < *weight {
                return place;
            }
            left -= weight;
        }
        weights.len() - 1
    }

    /// Random bytes.
    pub fn bytes(&mut self, count: usize) -> Vec<u8> {
        (0..count).map(|_| self.word() as u8).collect()
    }
}
