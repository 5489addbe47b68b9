//! Random numbers, the same in each run, and random floorplans.

/// Numbers by shifts and a multiplication (xorshift64*).
pub struct Random(u64);

impl Random {
    /// The numbers of a seed; equal seeds give equal numbers.
    pub fn new(seed: u64) -> Random {
        Random(seed.wrapping_mul(0x9e37_79b9_7f4a_7c15) | 1)
    }

    /// 64 random bits.
    fn next(&mut self) -> u64 {
        self.0 ^= self.0 >> 12;
        self.0 ^= self.0 << 25;
        self.0 ^= self.0 >> 27;
        self.0.wrapping_mul(0x2545_f491_4f6c_dd1d)
    }

    /// One of the numbers below a limit.
    pub fn below(&mut self, limit: usize) -> usize {
        (((self.next() >> 32) * limit as u64) >> 32) as usize
    }

    /// So many modules in a random order.
    pub fn shuffled(&mut self, size: usize) -> Vec<usize> {
        let mut order: Vec<usize> = (0..size).collect();
        for k in (1..size).rev() {
            order.swap(k, self.below(k + 1));
        }
        order
    }
}

/// A feasible floorplan as a load takes it.
#[derive(Clone)]
pub struct Given {
    pub codes: Vec<u8>,
    pub sequence: Vec<usize>,
}

impl Given {
    /// That of two random orders of the modules.
    pub fn random(random: &mut Random, size: usize) -> Given {
        let (sequence, other) = (random.shuffled(size), random.shuffled(size));
        let mut place = vec![0; size];
        for (k, &module) in other.iter().enumerate() {
            place[module] = k;
        }
        let mut codes = vec![0; size * size];
        for (k, &i) in sequence.iter().enumerate() {
            for &j in &sequence[k + 1..] {
                codes[i * size + j] = if place[i] < place[j] { 1 } else { 2 };
            }
        }
        Given { codes, sequence }
    }

    /// Its reduction edges.
    pub fn reduction_edges(&self) -> Vec<(usize, usize)> {
        let size = self.sequence.len();
        let code = |i: usize, j: usize| self.codes[i * size + j];
        let is_bypassed =
            |a, b| (0..size).any(|k| code(a, k) == code(a, b) && code(k, b) == code(a, b));
        let mut edges = Vec::new();
        for a in 0..size {
            for b in 0..size {
                if code(a, b) != 0 && !is_bypassed(a, b) {
                    edges.push((a, b));
                }
            }
        }
        edges
    }
}
