//! A seeded source of numbers.

pub const CLUSTERS: usize = 8;
/// How wide a cluster is, as a share of its distance from the origin, and how much narrower in a further channel.
const CLUSTER_WIDTH: f64 = 0.0025;
const NARROWER: f64 = 0.05;

#[derive(Clone)]
pub struct Random(pub u64);

impl Random {
    fn number(&mut self) -> u64 {
        self.0 ^= self.0 << 13;
        self.0 ^= self.0 >> 7;
        self.0 ^= self.0 << 17;
        self.0
    }

    /// A number from 0 to `bound` - 1.
    pub fn below(&mut self, bound: usize) -> usize {
        (self.number() >> 11) as usize % bound
    }

    /// A fraction from -1 to 1.
    fn fraction(&mut self) -> f64 {
        (self.number() >> 11) as f64 / (1u64 << 52) as f64 - 1.0
    }

    /// Rows near a sphere take many moves.
    pub fn row_near_sphere(&mut self, n: usize) -> Vec<i32> {
        let towards: Vec<f64> = (0..n).map(|_| self.fraction()).collect();
        on_sphere(&towards, 3_000.0)
    }

    /// A row of a cluster at an end of one of the first four axes: rows of these eight clusters, taken in turn, take
    /// the most moves known. A cluster is narrow, and narrower in each further channel.
    pub fn row_of_cluster(&mut self, n: usize, cluster: usize) -> Vec<i32> {
        let mut towards = vec![0.0; CLUSTERS / 2];
        towards[cluster / 2] = [-1.0, 1.0][cluster % 2];
        let mut width = CLUSTER_WIDTH;
        for _ in CLUSTERS / 2..n {
            towards.push(width * self.spread(12) / 2.0);
            width *= NARROWER;
        }
        on_sphere(&towards, 4_000.0)
    }

    /// Each coordinate is anywhere within the limits.
    pub fn uniform_row(&mut self, n: usize) -> Vec<i32> {
        (0..n).map(|_| self.below(8_001) as i32 - 4_000).collect()
    }

    /// Readings spread round 1,000, most of them near it.
    pub fn row_of_readings(&mut self, n: usize) -> Vec<i32> {
        (0..n)
            .map(|_| 1_000 + (100.0 * self.spread(6)).round() as i32)
            .collect()
    }

    /// A sum of so many fractions, most often near 0.
    fn spread(&mut self, fractions: usize) -> f64 {
        (0..fractions).map(|_| self.fraction()).sum()
    }
}

/// The row at this distance from the origin, rounded.
fn on_sphere(towards: &[f64], radius: f64) -> Vec<i32> {
    let length = towards.iter().map(|part| part * part).sum::<f64>().sqrt();
    let scale = radius / length;
    towards
        .iter()
        .map(|part| (part * scale).round() as i32)
        .collect()
}
