//! Alternating rounds, their medians and their spread.

use crate::input::Input;
use crate::programs::Program;

/// Rounds that are not counted.
pub const WARM_UP_ROUNDS: usize = 2;

/// Nanoseconds for one call, of each round.
pub struct Times(Vec<f64>);

impl Times {
    pub fn median(&self) -> f64 {
        median(self.0.clone())
    }

    /// How many times as long as the other's calls these take.
    pub fn to(&self, other: &Times) -> Ratio {
        let rounds = self.0.iter().zip(&other.0);
        let mut ratios: Vec<f64> = rounds.map(|(one, other)| one / other).collect();
        ratios.sort_by(f64::total_cmp);
        Ratio {
            of_medians: self.median() / other.median(),
            low: percentile(&ratios, 5.0),
            high: percentile(&ratios, 95.0),
        }
    }
}

/// The ratio of two medians, and the ratios of single rounds between which nine in ten lie.
pub struct Ratio {
    pub of_medians: f64,
    pub low: f64,
    pub high: f64,
}

/// Times programs on inputs by turns.
pub fn measure<const TURNS: usize>(
    turns: [(Program, &Input); TURNS],
    rounds: usize,
) -> [Times; TURNS] {
    let round = || turns.map(|(program, input)| program.make_calls(input));
    for _ in 0..WARM_UP_ROUNDS {
        round();
    }
    let rounds: Vec<[f64; TURNS]> = (0..rounds).map(|_| round()).collect();
    std::array::from_fn(|turn| Times(rounds.iter().map(|round| round[turn]).collect()))
}

pub fn median(mut figures: Vec<f64>) -> f64 {
    figures.sort_by(f64::total_cmp);
    percentile(&figures, 50.0)
}

/// Below which so many in a hundred of the sorted figures lie. Between two figures it is on the line through them.
fn percentile(sorted: &[f64], percent: f64) -> f64 {
    let at = (sorted.len() - 1) as f64 * percent / 100.0;
    let (below, above) = (sorted[at.floor() as usize], sorted[at.ceil() as usize]);
    below + (above - below) * at.fract()
}

#[cfg(test)]
mod tests {
    use super::*;

    #[test]
    fn medians() {
        assert_eq!(median(vec![7.0]), 7.0);
        assert_eq!(median(vec![9.0, 1.0, 5.0]), 5.0);
        assert_eq!(median(vec![4.0, 1.0, 3.0, 2.0]), 2.5);
    }

    #[test]
    fn percentiles() {
        let sorted: Vec<f64> = (0..=60).map(f64::from).collect();
        assert_eq!(percentile(&sorted, 5.0), 3.0);
        assert_eq!(percentile(&sorted, 95.0), 57.0);
        assert_eq!(percentile(&[1.0, 2.0], 5.0), 1.05);
        assert_eq!(percentile(&[8.0], 95.0), 8.0);
    }

    #[test]
    fn a_ratio_is_of_medians_and_its_spread_of_rounds() {
        let one = Times(vec![2.0, 4.0, 30.0]);
        let other = Times(vec![2.0, 2.0, 3.0]);
        let ratio = one.to(&other);
        assert_eq!(ratio.of_medians, 2.0);
        assert!((ratio.low - 1.1).abs() < 1e-9, "{}", ratio.low);
        assert!((ratio.high - 9.2).abs() < 1e-9, "{}", ratio.high);
    }
}
