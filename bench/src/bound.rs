//! The bound of order 12, and our own goals.

use crate::input::{Named, MIXED};

/// At most so many times what the ordinary program takes, with twelve standing.
pub const ORDERED: f64 = 1.5;

/// Our own: the input, and the most that entry/ordinary should be on it.
const GOALS: [(&str, f64); 3] = [("twelve-first", 0.9), ("twelve-last", 0.9), ("one", 1.0)];

/// entry/ordinary on the mixed inputs, measured in one way.
pub struct Ratios {
    /// In what: time, or instructions.
    pub way: &'static str,
    /// Each with the name of its input.
    pub of: Vec<(String, f64)>,
}

impl Ratios {
    fn on(&self, input: &str) -> f64 {
        let found = self.of.iter().find(|(name, _)| name == input);
        found.expect("the input was measured").1
    }
}

/// What is to be printed, and whether it is within the bound.
#[derive(Debug, PartialEq, Eq)]
pub struct Verdict {
    pub line: String,
    pub is_within: bool,
}

/// The inputs that the bound is for.
pub fn ordered() -> &'static [Named] {
    &MIXED[..2]
}

pub fn verdict(ratios: &[Ratios], bound: f64) -> Verdict {
    let figures: Vec<String> = ratios.iter().map(told).collect();
    let figures = format!(
        "entry/ordinary with twelve standing is {}; at most {bound}",
        figures.join(", ")
    );
    let over: Vec<String> = ratios.iter().flat_map(|each| over(each, bound)).collect();
    let line = match over.is_empty() {
        true => format!("order 12: {figures}"),
        false => format!("over the bound of order 12: {}: {figures}", over.join(", ")),
    };
    Verdict {
        line,
        is_within: over.is_empty(),
    }
}

fn told(ratios: &Ratios) -> String {
    let of_inputs: Vec<String> = ordered()
        .iter()
        .map(|named| format!("{:.2}", ratios.on(named.name)))
        .collect();
    format!("{} in {}", of_inputs.join(" and "), ratios.way)
}

/// The inputs that are over the bound.
fn over(ratios: &Ratios, bound: f64) -> Vec<String> {
    ordered()
        .iter()
        .filter(|named| !is_within(ratios.on(named.name), bound))
        .map(|named| format!("{} in {}", named.name, ratios.way))
        .collect()
}

/// What is no number is not within.
fn is_within(ratio: f64, bound: f64) -> bool {
    ratio <= bound
}

/// A line on our own goals, in each way.
pub fn goals(ratios: &[Ratios]) -> String {
    let ways: Vec<String> = ratios.iter().map(goals_in).collect();
    format!("Our own goals: {}.", ways.join("; "))
}

fn goals_in(ratios: &Ratios) -> String {
    let goals = GOALS.map(|(input, most)| {
        let ratio = ratios.on(input);
        let met = if is_within(ratio, most) {
            "met"
        } else {
            "not met"
        };
        format!("{input} {ratio:.3} (at most {most:.1}: {met})")
    });
    format!("in {} {}", ratios.way, goals.join(", "))
}

#[cfg(test)]
mod tests {
    use super::*;

    fn ratios(way: &'static str, first: f64, last: f64, one: f64) -> Ratios {
        let of = [("twelve-first", first), ("twelve-last", last), ("one", one)];
        Ratios {
            way,
            of: of.map(|(name, ratio)| (name.to_string(), ratio)).to_vec(),
        }
    }

    fn measured() -> [Ratios; 2] {
        [
            ratios("time", 0.92, 0.64, 1.07),
            ratios("instructions", 0.801, 0.5, 0.99),
        ]
    }

    #[test]
    fn within_the_bound() {
        let line = "order 12: entry/ordinary with twelve standing is 0.92 and 0.64 in time, 0.80 and 0.50 in instructions; at most 1.5";
        let expected = Verdict {
            line: line.to_string(),
            is_within: true,
        };
        assert_eq!(verdict(&measured(), ORDERED), expected);
    }

    #[test]
    fn over_the_bound() {
        let line = "over the bound of order 12: twelve-first in time, twelve-first in instructions: entry/ordinary with twelve standing is 0.92 and 0.64 in time, 0.80 and 0.50 in instructions; at most 0.8";
        let expected = Verdict {
            line: line.to_string(),
            is_within: false,
        };
        assert_eq!(verdict(&measured(), 0.8), expected);
    }

    #[test]
    fn the_bound_itself_is_within_and_what_is_no_number_is_not() {
        let is_within = |ratio| verdict(&[ratios("time", ratio, ratio, 1.0)], 1.5).is_within;
        assert!(is_within(1.5));
        assert!(!is_within(1.500_001));
        assert!(!is_within(f64::NAN));
    }

    #[test]
    fn goals_are_told_one_by_one() {
        let line = "Our own goals: in time twelve-first 0.920 (at most 0.9: not met), twelve-last 0.640 (at most 0.9: met), one 1.070 (at most 1.0: not met); in instructions twelve-first 0.801 (at most 0.9: met), twelve-last 0.500 (at most 0.9: met), one 0.990 (at most 1.0: met).";
        assert_eq!(goals(&measured()), line);
    }
}
