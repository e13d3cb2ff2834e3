//! Where an accepted record's time goes: the slice's test, the claim, and what comes after it.

use crate::counts::Counter;
use crate::input::find;
use crate::programs::Program::{self, Entry, Holds, Ordinary, OrdinaryHolds};
use crate::source::Subject;
use crate::timing;

/// What each part takes, in nanoseconds or in instructions.
#[derive(Clone, Copy)]
pub struct Parts {
    pub test: f64,
    pub claim: f64,
    pub write: f64,
}

impl Parts {
    /// Of what the test by itself takes, a record that is refused at the last test of its claim, and one that is accepted.
    fn of([test, refused, accepted]: [f64; 3]) -> Parts {
        Parts {
            test,
            claim: refused - test,
            write: accepted - refused,
        }
    }

    pub fn whole(self) -> f64 {
        self.test + self.claim + self.write
    }

    /// The same with the other's test.
    pub fn with_test_of(self, other: Parts) -> Parts {
        Parts {
            test: other.test,
            ..self
        }
    }
}

/// The parts of both programs, measured in one way.
#[derive(Clone, Copy)]
pub struct Both {
    pub entry: Parts,
    pub ordinary: Parts,
}

/// The inputs that tell: with twelve standing, and names that differ in the last byte.
pub struct Subjects {
    accepted: Subject,
    refused: Subject,
}

impl Subjects {
    pub fn new(calls: usize) -> Subjects {
        let named = |name| Subject::named(find(name).expect("it is one of ours"), calls);
        Subjects {
            accepted: named("series-last"),
            refused: named("refused-last"),
        }
    }

    /// In nanoseconds, medians of alternating rounds.
    pub fn times(&self, rounds: usize) -> Both {
        let turns = [
            (Holds, &self.accepted.input),
            (Entry, &self.refused.input),
            (Entry, &self.accepted.input),
            (OrdinaryHolds, &self.accepted.input),
            (Ordinary, &self.refused.input),
            (Ordinary, &self.accepted.input),
        ];
        let [test, refused, accepted, ordinary @ ..] =
            timing::measure(turns, rounds).map(|times| times.median());
        Both {
            entry: Parts::of([test, refused, accepted]),
            ordinary: Parts::of(ordinary),
        }
    }

    /// In instructions.
    pub fn counts(&self, counter: &Counter) -> Result<Both, String> {
        Ok(Both {
            entry: self.counts_of(counter, Holds, Entry)?,
            ordinary: self.counts_of(counter, OrdinaryHolds, Ordinary)?,
        })
    }

    fn counts_of(
        &self,
        counter: &Counter,
        test: Program,
        record: Program,
    ) -> Result<Parts, String> {
        let [test, accepted] = counter.a_call(&self.accepted, [test, record])?;
        let [refused] = counter.a_call(&self.refused, [record])?;
        Ok(Parts::of([test, refused, accepted]))
    }
}

#[cfg(test)]
mod tests {
    use super::*;

    #[test]
    fn parts_add_up_to_the_whole() {
        let parts = Parts::of([70.0, 80.0, 95.0]);
        assert_eq!([parts.test, parts.claim, parts.write], [70.0, 10.0, 15.0]);
        assert_eq!(parts.whole(), 95.0);
    }

    #[test]
    fn another_test_takes_what_it_takes() {
        let other = Parts::of([30.0, 50.0, 99.0]);
        assert_eq!(
            Parts::of([70.0, 80.0, 95.0]).with_test_of(other).whole(),
            55.0
        );
    }
}
