//! The two sides, the archive and the model, answering the same call on the same state.

use crate::call::{Answer, Bytes, Call, Guarded};
use slavotuk_model::entries::{self, Lent, RawClaim};
use slavotuk_model::{layout, Module};
use std::fmt;

/// The model's claim is a type of its own.
fn modelled_claim(claim: &slavotuk::entries::RawClaim) -> RawClaim {
    RawClaim {
        kind: claim.kind,
        credential: claim.credential,
        number: claim.number,
        verdict: claim.verdict,
    }
}

/// What the model's entry gets for a parameter.
macro_rules! given {
    ($name:ident: RawClaim) => { modelled_claim($name) };
    ($name:ident: $($type:tt)+) => { slavotuk::given!($name: $($type)+) };
}

macro_rules! modelled {
    ($($group:ident { $($(#[$doc:meta])* $symbol:ident $function:ident $case:ident $([$($state:tt)+])? $(($name:ident: $($type:tt)+))*;)* })*) => {
        /// Makes the call on the model. Its entries share no line with the archive's, but have the names and the parameters of the functions around those.
        fn modelled(lent: &mut Lent, call: &mut Call) -> u32 {
            match call {
                $($(Call::$case { $($name),* } => {
                    entries::$function($(slavotuk::first!(lent, $($state)+),)? $(given!($name: $($type)+)),*)
                })*)*
            }
        }
    };
}

slavotuk::calls!(modelled);

/// A copy of the call is made: the call itself is there to be printed and made again.
fn answer(call: &Call, make: impl FnOnce(&mut Call) -> u32) -> Answer {
    let mut made = call.clone();
    let number = make(&mut made);
    Answer { number, made }
}

/// The archive with a state lent to it.
#[derive(Clone)]
pub struct Archive {
    state: Guarded,
}

impl Archive {
    /// The archive with these bytes lent to it.
    pub fn of(bytes: &[u8]) -> Archive {
        Archive {
            state: Guarded::around(bytes),
        }
    }

    /// The state's bytes.
    pub fn state(&self) -> &[u8] {
        self.state.as_ref()
    }

    /// Makes the call.
    pub fn answer(&mut self, call: &Call) -> Answer {
        answer(call, |call| call.make(self.state.as_mut()))
    }
}

/// Both sides, each with its state: the archive's in bytes, the model's as a struct.
#[derive(Clone)]
pub struct Pair {
    /// The compiled archive.
    pub archive: Archive,
    /// The model.
    pub model: Lent,
}

impl Pair {
    /// Both with these bytes lent to them.
    pub fn of(bytes: &[u8]) -> Pair {
        Pair {
            archive: Archive::of(bytes),
            model: Lent::of(bytes),
        }
    }

    /// The module that the model has, where the lent slice holds one.
    pub fn module(&self) -> Option<&Module> {
        match &self.model {
            Lent::State(module) => Some(module),
            Lent::Other(_) => None,
        }
    }

    /// Makes the call on both sides: their common answer, or where they differ.
    pub fn call(&mut self, call: &Call) -> Result<Answer, Difference> {
        let expected = answer(call, |call| modelled(&mut self.model, call));
        let actual = self.archive.answer(call);
        if expected != actual {
            return Err(Difference::Answers(Box::new([expected, actual])));
        }
        let expected_state = self.model.bytes();
        if expected_state != self.archive.state() {
            return Err(Difference::States {
                expected: expected_state,
                actual: self.archive.state().to_vec(),
            });
        }
        Ok(actual)
    }

    /// Makes the call on both sides; this number is right.
    pub fn expect(&mut self, call: &Call, right: u32) -> Result<Answer, String> {
        let answer = self.call(call).map_err(|what| format!("{call}: {what}"))?;
        match answer.number == right {
            true => Ok(answer),
            false => Err(format!("{call}: both answer {answer}, {right} is right")),
        }
    }

    /// Whether the archive's bytes, read by the model, say what the model has kept.
    pub fn read_back(&self) -> Result<(), Difference> {
        match (layout::read(self.archive.state()), self.module()) {
            (Some(read), Some(kept)) if read == *kept => Ok(()),
            (None, None) => Ok(()),
            _ => Err(Difference::ReadBack),
        }
    }
}

/// Where the sides differ.
#[derive(Clone, Debug, PartialEq, Eq)]
pub enum Difference {
    /// In the number, or in what is handed out: the expected answer and the actual one.
    Answers(Box<[Answer; 2]>),
    /// In the state afterwards.
    States { expected: Vec<u8>, actual: Vec<u8> },
    /// The model reads the state's bytes as another module than the one it has kept.
    ReadBack,
}

impl fmt::Display for Difference {
    fn fmt(&self, out: &mut fmt::Formatter) -> fmt::Result {
        match self {
            Difference::Answers(answers) => {
                let [expected, actual] = &**answers;
                write!(out, "expected {expected}; actual {actual}")
            }
            Difference::States { expected, actual } if expected.len() != actual.len() => {
                write!(
                    out,
                    "the archive wrote outside of the state: {}",
                    Bytes(actual)
                )
            }
            Difference::States { expected, actual } => {
                write!(out, "the states differ afterwards")?;
                let differing = (0..expected.len()).filter(|at| expected[*at] != actual[*at]);
                for at in differing.take(8) {
                    let (expected, actual) = (expected[at], actual[at]);
                    write!(
                        out,
                        "; byte {at}: expected {expected:02x}, actual {actual:02x}"
                    )?;
                }
                Ok(())
            }
            Difference::ReadBack => write!(out, "the model reads another module from the bytes"),
        }
    }
}

#[cfg(test)]
mod tests {
    use super::*;

    #[test]
    fn a_pair_with_other_states_differs() {
        let open = |session| Call::Open { port: 1, session };
        let mut pair = Pair::of(&[0; layout::STATE_LENGTH]);
        assert!(pair.call(&open(0)).is_ok());
        assert_eq!(pair.read_back(), Ok(()));
        pair.archive = Archive::of(&[0; layout::STATE_LENGTH]);
        assert_eq!(pair.read_back(), Err(Difference::ReadBack));
        assert!(matches!(
            pair.call(&open(1)),
            Err(Difference::States { .. })
        ));
        assert!(matches!(pair.call(&open(0)), Err(Difference::Answers(_))));
    }
}
