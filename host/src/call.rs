//! A call as a value.

use crate::entries::{self, RawClaim};
use std::fmt;

/// The name of an entry: its symbol without what all begin with.
const fn name_of(symbol: &'static str) -> &'static str {
    let [b's', b'l', b'a', b'v', b'o', b't', b'u', b'k', b'_', name @ ..] = symbol.as_bytes()
    else {
        panic!("every symbol begins with slavotuk_");
    };
    match std::str::from_utf8(name) {
        Ok(name) => name,
        Err(_) => panic!("a symbol is ASCII"),
    }
}

/// The type in which a call keeps a parameter of that type.
macro_rules! kept {
    ($buffer:ident &[$number:ty]) => { Vec<$number> };
    ($buffer:ident &mut [u8]) => { $buffer };
    ($buffer:ident &mut $number:ty) => { $number };
    ($buffer:ident $number:ty) => { $number };
}

/// Prints a parameter behind its name; a claim says itself what it is. What is read bit by bit is printed in hexadecimal, and so is what is handed out.
macro_rules! printed {
    ($f:ident $value:ident claim: RawClaim) => {
        write!($f, " {}", $value)
    };
    ($f:ident $value:ident version: u32) => {
        write!($f, " version {:#x}", $value)
    };
    ($f:ident $value:ident word: u32) => {
        write!($f, " word {:#x}", $value)
    };
    ($f:ident $value:ident second: u32) => {
        write!($f, " second {:#x}", $value)
    };
    ($f:ident $value:ident $name:ident: &[u32]) => {
        write!($f, " {} {:x?}", stringify!($name), $value)
    };
    ($f:ident $value:ident $name:ident: &[u8]) => {
        write!($f, " {} {}", stringify!($name), Bytes($value))
    };
    ($f:ident $value:ident $name:ident: &mut [u8]) => {
        write!($f, " {} {}", stringify!($name), Bytes($value.as_ref()))
    };
    ($f:ident $value:ident $name:ident: &mut $number:ty) => {
        write!($f, " {} {:#x}", stringify!($name), $value)
    };
    ($f:ident $value:ident $name:ident: $number:ty) => {
        write!($f, " {} {}", stringify!($name), $value)
    };
}

/// Prints a parameter that an entry writes to, and no other.
macro_rules! printed_where_handed_out {
    ($f:ident $value:ident $name:ident: &mut $($type:tt)+) => { printed!($f $value $name: &mut $($type)+) };
    ($f:ident $value:ident $name:ident: $($type:tt)+) => { { let _ = $value; Ok(()) } };
}

macro_rules! call {
    ($($group:ident { $($(#[$doc:meta])* $symbol:ident $function:ident $case:ident $([$($state:tt)+])? $(($name:ident: $($type:tt)+))*;)* })*) => {
        /// A call of one of the entries, with numbers that may be wrong: it is for the module to answer them. It can be read, kept, made again, changed and printed. The
        /// entries for all messages of 004 clause 9.2 are not among them: they have [`Message`](crate::message::Message).
        ///
        /// Each case is named after its entry, and its fields are the entry's parameters after the state. What an entry writes to is a part of the call: before it is made, what stands there; afterwards,
        /// what it has left there. `B` is the buffer of those that are slices.
        ///
        /// ```
        /// use slavotuk::entries::RawClaim;
        /// use slavotuk::{Call, Refusal, STATE_LENGTH};
        ///
        /// let mut state = [0; STATE_LENGTH];
        /// let mut provisioned = vec![0; 8];
        /// provisioned[1] = 1;
        /// let mut call: Call = Call::Fresh { provisioned, words: vec![16; 8], seconds: vec![0; 8] };
        /// assert_eq!(call.make(&mut state), 0);
        ///
        /// let mut call: Call = Call::Open { port: 1, session: 4 };
        /// assert_eq!(call.to_string(), "open port 1 session 4");
        /// assert_eq!(call.make(&mut state), Refusal::Argument.number());
        ///
        /// let claim = RawClaim { kind: 0, credential: 1, number: 0, verdict: 1 };
        /// let mut call = Call::List { port: 0, session: 0, claim, wanted: 65535, response: vec![0xaa; 4], length: 9 };
        /// assert_eq!(call.make(&mut state), Refusal::Session.number());
        /// assert_eq!(call, Call::List { port: 0, session: 0, claim, wanted: 65535, response: vec![0xaa; 4], length: 0 });
        /// assert_eq!(call.handed_out(), " response (4 bytes aa*4) length 0x0");
        ///
        /// let call: Call = Call::SetWord { port: 1, session: 0, claim: RawClaim::ELEVATED, target: 1, word: 0x30, second: 0x20 };
        /// assert_eq!(call.to_string(), "set_word port 1 session 0 elevated target 1 word 0x30 second 0x20");
        /// ```
        // the fields have the parameters' names
        #[allow(missing_docs)]
        pub enum Call<B = Vec<u8>> {
            $($(
                #[doc = concat!("[`entries::", stringify!($function), "`].")]
                $case { $($name: kept!(B $($type)+)),* },
            )*)*
        }

        // The four that follow can't be derived: the types of the fields are macros.

        impl<B: Clone> Clone for Call<B> {
            fn clone(&self) -> Self {
                match self {
                    $($(Call::$case { $($name),* } => Call::$case { $($name: Clone::clone($name)),* },)*)*
                }
            }
        }

        impl<B: fmt::Debug> fmt::Debug for Call<B> {
            fn fmt(&self, f: &mut fmt::Formatter<'_>) -> fmt::Result {
                match self {
                    $($(Call::$case { $($name),* } => f.debug_struct(stringify!($case))$(.field(stringify!($name), $name))*.finish(),)*)*
                }
            }
        }

        impl<B: PartialEq> PartialEq for Call<B> {
            fn eq(&self, other: &Self) -> bool {
                match self {
                    $($(Call::$case { $($name),* } => {
                        let own = (stringify!($case), $($name),*);
                        matches!(other, Call::$case { $($name),* } if own == (stringify!($case), $($name),*))
                    })*)*
                }
            }
        }

        impl<B: Eq> Eq for Call<B> {}

        impl<B: AsMut<[u8]>> Call<B> {
            /// Makes the call on this state, and answers with its number. Those that take no state leave it alone.
            pub fn make(&mut self, state: &mut [u8]) -> u32 {
                match self {
                    $($(Call::$case { $($name),* } => entries::$function($(first!(state, $($state)+),)? $(given!($name: $($type)+)),*),)*)*
                }
            }
        }

        impl<B> Call<B> {
            /// The entries' names, in the order of docs/ENTRIES.md: first those that take a state.
            pub const ENTRIES: &'static [&'static str] = &[$($(name_of(stringify!($symbol)),)*)*];

            /// The place of its entry among [`Call::ENTRIES`].
            pub fn entry(&self) -> usize {
                enum Place {
                    $($($case,)*)*
                }
                match self {
                    $($(Call::$case { .. } => Place::$case as usize,)*)*
                }
            }
        }

        impl<B: AsRef<[u8]>> Call<B> {
            fn print_handed_out(&self, f: &mut impl fmt::Write) -> fmt::Result {
                match self {
                    $($(Call::$case { $($name),* } => { $(printed_where_handed_out!(f $name $name: $($type)+)?;)* })*)*
                }
                Ok(())
            }

            /// What the entry writes to, its parameters by name, as they stand now.
            pub fn handed_out(&self) -> String {
                let mut text = String::new();
                // a string takes everything
                let _ = self.print_handed_out(&mut text);
                text
            }
        }

        /// The call on one line, its fields by name; bytes as [`Bytes`].
        impl<B: AsRef<[u8]>> fmt::Display for Call<B> {
            fn fmt(&self, f: &mut fmt::Formatter<'_>) -> fmt::Result {
                f.write_str(Call::<B>::ENTRIES[self.entry()])?;
                match self {
                    $($(Call::$case { $($name),* } => { $(printed!(f $name $name: $($type)+)?;)* })*)*
                }
                Ok(())
            }
        }
    };
}

calls!(call);

impl fmt::Display for RawClaim {
    fn fmt(&self, f: &mut fmt::Formatter<'_>) -> fmt::Result {
        let RawClaim {
            kind,
            credential,
            number,
            verdict,
        } = self;
        match kind {
            0 => write!(f, "user")?,
            1 => return write!(f, "elevated"),
            _ => write!(f, "kind {kind}")?,
        }
        write!(
            f,
            " credential {credential} number {number} verdict {verdict}"
        )
    }
}

/// Bytes, printed as their count and runs of equal ones.
///
/// ```
/// assert_eq!(slavotuk::Bytes(&[0, 0, 0, 0x11, 0x12, 0x12]).to_string(), "(6 bytes 00*3 11 12*2)");
/// assert_eq!(slavotuk::Bytes(&[]).to_string(), "(0 bytes)");
/// ```
#[derive(Clone, Copy, Debug)]
pub struct Bytes<'a>(
    /// The bytes.
    pub &'a [u8],
);

/// A message may have megabytes, and so many runs say enough of it.
const PRINTED_RUNS: usize = 1_000;

impl fmt::Display for Bytes<'_> {
    fn fmt(&self, f: &mut fmt::Formatter<'_>) -> fmt::Result {
        write!(f, "({} bytes", self.0.len())?;
        let mut rest = self.0;
        for _ in 0..PRINTED_RUNS {
            let Some(first) = rest.first() else { break };
            let run = rest.iter().take_while(|byte| *byte == first).count();
            match run {
                1 => write!(f, " {first:02x}")?,
                _ => write!(f, " {first:02x}*{run}")?,
            }
            rest = &rest[run..];
        }
        let end = if rest.is_empty() { ")" } else { " ..)" };
        write!(f, "{end}")
    }
}
