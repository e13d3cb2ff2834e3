//! The entries of the archive as they are: numbers and byte slices in, one number out, 0 or that of a refusal.
//!
//! Every function takes every value. [`crate::Module`] has the same calls with types; these are for whoever has a state of their own to lend, or values
//! that may be wrong. A refusal leaves the state and every buffer as they were, but for the number of a user's claim that has passed its check, as
//! [`crate::UserClaim`] says.

/// A claim as numbers: the kind (0 a user's, 1 elevated) and what a user's claim carries. Of an elevated claim the last three are ignored.
#[derive(Clone, Copy, Debug, PartialEq, Eq)]
pub struct RawClaim {
    /// 0 a user's, 1 elevated.
    pub kind: u32,
    /// Whose record it is.
    pub credential: u32,
    /// The record's number.
    pub number: u16,
    /// The key unit's verdict: 0 no, 1 yes.
    pub verdict: u32,
}

impl RawClaim {
    /// An elevated claim; what it ignores is 0.
    pub const ELEVATED: RawClaim = RawClaim {
        kind: 1,
        credential: 0,
        number: 0,
        verdict: 0,
    };

    /// A user's claim with the verdict yes.
    pub const fn user(credential: u32, number: u16) -> RawClaim {
        RawClaim {
            kind: 0,
            credential,
            number,
            verdict: 1,
        }
    }
}

/// How many values the four functions for all messages take or hand out: those of the fields, and 0 for the others.
pub const MESSAGE_VALUES: usize = 7;

/// The kind of a version entry (Table 25).
pub const PIECE_VERSION: u32 = 0;
/// The kind of an Authorization process information (Table 46).
pub const PIECE_PROCESS: u32 = 1;
/// The kind of an owner, a header of DSP0293 with its bytes: a part of its own, or the beginning of a policy or of a reset element.
pub const PIECE_OWNER: u32 = 2;
/// The kind of what follows the owner in a policy (Table 4).
pub const PIECE_POLICY: u32 = 3;
/// The kind of what follows the owner in a reset element (Table 63).
pub const PIECE_RESET: u32 = 4;

/// One entry: the function around its declaration. The parameters are taken from the front, one after another: what C has for it goes to the first list,
/// what is handed over for it to the second. That is all that the entries ask for, and all that they touch.
macro_rules! function {
    ($entry:tt [$($declared:tt)*] [$($handed:tt)*] ($name:ident: &[$number:ty]) $($rest:tt)*) => {
        function! { $entry [$($declared)* _: *const $number, _: usize,] [$($handed)* $name.as_ptr(), $name.len(),] $($rest)* }
    };
    ($entry:tt [$($declared:tt)*] [$($handed:tt)*] ($name:ident: &mut [$number:ty]) $($rest:tt)*) => {
        function! { $entry [$($declared)* _: *mut $number, _: usize,] [$($handed)* $name.as_mut_ptr(), $name.len(),] $($rest)* }
    };
    ($entry:tt [$($declared:tt)*] [$($handed:tt)*] ($name:ident: &mut $number:ty) $($rest:tt)*) => {
        function! { $entry [$($declared)* _: *mut $number,] [$($handed)* $name,] $($rest)* }
    };
    ($entry:tt [$($declared:tt)*] [$($handed:tt)*] ($name:ident: RawClaim) $($rest:tt)*) => {
        function! {
            $entry
            [$($declared)* _: u32, _: u32, _: u16, _: u32,]
            [$($handed)* $name.kind, $name.credential, $name.number, $name.verdict,]
            $($rest)*
        }
    };
    ($entry:tt [$($declared:tt)*] [$($handed:tt)*] ($name:ident: $number:ty) $($rest:tt)*) => {
        function! { $entry [$($declared)* _: $number,] [$($handed)* $name,] $($rest)* }
    };
    ({ $(#[$doc:meta])* $symbol:ident $function:ident $parameters:tt } [$($declared:tt)*] [$($handed:tt)*]) => {
        $(#[$doc])*
        pub fn $function $parameters -> u32 {
            extern "C" {
                fn $symbol($($declared)*) -> u32;
            }
            unsafe { $symbol($($handed)*) }
        }
    };
}

macro_rules! functions {
    ($($group:ident { $($(#[$doc:meta])* $symbol:ident $function:ident $case:tt $([$($state:tt)+])? $(($($parameter:tt)+))*;)* })*) => {
        $($(function! {
            { $(#[$doc])* $symbol $function ($($($state)+,)? $($($parameter)+),*) }
            [] [] $(($($state)+))? $(($($parameter)+))*
        })*)*
    };
}

calls!(functions);
messages!(functions);
