//! The signatures of the entries, once. The functions of [`entries`](crate::entries) and what they declare come from the lines below, [`Call`](crate::Call) with its
//! names and its printing, the comparison's calls of its model, and the console's reading of a call. tests/signatures.rs holds the header and the module's sources to them.
//!
//! A line is an entry's symbol, the function around it, the case of `Call`, and the parameters in their order:
//!
//! | Parameter | In C |
//! |---|---|
//! | `[state: &mut [u8]]`, or `&[u8]` where it is only read: the lent state | its pointer and its length |
//! | `(session: u32)`: a number | the number |
//! | `(name: &[u8])`: a slice; `(response: &mut [u8])`: one that is written to | its pointer and its length |
//! | `(length: &mut usize)`: a number that is handed out | a pointer |
//! | `(claim: RawClaim)`: a claim | its four numbers: kind, credential, number, verdict |
//!
//! `calls!(take)` and `messages!(take)` hand their lines to the macro `take`, whose pattern is always that of [`SIGNATURES`].

/// The lines of the entries that are cases of [`Call`](crate::Call), in the order of docs/ENTRIES.md: first those that take a state.
#[macro_export]
#[doc(hidden)]
macro_rules! calls {
    ($take:ident) => {
        $take! {
            module {
                /// Makes a fresh module of eight credentials; the state's old bytes don't matter.
                slavotuk_fresh fresh Fresh [state: &mut [u8]] (provisioned: &[u8]) (words: &[u32]) (seconds: &[u32]);
                /// Asks whether a slice holds a state: 0 where it does, 1 where not.
                slavotuk_holds holds Holds [state: &[u8]];
            }
            sessions {
                /// Opens a session.
                slavotuk_open open Open [state: &mut [u8]] (port: u32) (session: u32);
                /// Closes a session: its active processes are removed.
                slavotuk_close close Close [state: &mut [u8]] (port: u32) (session: u32);
                /// Removes a session's elevation.
                slavotuk_drop drop Drop [state: &mut [u8]] (port: u32) (session: u32);
                /// Chooses a session's version.
                slavotuk_select select Select [state: &mut [u8]] (port: u32) (session: u32) (version: u32);
                /// Starts a user process.
                slavotuk_start start Start [state: &mut [u8]] (port: u32) (session: u32) (credential: u32) (name: &[u8]);
                /// Takes a saved process up again.
                slavotuk_continue continue_saved Continue [state: &mut [u8]] (port: u32) (session: u32) (credential: u32) (name: &[u8]);
                /// Starts an elevation.
                slavotuk_elevate elevate Elevate [state: &mut [u8]] (port: u32) (session: u32) (credential: u32) (name: &[u8]) (verdict: u32);
                /// Ends a user process under its own claim: it is saved where `keep` is 1, and removed where it is 0.
                slavotuk_end end End [state: &mut [u8]] (port: u32) (session: u32) (credential: u32) (number: u16) (verdict: u32) (keep: u32);
                /// One record of a device operation.
                slavotuk_record record Record [state: &mut [u8]] (port: u32) (session: u32) (claim: RawClaim) (class: u32);
                /// Writes the listing of the wanted credential's processes (65535 for all) to the front of the response. `length` becomes the message's length, 0 on a
                /// refusal.
                slavotuk_list list List [state: &mut [u8]] (port: u32) (session: u32) (claim: RawClaim) (wanted: u32) (response: &mut [u8]) (length: &mut usize);
                /// Removes the process of that name.
                slavotuk_kill kill Kill [state: &mut [u8]] (port: u32) (session: u32) (claim: RawClaim) (name: &[u8]);
                /// Sets both words of a credential.
                slavotuk_set_word set_word SetWord [state: &mut [u8]] (port: u32) (session: u32) (claim: RawClaim) (target: u32) (word: u32) (second: u32);
            }
            power {
                /// Writes the image of the module to the front of the buffer. `length` becomes the image's length, 0 on a refusal.
                slavotuk_image image Image [state: &[u8]] (image: &mut [u8]) (length: &mut usize);
                /// Makes a module from an image; the state's old bytes don't matter.
                slavotuk_restore restore Restore [state: &mut [u8]] (image: &[u8]);
                /// Writes what can be rescued of a damaged image to the front of the buffer: an image in the layout of the bytes. `length` becomes its length, 0 on a
                /// refusal. Where the number is 0, it hands out how many words that were not zero were cleared, how many rows were kept, and of the stated rows those
                /// dropped: bit i for row i, from 0. It takes no state.
                slavotuk_rescue rescue Rescue (bytes: &[u8]) (image: &mut [u8]) (length: &mut usize) (cleared: &mut u16) (kept: &mut u16) (dropped: &mut u16);
            }
            listing {
                /// Reads GET_AUTH_PROCESSES: the wanted credential is handed out where the number is 0.
                slavotuk_read_request read_request ReadRequest (message: &[u8]) (credential: &mut u16);
                /// Writes GET_AUTH_PROCESSES to the first 4 bytes of the buffer.
                slavotuk_write_request write_request WriteRequest (buffer: &mut [u8]) (credential: u16);
                /// Reads the count of AUTH_PROCESSES, handed out where the number is 0.
                slavotuk_read_count read_count ReadCount (message: &[u8]) (count: &mut u16);
                /// Reads a row of AUTH_PROCESSES; its three parts are handed out where the number is 0. The name's slice has 48 bytes.
                slavotuk_read_row read_row ReadRow (message: &[u8]) (at: usize) (credential: &mut u16) (kind: &mut u8) (name: &mut [u8]);
            }
        }
    };
}

/// The lines of the others, which have no case: `_` stands at its place.
macro_rules! messages {
    ($take:ident) => {
        $take! {
            version {
                /// The version of the archive: major * 65536 + minor * 256 + patch.
                slavotuk_version version _;
            }
            messages {
                /// Reads a message of 004 clause 9.2: where the number is 0, the values of its fields are handed out, and the place where what follows them begins.
                slavotuk_read_message read_message _ (message: &[u8]) (values: &mut [u64]) (rest: &mut usize);
                /// Writes a message of 004 clause 9.2 to the front of the buffer: its length is handed out where the number is 0.
                slavotuk_write_message write_message _ (buffer: &mut [u8]) (code: u32) (values: &[u64]) (rest: &[u8]) (written: &mut usize);
                /// Reads the piece of a list at the front of the bytes: where the number is 0, the values of its fields are handed out, and the places where what follows
                /// them begins and where the piece ends.
                slavotuk_read_piece read_piece _ (bytes: &[u8]) (kind: u32) (values: &mut [u64]) (rest: &mut usize) (next: &mut usize);
                /// Writes a piece of a list to the front of the buffer: its length is handed out where the number is 0.
                slavotuk_write_piece write_piece _ (buffer: &mut [u8]) (kind: u32) (values: &[u64]) (rest: &[u8]) (written: &mut usize);
            }
        }
    };
}
/// What an entry gets for a parameter of that type that a call keeps.
#[macro_export]
#[doc(hidden)]
macro_rules! given {
    ($name:ident: &[$number:ty]) => {
        $name
    };
    ($name:ident: &mut [u8]) => {
        $name.as_mut()
    };
    ($name:ident: &mut $number:ty) => {
        $name
    };
    ($name:ident: $number:ty) => {
        *$name
    };
}

/// The first of these; the others only say how often it is to stand there.
#[macro_export]
#[doc(hidden)]
macro_rules! first {
    ($first:expr, $($others:tt)*) => {
        $first
    };
}

/// An entry's signature as text.
#[derive(Clone, Copy, Debug)]
pub struct Signature {
    /// The name that it is linked by.
    pub symbol: &'static str,
    /// Its parameters in their order, each as its name and its type in Rust's words. Where blanks stand in a type is not said.
    pub parameters: &'static [&'static str],
}

macro_rules! texts {
    ($($group:ident { $($(#[$doc:meta])* $symbol:ident $function:ident $case:tt $([$($state:tt)+])? $(($($parameter:tt)+))*;)* })*) => {
        &[$($(Signature {
            symbol: stringify!($symbol),
            parameters: &[$(stringify!($($state)+),)? $(stringify!($($parameter)+)),*],
        }),*),*]
    };
}

/// The signatures of all entries: those of [`Call`](crate::Call), and the others.
pub const SIGNATURES: [&[Signature]; 2] = [calls!(texts), messages!(texts)];
