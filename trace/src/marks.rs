//! The page of marks: a traced program stores to it where a case begins and where it ends. This module alone has code that the compiler does not check.

use std::ffi::c_void;
use std::io;

// tests/trace.c has the same three.

/// Where the page lies. A store to its first byte says that a case begins.
pub const BEGINS: u64 = 0x3000_0000;
/// A store to its second byte says that the case ends.
pub const ENDS: u64 = BEGINS + 1;
const SIZE: usize = 4096;

mod declared {
    use std::ffi::{c_int, c_void};

    extern "C" {
        pub fn mmap(
            address: *mut c_void,
            length: usize,
            protection: c_int,
            flags: c_int,
            file: c_int,
            offset: i64,
        ) -> *mut c_void;
    }

    // as Linux numbers them on x86-64 and on Arm
    pub const READ_WRITE: c_int = 1 | 2;
    pub const PRIVATE_ANONYMOUS_FIXED_NOREPLACE: c_int = 0x02 | 0x20 | 0x10_0000;
}

/// The page, mapped.
pub struct Marks(());

impl Marks {
    /// Maps the page where it has to lie; fails where something lies there already.
    pub fn map() -> io::Result<Marks> {
        let wanted = BEGINS as *mut c_void;
        // nothing of this program lies in what is mapped, since nothing is replaced
        let page = unsafe {
            declared::mmap(
                wanted,
                SIZE,
                declared::READ_WRITE,
                declared::PRIVATE_ANONYMOUS_FIXED_NOREPLACE,
                -1,
                0,
            )
        };
        if page == wanted {
            Ok(Marks(()))
        } else {
            Err(io::Error::last_os_error())
        }
    }

    /// Says that a case begins.
    #[inline(always)]
    pub fn begin(&self) {
        store(BEGINS);
    }

    /// Says that the case ends.
    #[inline(always)]
    pub fn end(&self) {
        store(ENDS);
    }
}

// Both are in the page, which stays mapped once there is a value of `Marks`.
#[inline(always)]
fn store(at: u64) {
    unsafe { (at as *mut u8).write_volatile(1) }
}
