//! What the session takes from the world: its clock, and bytes to count.

use std::sync::atomic::{AtomicU64, Ordering};
use std::time::{Duration, SystemTime};

// Seconds since 1970 at which every session opens.
const OPENED: u64 = 1_000_000_000;

static CLOCK: AtomicU64 = AtomicU64::new(0);

#[repr(C)]
pub struct Timespec {
    seconds: i64,
    nanoseconds: i64,
}

/// The text's clock is `std::time::SystemTime`, and the library reads that by this function of the C library. Defined
/// here it comes before the C library's, so neither the text nor the library is changed.
#[no_mangle]
pub unsafe extern "C" fn clock_gettime(_clock: i32, at: *mut Timespec) -> i32 {
    let milliseconds = CLOCK.load(Ordering::SeqCst);
    (*at).seconds = (OPENED + milliseconds / 1000) as i64;
    (*at).nanoseconds = (milliseconds % 1000 * 1_000_000) as i64;
    0
}

/// Milliseconds since the session opened. Opening itself is done at 0.
pub fn set_clock(milliseconds: u64) {
    CLOCK.store(milliseconds, Ordering::SeqCst);
}

/// The clock obeys, to the millisecond.
pub fn self_test() {
    set_clock(0);
    let opened = SystemTime::now();
    for ms in &[0, 1, 999, 1000, 4294967295, 7] {
        set_clock(*ms);
        assert_eq!(opened.elapsed().unwrap(), Duration::from_millis(*ms));
    }
}

extern "C" {
    fn mmap(at: *mut u8, length: usize, protection: i32, flags: i32, file: i32, offset: i64) -> *mut u8;
}

/// 4,294,967,295 bytes that can be read and take no memory (a private mapping of no file, for reading, not reserved):
/// a count of bytes is a part of them, so that it enters the text by `bytes.len()`, as any count does.
pub fn all_bytes() -> &'static [u8] {
    let length = 4294967295;
    unsafe {
        let at = mmap(0 as *mut u8, length, 1, 0x2 | 0x20 | 0x4000, -1, 0);
        assert!(at as isize != -1, "4 GiB of addresses are not to be had");
        ::std::slice::from_raw_parts(at, length)
    }
}
