//! The boundary: the proved receiver and its need in their C form, and a safe function over each.

#![allow(unsafe_code)]

#[cfg(not(stub))]
mod library {
    #[link(name = "ack", kind = "static")]
    unsafe extern "C" {
        /// The refusal's number times 2^32, plus the length.
        pub fn bluffcradle_acknowledge(
            transmission: *const u8,
            transmission_length: usize,
            pack: *const u8,
            pack_length: usize,
            date: *const u8,
            date_length: usize,
            name: *const u8,
            name_length: usize,
            out: *mut u8,
            out_length: usize,
        ) -> u64;

        /// The refusal's number times 2^32, plus the length of the file that would be written.
        pub fn bluffcradle_need(
            transmission: *const u8,
            transmission_length: usize,
            pack: *const u8,
            pack_length: usize,
            date: *const u8,
            date_length: usize,
            name: *const u8,
            name_length: usize,
        ) -> u64;
    }
}

/// The answer of the proved receiver.
#[cfg(not(stub))]
pub fn acknowledge(transmission: &[u8], pack: &[u8], date: &[u8], name: &[u8], out: &mut [u8]) -> u64 {
    // SAFETY: each pointer comes with the length of the slice that it was taken from, and the output alone is mutable.
    unsafe {
        library::bluffcradle_acknowledge(
            transmission.as_ptr(),
            transmission.len(),
            pack.as_ptr(),
            pack.len(),
            date.as_ptr(),
            date.len(),
            name.as_ptr(),
            name.len(),
            out.as_mut_ptr(),
            out.len(),
        )
    }
}

/// The need of the proved receiver.
#[cfg(not(stub))]
pub fn need(transmission: &[u8], pack: &[u8], date: &[u8], name: &[u8]) -> u64 {
    // SAFETY: each pointer comes with the length of the slice that it was taken from, and none is mutable.
    unsafe {
        library::bluffcradle_need(
            transmission.as_ptr(),
            transmission.len(),
            pack.as_ptr(),
            pack.len(),
            date.as_ptr(),
            date.len(),
            name.as_ptr(),
            name.len(),
        )
    }
}

/// Without the library (`--cfg stub`) the independent receiver stands on both sides.
#[cfg(stub)]
pub fn acknowledge(transmission: &[u8], pack: &[u8], date: &[u8], name: &[u8], out: &mut [u8]) -> u64 {
    crate::independent(transmission, pack, date, name, out)
}

#[cfg(stub)]
pub fn need(transmission: &[u8], pack: &[u8], date: &[u8], name: &[u8]) -> u64 {
    crate::independent_need(transmission, pack, date, name)
}
