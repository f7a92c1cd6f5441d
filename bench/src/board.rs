//! The proved engine through its C interface: a slice passes as pointer and
//! length.

mod c {
    extern "C" {
        pub fn board_compose(
            capacities: *const u8,
            capacities_len: usize,
            relations: *const u8,
            relations_len: usize,
            out: *mut u8,
            out_len: usize,
        ) -> u64;

        pub fn board_check(image: *const u8, image_len: usize) -> u32;

        pub fn board_list(image: *const u8, image_len: usize, out: *mut u8, out_len: usize) -> u64;

        pub fn board_run(
            image: *const u8,
            image_len: usize,
            calls: *const u8,
            calls_len: usize,
            out: *mut u8,
            out_len: usize,
        ) -> u64;
    }
}

/// The image's length, or the refusal.
pub fn compose(capacities: &[u8], relations: &[u8], out: &mut [u8]) -> u64 {
    // SAFETY: each pair is one slice, and only `out` is written.
    unsafe {
        c::board_compose(
            capacities.as_ptr(),
            capacities.len(),
            relations.as_ptr(),
            relations.len(),
            out.as_mut_ptr(),
            out.len(),
        )
    }
}

/// 0, or the refusal.
pub fn check(image: &[u8]) -> u32 {
    // SAFETY: the pair is one slice, and nothing is written.
    unsafe { c::board_check(image.as_ptr(), image.len()) }
}

/// The number of bytes, or the refusal, or 0 where `out` is too short.
pub fn list(image: &[u8], out: &mut [u8]) -> u64 {
    // SAFETY: each pair is one slice, and only `out` is written.
    unsafe { c::board_list(image.as_ptr(), image.len(), out.as_mut_ptr(), out.len()) }
}

/// The number of bytes written, or 0.
pub fn run(image: &[u8], calls: &[u8], out: &mut [u8]) -> u64 {
    // SAFETY: each pair is one slice, and only `out` is written.
    unsafe {
        c::board_run(
            image.as_ptr(),
            image.len(),
            calls.as_ptr(),
            calls.len(),
            out.as_mut_ptr(),
            out.len(),
        )
    }
}
