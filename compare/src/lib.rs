//! The calls of the proved static library, each behind a safe function over slices and numbers.
//!
//! Nothing checks these declarations against the proved source; `include/skrzypolot.h` has the same list for C.

/// The calls as a host in C sees them.
pub mod c {
    extern "C" {
        pub fn skrzypolot_read(
            text: *const u8,
            text_len: usize,
            block: *mut u8,
            block_len: usize,
            beside: *mut u32,
        ) -> u32;
        pub fn skrzypolot_margin(
            text: *const u8,
            text_len: usize,
            row: u32,
            margin: *mut i64,
        ) -> u32;
        pub fn skrzypolot_fresh(
            block: *const u8,
            block_len: usize,
            image: *mut u8,
            image_len: usize,
        ) -> u32;
        pub fn skrzypolot_step(
            block: *const u8,
            block_len: usize,
            image: *mut u8,
            image_len: usize,
            kind: u32,
            task: u32,
            resource: u32,
            subsystem: *mut u32,
            running: *mut u32,
            ended: *mut u32,
        ) -> u32;
        pub fn skrzypolot_line(
            block: *const u8,
            block_len: usize,
            image: *mut u8,
            image_len: usize,
            number: u32,
            line: *const u8,
            line_len: usize,
            out: *mut u8,
            out_len: usize,
            fill: *mut usize,
        ) -> u32;
    }
}

pub fn read(text: &[u8], block: &mut [u8], beside: &mut u32) -> u32 {
    // SAFETY: every pointer is that of a slice or a number that is lent for the call, with its own length.
    unsafe {
        c::skrzypolot_read(
            text.as_ptr(),
            text.len(),
            block.as_mut_ptr(),
            block.len(),
            beside,
        )
    }
}

pub fn margin(text: &[u8], row: u32, margin: &mut i64) -> u32 {
    // SAFETY: as above.
    unsafe { c::skrzypolot_margin(text.as_ptr(), text.len(), row, margin) }
}

pub fn fresh(block: &[u8], image: &mut [u8]) -> u32 {
    // SAFETY: as above.
    unsafe { c::skrzypolot_fresh(block.as_ptr(), block.len(), image.as_mut_ptr(), image.len()) }
}

#[allow(clippy::too_many_arguments)] // The list is that of the C call.
pub fn step(
    block: &[u8],
    image: &mut [u8],
    kind: u32,
    task: u32,
    resource: u32,
    subsystem: &mut u32,
    running: &mut u32,
    ended: &mut u32,
) -> u32 {
    // SAFETY: as above.
    unsafe {
        c::skrzypolot_step(
            block.as_ptr(),
            block.len(),
            image.as_mut_ptr(),
            image.len(),
            kind,
            task,
            resource,
            subsystem,
            running,
            ended,
        )
    }
}

pub fn line(
    block: &[u8],
    image: &mut [u8],
    number: u32,
    line: &[u8],
    out: &mut [u8],
    fill: &mut usize,
) -> u32 {
    // SAFETY: as above.
    unsafe {
        c::skrzypolot_line(
            block.as_ptr(),
            block.len(),
            image.as_mut_ptr(),
            image.len(),
            number,
            line.as_ptr(),
            line.len(),
            out.as_mut_ptr(),
            out.len(),
            fill,
        )
    }
}
