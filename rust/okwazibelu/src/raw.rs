//! The library's four functions as they are: a refusal's number or 0, and up to seven figures behind their count.
//!
//! `figures[0]` is the count n, `figures[1..=n]` are the figures, entries past n keep what they held.

/// The count of figures and room for seven.
pub type Figures = [u64; 8];

mod ffi {
    unsafe extern "C" {
        pub fn okw_read_number(number: *const u8, number_len: usize, figures: *mut u64) -> u32;

        pub fn okw_select(
            pack: *const u8,
            pack_len: usize,
            number: *const u8,
            number_len: usize,
            figures: *mut u64,
        ) -> u32;

        pub fn okw_check(pack: *const u8, pack_len: usize, figures: *mut u64) -> u32;

        pub fn okw_print(
            symbols: *const u8,
            symbols_len: usize,
            pattern: *const u8,
            pattern_len: usize,
            number: *const u8,
            number_len: usize,
            out: *mut u8,
            out_len: usize,
            figures: *mut u64,
        ) -> u32;
    }
}

/// Reads a number: sign as 0 or 1, e, v, i, f, w, t.
pub fn read_number(number: &[u8], figures: &mut Figures) -> u32 {
    // SAFETY: `number` may be read for its length and `figures` written for eight words during the call, after which the library keeps neither.
    unsafe { ffi::okw_read_number(number.as_ptr(), number.len(), figures.as_mut_ptr()) }
}

/// Chooses the word of a number: 0 to 5 for zero, one, two, few, many, other.
pub fn select(pack: &[u8], number: &[u8], figures: &mut Figures) -> u32 {
    // SAFETY: `pack` and `number` may be read for their lengths and `figures` written for eight words during the call, after which the library keeps none of them.
    unsafe {
        ffi::okw_select(
            pack.as_ptr(),
            pack.len(),
            number.as_ptr(),
            number.len(),
            figures.as_mut_ptr(),
        )
    }
}

/// Checks a pack: no figures.
pub fn check(pack: &[u8], figures: &mut Figures) -> u32 {
    // SAFETY: `pack` may be read for its length and `figures` written for eight words during the call, after which the library keeps neither.
    unsafe { ffi::okw_check(pack.as_ptr(), pack.len(), figures.as_mut_ptr()) }
}

/// Prints a number at the front of `out`: the text's length.
pub fn print(
    symbols: &[u8],
    pattern: &[u8],
    number: &[u8],
    out: &mut [u8],
    figures: &mut Figures,
) -> u32 {
    // SAFETY: the three texts may be read for their lengths, `out` written for its own and `figures` for eight words during the call, after which the
    // library keeps none of them. `out` and `figures` are borrowed mutably, so nothing else overlaps them.
    unsafe {
        ffi::okw_print(
            symbols.as_ptr(),
            symbols.len(),
            pattern.as_ptr(),
            pattern.len(),
            number.as_ptr(),
            number.len(),
            out.as_mut_ptr(),
            out.len(),
            figures.as_mut_ptr(),
        )
    }
}
