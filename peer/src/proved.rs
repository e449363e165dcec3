//! The proved check, by its C symbol.

#![allow(unsafe_code)]

mod symbols {
    extern "C" {
        pub fn check(
            theory: u8,
            case: *const u8,
            case_len: usize,
            log: *const u8,
            log_len: usize,
            report: *mut u8,
            report_len: usize,
        ) -> usize;
    }
}

/// As [`crate::check`].
pub fn check(theory: u8, case: &[u8], log: &[u8], report: &mut [u8]) -> usize {
    // SAFETY: the three pointers are those of slices, each with its length, which are borrowed for the
    // call; the check asks nothing else of its arguments.
    unsafe {
        symbols::check(
            theory,
            case.as_ptr(),
            case.len(),
            log.as_ptr(),
            log.len(),
            report.as_mut_ptr(),
            report.len(),
        )
    }
}
