//! The check of `peer` under the C symbol of the proved one.

use std::slice;

/// # Safety
/// Each pointer is one to that many bytes, and no other use of the report goes on.
#[no_mangle]
pub unsafe extern "C" fn check(
    theory: u8,
    case: *const u8,
    case_len: usize,
    log: *const u8,
    log_len: usize,
    report: *mut u8,
    report_len: usize,
) -> usize {
    let case = slice::from_raw_parts(case, case_len);
    let log = slice::from_raw_parts(log, log_len);
    let report = slice::from_raw_parts_mut(report, report_len);
    let length = peer::check(theory, case, log, report);
    if cfg!(feature = "faulty") && report.starts_with(b"refused 31") {
        report[length] = 0;
    }
    length
}
