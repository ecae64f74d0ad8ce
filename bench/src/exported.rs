//! The scorer that libembed.a exports; embed/cibraduc.h says what it does.

#[repr(C)]
#[derive(Clone, Copy, PartialEq, Eq, Debug)]
pub struct Answer {
    pub length: usize,
    pub place: usize,
    pub fault: u8,
    pub winner: u8,
}

extern "C" {
    fn cibraduc_sheet(
        log: *const u8,
        log_length: usize,
        sheet: *mut u8,
        sheet_length: usize,
    ) -> Answer;
}

/// Writes the sheet of a log over the first of the lent bytes.
pub fn sheet(log: &[u8], lent: &mut [u8]) -> Answer {
    // Safe: both are slices, so neither pointer is null and they do not overlap.
    unsafe { cibraduc_sheet(log.as_ptr(), log.len(), lent.as_mut_ptr(), lent.len()) }
}
