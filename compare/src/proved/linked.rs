//! The proved library where it is linked into this package.

use super::PAGE_BYTES;

extern "C" {
    /// See knellnettle.h.
    fn knellnettle_page(sheet: *const u8, sheet_len: usize, page: *mut u8, page_len: usize) -> usize;
}

/// The page's length, or 0 where it does not fit.
pub fn page(sheet: &[u8], page: &mut [u8]) -> usize {
    // SAFETY: both areas are live slices of these lengths, `page` is borrowed mutably and so
    // shares no byte with `sheet`, and the function keeps neither pointer.
    unsafe { knellnettle_page(sheet.as_ptr(), sheet.len(), page.as_mut_ptr(), page.len()) }
}

/// Hands out the page of each sheet, an empty one where it does not fit.
pub fn pages(sheets: &[Vec<u8>], mut each: impl FnMut(usize, &[u8])) {
    let mut buffer = [0xaa; PAGE_BYTES];
    for (number, sheet) in sheets.iter().enumerate() {
        let length = page(sheet, &mut buffer);
        each(number, &buffer[..length]);
    }
}
