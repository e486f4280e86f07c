//! The proved library, called through its C interface.
//!
//! On x86-64 the archive is linked into this package. On another machine it cannot be: there a small
//! x86-64 program is made of it, which the emulator of the Rattle kit runs (relay/relay.c).

#[cfg(target_arch = "x86_64")]
mod linked;
#[cfg(target_arch = "x86_64")]
use linked as side;

#[cfg(not(target_arch = "x86_64"))]
mod relayed;
#[cfg(not(target_arch = "x86_64"))]
use relayed as side;

/// A page buffer of this many bytes is never too short: `PAGE_MOST` of crates/report.
pub const PAGE_BYTES: usize = 21_504;

/// Whether the library runs under an emulator, so that its times say nothing.
pub const EMULATED: bool = cfg!(not(target_arch = "x86_64"));

/// Runs a sheet in the proved library and writes its page.
///
/// The result is the page, or `None` where the buffer is too short for it.
pub fn print<'a>(sheet: &[u8], page: &'a mut [u8]) -> Option<&'a [u8]> {
    let length = side::page(sheet, page);
    (length > 0).then(|| &page[..length])
}

/// Runs some sheets in the proved library and hands out each one's page; where a relay runs them,
/// this is faster than one after another.
pub fn print_all(sheets: &[Vec<u8>], mut each: impl FnMut(usize, Option<&[u8]>)) {
    side::pages(sheets, |number, page| each(number, (!page.is_empty()).then_some(page)));
}
