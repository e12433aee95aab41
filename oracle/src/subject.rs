//! The entries for a C host over sheets, where their libraries were linked (see build.rs): the one
//! under test, and that of the pages, which the bench times.

/// Plans a sheet into the output and returns the bytes written.
pub type PlanSheet = fn(&[u8], &mut [u8]) -> usize;

#[cfg(linked)]
mod entry {
    extern "C" {
        fn plan_sheet(
            sheet: *const u8,
            sheet_length: usize,
            output: *mut u8,
            output_length: usize,
        ) -> usize;
    }

    pub fn call(sheet: &[u8], output: &mut [u8]) -> usize {
        // SAFETY: both ranges are lent for the call, the output alone to be written.
        unsafe { plan_sheet(sheet.as_ptr(), sheet.len(), output.as_mut_ptr(), output.len()) }
    }
}

#[cfg(linked)]
pub const LINKED: Option<PlanSheet> = Some(entry::call);
#[cfg(not(linked))]
pub const LINKED: Option<PlanSheet> = None;

/// Plans a sheet onto pages and returns the answer's number.
#[cfg(pages_linked)]
pub fn pages(sheet: &[u8], pages: &mut [u8], answer: &mut [u32]) -> u32 {
    extern "C" {
        fn teluddru_pages(
            sheet: *const u8,
            sheet_length: usize,
            pages: *mut u8,
            pages_length: usize,
            answer: *mut u32,
            answer_length: usize,
        ) -> u32;
    }
    let (output, length) = (pages.as_mut_ptr(), pages.len());
    // SAFETY: all ranges are lent for the call, pages and answer alone to be written.
    unsafe {
        teluddru_pages(
            sheet.as_ptr(),
            sheet.len(),
            output,
            length,
            answer.as_mut_ptr(),
            answer.len(),
        )
    }
}
