// The proved library, called across C.

unsafe extern "C" {
    fn firmware_answer_lines(
        day: *const u8,
        day_length: usize,
        lines: *const u8,
        lines_length: usize,
        out: *mut u8,
        out_length: usize,
    ) -> isize;
}

// Answers lines over a day's records, and tells how many bytes at the front of `out` are printed; none where they do not fit.
pub fn answer_lines(day: &[u8], lines: &[u8], out: &mut [u8]) -> Option<usize> {
    // Sound, since each pointer and length are those of a slice, and only `out` is written, which no other slice shares.
    let length = unsafe {
        firmware_answer_lines(
            day.as_ptr(),
            day.len(),
            lines.as_ptr(),
            lines.len(),
            out.as_mut_ptr(),
            out.len(),
        )
    };
    usize::try_from(length).ok()
}
