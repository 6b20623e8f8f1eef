//! The proved checker, as safe functions. Nothing checks these declarations against the Rattle source: they follow
//! include/mengyubad.h. Sheets are of edition 1 to 3; another edition is refused with number 2. A call on a sheet may
//! take up to 768 KiB of stack (MENGYUBAD_STACK_BYTES), so a thread that calls should have more.

mod c {
    extern "C" {
        pub fn mengyubad_admit(
            sheet: *const u8,
            sheet_length: usize,
            work: *mut u32,
            work_words: usize,
            values: *mut [usize; 3],
        ) -> usize;
        pub fn mengyubad_find(
            sheet: *const u8,
            sheet_length: usize,
            work: *mut u32,
            work_words: usize,
            wanted: *const [u32; 5],
            values: *mut [usize; 3],
        ) -> usize;
        pub fn mengyubad_find_all(
            sheet: *const u8,
            sheet_length: usize,
            work: *mut u32,
            work_words: usize,
            wanted: *const u32,
            wanted_words: usize,
            answers: *mut u16,
            answer_words: usize,
            values: *mut [usize; 3],
        ) -> usize;
        pub fn mengyubad_withdraw(
            sheet: *const u8,
            sheet_length: usize,
            line: usize,
            work: *mut u32,
            work_words: usize,
            out: *mut u8,
            out_length: usize,
            values: *mut [usize; 3],
        ) -> usize;
        pub fn mengyubad_withdraw_set(
            sheet: *const u8,
            sheet_length: usize,
            lines: *const usize,
            count: usize,
            work: *mut u32,
            work_words: usize,
            out: *mut u8,
            out_length: usize,
            values: *mut [usize; 3],
        ) -> usize;
        pub fn mengyubad_convert(
            sheet: *const u8,
            sheet_length: usize,
            work: *mut u32,
            work_words: usize,
            out: *mut u8,
            out_length: usize,
            values: *mut [usize; 3],
        ) -> usize;
        pub fn mengyubad_normal(
            sheet: *const u8,
            sheet_length: usize,
            term: usize,
            work: *mut u32,
            work_words: usize,
            values: *mut [usize; 3],
        ) -> usize;
        pub fn mengyubad_day_number(date: *const [u32; 3], values: *mut [usize; 3]) -> usize;
        pub fn mengyubad_window(
            first: *const [u32; 3],
            last: *const [u32; 3],
            day: *const [u32; 3],
            values: *mut [usize; 3],
        ) -> usize;
    }
}

/// What a call answers: number 0 with its values, or the number of a refusal with its place as the first value.
#[derive(Clone, Copy, Debug, PartialEq, Eq)]
pub struct Answer {
    pub number: usize,
    pub values: [usize; 3],
}

/// Admits a sheet: the counts T, C, L.
pub fn admit(sheet: &[u8], work: &mut [u32]) -> Answer {
    let mut values = [0; 3];
    // SAFETY: the pointers and lengths are those of live slices that do not overlap, and the library keeps none of
    // them.
    let number = unsafe {
        c::mengyubad_admit(
            sheet.as_ptr(),
            sheet.len(),
            work.as_mut_ptr(),
            work.len(),
            &mut values,
        )
    };
    Answer { number, values }
}

/// Finds the line with form, 0 to 6, context, s1, s2, s3: of several the one of least height, and of those the one with
/// the highest number.
pub fn find(sheet: &[u8], work: &mut [u32], wanted: [u32; 5]) -> Answer {
    let mut values = [0; 3];
    // SAFETY: as in `admit`; `wanted` lives until the call returns.
    let number = unsafe {
        c::mengyubad_find(
            sheet.as_ptr(),
            sheet.len(),
            work.as_mut_ptr(),
            work.len(),
            &wanted,
            &mut values,
        )
    };
    Answer { number, values }
}

/// What a batch answers for a judgment that no line states.
pub const ABSENT: u16 = 65_535;

/// Finds each judgment of a list, five words for each as in `find`, and puts the lines, or `ABSENT`, in `answers`: the
/// number of judgments. Words that make no whole judgment do not count.
pub fn find_all(sheet: &[u8], work: &mut [u32], wanted: &[u32], answers: &mut [u16]) -> Answer {
    let mut values = [0; 3];
    // SAFETY: as in `admit`; `wanted` is only read, and `answers` is a slice of its own.
    let number = unsafe {
        c::mengyubad_find_all(
            sheet.as_ptr(),
            sheet.len(),
            work.as_mut_ptr(),
            work.len(),
            wanted.as_ptr(),
            wanted.len(),
            answers.as_mut_ptr(),
            answers.len(),
            &mut values,
        )
    };
    Answer { number, values }
}

/// Writes the sheet without a line to `out`: the new length.
pub fn withdraw(sheet: &[u8], line: usize, work: &mut [u32], out: &mut [u8]) -> Answer {
    let mut values = [0; 3];
    // SAFETY: as in `admit`; `out` is a slice of its own.
    let number = unsafe {
        c::mengyubad_withdraw(
            sheet.as_ptr(),
            sheet.len(),
            line,
            work.as_mut_ptr(),
            work.len(),
            out.as_mut_ptr(),
            out.len(),
            &mut values,
        )
    };
    Answer { number, values }
}

/// Writes the sheet without the listed lines, whose numbers rise strictly, to `out`: the new length.
pub fn withdraw_set(sheet: &[u8], lines: &[usize], work: &mut [u32], out: &mut [u8]) -> Answer {
    let mut values = [0; 3];
    // SAFETY: as in `withdraw`; `lines` is only read.
    let number = unsafe {
        c::mengyubad_withdraw_set(
            sheet.as_ptr(),
            sheet.len(),
            lines.as_ptr(),
            lines.len(),
            work.as_mut_ptr(),
            work.len(),
            out.as_mut_ptr(),
            out.len(),
            &mut values,
        )
    };
    Answer { number, values }
}

/// Writes the sheet, of edition 1 or 2, to `out` in edition 3: the length, which is the same.
pub fn convert(sheet: &[u8], work: &mut [u32], out: &mut [u8]) -> Answer {
    let mut values = [0; 3];
    // SAFETY: as in `withdraw`.
    let number = unsafe {
        c::mengyubad_convert(
            sheet.as_ptr(),
            sheet.len(),
            work.as_mut_ptr(),
            work.len(),
            out.as_mut_ptr(),
            out.len(),
            &mut values,
        )
    };
    Answer { number, values }
}

/// Whether a term is normal: 1 or 0.
pub fn normal(sheet: &[u8], term: usize, work: &mut [u32]) -> Answer {
    let mut values = [0; 3];
    // SAFETY: as in `admit`.
    let number = unsafe {
        c::mengyubad_normal(
            sheet.as_ptr(),
            sheet.len(),
            term,
            work.as_mut_ptr(),
            work.len(),
            &mut values,
        )
    };
    Answer { number, values }
}

/// The day number of a date: year, month, day.
pub fn day_number(date: [u32; 3]) -> Answer {
    let mut values = [0; 3];
    // SAFETY: both arrays live until the call returns, and the library keeps neither.
    let number = unsafe { c::mengyubad_day_number(&date, &mut values) };
    Answer { number, values }
}

/// Whether the window from `first` to `last` is open on a day: 1 or 0.
pub fn window(first: [u32; 3], last: [u32; 3], day: [u32; 3]) -> Answer {
    let mut values = [0; 3];
    // SAFETY: as in `day_number`; the arrays do not overlap.
    let number = unsafe { c::mengyubad_window(&first, &last, &day, &mut values) };
    Answer { number, values }
}
