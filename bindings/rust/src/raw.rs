//! The library's own functions. Each returns one number, (drawing * 256 + refusal) * 2^32 + count.

mod linked {
    extern "C" {
        pub fn holvreiz_code(
            drawing: *const u8,
            drawing_length: usize,
            output: *mut u8,
            output_length: usize,
        ) -> u64;
        pub fn holvreiz_decode(
            code: *const u8,
            code_length: usize,
            output: *mut u8,
            output_length: usize,
        ) -> u64;
        pub fn holvreiz_is_least(code: *const u8, code_length: usize) -> u64;
        pub fn holvreiz_compare(
            first: *const u8,
            first_length: usize,
            second: *const u8,
            second_length: usize,
        ) -> u64;
        pub fn holvreiz_match(
            pattern: *const u8,
            pattern_length: usize,
            drawing: *const u8,
            drawing_length: usize,
            output: *mut u8,
            output_length: usize,
        ) -> u64;
        pub fn holvreiz_same(
            first: *const u8,
            first_length: usize,
            second: *const u8,
            second_length: usize,
        ) -> u64;
        pub fn holvreiz_catalogue(
            survey: *const u8,
            survey_length: usize,
            threshold: u32,
            limit: u32,
            output: *mut u8,
            output_length: usize,
        ) -> u64;
        pub fn holvreiz_check_list(
            survey: *const u8,
            survey_length: usize,
            threshold: u32,
            limit: u32,
            list: *const u8,
            list_length: usize,
        ) -> u64;
        pub fn holvreiz_check_usual(
            survey: *const u8,
            survey_length: usize,
            list: *const u8,
            list_length: usize,
        ) -> u64;
        pub fn holvreiz_check_four(
            survey: *const u8,
            survey_length: usize,
            list: *const u8,
            list_length: usize,
        ) -> u64;
        pub fn holvreiz_book(a: u32, b: u32, limit: u32, output: *mut u8, length: usize) -> u64;
    }
}

// Every `unsafe` below is safe for one reason: a slice gives a pointer that is not null and the length that goes with it, a
// `&mut` slice overlaps no other, and the library is proved to stay within what it is given.

/// The least code of a drawing. Count: bytes written.
pub fn code(drawing: &[u8], output: &mut [u8]) -> u64 {
    unsafe {
        linked::holvreiz_code(
            drawing.as_ptr(),
            drawing.len(),
            output.as_mut_ptr(),
            output.len(),
        )
    }
}

/// The drawing that a code describes. Count: bytes written.
pub fn decode(code: &[u8], output: &mut [u8]) -> u64 {
    unsafe { linked::holvreiz_decode(code.as_ptr(), code.len(), output.as_mut_ptr(), output.len()) }
}

/// Whether a code is the least of the drawing that it describes, and in how many records it agrees with the least. Count: 256 * agreement + (1 yes,
/// 0 no).
pub fn is_least(code: &[u8]) -> u64 {
    unsafe { linked::holvreiz_is_least(code.as_ptr(), code.len()) }
}

/// Where the first of two codes comes, and in how many records they agree. Count: 256 * agreement + (0 equal, 1 before, 2 after).
pub fn compare(first: &[u8], second: &[u8]) -> u64 {
    unsafe { linked::holvreiz_compare(first.as_ptr(), first.len(), second.as_ptr(), second.len()) }
}

/// The least map of a pattern into a drawing. Count: devices of the pattern, 0 where it is not contained.
pub fn match_drawing(pattern: &[u8], drawing: &[u8], output: &mut [u8]) -> u64 {
    unsafe {
        linked::holvreiz_match(
            pattern.as_ptr(),
            pattern.len(),
            drawing.as_ptr(),
            drawing.len(),
            output.as_mut_ptr(),
            output.len(),
        )
    }
}

/// Whether two drawings are the same. Count: 1 yes, 0 no.
pub fn same(first: &[u8], second: &[u8]) -> u64 {
    unsafe { linked::holvreiz_same(first.as_ptr(), first.len(), second.as_ptr(), second.len()) }
}

/// The catalogue of a survey. Count: entries.
pub fn catalogue(survey: &[u8], threshold: u32, limit: u32, output: &mut [u8]) -> u64 {
    unsafe {
        linked::holvreiz_catalogue(
            survey.as_ptr(),
            survey.len(),
            threshold,
            limit,
            output.as_mut_ptr(),
            output.len(),
        )
    }
}

/// Whether a list is the catalogue of a survey. Count: 1 yes, 0 no.
pub fn check_list(survey: &[u8], threshold: u32, limit: u32, list: &[u8]) -> u64 {
    unsafe {
        linked::holvreiz_check_list(
            survey.as_ptr(),
            survey.len(),
            threshold,
            limit,
            list.as_ptr(),
            list.len(),
        )
    }
}

/// Whether a list is the usual catalogue of a survey. Count: 1 yes, 0 no.
pub fn check_usual(survey: &[u8], list: &[u8]) -> u64 {
    unsafe {
        linked::holvreiz_check_usual(survey.as_ptr(), survey.len(), list.as_ptr(), list.len())
    }
}

/// Whether a list is the catalogue of a survey that was usual before. Count: 1 yes, 0 no.
pub fn check_four(survey: &[u8], list: &[u8]) -> u64 {
    unsafe { linked::holvreiz_check_four(survey.as_ptr(), survey.len(), list.as_ptr(), list.len()) }
}

/// The book of all small patterns. Count: entries.
pub fn book(a: u32, b: u32, limit: u32, output: &mut [u8]) -> u64 {
    unsafe { linked::holvreiz_book(a, b, limit, output.as_mut_ptr(), output.len()) }
}
