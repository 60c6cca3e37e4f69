//! The engine's C entries, each slice a pointer and a length. All take a bucket in bytes here: where an entry takes numbers,
//! these are lent where they stand in the bytes, the host being little-endian.

extern "C" {
    fn knitpasture_serve(
        settings: *mut u8,
        settings_length: usize,
        rows: *mut u8,
        rows_length: usize,
        keys: *mut u8,
        keys_length: usize,
        line: *const u8,
        line_length: usize,
        answer: *mut u8,
        answer_length: usize,
    ) -> u64;
    fn knitpasture_serve_counted(
        settings: *mut u8,
        settings_length: usize,
        rows: *mut u8,
        rows_length: usize,
        keys: *mut u8,
        keys_length: usize,
        line: *const u8,
        line_length: usize,
        answer: *mut u8,
        answer_length: usize,
        comparisons: *mut u64,
    ) -> u64;
    fn knitpasture_serve_words(
        settings: *mut u8,
        settings_length: usize,
        rows: *mut u64,
        rows_count: usize,
        keys: *mut u8,
        keys_length: usize,
        line: *const u8,
        line_length: usize,
        answer: *mut u8,
        answer_length: usize,
    ) -> u64;
    fn knitpasture_serve_lent(
        settings: *mut u64,
        rows: *mut u64,
        rows_count: usize,
        keys: *mut u8,
        keys_length: usize,
        line: *const u8,
        line_length: usize,
        answer: *mut u8,
        answer_length: usize,
    ) -> u64;
    fn knitpasture_fresh(
        settings: *mut u8,
        settings_length: usize,
        rows: *mut u8,
        rows_length: usize,
        keys: *mut u8,
        keys_length: usize,
    ) -> u64;
    fn knitpasture_fresh_words(
        settings: *mut u8,
        settings_length: usize,
        rows: *mut u64,
        rows_count: usize,
        keys: *mut u8,
        keys_length: usize,
    ) -> u64;
    fn knitpasture_key(
        settings: *const u8,
        settings_length: usize,
        rows: *const u8,
        rows_length: usize,
        keys: *const u8,
        keys_length: usize,
        position: usize,
    ) -> usize;
}

/// The whole numbers that stand in bytes.
fn words(bytes: &mut [u8]) -> &mut [u64] {
    // SAFETY: any eight bytes are a number.
    let (before, words, after) = unsafe { bytes.align_to_mut() };
    assert!(before.is_empty() && after.is_empty(), "the bytes are whole numbers and aligned");
    words
}

/// Calls an entry with the pointer and the length of each slice, those of the bucket, and of a line and its answer, and with
/// the pointers of single numbers behind them.
macro_rules! call {
    ($entry:ident($($bucket:ident),*)) => {
        // SAFETY: each pointer comes with the length of the slice that it is taken from.
        unsafe { $entry($($bucket.as_mut_ptr(), $bucket.len()),*) }
    };
    ($entry:ident($($bucket:ident),*), $line:ident, $answer:ident $(, $number:ident)*) => {
        // SAFETY: as above, and each number is lent for the call.
        unsafe { $entry($($bucket.as_mut_ptr(), $bucket.len(),)* $line.as_ptr(), $line.len(), $answer.as_mut_ptr(), $answer.len() $(, $number)*) }
    };
}

pub fn serve(settings: &mut [u8], rows: &mut [u8], keys: &mut [u8], line: &[u8], answer: &mut [u8]) -> u64 {
    call!(knitpasture_serve(settings, rows, keys), line, answer)
}

pub fn serve_counted(
    settings: &mut [u8],
    rows: &mut [u8],
    keys: &mut [u8],
    line: &[u8],
    answer: &mut [u8],
    comparisons: &mut u64,
) -> u64 {
    call!(knitpasture_serve_counted(settings, rows, keys), line, answer, comparisons)
}

pub fn serve_words(
    settings: &mut [u8],
    rows: &mut [u8],
    keys: &mut [u8],
    line: &[u8],
    answer: &mut [u8],
) -> u64 {
    let rows = words(rows);
    call!(knitpasture_serve_words(settings, rows, keys), line, answer)
}

pub fn serve_lent(
    settings: &mut [u8],
    rows: &mut [u8],
    keys: &mut [u8],
    line: &[u8],
    answer: &mut [u8],
) -> u64 {
    assert_eq!(settings.len(), 688, "the struct's size");
    let (settings, rows) = (words(settings).as_mut_ptr(), words(rows));
    // SAFETY: as in `call`, and the settings are as long as the struct.
    unsafe {
        knitpasture_serve_lent(
            settings,
            rows.as_mut_ptr(),
            rows.len(),
            keys.as_mut_ptr(),
            keys.len(),
            line.as_ptr(),
            line.len(),
            answer.as_mut_ptr(),
            answer.len(),
        )
    }
}

pub fn fresh(settings: &mut [u8], rows: &mut [u8], keys: &mut [u8]) -> u64 {
    call!(knitpasture_fresh(settings, rows, keys))
}

pub fn fresh_words(settings: &mut [u8], rows: &mut [u8], keys: &mut [u8]) -> u64 {
    let rows = words(rows);
    call!(knitpasture_fresh_words(settings, rows, keys))
}

/// The key at a position, as a part of the key bytes.
pub fn key<'a>(settings: &[u8], rows: &[u8], keys: &'a [u8], position: usize) -> &'a [u8] {
    // SAFETY: as in `call`; nothing is written.
    let length = unsafe {
        knitpasture_key(
            settings.as_ptr(),
            settings.len(),
            rows.as_ptr(),
            rows.len(),
            keys.as_ptr(),
            keys.len(),
            position,
        )
    };
    if length == 0 {
        return &[];
    }
    &keys[64 * position + 1..][..length]
}
