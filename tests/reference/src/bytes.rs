//! Bytes by eights and by sixteens: what reading, searching and printing are built from.

/// Eight bytes from a place on as a number, the first of them the lowest.
#[inline(always)]
pub fn word(bytes: &[u8], at: usize) -> u64 {
    let mut eight = [0; 8];
    eight.copy_from_slice(&bytes[at..at + 8]);
    u64::from_le_bytes(eight)
}

/// A number of eight bytes that all are the given one.
pub const fn each(byte: u8) -> u64 {
    0x0101_0101_0101_0101 * byte as u64
}

/// Sixteen bytes at once.
#[cfg(target_arch = "x86_64")]
mod sixteen {
    #![allow(unsafe_code)]
    use std::arch::x86_64::*;

    #[inline(always)]
    fn load(bytes: &[u8], at: usize) -> __m128i {
        let bytes = &bytes[at..at + 16];
        // SAFETY: each x86-64 processor has SSE2, and the part that is read has 16 bytes, which need no alignment here.
        unsafe { _mm_loadu_si128(bytes.as_ptr().cast()) }
    }

    #[inline(always)]
    pub fn marks(bytes: &[u8], at: usize, byte: u8) -> u64 {
        let sixteen = load(bytes, at);
        // SAFETY: each x86-64 processor has SSE2; nothing is read or written.
        let marks = unsafe { _mm_movemask_epi8(_mm_cmpeq_epi8(sixteen, _mm_set1_epi8(byte as i8))) };
        u64::from(marks as u16)
    }

    /// As signed numbers, key bytes are those above 0x20 but for 0x7F.
    #[inline(always)]
    pub fn key_bytes(bytes: &[u8], at: usize) -> u64 {
        let sixteen = load(bytes, at);
        // SAFETY: each x86-64 processor has SSE2; nothing is read or written.
        let marks = unsafe {
            let above = _mm_cmpgt_epi8(sixteen, _mm_set1_epi8(0x20));
            let last = _mm_cmpeq_epi8(sixteen, _mm_set1_epi8(0x7F));
            _mm_movemask_epi8(_mm_andnot_si128(last, above))
        };
        u64::from(marks as u16)
    }

    #[inline(always)]
    pub fn same_64(one: &[u8; 64], other: &[u8; 64]) -> bool {
        // SAFETY: each x86-64 processor has SSE2; nothing is read or written.
        let same = |at| unsafe { _mm_cmpeq_epi8(load(one, at), load(other, at)) };
        let (first, second, third, fourth) = (same(0), same(16), same(32), same(48));
        // SAFETY: as before.
        let marks = unsafe {
            _mm_movemask_epi8(_mm_and_si128(_mm_and_si128(first, second), _mm_and_si128(third, fourth)))
        };
        marks == 0xFFFF
    }
}

/// Sixteen bytes one by one.
#[cfg(not(target_arch = "x86_64"))]
mod sixteen {
    fn each(bytes: &[u8], at: usize, test: impl Fn(u8) -> bool) -> u64 {
        let sixteen = bytes[at..at + 16].iter().enumerate();
        sixteen.fold(0, |marks, (place, &byte)| marks | u64::from(test(byte)) << place)
    }

    pub fn marks(bytes: &[u8], at: usize, byte: u8) -> u64 {
        each(bytes, at, |found| found == byte)
    }

    pub fn key_bytes(bytes: &[u8], at: usize) -> u64 {
        each(bytes, at, |byte| (0x21..=0x7E).contains(&byte))
    }

    pub fn same_64(one: &[u8; 64], other: &[u8; 64]) -> bool {
        one == other
    }
}

/// A bit for each of 16 bytes that is a key byte, the first byte's the lowest; and whether 64 bytes are the same.
pub use sixteen::{key_bytes, same_64};

#[inline(always)]
fn marks_of_32(bytes: &[u8], at: usize, byte: u8) -> u64 {
    sixteen::marks(bytes, at, byte) | sixteen::marks(bytes, at + 16, byte) << 16
}

/// A bit for each of 64 bytes that is the given one, the first byte's the lowest.
#[inline(always)]
pub fn marks_of_64(bytes: &[u8], at: usize, byte: u8) -> u64 {
    marks_of_32(bytes, at, byte) | marks_of_32(bytes, at + 32, byte) << 32
}

/// A bit for each of 64 bytes that is a key byte, the first byte's the lowest.
#[inline(always)]
pub fn key_bytes_of_64(bytes: &[u8; 64]) -> u64 {
    key_bytes(bytes, 0) | key_bytes(bytes, 16) << 16 | key_bytes(bytes, 32) << 32 | key_bytes(bytes, 48) << 48
}

/// A bit for each of the next 64 bytes, or of all that are left, that is the given one. There are 16 bytes at least, and the
/// last ones are read together with some that stand before them.
#[inline(always)]
pub fn marks(bytes: &[u8], at: usize, byte: u8) -> u64 {
    let end = bytes.len();
    match end - at {
        64.. => marks_of_64(bytes, at, byte),
        left if end >= 64 => marks_of_64(bytes, end - 64, byte).checked_shr(64 - left as u32).unwrap_or(0),
        32.. => marks_of_32(bytes, at, byte) | marks_of_32(bytes, end - 32, byte) << (end - 32 - at),
        _ => sixteen::marks(bytes, at, byte) | sixteen::marks(bytes, end - 16, byte) << (end - 16 - at),
    }
}

/// Whether each of eight bytes is at most a limit below 128, which differs from byte to byte.
#[inline(always)]
pub fn at_most(eight: u64, limits: u64) -> bool {
    (eight | eight.wrapping_add(each(0x7F) - limits)) & each(0x80) == 0
}

/// The number that 1 to 8 digits say which end at a place, 8 bytes or more behind the start.
#[inline(always)]
pub fn digits(bytes: &[u8], end: usize, count: usize) -> Option<u64> {
    let others = u64::MAX << (64 - 8 * count);
    let ones = (word(bytes, end - 8) ^ each(b'0')) & others;
    if !at_most(ones, each(9)) {
        return None;
    }
    // Two digits come together in every second byte, and then all of them by two multiplications.
    let twos = ones * 10 + (ones >> 8);
    let first_and_third = (twos & 0x0000_00FF_0000_00FF).wrapping_mul(100 + (1_000_000 << 32));
    let second_and_fourth = (twos >> 16 & 0x0000_00FF_0000_00FF).wrapping_mul(1 + (10_000 << 32));
    Some(first_and_third.wrapping_add(second_and_fourth) >> 32)
}

/// The eight digits of a number below 100,000,000, each as its value, the first of them the lowest byte.
#[inline(always)]
pub fn eight_digits(value: u64) -> u64 {
    let fours = (value / 10_000) | ((value % 10_000) << 32);
    let hundreds = ((fours * 10_486) >> 20) & 0x0000_007F_0000_007F;
    let twos = hundreds | (fours - 100 * hundreds) << 16;
    let tens = ((twos * 103) >> 10) & 0x000F_000F_000F_000F;
    tens | (twos - 10 * tens) << 8
}

#[cfg(test)]
mod tests {
    use super::*;

    #[test]
    fn marks_are_where_the_byte_is() {
        for length in 16..200 {
            for step in [1, 2, 3, 7, 50] {
                let bytes: Vec<u8> =
                    (0..length).map(|at| if at % step == 0 { b'\t' } else { 0x89 }).collect();
                for base in (0..length).step_by(64) {
                    let expected = (base..length.min(base + 64))
                        .filter(|at| at % step == 0)
                        .fold(0, |marks, at| marks | 1u64 << (at - base));
                    assert_eq!(marks(&bytes, base, b'\t'), expected, "{length} {step} {base}");
                }
            }
        }
    }

    #[test]
    fn digits_read_and_printed() {
        for value in (0..100_000_000).step_by(9973).chain([0, 9, 10, 99_999_999]) {
            let text = format!("{value:08}");
            let printed = (eight_digits(value) + each(b'0')).to_le_bytes();
            assert_eq!(printed, *text.as_bytes());
            assert_eq!(digits(text.as_bytes(), 8, 8), Some(value));
            assert_eq!(digits(text.as_bytes(), 8, 3), Some(value % 1000));
        }
        for byte in (0..=255).filter(|byte: &u8| !byte.is_ascii_digit()) {
            for at in 0..8 {
                let mut text = *b"00000000";
                text[at] = byte;
                assert_eq!(digits(&text, 8, 8), None);
                assert_eq!(digits(&text, 8, 4), if at < 4 { Some(0) } else { None });
            }
        }
    }
}
