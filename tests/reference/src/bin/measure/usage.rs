//! The processor time that the system has counted, user and system together.
//!
//! Their sum is exact; a kernel that accounts by ticks only samples how it divides into the two.

/// The system's record, of which only the times are read.
#[repr(C)]
struct Usage {
    user_seconds: i64,
    user_microseconds: i64,
    system_seconds: i64,
    system_microseconds: i64,
    rest: [i64; 14],
}

extern "C" {
    fn getrusage(who: i32, usage: *mut Usage) -> i32;
}

/// This process.
#[allow(dead_code)]
pub const THIS: i32 = 0;
/// The children of this process that have ended.
#[allow(dead_code)]
pub const CHILDREN: i32 = -1;

/// The nanoseconds of processor time of this process or of its children.
pub fn processor_time(who: i32) -> u64 {
    let mut usage = Usage {
        user_seconds: 0,
        user_microseconds: 0,
        system_seconds: 0,
        system_microseconds: 0,
        rest: [0; 14],
    };
    // SAFETY: the record has the size that the system fills: four numbers of times and fourteen more.
    let failed = unsafe { getrusage(who, &mut usage) };
    assert_eq!(failed, 0, "the system counts no processor time");
    let seconds = usage.user_seconds + usage.system_seconds;
    let microseconds = usage.user_microseconds + usage.system_microseconds;
    seconds as u64 * 1_000_000_000 + microseconds as u64 * 1000
}
