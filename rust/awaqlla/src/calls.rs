// The calls of include/awaqlla.h, each as a safe function over slices that answers the call's words.
// Nothing checks these declarations against the header, which rules; rust/ours takes them for the comparison.

unsafe extern "C" {
    pub safe fn awaqlla_sqrt_bits(x: u64) -> u64;
    pub safe fn awaqlla_f_erfcinv_bits(x: u64) -> u64;
    pub safe fn awaqlla_f_erfinv_bits(x: u64) -> u64;
}

/// Mean, spread, quantile and limit of some times at a chance under a form: {0, their bits} or {1, refusal, 0, 0, 0}.
pub fn awaqlla_limit_bits(form: u32, times: &[u32], chance: u32) -> [u64; 5] {
    unsafe extern "C" {
        fn awaqlla_limit_bits(
            form: u32,
            times: *const u32,
            n: usize,
            chance: u32,
            out: *mut [u64; 5],
        );
    }
    let mut out = [0; 5];
    // The pointer and the length are those of a slice, and out has its five places.
    unsafe { awaqlla_limit_bits(form, times.as_ptr(), times.len(), chance, &mut out) };
    out
}

/// The band of some times at a share: {0, low, high} in bits, or {1, refusal, 0}.
pub fn awaqlla_band_bits(times: &[u32], share: u32) -> [u64; 3] {
    unsafe extern "C" {
        fn awaqlla_band_bits(times: *const u32, n: usize, share: u32, out: *mut [u64; 3]);
    }
    let mut out = [u64::MAX; 3];
    // The pointer and the length are those of a slice, and out has its three places.
    unsafe { awaqlla_band_bits(times.as_ptr(), times.len(), share, &mut out) };
    out
}

/// A C function of scan and the two of reading, plain or by the profile.
macro_rules! reading {
    ($(#[$said:meta])* $scan:ident, $(#[$part_said:meta])* $part:ident, $(#[$mark_said:meta])* $mark:ident) => {
        $(#[$said])*
        pub fn $scan(v: &[u8], len: usize) -> [u64; 3] {
            unsafe extern "C" {
                fn $scan(v: *const u8, size: usize, len: usize, out: *mut [u64; 3]);
            }
            let mut out = [u64::MAX; 3];
            // The pointer and the size are those of a slice, and out has its three places.
            unsafe { $scan(v.as_ptr(), v.len(), len, &mut out) };
            out
        }

        $(#[$part_said])*
        pub fn $part(v: &[u8], len: usize, i: usize) -> [u64; 2] {
            unsafe extern "C" {
                fn $part(v: *const u8, size: usize, len: usize, i: usize, out: *mut [u64; 2]);
            }
            let mut out = [u64::MAX; 2];
            // The pointer and the size are those of a slice, and out has its two places.
            unsafe { $part(v.as_ptr(), v.len(), len, i, &mut out) };
            out
        }

        $(#[$mark_said])*
        pub fn $mark(v: &[u8], len: usize, i: usize) -> u64 {
            unsafe extern "C" {
                fn $mark(v: *const u8, size: usize, len: usize, i: usize) -> u64;
            }
            // The pointer and the size are those of a slice.
            unsafe { $mark(v.as_ptr(), v.len(), len, i) }
        }
    };
}

reading! {
    /// The scan of the first `len` bytes of a slice: {0 whole or 1 torn, records, committed} or {2, number, place}.
    awaqlla_scan,
    /// The part of record i: {start, length}.
    awaqlla_part,
    /// The letter of record i's mark, or the refusal's number.
    awaqlla_mark
}
reading! {
    /// The same by the profile.
    awaqlla_profile_scan,
    /// The same by the profile.
    awaqlla_profile_part,
    /// The same by the profile.
    awaqlla_profile_mark
}

/// What an append offers.
pub struct Offer<'a> {
    pub day: u16,
    pub name: &'a [u8],
    pub chances: &'a [u32],
    pub times: &'a [u32],
}

/// What `awaqlla_append_with` and `awaqlla_append_log_with` are asked besides: an index is handed; to go by the profile.
pub const INDEX: u32 = 1;
pub const PROFILE: u32 = 2;

/// A C function of append over an offer: with a log in place of its times or not, with a budget or not, with options or not.
macro_rules! append {
    (
        $(#[$said:meta])*
        $name:ident($offer:ident $(, $log:ident)? $(; $budget:ident $(, $index:ident, $options:ident)?)?),
        $times:expr => $item:ty
    ) => {
        $(#[$said])*
        pub fn $name(
            v: &mut [u8],
            len: usize,
            $offer: Offer,
            $($log: &[u8],)?
            $($budget: usize, $($index: &mut [u8], $options: u32)?)?
        ) -> [u64; 3] {
            unsafe extern "C" {
                fn $name(
                    v: *mut u8,
                    size: usize,
                    len: usize,
                    day: u16,
                    name: *const u8,
                    name_len: usize,
                    chances: *const u32,
                    chances_len: usize,
                    times: *const $item,
                    times_len: usize,
                    $($budget: usize, $($index: *mut u8, index_size: usize, $options: u32,)?)?
                    out: *mut [u64; 3],
                );
            }
            let Offer { day, name, chances, .. } = $offer;
            let times: &[$item] = $times;
            let mut out = [u64::MAX; 3];
            // Each pointer and the length behind it are those of a slice, and out has its three places.
            unsafe {
                $name(
                    v.as_mut_ptr(),
                    v.len(),
                    len,
                    day,
                    name.as_ptr(),
                    name.len(),
                    chances.as_ptr(),
                    chances.len(),
                    times.as_ptr(),
                    times.len(),
                    $($budget, $($index.as_mut_ptr(), $index.len(), $options,)?)?
                    &mut out,
                )
            };
            out
        }
    };
}

append! {
    /// The append of an offer: {0, length, 0}, {1, declined by, 0} or {2, number, place}.
    awaqlla_append(offer), offer.times => u32
}
append! {
    /// The same up to a budget.
    awaqlla_append_upto(offer; budget), offer.times => u32
}
append! {
    /// The same with options.
    awaqlla_append_with(offer; budget, index, options), offer.times => u32
}
append! {
    /// The append through a log: as above, or {3, number, place in the log}. The offer's times are not looked at.
    awaqlla_append_log(offer, log), log => u8
}
append! {
    /// The same up to a budget.
    awaqlla_append_log_upto(offer, log; budget), log => u8
}
append! {
    /// The same with options.
    awaqlla_append_log_with(offer, log; budget, index, options), log => u8
}

/// The index made afresh at a buffer's front: {0, length, 0}, {1, 15, 0} or {2, number, place}.
pub fn awaqlla_index(v: &[u8], len: usize, index: &mut [u8]) -> [u64; 3] {
    unsafe extern "C" {
        fn awaqlla_index(
            v: *const u8,
            size: usize,
            len: usize,
            index: *mut u8,
            index_size: usize,
            out: *mut [u64; 3],
        );
    }
    let mut out = [u64::MAX; 3];
    // Each pointer and the length behind it are those of a slice, and out has its three places.
    unsafe {
        awaqlla_index(
            v.as_ptr(),
            v.len(),
            len,
            index.as_mut_ptr(),
            index.len(),
            &mut out,
        )
    };
    out
}

/// A C function of the trial over a log, a slice with the journal's length in it and an index, by a position or not.
macro_rules! trial {
    ($(#[$said:meta])* $name:ident($($position:ident)?) -> $words:literal) => {
        $(#[$said])*
        pub fn $name(
            log: &[u8],
            v: &[u8],
            len: usize,
            index: &[u8],
            $($position: usize)?
        ) -> [u64; $words] {
            unsafe extern "C" {
                fn $name(
                    log: *const u8,
                    log_len: usize,
                    v: *const u8,
                    size: usize,
                    len: usize,
                    index: *const u8,
                    index_size: usize,
                    $($position: usize,)?
                    out: *mut [u64; $words],
                );
            }
            let mut out = [u64::MAX; $words];
            // Each pointer and the length behind it are those of a slice, and out has its places.
            unsafe {
                $name(
                    log.as_ptr(),
                    log.len(),
                    v.as_ptr(),
                    v.len(),
                    len,
                    index.as_ptr(),
                    index.len(),
                    $($position,)?
                    &mut out,
                )
            };
            out
        }
    };
}

trial! {
    /// The trial of an entry of the index: {0, links, chances, the lowest exceeded chance or 0, overs by chance, 0 ..}, {1, 14 or 10, 0 ..},
    /// {2, number, place, 0 ..} or {3, 11, place in the log, 0 ..}.
    awaqlla_trial(position) -> 12
}
trial! {
    /// The lines with unknown names: {0, lines, 0}, {1, 14, 0}, {2, number, place} or {3, 11, place in the log}.
    awaqlla_trial_unknown() -> 3
}

/// Two journals, each a slice and its length in it, merged into a third buffer: {0, length, 0, 0}, {1, 9, 0, 0}, {1, 13, place, 0},
/// {2, number, place, whose} or {3, 16, 0, whose}.
pub fn awaqlla_merge(a: (&[u8], usize), b: (&[u8], usize), c: &mut [u8]) -> [u64; 4] {
    unsafe extern "C" {
        fn awaqlla_merge(
            a: *const u8,
            a_size: usize,
            a_len: usize,
            b: *const u8,
            b_size: usize,
            b_len: usize,
            c: *mut u8,
            c_size: usize,
            out: *mut [u64; 4],
        );
    }
    let mut out = [u64::MAX; 4];
    // Each pointer and the size behind it are those of a slice, and out has its four places.
    unsafe {
        awaqlla_merge(
            a.0.as_ptr(),
            a.0.len(),
            a.1,
            b.0.as_ptr(),
            b.0.len(),
            b.1,
            c.as_mut_ptr(),
            c.len(),
            &mut out,
        )
    };
    out
}

/// Line i of the listing of a journal that is all of the slice, as far as there is room for it; how many bytes those are.
pub fn awaqlla_line(v: &[u8], i: usize, out: &mut [u8]) -> usize {
    unsafe extern "C" {
        fn awaqlla_line(v: *const u8, len: usize, i: usize, out: *mut u8, size: usize) -> usize;
    }
    // Each pointer and the length behind it are those of a slice.
    unsafe { awaqlla_line(v.as_ptr(), v.len(), i, out.as_mut_ptr(), out.len()) }
}
