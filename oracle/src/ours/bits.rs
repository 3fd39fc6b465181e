//! Crates bitwriter and bitreader, by crates/probe/src/of_bitacc.rt, of_lent.rt and of_bitreader.rt, and by crates/probe_pairs.

unsafe extern "C" {
    fn probe_bitacc_write(
        kinds: *const u8,
        kn: usize,
        runs: *const u32,
        rn: usize,
        codes: *const u32,
        cn: usize,
        at: usize,
        out: *mut u8,
        n: usize,
    ) -> usize;
    fn probe_lent_write(
        kinds: *const u8,
        kn: usize,
        runs: *const u32,
        rn: usize,
        codes: *const u32,
        cn: usize,
        at: usize,
        out: *mut u8,
        n: usize,
    ) -> usize;
    fn probe_pairs_write(
        runs: *const u32,
        rn: usize,
        codes: *const u32,
        cn: usize,
        at: usize,
        out: *mut u8,
        n: usize,
    ) -> usize;
    fn probe_bitreader_read(s: *const u8, sn: usize, at: usize, dc: bool, out: *mut u64, n: usize) -> usize;
}

/// Codes in a row from the byte `at` on, for kinds 0, 1, 2 a value, a run, or both; then zero bits up to a byte. The end.
pub fn write(kinds: &[u8], runs: &[u32], codes: &[u32], at: usize, out: &mut [u8]) -> usize {
    assert!(runs.len() == kinds.len() && codes.len() == kinds.len());
    let n = kinds.len();
    // SAFETY: three slices of n, which are only read, and the output with its own length.
    unsafe {
        probe_bitacc_write(kinds.as_ptr(), n, runs.as_ptr(), n, codes.as_ptr(), n, at, out.as_mut_ptr(), out.len())
    }
}

/// The same through the lent accumulator: for kind 0 a value, for any other a run and a value.
pub fn write_lent(kinds: &[u8], runs: &[u32], codes: &[u32], at: usize, out: &mut [u8]) -> usize {
    assert!(runs.len() == kinds.len() && codes.len() == kinds.len());
    let n = kinds.len();
    // SAFETY: three slices of n, which are only read, and the output with its own length.
    unsafe { probe_lent_write(kinds.as_ptr(), n, runs.as_ptr(), n, codes.as_ptr(), n, at, out.as_mut_ptr(), out.len()) }
}

/// Runs with values in a row, in one loop as a block writes them; the end, 0 where there are not eight bytes for each.
pub fn write_pairs(runs: &[u32], codes: &[u32], at: usize, out: &mut [u8]) -> usize {
    // SAFETY: slices with their own lengths; the output is apart from the two that are read.
    unsafe {
        probe_pairs_write(runs.as_ptr(), runs.len(), codes.as_ptr(), codes.len(), at, out.as_mut_ptr(), out.len())
    }
}

/// A code that was read: head bit, number (0: a bad code), the bit after it.
#[derive(Clone, Copy, Debug, Default, PartialEq, Eq)]
pub struct Code {
    pub run: u64,
    pub num: u64,
    pub end: u64,
}

/// At most `most` codes from the bit `at` on, up to the first bad one.
pub fn read(s: &[u8], at: usize, dc: bool, most: usize) -> Vec<Code> {
    let mut out = vec![0u64; 3 * most];
    let n = read_into(s, at, dc, &mut out);
    out[..n].chunks(3).map(|c| Code { run: c[0], num: c[1], end: c[2] }).collect()
}

/// As many codes as there is room for, three numbers each; how many numbers were stored.
pub fn read_into(s: &[u8], at: usize, dc: bool, out: &mut [u64]) -> usize {
    // SAFETY: slices with their own lengths; the output is apart from the stream.
    unsafe { probe_bitreader_read(s.as_ptr(), s.len(), at, dc, out.as_mut_ptr(), out.len()) }
}
