//! Time on the air, from document 02, 12: its refusals, and each record's total worked out afresh. With the
//! feature `stub` this file is built a second time, for the stub.

/// "or of over 65,536 records".
pub const MOST: usize = 65_536;

/// The refusal, by the starts and the lengths of bands, seconds and output: "It refuses (31) a start below
/// the one before and (32, next) runs of unequal length, the output's included, or of over 65,536 records".
pub fn refusal(starts: &[u64], bands: usize, seconds: usize, output: usize) -> u8 {
    let n = starts.len();
    if (1..n).any(|i| starts[i] < starts[i - 1]) {
        return 31;
    }
    if bands != n || seconds != n || output != n || n > MOST {
        return 32;
    }
    0
}

/// "give for each record the seconds of its band, summed in u64, over itself and the earlier records that
/// start at most 599 seconds before it". The starts do not fall, so that from the record back the first that
/// is too early is the last to be looked at.
pub fn total(starts: &[u64], bands: &[u8], seconds: &[u16], i: usize) -> u64 {
    let mut out = 0;
    for j in (0..=i).rev() {
        if starts[i] - starts[j] > 599 {
            break;
        }
        if bands[j] == bands[i] {
            out += u64::from(seconds[j]);
        }
    }
    out
}
