//! Numbers of up to 8 octets in lent slices, high octet first.
//!
//! 001, 5.1: "The autonomous decentralized protocol uses the big endian for
//! the bite order." 01: "its own numbers have the high octet first."

/// The number in `size` octets from `place`. An octet past the end counts as 0.
pub fn read(octets: &[u8], place: usize, size: usize) -> u64 {
    (place..place + size)
        .map(|at| octets.get(at).copied().unwrap_or(0))
        .fold(0, |number, octet| (number << 8) | u64::from(octet))
}

/// Lays `number` into `size` octets from `place`. A place that is not wholly
/// inside the slice leaves the slice as it is.
pub fn write(octets: &mut [u8], place: usize, size: usize, number: u64) {
    if let Some(part) = octets.get_mut(place..place + size) {
        part.copy_from_slice(&number.to_be_bytes()[8 - size..]);
    }
}

/// The run of `N` octets from `place`, octets past the end counting as 0.
pub fn run_of<const N: usize>(octets: &[u8], place: usize) -> [u8; N] {
    let mut run = [0; N];
    for (i, octet) in run.iter_mut().enumerate() {
        *octet = octets.get(place + i).copied().unwrap_or(0);
    }
    run
}

/// Lays a run of octets from `place`, under the rule of `write`.
pub fn lay(octets: &mut [u8], place: usize, run: &[u8]) {
    if let Some(part) = octets.get_mut(place..place + run.len()) {
        part.copy_from_slice(run);
    }
}

#[cfg(test)]
mod tests {
    use super::*;

    #[test]
    fn high_octet_comes_first() {
        let octets = [0x12, 0x34, 0x56, 0x78, 0x9a, 0xbc, 0xde, 0xf0];
        assert_eq!(read(&octets, 0, 1), 0x12);
        assert_eq!(read(&octets, 1, 2), 0x3456);
        assert_eq!(read(&octets, 2, 4), 0x5678_9abc);
        assert_eq!(read(&octets, 0, 8), 0x1234_5678_9abc_def0);
    }

    #[test]
    fn past_the_end_reads_as_nought_and_stays_unwritten() {
        assert_eq!(read(&[0xff], 0, 2), 0xff00);
        assert_eq!(read(&[], 7, 4), 0);
        assert_eq!(run_of::<3>(&[1, 2], 1), [2, 0, 0]);
        let mut octets = [9, 9, 9];
        write(&mut octets, 2, 2, 0x0102);
        lay(&mut octets, 1, &[1, 2, 3]);
        assert_eq!(octets, [9, 9, 9]);
    }

    #[test]
    fn writes_only_its_place() {
        let mut octets = [9; 6];
        write(&mut octets, 1, 4, 0x0102_0304);
        assert_eq!(octets, [9, 1, 2, 3, 4, 9]);
        lay(&mut octets, 4, &[7, 8]);
        assert_eq!(octets, [9, 1, 2, 3, 7, 8]);
    }
}
