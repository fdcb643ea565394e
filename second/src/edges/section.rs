//! The fault sections of the edges: written as `docs/EDGES.md` says, apart from
//! the writer of `fault.rs`, also where no writer would write them so.

use super::pdu::{with, Laid};

/// "65, 66, ..., 72".
pub const NAME: [u8; 8] = *b"ABCDEFGH";

/// "module X is dead if X mod 3 = 1": the first `length` octets of the bits of so
/// many modules, 0 behind them.
pub fn bits(modules: u32, length: usize) -> Vec<u8> {
    let mut bits = vec![0; length];
    let modules = u64::from(modules).min(8 * length as u64);
    for place in (0..modules).step_by(3) {
        bits[place as usize / 8] |= 1 << (place % 8);
    }
    bits
}

/// "L is (modules + 31) / 32 x 4".
pub fn l(modules: u32) -> usize {
    (modules as usize).div_ceil(32) * 4
}

/// The 16-bit numbers of errors: "error k (from 0) has module k + 1 and error
/// (257 x k + 3) mod 65536".
pub fn numbers(count: usize) -> Vec<u16> {
    let number = |j: usize| match j % 2 {
        0 => j / 2 + 1,
        _ => (257 * (j / 2) + 3) % 65_536,
    };
    (0..count).map(|j| number(j) as u16).collect()
}

/// "octet i of the options is (11 x i + 5) mod 256".
pub fn options(count: usize) -> Vec<u8> {
    (0..count).map(|i| ((11 * i + 5) % 256) as u8).collect()
}

/// "section(m, e, o)".
pub fn section(m: u32, e: u32, o: u32) -> Vec<u8> {
    let numbers = numbers(2 * e as usize);
    let mut octets = m.to_be_bytes().to_vec();
    octets.extend(bits(m, l(m)));
    octets.extend(e.to_be_bytes());
    octets.extend(NAME);
    octets.extend(numbers.iter().flat_map(|number| number.to_be_bytes()));
    octets.extend(o.to_be_bytes());
    octets.extend(options(o as usize));
    octets
}

/// m, e, o; what is laid over the section; and how many octets there are then, if
/// not as many as before.
pub type Row = ((u32, u32, u32), &'static [Laid], Option<usize>);

/// "section(m, e, o) with numbers laid over it [...], then cut off behind, or
/// lengthened with 0, to `length` octets".
pub fn octets_of(((m, e, o), laid, length): Row) -> Vec<u8> {
    let mut octets = with(section(m, e, o), laid);
    octets.resize(length.unwrap_or(octets.len()), 0);
    octets
}

/// "all its bits 0 but bit p": the bits of so many modules.
pub fn one_bit(modules: u32, place: usize) -> Vec<u8> {
    let mut bits = vec![0; l(modules)];
    bits[place / 8] = 1 << (place % 8);
    bits
}

/// The module counts of the rows that set one bit, and for each all places of its
/// last word.
pub fn last_words() -> Vec<(u32, usize)> {
    let words = [1, 7, 8, 9, 31, 32, 33, 64, 65].map(last_word);
    words.concat()
}

pub fn last_word(modules: u32) -> Vec<(u32, usize)> {
    let end = 8 * l(modules);
    (end - 32..end).map(|place| (modules, place)).collect()
}

/// "section(m, 0, 0), all its bits 0 but bit p".
pub fn section_with_bit((modules, place): (u32, usize)) -> Vec<u8> {
    let mut octets = section(modules, 0, 0);
    octets[4..4 + l(modules)].copy_from_slice(&one_bit(modules, place));
    octets
}

#[cfg(test)]
mod tests {
    use super::*;

    #[test]
    fn a_section_octet_by_octet() {
        let expected = [
            0, 0, 0, 33, // modules
            0x49, 0x92, 0x24, 0x49, // 1, 4, 7; 10, 13, 16; 19, 22; 25, 28, 31 are dead
            0, 0, 0, 0, // 33 is not
            0, 0, 0, 2, // errors
            65, 66, 67, 68, 69, 70, 71, 72, // name
            0, 1, 0, 3, 0, 2, 1, 4, // errors
            0, 0, 0, 3, // options
            5, 16, 27,
        ];
        assert_eq!(section(33, 2, 3), expected);
        assert_eq!(
            octets_of(((33, 2, 3), &[(0, 4, 7)], Some(5))),
            [0, 0, 0, 7, 0x49]
        );
        assert_eq!(octets_of(((0, 0, 0), &[], Some(21)))[19..], [0, 0]);
    }

    #[test]
    fn bits_of_modules() {
        assert_eq!(bits(1, 4), [1, 0, 0, 0]);
        assert_eq!(bits(7, 4), [0x49, 0, 0, 0]);
        assert_eq!(bits(9, 1), [0x49]);
        assert_eq!(bits(u32::MAX, 2), [0x49, 0x92]);
        assert_eq!(bits(0, 2), [0, 0]);
        assert_eq!((l(0), l(1), l(32), l(33), l(65)), (0, 4, 4, 8, 12));
        assert_eq!(section_with_bit((9, 8))[3..9], [9, 0, 1, 0, 0, 0]);
        let places = last_word(33);
        assert_eq!((places[0], places[31]), ((33, 32), (33, 63)));
    }

    #[test]
    fn numbers_of_errors() {
        assert_eq!(numbers(5), [1, 3, 2, 260, 3]);
        // 257 x 255 + 3 = 65,538.
        assert_eq!(numbers(512)[510..], [256, 2]);
    }
}
