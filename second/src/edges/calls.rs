//! "The calls as fields": the contents of each field, a call with all its octets.
//! "numbers have the high octet first".

use super::table::values_of;
use crate::cut::HeaderValues;
use crate::fault::Parts;
use crate::state::{Groups, Receiver, Sender, Setup, SENDERS_MOST};

/// Numbers behind one another, each in so many octets.
fn numbers(sized: &[(usize, u64)]) -> Vec<u8> {
    let octets_of = |(size, number): &(usize, u64)| {
        let octets = number.to_be_bytes();
        let (above, within) = octets.split_at(8 - size);
        assert!(above.iter().all(|octet| *octet == 0), "{number} in {size}");
        within.to_vec()
    };
    sized.iter().flat_map(octets_of).collect()
}

/// "setup: mode (1), n1 (2), t (4), count (1), data field (1) and node (2) of all 16
/// places, number of groups (1), the eight group places (1 each)". Also "A count
/// above 16 is written with the 16 places."
pub fn setup(wanted: &Setup, places: &[(u8, u16)]) -> Vec<u8> {
    assert_eq!(places.len(), SENDERS_MOST);
    let mut contents = numbers(&[
        (1, wanted.mode.into()),
        (2, wanted.n1.into()),
        (4, wanted.t.into()),
        (1, wanted.senders.len() as u64),
    ]);
    for (field, node) in places {
        contents.extend(numbers(&[(1, (*field).into()), (2, (*node).into())]));
    }
    contents.extend(groups(&wanted.groups));
    contents
}

/// "number of groups (1), the eight group places (1 each)".
fn groups(groups: &Groups) -> Vec<u8> {
    [&[groups.count][..], &groups.places].concat()
}

/// "message call: how many octets of the storage are lent (4), then the PDU, as
/// many octets as are lent".
pub fn message(lent: usize, packet: &[u8]) -> Vec<u8> {
    [&numbers(&[(4, lent as u64)]), packet].concat()
}

/// "damage: test (1), n1 (2), t (4), clock (8), count (1), number of groups (1), the
/// eight group places (1 each) of the state in use become these".
pub fn settings(state: &Receiver) -> Vec<u8> {
    let mut contents = numbers(&[
        (1, state.test.into()),
        (2, state.n1.into()),
        (4, state.t.into()),
        (8, state.clock),
        (1, state.senders.len() as u64),
    ]);
    contents.extend(groups(&state.groups));
    contents
}

/// "multicast call: how many entries of the versions are lent (2), how many of the
/// numbers (2), the group (1), then the PDU, as many octets as are lent".
pub fn multicast(lent: [usize; 2], group: u8, packet: &[u8]) -> Vec<u8> {
    let [versions, seqs] = lent.map(|entries| entries as u64);
    let before = numbers(&[(2, versions), (2, seqs), (1, group.into())]);
    [&before, packet].concat()
}

/// "damage of an entry: place (2), version (4), number (4)".
pub fn entry(place: usize, version: u32, number: u32) -> Vec<u8> {
    numbers(&[(2, place as u64), (4, version.into()), (4, number.into())])
}

/// Octets of each value of a record: "place (1), field (1), node (2), rv (4),
/// r (4), open (1), version (4), number (4), tcd (2), n (2), tbn (1), u (2),
/// map (8), held (1), stamp (8), alive (1), heard-stamp (8), al_tm_out (4)".
const RECORD: [usize; 18] = [1, 1, 2, 4, 4, 1, 4, 4, 2, 2, 1, 2, 8, 1, 8, 1, 8, 4];

/// "damage: the record at a place becomes this one".
pub fn record(place: usize, sender: &Sender) -> Vec<u8> {
    let sized: Vec<(usize, u64)> = RECORD.into_iter().zip(values_of(place, sender)).collect();
    numbers(&sized)
}

/// "the cutter: length of the buffer (2), u (2), piece (1), data field (1), node
/// (2), DA (4), V_SEQ (4), SEQ (4), M_CTL (4), TCD (2), MODE (2), PRI (1), then
/// the message".
pub fn cut(
    values: &HeaderValues,
    message: &[u8],
    u: usize,
    piece: usize,
    buffer: usize,
) -> Vec<u8> {
    let before = numbers(&[
        (2, buffer as u64),
        (2, u as u64),
        (1, piece as u64),
        (1, values.field.into()),
        (2, values.node.into()),
        (4, values.da.into()),
        (4, values.version.into()),
        (4, values.seq.into()),
        (4, values.m_ctl.into()),
        (2, values.tcd.into()),
        (2, values.mode.into()),
        (1, values.pri.into()),
    ]);
    [&before, message].concat()
}

/// "part: kind (1), start (8), length (8), octets of storage lent (4), then the
/// packet".
pub fn part(kind: u8, start: u64, length: u64, packet: &[u8], lent: usize) -> Vec<u8> {
    let before = numbers(&[(1, kind.into()), (8, start), (8, length), (4, lent as u64)]);
    [&before, packet].concat()
}

/// "module X (4), then the octets" and "index k (4), then the octets".
pub fn of_one(number: u32, octets: &[u8]) -> Vec<u8> {
    [&number.to_be_bytes(), octets].concat()
}

/// "length of the buffer (2), module count (4), how many octets of bits (2), the
/// bits, how many 16-bit numbers (2), these numbers (2 each), the name (8), then
/// the options, which are all the rest".
pub fn section(parts: &Parts, buffer: usize) -> Vec<u8> {
    let mut contents = numbers(&[
        (2, buffer as u64),
        (4, parts.modules.into()),
        (2, parts.bits.len() as u64),
    ]);
    contents.extend(parts.bits);
    contents.extend(numbers(&[(2, parts.errors.len() as u64)]));
    contents.extend(parts.errors.iter().flat_map(|number| number.to_be_bytes()));
    contents.extend(parts.name);
    contents.extend(parts.options);
    contents
}

#[cfg(test)]
mod tests {
    use super::*;

    #[test]
    fn high_octet_first() {
        let sized = [(1, 255), (2, 4_095), (4, 15_000), (8, u64::MAX - 1)];
        let expected = [255, 15, 255, 0, 0, 58, 152];
        assert_eq!(numbers(&sized)[..7], expected);
        assert_eq!(
            numbers(&sized)[7..],
            [255, 255, 255, 255, 255, 255, 255, 254]
        );
    }

    #[test]
    #[should_panic(expected = "256 in 1")]
    fn a_number_without_room_is_not_cut_short() {
        numbers(&[(1, 256)]);
    }
}
