//! Cutting (D.4.3): number, length and place of pieces; whether a PDU's cut is
//! possible; the cutter.

use crate::answers::STORED;
use crate::header::{self, Code, Head, HEADER};
use crate::numbers;

/// 01: "Let n be the message length (0 to 16,384)".
pub const N_MOST: usize = 16_384;
/// 01: "and u the piece length, 256 to 1,396, which is MTU - 104."
pub const U_LEAST: usize = 256;
pub const U_MOST: usize = 1_396;

/// 01: "u the piece length, 256 to 1,396".
pub fn u_right(u: u64) -> bool {
    (U_LEAST as u64..=U_MOST as u64).contains(&u)
}

/// 01: "If n <= u there is one piece, also for n = 0. Otherwise there are
/// n / u rounded up, at most 64." Wants u above 0.
pub fn pieces(n: usize, u: usize) -> usize {
    if n <= u {
        1
    } else {
        n.div_ceil(u)
    }
}

/// 01: "Its place in the message is (CBN - 1) x u."
pub fn place_of(piece: usize, u: usize) -> usize {
    (piece - 1) * u
}

/// 01: "All but the last carry u octets, the last carries the rest."
pub fn length_of(piece: usize, n: usize, u: usize) -> usize {
    if piece < pieces(n, u) {
        u
    } else {
        n - place_of(piece, u)
    }
}

/// A possible cut: what one PDU tells of its message and of its piece.
#[derive(Clone, Copy, Debug, PartialEq, Eq)]
pub struct Cut {
    /// The message's length.
    pub n: u16,
    /// The piece length; 0 for a message of one piece, which tells none.
    pub u: u16,
    /// The piece's own length.
    pub p: u16,
    /// The piece's place in the message.
    pub place: u16,
}

/// 01, "Is a PDU's cut possible?": "Let n = ML - 64 and p = BSIZE - 64. Needed:
/// 0 <= n <= 16,384 and 1 <= CBN <= TBN."
pub fn possible_cut(head: &Head) -> Option<Cut> {
    let n = i64::from(head.ml) - 64;
    let p = i64::from(head.bsize) - 64;
    let (cbn, tbn) = (i64::from(head.cbn), i64::from(head.tbn));
    let needed = 0 <= n && n <= N_MOST as i64 && 1 <= cbn && cbn <= tbn;
    if !needed {
        return None;
    }
    let u = if tbn == 1 {
        cut_of_one(n, p)?
    } else if cbn < tbn {
        cut_before_last(n, p, tbn)?
    } else {
        cut_of_last(n, p, tbn)?
    };
    Some(Cut {
        n: n as u16,
        u: u as u16,
        p: p as u16,
        place: ((cbn - 1) * u) as u16,
    })
}

/// "With TBN = 1: p = n."
fn cut_of_one(n: i64, p: i64) -> Option<i64> {
    (p == n).then_some(0)
}

/// "With CBN < TBN: u = p, 256 <= u <= 1,396, and
/// (TBN - 1) x u < n <= TBN x u."
fn cut_before_last(n: i64, p: i64, tbn: i64) -> Option<i64> {
    let u = p;
    let possible = u >= 0 && u_right(u as u64) && (tbn - 1) * u < n && n <= tbn * u;
    possible.then_some(u)
}

/// "With CBN = TBN > 1: n - p is positive and divides evenly by TBN - 1, the
/// quotient is u, 256 <= u <= 1,396, and 1 <= p <= u."
fn cut_of_last(n: i64, p: i64, tbn: i64) -> Option<i64> {
    let before = n - p;
    if before <= 0 || before % (tbn - 1) != 0 {
        return None;
    }
    let u = before / (tbn - 1);
    (u_right(u as u64) && 1 <= p && p <= u).then_some(u)
}

/// 01: "5.1's other fields are given by the caller, the same for every piece of
/// a message."
#[derive(Clone, Debug, PartialEq, Eq)]
pub struct HeaderValues {
    pub field: u8,
    pub node: u16,
    pub da: u32,
    pub version: u32,
    pub seq: u32,
    pub m_ctl: u32,
    pub tcd: u16,
    pub mode: u16,
    pub pri: u8,
}

/// The limits of "a header value": "Data field numbers (1 to 255) and node
/// numbers (1 to 4,095)"; "SEQ is 1 to M"; "Messages carry user codes only";
/// "The two MODE values are those of 5.1"; "PRI is 0 to 7".
pub fn header_values_right(values: &HeaderValues) -> bool {
    values.field >= 1
        && (1..=4_095).contains(&values.node)
        && numbers::seq_right(values.seq)
        && header::code(values.tcd) == Code::User
        && header::mode_right(values.mode)
        && header::pri_right(values.pri)
}

/// The cutter's answer: 0 and the PDU's length, or 23 and 0.
#[derive(Clone, Copy, Debug, PartialEq, Eq)]
pub struct CutAnswer {
    pub number: u8,
    pub length: usize,
}

/// 01: "The cutter writes one PDU by its number. Octets behind it in the buffer
/// stay." A refusal alters no octet of the buffer.
pub fn cut_piece(
    values: &HeaderValues,
    message: &[u8],
    u: usize,
    piece: usize,
    buffer: &mut [u8],
) -> CutAnswer {
    if cutter_refuses(values, message.len(), u, piece, buffer.len()) {
        return CutAnswer {
            number: 23,
            length: 0,
        };
    }
    let start = place_of(piece, u);
    let p = length_of(piece, message.len(), u);
    header::write_head(&head_of(values, message.len(), u, piece), buffer);
    buffer[HEADER..HEADER + p].copy_from_slice(&message[start..start + p]);
    CutAnswer {
        number: STORED,
        length: HEADER + p,
    }
}

/// "23 | cutter: n, u, piece number or a header value outside limits, or buffer
/// short".
fn cutter_refuses(values: &HeaderValues, n: usize, u: usize, piece: usize, buffer: usize) -> bool {
    n > N_MOST
        || !u_right(u as u64)
        || piece < 1
        || piece > pieces(n, u)
        || !header_values_right(values)
        || buffer < HEADER + length_of(piece, n, u)
}

/// "ML: message length + 64. BSIZE: PDU length, header included. CBN: piece
/// number from 1. TBN: number of pieces."
fn head_of(values: &HeaderValues, n: usize, u: usize, piece: usize) -> Head {
    Head {
        ml: (n + HEADER) as u32,
        field: values.field,
        node: values.node,
        da: values.da,
        version: values.version,
        seq: values.seq,
        m_ctl: values.m_ctl,
        tcd: values.tcd,
        mode: values.mode,
        pri: values.pri,
        cbn: piece as u8,
        tbn: pieces(n, u) as u8,
        bsize: (HEADER + length_of(piece, n, u)) as u16,
        ..Head::fixed()
    }
}

#[cfg(test)]
mod tests {
    use super::*;
    use crate::header::read_head;

    fn values() -> HeaderValues {
        HeaderValues {
            field: 1,
            node: 7,
            da: 0x0001_0001,
            version: 5,
            seq: 100,
            m_ctl: 0x8000_0000,
            tcd: 1,
            mode: 0,
            pri: 0,
        }
    }

    fn message(n: usize) -> Vec<u8> {
        (0..n).map(|i| (i * 7 + 3) as u8).collect()
    }

    /// Every PDU of a message, each cut into a buffer of 1,500 octets.
    fn all(n: usize, u: usize) -> Vec<Vec<u8>> {
        let message = message(n);
        let mut pdus = Vec::new();
        for piece in 1.. {
            let mut buffer = vec![0xee; 1500];
            let answer = cut_piece(&values(), &message, u, piece, &mut buffer);
            if answer.number == 23 {
                assert_eq!(buffer, [0xee; 1500]);
                return pdus;
            }
            assert!(buffer[answer.length..].iter().all(|octet| *octet == 0xee));
            pdus.push(buffer[..answer.length].to_vec());
        }
        unreachable!()
    }

    /// (ML, pieces, BSIZE of the first, BSIZE of the last).
    fn outline(n: usize, u: usize) -> (u32, usize, u16, u16) {
        let pdus = all(n, u);
        let first = read_head(&pdus[0]);
        let last = read_head(&pdus[pdus.len() - 1]);
        assert_eq!(usize::from(last.tbn), pdus.len());
        (first.ml, pdus.len(), first.bsize, last.bsize)
    }

    #[test]
    fn edges_of_cutting() {
        assert_eq!(outline(4500, 1332), (4564, 4, 1396, 568));
        assert_eq!(outline(4500, 1396), (4564, 4, 1460, 376));
        assert_eq!(outline(16384, 1396), (16448, 12, 1460, 1092));
        assert_eq!(outline(16384, 256), (16448, 64, 320, 320));
        assert_eq!(outline(1396, 1396), (1460, 1, 1460, 1460));
        assert_eq!(outline(1397, 1396), (1461, 2, 1460, 65));
        assert_eq!(outline(0, 1396), (64, 1, 64, 64));
        assert_eq!(outline(0, 256), (64, 1, 64, 64));
        assert_eq!(outline(256, 256), (320, 1, 320, 320));
        assert_eq!(outline(257, 256), (321, 2, 320, 65));
    }

    #[test]
    fn figure_54() {
        let heads: Vec<Head> = all(4500, 1332).iter().map(|pdu| read_head(pdu)).collect();
        let row = |value: fn(&Head) -> u32| heads.iter().map(value).collect::<Vec<_>>();
        assert_eq!(row(|head| head.seq), [100, 100, 100, 100]);
        assert_eq!(row(|head| head.cbn.into()), [1, 2, 3, 4]);
        assert_eq!(row(|head| head.tbn.into()), [4, 4, 4, 4]);
        assert_eq!(row(|head| head.bsize.into()), [1396, 1396, 1396, 568]);
        assert_eq!(row(|head| head.ml), [4564, 4564, 4564, 4564]);
        let whole = read_head(&all(960, 1332)[0]);
        assert_eq!((whole.cbn, whole.tbn), (1, 1));
        assert_eq!((whole.bsize, whole.ml), (1024, 1024));
    }

    #[test]
    fn pieces_in_order_are_the_message() {
        for (n, u) in [
            (4500, 1332),
            (16384, 1396),
            (16384, 256),
            (1397, 1396),
            (0, 300),
        ] {
            let joined: Vec<u8> = all(n, u)
                .iter()
                .flat_map(|pdu| pdu[64..].to_vec())
                .collect();
            assert_eq!(joined, message(n));
        }
    }

    #[test]
    fn every_cut_is_possible_and_tells_its_place() {
        for (n, u) in [
            (4500, 1332),
            (16384, 1396),
            (16384, 256),
            (1397, 1396),
            (513, 256),
        ] {
            for (i, pdu) in all(n, u).iter().enumerate() {
                let cut = possible_cut(&read_head(pdu)).expect("possible");
                assert_eq!((cut.n as usize, cut.u as usize), (n, u));
                assert_eq!(cut.place as usize, i * u);
                assert_eq!(cut.p as usize, pdu.len() - 64);
            }
        }
        let one = possible_cut(&read_head(&all(700, 1396)[0])).expect("possible");
        assert_eq!((one.n, one.p, one.place), (700, 700, 0));
    }

    /// Is the cut possible, by (n, p, CBN, TBN)?
    fn possible(n: i64, p: i64, cbn: u8, tbn: u8) -> bool {
        let head = Head {
            ml: (n + 64) as u32,
            bsize: (p + 64) as u16,
            cbn,
            tbn,
            ..Head::fixed()
        };
        possible_cut(&head).is_some()
    }

    #[test]
    fn possible_with_one_piece() {
        assert!(possible(0, 0, 1, 1) && !possible(0, 1, 1, 1));
        assert!(!possible(-1, -1, 1, 1) && !possible(-64, -64, 1, 1));
        assert!(possible(700, 700, 1, 1));
        assert!(!possible(700, 699, 1, 1) && !possible(700, 701, 1, 1));
        assert!(!possible(700, 700, 0, 1) && !possible(700, 700, 2, 1));
        assert!(!possible(700, 700, 0, 0) && !possible(700, 700, 1, 0));
        assert!(possible(16384, 16384, 1, 1) && !possible(16385, 16385, 1, 1));
    }

    #[test]
    fn possible_before_the_last() {
        assert!(possible(512, 256, 1, 2) && !possible(510, 255, 1, 2));
        assert!(possible(2792, 1396, 1, 2) && !possible(2794, 1397, 1, 2));
        // (TBN - 1) x u < n <= TBN x u
        assert!(!possible(3996, 1332, 3, 4) && possible(3997, 1332, 3, 4));
        assert!(possible(5328, 1332, 3, 4) && !possible(5329, 1332, 3, 4));
        assert!(possible(16384, 256, 63, 64) && !possible(16385, 256, 63, 64));
        assert!(!possible(16384, 256, 64, 65) && !possible(16385, 256, 64, 65));
        assert!(!possible(4500, 1332, 0, 4) && !possible(4500, -64, 1, 4));
    }

    #[test]
    fn possible_at_the_last() {
        assert!(possible(4500, 504, 4, 4) && !possible(4500, 504, 5, 4));
        // n - p positive and divisible by TBN - 1
        assert!(!possible(4500, 505, 4, 4) && !possible(504, 504, 2, 2));
        assert!(!possible(503, 504, 2, 2) && !possible(100, 504, 4, 4));
        // 256 <= u <= 1396
        assert!(possible(257, 1, 2, 2) && !possible(256, 1, 2, 2));
        assert!(possible(1397, 1, 2, 2) && !possible(1398, 1, 2, 2));
        // 1 <= p <= u
        assert!(!possible(600, 0, 2, 2) && possible(601, 1, 2, 2));
        assert!(possible(600, 300, 2, 2) && !possible(600, 301, 2, 2));
        assert!(!possible(600, -64, 2, 2));
        assert!(possible(16384, 256, 64, 64) && !possible(16385, 257, 64, 64));
    }

    /// Refused with 23, no octet changed.
    fn refused(values: &HeaderValues, n: usize, u: usize, piece: usize, room: usize) -> bool {
        let mut buffer: Vec<u8> = (0..room).map(|i| i as u8).collect();
        let before = buffer.clone();
        let answer = cut_piece(values, &message(n), u, piece, &mut buffer);
        let refused = answer.number == 23;
        assert!(!refused || (buffer == before && answer.length == 0));
        refused
    }

    #[test]
    fn row_23_n_u_piece_and_buffer() {
        let v = values();
        assert!(!refused(&v, 16384, 1396, 1, 1460) && refused(&v, 16385, 1396, 1, 1460));
        assert!(!refused(&v, 100, 256, 1, 1500) && refused(&v, 100, 255, 1, 1500));
        assert!(!refused(&v, 100, 1396, 1, 1500) && refused(&v, 100, 1397, 1, 1500));
        assert!(refused(&v, 100, 0, 1, 1500));
        assert!(refused(&v, 4500, 1332, 0, 1500) && !refused(&v, 4500, 1332, 1, 1500));
        assert!(!refused(&v, 4500, 1332, 4, 1500) && refused(&v, 4500, 1332, 5, 1500));
        assert!(!refused(&v, 0, 256, 1, 64) && refused(&v, 0, 256, 1, 63));
        assert!(refused(&v, 0, 256, 2, 64) && refused(&v, 0, 256, 1, 0));
        assert!(!refused(&v, 4500, 1332, 3, 1396) && refused(&v, 4500, 1332, 3, 1395));
        assert!(!refused(&v, 4500, 1332, 4, 568) && refused(&v, 4500, 1332, 4, 567));
    }

    #[test]
    fn row_23_header_values_on_both_sides() {
        let refused_with = |change: &dyn Fn(&mut HeaderValues)| {
            let mut values = values();
            change(&mut values);
            refused(&values, 100, 256, 1, 200)
        };
        assert!(refused_with(&|v| v.field = 0) && !refused_with(&|v| v.field = 255));
        assert!(refused_with(&|v| v.node = 0) && !refused_with(&|v| v.node = 1));
        assert!(refused_with(&|v| v.node = 4096) && !refused_with(&|v| v.node = 4095));
        assert!(refused_with(&|v| v.seq = 0) && !refused_with(&|v| v.seq = 1));
        assert!(refused_with(&|v| v.seq = numbers::M + 1));
        assert!(!refused_with(&|v| v.seq = numbers::M));
        assert!(refused_with(&|v| v.tcd = 0) && !refused_with(&|v| v.tcd = 1));
        assert!(refused_with(&|v| v.tcd = 60_000) && !refused_with(&|v| v.tcd = 59_999));
        assert!(refused_with(&|v| v.tcd = 60_003) && refused_with(&|v| v.tcd = 65_535));
        assert!(refused_with(&|v| v.mode = 2) && !refused_with(&|v| v.mode = 1));
        assert!(refused_with(&|v| v.pri = 8) && !refused_with(&|v| v.pri = 7));
        assert!(!refused_with(&|v| v.version = u32::MAX) && !refused_with(&|v| v.version = 0));
        assert!(!refused_with(&|v| v.da = u32::MAX) && !refused_with(&|v| v.m_ctl = 0));
    }

    #[test]
    fn given_values_stand_in_the_header() {
        let given = HeaderValues {
            field: 200,
            node: 4095,
            da: 0x0102_0304,
            version: 0xffff_fffe,
            seq: numbers::M,
            m_ctl: 0x4000_0001,
            tcd: 59_999,
            mode: 1,
            pri: 7,
        };
        let mut buffer = [0xee; 400];
        let answer = cut_piece(&given, &message(300), 256, 2, &mut buffer);
        assert_eq!((answer.number, answer.length), (0, 108));
        let expected = Head {
            ml: 364,
            field: 200,
            node: 4095,
            da: 0x0102_0304,
            version: 0xffff_fffe,
            seq: 2_147_483_647,
            m_ctl: 0x4000_0001,
            tcd: 59_999,
            mode: 1,
            pri: 7,
            cbn: 2,
            tbn: 2,
            bsize: 108,
            ..Head::fixed()
        };
        assert_eq!(read_head(&buffer), expected);
    }
}
