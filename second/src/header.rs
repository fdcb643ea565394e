//! The ADP header of 64 octets: its places, read and written; the fixed
//! values; the transaction codes.

use crate::octets;

/// 01: "The header is 64 octets."
pub const HEADER: usize = 64;

/// One place of the header: where it starts and how many octets it takes.
#[derive(Clone, Copy, Debug, PartialEq, Eq)]
pub struct Place {
    pub start: usize,
    pub size: usize,
}

const fn place(start: usize, size: usize) -> Place {
    Place { start, size }
}

// 01: "Names, sizes, order, fixed values and the splitting of the source
// address come from section 5.1 of 001". The order and sizes are those of
// Table 7. The source address SA is split here into its three parts.
pub const H_TYPE: Place = place(0, 4);
pub const ML: Place = place(4, 4);
pub const SA_DOMAIN: Place = place(8, 1);
pub const SA_FIELD: Place = place(9, 1);
pub const SA_NODE: Place = place(10, 2);
pub const DA: Place = place(12, 4);
pub const V_SEQ: Place = place(16, 4);
pub const SEQ: Place = place(20, 4);
pub const M_CTL: Place = place(24, 4);
pub const INQ_ID: Place = place(28, 12);
pub const TCD: Place = place(40, 2);
pub const VER: Place = place(42, 2);
pub const GTID: Place = place(44, 8);
pub const MODE: Place = place(52, 2);
pub const PVER: Place = place(54, 1);
pub const PRI: Place = place(55, 1);
pub const CBN: Place = place(56, 1);
pub const TBN: Place = place(57, 1);
pub const BSIZE: Place = place(58, 2);
pub const FUI: Place = place(60, 4);

/// 01: "The places stand in one table of the definitions."
pub const PLACES: [Place; 20] = [
    H_TYPE, ML, SA_DOMAIN, SA_FIELD, SA_NODE, DA, V_SEQ, SEQ, M_CTL, INQ_ID, TCD, VER, GTID, MODE,
    PVER, PRI, CBN, TBN, BSIZE, FUI,
];

/// Table 7: "Specify "NUXM" in ASCII to distinguish the message from other
/// protocol messages (fixed)."
pub const NUXM: [u8; 4] = *b"NUXM";

/// 01: "The two MODE values are those of 5.1": Table 7, "0 = Online mode,
/// 1 = Test mode".
pub const ONLINE: u16 = 0;
pub const TEST: u16 = 1;

/// What stands in a header, place by place.
#[derive(Clone, Debug, PartialEq, Eq)]
pub struct Head {
    pub h_type: [u8; 4],
    pub ml: u32,
    pub domain: u8,
    pub field: u8,
    pub node: u16,
    pub da: u32,
    pub version: u32,
    pub seq: u32,
    pub m_ctl: u32,
    pub inq_id: [u8; 12],
    pub tcd: u16,
    pub ver: u16,
    pub gtid: [u8; 8],
    pub mode: u16,
    pub pver: u8,
    pub pri: u8,
    pub cbn: u8,
    pub tbn: u8,
    pub bsize: u16,
    pub fui: u32,
}

impl Head {
    /// The fixed values of Table 7 ("Fixed to 0", "Fixed to 1", "NUXM"), and 0
    /// in every place that is not fixed.
    pub fn fixed() -> Head {
        Head {
            h_type: NUXM,
            ml: 0,
            domain: 0,
            field: 0,
            node: 0,
            da: 0,
            version: 0,
            seq: 0,
            m_ctl: 0,
            inq_id: [0; 12],
            tcd: 0,
            ver: 0,
            gtid: [0; 8],
            mode: 0,
            pver: 1,
            pri: 0,
            cbn: 0,
            tbn: 0,
            bsize: 0,
            fui: 0,
        }
    }
}

fn number(packet: &[u8], place: Place) -> u64 {
    octets::read(packet, place.start, place.size)
}

/// Reads the header. Octets that a short packet lacks are read as 0.
pub fn read_head(packet: &[u8]) -> Head {
    Head {
        h_type: octets::run_of(packet, H_TYPE.start),
        ml: number(packet, ML) as u32,
        domain: number(packet, SA_DOMAIN) as u8,
        field: number(packet, SA_FIELD) as u8,
        node: number(packet, SA_NODE) as u16,
        da: number(packet, DA) as u32,
        version: number(packet, V_SEQ) as u32,
        seq: number(packet, SEQ) as u32,
        m_ctl: number(packet, M_CTL) as u32,
        inq_id: octets::run_of(packet, INQ_ID.start),
        tcd: number(packet, TCD) as u16,
        ver: number(packet, VER) as u16,
        gtid: octets::run_of(packet, GTID.start),
        mode: number(packet, MODE) as u16,
        pver: number(packet, PVER) as u8,
        pri: number(packet, PRI) as u8,
        cbn: number(packet, CBN) as u8,
        tbn: number(packet, TBN) as u8,
        bsize: number(packet, BSIZE) as u16,
        fui: number(packet, FUI) as u32,
    }
}

/// Writes the header, all its 64 octets, at the front of the buffer.
pub fn write_head(head: &Head, buffer: &mut [u8]) {
    let mut number = |place: Place, number: u64| {
        octets::write(buffer, place.start, place.size, number);
    };
    number(ML, head.ml.into());
    number(SA_DOMAIN, head.domain.into());
    number(SA_FIELD, head.field.into());
    number(SA_NODE, head.node.into());
    number(DA, head.da.into());
    number(V_SEQ, head.version.into());
    number(SEQ, head.seq.into());
    number(M_CTL, head.m_ctl.into());
    number(TCD, head.tcd.into());
    number(VER, head.ver.into());
    number(MODE, head.mode.into());
    number(PVER, head.pver.into());
    number(PRI, head.pri.into());
    number(CBN, head.cbn.into());
    number(TBN, head.tbn.into());
    number(BSIZE, head.bsize.into());
    number(FUI, head.fui.into());
    octets::lay(buffer, H_TYPE.start, &head.h_type);
    octets::lay(buffer, INQ_ID.start, &head.inq_id);
    octets::lay(buffer, GTID.start, &head.gtid);
}

/// Table 7: H_TYPE "NUXM" "(fixed)"; INQ_ID, VER, GTID, FUI "Fixed to 0";
/// PVER "Fixed to 1". 000, Figure 37 note 1, of the address: the domain number
/// is at present fixed to 0. M_CTL and DA are not fixed.
pub fn fixed_fields_right(head: &Head) -> bool {
    head.h_type == NUXM
        && head.domain == 0
        && head.inq_id == [0; 12]
        && head.ver == 0
        && head.gtid == [0; 8]
        && head.pver == 1
        && head.fui == 0
}

/// 01: "The two MODE values are those of 5.1."
pub fn mode_right(mode: u16) -> bool {
    mode == ONLINE || mode == TEST
}

/// 01: "PRI is 0 to 7".
pub fn pri_right(pri: u8) -> bool {
    pri <= 7
}

/// Whose a transaction code is.
#[derive(Clone, Copy, Debug, PartialEq, Eq)]
pub enum Code {
    User,
    Alive,
    System,
    Nobody,
}

/// 01: "Transaction codes: 1 to 59,999 are the user's, 60,000 to 65,534 the
/// system's, of which 60,003 is the alive signal."
pub fn code(tcd: u16) -> Code {
    match tcd {
        1..=59_999 => Code::User,
        60_003 => Code::Alive,
        60_000..=65_534 => Code::System,
        0 | 65_535 => Code::Nobody,
    }
}

#[cfg(test)]
mod tests {
    use super::*;

    /// Figure 54's third packet (SEQ 100, CBN/TBN 3/4, BSIZE 1396, ML 4564),
    /// from field 1 node 2 to group 1, written out octet by octet.
    const THIRD: [u8; 64] = [
        0x4e, 0x55, 0x58, 0x4d, // H_TYPE "NUXM"
        0x00, 0x00, 0x11, 0xd4, // ML 4564
        0x00, 0x01, 0x00, 0x02, // SA
        0x00, 0x01, 0x00, 0x03, // DA
        0x01, 0x02, 0x03, 0x04, // V_SEQ
        0x00, 0x00, 0x00, 0x64, // SEQ 100
        0x80, 0x00, 0x00, 0x00, // M_CTL
        0, 0, 0, 0, 0, 0, 0, 0, 0, 0, 0, 0, // INQ_ID
        0xea, 0x5f, 0x00, 0x00, // TCD 59999, VER
        0, 0, 0, 0, 0, 0, 0, 0, // GTID
        0x00, 0x01, 0x01, 0x07, // MODE test, PVER 1, PRI 7
        0x03, 0x04, 0x05, 0x74, // CBN, TBN, BSIZE 1396
        0x00, 0x00, 0x00, 0x00, // FUI
    ];

    fn third() -> Head {
        Head {
            ml: 4564,
            field: 1,
            node: 2,
            da: 0x0001_0003,
            version: 0x0102_0304,
            seq: 100,
            m_ctl: 0x8000_0000,
            tcd: 59_999,
            mode: 1,
            pri: 7,
            cbn: 3,
            tbn: 4,
            bsize: 1396,
            ..Head::fixed()
        }
    }

    #[test]
    fn places_cover_the_header_without_overlap() {
        let mut end = 0;
        for place in PLACES {
            assert_eq!(place.start, end);
            end = place.start + place.size;
        }
        assert_eq!(end, 64);
    }

    #[test]
    fn reads_octets_of_table_7() {
        assert_eq!(read_head(&THIRD), third());
        assert!(fixed_fields_right(&read_head(&THIRD)));
    }

    #[test]
    fn writes_octets_of_table_7_and_no_others() {
        let mut buffer = [0xaa; 70];
        write_head(&third(), &mut buffer);
        assert_eq!(buffer[..64], THIRD);
        assert_eq!(buffer[64..], [0xaa; 6]);
    }

    #[test]
    fn every_octet_is_read_and_written_back() {
        let octets: Vec<u8> = (100..164).collect();
        let mut buffer = [0; 64];
        write_head(&read_head(&octets), &mut buffer);
        assert_eq!(buffer[..], octets[..]);
    }

    #[test]
    fn a_damaged_fixed_octet_is_seen_and_no_other() {
        let fixed = [0..4, 8..9, 28..40, 42..44, 44..52, 54..55, 60..64];
        for at in 0..64 {
            let mut octets = THIRD;
            octets[at] ^= 0x40;
            let right = fixed_fields_right(&read_head(&octets));
            assert_eq!(right, !fixed.iter().any(|r| r.contains(&at)), "octet {at}");
        }
    }

    #[test]
    fn codes_on_both_sides_of_each_edge() {
        assert_eq!(code(0), Code::Nobody);
        assert_eq!(code(1), Code::User);
        assert_eq!(code(59_999), Code::User);
        assert_eq!(code(60_000), Code::System);
        assert_eq!(code(60_002), Code::System);
        assert_eq!(code(60_003), Code::Alive);
        assert_eq!(code(60_004), Code::System);
        assert_eq!(code(65_534), Code::System);
        assert_eq!(code(65_535), Code::Nobody);
    }

    #[test]
    fn mode_and_pri_on_both_sides() {
        assert!(mode_right(0) && mode_right(1) && !mode_right(2) && !mode_right(0x0100));
        assert!(pri_right(0) && pri_right(7) && !pri_right(8) && !pri_right(255));
    }
}
