//! `second capture`: a readable text turned into a capture, so that people can
//! write captures by hand. README.md tells the format.

use crate::alive;
use crate::cut;
use crate::fields::{field, setup_contents, TAG_ALIVE, TAG_CLOCK, TAG_MESSAGE, TAG_SETUP};
use crate::header::{self, Head, Place, HEADER};
use crate::octets;
use crate::section_text::section_of;
use crate::state::{Groups, Setup};

/// The longest message or piece that a text can write: a PDU's two-octet length
/// has no room for more.
const LONGEST: u128 = 65_535 - HEADER as u128;
/// Group 1 of data field 1, and M_CTL as in E.3.2 ("Multicast").
const USUAL_DA: u32 = 0x0001_0001;
const USUAL_ALIVE_DA: u32 = 0x0001_0000;
const USUAL_M_CTL: u32 = 0x8000_0000;

/// The capture that a text describes, or what is wrong with it and where.
pub fn capture_of(text: &str) -> Result<Vec<u8>, String> {
    let mut capture = Vec::new();
    for (at, line) in text.lines().enumerate() {
        let octets = octets_of(line).map_err(|what| format!("line {}: {what}", at + 1))?;
        capture.extend(octets);
    }
    Ok(capture)
}

/// The octets of one line; none for a blank line or a comment.
fn octets_of(line: &str) -> Result<Vec<u8>, String> {
    let before_comment = line.split('#').next().unwrap_or("");
    let words: Vec<&str> = before_comment.split_whitespace().collect();
    let Some((kind, words)) = words.split_first() else {
        return Ok(Vec::new());
    };
    match *kind {
        "setup" => setup_field(words),
        "pdu" => pdu_field(words),
        "clock" => clock_field(words),
        "alive" => alive_field(words),
        "raw" => raw_octets(words),
        other => Err(format!(
            "{other:?} begins no line; setup, pdu, clock, alive or raw does"
        )),
    }
}

/// A number in decimal, or in hexadecimal behind 0x; `_` may part its digits.
pub(crate) fn number_of(word: &str, most: u128) -> Result<u128, String> {
    let digits = word.replace('_', "");
    let number = match digits.strip_prefix("0x") {
        Some(hex) => u128::from_str_radix(hex, 16),
        None => digits.parse(),
    };
    match number {
        Ok(number) if number <= most => Ok(number),
        Ok(_) => Err(format!("{word} is above {most}")),
        Err(_) => Err(format!("{word:?} is no number")),
    }
}

/// Octets as pairs of hexadecimal digits.
pub(crate) fn hex_octets(word: &str) -> Result<Vec<u8>, String> {
    let wrong = || format!("{word:?} is not made of pairs of hexadecimal digits");
    let pairs = word.as_bytes().chunks(2).all(|pair| pair.len() == 2);
    if !pairs || !word.bytes().all(|digit| digit.is_ascii_hexdigit()) {
        return Err(wrong());
    }
    (0..word.len())
        .step_by(2)
        .map(|at| u8::from_str_radix(&word[at..at + 2], 16).map_err(|_| wrong()))
        .collect()
}

/// The `name=value` words of one line, taken one by one.
pub(crate) struct Values<'a> {
    pairs: Vec<(&'a str, &'a str)>,
}

impl<'a> Values<'a> {
    fn of(words: &[&'a str]) -> Result<Values<'a>, String> {
        let mut pairs: Vec<(&str, &str)> = Vec::new();
        for word in words {
            let (name, value) = word
                .split_once('=')
                .ok_or(format!("{word:?} is not of the form name=value"))?;
            if pairs.iter().any(|(other, _)| *other == name) {
                return Err(format!("{name}= stands twice"));
            }
            pairs.push((name, value));
        }
        Ok(Values { pairs })
    }

    pub(crate) fn take(&mut self, name: &str) -> Option<&'a str> {
        let at = self.pairs.iter().position(|(other, _)| *other == name)?;
        Some(self.pairs.remove(at).1)
    }

    /// The named number, or the usual one where it is not named.
    fn number(&mut self, name: &str, usual: u128, most: u128) -> Result<u128, String> {
        match self.take(name) {
            Some(word) => number_of(word, most).map_err(|what| format!("{name}=: {what}")),
            None => Ok(usual),
        }
    }

    pub(crate) fn u32(&mut self, name: &str, usual: u32) -> Result<u32, String> {
        Ok(self.number(name, usual.into(), u32::MAX.into())? as u32)
    }

    fn u16(&mut self, name: &str, usual: u16) -> Result<u16, String> {
        Ok(self.number(name, usual.into(), u16::MAX.into())? as u16)
    }

    fn u8(&mut self, name: &str, usual: u8) -> Result<u8, String> {
        Ok(self.number(name, usual.into(), u8::MAX.into())? as u8)
    }

    pub(crate) fn names(&self, name: &str) -> bool {
        self.pairs.iter().any(|(other, _)| *other == name)
    }

    fn wants(&self, names: &[&str]) -> Result<(), String> {
        match names.iter().find(|name| !self.names(name)) {
            Some(name) => Err(format!("{name}= is wanting")),
            None => Ok(()),
        }
    }

    /// Every word has been taken, or it is one that means nothing here.
    fn finish(&self) -> Result<(), String> {
        match self.pairs.first() {
            Some((name, _)) => Err(format!("{name}= means nothing in this line")),
            None => Ok(()),
        }
    }
}

/// `setup online n1=16 t=15000 senders=1:7,2:9`
fn setup_field(words: &[&str]) -> Result<Vec<u8>, String> {
    let (mode, words) = match words.split_first() {
        Some((&"online", rest)) => (Some(0), rest),
        Some((&"test", rest)) => (Some(1), rest),
        _ => (None, words),
    };
    let mut values = Values::of(words)?;
    let mode = match mode {
        Some(mode) => mode,
        None => {
            values.wants(&["mode"])?;
            values.u8("mode", 0)?
        }
    };
    values.wants(&["senders"])?;
    let setup = Setup {
        mode,
        n1: values.u16("n1", 16)?,
        t: values.u32("t", 15_000)?,
        senders: senders_of(values.take("senders").unwrap_or(""))?,
        groups: Groups::default(),
    };
    values.finish()?;
    whole_field(TAG_SETUP, &setup_contents(&setup))
}

/// `1:7,2:9`: data field and node of each sender.
fn senders_of(list: &str) -> Result<Vec<(u8, u16)>, String> {
    let pairs = list.split(',').filter(|pair| !pair.is_empty());
    pairs
        .map(|pair| {
            let (field, node) = pair
                .split_once(':')
                .ok_or(format!("senders=: {pair:?} is not field:node"))?;
            let field = number_of(field, u8::MAX.into())? as u8;
            let node = number_of(node, u16::MAX.into())? as u16;
            Ok((field, node))
        })
        .collect()
}

fn whole_field(tag: u8, contents: &[u8]) -> Result<Vec<u8>, String> {
    field(tag, contents).ok_or(format!("{} octets are too many", contents.len()))
}

/// `clock 1000`
fn clock_field(words: &[&str]) -> Result<Vec<u8>, String> {
    let [ms] = words else {
        return Err("clock wants one number of ms".into());
    };
    let ms = number_of(ms, u64::MAX.into())? as u64;
    whole_field(TAG_CLOCK, &ms.to_be_bytes())
}

/// `raw 02 00 01 ff`: octets as they stand, without tag or length of their own.
fn raw_octets(words: &[&str]) -> Result<Vec<u8>, String> {
    if words.is_empty() {
        return Err("raw wants octets".into());
    }
    let octets: Result<Vec<Vec<u8>>, String> = words.iter().map(|word| hex_octets(word)).collect();
    Ok(octets?.concat())
}

/// The rule that gives each octet of a message.
enum Fill {
    Count,
    Constant(u8),
    Given(Vec<u8>),
}

impl Fill {
    /// `count`, a number 0 to 255, or `hex:` and octets.
    fn of(word: &str) -> Result<Fill, String> {
        if word == "count" {
            return Ok(Fill::Count);
        }
        if let Some(hex) = word.strip_prefix("hex:") {
            return match hex_octets(hex)? {
                octets if octets.is_empty() => Err("fill=hex: wants octets".into()),
                octets => Ok(Fill::Given(octets)),
            };
        }
        let octet = number_of(word, u8::MAX.into()).map_err(|what| format!("fill=: {what}"))?;
        Ok(Fill::Constant(octet as u8))
    }

    /// Octet `i` of the message, from 0.
    fn octet(&self, i: usize) -> u8 {
        match self {
            Fill::Count => (i % 256 * 7 + 3) as u8,
            Fill::Constant(octet) => *octet,
            Fill::Given(octets) => octets[i % octets.len()],
        }
    }

    /// The message length where the line names none.
    fn own_length(&self) -> u128 {
        match self {
            Fill::Given(octets) => octets.len() as u128,
            _ => 0,
        }
    }
}

/// `pdu field=1 node=7 version=5 seq=100 n=4500 u=1332 piece=3 ...`
fn pdu_field(words: &[&str]) -> Result<Vec<u8>, String> {
    let mut values = Values::of(words)?;
    values.wants(&["field", "node", "version", "seq"])?;
    let fill = Fill::of(values.take("fill").unwrap_or("count"))?;
    let n = values.number("n", fill.own_length(), LONGEST)? as usize;
    let u = values.number("u", cut::U_MOST as u128, LONGEST)? as usize;
    let piece = values.u8("piece", 1)? as usize;
    let pieces = pieces_of(n, u)?;
    if !(1..=pieces.into()).contains(&piece) {
        return Err(format!(
            "piece={piece}: the message has {pieces}; cbn= writes a wrong number"
        ));
    }
    let start = cut::place_of(piece, u);
    let length = cut::length_of(piece, n, u);
    let usual = Head {
        ml: (n + HEADER) as u32,
        da: USUAL_DA,
        m_ctl: USUAL_M_CTL,
        tcd: 1,
        cbn: piece as u8,
        tbn: pieces,
        bsize: (HEADER + length) as u16,
        ..Head::fixed()
    };
    let mut packet = vec![0; HEADER];
    packet.extend((start..start + length).map(|i| fill.octet(i)));
    let head = named_head(&mut values, usual, "mode")?;
    finish_packet(values, TAG_MESSAGE, &head, packet)
}

fn pieces_of(n: usize, u: usize) -> Result<u8, String> {
    if u == 0 {
        return Err("u=0 cuts nothing".into());
    }
    u8::try_from(cut::pieces(n, u)).map_err(|_| format!("n={n} u={u} makes more than 255 pieces"))
}

/// The header with each value that the line names in the place of the usual one.
fn named_head(values: &mut Values, usual: Head, mode: &str) -> Result<Head, String> {
    let inq_most = (1 << 96) - 1;
    let inq_id = values.number("inq", 0, inq_most)?.to_be_bytes();
    let gtid = values.number("gtid", 0, u64::MAX.into())? as u64;
    Ok(Head {
        h_type: h_type_of(values.take("htype"))?,
        ml: values.u32("ml", usual.ml)?,
        domain: values.u8("domain", usual.domain)?,
        field: values.u8("field", usual.field)?,
        node: values.u16("node", usual.node)?,
        da: values.u32("da", usual.da)?,
        version: values.u32("version", usual.version)?,
        seq: values.u32("seq", usual.seq)?,
        m_ctl: values.u32("mctl", usual.m_ctl)?,
        inq_id: octets::run_of(&inq_id, 4),
        tcd: values.u16("tcd", usual.tcd)?,
        ver: values.u16("ver", usual.ver)?,
        gtid: gtid.to_be_bytes(),
        mode: values.u16(mode, usual.mode)?,
        pver: values.u8("pver", usual.pver)?,
        pri: values.u8("pri", usual.pri)?,
        cbn: values.u8("cbn", usual.cbn)?,
        tbn: values.u8("tbn", usual.tbn)?,
        bsize: values.u16("bsize", usual.bsize)?,
        fui: values.u32("fui", usual.fui)?,
    })
}

/// `htype=NUXN`, four characters, or a number of four octets.
fn h_type_of(word: Option<&str>) -> Result<[u8; 4], String> {
    let Some(word) = word else {
        return Ok(header::NUXM);
    };
    match <[u8; 4]>::try_from(word.as_bytes()) {
        Ok(four) => Ok(four),
        Err(_) => {
            let number = number_of(word, u32::MAX.into())
                .map_err(|what| format!("htype=: neither four characters nor a number: {what}"))?;
            Ok((number as u32).to_be_bytes())
        }
    }
}

/// Lays the header, then cuts or lengthens the PDU to `length=` octets.
fn finish_packet(
    mut values: Values,
    tag: u8,
    head: &Head,
    mut packet: Vec<u8>,
) -> Result<Vec<u8>, String> {
    header::write_head(head, &mut packet);
    let length = values.number("length", packet.len() as u128, u16::MAX.into())?;
    packet.resize(length as usize, 0);
    values.finish()?;
    whole_field(tag, &packet)
}

/// `alive field=1 node=7 mode=1 timeout=60 ...`
fn alive_field(words: &[&str]) -> Result<Vec<u8>, String> {
    let mut values = Values::of(words)?;
    values.wants(&["field", "node"])?;
    let section = section_of(&mut values)?;
    let whole = u16::try_from(alive::ALIVE_LEAST + section.len())
        .map_err(|_| format!("{} octets of a section are too many", section.len()))?;
    let size = values.u16("size", whole)?;
    let fill = values.u8("fill", 0)?;
    let mut packet = vec![fill; alive::ALIVE_LEAST];
    packet.extend(section);
    packet.resize(alive::ALIVE_LEAST.max(size.into()), fill);
    lay_alive_header(&mut values, &mut packet)?;
    let usual = Head {
        ml: size.into(),
        da: USUAL_ALIVE_DA,
        seq: 1,
        m_ctl: USUAL_M_CTL,
        tcd: 60_003,
        pri: 1,
        cbn: 1,
        tbn: 1,
        bsize: size,
        ..Head::fixed()
    };
    let head = named_head(&mut values, usual, "msgmode")?;
    header::write_head(&head, &mut packet);
    packet.truncate(size.into());
    finish_packet(values, TAG_ALIVE, &head, packet)
}

/// Table 8's places, as the line names them.
fn lay_alive_header(values: &mut Values, packet: &mut [u8]) -> Result<(), String> {
    lay_name(values, "name", packet, alive::AL_ND_NAME)?;
    lay_name(values, "os", packet, alive::AL_OS_NAME)?;
    let numbers = [
        ("timeout", alive::AL_TM_OUT, 60),
        ("serno", alive::AL_MSGSERNO, 0),
        ("mode", alive::AL_MODE, 1),
        ("protocol", alive::AL_PROTOCOL, 4),
        ("fu1", alive::FU1, 0),
        ("chgtime", alive::AL_CHG_TIME, 0),
        ("ip0", alive::AL_IPADDR_0, 0),
        ("ip1", alive::AL_IPADDR_1, 0),
        ("alver", alive::AL_VER, 1),
    ];
    for (name, place, usual) in numbers {
        let number = values.number(name, usual, (1 << (8 * place.size)) - 1)?;
        octets::write(packet, place.start, place.size, number as u64);
    }
    Ok(())
}

/// A name of up to 10 ASCII characters, with 0 behind it.
fn lay_name(values: &mut Values, name: &str, packet: &mut [u8], at: Place) -> Result<(), String> {
    let word = values.take(name).unwrap_or("");
    if !word.is_ascii() || word.len() > at.size {
        return Err(format!("{name}=: at most {} ASCII characters", at.size));
    }
    let mut run = word.as_bytes().to_vec();
    run.resize(at.size, 0);
    octets::lay(packet, at.start, &run);
    Ok(())
}

#[cfg(test)]
mod tests {
    use super::*;
    use crate::header::read_head;

    fn capture(line: &str) -> Vec<u8> {
        capture_of(line).unwrap()
    }

    #[test]
    fn small_fields_octet_by_octet() {
        let expected = [
            1, 0, 13, 1, 4, 0, 0, 9, 0x27, 0xc0, 1, 0, 7, 255, 0x0f, 0xff,
        ];
        let line = "setup test n1=1024 t=600000 senders=1:7,255:4095";
        assert_eq!(capture(line), expected);
        let line = "setup mode=1 senders=1:7,255:4095 n1=0x400 t=600_000 # as before";
        assert_eq!(capture(line), expected);
        assert_eq!(capture("clock 1000"), [3, 0, 8, 0, 0, 0, 0, 0, 0, 3, 0xe8]);
        assert_eq!(
            capture("raw 02 00 01 ff\n\n# raw 00\nraw 0a0b"),
            [2, 0, 1, 0xff, 10, 11]
        );
        assert_eq!(
            capture("setup online senders="),
            [1, 0, 7, 0, 0, 16, 0, 0, 0x3a, 0x98]
        );
    }

    #[test]
    fn a_pdu_stands_as_in_figure_54() {
        let field = capture("pdu field=1 node=7 version=5 seq=100 n=4500 u=1332 piece=4");
        assert_eq!(field[..3], [2, 0x02, 0x38]);
        let head = read_head(&field[3..]);
        assert_eq!((head.seq, head.cbn, head.tbn), (100, 4, 4));
        assert_eq!((head.bsize, head.ml), (568, 4564));
        assert_eq!((head.version, head.field, head.node), (5, 1, 7));
        // Octet i of the message is (i * 7 + 3) mod 256; piece 4 begins at 3996.
        assert_eq!(field[67], ((3996 * 7 + 3) % 256) as u8);
        assert_eq!(field[3 + 567], ((4499 * 7 + 3) % 256) as u8);
    }

    #[test]
    fn every_header_value_can_be_named() {
        let line = "pdu field=2 node=65535 version=3 seq=0xffffffff ml=4 domain=5 da=6 mctl=7 \
                    inq=8 tcd=9 ver=10 gtid=11 mode=12 pver=13 pri=14 cbn=15 tbn=16 bsize=17 \
                    fui=18 htype=abcd length=64";
        let expected = Head {
            h_type: *b"abcd",
            ml: 4,
            domain: 5,
            field: 2,
            node: 65535,
            da: 6,
            version: 3,
            seq: u32::MAX,
            m_ctl: 7,
            inq_id: [0, 0, 0, 0, 0, 0, 0, 0, 0, 0, 0, 8],
            tcd: 9,
            ver: 10,
            gtid: [0, 0, 0, 0, 0, 0, 0, 11],
            mode: 12,
            pver: 13,
            pri: 14,
            cbn: 15,
            tbn: 16,
            bsize: 17,
            fui: 18,
        };
        assert_eq!(read_head(&capture(line)[3..]), expected);
    }

    #[test]
    fn fills_and_lengths() {
        let start = "pdu field=1 node=7 version=5 seq=1";
        assert_eq!(capture(&format!("{start} fill=hex:0a0b"))[67..], [10, 11]);
        assert_eq!(
            capture(&format!("{start} n=3 fill=hex:0a0b"))[67..],
            [10, 11, 10]
        );
        assert_eq!(
            capture(&format!("{start} n=2 fill=0x55"))[67..],
            [0x55, 0x55]
        );
        assert_eq!(capture(&format!("{start} n=2"))[67..], [3, 10]);
        let longer = capture(&format!("{start} n=2 length=68"));
        assert_eq!(longer[67..], [3, 10, 0, 0]);
        assert_eq!((longer[2], read_head(&longer[3..]).bsize), (68, 66));
        assert_eq!(capture(&format!("{start} length=0")), [2, 0, 0]);
    }

    #[test]
    fn an_alive_signal_stands_as_in_table_8() {
        let line = "alive field=1 node=2 name=node2 os=HI_PC_win timeout=40 mode=2 ip0=0x80000001 \
                    serno=0x0102 chgtime=0x03040506 fu1=9 ip1=7 protocol=4 alver=1 fill=0xee size=130";
        let field = capture(line);
        assert_eq!(field[..3], [4, 0, 130]);
        let packet = &field[3..];
        assert_eq!(packet[64..74], *b"node2\0\0\0\0\0");
        assert_eq!(packet[74..84], *b"HI_PC_win\0");
        assert_eq!(packet[84..92], [0, 0, 0, 40, 1, 2, 2, 4]);
        assert_eq!(packet[92..101], [9, 3, 4, 5, 6, 0x80, 0, 0, 1]);
        assert_eq!(packet[101..106], [0, 0, 0, 7, 1]);
        assert_eq!(packet[106..], [0xee; 24]);
        let head = read_head(packet);
        assert_eq!((head.tcd, head.pri, head.cbn, head.tbn), (60_003, 1, 1, 1));
        assert_eq!((head.ml, head.bsize, head.da & 0xffff), (130, 130, 0));
        assert_eq!(capture("alive field=1 node=2 size=100").len(), 103);
    }

    #[test]
    fn a_wrong_line_is_told_by_its_number() {
        let wrong = [
            "sett",
            "clock",
            "clock x",
            "clock 1 2",
            "clock 18446744073709551616",
            "raw",
            "raw 0",
            "raw xy",
            "setup online",
            "setup senders=1:7",
            "setup test senders=1",
            "setup test senders=256:1",
            "setup online n1=65536 senders=1:7",
            "pdu field=1 node=7 version=5",
            "pdu field=1 node=7 version=5 seq=1 seq=1",
            "pdu field=1 node=7 version=5 seq=1 what=1",
            "pdu field=1 node=7 version=5 seq=1 n",
            "pdu field=1 node=7 version=5 seq=1 piece=2",
            "pdu field=256 node=7 version=5 seq=1",
            "pdu field=1 node=7 version=5 seq=1 piece=0",
            "pdu field=1 node=7 version=5 seq=1 u=0",
            "pdu field=1 node=7 version=5 seq=1 n=512 u=2",
            "alive field=1",
            "pdu field=1 node=7 version=5 seq=1 htype=NUX",
            "alive field=1 node=7 name=elevenchars",
            "pdu field=1 node=7 version=5 seq=1 fill=hex:",
            "alive field=1 node=7 mode=256",
        ];
        for line in wrong {
            let said = capture_of(&format!("clock 1\n# fine\n{line}\n")).unwrap_err();
            assert!(said.starts_with("line 3: "), "{line}: {said}");
        }
    }
}
