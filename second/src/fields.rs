//! The program over tagged fields: reading the next field, one step of a run,
//! the line that an answer gives; and writing fields.

use crate::alive::alive;
use crate::answers::REPEAT;
use crate::clock::clock;
use crate::octets;
use crate::receiver::{message, part};
use crate::state::{setup, Groups, Receiver, Setup, AREA};

pub const TAG_SETUP: u8 = 1;
pub const TAG_MESSAGE: u8 = 2;
pub const TAG_CLOCK: u8 = 3;
pub const TAG_ALIVE: u8 = 4;

/// One good field of a capture.
#[derive(Clone, Debug, PartialEq, Eq)]
pub enum Field<'a> {
    Setup(Setup),
    Message(&'a [u8]),
    Clock(u64),
    Alive(&'a [u8]),
}

/// What stands at the front of a capture. A whole field is given as it stands
/// there (tag and contents) and as what it asks for.
#[derive(Clone, Debug, PartialEq, Eq)]
pub enum Next<'a> {
    End,
    Cut,
    Bad,
    One {
        tag: u8,
        contents: &'a [u8],
        field: Field<'a>,
        rest: &'a [u8],
    },
}

/// Octets of a field's head: tag and length.
const FIELD_HEAD: usize = 3;

/// 01: "The program reads tagged fields: tag octet, two-octet length, contents;
/// its own numbers have the high octet first." `docs/EDGES.md`: "The head is
/// judged first: where its 3 octets are there and bad, the field is bad, whether
/// or not its contents are cut."
pub fn next_field(capture: &[u8]) -> Next<'_> {
    if capture.is_empty() {
        return Next::End;
    }
    let Some((head, behind)) = capture.split_at_checked(FIELD_HEAD) else {
        return Next::Cut;
    };
    let (tag, length) = (head[0], octets::read(head, 1, 2) as usize);
    let Some(reader) = reader_of(tag, length) else {
        return Next::Bad;
    };
    let Some((contents, rest)) = behind.split_at_checked(length) else {
        return Next::Cut;
    };
    Next::One {
        tag,
        contents,
        field: reader(contents),
        rest,
    }
}

/// Makes a field of the contents behind its head, all of them.
type Reader<'a> = fn(&'a [u8]) -> Field<'a>;

/// The reader for a head's contents; None where the head is bad. 01: "Tag 2
/// message PDU, 3 clock (8 octets), 4 alive PDU. [...] Bad is another tag, tag 1
/// not of 10, 13, 16 or 19 octets, tag 3 not of 8; a PDU of any length goes to its
/// call."
fn reader_of<'a>(tag: u8, length: usize) -> Option<Reader<'a>> {
    match (tag, length) {
        (TAG_SETUP, 10 | 13 | 16 | 19) => Some(|contents| Field::Setup(setup_of(contents))),
        (TAG_MESSAGE, _) => Some(Field::Message),
        (TAG_CLOCK, 8) => Some(|contents| Field::Clock(octets::read(contents, 0, 8))),
        (TAG_ALIVE, _) => Some(Field::Alive),
        _ => None,
    }
}

/// 01: "Tag 1 setup: mode (1 octet: 0 online, 1 test, any other meets 10), N1
/// (2), T (4), then data field (1) and node (2) for each of 1 to 4 senders." 02:
/// "0 to 8 registered groups (0 in the program)".
fn setup_of(contents: &[u8]) -> Setup {
    Setup {
        mode: contents[0],
        n1: octets::read(contents, 1, 2) as u16,
        t: octets::read(contents, 3, 4) as u32,
        senders: contents[7..]
            .chunks_exact(3)
            .map(|sender| (sender[0], octets::read(sender, 1, 2) as u16))
            .collect(),
        groups: Groups::default(),
    }
}

/// A run: the state in use and the storage lent to it. 01: "Before a setup the
/// empty state serves".
pub struct Run {
    pub receiver: Receiver,
    pub storage: Vec<u8>,
}

impl Default for Run {
    fn default() -> Run {
        Run {
            receiver: Receiver::empty(),
            storage: Vec::new(),
        }
    }
}

impl Run {
    /// One step: the call that the field asks for, and its line.
    pub fn step(&mut self, field: &Field) -> String {
        match field {
            Field::Setup(wanted) => self.setup_line(wanted),
            Field::Message(packet) => self.message_line(packet),
            Field::Clock(ms) => self.clock_line(*ms),
            Field::Alive(packet) => format!("A {}", alive(&mut self.receiver, packet)),
        }
    }

    /// "S answer". "a refused setup leaves the state in use."
    fn setup_line(&mut self, wanted: &Setup) -> String {
        let (number, receiver) = setup(wanted);
        if number == 0 {
            self.storage = vec![0; AREA * receiver.senders.len()];
            self.receiver = receiver;
        }
        format!("S {number}")
    }

    /// "P answer verdict held length (held: pieces then held for the PDU's
    /// sender, 0 on a refusal; length of a delivery, otherwise 0)". 02 of a repeat's
    /// age: "the program prints it as the P line's length."
    fn message_line(&mut self, packet: &[u8]) -> String {
        let answer = message(&mut self.receiver, &mut self.storage, packet);
        let delivered = part(answer.message, packet, &self.storage);
        let length = match answer.number {
            REPEAT => answer.age as usize,
            _ => delivered.len(),
        };
        let (number, verdict) = (answer.number, answer.verdict.number());
        format!("P {number} {verdict} {} {length}", answer.held)
    }

    /// "C answer, dropped map, dead map (both 0 on a refusal)".
    fn clock_line(&mut self, ms: u64) -> String {
        let answer = clock(&mut self.receiver, ms);
        format!("C {} {} {}", answer.number, answer.dropped, answer.dead)
    }
}

/// The lines of a whole capture, a newline after each. 01: "A bad or cut field
/// ends the run with the line "E"."
pub fn run(capture: &[u8]) -> String {
    let mut run = Run::default();
    let mut lines = String::new();
    let mut rest = capture;
    loop {
        match next_field(rest) {
            Next::End => return lines,
            Next::Cut | Next::Bad => return lines + "E\n",
            Next::One {
                field,
                rest: behind,
                ..
            } => {
                lines += &run.step(&field);
                lines.push('\n');
                rest = behind;
            }
        }
    }
}

/// A field written out: tag, length, contents. None where the contents are too
/// long for a two-octet length.
pub fn field(tag: u8, contents: &[u8]) -> Option<Vec<u8>> {
    let length = u16::try_from(contents.len()).ok()?;
    let mut field = vec![tag];
    field.extend(length.to_be_bytes());
    field.extend(contents);
    Some(field)
}

/// The contents of a setup field, in which there are no groups.
pub fn setup_contents(setup: &Setup) -> Vec<u8> {
    let mut contents = vec![setup.mode];
    contents.extend(setup.n1.to_be_bytes());
    contents.extend(setup.t.to_be_bytes());
    for (field, node) in &setup.senders {
        contents.push(*field);
        contents.extend(node.to_be_bytes());
    }
    contents
}

#[cfg(test)]
mod tests {
    use super::*;

    const SETUP: [u8; 13] = [1, 0, 10, 0, 0, 16, 0, 0, 0x3a, 0x98, 1, 0, 7];

    #[test]
    fn a_setup_field_octet_by_octet() {
        let expected = Setup {
            mode: 0,
            n1: 16,
            t: 15_000,
            senders: vec![(1, 7)],
            groups: Groups::default(),
        };
        assert_eq!(field(1, &setup_contents(&expected)).unwrap(), SETUP);
        assert_eq!(one(&SETUP), (Field::Setup(expected), &[][..]));
    }

    /// The first field of a capture, and the octets behind it.
    fn one(capture: &[u8]) -> (Field<'_>, &[u8]) {
        match next_field(capture) {
            Next::One { field, rest, .. } => (field, rest),
            other => panic!("{other:?}"),
        }
    }

    #[test]
    fn fields_follow_one_another() {
        let capture = [3, 0, 8, 0, 0, 0, 0, 0, 0, 3, 0xe8, 2, 0, 1, 0xff, 4, 0, 0];
        let (clock, rest) = one(&capture);
        assert_eq!(clock, Field::Clock(1000));
        let (pdu, rest) = one(rest);
        assert_eq!(pdu, Field::Message(&[0xff]));
        assert_eq!(one(rest), (Field::Alive(&[]), &[][..]));
        assert_eq!(run(&capture), "C 0 0 0\nP 12 0 0 0\nA 12\n");
    }

    #[test]
    fn a_field_is_cut_bad_or_whole() {
        assert_eq!(next_field(&[]), Next::End);
        for cut in [&[2][..], &[9], &[9, 0], &[2, 0, 1], &[1, 0, 10, 7]] {
            assert_eq!(next_field(cut), Next::Cut, "{cut:?}");
        }
        for bad in [&[9, 0, 0][..], &[0, 0, 1, 7], &[1, 0, 0], &[3, 0, 1, 7, 7]] {
            assert_eq!(next_field(bad), Next::Bad, "{bad:?}");
        }
        for bad_and_cut in [&[9, 0, 1][..], &[1, 0, 9], &[3, 0, 9, 7], &[0, 255, 255]] {
            assert_eq!(next_field(bad_and_cut), Next::Bad, "{bad_and_cut:?}");
        }
        let whole = Next::One {
            tag: 2,
            contents: &[7],
            field: Field::Message(&[7]),
            rest: &[8, 9],
        };
        assert_eq!(next_field(&[2, 0, 1, 7, 8, 9]), whole);
    }

    #[test]
    fn bad_and_cut_fields_end_the_run() {
        assert_eq!(run(&[]), "");
        assert_eq!(run(&[2]), "E\n");
        assert_eq!(run(&[2, 0]), "E\n");
        assert_eq!(run(&[2, 0, 0]), "P 12 0 0 0\n");
        assert_eq!(run(&[2, 0, 1]), "E\n");
        assert_eq!(run(&[2, 0, 2, 0]), "E\n");
        assert_eq!(run(&[0, 0, 0]), "E\n");
        assert_eq!(run(&[5, 0, 0]), "E\n");
        assert_eq!(run(&[255, 0, 0]), "E\n");
        assert_eq!(run(&[9, 0, 1]), "E\n");
        assert_eq!(run(&[3, 0, 9, 0]), "E\n");
        assert_eq!(run(&[3, 0, 7, 0, 0, 0, 0, 0, 0, 0]), "E\n");
        assert_eq!(run(&[3, 0, 9, 0, 0, 0, 0, 0, 0, 0, 0, 0]), "E\n");
        let good_then_bad = [&SETUP[..], &[9, 0, 0], &SETUP[..]].concat();
        assert_eq!(run(&good_then_bad), "S 0\nE\n");
    }

    #[test]
    fn setups_of_each_length() {
        for length in 0..=25u16 {
            let mut contents = vec![0, 0, 16, 0, 0, 0x3a, 0x98];
            contents.extend((1..=6u8).flat_map(|node| [1, 0, node]));
            contents.truncate(length.into());
            let expected = match length {
                10 | 13 | 16 | 19 => "S 0\n",
                _ => "E\n",
            };
            let capture = field(1, &contents).unwrap();
            assert_eq!(run(&capture), expected, "{length} octets");
        }
    }

    #[test]
    fn a_refused_setup_leaves_the_state_in_use() {
        let clock = |ms: u8| [3, 0, 8, 0, 0, 0, 0, 0, 0, 0, ms];
        let mut refused = SETUP;
        refused[3] = 2;
        let capture = [
            &SETUP[..],
            &clock(9),
            &refused,
            &clock(8),
            &SETUP,
            &clock(8),
        ]
        .concat();
        assert_eq!(
            run(&capture),
            "S 0\nC 0 0 0\nS 10\nC 21 0 0\nS 0\nC 0 0 0\n"
        );
    }

    #[test]
    fn the_empty_state_serves_before_a_setup() {
        let clock = |ms: u8| [3, 0, 8, 0, 0, 0, 0, 0, 0, 0, ms];
        assert_eq!(run(&[clock(9), clock(8)].concat()), "C 0 0 0\nC 21 0 0\n");
    }
}
