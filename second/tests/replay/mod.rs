//! The calls, made again from their fields alone: "such a program needs nothing of
//! this page but "Lines", "What is at hand" and "The calls as fields"".

use second::alive::alive;
use second::clock::clock;
use second::cut::{cut_piece, HeaderValues};
use second::fault::{self, Parts};
use second::fields::{next_field, Next};
use second::multicast::{multicast, Tables};
use second::receiver::{message, part, question, Answer, Where};
use second::state::{setup, Groups, OpenMessage, Receiver, Sender, Setup};

/// A field as it is read: tag and contents.
pub type Field = (char, Vec<u8>);

/// "tag octet, two-octet length, contents"; a field that is cut is a panic here.
pub fn read(octets: &[u8]) -> Vec<Field> {
    let mut fields = Vec::new();
    let mut rest = octets;
    while !rest.is_empty() {
        let end = 3 + usize::from(rest[1]) * 256 + usize::from(rest[2]);
        fields.push((char::from(rest[0]), rest[3..end].to_vec()));
        rest = &rest[end..];
    }
    fields
}

/// The lines that the fields print.
pub fn lines_of(fields: &[Field]) -> Vec<String> {
    let mut replay = Replay {
        state: Receiver::empty(),
        storage: vec![0; 262_144],
        versions: vec![0; 1_040],
        numbers: vec![0; 1_040],
        lines: Vec::new(),
    };
    for (tag, contents) in fields {
        replay.field(*tag, contents);
    }
    replay.lines
}

/// Numbers read off the front of some contents.
struct Contents<'a>(&'a [u8]);

impl Contents<'_> {
    fn number(&mut self, size: usize) -> u64 {
        let (front, rest) = self.0.split_at(size);
        self.0 = rest;
        front.iter().fold(0, |n, octet| n * 256 + u64::from(*octet))
    }

    /// "number of groups (1), the eight group places (1 each)".
    fn groups(&mut self) -> Groups {
        Groups {
            count: self.number(1) as u8,
            places: [0; 8].map(|_| self.number(1) as u8),
        }
    }
}

/// The state in use, the storage, the tables, and the lines printed.
struct Replay {
    state: Receiver,
    storage: Vec<u8>,
    versions: Vec<u32>,
    numbers: Vec<u32>,
    lines: Vec<String>,
}

fn sum(octets: &[u8]) -> u64 {
    let next = |s, octet: &u8| (31 * s + u64::from(*octet)) % 4_294_967_296;
    octets.iter().fold(7, next)
}

/// "each entry as four octets, high octet first".
fn sum_of_entries(entries: &[u32]) -> u64 {
    let octets = entries.iter().map(|entry| entry.to_be_bytes());
    sum(octets.collect::<Vec<_>>().as_flattened())
}

impl Replay {
    /// One field: its call, and its lines if the tag prints.
    fn field(&mut self, tag: char, contents: &[u8]) {
        let line = match tag.to_ascii_uppercase() {
            '#' => format!("# {}", std::str::from_utf8(contents).unwrap()),
            'S' => self.setup(Contents(contents)),
            'P' => self.message(Contents(contents)),
            'A' => format!("A {}", alive(&mut self.state, contents)),
            'C' => self.clock(Contents(contents)),
            'Q' => self.ask(),
            'W' => self.show(),
            'H' => self.held(Contents(contents)),
            'T' => self.damage_state(Contents(contents)),
            'K' => cut(Contents(contents)),
            'R' if tag == 'r' => self.damage_sender(Contents(contents)),
            'R' => self.part(Contents(contents)),
            'M' => self.multicast(Contents(contents)),
            'E' if tag == 'e' => self.damage_entry(Contents(contents)),
            'E' => self.show_tables(),
            'G' => section_read(contents),
            'B' => module(Contents(contents)),
            'L' => error_of(Contents(contents)),
            'O' => options_of(contents),
            'Z' => section_written(Contents(contents)),
            'F' => field(contents),
            _ => panic!("no such tag: {tag:?}"),
        };
        if !tag.is_lowercase() {
            self.lines.extend(line.lines().map(str::to_string));
        }
    }

    fn setup(&mut self, mut contents: Contents) -> String {
        let mut wanted = Setup {
            mode: contents.number(1) as u8,
            n1: contents.number(2) as u16,
            t: contents.number(4) as u32,
            senders: Vec::new(),
            groups: Groups::default(),
        };
        let count = contents.number(1) as usize;
        for _ in 0..16 {
            let sender = (contents.number(1) as u8, contents.number(2) as u16);
            wanted.senders.push(sender);
        }
        // 17 or more: any further pair, so that the list is as long as that.
        wanted.senders.resize(count, (99, 99));
        wanted.groups = contents.groups();
        self.storage.fill(170);
        self.versions.fill(0);
        self.numbers.fill(0);
        let (number, state) = setup(&wanted);
        self.state = state;
        format!("S {number}")
    }

    fn message(&mut self, mut contents: Contents) -> String {
        let storage = &mut self.storage[..contents.number(4) as usize];
        let packet = contents.0;
        let a = message(&mut self.state, storage, packet);
        let delivered = part(a.message, packet, storage);
        let sums = format!("{} {}", sum(delivered), sum(storage));
        let dropped = format!("{} {}", a.dropped_version, a.dropped_number);
        let (number, verdict, length) = (a.number, a.verdict.number(), delivered.len());
        let (held, skipped, age) = (a.held, a.skipped, a.age);
        format!("P {number} {verdict} {held} {length} {skipped} {age} {dropped} {sums}")
    }

    fn clock(&mut self, mut contents: Contents) -> String {
        let answer = clock(&mut self.state, contents.number(8));
        format!("C {} {} {}", answer.number, answer.dropped, answer.dead)
    }

    fn ask(&self) -> String {
        match question(&self.state) {
            Answer::Refused(number) => format!("Q {number} 0 0 0 0"),
            Answer::NoneOpen => "Q 0 0 0 0 0".into(),
            Answer::Missing { sender, piece } => {
                let map = self.state.senders[sender].message.map;
                let by_ones = (1..).find(|c| map >> (c - 1) & 1 == 0).unwrap();
                format!("Q 0 1 {sender} {piece} {by_ones}")
            }
        }
    }

    fn show(&self) -> String {
        let s = &self.state;
        let (test, count) = (u8::from(s.test), s.senders.len());
        let mut lines = format!("W {test} {} {} {} {count}", s.n1, s.t, s.clock);
        lines += &format!(" {}", s.groups.count);
        lines.extend(s.groups.places.map(|place| format!(" {place}")));
        lines += "\n";
        for (place, sender) in s.senders.iter().enumerate() {
            lines += &sender_line(place, sender);
        }
        lines
    }

    /// "Where a state has a count above 16, places 16 and above give 0."
    fn held(&self, mut contents: Contents) -> String {
        let place = contents.number(1) as usize;
        let sender = self.state.senders.get(place).filter(|_| place < 16);
        let open = sender.filter(|sender| sender.open);
        format!("H {}", open.map_or(0, |sender| sender.message.held))
    }

    fn damage_state(&mut self, mut contents: Contents) -> String {
        self.state.test = contents.number(1) == 1;
        self.state.n1 = contents.number(2) as u16;
        self.state.t = contents.number(4) as u32;
        self.state.clock = contents.number(8);
        let count = contents.number(1) as usize;
        self.state.senders.resize(count, Sender::default());
        self.state.groups = contents.groups();
        String::new()
    }

    /// "A program that has no such place sets nothing".
    fn damage_sender(&mut self, mut contents: Contents) -> String {
        let place = contents.number(1) as usize;
        let damaged = sender_of(contents);
        if let Some(sender) = self.state.senders.get_mut(place) {
            *sender = damaged;
        }
        String::new()
    }

    fn multicast(&mut self, mut contents: Contents) -> String {
        let versions = contents.number(2) as usize;
        let numbers = contents.number(2) as usize;
        let group = contents.number(1) as u8;
        let tables = Tables {
            versions: &mut self.versions[..versions],
            numbers: &mut self.numbers[..numbers],
        };
        let packet = contents.0;
        let a = multicast(&self.state, tables, group, packet);
        let delivered = part(a.message, packet, &self.storage);
        let (verdict, length) = (a.verdict.number(), delivered.len());
        let tables = [&self.versions[..versions], &self.numbers[..numbers]];
        let [versions, numbers] = tables.map(sum_of_entries);
        let answer = format!("{} {verdict} {length} {} {}", a.number, a.skipped, a.age);
        format!("M {answer} {} {versions} {numbers}", sum(delivered))
    }

    fn damage_entry(&mut self, mut contents: Contents) -> String {
        let place = contents.number(2) as usize;
        self.versions[place] = contents.number(4) as u32;
        self.numbers[place] = contents.number(4) as u32;
        String::new()
    }

    fn show_tables(&self) -> String {
        let entry = |place: usize| (self.versions[place], self.numbers[place]);
        let in_use: Vec<usize> = (0..1_040).filter(|place| entry(*place) != (0, 0)).collect();
        let mut lines = format!("E {}\n", in_use.len());
        for place in in_use {
            let (version, number) = entry(place);
            lines += &format!("e {place} {version} {number}\n");
        }
        lines
    }

    fn part(&mut self, mut contents: Contents) -> String {
        let kind = contents.number(1);
        let start = contents.number(8) as usize;
        let length = contents.number(8) as usize;
        let place = match kind {
            0 => Where::Nothing,
            1 => Where::Packet,
            _ => Where::Storage { start, length },
        };
        let storage = &self.storage[..contents.number(4) as usize];
        let part = part(place, contents.0, storage);
        format!("R {} {}", part.len(), sum(part))
    }
}

fn sender_line(place: usize, sender: &Sender) -> String {
    let (o, open, alive) = (&sender.message, sender.open as u8, sender.alive as u8);
    let last = format!("{} {}", sender.last_version, sender.last_number);
    let named = format!("{} {} {} {} {}", o.version, o.seq, o.tcd, o.n, o.tbn);
    let cut = format!("{} {} {} {}", o.u, o.map, o.held, o.stamp);
    let heard = format!("{alive} {} {}", sender.alive_stamp, sender.al_tm_out);
    let pair = format!("{} {}", sender.field, sender.node);
    format!("w {place} {pair} {last} {open} {named} {cut} {heard}\n")
}

fn sender_of(mut contents: Contents) -> Sender {
    Sender {
        field: contents.number(1) as u8,
        node: contents.number(2) as u16,
        last_version: contents.number(4) as u32,
        last_number: contents.number(4) as u32,
        open: contents.number(1) == 1,
        message: OpenMessage {
            version: contents.number(4) as u32,
            seq: contents.number(4) as u32,
            tcd: contents.number(2) as u16,
            n: contents.number(2) as u16,
            tbn: contents.number(1) as u8,
            u: contents.number(2) as u16,
            map: contents.number(8),
            held: contents.number(1) as u8,
            stamp: contents.number(8),
        },
        alive: contents.number(1) == 1,
        alive_stamp: contents.number(8),
        al_tm_out: contents.number(4) as u32,
    }
}

fn cut(mut contents: Contents) -> String {
    let mut buffer = vec![170; contents.number(2) as usize];
    let (u, piece) = (contents.number(2) as usize, contents.number(1) as usize);
    let values = HeaderValues {
        field: contents.number(1) as u8,
        node: contents.number(2) as u16,
        da: contents.number(4) as u32,
        version: contents.number(4) as u32,
        seq: contents.number(4) as u32,
        m_ctl: contents.number(4) as u32,
        tcd: contents.number(2) as u16,
        mode: contents.number(2) as u16,
        pri: contents.number(1) as u8,
    };
    let answer = cut_piece(&values, contents.0, u, piece, &mut buffer);
    let (pdu, rest) = buffer.split_at(answer.length);
    let sums = format!("{} {}", sum(pdu), sum(rest));
    let line = format!("K {} {} {sums}\n", answer.number, answer.length);
    if answer.number != 0 {
        return line;
    }
    let octets = pdu[..64].iter().map(|octet| format!(" {octet}"));
    line + "k" + &octets.collect::<String>()
}

fn field(octets: &[u8]) -> String {
    match next_field(octets) {
        Next::End => "F 0 0 0 7".into(),
        Next::Cut => "F 1 0 0 7".into(),
        Next::Bad => "F 2 0 0 7".into(),
        Next::One { tag, contents, .. } => {
            format!("F 3 {tag} {} {}", contents.len(), sum(contents))
        }
    }
}

fn section_read(octets: &[u8]) -> String {
    let r = fault::read(octets);
    let name = r.name.iter().map(|octet| format!(" {octet}"));
    let name: String = name.collect();
    format!(
        "G {} {} {} {}{name}",
        r.number, r.modules, r.errors, r.options
    )
}

fn module(mut contents: Contents) -> String {
    let module = contents.number(4) as u32;
    format!("B {}", u8::from(fault::dead(contents.0, module)))
}

fn error_of(mut contents: Contents) -> String {
    let index = contents.number(4) as u32;
    let (module, error) = fault::error(contents.0, index);
    format!("L {module} {error}")
}

fn options_of(octets: &[u8]) -> String {
    let options = fault::options(octets);
    format!("O {} {}", options.len(), sum(options))
}

fn section_written(mut contents: Contents) -> String {
    let mut buffer = vec![170; contents.number(2) as usize];
    let modules = contents.number(4) as u32;
    let count = contents.number(2);
    let bits: Vec<u8> = (0..count).map(|_| contents.number(1) as u8).collect();
    let count = contents.number(2);
    let errors: Vec<u16> = (0..count).map(|_| contents.number(2) as u16).collect();
    let name = contents.number(8).to_be_bytes();
    let parts = Parts {
        modules,
        bits: &bits,
        errors: &errors,
        name,
        options: contents.0,
    };
    let written = fault::write(&parts, &mut buffer);
    let (section, rest) = buffer.split_at(written.length);
    let sums = format!("{} {}", sum(section), sum(rest));
    format!("Z {} {} {sums}", written.number, written.length)
}
