//! What is at hand while the edges are run, and the calls of `docs/EDGES.md`.

use super::calls;
use super::pdu::{self, Laid};
use super::table::{senders, values_of};
use crate::alive::alive;
use crate::clock::clock;
use crate::fields::field;
use crate::receiver::{message, part, question, Answer};
use crate::state::{lowest_missing, setup, Groups, Receiver, Sender, Setup, AREA, SENDERS_MOST};

/// 01: "A past is a setup, storage of its right length with any octets in it,
/// and then calls, each given the state and storage that the one before left."
/// The state may be damaged between two calls. Each call is kept twice, as its
/// lines and as its field, so that both come from one list of calls.
pub struct Past {
    pub receiver: Receiver,
    pub storage: Vec<u8>,
    /// The two tables that multicast calls are lent.
    pub versions: Vec<u32>,
    pub numbers: Vec<u32>,
    pub lines: String,
    pub fields: Vec<u8>,
    quiet: bool,
    /// How many calls are still to be kept; behind them nothing is, though the
    /// calls go on.
    left: usize,
}

/// "the whole storage is filled with octet 170"; a cutter's buffer is too.
pub const FILL: u8 = 170;
/// "The tables: two of 1,040 entries each, versions and numbers".
pub const TABLE: usize = 1_040;

impl Past {
    /// A past of which all calls are kept.
    pub fn new() -> Past {
        Past::of(usize::MAX)
    }

    /// A past of which the first `calls` that print are kept, with all that stands
    /// before them.
    pub fn of(calls: usize) -> Past {
        Past {
            receiver: Receiver::empty(),
            storage: vec![FILL; SENDERS_MOST * AREA],
            versions: vec![0; TABLE],
            numbers: vec![0; TABLE],
            lines: String::new(),
            fields: Vec::new(),
            quiet: false,
            left: calls,
        }
    }

    /// All calls that were wanted are kept.
    pub fn is_full(&self) -> bool {
        self.left == 0
    }

    /// Keeps a call that was made: "A capital one makes its call and prints its
    /// lines; the small one makes the same call and prints nothing".
    pub fn made(&mut self, tag: char, contents: &[u8], lines: &str) {
        if self.quiet {
            self.write(tag.to_ascii_lowercase(), contents);
            return;
        }
        if self.is_full() {
            return;
        }
        self.write(tag, contents);
        self.lines += lines;
        self.lines.push('\n');
        if tag != '#' {
            self.left -= 1;
        }
    }

    /// Writes a field that prints nothing of itself. "A tag is a letter, in
    /// ASCII."
    pub fn write(&mut self, tag: char, contents: &[u8]) {
        if self.is_full() {
            return;
        }
        let field = field(tag as u8, contents).expect("no call needs more than 65,535 octets");
        self.fields.extend(field);
    }

    /// "Every section begins with fresh(), after its # line."
    pub fn section(&mut self, title: &str) {
        self.title(title);
        self.fresh();
    }

    /// "Prints the # line. Makes no call".
    pub fn title(&mut self, title: &str) {
        self.made('#', title.as_bytes(), &format!("# {title}"));
    }

    /// Makes calls, "printing nothing".
    pub fn quietly(&mut self, calls: fn(&mut Past)) {
        let before = self.quiet;
        self.quiet = true;
        calls(self);
        self.quiet = before;
    }

    /// "mode 0, N1 16, T 15000, senders 1:7 and 2:9".
    pub fn fresh(&mut self) {
        self.quietly(|past| past.setup([0, 16, 15_000, 2, 2, 9]));
    }

    /// "setup(mode, n1, t, count, field, node)": without groups.
    pub fn setup(&mut self, values: [u32; 6]) {
        self.setup_with(values, Groups::default());
    }

    /// The same with groups.
    pub fn setup_with(&mut self, values: [u32; 6], groups: Groups) {
        let [mode, n1, t, count, field, node] = values;
        let second = (field as u8, node as u16);
        let wanted = Setup {
            mode: mode as u8,
            n1: n1 as u16,
            t,
            senders: senders(count, second),
            groups,
        };
        self.set_up(&wanted, &senders(SENDERS_MOST as u32, second));
    }

    /// "Fills the whole storage with octet 170, clears both tables [...] and calls
    /// setup"; the state is what setup returns, "also on a refusal". The places are
    /// those of "a program that holds 16 places and a count beside them".
    pub fn set_up(&mut self, wanted: &Setup, places: &[(u8, u16)]) {
        let (number, receiver) = setup(wanted);
        self.storage.fill(FILL);
        self.versions.fill(0);
        self.numbers.fill(0);
        self.receiver = receiver;
        let contents = calls::setup(wanted, places);
        self.made('S', &contents, &format!("S {number}"));
    }

    pub fn piece(&mut self, values: [u32; 8]) {
        self.message(&pdu::piece(values));
    }

    pub fn number(&mut self, version: u32, seq: u32) {
        self.message(&pdu::number(version, seq));
    }

    pub fn laid(&mut self, laid: &[Laid]) {
        self.message(&pdu::with(pdu::number(5, 100), laid));
    }

    pub fn raw(&mut self, ml: u32, bsize: u16, cbn: u8, tbn: u8, lent: usize) {
        self.message(&pdu::raw(ml, bsize, cbn, tbn, lent));
    }

    pub fn lend(&mut self, storage: usize, octets: usize) {
        self.message_lent(storage, &pdu::number(5, 100)[..octets]);
    }

    /// Lends the storage of every sender.
    pub fn message(&mut self, packet: &[u8]) {
        self.message_lent(AREA * self.receiver.senders.len(), packet);
    }

    /// "P number verdict held length skipped age dropped-version dropped-number
    /// part-sum storage-sum".
    pub fn message_lent(&mut self, lent: usize, packet: &[u8]) {
        let storage = &mut self.storage[..lent];
        let answer = message(&mut self.receiver, storage, packet);
        let delivered = part(answer.message, packet, storage);
        let numbers = [
            answer.number.into(),
            answer.verdict.number().into(),
            answer.held,
            delivered.len() as u32,
            answer.skipped,
            answer.age,
            answer.dropped_version,
            answer.dropped_number,
            sum(delivered),
            sum(storage),
        ];
        let line = format!("P {}", joined(&numbers));
        self.made('P', &calls::message(lent, packet), &line);
    }

    pub fn alive(&mut self, field: u32, node: u32, al_mode: u32, al_tm_out: u32) {
        self.alive_call(&pdu::alive(field, node, al_mode, al_tm_out));
    }

    pub fn alive_laid(&mut self, laid: &[Laid]) {
        self.alive_call(&pdu::with(pdu::alive(1, 7, 1, 60), laid));
    }

    pub fn alive_sized(&mut self, ml: u32, bsize: u16, lent: usize) {
        self.alive_call(&pdu::alive_sized(ml, bsize, lent));
    }

    pub fn alive_call(&mut self, packet: &[u8]) {
        let number = alive(&mut self.receiver, packet);
        self.made('A', packet, &format!("A {number}"));
    }

    pub fn clock(&mut self, ms: u64) {
        let answer = clock(&mut self.receiver, ms);
        let line = format!("C {} {} {}", answer.number, answer.dropped, answer.dead);
        self.made('C', &ms.to_be_bytes(), &line);
    }

    /// "Q number open place piece by-ones": "otherwise 0 0 0 0, also on a refusal".
    pub fn ask(&mut self) {
        let line = match question(&self.receiver) {
            Answer::Refused(number) => format!("Q {number} 0 0 0 0"),
            Answer::NoneOpen => "Q 0 0 0 0 0".into(),
            Answer::Missing { sender, piece } => {
                let by_ones = lowest_missing(self.receiver.senders[sender].message.map);
                format!("Q 0 1 {sender} {piece} {by_ones}")
            }
        };
        self.made('Q', &[], &line);
    }

    /// "H held".
    pub fn held(&mut self, place: u8) {
        let held = self.receiver.held(place.into());
        self.made('H', &[place], &format!("H {held}"));
    }

    /// The kept count at each of these places.
    pub fn held_at(&mut self, places: &[u8]) {
        for place in places {
            self.held(*place);
        }
    }

    /// Damage: the state in use becomes this one, by fields for all that differs.
    /// The settings come first, since a record stands at a place that the count
    /// gives.
    pub fn damage_to(&mut self, state: Receiver) {
        let before = std::mem::replace(&mut self.receiver, state.clone());
        if calls::settings(&before) != calls::settings(&state) {
            self.write('t', &calls::settings(&state));
        }
        for (place, sender) in state.senders.iter().take(SENDERS_MOST).enumerate() {
            if before.senders.get(place) != Some(sender) {
                self.write('r', &calls::record(place, sender));
            }
        }
    }

    /// "W test n1 t clock count groups g1 g2 ... g8", and a w line for each sender.
    pub fn show(&mut self) {
        let state = &self.receiver;
        let (count, groups) = (state.senders.len(), state.groups.count);
        let mut lines = vec![format!(
            "W {} {} {} {} {count} {groups} {}",
            u8::from(state.test),
            state.n1,
            state.t,
            state.clock,
            joined(&state.groups.places)
        )];
        lines.extend(state.senders.iter().enumerate().map(sender_line));
        self.made('W', &[], &lines.join("\n"));
    }
}

/// "w place field node rv r open version number tcd n tbn u map held stamp alive
/// heard-stamp al_tm_out".
fn sender_line((place, sender): (usize, &Sender)) -> String {
    format!("w {}", joined(&values_of(place, sender)))
}

/// "one blank between".
pub fn joined<N: ToString>(numbers: &[N]) -> String {
    let words: Vec<String> = numbers.iter().map(N::to_string).collect();
    words.join(" ")
}

/// "s = 7; then, for each octet in order, s = (31 x s + octet) mod 2^32."
pub fn sum(octets: &[u8]) -> u32 {
    octets.iter().fold(7, |s: u32, octet| {
        s.wrapping_mul(31).wrapping_add(u32::from(*octet))
    })
}

#[cfg(test)]
mod tests {
    use super::*;

    #[test]
    fn sums_by_hand() {
        assert_eq!(sum(&[]), 7);
        assert_eq!(sum(&[1]), 218);
        assert_eq!(sum(&[1, 2]), 6_760);
        // 31 x 6760 + 255 = 209815, and so on past 2^32 = 4294967296:
        // 6504265, 201632215, 6250598665 - 4294967296 = 1955631369.
        assert_eq!(sum(&[1, 2, 255, 0, 0, 0]), 1_955_631_369);
    }
}
