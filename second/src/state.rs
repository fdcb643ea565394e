//! The receiver's state: setup, the empty state, and the limits that number 9
//! asks about. The fields are public so that a test can damage them.

use crate::answers::STORED;
use crate::cut;
use crate::header::{self, Code};
use crate::numbers;

/// 01: "The storage is exactly 16,384 octets for each sender, in table order."
pub const AREA: usize = 16_384;
/// 01: "1 to 16 senders".
pub const SENDERS_MOST: usize = 16;
/// 02: "0 to 8 registered groups".
pub const GROUPS_MOST: usize = 8;
/// 01: "whole ms, 0 to 1,099,511,627,776".
pub const CLOCK_MOST: u64 = 1_099_511_627_776;

/// 01: "A sender has at most one open message, kept with V_SEQ, SEQ, TCD, n,
/// TBN, u and a 64-bit map of pieces held, piece c at bit c - 1, bit 0 lowest."
/// How many are held is kept beside the map. 02: "Every call keeps it equal to
/// the number of ones in the map". The stamp is the clock of the fragment stored
/// last.
#[derive(Clone, Debug, Default, PartialEq, Eq)]
pub struct OpenMessage {
    pub version: u32,
    pub seq: u32,
    pub tcd: u16,
    pub n: u16,
    pub tbn: u8,
    pub u: u16,
    pub map: u64,
    pub held: u8,
    pub stamp: u64,
}

/// One sender of the table. 01: "The record of a message not open, the stamp
/// and al_tm_out of a sender not alive [...] are written 0 and never looked at."
#[derive(Clone, Debug, Default, PartialEq, Eq)]
pub struct Sender {
    pub field: u8,
    pub node: u16,
    /// RV, "the last delivered version".
    pub last_version: u32,
    /// R, the last delivered number.
    pub last_number: u32,
    pub open: bool,
    pub message: OpenMessage,
    pub alive: bool,
    pub alive_stamp: u64,
    pub al_tm_out: u32,
}

impl Sender {
    /// "nothing is then open", and the record is written 0.
    pub fn close(&mut self) {
        self.open = false;
        self.message = OpenMessage::default();
    }

    /// "dead from then on", and the stamp and al_tm_out are written 0.
    pub fn die(&mut self) {
        self.alive = false;
        self.alive_stamp = 0;
        self.al_tm_out = 0;
    }
}

/// 02: "0 to 8 registered groups (0 in the program), numbered 1 to 255": how many,
/// and eight places. Those past the count are written 0 and never looked at.
#[derive(Clone, Copy, Debug, Default, PartialEq, Eq)]
pub struct Groups {
    pub count: u8,
    pub places: [u8; GROUPS_MOST],
}

impl Groups {
    /// The groups within the count. There is no place past the eighth, whatever the
    /// count says.
    pub fn registered(&self) -> &[u8] {
        &self.places[..usize::from(self.count).min(GROUPS_MOST)]
    }

    /// The group's place in the order of setup, from 0, if it is registered.
    pub fn place_of(&self, group: u8) -> Option<usize> {
        self.registered().iter().position(|place| *place == group)
    }

    /// The same groups, with 0 in each place past the count.
    fn written(&self) -> Groups {
        let mut places = [0; GROUPS_MOST];
        let registered = self.registered();
        places[..registered.len()].copy_from_slice(registered);
        Groups { places, ..*self }
    }
}

/// The whole state of one raft or shore desk.
#[derive(Clone, Debug, PartialEq, Eq)]
pub struct Receiver {
    pub test: bool,
    pub n1: u16,
    pub t: u32,
    pub clock: u64,
    pub senders: Vec<Sender>,
    pub groups: Groups,
}

impl Receiver {
    /// 01: "An empty state, with no senders, is what a refused setup returns
    /// (online, N1 1, T 1)". It has no groups either.
    pub fn empty() -> Receiver {
        Receiver {
            test: false,
            n1: 1,
            t: 1,
            clock: 0,
            senders: Vec::new(),
            groups: Groups::default(),
        }
    }

    /// The sender's place in the table, if it is registered.
    pub fn place_of(&self, field: u8, node: u16) -> Option<usize> {
        self.senders
            .iter()
            .position(|sender| (sender.field, sender.node) == (field, node))
    }

    /// 02: "The maintenance page asks twice a second how many pieces each sender
    /// has". The number kept for the sender at a place, from 0; 0 past the senders
    /// and where nothing is open. It is only read: nothing is counted, and no 9 is
    /// judged, so that a state outside its limits is answered too. There is no
    /// place past 01's 16, whatever the count says.
    pub fn held(&self, place: usize) -> u8 {
        match self.senders.iter().take(SENDERS_MOST).nth(place) {
            Some(sender) if sender.open => sender.message.held,
            _ => 0,
        }
    }
}

/// What setup takes: "the node's mode (online or test), N1 (1 to 1,024), the
/// drop time T in ms (1 to 600,000) and 1 to 16 senders, each a data field and
/// a node"; and by 02 the groups.
#[derive(Clone, Debug, PartialEq, Eq)]
pub struct Setup {
    /// "0 online, 1 test, any other meets 10".
    pub mode: u8,
    pub n1: u16,
    pub t: u32,
    pub senders: Vec<(u8, u16)>,
    pub groups: Groups,
}

/// Setup. "10 | setup outside its limits | empty state".
pub fn setup(setup: &Setup) -> (u8, Receiver) {
    if !setup_right(setup) {
        return (10, Receiver::empty());
    }
    let receiver = Receiver {
        test: setup.mode == 1,
        n1: setup.n1,
        t: setup.t,
        clock: 0,
        senders: setup.senders.iter().map(unheard).collect(),
        groups: setup.groups.written(),
    };
    (STORED, receiver)
}

/// 01: "At setup the clock is 0, nobody is heard, nothing is open and every
/// last version and number is 0."
fn unheard(&(field, node): &(u8, u16)) -> Sender {
    Sender {
        field,
        node,
        ..Sender::default()
    }
}

fn setup_right(setup: &Setup) -> bool {
    setup.mode <= 1
        && n1_right(setup.n1)
        && t_right(setup.t)
        && senders_right(&setup.senders)
        && groups_right(&setup.groups)
}

/// 01: "N1 (1 to 1,024)".
fn n1_right(n1: u16) -> bool {
    (1..=1_024).contains(&n1)
}

/// 01: "the drop time T in ms (1 to 600,000)".
fn t_right(t: u32) -> bool {
    (1..=600_000).contains(&t)
}

/// 01: "1 to 16 senders, each a data field and a node, no pair twice"; "Data
/// field numbers (1 to 255) and node numbers (1 to 4,095)".
fn senders_right(senders: &[(u8, u16)]) -> bool {
    let each_right = senders
        .iter()
        .all(|(field, node)| *field >= 1 && (1..=4_095).contains(node));
    let no_pair_twice = senders
        .iter()
        .enumerate()
        .all(|(i, pair)| !senders[..i].contains(pair));
    (1..=SENDERS_MOST).contains(&senders.len()) && each_right && no_pair_twice
}

/// 02: "10 for groups outside these limits or named twice".
fn groups_right(groups: &Groups) -> bool {
    let registered = groups.registered();
    let none_twice = registered
        .iter()
        .enumerate()
        .all(|(i, group)| !registered[..i].contains(group));
    usize::from(groups.count) <= GROUPS_MOST && !registered.contains(&0) && none_twice
}

/// Whether the state is inside the limits; where it is not, 9 is given: "a
/// state with a setting, sender, time, last number, open SEQ or open code
/// outside this paper's limits, a stamp after the clock, last number 0 under a
/// version not 0, or an open message with an impossible cut or a map that is
/// empty, full or marked past TBN". And by 02, of the number kept and the number
/// of ones in the map: "a state where they differ meets 9". Groups that setup would
/// refuse are "a setting [...] outside" its limits.
pub fn within_limits(receiver: &Receiver) -> bool {
    settings_right(receiver)
        && receiver.clock <= CLOCK_MOST
        && receiver
            .senders
            .iter()
            .all(|sender| sender_right(sender, receiver.clock))
}

/// The settings, the table of senders and the groups, as setup limits them. Of the
/// states without senders only the empty one passes: "9 lets it pass".
fn settings_right(receiver: &Receiver) -> bool {
    if receiver.senders.is_empty() {
        let settings = |state: &Receiver| (state.test, state.n1, state.t, state.groups.count);
        return settings(receiver) == settings(&Receiver::empty());
    }
    let pairs: Vec<(u8, u16)> = receiver
        .senders
        .iter()
        .map(|sender| (sender.field, sender.node))
        .collect();
    n1_right(receiver.n1)
        && t_right(receiver.t)
        && senders_right(&pairs)
        && groups_right(&receiver.groups)
}

fn sender_right(sender: &Sender, clock: u64) -> bool {
    last_number_right(sender)
        && (!sender.open || open_message_right(&sender.message, clock))
        && (!sender.alive || sender.alive_stamp <= clock)
}

/// A last number is 0 at setup and otherwise 1 to M; "last number 0 under a
/// version not 0" is outside.
fn last_number_right(sender: &Sender) -> bool {
    sender.last_number <= numbers::M && (sender.last_number != 0 || sender.last_version == 0)
}

/// "open SEQ or open code outside this paper's limits, a stamp after the clock,
/// [...] or an open message with an impossible cut or a map that is empty, full
/// or marked past TBN".
fn open_message_right(message: &OpenMessage, clock: u64) -> bool {
    numbers::seq_right(message.seq)
        && header::code(message.tcd) == Code::User
        && message.stamp <= clock
        && open_cut_possible(message)
        && open_map_right(message)
        && open_held_right(message)
}

/// A message of several pieces can be cut so: n at most 16,384, u 256 to 1,396
/// and "(TBN - 1) x u < n <= TBN x u". One piece is never open.
fn open_cut_possible(message: &OpenMessage) -> bool {
    let (n, u) = (u64::from(message.n), u64::from(message.u));
    let tbn = u64::from(message.tbn);
    n <= cut::N_MOST as u64 && tbn >= 2 && cut::u_right(u) && (tbn - 1) * u < n && n <= tbn * u
}

/// A map of pieces held: some are held, some are missing, none past TBN.
fn open_map_right(message: &OpenMessage) -> bool {
    let full = full_map(message.tbn);
    message.map != 0 && message.map != full && message.map & !full == 0
}

/// 01: "How many pieces are held is the count of ones in the map." 02 has the
/// number kept, and "a state where they differ meets 9".
fn open_held_right(message: &OpenMessage) -> bool {
    u32::from(message.held) == message.map.count_ones()
}

/// 01: "piece c at bit c - 1, bit 0 lowest." No bit for a piece outside 1 to 64.
pub fn bit(piece: u8) -> u64 {
    match piece {
        1..=64 => 1 << (piece - 1),
        _ => 0,
    }
}

/// 01: "trailing ones give the lowest missing piece".
pub fn lowest_missing(map: u64) -> u32 {
    map.trailing_ones() + 1
}

/// The map with all of a message's pieces held.
pub fn full_map(tbn: u8) -> u64 {
    (1..=tbn).fold(0, |map, piece| map | bit(piece))
}

#[cfg(test)]
mod tests {
    use super::*;

    fn good() -> Setup {
        Setup {
            mode: 0,
            n1: 16,
            t: 15_000,
            senders: vec![(1, 7), (2, 9)],
            groups: groups(3, &[5, 1, 255]),
        }
    }

    /// So many groups, and what stands in the first places.
    fn groups(count: u8, first: &[u8]) -> Groups {
        let mut places = [0; 8];
        places[..first.len()].copy_from_slice(first);
        Groups { count, places }
    }

    /// The setup's number; a refused one gives the empty state.
    fn number(change: &dyn Fn(&mut Setup)) -> u8 {
        let mut wanted = good();
        change(&mut wanted);
        let (number, receiver) = setup(&wanted);
        if number == 10 {
            assert_eq!(receiver, Receiver::empty());
        } else {
            assert!(within_limits(&receiver));
            assert_eq!(receiver.senders.len(), wanted.senders.len());
        }
        number
    }

    #[test]
    fn setup_starts_all_at_nought() {
        let (number, receiver) = setup(&good());
        assert_eq!(number, 0);
        assert_eq!(
            (receiver.test, receiver.n1, receiver.t),
            (false, 16, 15_000)
        );
        assert_eq!(receiver.clock, 0);
        let sender = &receiver.senders[1];
        assert_eq!((sender.field, sender.node), (2, 9));
        assert_eq!((sender.last_version, sender.last_number), (0, 0));
        assert!(!sender.open && !sender.alive);
        assert!(setup(&Setup { mode: 1, ..good() }).1.test);
    }

    #[test]
    fn row_10_settings_on_both_sides() {
        assert_eq!(number(&|s| s.mode = 1), 0);
        assert_eq!(number(&|s| s.mode = 2), 10);
        assert_eq!(number(&|s| s.mode = 255), 10);
        assert_eq!(number(&|s| s.n1 = 0), 10);
        assert_eq!(number(&|s| s.n1 = 1), 0);
        assert_eq!(number(&|s| s.n1 = 1_024), 0);
        assert_eq!(number(&|s| s.n1 = 1_025), 10);
        assert_eq!(number(&|s| s.t = 0), 10);
        assert_eq!(number(&|s| s.t = 1), 0);
        assert_eq!(number(&|s| s.t = 600_000), 0);
        assert_eq!(number(&|s| s.t = 600_001), 10);
    }

    #[test]
    fn row_10_senders_on_both_sides() {
        assert_eq!(number(&|s| s.senders.clear()), 10);
        assert_eq!(number(&|s| s.senders.truncate(1)), 0);
        let many =
            |count: u16| move |s: &mut Setup| s.senders = (1..=count).map(|i| (1, i)).collect();
        assert_eq!(number(&many(16)), 0);
        assert_eq!(number(&many(17)), 10);
        assert_eq!(number(&|s| s.senders[1] = (0, 9)), 10);
        assert_eq!(number(&|s| s.senders[1] = (255, 9)), 0);
        assert_eq!(number(&|s| s.senders[1] = (2, 0)), 10);
        assert_eq!(number(&|s| s.senders[1] = (2, 1)), 0);
        assert_eq!(number(&|s| s.senders[1] = (2, 4_095)), 0);
        assert_eq!(number(&|s| s.senders[1] = (2, 4_096)), 10);
        assert_eq!(number(&|s| s.senders[1] = (1, 7)), 10);
        assert_eq!(number(&|s| s.senders[1] = (1, 8)), 0);
        assert_eq!(number(&|s| s.senders[1] = (2, 7)), 0);
    }

    #[test]
    fn row_10_how_many_groups() {
        let eight = [1, 2, 3, 4, 5, 6, 7, 8];
        let with = |count: u8| number(&|s| s.groups = groups(count, &eight));
        assert_eq!((with(0), with(1), with(7), with(8)), (0, 0, 0, 0));
        assert_eq!((with(9), with(10), with(128), with(255)), (10, 10, 10, 10));
        assert_eq!(number(&|s| s.groups = groups(9, &[])), 10);
    }

    #[test]
    fn row_10_groups_0_1_and_255_in_each_place() {
        for place in 0..8 {
            let with = |group: u8| {
                number(&|s| {
                    s.groups = groups(8, &[11, 12, 13, 14, 15, 16, 17, 18]);
                    s.groups.places[place] = group;
                })
            };
            assert_eq!((with(0), with(1), with(255)), (10, 0, 0), "place {place}");
        }
        let one = |group: u8| number(&|s| s.groups = groups(1, &[group]));
        assert_eq!((one(0), one(1), one(255)), (10, 0, 0));
    }

    #[test]
    fn row_10_a_group_twice_in_any_two_places() {
        for one in 0..8 {
            for other in (0..8).filter(|other| *other != one) {
                let with = |count: u8| {
                    number(&|s| {
                        s.groups = groups(count, &[11, 12, 13, 14, 15, 16, 17, 18]);
                        s.groups.places[one] = s.groups.places[other];
                    })
                };
                assert_eq!(with(8), 10, "places {one} and {other}");
                // The later of the two, and what is behind it, past the count.
                assert_eq!(with(one.max(other) as u8), 0, "places {one} and {other}");
            }
        }
    }

    /// Only those past the count: 0 is none, and twice is not.
    #[test]
    fn places_past_the_count_are_not_looked_at_and_written_0() {
        for count in 0..8 {
            for past in [0, 1, 255] {
                let mut wanted = good();
                wanted.groups = groups(count, &[1, 2, 3, 4, 5, 6, 7, 8]);
                wanted.groups.places[count.into()..].fill(past);
                let (number, state) = setup(&wanted);
                assert_eq!(number, 0);
                let within = usize::from(count);
                assert_eq!(state.groups.count, count);
                assert_eq!(
                    state.groups.places[..within],
                    wanted.groups.places[..within]
                );
                assert!(state.groups.places[within..]
                    .iter()
                    .all(|place| *place == 0));
            }
        }
        assert_eq!(setup(&good()).1.groups, groups(3, &[5, 1, 255]));
        assert_eq!(Receiver::empty().groups, groups(0, &[]));
    }

    #[test]
    fn row_10_groups_beside_other_reasons() {
        let with = |count: u8, change: &dyn Fn(&mut Setup)| {
            number(&|s| {
                s.groups = groups(count, &[5]);
                change(s);
            })
        };
        for count in [0, 1, 2, 9] {
            assert_eq!(with(count, &|s| s.n1 = 0), 10);
            assert_eq!(with(count, &|s| s.senders.clear()), 10);
            assert_eq!(with(count, &|s| s.mode = 2), 10);
        }
        assert_eq!((with(1, &|_| ()), with(2, &|_| ())), (0, 10));
    }

    #[test]
    fn groups_by_their_places() {
        let three = groups(3, &[5, 1, 255, 7, 0]);
        assert_eq!(three.registered(), [5, 1, 255]);
        assert_eq!(
            [5, 1, 255].map(|group| three.place_of(group)),
            [Some(0), Some(1), Some(2)]
        );
        assert_eq!([0, 2, 7].map(|group| three.place_of(group)), [None; 3]);
        // There is no place past the eighth.
        assert_eq!(groups(255, &[1, 2, 3, 4, 5, 6, 7, 8]).registered().len(), 8);
        assert_eq!(groups(0, &[5]).place_of(5), None);
    }

    /// A state with everything in use: Figure 54's message open with pieces 1
    /// and 3 held, the second sender alive.
    fn busy() -> Receiver {
        let mut receiver = setup(&good()).1;
        receiver.clock = 1_000;
        let first = &mut receiver.senders[0];
        (first.last_version, first.last_number) = (5, 99);
        first.open = true;
        first.message = OpenMessage {
            version: 5,
            seq: 100,
            tcd: 1,
            n: 4_500,
            tbn: 4,
            u: 1_332,
            map: 0b0101,
            held: 2,
            stamp: 1_000,
        };
        let second = &mut receiver.senders[1];
        (second.alive, second.alive_stamp, second.al_tm_out) = (true, 1_000, 60);
        receiver
    }

    /// Does the busy state, so changed, pass 9?
    fn passes(change: &dyn Fn(&mut Receiver)) -> bool {
        let mut receiver = busy();
        change(&mut receiver);
        within_limits(&receiver)
    }

    /// Does it pass with this open message's n, TBN and u, map and count?
    fn passes_with(cut: (u16, u8, u16), map: u64, held: u8) -> bool {
        passes(&|r| {
            let open = &mut r.senders[0].message;
            (open.n, open.tbn, open.u) = cut;
            (open.map, open.held) = (map, held);
        })
    }

    #[test]
    fn trailing_ones_by_hand() {
        let pieces = [(0, 1), (0b0101, 2), (0b0111, 4), (0b1110, 1)];
        for (map, piece) in pieces {
            assert_eq!(lowest_missing(map), piece, "{map}");
        }
        assert_eq!(lowest_missing(u64::MAX / 2), 64);
        assert_eq!(lowest_missing(u64::MAX), 65);
    }

    #[test]
    fn row_9_settings_and_senders() {
        assert!(passes(&|_| ()));
        assert!(passes(&|r| r.test = true));
        assert!(!passes(&|r| r.n1 = 0) && passes(&|r| r.n1 = 1));
        assert!(passes(&|r| r.n1 = 1_024) && !passes(&|r| r.n1 = 1_025));
        assert!(!passes(&|r| r.t = 0) && passes(&|r| r.t = 1));
        assert!(passes(&|r| r.t = 600_000) && !passes(&|r| r.t = 600_001));
        assert!(!passes(&|r| r.senders[1].field = 0));
        assert!(!passes(&|r| r.senders[1].node = 0));
        assert!(!passes(&|r| r.senders[1].node = 4_096));
        assert!(passes(&|r| r.senders[1].node = 4_095));
        assert!(!passes(
            &|r| (r.senders[1].field, r.senders[1].node) = (1, 7)
        ));
        assert!(passes(&|r| (r.senders[1].field, r.senders[1].node) = (1, 9)));
        let count = |n: u16| {
            move |r: &mut Receiver| r.senders = (1..=n).map(|i| unheard(&(3, i))).collect()
        };
        assert!(passes(&count(16)) && !passes(&count(17)));
    }

    #[test]
    fn row_9_of_states_without_senders() {
        let empty = Receiver::empty();
        assert!(within_limits(&empty));
        let clock = CLOCK_MOST;
        assert!(within_limits(&Receiver {
            clock,
            ..empty.clone()
        }));
        let clock = CLOCK_MOST + 1;
        assert!(!within_limits(&Receiver {
            clock,
            ..empty.clone()
        }));
        assert!(!within_limits(&Receiver {
            test: true,
            ..empty.clone()
        }));
        assert!(!within_limits(&Receiver {
            n1: 2,
            ..empty.clone()
        }));
        assert!(!within_limits(&Receiver {
            t: 2,
            ..empty.clone()
        }));
        let with = |groups: Groups| {
            within_limits(&Receiver {
                groups,
                ..empty.clone()
            })
        };
        assert!(with(groups(0, &[])) && with(groups(0, &[5, 5, 0, 5])));
        assert!(!with(groups(1, &[5])) && !with(groups(8, &[1, 2, 3, 4, 5, 6, 7, 8])));
        assert!(!with(groups(1, &[0])) && !with(groups(9, &[])));
    }

    #[test]
    fn row_9_groups() {
        let eight = [1, 2, 3, 4, 5, 6, 7, 8];
        let with = |count: u8, first: &[u8]| passes(&|r| r.groups = groups(count, first));
        assert!(with(0, &[]) && with(1, &[1]) && with(1, &[255]) && with(8, &eight));
        assert!(!with(9, &eight) && !with(10, &eight) && !with(255, &eight));
        assert!(!with(1, &[0]) && !with(3, &[0, 1, 2]) && !with(3, &[1, 0, 2]));
        assert!(!with(3, &[1, 2, 0]) && !with(8, &[1, 2, 3, 4, 5, 6, 7, 0]));
        assert!(!with(2, &[7, 7]) && !with(3, &[7, 8, 7]) && !with(3, &[8, 7, 7]));
        assert!(!with(8, &[1, 2, 3, 4, 5, 6, 7, 1]));
        // Past the count stands anything.
        assert!(with(0, &[7, 7, 0, 7]) && with(1, &[7, 7, 0, 7]) && with(2, &[7, 8, 8, 0]));
        assert!(with(7, &[1, 2, 3, 4, 5, 6, 7, 7]) && with(7, &[1, 2, 3, 4, 5, 6, 7, 0]));
    }

    #[test]
    fn row_9_time_and_last_number() {
        assert!(passes(&|r| r.clock = CLOCK_MOST) && !passes(&|r| r.clock = CLOCK_MOST + 1));
        assert!(passes(&|r| r.senders[0].last_number = numbers::M));
        assert!(!passes(&|r| r.senders[0].last_number = numbers::M + 1));
        assert!(!passes(&|r| r.senders[0].last_number = 0));
        assert!(passes(&|r| (
            r.senders[0].last_version,
            r.senders[0].last_number
        ) = (0, 0)));
        assert!(passes(&|r| (
            r.senders[0].last_version,
            r.senders[0].last_number
        ) = (0, 9)));
        assert!(passes(&|r| r.senders[0].last_version = u32::MAX));
        let above = numbers::M + 1;
        assert!(!passes(&|r| (
            r.senders[0].last_version,
            r.senders[0].last_number
        ) = (0, above)));
    }

    #[test]
    fn row_9_stamps_are_not_after_the_clock() {
        assert!(!passes(&|r| r.senders[0].message.stamp = 1_001));
        assert!(passes(&|r| r.senders[0].message.stamp = 0));
        assert!(!passes(&|r| r.senders[1].alive_stamp = 1_001));
        assert!(passes(&|r| r.senders[1].alive_stamp = 0));
        assert!(passes(&|r| r.senders[1].al_tm_out = u32::MAX));
    }

    #[test]
    fn row_9_open_message() {
        let passes = |change: &dyn Fn(&mut OpenMessage)| {
            passes(&|r: &mut Receiver| change(&mut r.senders[0].message))
        };
        assert!(!passes(&|m| m.seq = 0) && passes(&|m| m.seq = 1));
        assert!(passes(&|m| m.seq = numbers::M) && !passes(&|m| m.seq = numbers::M + 1));
        assert!(passes(&|m| m.version = 0) && passes(&|m| m.version = u32::MAX));
        assert!(!passes(&|m| m.tcd = 0) && passes(&|m| m.tcd = 59_999));
        assert!(!passes(&|m| m.tcd = 60_000) && !passes(&|m| m.tcd = 60_003));
        assert!(!passes(&|m| m.n = 3_996) && passes(&|m| m.n = 3_997));
        assert!(passes(&|m| m.n = 5_328) && !passes(&|m| m.n = 5_329));
        assert!(!passes(&|m| m.tbn = 3) && !passes(&|m| m.tbn = 5));
        // Piece 1 is held of each of these.
        let cut = |n, tbn, u| passes_with((n, tbn, u), 1, 1);
        assert!(!cut(510, 2, 255) && cut(512, 2, 256));
        assert!(cut(2_792, 2, 1_396) && !cut(2_794, 2, 1_397));
        assert!(cut(16_384, 12, 1_396) && !cut(16_385, 12, 1_396));
        for (map, held) in [(0, 0), (1, 1), (2, 1), (3, 2)] {
            assert!(!passes_with((300, 1, 300), map, held), "{map}");
        }
    }

    #[test]
    fn row_9_map_empty_full_or_past_tbn() {
        let four = |map, held| passes_with((4_500, 4, 1_332), map, held);
        assert!(!four(0, 0) && four(1, 1));
        assert!(!four(0b1111, 4) && four(0b0111, 3));
        assert!(!four(0b1_0001, 2) && four(0b1000, 1));
        assert!(!four(1 << 63 | 1, 2));
        let widest = |map, held| passes_with((16_384, 64, 256), map, held);
        assert!(widest(1 << 63, 1) && widest(u64::MAX - 1, 63));
        assert!(!widest(u64::MAX, 64) && !widest(0, 0));
    }

    /// 02: "a state where they differ meets 9".
    #[test]
    fn row_9_held_unlike_the_ones_of_the_map() {
        let four = |map, held| passes_with((4_500, 4, 1_332), map, held);
        assert!(!four(0b0010, 0) && four(0b0010, 1) && !four(0b0010, 2));
        assert!(!four(0b0110, 1) && four(0b0110, 2) && !four(0b0110, 3));
        assert!(!four(0b1011, 2) && four(0b1011, 3) && !four(0b1011, 4));
        assert!(!four(0b0010, 255) && !four(0b1011, 0));
        // 64 + 1 and 128 + 1 would be 1 in fewer bits.
        assert!(!four(0b0001, 65) && !four(0b0001, 129));
        let widest = |map, held| passes_with((16_384, 64, 256), map, held);
        let all_but_piece_1 = u64::MAX - 1;
        assert!(!widest(all_but_piece_1, 62) && !widest(all_but_piece_1, 64));
        assert!(widest(all_but_piece_1, 63) && widest(u64::MAX >> 1, 63));
        assert!(!widest(1 << 63, 0) && !widest(1 << 63, 64));
    }

    /// One sender's count that differs is enough, wherever that sender stands.
    #[test]
    fn row_9_held_of_any_open_sender() {
        let both_open = |first: u8, last: u8| {
            passes(&|r| {
                r.senders[1].open = true;
                r.senders[1].message = r.senders[0].message.clone();
                (r.senders[0].message.held, r.senders[1].message.held) = (first, last);
            })
        };
        assert!(both_open(2, 2));
        assert!(!both_open(1, 2) && !both_open(2, 1) && !both_open(2, 3));
    }

    #[test]
    fn records_not_in_use_are_never_looked_at() {
        let damaged = OpenMessage {
            map: u64::MAX,
            held: 255,
            stamp: u64::MAX,
            ..OpenMessage::default()
        };
        assert!(passes(&|r| r.senders[1].message = damaged.clone()));
        assert!(passes(&|r| r.senders[1].message.held = 1));
        assert!(passes(&|r| r.senders[1].message.map = 1));
        assert!(passes(&|r| r.senders[0].alive_stamp = u64::MAX));
        assert!(passes(&|r| r.senders[0].al_tm_out = 7));
    }

    /// What is kept at each of these places, after a change of the busy state.
    fn held_at<const N: usize>(places: [usize; N], change: &dyn Fn(&mut Receiver)) -> [u8; N] {
        let mut receiver = busy();
        change(&mut receiver);
        places.map(|place| receiver.held(place))
    }

    #[test]
    fn held_at_each_place() {
        let places = [0, 1, 2, 15, 16, 255, usize::MAX];
        assert_eq!(held_at(places, &|_| ()), [2, 0, 0, 0, 0, 0, 0]);
        let none = held_at(places, &|r| r.senders[0].open = false);
        assert_eq!(none, [0; 7]);
        let second = held_at(places, &|r| r.senders.swap(0, 1));
        assert_eq!(second, [0, 2, 0, 0, 0, 0, 0]);
        assert_eq!(Receiver::empty().held(0), 0);
        assert_eq!(setup(&good()).1.held(1), 0);
    }

    /// The number kept, whatever the map says, and no 9.
    #[test]
    fn held_is_told_of_any_state() {
        for held in [0, 1, 3, 64, 255] {
            let kept = held_at([0, 1], &|r| r.senders[0].message.held = held);
            assert_eq!(kept, [held, 0]);
            let closed = held_at([1], &|r| r.senders[1].message.held = held);
            assert_eq!(closed, [0]);
        }
        let damages: [&dyn Fn(&mut Receiver); 5] = [
            &|r| r.n1 = 0,
            &|r| r.clock = u64::MAX,
            &|r| r.senders[0].message.map = 0,
            &|r| r.senders[0].message.stamp = 1_001,
            &|r| r.senders[1].field = 0,
        ];
        for damage in damages {
            assert!(!passes(damage));
            assert_eq!(held_at([0, 1], damage), [2, 0]);
        }
    }

    /// "1 to 16 senders": no place follows them.
    #[test]
    fn held_past_sixteen_senders() {
        let seventeen = |r: &mut Receiver| {
            let open = r.senders[0].clone();
            r.senders = (0..17).map(|_| open.clone()).collect();
        };
        assert_eq!(held_at([0, 14, 15, 16, 17], &seventeen), [2, 2, 2, 0, 0]);
    }

    #[test]
    fn bits_and_full_maps() {
        assert_eq!((bit(1), bit(2), bit(64)), (1, 2, 0x8000_0000_0000_0000));
        assert_eq!((bit(0), bit(65), bit(255)), (0, 0, 0));
        assert_eq!((full_map(2), full_map(4)), (0b11, 0b1111));
        assert_eq!((full_map(63), full_map(64)), (u64::MAX >> 1, u64::MAX));
    }
}
