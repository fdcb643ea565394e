//! The library's calls as a stage for the scenes: each is made and kept, with up
//! to 16 senders.

use super::cast_scenes::{cast_anywhere, cast_between};
use super::past::Past;
use crate::dice::Dice;
use crate::scenes;
use crate::stage::Stage;
use crate::state::{Groups, Receiver, Setup, AREA, GROUPS_MOST, SENDERS_MOST};

/// The library's calls, made and kept.
pub struct Library {
    pub dice: Dice,
    pub past: Past,
}

impl Stage for Library {
    fn dice(&mut self) -> &mut Dice {
        &mut self.dice
    }

    fn receiver(&self) -> &Receiver {
        &self.past.receiver
    }

    fn senders_most(&self) -> u64 {
        SENDERS_MOST as u64
    }

    /// 0 to 8 of them, none twice; past the count stands anything.
    fn groups(&mut self) -> Groups {
        let dice = &mut self.dice;
        let any = dice.below(GROUPS_MOST as u64 + 1) as u8;
        let count = dice.one_of(&[0, 1, 2, 3, 8, any, any]);
        let mut groups = Groups {
            count,
            places: [0; GROUPS_MOST].map(|_| dice.one_of(&[0, 0, 1, 5, 255])),
        };
        for at in 0..usize::from(count) {
            groups.places[at] = self.another_group(&groups.places[..at]);
        }
        groups
    }

    /// A refused setup leaves the empty state: some calls meet it, then a good
    /// setup follows, since the scenes need senders.
    fn setup(&mut self, wanted: &Setup) {
        let places = self.places(wanted);
        self.past.set_up(wanted, &places);
        if self.past.receiver.senders.is_empty() {
            self.at_the_empty_state();
            scenes::new_setup(self);
        }
    }

    /// Now and then a group gets the same packet.
    fn message(&mut self, packet: &[u8]) {
        self.past.message(packet);
        if self.dice.one_in(10) {
            cast_anywhere(self, packet);
        }
        self.look();
    }

    fn alive(&mut self, packet: &[u8]) {
        self.past.alive_call(packet);
        self.look();
    }

    fn clock(&mut self, ms: u64) {
        self.past.clock(ms);
        self.look();
    }
}

impl Library {
    /// All 16 places of a setup: the senders, and behind them any pairs, which are
    /// not given.
    fn places(&mut self, wanted: &Setup) -> Vec<(u8, u16)> {
        let mut places = wanted.senders.clone();
        places.truncate(SENDERS_MOST);
        while places.len() < SENDERS_MOST {
            let any = self.dice.throw();
            places.push(self.dice.one_of(&[(0, 0), (1, 7), (any as u8, any as u16)]));
        }
        places
    }

    /// A group that is none of these.
    pub fn another_group(&mut self, taken: &[u8]) -> u8 {
        loop {
            let any = self.dice.between(1, 255) as u8;
            let group = self.dice.one_of(&[1, 2, 3, 5, 9, 128, 200, 254, 255, any]);
            if !taken.contains(&group) {
                return group;
            }
        }
    }

    /// The question, a kept count and a multicast call after every few calls, the
    /// state and the tables now and then.
    fn look(&mut self) {
        if self.dice.one_in(4) {
            self.past.ask();
        }
        if self.dice.one_in(4) {
            self.held_somewhere();
        }
        if self.dice.one_in(8) {
            cast_between(self);
        }
        if self.dice.one_in(40) {
            self.past.show();
        }
        if self.dice.one_in(80) {
            self.past.tables();
        }
    }

    /// The kept count at some place: of a sender with an open message, if there is
    /// one, of any sender, at the count, past it, at 16, at 255.
    pub fn held_somewhere(&mut self) {
        let senders = &self.past.receiver.senders;
        let count = senders.len() as u64;
        let open: Vec<u64> = (0..count).filter(|at| senders[*at as usize].open).collect();
        let any = self.dice.below(count.max(1));
        let busy = match open[..] {
            [] => any,
            _ => self.dice.one_of(&open),
        };
        let past = self.dice.between(count, 255);
        let places = [busy, busy, busy, any, any, count, past, 16, 255];
        self.past.held(self.dice.one_of(&places) as u8);
    }

    /// How many octets of storage a message call is to be lent.
    pub fn storage(&self) -> usize {
        AREA * self.past.receiver.senders.len()
    }

    /// A length of storage that is not the right one.
    pub fn wrong_length(&mut self) -> usize {
        let right = self.storage();
        let most = SENDERS_MOST * AREA;
        let any = self.dice.below(most as u64) as usize;
        let lengths = [
            0,
            right - AREA,
            right - 1,
            right + 1,
            right + AREA,
            most,
            any,
        ];
        let wrong: Vec<usize> = lengths
            .into_iter()
            .filter(|lent| *lent != right && *lent <= most)
            .collect();
        self.dice.one_of(&wrong)
    }

    /// Some calls of each kind.
    fn at_the_empty_state(&mut self) {
        let nobody = scenes::a_pdu_of_nobody();
        self.message(&nobody);
        let lent = self.dice.one_of(&[1, AREA, SENDERS_MOST * AREA]);
        self.past.message_lent(lent, &nobody);
        let signal = scenes::alive_pdu(&mut self.dice, (1, 7), 1, 60, &[]);
        self.alive(&signal);
        let ms = self.dice.below(1_000);
        scenes::tick(self, ms);
        self.past.ask();
        self.held_somewhere();
        cast_between(self);
        let lent = self.dice.one_of(&[[1, 0], [0, 1], [8, 8]]);
        self.past.multicast_lent(lent, 1, &nobody);
        self.past.show();
    }
}
