//! The clock call, which alone moves time.

use crate::answers::{first_that_applies, STORED};
use crate::state::{within_limits, Receiver, CLOCK_MOST};

/// "reports both as 16-bit maps, first sender lowest."
#[derive(Clone, Copy, Debug, PartialEq, Eq)]
pub struct ClockAnswer {
    pub number: u8,
    pub dropped: u16,
    pub dead: u16,
}

/// 01: "Only the clock call moves time: whole ms, 0 to 1,099,511,627,776, never
/// back, equal allowed. It drops each open message whose age is T or more and
/// calls dead each alive sender whose age is al_tm_out or more".
pub fn clock(receiver: &mut Receiver, ms: u64) -> ClockAnswer {
    if let Some(number) = refusal(receiver, ms) {
        return ClockAnswer {
            number,
            dropped: 0,
            dead: 0,
        };
    }
    receiver.clock = ms;
    ClockAnswer {
        number: STORED,
        dropped: drop_old(receiver),
        dead: bury_silent(receiver),
    }
}

/// "clock 9, 21": "21 | clock back or above its limit".
fn refusal(receiver: &Receiver, ms: u64) -> Option<u8> {
    first_that_applies(&[
        (9, !within_limits(receiver)),
        (21, ms < receiver.clock || ms > CLOCK_MOST),
    ])
}

/// "It drops each open message whose age is T or more".
fn drop_old(receiver: &mut Receiver) -> u16 {
    let (now, t) = (receiver.clock, u64::from(receiver.t));
    let mut dropped = 0;
    for (at, sender) in receiver.senders.iter_mut().enumerate() {
        if sender.open && now - sender.message.stamp >= t {
            sender.close();
            dropped |= 1 << at;
        }
    }
    dropped
}

/// "and calls dead each alive sender whose age is al_tm_out or more". Table 8:
/// "This interval (in seconds)".
fn bury_silent(receiver: &mut Receiver) -> u16 {
    let now = receiver.clock;
    let mut dead = 0;
    for (at, sender) in receiver.senders.iter_mut().enumerate() {
        let longest = 1_000 * u64::from(sender.al_tm_out);
        if sender.alive && now - sender.alive_stamp >= longest {
            sender.die();
            dead |= 1 << at;
        }
    }
    dead
}
