//! The maintenance tally: a thin layer above the receiver.

use crate::answers::DELIVERED;
use crate::receiver::{message, MessageAnswer};
use crate::state::Receiver;

/// 01: "one record of the caller's, counted up where it stands: one count of
/// answers 0 and 1, one of refusals, each stopping at 4,294,967,295."
#[derive(Clone, Copy, Debug, Default, PartialEq, Eq)]
pub struct Tally {
    pub answers: u32,
    pub refusals: u32,
}

/// The message call, counted.
pub fn counted_message(
    tally: &mut Tally,
    receiver: &mut Receiver,
    storage: &mut [u8],
    packet: &[u8],
) -> MessageAnswer {
    let answer = message(receiver, storage, packet);
    let count = if answer.number <= DELIVERED {
        &mut tally.answers
    } else {
        &mut tally.refusals
    };
    *count = count.saturating_add(1);
    answer
}
