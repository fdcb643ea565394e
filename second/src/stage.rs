//! What the scenes are played on: a capture that is written, or the library's own
//! calls.

use crate::dice::Dice;
use crate::state::{Groups, Receiver, Setup};

/// A past that goes on call by call. Each call is also made, so that a scene can
/// look at the state that its next call will meet.
pub trait Stage {
    fn dice(&mut self) -> &mut Dice;

    /// The state that the calls so far have left.
    fn receiver(&self) -> &Receiver;

    /// How many senders a setup may have here.
    fn senders_most(&self) -> u64;

    /// The groups of a good setup.
    fn groups(&mut self) -> Groups;

    fn setup(&mut self, wanted: &Setup);
    fn message(&mut self, packet: &[u8]);
    fn alive(&mut self, packet: &[u8]);
    fn clock(&mut self, ms: u64);
}
