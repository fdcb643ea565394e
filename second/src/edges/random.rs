//! `second edges-random` and `second edges-random-calls`: random calls of the
//! library, the same for the same SEED. The scenes of random captures are played,
//! and those that a capture cannot show.

use super::library::Library;
use super::own_scenes::{OwnScene, OWN_SCENES};
use super::past::Past;
use crate::dice::Dice;
use crate::scenes::{self, Scene, SCENES};

/// The lines of `count` calls, with those of titles and senders among them.
pub fn lines(seed: u64, count: usize) -> String {
    past(seed, count).lines
}

/// The same calls, each one field, with the damage among them.
pub fn calls_as_fields(seed: u64, count: usize) -> Vec<u8> {
    past(seed, count).fields
}

fn past(seed: u64, count: usize) -> Past {
    let mut library = Library {
        dice: Dice::new(seed),
        past: Past::of(count),
    };
    play(&mut library);
    library.past
}

/// A scene that captures have too, or one of the library's own.
#[derive(Clone, Copy)]
enum Turn {
    Shared(Scene),
    Own(OwnScene),
}

/// Deals all scenes in random order, again and again, until enough calls are kept.
fn play(library: &mut Library) {
    scenes::new_setup(library);
    while !library.past.is_full() {
        let mut deck: Vec<Turn> = SCENES.map(Turn::Shared).to_vec();
        deck.extend(OWN_SCENES.map(Turn::Own));
        library.dice.shuffle(&mut deck);
        for turn in deck {
            take(library, turn);
        }
    }
}

fn take(library: &mut Library, turn: Turn) {
    match turn {
        _ if library.past.is_full() => (),
        Turn::Shared(scene) => scene(library),
        Turn::Own(scene) => scene(library),
    }
}
