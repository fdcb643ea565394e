//! Random calls of the fault section: read, its parts read, and written.

use super::fault_calls::{
    error_call, module_call, options_call, read_call, write_call, BUFFER_MOST,
};
use super::library::Library;
use crate::dice::Dice;
use crate::fault::bits_length;
use crate::octets;
use crate::sections::{broken_plan, broken_section, good_plan, good_section, SectionPlan};

/// Good sections most of the time, and broken ones; of each some modules, some
/// errors, and the options.
pub fn sections_read(library: &mut Library) {
    for _ in 0..8 {
        let dice = &mut library.dice;
        let octets = match dice.one_in(3) {
            true => broken_section(dice),
            false => good_section(dice),
        };
        let past = &mut library.past;
        read_call(past, &octets);
        options_call(past, &octets);
        for _ in 0..2 {
            module_call(past, a_module(dice, &octets), &octets);
            error_call(past, an_index(dice, &octets), &octets);
        }
    }
}

fn count_at(octets: &[u8], place: usize) -> u32 {
    octets::read(octets, place, 4) as u32
}

/// The first, the last, one past it, any within the count, none, and any at all.
fn a_module(dice: &mut Dice, octets: &[u8]) -> u32 {
    let count = count_at(octets, 0);
    let within = dice.between(1, u64::from(count.max(1))) as u32;
    let any = dice.throw() as u32;
    let modules = [
        0,
        1,
        within,
        within,
        within,
        count,
        count.wrapping_add(1),
        any,
    ];
    dice.one_of(&modules)
}

/// An error's index in the same way.
fn an_index(dice: &mut Dice, octets: &[u8]) -> u32 {
    let place = 4 + bits_length(count_at(octets, 0)) as usize;
    let count = count_at(octets, place);
    let within = dice.below(u64::from(count.max(1))) as u32;
    let any = dice.throw() as u32;
    let indices = [
        0,
        within,
        within,
        count.wrapping_sub(1),
        count,
        1 << 30,
        any,
    ];
    dice.one_of(&indices)
}

/// Good ones most of the time, and ones broken in each way that 23 and 24 name.
pub fn sections_written(library: &mut Library) {
    for _ in 0..12 {
        let dice = &mut library.dice;
        let plan = match dice.below(6) {
            0 => broken_plan(dice),
            1 => not_as_told(dice),
            _ => good_plan(dice),
        };
        let buffer = a_buffer(dice, &plan);
        write_call(&mut library.past, &plan.parts(), buffer);
    }
}

/// Octets of bits, numbers of errors or a module count that do not agree.
fn not_as_told(dice: &mut Dice) -> SectionPlan {
    let mut plan = good_plan(dice);
    let length = plan.bits.len();
    match dice.below(4) {
        0 => plan.bits.resize(dice.one_of(&[length + 1, length + 4]), 0),
        1 => plan
            .bits
            .truncate(dice.one_of(&[0, length.saturating_sub(1)])),
        2 => plan.numbers.push(dice.one_of(&[0, 1, u16::MAX])),
        _ => {
            let any = dice.throw() as u32;
            plan.modules = dice.one_of(&[10_593, 4_294_967_265, u32::MAX, any]);
        }
    }
    plan
}

/// As long as needed, longer, or short; one that is at hand.
fn a_buffer(dice: &mut Dice, plan: &SectionPlan) -> usize {
    let most = BUFFER_MOST as u128;
    let needed = plan.parts().needed().min(most) as usize;
    let short = dice.below(needed as u64) as usize;
    let long = dice.between(needed as u64, BUFFER_MOST as u64) as usize;
    let buffers = [needed, needed, needed + 1, long, needed - 1, short, 1_344];
    dice.one_of(&buffers).min(BUFFER_MOST)
}
