//! Random fault sections: good ones, and ones broken in each way that 24 names.

use crate::dice::Dice;
use crate::fault::{bits_length, Parts, SECTION_LEAST, SECTION_MOST};
use crate::octets;

/// What a section is made of, right or wrong.
#[derive(Clone)]
pub struct SectionPlan {
    pub modules: u32,
    pub bits: Vec<u8>,
    /// Module, error, module, error, and so on.
    pub numbers: Vec<u16>,
    pub name: [u8; 8],
    pub options: Vec<u8>,
}

impl SectionPlan {
    pub fn parts(&self) -> Parts<'_> {
        Parts {
            modules: self.modules,
            bits: &self.bits,
            errors: &self.numbers,
            name: self.name,
            options: &self.options,
        }
    }

    /// The octets in Table 9's order, whether or not they are a section.
    pub fn octets(&self) -> Vec<u8> {
        let mut octets = self.modules.to_be_bytes().to_vec();
        octets.extend(&self.bits);
        octets.extend((self.numbers.len() as u32 / 2).to_be_bytes());
        octets.extend(self.name);
        octets.extend(self.numbers.iter().flat_map(|number| number.to_be_bytes()));
        octets.extend((self.options.len() as u32).to_be_bytes());
        octets.extend(&self.options);
        octets
    }

    /// Octets that are left up to 1,344.
    fn room(&self) -> usize {
        SECTION_MOST - self.octets().len()
    }

    /// More modules than before, each dead or alive.
    fn set_modules(&mut self, dice: &mut Dice, modules: u32) {
        self.modules = modules;
        self.bits = vec![0; bits_length(modules) as usize];
        let seldom = dice.between(1, 4);
        for place in 0..modules as usize {
            if dice.one_in(seldom) {
                self.bits[place / 8] |= 1 << (place % 8);
            }
        }
    }

    fn add_errors(&mut self, dice: &mut Dice, count: usize) {
        for _ in 0..count {
            let module = dice.between(1, 65_535) as u16;
            let near = dice.between(1, 40) as u16;
            self.numbers
                .push(dice.one_of(&[1, 256, u16::MAX, near, near, module]));
            let error = dice.throw() as u16;
            self.numbers.push(dice.one_of(&[0, 1, u16::MAX, error]));
        }
    }

    fn add_options(&mut self, dice: &mut Dice, count: usize) {
        self.options.extend(any_octets(dice, count));
    }
}

fn any_octets(dice: &mut Dice, count: usize) -> Vec<u8> {
    (0..count).map(|_| dice.throw() as u8).collect()
}

/// A section within the rules: most often a short one, sometimes one that ends
/// with 1,344 octets, or shortly before them.
pub fn good_plan(dice: &mut Dice) -> SectionPlan {
    let mut plan = small_plan(dice);
    let spare = dice.one_of(&[0, 0, 1, 2, 3]);
    match dice.below(12) {
        0 => {
            let count = plan.room() - spare;
            plan.add_options(dice, count);
        }
        1 => {
            let count = plan.room() / 4;
            plan.add_errors(dice, count);
        }
        2 => {
            let words = (plan.room() + plan.bits.len()) / 4;
            let modules = 32 * words as u64 - dice.below(32);
            plan.set_modules(dice, modules as u32);
        }
        _ => (),
    }
    plan
}

fn small_plan(dice: &mut Dice) -> SectionPlan {
    let any = any_octets(dice, 8);
    let mut plan = SectionPlan {
        modules: 0,
        bits: Vec::new(),
        numbers: Vec::new(),
        name: dice.one_of(&[
            [0; 8],
            *b"RAFT\0\0\0\0",
            [u8::MAX; 8],
            octets::run_of(&any, 0),
        ]),
        options: Vec::new(),
    };
    let any = dice.below(100) as u32;
    let modules = dice.one_of(&[0, 0, 1, 7, 8, 9, 31, 32, 33, 64, 65, any, any]);
    plan.set_modules(dice, modules);
    let errors = dice.one_of(&[0, 0, 1, 2, 3, 5]);
    plan.add_errors(dice, errors);
    let options = dice.one_of(&[0, 0, 1, 2, 3, 4, 17]);
    plan.add_options(dice, options);
    plan
}

pub fn good_section(dice: &mut Dice) -> Vec<u8> {
    good_plan(dice).octets()
}

// ---- broken ones

/// Octets that are seldom a section: one thing is wrong, or anything stands there.
pub fn broken_section(dice: &mut Dice) -> Vec<u8> {
    match dice.below(9) {
        0..=2 => broken_plan(dice).octets(),
        3 => of_another_length(dice),
        4 => with_modules(dice),
        5 => with_errors(dice),
        6 => with_options(dice),
        7 => vec![0; dice.one_of(&[1, 10, 19, 21, 24, SECTION_MOST])],
        _ => {
            let length = dice.between(1, 60) as usize;
            any_octets(dice, length)
        }
    }
}

/// A bit above the count, an error of module 0, or more than 1,344 octets.
pub fn broken_plan(dice: &mut Dice) -> SectionPlan {
    let mut plan = good_plan(dice);
    match dice.below(3) {
        0 => mark_above(dice, &mut plan),
        1 => set_module_0(dice, &mut plan),
        _ => {
            let room = plan.room();
            let more = dice.one_of(&[1, 2, 3, 4, 100]);
            plan.add_options(dice, room + more);
        }
    }
    plan
}

/// The first bit above the count, the last one, or any between them.
fn mark_above(dice: &mut Dice, plan: &mut SectionPlan) {
    if plan.modules as usize == 8 * plan.bits.len() {
        plan.set_modules(dice, 33);
    }
    let (first, end) = (u64::from(plan.modules), 8 * plan.bits.len() as u64);
    let any = dice.between(first, end - 1);
    let place = dice.one_of(&[first, end - 1, any]) as usize;
    plan.bits[place / 8] |= 1 << (place % 8);
}

/// The first error, the last one, or any.
fn set_module_0(dice: &mut Dice, plan: &mut SectionPlan) {
    if plan.numbers.is_empty() {
        *plan = small_plan(dice);
        plan.add_errors(dice, 1);
    }
    let count = plan.numbers.len() / 2;
    let any = dice.below(count as u64) as usize;
    let index = dice.one_of(&[0, count - 1, any]);
    plan.numbers[2 * index] = 0;
}

/// Ends early or late, most often by one octet.
fn of_another_length(dice: &mut Dice) -> Vec<u8> {
    let mut octets = good_section(dice);
    let length = octets.len();
    let any = dice.between(1, length as u64 - 1) as usize;
    let lengths = [length - 1, length - 4, length + 1, length + 4, any];
    octets.resize(dice.one_of(&lengths), 0);
    octets
}

/// A good section with another number in four of its octets.
fn with_count(dice: &mut Dice, plan: &SectionPlan, place: usize, great: &[u32]) -> Vec<u8> {
    let mut octets = plan.octets();
    let count = octets::read(&octets, place, 4) as u32;
    let other = match dice.below(3) {
        0 => dice.one_of(great),
        1 => count.wrapping_add(1),
        _ => count.wrapping_sub(1),
    };
    octets::write(&mut octets, place, 4, other.into());
    octets
}

fn with_modules(dice: &mut Dice) -> Vec<u8> {
    let plan = good_plan(dice);
    let words = plan.bits.len() as u32 / 4;
    // One word more, one less, and counts whose rounding up would wrap.
    let great = [
        32 * words + 1,
        (32 * words).saturating_sub(32),
        4_294_967_264,
        4_294_967_265,
        u32::MAX,
    ];
    with_count(dice, &plan, 0, &great)
}

fn with_errors(dice: &mut Dice) -> Vec<u8> {
    let plan = good_plan(dice);
    let errors = plan.numbers.len() as u32 / 2;
    // Counts of which 4 times would wrap, to as many as there are too.
    let great = [
        332,
        1 << 30,
        (1 << 30) + errors,
        (1 << 31) + errors,
        u32::MAX,
    ];
    with_count(dice, &plan, 4 + plan.bits.len(), &great)
}

fn with_options(dice: &mut Dice) -> Vec<u8> {
    let plan = good_plan(dice);
    let place = SECTION_LEAST - 4 + plan.bits.len() + 2 * plan.numbers.len();
    let great = [0, 1_325, 65_536, 1 << 31, u32::MAX];
    with_count(dice, &plan, place, &great)
}

#[cfg(test)]
mod tests {
    use super::*;
    use crate::fault::{is_section, write};

    #[test]
    fn good_ones_are_sections_and_are_written_so() {
        let mut dice = Dice::new(1);
        let (mut full, mut empty) = (0, 0);
        for _ in 0..2_000 {
            let plan = good_plan(&mut dice);
            let octets = plan.octets();
            assert!(is_section(&octets));
            let mut buffer = vec![0; octets.len()];
            assert_eq!(write(&plan.parts(), &mut buffer).number, 0);
            assert_eq!(buffer, octets);
            full += usize::from(octets.len() == SECTION_MOST);
            empty += usize::from(octets.len() == SECTION_LEAST);
        }
        assert!(full > 20 && empty > 5, "{full} {empty}");
    }

    #[test]
    fn broken_ones_are_seldom_sections() {
        let mut dice = Dice::new(2);
        for _ in 0..500 {
            assert!(!is_section(&broken_plan(&mut dice).octets()));
        }
        let sections = (0..2_000).filter(|_| is_section(&broken_section(&mut dice)));
        let sections = sections.count();
        assert!(sections < 200, "{sections}");
    }
}
