//! The fault section behind an alive signal's 128 octets (5.4, Table 9), read and
//! written.
//!
//! 02: "module count, module bits in L octets, error count, eight-octet name,
//! errors of two 16-bit numbers (module, from 1, and error), option count,
//! options." Every place and length is a whole number: no sum wraps.

use crate::answers::{first_that_applies, STORED};

/// Octets of a count: of modules, of errors, of options.
const COUNT: u128 = 4;
/// al_err_name.
pub const NAME: usize = 8;
/// An error: al_mod_no (2) and al_err_no (2).
const ERROR: u128 = 4;

/// No module, no error, no option: the three counts and the name.
pub const SECTION_LEAST: usize = 20;
/// 02: "the total of 1,344 octets decides", which is 1,472 less 128.
pub const SECTION_MOST: usize = 1_344;

/// 02: "L is (modules + 31) / 32 x 4, the division rounded down, so 33 modules
/// give 8." It stands as the paper has it, rather than as a division rounded up.
#[allow(clippy::manual_div_ceil)]
pub fn bits_length(modules: u32) -> u128 {
    (u128::from(modules) + 31) / 32 * 4
}

/// The three counts of some octets, and with them the place of every part. Each
/// count is read at the place that those before it give, section or not.
struct Layout {
    modules: u32,
    errors: u32,
    options: u32,
    bits: u128,
}

impl Layout {
    fn of(octets: &[u8]) -> Layout {
        let modules = number_at(octets, 0, 4);
        let mut layout = Layout {
            modules,
            errors: 0,
            options: 0,
            bits: bits_length(modules),
        };
        layout.errors = number_at(octets, COUNT + layout.bits, 4);
        layout.options = number_at(octets, layout.option_count(), 4);
        layout
    }

    fn name(&self) -> u128 {
        COUNT + self.bits + COUNT
    }

    /// The place of the error with this index, from 0.
    fn error(&self, index: u32) -> u128 {
        self.name() + NAME as u128 + ERROR * u128::from(index)
    }

    fn option_count(&self) -> u128 {
        self.error(self.errors)
    }

    fn option_octets(&self) -> u128 {
        self.option_count() + COUNT
    }

    fn end(&self) -> u128 {
        self.option_octets() + u128::from(self.options)
    }
}

/// The octet at a place; one past the end counts as 0.
fn octet_at(octets: &[u8], place: u128) -> u8 {
    let place = usize::try_from(place).ok();
    place
        .and_then(|place| octets.get(place))
        .copied()
        .unwrap_or(0)
}

/// The number in `size` octets from a place, high octet first.
fn number_at(octets: &[u8], place: u128, size: u128) -> u32 {
    (place..place + size).fold(0, |number, at| {
        (number << 8) | u32::from(octet_at(octets, at))
    })
}

/// The bit of module X, by X - 1, in octets that begin with the bits. 02: "bit
/// (X - 1) mod 8, lowest first, of octet (X - 1) / 8".
fn bit_at(bits: &[u8], place: u128) -> bool {
    octet_at(bits, place / 8) >> (place % 8) & 1 == 1
}

/// What stands behind the module count: the bits first.
fn behind_module_count(octets: &[u8]) -> &[u8] {
    octets.get(COUNT as usize..).unwrap_or(&[])
}

// ---- reading ----

/// What reading a section gives by value: its number, counts and name.
#[derive(Clone, Copy, Debug, Default, PartialEq, Eq)]
pub struct Reading {
    pub number: u8,
    pub modules: u32,
    pub errors: u32,
    /// The octets of options.
    pub options: u32,
    pub name: [u8; NAME],
}

/// Reads a section, which is all of these octets; 24 "for a fault section that
/// breaks these rules", and nothing more.
pub fn read(octets: &[u8]) -> Reading {
    if !is_section(octets) {
        return Reading {
            number: 24,
            ..Reading::default()
        };
    }
    let layout = Layout::of(octets);
    let mut name = [0; NAME];
    for (place, octet) in (layout.name()..).zip(&mut name) {
        *octet = octet_at(octets, place);
    }
    Reading {
        number: STORED,
        modules: layout.modules,
        errors: layout.errors,
        options: layout.options,
        name,
    }
}

/// Whether these octets, all of them, are a section within the rules.
pub fn is_section(octets: &[u8]) -> bool {
    let layout = Layout::of(octets);
    octets.len() <= SECTION_MOST
        && layout.end() == octets.len() as u128
        && !marked_above(behind_module_count(octets), layout.modules)
        && !(0..layout.errors).any(|index| number_at(octets, layout.error(index), 2) == 0)
}

/// 02: "bits above the count are written 0 and must be 0."
fn marked_above(bits: &[u8], modules: u32) -> bool {
    let places = u128::from(modules)..8 * bits_length(modules);
    places.into_iter().any(|place| bit_at(bits, place))
}

/// Whether module X is dead, by the places that the counts give, in any octets. "A
/// module 0 or above the count is alive".
pub fn dead(octets: &[u8], module: u32) -> bool {
    let modules = Layout::of(octets).modules;
    (1..=modules).contains(&module) && bit_at(behind_module_count(octets), u128::from(module) - 1)
}

/// Module and error of the error with this index, from 0, in any octets. "an error
/// past the count is 0, 0."
pub fn error(octets: &[u8], index: u32) -> (u16, u16) {
    let layout = Layout::of(octets);
    if index >= layout.errors {
        return (0, 0);
    }
    let place = layout.error(index);
    let number = |place| number_at(octets, place, 2) as u16;
    (number(place), number(place + 2))
}

/// The options, "as a returned part", as far as there are octets.
pub fn options(octets: &[u8]) -> &[u8] {
    let layout = Layout::of(octets);
    let within = |place: u128| place.min(octets.len() as u128) as usize;
    &octets[within(layout.option_octets())..within(layout.end())]
}

// ---- writing ----

/// What a section is written from.
#[derive(Clone, Copy, Debug)]
pub struct Parts<'a> {
    pub modules: u32,
    /// A bit for each module, set when dead.
    pub bits: &'a [u8],
    /// Module, error, module, error, and so on.
    pub errors: &'a [u16],
    pub name: [u8; NAME],
    pub options: &'a [u8],
}

impl Parts<'_> {
    /// Octets needed, by the module count rather than by the bits given.
    pub fn needed(&self) -> u128 {
        let errors = 2 * self.errors.len() as u128;
        let options = self.options.len() as u128;
        SECTION_LEAST as u128 + bits_length(self.modules) + errors + options
    }

    fn breaks_the_rules(&self) -> bool {
        self.needed() > SECTION_MOST as u128
            || self.bits.len() as u128 != bits_length(self.modules)
            || marked_above(self.bits, self.modules)
            || self.errors.len() % 2 == 1
            || self.errors.chunks(2).any(|error| error[0] == 0)
    }

    /// The section's octets, in Table 9's order.
    fn octets(&self) -> Vec<u8> {
        let errors = (self.errors.len() / 2) as u32;
        let mut octets = self.modules.to_be_bytes().to_vec();
        octets.extend(self.bits);
        octets.extend(errors.to_be_bytes());
        octets.extend(self.name);
        octets.extend(self.errors.iter().flat_map(|number| number.to_be_bytes()));
        octets.extend((self.options.len() as u32).to_be_bytes());
        octets.extend(self.options);
        octets
    }
}

/// The answer of writing: its number, and the section's length, 0 on a refusal.
#[derive(Clone, Copy, Debug, PartialEq, Eq)]
pub struct Written {
    pub number: u8,
    pub length: usize,
}

/// Writes a section into the buffer's first octets; those behind it stay. "23 for
/// a short buffer", "even above 1,344", comes before 24. A refusal writes nothing.
pub fn write(parts: &Parts, buffer: &mut [u8]) -> Written {
    let short = (buffer.len() as u128) < parts.needed();
    if let Some(number) = first_that_applies(&[(23, short), (24, parts.breaks_the_rules())]) {
        return Written { number, length: 0 };
    }
    let octets = parts.octets();
    buffer[..octets.len()].copy_from_slice(&octets);
    Written {
        number: STORED,
        length: octets.len(),
    }
}
