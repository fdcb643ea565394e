//! `second edges` and `second edges-calls`: both sides of each edge, call by
//! call.
//!
//! 01: "All others are run by a program and compared with an independent second
//! one." `docs/EDGES.md` says what is run; every list here stands in its order,
//! and the numbers of each call are those of its rows. Random calls come besides.

mod alive_and_clock;
mod alive_sections;
mod calls;
mod cast_calls;
mod cast_scenes;
mod casting;
mod clauses;
mod coming_round;
mod cutting;
mod damage;
mod entries;
mod fault_calls;
mod fault_scenes;
mod groups;
mod joining;
mod lent_tables;
mod library;
mod many_senders;
mod nine;
mod own_scenes;
mod parts_and_fields;
mod past;
mod pdu;
pub mod random;
mod reading;
mod repeats;
mod section;
mod section_rows;
mod single;
mod table;
mod table_scenes;
mod writing;

use past::Past;

/// The lines of every section, a newline after each.
pub fn lines() -> String {
    every_section().lines
}

/// The calls of every section, each one field.
pub fn calls_as_fields() -> Vec<u8> {
    every_section().fields
}

fn every_section() -> Past {
    let mut past = Past::new();
    single::sections(&mut past);
    joining::sections(&mut past);
    coming_round::sections(&mut past);
    alive_and_clock::sections(&mut past);
    alive_sections::sections(&mut past);
    damage::sections(&mut past);
    many_senders::sections(&mut past);
    cutting::sections(&mut past);
    parts_and_fields::sections(&mut past);
    reading::sections(&mut past);
    writing::sections(&mut past);
    groups::sections(&mut past);
    lent_tables::sections(&mut past);
    casting::sections(&mut past);
    entries::sections(&mut past);
    repeats::sections(&mut past);
    past
}
