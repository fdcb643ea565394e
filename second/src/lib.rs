//! A second, independent receiver for ADP R3.0 (MSTC/JOP 1101).
//!
//! It was written from the papers, to be compared line by line with the proved
//! one, and takes nothing from the other's code. "01" is the paper `01-scope.md`,
//! "02" the paper `02-change-requests.md`, "001" the English ADP R3.0; words
//! between quotation marks are theirs.

mod ages;
pub mod alive;
pub mod answers;
pub mod clock;
pub mod counts;
pub mod cut;
mod dice;
pub mod edges;
pub mod fault;
pub mod fields;
pub mod header;
pub mod multicast;
pub mod numbers;
pub mod octets;
mod pairs;
pub mod random;
pub mod receiver;
mod rounds;
mod scenes;
mod section_text;
mod sections;
mod stage;
pub mod state;
pub mod tally;
pub mod text;
