//! Document 01 and requests 1 to 7 written twice in plain Rust, from their text alone: the calls on
//! bytes (`bytes`), and the finite map (`finite_map`). They share the rules on numbers, registers and
//! lengths, the parts of an operand, the steps of an access that need no table, and the rule and
//! detail of a record; hash, search, room, marks and places are written in each on its own. Rights
//! (`rights`) share the registers alone: steps, search, answer and marks are written there once more,
//! so that they can be held to three accesses.

pub mod arrangement;
pub mod bytes;
pub mod cache;
pub mod call;
pub mod entry;
pub mod finite_map;
pub mod flaw;
pub mod operand;
pub mod record;
pub mod registers;
pub mod rights;
pub mod rights_flaw;
pub mod rules;
pub mod search;
pub mod translation;
pub mod words;
