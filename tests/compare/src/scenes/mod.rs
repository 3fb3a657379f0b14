//! What calls come upon: registers, groups of entries, arguments, operands, and ways to spoil each.

pub mod arguments;
pub mod groups;
pub mod operands;
pub mod registers;
