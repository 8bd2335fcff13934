//! The plain ways, straight from the definition: one input value, one set of lines, one program, one pair,
//! one end of a text at a time, each from nothing. No table is kept and no word holds many values. They are
//! slow: the quick ways are held to them.

pub mod bench;
pub mod builder;
pub mod equations;
