//! Allpawasi's reference: the circuit bench, the builder, the distance query and the reader of equation
//! files, written from the definition alone so that the product can be compared with it.

pub mod bench;
pub mod builder;
pub mod circuit;
pub mod desk;
pub mod distance;
pub mod equations;
pub mod examine;
pub mod hint;
pub mod listing;
pub mod plain;
pub mod program;
pub mod rng;
pub mod sweep;
