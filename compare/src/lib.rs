//! Random circuits, targets, calls and equation files, for comparing the proved library with the independent program, the
//! published vectors, and the count of what a comparison met.

pub mod calls;
pub mod circuits;
pub mod constants;
pub mod depths;
pub mod duplicates;
pub mod edges;
pub mod files;
pub mod found;
pub mod hints;
pub mod late;
pub mod long_files;
pub mod met;
pub mod pair;
pub mod programs;
pub mod scripts;
pub mod sweeps;
pub mod swept;
pub mod targets;
pub mod vectors;
