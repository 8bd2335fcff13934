//! The exported functions as the static libraries declare them, and the structs that they share.

use crate::Limits;

/// How many outputs, gates and lines a circuit may have, how many input values, and how many lines a smallest set.
const OUTPUTS: usize = 32;
const GATES: usize = 248;
const LINES: usize = 256;
const VALUES: usize = 256;
const SET: usize = 8;

/// A line's values: input value x at bit x % 64 of word x / 64.
#[repr(C)]
#[derive(Clone, Copy, Debug, PartialEq, Eq)]
pub struct Words(pub [u64; 4]);

#[repr(C)]
#[derive(Clone, PartialEq, Eq)]
pub struct Bench {
    pub is_open: bool,
    pub is_matrix: bool,
    pub n: usize,
    pub m: usize,
    pub g: usize,
    pub max_gates: u16,
    pub max_depth: u16,
    pub max_and_depth: u16,
    pub kinds: [u8; GATES],
    pub left: [u16; GATES],
    pub right: [u16; GATES],
    pub outputs: [u16; OUTPUTS],
    pub target: [u8; VALUES],
    pub wanted: [Words; OUTPUTS],
    pub depths: [u8; LINES],
    pub and_depths: [u8; LINES],
    pub values: [Words; LINES],
}

#[repr(C)]
pub struct Edit {
    pub refusal: usize,
    pub count: usize,
    pub lines: [u16; LINES],
}

#[repr(C)]
pub struct Figures {
    pub refusal: usize,
    pub gates: usize,
    pub xors: usize,
    pub nonlinear: usize,
    pub nots: usize,
    pub depth: usize,
    pub and_depth: usize,
    pub verdict: usize,
    pub input: usize,
    pub output: usize,
}

/// The code is a number of gates, 99 for none, or 100 and a refusal's number. Of the lines only the first `count` are any, and the
/// rest is 0.
#[repr(C)]
#[derive(Clone, Copy, PartialEq, Eq)]
pub struct Found {
    pub code: u64,
    pub count: usize,
    pub lines: [u16; SET],
}

#[repr(C)]
pub struct Reading {
    pub refusal: usize,
    pub count: usize,
    pub place: usize,
}

impl Bench {
    pub fn empty() -> Bench {
        Bench {
            is_open: false,
            is_matrix: false,
            n: 0,
            m: 0,
            g: 0,
            max_gates: 0,
            max_depth: 0,
            max_and_depth: 0,
            kinds: [0; GATES],
            left: [0; GATES],
            right: [0; GATES],
            outputs: [0; OUTPUTS],
            target: [0; VALUES],
            wanted: [Words([0; 4]); OUTPUTS],
            depths: [0; LINES],
            and_depths: [0; LINES],
            values: [Words([0; 4]); LINES],
        }
    }
}

extern "C" {
    fn allpawasi_open_matrix(bench: &mut Bench, bytes: *const u8, length: usize, rows: *const u8, count: usize, gates: u8, depth: u8, ands: u8) -> usize;
    fn allpawasi_open_table(bench: &mut Bench, bytes: *const u8, length: usize, entries: *const u8, count: usize, gates: u8, depth: u8, ands: u8) -> usize;
    fn allpawasi_replace_gate(bench: &mut Bench, k: usize, kind: usize, a: usize, b: usize) -> Edit;
    fn allpawasi_append_gate(bench: &mut Bench, kind: usize, a: usize, b: usize) -> Edit;
    fn allpawasi_sweep(bench: &mut Bench) -> Edit;
    fn allpawasi_point_output(bench: &mut Bench, j: usize, line: usize) -> Edit;
    fn allpawasi_change_entry(bench: &mut Bench, i: usize, value: usize, constant: usize) -> Edit;
    fn allpawasi_set_limits(bench: &mut Bench, gates: u8, depth: u8, ands: u8) -> Edit;
    fn allpawasi_report(bench: &Bench) -> Figures;
    fn allpawasi_store(bench: &Bench, room: *mut u8, length: usize) -> usize;
    fn allpawasi_restore(bytes: *const u8, length: usize, only: bool, room: *mut u8, room_length: usize) -> usize;
    fn allpawasi_build(n: usize, rows: *const u8, count: usize, depth: usize, room: *mut u8, length: usize) -> usize;
    fn allpawasi_build_late(n: usize, arrivals: *const u8, arrival_count: usize, rows: *const u8, row_count: usize, limits: *const u8, limit_count: usize, room: *mut u8, length: usize) -> usize;
    fn allpawasi_distance(n: usize, masks: *const u8, lines: usize, depths: *const u8, count: usize, target: usize, depth: usize) -> Found;
    fn allpawasi_hint(bench: &Bench, j: usize, depth: usize) -> Found;
    fn allpawasi_equations(text: *const u8, length: usize, room: *mut u8, room_length: usize) -> Reading;
}

pub fn open_matrix(bench: &mut Bench, bytes: &[u8], rows: &[u8], limits: Limits) -> usize {
    unsafe { allpawasi_open_matrix(bench, bytes.as_ptr(), bytes.len(), rows.as_ptr(), rows.len(), limits.gates, limits.depth, limits.and_depth) }
}

pub fn open_table(bench: &mut Bench, bytes: &[u8], entries: &[u8], limits: Limits) -> usize {
    unsafe { allpawasi_open_table(bench, bytes.as_ptr(), bytes.len(), entries.as_ptr(), entries.len(), limits.gates, limits.depth, limits.and_depth) }
}

pub fn replace_gate(bench: &mut Bench, k: usize, kind: usize, a: usize, b: usize) -> Edit {
    unsafe { allpawasi_replace_gate(bench, k, kind, a, b) }
}

pub fn append_gate(bench: &mut Bench, kind: usize, a: usize, b: usize) -> Edit {
    unsafe { allpawasi_append_gate(bench, kind, a, b) }
}

pub fn sweep(bench: &mut Bench) -> Edit {
    unsafe { allpawasi_sweep(bench) }
}

pub fn point_output(bench: &mut Bench, j: usize, line: usize) -> Edit {
    unsafe { allpawasi_point_output(bench, j, line) }
}

pub fn change_entry(bench: &mut Bench, i: usize, value: usize, constant: usize) -> Edit {
    unsafe { allpawasi_change_entry(bench, i, value, constant) }
}

pub fn set_limits(bench: &mut Bench, limits: Limits) -> Edit {
    unsafe { allpawasi_set_limits(bench, limits.gates, limits.depth, limits.and_depth) }
}

pub fn report(bench: &Bench) -> Figures {
    unsafe { allpawasi_report(bench) }
}

pub fn store(bench: &Bench, room: &mut [u8]) -> usize {
    unsafe { allpawasi_store(bench, room.as_mut_ptr(), room.len()) }
}

pub fn restore(bytes: &[u8], only: bool, room: &mut [u8]) -> usize {
    unsafe { allpawasi_restore(bytes.as_ptr(), bytes.len(), only, room.as_mut_ptr(), room.len()) }
}

pub fn build(n: usize, rows: &[u8], depth: usize, room: &mut [u8]) -> usize {
    unsafe { allpawasi_build(n, rows.as_ptr(), rows.len(), depth, room.as_mut_ptr(), room.len()) }
}

pub fn build_late(n: usize, arrivals: &[u8], rows: &[u8], limits: &[u8], room: &mut [u8]) -> usize {
    unsafe { allpawasi_build_late(n, arrivals.as_ptr(), arrivals.len(), rows.as_ptr(), rows.len(), limits.as_ptr(), limits.len(), room.as_mut_ptr(), room.len()) }
}

pub fn distance(n: usize, masks: &[u8], depths: &[u8], target: usize, depth: usize) -> Found {
    unsafe { allpawasi_distance(n, masks.as_ptr(), masks.len(), depths.as_ptr(), depths.len(), target, depth) }
}

pub fn hint(bench: &Bench, j: usize, depth: usize) -> Found {
    unsafe { allpawasi_hint(bench, j, depth) }
}

pub fn equations(text: &[u8], room: &mut [u8]) -> Reading {
    unsafe { allpawasi_equations(text.as_ptr(), text.len(), room.as_mut_ptr(), room.len()) }
}
