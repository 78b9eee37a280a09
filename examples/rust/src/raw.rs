//! heap.h, as far as the binding calls it.

use std::os::raw::{c_int, c_void};
use std::ptr;

/// A mutator's handle.
#[repr(C)]
pub struct HeapMut {
    p: *mut c_void,
}

/// The collector's.
#[repr(C)]
pub struct HeapCol {
    p: *mut c_void,
}

impl HeapMut {
    /// A handle of nothing.
    pub const ZERO: HeapMut = HeapMut { p: ptr::null_mut() };
}

impl HeapCol {
    /// A handle of nothing.
    pub const ZERO: HeapCol = HeapCol { p: ptr::null_mut() };
}

/// A value of a field.
#[repr(C)]
#[derive(Clone, Copy)]
pub struct HeapVal {
    pub tag: u64,
    pub n: u64,
}

pub const NULL: u64 = 0;
pub const NUM: u64 = 1;
pub const REF: u64 = 2;

pub const ASKS: c_int = 1;
pub const ENDED: c_int = 2;

/// What heap_look tells.
#[repr(C)]
#[derive(Default)]
pub struct HeapStats {
    pub cycles: u32,
    pub stage: u32,
    pub heard: u32,
    pub asks: u32,
    pub freed: u64,
    pub free_about: u64,
    pub passes: u64,
    pub scanned: u64,
    pub stacked: u64,
    pub spilled: u64,
}

extern "C" {
    pub fn heap_open(cells: u32, mutators: u32, stack: u32, boxes: u32, out: *mut HeapCol)
        -> c_int;
    pub fn heap_seat(c: *mut HeapCol, room: u32, out: *mut HeapMut) -> c_int;
    pub fn heap_leave(m: *mut HeapMut) -> c_int;
    pub fn heap_close(c: *mut HeapCol) -> c_int;
    pub fn heap_step(c: *mut HeapCol, moves: u32, how: *mut c_int) -> c_int;
    pub fn heap_duty(c: *mut HeapCol, on: c_int) -> c_int;
    pub fn heap_look(c: *mut HeapCol, out: *mut HeapStats) -> c_int;
    pub fn heap_begin(m: *mut HeapMut) -> c_int;
    pub fn heap_end(m: *mut HeapMut) -> c_int;
    pub fn heap_answer(m: *mut HeapMut) -> c_int;
    pub fn heap_held(m: *mut HeapMut) -> usize;
    pub fn heap_room(m: *mut HeapMut) -> usize;
    pub fn heap_keep(m: *mut HeapMut, n: usize, place: usize, count: usize) -> c_int;
    pub fn heap_make(m: *mut HeapMut, v: *const HeapVal, n: usize, place: *mut usize) -> c_int;
    pub fn heap_read(m: *mut HeapMut, place: usize, field: usize, out: *mut HeapVal) -> c_int;
    pub fn heap_read_all(m: *mut HeapMut, place: usize, out: *mut HeapVal, five: usize) -> c_int;
    pub fn heap_write(m: *mut HeapMut, place: usize, field: usize, v: HeapVal) -> c_int;
    pub fn heap_swap(
        m: *mut HeapMut,
        place: usize,
        field: usize,
        was: HeapVal,
        now: HeapVal,
    ) -> c_int;
    pub fn heap_same(m: *mut HeapMut, one: usize, other: usize, same: *mut c_int) -> c_int;
}
