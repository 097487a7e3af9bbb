//! The entries on slices of any length, as the library exports them: each returns 0 or the number of a refusal.

use crate::Value;

/// What a machine's calls change: registers and answer as words, and the tables.
pub struct Lent<'a> {
    pub registers: &'a mut [u64],
    pub answer: &'a mut [u64],
    pub store: &'a mut [u8],
    pub frames: &'a mut [u64],
    pub bounds: &'a mut [u64],
    pub pointers: &'a mut [u64],
    pub variables: &'a mut [u64],
}

type Bytes = *const u8;
type Words = *const u64;
type BytesOut = *mut u8;
type WordsOut = *mut u64;

#[rustfmt::skip]
extern "C" {
    fn lir_fresh(
        registers: WordsOut, _: usize, answer: WordsOut, _: usize, store: BytesOut, _: usize, frames: WordsOut, _: usize,
        bounds: WordsOut, _: usize, pointers: WordsOut, _: usize, variables: WordsOut, _: usize,
    ) -> u64;
    fn lir_start(
        image: Bytes, _: usize, function: u64, context_tag: u64, context_bits: u64, tags: Words, _: usize, bits: Words, _: usize,
        registers: WordsOut, _: usize, answer: WordsOut, _: usize, store: BytesOut, _: usize, frames: WordsOut, _: usize,
        bounds: WordsOut, _: usize, pointers: WordsOut, _: usize, variables: WordsOut, _: usize,
    ) -> u64;
    fn lir_step(
        image: Bytes, _: usize,
        registers: WordsOut, _: usize, answer: WordsOut, _: usize, store: BytesOut, _: usize, frames: WordsOut, _: usize,
        bounds: WordsOut, _: usize, pointers: WordsOut, _: usize, variables: WordsOut, _: usize,
    ) -> u64;
    fn lir_run(
        image: Bytes, _: usize, budget: u32,
        registers: WordsOut, _: usize, answer: WordsOut, _: usize, store: BytesOut, _: usize, frames: WordsOut, _: usize,
        bounds: WordsOut, _: usize, pointers: WordsOut, _: usize, variables: WordsOut, _: usize,
    ) -> u64;
    fn lir_allocate(
        size: usize,
        registers: WordsOut, _: usize, answer: WordsOut, _: usize, store: BytesOut, _: usize, frames: WordsOut, _: usize,
        bounds: WordsOut, _: usize, pointers: WordsOut, _: usize, variables: Words, _: usize,
    ) -> u64;
    fn lir_write(
        pointer: usize, bytes: Bytes, _: usize, registers: Words, _: usize, store: BytesOut, _: usize,
        frames: Words, _: usize, bounds: Words, _: usize, pointers: Words, _: usize, variables: Words, _: usize,
    ) -> u64;
    fn lir_read(
        image: Bytes, _: usize, pointer: usize, bytes: BytesOut, _: usize, registers: Words, _: usize, answer: WordsOut, _: usize,
        store: Bytes, _: usize, frames: Words, _: usize, bounds: Words, _: usize, pointers: Words, _: usize, variables: Words, _: usize,
    ) -> u64;
    fn lir_list(
        registers: Words, _: usize, store: Bytes, _: usize, frames: Words, _: usize, bounds: Words, _: usize,
        pointers: Words, _: usize, variables: Words, _: usize,
        live: WordsOut, _: usize, frame: WordsOut, _: usize, allocation: WordsOut, _: usize, offset: WordsOut, _: usize,
    ) -> u64;
    fn lir_write_image(image: Bytes, _: usize, out: BytesOut, _: usize, answer: WordsOut, _: usize) -> u64;
}

/// Calls a function with each slice as a pointer and a count. Sound for every length: the library tests them all, and writes only
/// through what was lent to be changed, which Rust keeps apart from all else.
macro_rules! call {
    (@ $function:ident [$($done:expr,)*]) => { unsafe { $function($($done),*) } };
    (@ $function:ident [$($done:expr,)*] number $number:expr, $($rest:tt)*) => {
        call!(@ $function [$($done,)* $number,] $($rest)*)
    };
    (@ $function:ident [$($done:expr,)*] shared $slice:expr, $($rest:tt)*) => {
        call!(@ $function [$($done,)* $slice.as_ptr(), $slice.len(),] $($rest)*)
    };
    (@ $function:ident [$($done:expr,)*] changed $slice:expr, $($rest:tt)*) => {
        call!(@ $function [$($done,)* $slice.as_mut_ptr(), $slice.len(),] $($rest)*)
    };
    (@ $function:ident [$($done:expr,)*] machine $m:ident, $($rest:tt)*) => {
        call!(@ $function [$($done,)*] changed $m.registers, changed $m.answer, changed $m.store, changed $m.frames,
            changed $m.bounds, changed $m.pointers, changed $m.variables, $($rest)*)
    };
    (@ $function:ident [$($done:expr,)*] tables $m:ident, $($rest:tt)*) => {
        call!(@ $function [$($done,)*] shared $m.frames, shared $m.bounds, shared $m.pointers, shared $m.variables, $($rest)*)
    };
    ($function:ident($($rest:tt)*)) => { call!(@ $function [] $($rest)*) };
}

pub fn fresh(m: Lent) -> u64 {
    call!(lir_fresh(machine m,))
}

pub fn start(image: &[u8], function: u64, context: Value, tags: &[u64], bits: &[u64], m: Lent) -> u64 {
    call!(lir_start(shared image, number function, number context.tag, number context.bits, shared tags, shared bits, machine m,))
}

pub fn step(image: &[u8], m: Lent) -> u64 {
    call!(lir_step(shared image, machine m,))
}

pub fn run(image: &[u8], budget: u32, m: Lent) -> u64 {
    call!(lir_run(shared image, number budget, machine m,))
}

pub fn allocate(size: usize, m: Lent) -> u64 {
    call!(lir_allocate(number size, machine m,))
}

pub fn write(pointer: usize, bytes: &[u8], m: Lent) -> u64 {
    call!(lir_write(number pointer, shared bytes, shared m.registers, changed m.store, tables m,))
}

pub fn read(image: &[u8], pointer: usize, bytes: &mut [u8], m: Lent) -> u64 {
    call!(lir_read(shared image, number pointer, changed bytes, shared m.registers, changed m.answer, shared m.store, tables m,))
}

/// The live list in four slices: live or not, frame, allocation, offset.
pub fn list(m: Lent, live: &mut [u64], frame: &mut [u64], allocation: &mut [u64], offset: &mut [u64]) -> u64 {
    call!(lir_list(shared m.registers, shared m.store, tables m, changed live, changed frame, changed allocation, changed offset,))
}

pub fn write_image(image: &[u8], out: &mut [u8], answer: &mut [u64]) -> u64 {
    call!(lir_write_image(shared image, changed out, changed answer,))
}
