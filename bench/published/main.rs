//! Times the published loop, by processor time. A line in: steps and an image in hexadecimal. A line out: nanoseconds a step of function 0, from fresh memory to its end.
#![allow(dead_code, unused_imports, unused_assignments, unused_variables, non_local_definitions)]

extern crate self as inetnum;

pub mod asn;
mod ast;
mod label;
mod lir;
mod program;
mod runtime;
mod typechecker;
mod value;

use lir::eval::eval;
use lir::{IrValue, Memory};

const ROUNDS: usize = 40;

unsafe extern "C" {
    /// The processor time so far in microseconds, of the C library that Rust's own links.
    safe fn clock() -> i64;
}

fn main() {
    for line in std::io::stdin().lines() {
        let line = line.unwrap();
        let (steps, image) = line.split_once(' ').unwrap();
        let program = program::Program::new(&program::bytes_of_text(image));
        let mut least = f64::MAX;
        for _ in 0..ROUNDS {
            let mut memory = Memory::new();
            let from = clock();
            let value = eval(&program.runtime, &program.items, "f0", &mut memory, IrValue::Pointer(0), vec![]);
            least = least.min((clock() - from) as f64 * 1000.0);
            assert!(value.is_some());
        }
        println!("{:.2}", least / steps.parse::<f64>().unwrap());
    }
}
