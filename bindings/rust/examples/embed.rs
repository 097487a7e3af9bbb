//! P1, and the March incident: a helper returns an address inside its own frame, and its caller reads through it.

use lir::{Machine, Ran, Refusal, Value};

/// One function of one block: Add 1 to its argument, and Return it.
const P1: &[u8] = include_bytes!("../../../examples/p1.image");

/// The second function writes 600 into its own slot and returns the slot's address; the first reads through it.
const MARCH: &[u8] = include_bytes!("../../../examples/march.image");

fn main() {
    let mut machine = Machine::new();
    machine.start(P1, 0, Value::pointer(0), &[Value::u8(41)]).expect("P1 starts");
    let ran = machine.run(P1, 2).expect("P1 runs");
    println!("P1: {ran:?}");
    assert_eq!(ran, Ran::Returned(Some(Value::u8(42)), 2));

    machine.start(MARCH, 0, Value::pointer(0), &[]).expect("the incident starts");
    let ran = machine.run(MARCH, 100).expect("the incident runs");
    println!("March: {ran:?}");
    assert_eq!(ran, Ran::Stopped(Refusal::FrameGone, 3));
}
