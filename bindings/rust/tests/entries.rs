//! Each entry once, as a host calls it.

use lir::{write_image, Live, Machine, Ran, Refusal, Refused, Value};

const P1: &[u8] = include_bytes!("../../../examples/p1.image");

fn refused<T>(why: Refusal) -> Result<T, Refused> {
    Err(Refused { why, place: None })
}

fn started(argument: u8) -> Machine {
    let mut machine = Machine::new();
    machine.start(P1, 0, Value::pointer(0), &[Value::u8(argument)]).unwrap();
    machine
}

#[test]
fn p1_with_each_budget() {
    assert_eq!(started(41).run(P1, 2), Ok(Ran::Returned(Some(Value::u8(42)), 2)));
    assert_eq!(started(41).run(P1, 1), Ok(Ran::Paused(1)));
    assert_eq!(started(41).run(P1, 0), Ok(Ran::Paused(0)));
    assert_eq!(started(255).run(P1, 2), Ok(Ran::Stopped(Refusal::OutsideWidth, 0)));
}

#[test]
fn a_paused_run_goes_on() {
    let mut machine = started(7);
    assert_eq!(machine.step(P1), Ok(None));
    assert_eq!((machine.is_running(), machine.next(), machine.variable(2)), (true, 1, Some(Value::u8(8))));
    assert!([0, 256, usize::MAX / 2 + 2].iter().all(|&number| machine.variable(number).is_none()));
    assert_eq!(machine.step(P1), Ok(Some(Some(Value::u8(8)))));
    assert!(!machine.is_running());
    assert_eq!(machine.run(P1, 1), refused(Refusal::Idle));
}

#[test]
fn a_start_is_refused() {
    let mut machine = started(1);
    let context = Value::pointer(0);
    assert_eq!(machine.start(P1, 0, context, &[Value::u8(1)]), refused(Refusal::Running));
    let mut machine = Machine::new();
    assert_eq!(machine.start(P1, 1, context, &[]), refused(Refusal::NoFunction));
    assert_eq!(machine.start(P1, 0, context, &[]), refused(Refusal::WrongArguments));
    assert_eq!(machine.start(P1, 0, Value { tag: 12, bits: 0xd800 }, &[Value::u8(1)]), refused(Refusal::NotScalar));
    assert_eq!(machine.start(&P1[..7], 0, context, &[]), Err(Refused { why: Refusal::BytesRunOut, place: Some(7) }));
    assert!(!machine.is_running() && (0..256).all(|number| machine.variable(number).is_none()));
}

#[test]
fn the_host_has_memory() {
    let mut machine = Machine::new();
    assert_eq!(machine.allocate(4), Ok(0));
    assert_eq!(machine.allocate(32765), refused(Refusal::BytesFull));
    assert_eq!(machine.write(0, &[1, 2, 3, 4]), Ok(()));
    assert_eq!(machine.write(0, &[0; 5]), refused(Refusal::BeyondLength));
    assert_eq!(machine.write(1, &[0]), refused(Refusal::NotGivenOut));
    let mut bytes = [9; 2];
    assert_eq!(machine.read(P1, 0, &mut bytes), Ok(()));
    assert_eq!(bytes, [1, 2]);
    assert_eq!(machine.live_list(), Ok(vec![Live { live: true, frame: 0, allocation: 0, offset: 0 }]));
}

#[test]
fn an_image_is_written() {
    let mut out = [0; 24];
    assert_eq!(write_image(P1, &mut out), Ok(24));
    assert_eq!(out, P1);
    assert_eq!(write_image(P1, &mut out[..23]), refused(Refusal::ShortBuffer));
    assert_eq!(write_image(&[2], &mut out), Err(Refused { why: Refusal::Unknown, place: Some(0) }));
}

#[test]
fn refusals_have_names() {
    for number in 0..=50 {
        let known = matches!(number, 1..=6 | 10..=15 | 20..=42);
        assert_eq!(Refusal::from_number(number).map(Refusal::number), known.then_some(number));
    }
}
