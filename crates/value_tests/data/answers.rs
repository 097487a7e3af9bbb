// Prints what value_tests must print, by Rust's own operators: `stdout` is this program's output.
//   in crates/value_tests: rustc --edition 2021 -C overflow-checks=on -o ../../target/answers data/answers.rs, then ../../target/answers data > stdout
// The operators themselves run, and a panic is the refusal that stands for it: 24 for a divisor of zero, 23 for an overflow.

use std::fmt::Write;
use std::panic::{catch_unwind, set_hook, UnwindSafe};

const PRIME: u64 = 4_294_967_291;

fn mix(h: u64, part: u64) -> u64 {
    ((h % PRIME) * 65_599 + part % (1 << 32)) % PRIME
}

fn add(h: u64, n: u64) -> u64 {
    mix(mix(h, n >> 32), n)
}

#[derive(Clone, Copy, PartialEq)]
enum Value {
    Bool(bool), U8(u8), U16(u16), U32(u32), U64(u64), I8(i8), I16(i16), I32(i32), I64(i64),
    F32(u32), F64(u64), Char(char), Asn(u32), Pointer(u64),
}
use Value::*;

enum Answer { Is(Value), Refused(u64) }

impl Value {
    fn tag(self) -> u64 {
        match self {
            Bool(_) => 1, U8(_) => 2, U16(_) => 3, U32(_) => 4, U64(_) => 5, I8(_) => 6, I16(_) => 7, I32(_) => 8,
            I64(_) => 9, F32(_) => 10, F64(_) => 11, Char(_) => 12, Asn(_) => 13, Pointer(_) => 14,
        }
    }

    fn bits(self) -> u64 {
        match self {
            Bool(b) => b as u64, U8(x) => x as u64, U16(x) => x as u64, U32(x) => x as u64, U64(x) => x,
            I8(x) => x as u8 as u64, I16(x) => x as u16 as u64, I32(x) => x as u32 as u64, I64(x) => x as u64,
            F32(x) => x as u64, F64(x) => x, Char(c) => c as u64, Asn(x) => x as u64, Pointer(x) => x,
        }
    }

    fn made(tag: u64, b: u64) -> Option<Value> {
        Some(match tag {
            1 => match b { 0 => Bool(false), 1 => Bool(true), _ => return None },
            2 => U8(b.try_into().ok()?), 3 => U16(b.try_into().ok()?), 4 => U32(b.try_into().ok()?), 5 => U64(b),
            6 => I8(u8::try_from(b).ok()? as i8), 7 => I16(u16::try_from(b).ok()? as i16),
            8 => I32(u32::try_from(b).ok()? as i32), 9 => I64(b as i64),
            10 => F32(b.try_into().ok()?), 11 => F64(b),
            12 => Char(char::from_u32(b.try_into().ok()?)?), 13 => Asn(b.try_into().ok()?), 14 => Pointer(b),
            _ => return None,
        })
    }

    fn le_bytes(self) -> Vec<u8> {
        match self {
            Bool(b) => (b as u8).to_le_bytes().into(), U8(x) => x.to_le_bytes().into(), U16(x) => x.to_le_bytes().into(),
            U32(x) => x.to_le_bytes().into(), U64(x) => x.to_le_bytes().into(), I8(x) => x.to_le_bytes().into(),
            I16(x) => x.to_le_bytes().into(), I32(x) => x.to_le_bytes().into(), I64(x) => x.to_le_bytes().into(),
            F32(x) => f32::from_bits(x).to_le_bytes().into(), F64(x) => f64::from_bits(x).to_le_bytes().into(),
            Char(c) => (c as u32).to_le_bytes().into(), Asn(x) => x.to_le_bytes().into(), Pointer(x) => x.to_le_bytes().into(),
        }
    }

    fn digest(self, h: u64) -> u64 {
        add(add(h, self.tag()), self.bits())
    }
}

fn digest(h: u64, a: Answer) -> u64 {
    match a {
        Answer::Is(v) => v.digest(h),
        Answer::Refused(n) => add(add(h, 0), n),
    }
}

// What the operator gives, or the number of its panic.
fn ran(f: impl FnOnce() -> Value + UnwindSafe) -> Answer {
    match catch_unwind(f) {
        Ok(v) => Answer::Is(v),
        Err(e) => {
            let text = e.downcast_ref::<String>().cloned().or(e.downcast_ref::<&str>().map(|s| s.to_string())).unwrap();
            Answer::Refused(if text.contains("divide by zero") || text.contains("divisor of zero") { 24 } else { 23 })
        }
    }
}

macro_rules! operate {
    ($op:expr, $x:expr, $y:expr, $($kind:ident)*) => {
        match ($x, $y) {
            $(($kind(a), $kind(b)) => match $op {
                0 => ran(move || $kind(a + b)), 1 => ran(move || $kind(a - b)), 2 => ran(move || $kind(a * b)),
                3 => ran(move || $kind(a / b)), _ => ran(move || $kind(a % b)),
            },)*
            _ => Answer::Refused(22),
        }
    };
}

fn compute(op: u64, x: Value, y: Value) -> Answer {
    if op < 5 {
        return operate!(op, x, y, U8 U16 U32 U64 I8 I16 I32 I64);
    }
    match x {
        I8(a) => ran(move || I8(-a)), I16(a) => ran(move || I16(-a)),
        I32(a) => ran(move || I32(-a)), I64(a) => ran(move || I64(-a)),
        _ => Answer::Refused(22),
    }
}

// Equality of value.rs: the kinds that it compares, and a panic for the rest.
fn equal(x: Value, y: Value) -> Option<bool> {
    Some(match (x, y) {
        (Bool(l), Bool(r)) => l == r, (U8(l), U8(r)) => l == r, (U16(l), U16(r)) => l == r, (U32(l), U32(r)) => l == r,
        (I8(l), I8(r)) => l == r, (I16(l), I16(r)) => l == r, (I32(l), I32(r)) => l == r,
        (F32(l), F32(r)) => f32::from_bits(l) == f32::from_bits(r), (F64(l), F64(r)) => f64::from_bits(l) == f64::from_bits(r),
        (Asn(l), Asn(r)) => l == r, (Pointer(l), Pointer(r)) => l == r,
        _ => return None,
    })
}

fn as_u64(x: Value) -> Option<u64> {
    Some(match x { U8(x) => x as u64, U16(x) => x as u64, U32(x) => x as u64, U64(x) => x, _ => return None })
}

fn as_i64(x: Value) -> Option<i64> {
    Some(match x { I8(x) => x as i64, I16(x) => x as i64, I32(x) => x as i64, I64(x) => x, _ => return None })
}

fn compared<T: PartialOrd>(test: u64, l: Option<T>, r: Option<T>) -> Option<bool> {
    let (l, r) = (l?, r?);
    Some(match test { 0 => l < r, 1 => l <= r, 2 => l > r, _ => l >= r })
}

fn int_cmp(number: u64, x: Value, y: Value) -> Answer {
    let answer = match number {
        0 => equal(x, y),
        1 => equal(x, y).map(|b| !b),
        2..=5 => compared(number - 2, as_u64(x), as_u64(y)),
        _ => compared(number - 6, as_i64(x), as_i64(y)),
    };
    answer.map_or(Answer::Refused(22), |b| Answer::Is(Bool(b)))
}

fn top(tag: u64) -> u64 {
    match tag { 2 | 6 => 0xff, 3 | 7 => 0xffff, 4 | 8 | 13 => 0xffff_ffff, _ => u64::MAX }
}

fn edge(tag: u64, i: u64) -> u64 {
    let single: [u64; 16] = [0, 1, 0x7f_ffff, 0x80_0000, 0x3f80_0000, 0x7f7f_ffff, 0x7f80_0000, 0x7f80_0001, 0x7fbf_ffff,
        0x7fc0_0000, 0x7fff_ffff, 0x8000_0000, 0xff80_0000, 0xff80_0001, 0xffc0_0000, 0xffff_ffff];
    let double: [u64; 16] = [0, 1, 0xf_ffff_ffff_ffff, 0x10_0000_0000_0000, 0x3ff0_0000_0000_0000, 0x7fef_ffff_ffff_ffff,
        0x7ff0_0000_0000_0000, 0x7ff0_0000_0000_0001, 0x7ff7_ffff_ffff_ffff, 0x7ff8_0000_0000_0000, 0x7fff_ffff_ffff_ffff,
        0x8000_0000_0000_0000, 0xfff0_0000_0000_0000, 0xfff0_0000_0000_0001, 0xfff8_0000_0000_0000, u64::MAX];
    let scalar: [u64; 12] = [0, 0x7f, 0xd7ff, 0xd800, 0xdbff, 0xdfff, 0xe000, 0xffff, 0x1_0000, 0x10_ffff, 0x11_0000, 0xffff_ffff];
    let t = top(tag);
    let r = match tag { 2 | 6 => 0x10, 3 | 7 => 0x100, 4 | 8 | 13 => 0x1_0000, _ => 0x1_0000_0000 };
    let integer: [u64; 16] = [0, 1, 2, 3, 7, r - 1, r, r + 1, t / 2 - 1, t / 2, t / 2 + 1, t / 2 + 2, t - r, t - 2, t - 1, t];
    match tag {
        1 => i,
        10 => single[i as usize],
        11 => double[i as usize],
        12 => scalar[(i as usize).min(11)],
        _ => integer[i as usize],
    }
}

fn pair(h: u64, op: u64, tag: u64, a: u64, b: u64) -> u64 {
    match (Value::made(tag, a), Value::made(tag, b)) {
        (Some(x), Some(y)) => digest(h, compute(op, x, y)),
        _ => add(h, 15),
    }
}

// A value is written into this room, which is shown whole, and read back as the type with its tag.
fn trip(mut h: u64, v: Value, mut room: Vec<u8>) -> u64 {
    let bytes = v.le_bytes();
    let fits = bytes.len() <= room.len();
    if fits {
        room[..bytes.len()].copy_from_slice(&bytes);
    }
    h = add(h, fits as u64);
    for b in &room {
        h = add(h, *b as u64);
    }
    match v.tag() {
        12 | 13 => add(h, 16),
        _ if fits => v.digest(h),
        _ => add(h, 17),
    }
}

// Every line of the float vectors, by the operators of f32 and f64.
fn floats(path: &str) -> (u64, u64) {
    let text = std::fs::read_to_string(path).unwrap();
    let (mut right, mut lines) = (0, 0);
    for line in text.lines() {
        let f: Vec<&str> = line.split(' ').collect();
        let hex = |s: &str| u64::from_str_radix(s, 16).unwrap();
        let (a, b) = (hex(f[2]), hex(f[3]));
        let wide = f[1] == "64";
        let of = |x: u64| if wide { f64::from_bits(x) } else { f32::from_bits(x as u32) as f64 };
        let (x, y) = (of(a), of(b));
        let good = match f[0] {
            "neg" => b == if wide { (-f64::from_bits(a)).to_bits() } else { (-f32::from_bits(a as u32)).to_bits() as u64 },
            "div" => {
                let (nan, q) = if wide {
                    let q = f64::from_bits(a) / f64::from_bits(b);
                    (q.is_nan(), q.to_bits())
                } else {
                    let q = f32::from_bits(a as u32) / f32::from_bits(b as u32);
                    (q.is_nan(), q.to_bits() as u64)
                };
                if f[4] == "nan" { nan } else { !nan && q == hex(f[4]) }
            }
            op => {
                let t = match op { "eq" => x == y, "ne" => x != y, "lt" => x < y, "le" => x <= y, "gt" => x > y, _ => x >= y };
                hex(f[4]) == t as u64
            }
        };
        lines += 1;
        right += good as u64;
    }
    (right, lines)
}

// The lines of a list that the published Rust answered: every one is right.
fn listed(path: &str) -> usize {
    std::fs::read_to_string(path).unwrap().lines().count()
}

fn main() {
    set_hook(Box::new(|_| {}));
    let mut out = String::new();
    let data = std::env::args().nth(1).unwrap();
    let (right, lines) = floats(&format!("{data}/floats.txt"));
    writeln!(out, "float vectors {right} right of {lines}").unwrap();
    for list in ["kinds", "rounding"] {
        let lines = listed(&format!("{data}/{list}.txt"));
        writeln!(out, "{list} {lines} right of {lines}").unwrap();
    }
    for op in 0..6 {
        for tag in [2, 6] {
            let h = (0..65536).fold(0, |h, n| pair(h, op, tag, n / 256, n % 256));
            writeln!(out, "8 bits whole: tag {tag} operation {op} digest {h:08x}").unwrap();
        }
    }
    for n in 0..48 {
        let (op, tag) = (n % 6, n / 6 + 2);
        let h = (0..256).fold(0, |h, n| pair(h, op, tag, edge(tag, n / 16), edge(tag, n % 16)));
        writeln!(out, "ends: tag {tag} operation {op} digest {h:08x}").unwrap();
    }
    for number in 0..11 {
        let mut h = 0;
        for n in 0..196 {
            let (left, right) = (n / 14 + 1, n % 14 + 1);
            for m in 0..256 {
                h = match (number, Value::made(left, edge(left, m / 16)), Value::made(right, edge(right, m % 16))) {
                    (0..=9, Some(x), Some(y)) => digest(h, int_cmp(number, x, y)),
                    _ => add(h, 15),
                };
            }
        }
        writeln!(out, "comparison {number} digest {h:08x}").unwrap();
    }
    for tag in 1..15 {
        let h = (0..16).fold(0, |h, i| match Value::made(tag, edge(tag, i)) {
            Some(v) => trip(trip(h, v, vec![0xaa; 12]), v, vec![0xaa; 3]),
            None => add(h, 15),
        });
        writeln!(out, "bytes of tag {tag} digest {h:08x}").unwrap();
    }
    let truths = (0..256).fold(0, |h, n| {
        let one = match Value::made(1, n) { Some(v) => v.digest(0), None => add(add(0, 0), 31) };
        add(h, one)
    });
    writeln!(out, "Bool from each byte digest {truths:08x}").unwrap();
    print!("{out}");
}
