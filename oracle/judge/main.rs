//! Plays cases on the published evaluator and tells every state: a case a line in, see oracle/README.md.
#![allow(dead_code, unused_imports, unused_assignments, non_local_definitions)]

extern crate self as inetnum;

pub mod asn;
mod ast;
mod label;
mod lir;
mod probe;
mod program;
mod runtime;
mod typechecker;
mod value;

use std::io::{BufRead, Write};
use std::panic::{AssertUnwindSafe, catch_unwind};

use lir::eval::eval;
use lir::{IrValue, Memory};
use probe::{Stop, over};
use program::{Program, value_of_text};

fn listed(numbers: &[u32]) -> String {
    numbers
        .iter()
        .map(u32::to_string)
        .collect::<Vec<_>>()
        .join(",")
}

/// How a case goes on.
#[derive(PartialEq)]
enum Next {
    On,
    /// Paused: the starts left are passed over.
    HostOnly,
    Ended,
}

/// A start and its run.
fn start(program: &Program, mem: &mut Memory, word: &str) -> Next {
    let fields: Vec<&str> = word.split('=').collect();
    let mut values = fields[1].split(',').map(value_of_text);
    let context = values.next().unwrap();
    let budget: usize = fields[2].parse().unwrap();
    probe::begin(program, budget);
    let function = format!("f{}", fields[0]);
    let arguments = values.collect();
    let outcome = catch_unwind(AssertUnwindSafe(|| {
        eval(
            &program.runtime,
            &program.items,
            &function,
            mem,
            context,
            arguments,
        )
    }));
    let done = probe::done();
    let limits = over(mem);
    let (line, next) = match outcome {
        Ok(value) => (
            format!("returned {} {done}", probe::optional_value(value.as_ref())),
            Next::On,
        ),
        Err(payload) => match payload.downcast_ref::<Stop>() {
            Some(Stop::Over) => (
                format!("ours {} {}", listed(&limits), done.saturating_sub(1)),
                Next::Ended,
            ),
            Some(Stop::Paused) => (format!("paused {done}"), Next::HostOnly),
            Some(Stop::PastConstant) => (format!("ours 29 {done}"), Next::Ended),
            Some(Stop::NotANumber) => (format!("out {done}"), Next::Ended),
            None => panicked(mem, &limits, done, budget),
        },
    };
    probe::say(&format!("A {line}"));
    next
}

fn panicked(mem: &Memory, limits: &[u32], done: usize, budget: usize) -> (String, Next) {
    let number = probe::panic_number();
    if !limits.is_empty() {
        return (
            format!("ours {} {}", listed(limits), done.saturating_sub(1)),
            Next::Ended,
        );
    }
    if number != 20 {
        return (
            format!("refused {number} {}", done.saturating_sub(1)),
            Next::Ended,
        );
    }
    // The fetch came before the trace: the instruction before it was completed.
    probe::tell_beyond(mem);
    if done == budget {
        (format!("paused {done}"), Next::HostOnly)
    } else {
        (format!("refused 20 {done}"), Next::Ended)
    }
}

/// A host call.
fn host(program: &Program, mem: &mut Memory, word: &str) -> Next {
    let (first, rest) = word[1..].split_once('=').unwrap_or((&word[1..], ""));
    let number: usize = first.parse().unwrap();
    if word.starts_with('a') {
        let given = mem.allocate(number);
        let limits = over(mem);
        probe::say(&if limits.is_empty() {
            format!("H ok {given}")
        } else {
            format!("H ours {}", listed(&limits))
        });
        return if limits.is_empty() {
            Next::On
        } else {
            Next::Ended
        };
    }
    if word.starts_with('r')
        && probe::past_constant(&program.addresses(), mem, number, rest.parse().unwrap())
    {
        probe::say("H ours 29");
        return Next::On;
    }
    let outcome = catch_unwind(AssertUnwindSafe(|| match &word[..1] {
        "w" => {
            mem.write(number, &program::bytes_of_text(rest));
            String::new()
        }
        _ => probe::hex(mem.read_slice(number, rest.parse().unwrap())),
    }));
    probe::say(&match outcome {
        Ok(text) => format!("H ok {text}").trim_end().to_string(),
        Err(_) => format!("H refused {}", probe::panic_number()),
    });
    Next::On
}

fn main() {
    probe::watch_panics();
    let mut out = std::io::BufWriter::with_capacity(1 << 20, std::io::stdout());
    for line in std::io::stdin().lock().lines() {
        let line = line.unwrap();
        let mut words = line.split(' ');
        let program = Program::new(&program::bytes_of_text(words.next().unwrap()));
        let mut mem = Memory::new();
        probe::fresh();
        let mut paused = false;
        for word in words {
            let next = match word.strip_prefix('s') {
                Some(_) if paused => continue,
                Some(rest) => start(&program, &mut mem, rest),
                None => host(&program, &mut mem, word),
            };
            paused |= next == Next::HostOnly;
            if next == Next::Ended {
                break;
            }
        }
        probe::say(".");
        out.write_all(probe::told().as_bytes()).unwrap();
    }
    writeln!(out, "T {}", probe::tally()).unwrap();
}
