//! Every function with wrong lengths, unsound tables and random bytes: only answers and refusals come back, and what must stay, stays.
//! MISUSE_CALLS says how many rounds (default 200,000; each calls all nine functions).

use lir::slices::{self, Lent};
use lir::{Refusal, Value, ANSWER, BOUNDS, FRAMES, POINTERS, REGISTERS, STORE, VARIABLES};

const P1: &[u8] = &[1, 3, 0, 1, 1, 0, 0, 0, 1, 0, 1, 2, 0, 2, 8, 2, 0, 2, 2, 1, 5, 1, 0, 2];

struct Chance(u64);

impl Chance {
    fn next(&mut self) -> u64 {
        self.0 ^= self.0 << 13;
        self.0 ^= self.0 >> 7;
        self.0 ^= self.0 << 17;
        self.0
    }

    fn below(&mut self, n: u64) -> u64 {
        self.next() % n
    }

    /// A small number, a large one, or any.
    fn number(&mut self) -> u64 {
        match self.below(4) {
            0 => self.below(6),
            1 => self.below(5000),
            2 => u64::MAX - self.below(4),
            _ => self.next(),
        }
    }

    /// Mostly the right length; else none, one less, one more or any.
    fn length(&mut self, right: usize) -> usize {
        match self.below(40) {
            0 => 0,
            1 => right - 1,
            2 => right + 1,
            3 => self.below(2 * right as u64) as usize,
            _ => right,
        }
    }
}

/// The last elements, so that a memory checker sees a step past the end.
fn last<T>(all: &mut [T], count: usize) -> &mut [T] {
    let from = all.len() - count;
    &mut all[from..]
}

struct Tables {
    registers: Vec<u64>,
    answer: Vec<u64>,
    store: Vec<u8>,
    frames: Vec<u64>,
    bounds: Vec<u64>,
    pointers: Vec<u64>,
    variables: Vec<u64>,
}

impl Tables {
    fn new() -> Tables {
        Tables {
            registers: vec![0; 2 * REGISTERS],
            answer: vec![0; 2 * ANSWER],
            store: vec![0; 2 * STORE],
            frames: vec![0; 2 * FRAMES],
            bounds: vec![0; 2 * BOUNDS],
            pointers: vec![0; 2 * POINTERS],
            variables: vec![0; 2 * VARIABLES],
        }
    }

    fn lent(&mut self, chance: &mut Chance) -> Lent<'_> {
        Lent {
            registers: last(&mut self.registers, chance.length(REGISTERS)),
            answer: last(&mut self.answer, chance.length(ANSWER)),
            store: last(&mut self.store, chance.length(STORE)),
            frames: last(&mut self.frames, chance.length(FRAMES)),
            bounds: last(&mut self.bounds, chance.length(BOUNDS)),
            pointers: last(&mut self.pointers, chance.length(POINTERS)),
            variables: last(&mut self.variables, chance.length(VARIABLES)),
        }
    }

    /// All lengths are right but one, which is one too short or one too long.
    fn one_wrong(&mut self, chance: &mut Chance) -> Lent<'_> {
        let (wrong, longer) = (chance.below(7), chance.below(2) as usize);
        let length = |slice: u64, right: usize| if slice == wrong { right - 1 + 2 * longer } else { right };
        Lent {
            registers: last(&mut self.registers, length(0, REGISTERS)),
            answer: last(&mut self.answer, length(1, ANSWER)),
            store: last(&mut self.store, length(2, STORE)),
            frames: last(&mut self.frames, length(3, FRAMES)),
            bounds: last(&mut self.bounds, length(4, BOUNDS)),
            pointers: last(&mut self.pointers, length(5, POINTERS)),
            variables: last(&mut self.variables, length(6, VARIABLES)),
        }
    }

    /// A word somewhere is overwritten: registers often, for then the tables are looked at far from their start.
    fn spoil(&mut self, chance: &mut Chance) {
        let word = chance.number();
        let table = match chance.below(6) {
            0 | 1 => &mut self.registers,
            2 => &mut self.frames,
            3 => &mut self.bounds,
            4 => &mut self.pointers,
            _ => &mut self.variables,
        };
        let half = table.len() / 2;
        let at = chance.below(half.min(40) as u64) as usize;
        table[half + at] = word;
    }

    fn exact(&mut self) -> Lent<'_> {
        Lent {
            registers: last(&mut self.registers, REGISTERS),
            answer: last(&mut self.answer, ANSWER),
            store: last(&mut self.store, STORE),
            frames: last(&mut self.frames, FRAMES),
            bounds: last(&mut self.bounds, BOUNDS),
            pointers: last(&mut self.pointers, POINTERS),
            variables: last(&mut self.variables, VARIABLES),
        }
    }
}

fn image(chance: &mut Chance) -> Vec<u8> {
    let mut bytes = P1.to_vec();
    match chance.below(4) {
        0 => {}
        1 => bytes.truncate(chance.below(25) as usize),
        2 => {
            let at = chance.below(24) as usize;
            bytes[at] = chance.next() as u8;
        }
        _ => bytes = (0..chance.below(60)).map(|_| chance.next() as u8).collect(),
    }
    bytes
}

fn known(number: u64) -> u64 {
    assert!(number == 0 || Refusal::from_number(number).is_some(), "no answer: {number}");
    number
}

#[test]
fn misuse_is_only_refused() {
    let rounds: u64 = std::env::var("MISUSE_CALLS").map_or(200_000, |text| text.parse().expect("a number"));
    let (mut chance, mut tables) = (Chance(0x9e37_79b9_7f4a_7c15), Tables::new());
    let (mut buffer, mut columns) = (vec![0u8; 300], [(); 4].map(|()| vec![0u64; 5000]));
    let mut tally = std::collections::BTreeMap::new();
    for _ in 0..rounds {
        let bytes = image(&mut chance);
        if chance.below(6) == 0 {
            *tally.entry(known(slices::fresh(tables.exact()))).or_insert(0u64) += 1;
        }
        if chance.below(5) == 0 {
            tables.spoil(&mut chance);
        }
        let (function, pointer, size) = (chance.below(3), chance.number() as usize, chance.number() as usize);
        let context = Value { tag: chance.below(16), bits: chance.number() };
        let count = chance.below(4) as usize;
        let tags: Vec<u64> = (0..count).map(|_| chance.below(16)).collect();
        let bits: Vec<u64> = (0..chance.length(count.max(1))).map(|_| chance.number()).collect();
        let room = chance.below(300) as usize;
        let rooms = [(); 4].map(|()| chance.below(5000) as usize);
        let [live, frame, allocation, offset] = &mut columns;
        let numbers = [
            slices::start(&bytes, function, context, &tags, &bits, tables.lent(&mut chance)),
            slices::step(&bytes, tables.lent(&mut chance)),
            slices::run(&bytes, chance.below(50) as u32, tables.lent(&mut chance)),
            slices::allocate(size, tables.lent(&mut chance)),
            slices::write(pointer, last(&mut buffer, room), tables.lent(&mut chance)),
            slices::read(&bytes, pointer, last(&mut buffer, room), tables.lent(&mut chance)),
            slices::list(
                tables.lent(&mut chance),
                last(live, rooms[0]),
                last(frame, rooms[1]),
                last(allocation, rooms[2]),
                last(offset, rooms[3]),
            ),
            slices::write_image(&bytes, last(&mut buffer, room), last(&mut tables.answer, chance.length(ANSWER))),
            slices::fresh(tables.one_wrong(&mut chance)),
        ];
        assert_eq!(numbers[8], Refusal::NotSound.number(), "fresh memory with a wrong length");
        for number in numbers {
            *tally.entry(known(number)).or_insert(0) += 1;
        }
    }
    println!("{} calls; answers and refusals: {tally:?}", tally.values().sum::<u64>());
}
