//! The proved LIR evaluator in process. `Machine` owns its tables; every call is safe, and answers or is refused with a number.

mod refusal;
pub mod slices;

pub use refusal::Refusal;
use slices::Lent;

/// How many elements each slice of a machine has.
pub const REGISTERS: usize = 5;
pub const ANSWER: usize = 4;
pub const STORE: usize = 32768;
pub const FRAMES: usize = 260;
pub const BOUNDS: usize = 513;
pub const POINTERS: usize = 20480;
pub const VARIABLES: usize = 512;

/// A value: the tag of its kind and its bits.
#[derive(Clone, Copy, Debug, PartialEq, Eq, Hash)]
pub struct Value {
    pub tag: u64,
    pub bits: u64,
}

/// The tags of the kinds.
pub mod tag {
    pub const BOOL: u64 = 1;
    pub const U8: u64 = 2;
    pub const U16: u64 = 3;
    pub const U32: u64 = 4;
    pub const U64: u64 = 5;
    pub const I8: u64 = 6;
    pub const I16: u64 = 7;
    pub const I32: u64 = 8;
    pub const I64: u64 = 9;
    pub const F32: u64 = 10;
    pub const F64: u64 = 11;
    pub const CHAR: u64 = 12;
    pub const ASN: u64 = 13;
    pub const POINTER: u64 = 14;
}

impl Value {
    pub fn u8(n: u8) -> Value {
        Value { tag: tag::U8, bits: n.into() }
    }

    pub fn u64(n: u64) -> Value {
        Value { tag: tag::U64, bits: n }
    }

    /// A pointer by its number.
    pub fn pointer(number: u64) -> Value {
        Value { tag: tag::POINTER, bits: number }
    }
}

/// A refused call: why, and of an image the place.
#[derive(Clone, Copy, Debug, PartialEq, Eq)]
pub struct Refused {
    pub why: Refusal,
    pub place: Option<u64>,
}

/// What a run gives, with its steps. A refused instruction stops it, and the machine is as before that instruction.
#[derive(Clone, Copy, Debug, PartialEq, Eq)]
pub enum Ran {
    Returned(Option<Value>, u64),
    Paused(u64),
    Stopped(Refusal, u64),
}

/// A record of the live list.
#[derive(Clone, Copy, Debug, PartialEq, Eq)]
pub struct Live {
    pub live: bool,
    pub frame: u64,
    pub allocation: u64,
    pub offset: u64,
}

/// A machine with its tables.
#[derive(Clone)]
pub struct Machine {
    registers: [u64; REGISTERS],
    answer: [u64; ANSWER],
    store: Vec<u8>,
    frames: Vec<u64>,
    bounds: Vec<u64>,
    pointers: Vec<u64>,
    variables: Vec<u64>,
}

impl Default for Machine {
    fn default() -> Machine {
        Machine::new()
    }
}

impl Machine {
    /// Fresh memory.
    pub fn new() -> Machine {
        let mut machine = Machine {
            registers: [0; REGISTERS],
            answer: [0; ANSWER],
            store: vec![0; STORE],
            frames: vec![0; FRAMES],
            bounds: vec![0; BOUNDS],
            pointers: vec![0; POINTERS],
            variables: vec![0; VARIABLES],
        };
        assert_eq!(slices::fresh(machine.lent()), 0);
        machine
    }

    fn lent(&mut self) -> Lent<'_> {
        Lent {
            registers: &mut self.registers,
            answer: &mut self.answer,
            store: &mut self.store,
            frames: &mut self.frames,
            bounds: &mut self.bounds,
            pointers: &mut self.pointers,
            variables: &mut self.variables,
        }
    }

    fn refused(&self, number: u64) -> Refused {
        let why = Refusal::from_number(number).expect("a refusal has a name");
        Refused { why, place: why.of_image().then_some(self.answer[3]) }
    }

    fn settled(&self, number: u64) -> Result<(), Refused> {
        if number == 0 {
            return Ok(());
        }
        Err(self.refused(number))
    }

    fn returned(&self) -> Option<Value> {
        (self.answer[1] != 0).then_some(Value { tag: self.answer[1], bits: self.answer[2] })
    }

    pub fn is_running(&self) -> bool {
        self.registers[0] == 1
    }

    /// The next instruction's place.
    pub fn next(&self) -> u64 {
        self.registers[1]
    }

    /// A variable's value, where it is set.
    pub fn variable(&self, number: usize) -> Option<Value> {
        let pair = self.variables.chunks_exact(2).nth(number)?;
        (pair[0] != 0).then_some(Value { tag: pair[0], bits: pair[1] })
    }

    /// A function of the image begins.
    pub fn start(&mut self, image: &[u8], function: u64, context: Value, arguments: &[Value]) -> Result<(), Refused> {
        let tags: Vec<u64> = arguments.iter().map(|value| value.tag).collect();
        let bits: Vec<u64> = arguments.iter().map(|value| value.bits).collect();
        let number = slices::start(image, function, context, &tags, &bits, self.lent());
        self.settled(number)
    }

    /// One step: what the last Return gave, or nothing.
    pub fn step(&mut self, image: &[u8]) -> Result<Option<Option<Value>>, Refused> {
        let number = slices::step(image, self.lent());
        self.settled(number)?;
        Ok((self.answer[0] == 1).then(|| self.returned()))
    }

    /// Steps until the budget is spent, the run returns, or an instruction is refused.
    pub fn run(&mut self, image: &[u8], budget: u32) -> Result<Ran, Refused> {
        let number = slices::run(image, budget, self.lent());
        let steps = self.answer[3];
        match number {
            0 if self.answer[0] == 1 => Ok(Ran::Returned(self.returned(), steps)),
            0 => Ok(Ran::Paused(steps)),
            _ if number < Refusal::NoInstruction.number() => Err(self.refused(number)),
            _ => Ok(Ran::Stopped(self.refused(number).why, steps)),
        }
    }

    /// A new allocation of zeros; its pointer's number.
    pub fn allocate(&mut self, size: usize) -> Result<usize, Refused> {
        let number = slices::allocate(size, self.lent());
        self.settled(number)?;
        Ok(self.answer[3] as usize)
    }

    /// Bytes through a pointer.
    pub fn write(&mut self, pointer: usize, bytes: &[u8]) -> Result<(), Refused> {
        let number = slices::write(pointer, bytes, self.lent());
        self.settled(number)
    }

    /// As many bytes as the buffer holds, through a pointer.
    pub fn read(&mut self, image: &[u8], pointer: usize, bytes: &mut [u8]) -> Result<(), Refused> {
        let number = slices::read(image, pointer, bytes, self.lent());
        self.settled(number)
    }

    /// Of each pointer given out, whether its allocation lives, and where it points.
    pub fn live_list(&mut self) -> Result<Vec<Live>, Refused> {
        let count = self.registers[4] as usize;
        let mut columns = [(); 4].map(|()| vec![0u64; count]);
        let [live, frame, allocation, offset] = &mut columns;
        let number = slices::list(self.lent(), live, frame, allocation, offset);
        self.settled(number)?;
        let record =
            |k: usize| Live { live: columns[0][k] == 1, frame: columns[1][k], allocation: columns[2][k], offset: columns[3][k] };
        Ok((0..count).map(record).collect())
    }
}

/// An image through its program back to bytes; how many were written.
pub fn write_image(image: &[u8], out: &mut [u8]) -> Result<usize, Refused> {
    let mut answer = [0; ANSWER];
    match slices::write_image(image, out, &mut answer) {
        0 => Ok(answer[3] as usize),
        number => {
            let why = Refusal::from_number(number).expect("a refusal has a name");
            Err(Refused { why, place: why.of_image().then_some(answer[3]) })
        }
    }
}
