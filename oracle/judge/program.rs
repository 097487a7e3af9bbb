//! An accepted image as the items, constants and names of the published evaluator.

use std::collections::HashMap;

use crate::asn::Asn;
use crate::ast::Identifier;
use crate::label::LabelRef;
use crate::lir::{
    Block, FloatCmp, Instruction, IntCmp, IrType, IrValue, Item, ItemKind, Operand, Signature,
    ValueOrSlot, Var, VarKind,
};
use crate::runtime::layout::Layout;
use crate::runtime::{Constant, ConstantValue, Rt};
use crate::typechecker::scope::{ResolvedName, ScopeRef};
use crate::typechecker::types::Type;

pub struct Program {
    pub items: Vec<Item>,
    pub runtime: Rt,
    /// Each constant's bytes, with one byte more so that no two have one address.
    pub constants: Vec<Box<[u8]>>,
    pub numbers: HashMap<Var, usize>,
}

pub fn bytes_of_text(text: &str) -> Vec<u8> {
    (0..text.len() / 2)
        .map(|i| u8::from_str_radix(&text[2 * i..2 * i + 2], 16).unwrap())
        .collect()
}

pub fn value_of_text(text: &str) -> IrValue {
    let (tag, bits) = text.split_once(':').unwrap();
    value(tag.parse().unwrap(), bits.parse().unwrap())
}

fn value(tag: u64, bits: u64) -> IrValue {
    match tag {
        1 => IrValue::Bool(bits == 1),
        2 => IrValue::U8(bits as u8),
        3 => IrValue::U16(bits as u16),
        4 => IrValue::U32(bits as u32),
        5 => IrValue::U64(bits),
        6 => IrValue::I8(bits as i8),
        7 => IrValue::I16(bits as i16),
        8 => IrValue::I32(bits as i32),
        9 => IrValue::I64(bits as i64),
        10 => IrValue::F32(f32::from_bits(bits as u32)),
        11 => IrValue::F64(f64::from_bits(bits)),
        12 => IrValue::Char(char::from_u32(bits as u32).unwrap()),
        13 => IrValue::Asn(Asn(bits as u32)),
        14 => IrValue::Pointer(bits as usize),
        _ => unreachable!(),
    }
}

fn name(function: usize) -> Identifier {
    Identifier::from(format!("pkg.f{function}"))
}

struct Reader<'a> {
    image: &'a [u8],
    at: usize,
    variables: Vec<Var>,
}

impl Reader<'_> {
    fn number(&mut self) -> u64 {
        let (mut value, mut shift) = (0, 0);
        loop {
            let byte = self.image[self.at];
            self.at += 1;
            value |= u64::from(byte & 127) << shift;
            shift += 7;
            if byte < 128 {
                return value;
            }
        }
    }

    fn size(&mut self) -> usize {
        self.number() as usize
    }

    fn raw(&mut self) -> Vec<u8> {
        let length = self.size();
        self.at += length;
        self.image[self.at - length..self.at].to_vec()
    }

    fn label(&mut self) -> LabelRef {
        LabelRef(self.size())
    }

    fn variable(&mut self) -> Var {
        let number = self.size();
        self.variables[number].clone()
    }

    fn operand(&mut self) -> Operand {
        match self.number() {
            0 => Operand::Place(self.variable()),
            tag => Operand::Value(value(tag, self.number())),
        }
    }

    fn kind(&mut self) -> IrType {
        match self.number() {
            1 => IrType::Bool,
            2 => IrType::U8,
            3 => IrType::U16,
            4 => IrType::U32,
            5 => IrType::U64,
            6 => IrType::I8,
            7 => IrType::I16,
            8 => IrType::I32,
            9 => IrType::I64,
            10 => IrType::F32,
            11 => IrType::F64,
            _ => IrType::Pointer,
        }
    }

    fn optional<T>(&mut self, field: impl Fn(&mut Self) -> T) -> Option<T> {
        if self.number() == 1 {
            Some(field(self))
        } else {
            None
        }
    }

    fn list<T>(&mut self, item: impl Fn(&mut Self) -> T) -> Vec<T> {
        (0..self.number()).map(|_| item(self)).collect()
    }

    fn int_cmp(&mut self) -> IntCmp {
        use IntCmp::*;
        [Eq, Ne, ULt, ULe, UGt, UGe, SLt, SLe, SGt, SGe][self.size()].clone()
    }

    fn float_cmp(&mut self) -> FloatCmp {
        use FloatCmp::*;
        [Eq, Ne, Lt, Le, Gt, Ge][self.size()].clone()
    }

    fn flag(&mut self) -> bool {
        self.number() == 1
    }

    fn instruction(&mut self) -> Instruction {
        let r = self;
        match r.number() {
            0 => Instruction::Jump(r.label()),
            1 => Instruction::Switch {
                examinee: r.operand(),
                branches: r.list(|r| (r.size(), r.label())),
                default: r.label(),
            },
            2 => Instruction::Assign {
                to: r.variable(),
                val: r.operand(),
                ty: r.kind(),
            },
            3 => Instruction::ConstantAddress {
                to: r.variable(),
                name: ResolvedName(r.size()),
            },
            4 => Instruction::Call {
                to: r.optional(|r| (r.variable(), r.kind())),
                ctx: r.optional(|r| r.operand()),
                func: name(r.size()),
                args: r.list(|r| r.operand()),
                return_ptr: r.optional(|r| r.variable()),
            },
            5 => Instruction::Return(r.optional(|r| r.operand())),
            6 => Instruction::IntCmp {
                to: r.variable(),
                cmp: r.int_cmp(),
                left: r.operand(),
                right: r.operand(),
            },
            7 => Instruction::FloatCmp {
                to: r.variable(),
                cmp: r.float_cmp(),
                left: r.operand(),
                right: r.operand(),
            },
            8 => Instruction::Add {
                to: r.variable(),
                left: r.operand(),
                right: r.operand(),
            },
            9 => Instruction::Sub {
                to: r.variable(),
                left: r.operand(),
                right: r.operand(),
            },
            10 => Instruction::Mul {
                to: r.variable(),
                left: r.operand(),
                right: r.operand(),
            },
            11 => Instruction::Div {
                to: r.variable(),
                signed: r.flag(),
                left: r.operand(),
                right: r.operand(),
            },
            12 => Instruction::Mod {
                to: r.variable(),
                signed: r.flag(),
                left: r.operand(),
                right: r.operand(),
            },
            13 => Instruction::FDiv {
                to: r.variable(),
                left: r.operand(),
                right: r.operand(),
            },
            14 => Instruction::Not {
                to: r.variable(),
                val: r.operand(),
            },
            15 => Instruction::Negate {
                to: r.variable(),
                val: r.operand(),
            },
            16 => Instruction::Offset {
                to: r.variable(),
                from: r.operand(),
                offset: r.number() as u32,
            },
            17 => {
                let (to, size, bytes) = (r.variable(), r.size(), r.raw());
                Instruction::Initialize {
                    to,
                    bytes,
                    layout: Layout::new(size, 1),
                }
            }
            18 => Instruction::Write {
                to: r.operand(),
                val: r.operand(),
            },
            19 => Instruction::Read {
                to: r.variable(),
                from: r.operand(),
                ty: r.kind(),
            },
            20 => Instruction::Copy {
                to: r.operand(),
                from: r.operand(),
                size: r.number() as u32,
            },
            _ => Instruction::Drop {
                var: r.operand(),
                drop: None,
            },
        }
    }

    /// A variable's role in a function becomes its name there; no variable may have two.
    fn role(
        &mut self,
        named: &mut [bool],
        scope: ScopeRef,
        kind: impl Fn(usize) -> VarKind,
    ) -> usize {
        let number = self.size();
        assert!(
            !named[number],
            "outside the oracle's domain: variable {number} has two roles"
        );
        named[number] = true;
        self.variables[number] = Var {
            scope,
            kind: kind(number),
        };
        number
    }

    /// The item and its slots by number: names are known only when all functions are read.
    fn function(&mut self, index: usize, named: &mut [bool]) -> (Item, Vec<(usize, usize)>) {
        let scope = ScopeRef(index);
        let constant = self.flag();
        let entry = self.label();
        self.role(named, scope, |_| VarKind::Return);
        self.role(named, scope, |_| VarKind::Context);
        let return_ptr = self.flag();
        let explicit = |number| Identifier::from(format!("v{number}"));
        let parameters = (0..self.size())
            .map(|_| {
                (
                    explicit(self.role(named, scope, |number| VarKind::Explicit(explicit(number)))),
                    IrType::U8,
                )
            })
            .collect();
        let slots = self.list(|r| (r.size(), r.size()));
        let kind = if constant {
            ItemKind::Constant {
                ty: Type,
                layout: None,
                type_id: 0,
                name: ResolvedName(usize::MAX),
            }
        } else {
            let ir_signature = Signature {
                parameters,
                context: true,
                return_ptr,
                return_type: None,
            };
            ItemKind::Function {
                signature: None,
                ir_signature,
            }
        };
        let item = Item {
            name: name(index),
            scope,
            kind,
            _entry_block: entry,
            variables: vec![],
            blocks: vec![],
            public: true,
        };
        (item, slots)
    }
}

impl Program {
    pub fn new(image: &[u8]) -> Self {
        let mut r = Reader {
            image,
            at: 0,
            variables: vec![],
        };
        let header: Vec<usize> = (0..5).map(|_| r.size()).collect();
        r.variables = (0..header[1])
            .map(|n| Var {
                scope: ScopeRef(usize::MAX),
                kind: VarKind::Tmp(n),
            })
            .collect();
        let constants: Vec<Box<[u8]>> = (0..header[2])
            .map(|_| {
                r.raw()
                    .into_iter()
                    .chain([0])
                    .collect::<Vec<_>>()
                    .into_boxed_slice()
            })
            .collect();
        let mut named = vec![false; header[1]];
        let functions: Vec<_> = (0..header[3])
            .map(|index| r.function(index, &mut named))
            .collect();
        let mut items: Vec<Item> = vec![];
        for (mut item, slots) in functions {
            let slot = |(v, size): (usize, usize)| {
                (
                    r.variables[v].clone(),
                    ValueOrSlot::StackSlot(Layout::new(size, 1)),
                )
            };
            item.variables = slots.into_iter().map(slot).collect();
            items.push(item);
        }
        let blocks: Vec<Block> = (0..header[4])
            .map(|label| Block {
                label: LabelRef(label),
                instructions: r.list(|r| r.instruction()),
            })
            .collect();
        if let Some(first) = items.first_mut() {
            first.blocks = blocks;
        }
        assert_eq!(r.at, image.len());
        let numbers = r
            .variables
            .iter()
            .cloned()
            .enumerate()
            .map(|(number, var)| (var, number))
            .collect();
        let registered = constants.iter().enumerate().map(|(k, bytes)| {
            let name = ResolvedName(k);
            (
                name,
                Constant {
                    name,
                    value: ConstantValue(bytes.as_ptr() as *const ()),
                },
            )
        });
        let runtime = Rt {
            constants: registered.collect(),
        };
        Program {
            items,
            runtime,
            constants,
            numbers,
        }
    }

    /// Each constant's address and length.
    pub fn addresses(&self) -> Vec<(usize, usize)> {
        self.constants
            .iter()
            .map(|bytes| (bytes.as_ptr() as usize, bytes.len() - 1))
            .collect()
    }
}
