//! Instructions as their code words, and what each one does in a step (docs/FORMATS.md, "Instructions").

use crate::event::Event;

/// The code word of an instruction: the opcode in bits 0 to 7, registers A, B, C from 8, 12 and 16 on, the number I in 32 to 63.
#[derive(Clone, Copy)]
pub struct Instruction(pub u64);

pub type Registers = [u32; 16];

pub const JMP: u8 = 15;
pub const JZ: u8 = 16;
pub const JNZ: u8 = 17;
pub const NEXT: u8 = 28;
pub const DONE: u8 = 29;

/// What the machine has to do for an instruction that does more than set a register.
pub enum Act {
    /// Go on at this offset.
    Go(u32),
    Load,
    Store,
    Out,
    Send,
    Arm,
    Stop,
    /// The chain goes on with this task.
    Next(u32),
    Done,
    Trap,
}

impl Instruction {
    pub fn new(operation: u8, a: u8, b: u8, c: u8, number: u32) -> Instruction {
        let registers = u64::from(a) << 8 | u64::from(b) << 12 | u64::from(c) << 16;
        Instruction(u64::from(operation) | registers | u64::from(number) << 32)
    }

    pub fn operation(self) -> u8 {
        self.0 as u8
    }

    pub fn a(self) -> usize {
        (self.0 >> 8 & 15) as usize
    }

    pub fn b(self) -> usize {
        (self.0 >> 12 & 15) as usize
    }

    pub fn c(self) -> usize {
        (self.0 >> 16 & 15) as usize
    }

    pub fn number(self) -> u32 {
        (self.0 >> 32) as u32
    }

    pub fn with_number(self, number: u32) -> Instruction {
        Instruction(self.0 & 0xffff_ffff | u64::from(number) << 32)
    }

    pub fn is_jump(self) -> bool {
        matches!(self.operation(), JMP | JZ | JNZ)
    }

    /// Does what the instruction at an offset does to the registers, and tells what else there is to do.
    #[inline]
    pub fn act(self, offset: u32, registers: &mut Registers, event: &Event, time: u64) -> Act {
        let on = Act::Go(offset + 1);
        let a = registers[self.a()];
        let b = registers[self.b()];
        let c = registers[self.c()];
        let value = match self.operation() {
            1 => self.number(),
            2 => b,
            3 => b.wrapping_add(c),
            4 => b.wrapping_sub(c),
            5 => b.wrapping_mul(c),
            6 => b & c,
            7 => b | c,
            8 => b ^ c,
            9 => b << (c % 32),
            10 => b >> (c % 32),
            11 if c != 0 => b / c,
            12 if c != 0 => b % c,
            13 => u32::from(b < c),
            14 => u32::from(b == c),
            JMP => return Act::Go(self.number()),
            JZ => return if a == 0 { Act::Go(self.number()) } else { on },
            JNZ => return if a != 0 { Act::Go(self.number()) } else { on },
            18 => event.value,
            19 => event.origin.kind(),
            20 => event.origin.number(),
            21 => time as u32,
            22 => return Act::Load,
            23 => return Act::Store,
            24 => return Act::Out,
            25 => return Act::Send,
            26 => return Act::Arm,
            27 => return Act::Stop,
            NEXT => return Act::Next(self.number()),
            DONE => return Act::Done,
            _ => return Act::Trap,
        };
        registers[self.a()] = value;
        on
    }
}
