//! The sequential machine, one step after another, straight from its page. It shares no decoding and no arithmetic
//! with the core that it checks: words are read field by field at each step, values are worked out over integers.

use crate::engine::{Record, State};

pub struct Sequential {
    pub state: State,
    vector: u32,
    program: Vec<u32>,
    served: u8,
}

enum Judgement {
    Trap(u32),
    Return,
    Write { destination: usize, value: u32, next: u32 },
}

/// `width` bits of the word from `from` upwards.
fn bits(word: u32, from: u32, width: u32) -> i64 {
    i64::from(word) / (1 << from) % (1 << width)
}

/// Two's complement of `width` bits.
fn signed(n: i64, width: u32) -> i64 {
    if n >= 1 << (width - 1) {
        n - (1 << width)
    } else {
        n
    }
}

fn modulo(n: i64) -> u32 {
    n.rem_euclid(1 << 32) as u32
}

impl Sequential {
    pub fn load(words: &[u32], pc: u32, vector: u32, served: u8) -> Sequential {
        Sequential { state: State::new(pc), vector, program: words.to_vec(), served }
    }

    pub fn step(&mut self) -> Record {
        let pc = self.state.pc;
        let inside = pc % 4 == 0 && u64::from(pc) < 4 * self.program.len() as u64;
        let word = if inside { self.program[pc as usize / 4] } else { 0 };
        let judgement = if inside { self.judge(word) } else { Judgement::Trap(1) };
        let vector = self.vector;
        let state = &mut self.state;
        let (destination, value) = match judgement {
            Judgement::Trap(cause) => {
                state.mepc = pc;
                state.mcause = cause;
                state.mpie = state.mie;
                state.mie = false;
                state.pc = vector;
                return Record { pc, word, outcome: 1, destination: 0, value: cause, next: vector };
            }
            Judgement::Return => {
                state.mie = state.mpie;
                state.mpie = true;
                state.pc = state.mepc;
                (0, 0)
            }
            Judgement::Write { destination: 0, next, .. } => {
                state.pc = next;
                (0, 0)
            }
            Judgement::Write { destination, value, next } => {
                state.registers[destination] = value;
                state.pc = next;
                (destination as u8, value)
            }
        };
        let mut outcome = 0;
        if state.line && state.mie {
            state.mepc = state.pc;
            state.mcause = 0x8000_000b;
            state.mpie = true;
            state.mie = false;
            state.pc = vector;
            outcome = 2;
        }
        Record { pc, word, outcome, destination, value, next: state.pc }
    }

    fn judge(&self, word: u32) -> Judgement {
        match word {
            0x0000_0073 => return Judgement::Trap(11),
            0x0010_0073 => return Judgement::Trap(3),
            0x3020_0073 => return Judgement::Return,
            _ => {}
        }
        let opcode = bits(word, 0, 7);
        let funct3 = bits(word, 12, 3);
        let funct7 = bits(word, 25, 7);
        let rd = bits(word, 7, 5) as usize;
        let rs1 = bits(word, 15, 5) as usize;
        let rs2 = bits(word, 20, 5) as usize;
        let pc = i64::from(self.state.pc);
        let a = i64::from(self.state.registers[rs1]);
        let b = i64::from(self.state.registers[rs2]);
        let imm_i = signed(bits(word, 20, 12), 12);
        let imm_b = signed(
            bits(word, 31, 1) * 4096 + bits(word, 7, 1) * 2048 + bits(word, 25, 6) * 32 + bits(word, 8, 4) * 2,
            13,
        );
        let imm_j = signed(
            bits(word, 31, 1) * 1_048_576
                + bits(word, 12, 8) * 4096
                + bits(word, 20, 1) * 2048
                + bits(word, 21, 10) * 2,
            21,
        );
        let imm_u = bits(word, 12, 20) * 4096;
        let (class, destination, value, target) = match opcode {
            0x37 => (0, rd, imm_u, None),
            0x17 => (0, rd, pc + imm_u, None),
            0x6f => (3, rd, pc + 4, Some(pc + imm_j)),
            0x67 if funct3 == 0 => (3, rd, pc + 4, Some((a + imm_i).div_euclid(2) * 2)),
            0x63 => {
                let taken = match funct3 {
                    0 => a == b,
                    1 => a != b,
                    4 => signed(a, 32) < signed(b, 32),
                    5 => signed(a, 32) >= signed(b, 32),
                    6 => a < b,
                    7 => a >= b,
                    _ => return Judgement::Trap(2),
                };
                (3, 0, 0, if taken { Some(pc + imm_b) } else { None })
            }
            0x13 => match plain(funct3, if funct3 % 4 == 1 { funct7 } else { 0 }, a, i64::from(modulo(imm_i))) {
                Some(value) => (0, rd, value, None),
                None => return Judgement::Trap(2),
            },
            0x33 if funct7 == 1 => {
                let (x, y) = (signed(a, 32), signed(b, 32));
                match funct3 {
                    0 => (1, rd, modulo(x.wrapping_mul(y)).into(), None),
                    // over the integers the overflowing division needs no case of its own
                    4 => (2, rd, if b == 0 { -1 } else { x / y }, None),
                    5 => (2, rd, if b == 0 { -1 } else { a / b }, None),
                    6 => (2, rd, if b == 0 { x } else { x % y }, None),
                    7 => (2, rd, if b == 0 { a } else { a % b }, None),
                    _ => return Judgement::Trap(2),
                }
            }
            0x33 => match plain(funct3, funct7, a, b) {
                Some(value) => (0, rd, value, None),
                None => return Judgement::Trap(2),
            },
            _ => return Judgement::Trap(2),
        };
        if self.served >> class & 1 == 0 {
            return Judgement::Trap(2);
        }
        let next = modulo(target.unwrap_or(pc + 4));
        if next % 4 != 0 {
            return Judgement::Trap(0);
        }
        Judgement::Write { destination, value: modulo(value), next }
    }
}

/// The ten operations that opcodes 0x13 and 0x33 share; for 0x13 there is no subtraction, and `funct7` counts for shifts only.
fn plain(funct3: i64, funct7: i64, a: i64, b: i64) -> Option<i64> {
    let power = 1i64 << (b % 32);
    Some(match (funct3, funct7) {
        (0, 0) => a + b,
        (0, 0x20) => a - b,
        (1, 0) => a * power,
        (2, 0) => i64::from(signed(a, 32) < signed(b, 32)),
        (3, 0) => i64::from(a < b),
        (4, 0) => a ^ b,
        (5, 0) => a / power,
        (5, 0x20) => signed(a, 32).div_euclid(power),
        (6, 0) => a | b,
        (7, 0) => a & b,
        _ => return None,
    })
}
