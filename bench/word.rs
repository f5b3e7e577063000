//! Instruction words, decoded once when the program is loaded.

/// What a unit works out. Register-immediate operations are their register-register twins: the
/// immediate comes in as the second operand.
#[derive(Clone, Copy, PartialEq, Eq, Debug)]
#[repr(u8)]
pub enum Op {
    Lui,
    Auipc,
    Jal,
    Jalr,
    Beq,
    Bne,
    Blt,
    Bge,
    Bltu,
    Bgeu,
    Add,
    Sub,
    Sll,
    Slt,
    Sltu,
    Xor,
    Srl,
    Sra,
    Or,
    And,
    Mul,
    Div,
    Divu,
    Rem,
    Remu,
}

/// What issue makes of a word.
#[derive(Clone, Copy, PartialEq, Eq, Debug)]
#[repr(u8)]
pub enum Kind {
    /// it goes through a station and a unit
    Work,
    /// it is done at once, with `imm` as its cause
    Trap,
    /// MRET
    Return,
}

#[derive(Clone, Copy, Debug)]
pub struct Instr {
    pub word: u32,
    pub imm: u32,
    pub op: Op,
    pub kind: Kind,
    pub class: u8,
    pub rd: u8,
    pub rs1: u8,
    pub rs2: u8,
    /// the second operand is the immediate
    pub second_is_imm: bool,
}

pub const ACCESS: u32 = 1;
pub const ILLEGAL: u32 = 2;
pub const BREAKPOINT: u32 = 3;
pub const ENVIRONMENT: u32 = 11;
pub const INTERRUPT: u32 = 0x8000_000b;

impl Instr {
    pub const fn trap(word: u32, cause: u32) -> Instr {
        Instr {
            word,
            imm: cause,
            op: Op::Add,
            kind: Kind::Trap,
            class: 0,
            rd: 0,
            rs1: 0,
            rs2: 0,
            second_is_imm: false,
        }
    }
}

/// What stands at every address outside the program.
pub static OUTSIDE: Instr = Instr::trap(0, ACCESS);

/// The word as issue sees it over units that serve the classes in the bits of `served`.
pub fn decode(word: u32, served: u8) -> Instr {
    match word {
        0x0000_0073 => return Instr::trap(word, ENVIRONMENT),
        0x0010_0073 => return Instr::trap(word, BREAKPOINT),
        0x3020_0073 => {
            let mut back = Instr::trap(word, 0);
            back.kind = Kind::Return;
            return back;
        }
        _ => {}
    }
    match classed(word) {
        Some(instr) if served >> instr.class & 1 == 1 => instr,
        _ => Instr::trap(word, ILLEGAL),
    }
}

fn classed(word: u32) -> Option<Instr> {
    let rd = (word >> 7 & 31) as u8;
    let funct3 = word >> 12 & 7;
    let rs1 = (word >> 15 & 31) as u8;
    let rs2 = (word >> 20 & 31) as u8;
    let funct7 = word >> 25;
    let signed = word as i32;
    let make = |op, class, rd, rs1, rs2, imm, second_is_imm| {
        Some(Instr { word, imm, op, kind: Kind::Work, class, rd, rs1, rs2, second_is_imm })
    };
    match word & 0x7f {
        0x37 => make(Op::Lui, 0, rd, 0, 0, word & 0xffff_f000, false),
        0x17 => make(Op::Auipc, 0, rd, 0, 0, word & 0xffff_f000, false),
        0x6f => {
            let imm = ((signed >> 31) as u32) << 20
                | (word >> 12 & 0xff) << 12
                | (word >> 20 & 1) << 11
                | (word >> 21 & 0x3ff) << 1;
            make(Op::Jal, 3, rd, 0, 0, imm, false)
        }
        0x67 if funct3 == 0 => make(Op::Jalr, 3, rd, rs1, 0, (signed >> 20) as u32, false),
        0x63 => {
            let op = match funct3 {
                0 => Op::Beq,
                1 => Op::Bne,
                4 => Op::Blt,
                5 => Op::Bge,
                6 => Op::Bltu,
                7 => Op::Bgeu,
                _ => return None,
            };
            let imm = ((signed >> 31) as u32) << 12
                | (word >> 7 & 1) << 11
                | (word >> 25 & 0x3f) << 5
                | (word >> 8 & 0xf) << 1;
            make(op, 3, 0, rs1, rs2, imm, false)
        }
        0x13 => {
            let whole = (signed >> 20) as u32;
            let shift = u32::from(rs2);
            let (op, imm) = match (funct3, funct7) {
                (0, _) => (Op::Add, whole),
                (2, _) => (Op::Slt, whole),
                (3, _) => (Op::Sltu, whole),
                (4, _) => (Op::Xor, whole),
                (6, _) => (Op::Or, whole),
                (7, _) => (Op::And, whole),
                (1, 0) => (Op::Sll, shift),
                (5, 0) => (Op::Srl, shift),
                (5, 0x20) => (Op::Sra, shift),
                _ => return None,
            };
            make(op, 0, rd, rs1, 0, imm, true)
        }
        0x33 => {
            let (op, class) = match (funct7, funct3) {
                (0, 0) => (Op::Add, 0),
                (0x20, 0) => (Op::Sub, 0),
                (0, 1) => (Op::Sll, 0),
                (0, 2) => (Op::Slt, 0),
                (0, 3) => (Op::Sltu, 0),
                (0, 4) => (Op::Xor, 0),
                (0, 5) => (Op::Srl, 0),
                (0x20, 5) => (Op::Sra, 0),
                (0, 6) => (Op::Or, 0),
                (0, 7) => (Op::And, 0),
                (1, 0) => (Op::Mul, 1),
                (1, 4) => (Op::Div, 2),
                (1, 5) => (Op::Divu, 2),
                (1, 6) => (Op::Rem, 2),
                (1, 7) => (Op::Remu, 2),
                _ => return None,
            };
            make(op, class, rd, rs1, rs2, 0, false)
        }
        _ => None,
    }
}

/// What a unit brings: a value and the next address, or a misaligned target.
#[derive(Clone, Copy, Default, Debug)]
pub struct Outcome {
    pub value: u32,
    pub next: u32,
    pub misaligned: bool,
}

#[inline(always)]
pub fn work_out(instr: &Instr, pc: u32, a: u32, b: u32) -> Outcome {
    let on = pc.wrapping_add(4);
    let plain = |value| Outcome { value, next: on, misaligned: false };
    let go = |value, target: u32| {
        if target & 3 == 0 {
            Outcome { value, next: target, misaligned: false }
        } else {
            Outcome { value: 0, next: 0, misaligned: true }
        }
    };
    let branch = |taken| if taken { go(0, pc.wrapping_add(instr.imm)) } else { plain(0) };
    match instr.op {
        Op::Lui => plain(instr.imm),
        Op::Auipc => plain(pc.wrapping_add(instr.imm)),
        Op::Jal => go(on, pc.wrapping_add(instr.imm)),
        Op::Jalr => go(on, a.wrapping_add(instr.imm) & !1),
        Op::Beq => branch(a == b),
        Op::Bne => branch(a != b),
        Op::Blt => branch((a as i32) < b as i32),
        Op::Bge => branch(a as i32 >= b as i32),
        Op::Bltu => branch(a < b),
        Op::Bgeu => branch(a >= b),
        Op::Add => plain(a.wrapping_add(b)),
        Op::Sub => plain(a.wrapping_sub(b)),
        Op::Sll => plain(a << (b & 31)),
        Op::Slt => plain(u32::from((a as i32) < b as i32)),
        Op::Sltu => plain(u32::from(a < b)),
        Op::Xor => plain(a ^ b),
        Op::Srl => plain(a >> (b & 31)),
        Op::Sra => plain((a as i32 >> (b & 31)) as u32),
        Op::Or => plain(a | b),
        Op::And => plain(a & b),
        Op::Mul => plain(a.wrapping_mul(b)),
        Op::Div if b == 0 => plain(u32::MAX),
        Op::Div => plain((a as i32).wrapping_div(b as i32) as u32),
        Op::Divu => plain(if b == 0 { u32::MAX } else { a / b }),
        Op::Rem if b == 0 => plain(a),
        Op::Rem => plain((a as i32).wrapping_rem(b as i32) as u32),
        Op::Remu => plain(if b == 0 { a } else { a % b }),
    }
}
