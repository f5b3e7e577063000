//! The core: buffer, stations and register tags over one unit.
//!
//! Sets of slots are the low 16 bits of a `u32` (a `u16` that is loaded together with its neighbour stalls), so that the
//! oldest of a set is one rotation and one count of zeros away.
//! A station has no place of its own: its operands stand in the slot of its entry.

use crate::unit::{Offer, Unit};
use crate::word::{decode, work_out, Instr, Kind, INTERRUPT, OUTSIDE};

const SLOTS: u32 = 16;
const STATIONS: u32 = 8;
const NO_TAG: u8 = 0xff;

#[derive(Clone, Copy, PartialEq, Eq, Debug)]
pub struct Record {
    pub pc: u32,
    pub word: u32,
    pub outcome: u8,
    pub destination: u8,
    pub value: u32,
    pub next: u32,
}

#[derive(Clone, Copy)]
#[repr(align(32))]
struct Entry {
    pc: u32,
    word: u32,
    /// what it writes and brings, or its cause; a misaligned target is cause 0 and brings 0
    value: u32,
    next: u32,
    a: u32,
    b: u32,
    destination: u8,
    result: Kind,
}

/// What programmers see.
#[derive(Clone, Copy, PartialEq, Eq, Debug)]
pub struct State {
    pub registers: [u32; 32],
    pub pc: u32,
    pub mepc: u32,
    pub mcause: u32,
    pub mie: bool,
    pub mpie: bool,
    pub line: bool,
}

impl State {
    pub fn new(pc: u32) -> State {
        State { registers: [0; 32], pc, mepc: 0, mcause: 0, mie: true, mpie: true, line: false }
    }
}

pub struct Core<U> {
    pub state: State,
    vector: u32,
    fetch: u32,
    head: u32,
    count: u32,
    /// slots whose entry is done
    done: u32,
    /// slots whose entry is in a station, all and by class
    stationed: u32,
    by_class: [u32; 4],
    /// slots whose station lacks the first, or the second, operand
    lacks_a: u32,
    lacks_b: u32,
    /// for each slot, the slots whose first, or second, operand it will bring
    feeds_a: [u32; 16],
    feeds_b: [u32; 16],
    tags: [u8; 32],
    entries: [Entry; 16],
    program: Box<[Instr]>,
    unit: U,
}

impl<U: Unit> Core<U> {
    /// A core that has just started.
    pub fn start(words: &[u32], pc: u32, vector: u32) -> Core<U> {
        let idle =
            Entry { pc: 0, word: 0, value: 0, next: 0, a: 0, b: 0, destination: 0, result: Kind::Work };
        Core {
            state: State::new(pc),
            vector,
            fetch: pc,
            head: 0,
            count: 0,
            done: 0,
            stationed: 0,
            by_class: [0; 4],
            lacks_a: 0,
            lacks_b: 0,
            feeds_a: [0; 16],
            feeds_b: [0; 16],
            tags: [NO_TAG; 32],
            entries: [idle; 16],
            program: words.iter().map(|&word| decode(word, U::SERVES)).collect(),
            unit: U::new(),
        }
    }

    #[inline(always)]
    pub fn issue(&mut self) -> Result<u8, u8> {
        if self.count == SLOTS {
            return Err(10);
        }
        let instr = match self.program.get((self.fetch >> 2) as usize) {
            Some(instr) => instr,
            None => &OUTSIDE,
        };
        let slot = ((self.head + self.count) & 15) as usize;
        let bit = 1u32 << slot;
        let pc = self.fetch;
        if instr.kind == Kind::Work {
            if self.stationed.count_ones() == STATIONS {
                return Err(11);
            }
            let mut a = 0;
            let mut b = instr.imm;
            match self.source(instr.rs1) {
                Ok(value) => a = value,
                Err(tag) => {
                    self.lacks_a |= bit;
                    self.feeds_a[tag] |= bit;
                }
            }
            if !instr.second_is_imm {
                match self.source(instr.rs2) {
                    Ok(value) => b = value,
                    Err(tag) => {
                        self.lacks_b |= bit;
                        self.feeds_b[tag] |= bit;
                    }
                }
            }
            if instr.rd != 0 {
                self.tags[(instr.rd & 31) as usize] = slot as u8;
            }
            self.stationed |= bit;
            self.by_class[(instr.class & 3) as usize] |= bit;
            self.done &= !bit;
            let entry = &mut self.entries[slot];
            entry.pc = pc;
            entry.word = instr.word;
            entry.a = a;
            entry.b = b;
            entry.destination = instr.rd;
        } else {
            self.done |= bit;
            let entry = &mut self.entries[slot];
            entry.pc = pc;
            entry.word = instr.word;
            entry.value = instr.imm;
            entry.destination = 0;
            entry.result = instr.kind;
        }
        // nobody can wait for an entry before it is there
        self.feeds_a[slot] = 0;
        self.feeds_b[slot] = 0;
        self.count += 1;
        self.fetch = pc.wrapping_add(4);
        Ok(slot as u8)
    }

    /// The value of a source register, or the slot that will bring it.
    #[inline(always)]
    fn source(&self, register: u8) -> Result<u32, usize> {
        let register = (register & 31) as usize;
        let tag = self.tags[register];
        if tag == NO_TAG {
            return Ok(self.state.registers[register]);
        }
        let slot = (tag & 15) as usize;
        if self.done >> slot & 1 == 1 {
            Ok(self.entries[slot].value)
        } else {
            Err(slot)
        }
    }

    #[inline(always)]
    pub fn dispatch(&mut self) -> Result<u8, u8> {
        let ready = self.stationed & !(self.lacks_a | self.lacks_b);
        if ready == 0 {
            return Err(12);
        }
        let rooms = self.unit.rooms();
        let mut roomy = self.stationed;
        if rooms != U::SERVES {
            for class in 0..4 {
                if rooms >> class & 1 == 0 {
                    roomy &= !self.by_class[class];
                }
            }
        }
        let able = ready & roomy;
        let able = (able << 16 | able) >> self.head & 0xffff;
        let stuck = (self.stationed & !roomy) >> self.head & 1 == 1;
        if able == 0 || stuck {
            return Err(12);
        }
        let slot = (able.trailing_zeros() + self.head & 15) as usize;
        let entry = &self.entries[slot];
        // only words of the program have a station
        let instr = &self.program[(entry.pc >> 2) as usize];
        let outcome = work_out(instr, entry.pc, entry.a, entry.b);
        self.unit.take(instr.class, Offer { tag: slot as u8, outcome });
        self.stationed &= !(1 << slot);
        self.by_class[(instr.class & 3) as usize] &= !(1 << slot);
        Ok(slot as u8)
    }

    #[inline(always)]
    pub fn complete(&mut self) -> Option<u8> {
        let offer = self.unit.offer();
        self.unit.step(true);
        let Offer { tag, outcome } = offer?;
        let slot = (tag & 15) as usize;
        let entry = &mut self.entries[slot];
        entry.value = outcome.value;
        entry.next = outcome.next;
        entry.result = if outcome.misaligned { Kind::Trap } else { Kind::Work };
        self.done |= 1 << slot;
        let mut fed = self.feeds_a[slot];
        self.lacks_a &= !fed;
        while fed != 0 {
            self.entries[(fed.trailing_zeros() & 15) as usize].a = outcome.value;
            fed &= fed - 1;
        }
        let mut fed = self.feeds_b[slot];
        self.lacks_b &= !fed;
        while fed != 0 {
            self.entries[(fed.trailing_zeros() & 15) as usize].b = outcome.value;
            fed &= fed - 1;
        }
        Some(tag)
    }

    #[inline(always)]
    pub fn retire(&mut self) -> Result<Record, u8> {
        if self.count == 0 {
            return Err(13);
        }
        let slot = (self.head & 15) as usize;
        if self.done >> slot & 1 == 0 {
            return Err(14);
        }
        let Entry { pc, word, value, next, destination, result, .. } = self.entries[slot];
        let state = &mut self.state;
        let mut record = Record { pc, word, outcome: 0, destination: 0, value: 0, next };
        let mut diverts = true;
        match result {
            Kind::Trap => {
                state.mepc = pc;
                state.mcause = value;
                state.mpie = state.mie;
                state.mie = false;
                record.outcome = 1;
                record.value = value;
                record.next = self.vector;
            }
            Kind::Return => {
                state.mie = state.mpie;
                state.mpie = true;
                record.next = state.mepc;
            }
            Kind::Work => {
                if destination != 0 {
                    state.registers[(destination & 31) as usize] = value;
                    record.destination = destination;
                    record.value = value;
                }
                diverts = next != pc.wrapping_add(4);
            }
        }
        if state.line && state.mie && record.outcome == 0 {
            state.mepc = record.next;
            state.mcause = INTERRUPT;
            state.mpie = true;
            state.mie = false;
            record.outcome = 2;
            record.next = self.vector;
            diverts = true;
        }
        state.pc = record.next;
        if diverts {
            self.empty();
        } else {
            // register 0 has no tag, so it needs no test
            let tag = &mut self.tags[(destination & 31) as usize];
            if *tag == slot as u8 {
                *tag = NO_TAG;
            }
            self.head = self.head + 1 & 15;
            self.count -= 1;
        }
        Ok(record)
    }

    fn empty(&mut self) {
        self.head = 0;
        self.count = 0;
        self.stationed = 0;
        self.by_class = [0; 4];
        self.lacks_a = 0;
        self.lacks_b = 0;
        self.tags = [NO_TAG; 32];
        self.fetch = self.state.pc;
        self.unit.clear();
    }

    #[inline(always)]
    pub fn cycle(&mut self) -> Option<Record> {
        let record = self.retire().ok();
        self.complete();
        let _ = self.dispatch();
        let _ = self.issue();
        record
    }

    /// Cycles made and retirements among them.
    pub fn run(&mut self, wanted: u64, budget: u64) -> (u64, u64) {
        let mut cycles = 0;
        let mut retirements = 0;
        while retirements < wanted && cycles < budget {
            retirements += u64::from(self.cycle().is_some());
            cycles += 1;
        }
        (cycles, retirements)
    }
}
