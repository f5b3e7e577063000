//! A second core, written from docs/ alone and proved in nothing, that takes the input of the program
//! `replay` and prints its output. Build it by `rustc -C opt-level=3 bench/twin.rs`.

mod engine;
mod sequential;
mod unit;
mod word;

use engine::{Core, Record};
use sequential::Sequential;
use std::io::{self, Read, Write};
use unit::{All, Deep, Divider, Multiplier, Plain, Unit};

enum Call {
    Issue,
    Dispatch,
    Complete,
    Retire,
    Cycle,
    Run(u64, u64),
    Raise,
    Drop,
}

struct Settings {
    pc: u32,
    vector: u32,
    unit: String,
    check: bool,
}

fn fail(what: &str) -> ! {
    eprintln!("twin: {what}");
    std::process::exit(1)
}

/// Decimal, or hex after `0x`.
fn number(text: &str) -> Option<u64> {
    let (digits, base) = match text.strip_prefix("0x") {
        Some(digits) => (digits, 16),
        None => (text, 10),
    };
    // the library takes a sign
    if digits.starts_with('+') {
        return None;
    }
    u64::from_str_radix(digits, base).ok()
}

fn settings() -> Settings {
    let mut found = Settings { pc: 0, vector: 0, unit: "all".into(), check: false };
    let mut arguments = std::env::args().skip(1);
    while let Some(name) = arguments.next() {
        if name == "--check" {
            found.check = true;
            continue;
        }
        let Some(value) = arguments.next() else { fail(&format!("`{name}` has no value")) };
        let address = || match number(&value).and_then(|n| u32::try_from(n).ok()) {
            Some(n) => n,
            None => fail(&format!("`{name} {value}`: no address")),
        };
        match name.as_str() {
            "--pc" => found.pc = address(),
            "--vector" => found.vector = address(),
            "--unit" => found.unit = value,
            _ => fail(&format!("`{name}`: unknown argument")),
        }
    }
    found
}

fn program_word(text: &str) -> Option<u32> {
    let digits = text.strip_prefix("0x").unwrap_or(text);
    if digits.is_empty() || digits.len() > 8 || !digits.bytes().all(|byte| byte.is_ascii_hexdigit()) {
        return None;
    }
    u32::from_str_radix(digits, 16).ok()
}

fn call(text: &str) -> Option<Call> {
    let mut parts = text.split_ascii_whitespace();
    let call = match parts.next()? {
        "issue" => Call::Issue,
        "dispatch" => Call::Dispatch,
        "complete" => Call::Complete,
        "retire" => Call::Retire,
        "cycle" => Call::Cycle,
        "run" => Call::Run(number(parts.next()?)?, number(parts.next()?)?),
        "raise" => Call::Raise,
        "drop" => Call::Drop,
        _ => return None,
    };
    if parts.next().is_some() {
        return None;
    }
    Some(call)
}

/// The words, the calls, and the first bad line, which ends both.
fn input(text: &str) -> (Vec<u32>, Vec<Call>, Option<String>) {
    let mut words = Vec::new();
    let mut calls = Vec::new();
    for (index, line) in text.lines().enumerate() {
        let line = line.split('#').next().unwrap_or("").trim();
        if line.is_empty() {
            continue;
        }
        if calls.is_empty() {
            if let Some(word) = program_word(line) {
                words.push(word);
                continue;
            }
        }
        match call(line) {
            Some(call) => calls.push(call),
            None => return (words, calls, Some(format!("line {}: `{line}`", index + 1))),
        }
    }
    (words, calls, None)
}

/// A page that goes out when it is nearly full.
struct Page {
    bytes: Vec<u8>,
}

const PAGE: usize = 1 << 16;

impl Page {
    fn text(&mut self, text: &str) {
        self.bytes.extend_from_slice(text.as_bytes());
    }

    fn decimal(&mut self, mut n: u64) {
        let mut digits = [0u8; 20];
        let mut at = digits.len();
        loop {
            at -= 1;
            digits[at] = b'0' + (n % 10) as u8;
            n /= 10;
            if n == 0 {
                break;
            }
        }
        self.bytes.extend_from_slice(&digits[at..]);
    }

    fn hex(&mut self, n: u32) {
        let mut digits = [0u8; 8];
        for (place, digit) in digits.iter_mut().enumerate() {
            *digit = b"0123456789abcdef"[(n >> (28 - 4 * place) & 15) as usize];
        }
        self.bytes.extend_from_slice(&digits);
    }

    fn record(&mut self, record: &Record) {
        self.text(" ");
        self.hex(record.pc);
        self.text(" ");
        self.hex(record.word);
        self.text(" ");
        self.decimal(record.outcome.into());
        self.text(" ");
        self.decimal(record.destination.into());
        self.text(" ");
        self.hex(record.value);
        self.text(" ");
        self.hex(record.next);
    }

    fn tagged(&mut self, name: &str, answer: Result<u8, u8>) {
        self.text(name);
        let (between, number) = match answer {
            Ok(tag) => (" ", tag),
            Err(number) => (" refused ", number),
        };
        self.text(between);
        self.decimal(number.into());
    }

    fn line(&mut self) {
        self.bytes.push(b'\n');
        if self.bytes.len() > PAGE - 128 {
            self.flush();
        }
    }

    fn flush(&mut self) {
        if io::stdout().write_all(&self.bytes).is_err() {
            std::process::exit(1)
        }
        self.bytes.clear();
    }
}

/// Under `--check`: the sequential machine beside the core, and the longest wait.
struct Check {
    machine: Sequential,
    longest_wait: u64,
    /// cycle calls since the last reported retirement
    waited: u64,
}

impl Check {
    fn differ(what: &str) -> ! {
        eprintln!("twin: check: {what}");
        std::process::exit(3)
    }

    fn retired(&mut self, record: &Record) {
        self.waited = 0;
        let expected = self.machine.step();
        if expected != *record {
            Check::differ(&format!("the core retired {record:x?}, the machine {expected:x?}"))
        }
    }

    fn cycled(&mut self, record: Option<&Record>) {
        match record {
            Some(record) => self.retired(record),
            None => {
                self.waited += 1;
                if self.waited >= self.longest_wait {
                    Check::differ(&format!("{} cycle calls without a retirement", self.waited))
                }
            }
        }
    }

    /// A run, cycle by cycle.
    fn run<U: Unit>(&mut self, core: &mut Core<U>, wanted: u64, budget: u64) -> (u64, u64) {
        let mut cycles = 0;
        let mut retirements = 0;
        while retirements < wanted && cycles < budget {
            if let Some(record) = core.cycle() {
                self.retired(&record);
                retirements += 1;
            }
            cycles += 1;
        }
        let bound = u128::from(wanted) * u128::from(self.longest_wait);
        if bound <= u128::from(budget) && (retirements != wanted || u128::from(cycles) > bound) {
            Check::differ(&format!("run {wanted} {budget} made {cycles} cycles and {retirements} retirements"))
        }
        (cycles, retirements)
    }
}

fn replay<U: Unit>(words: &[u32], calls: &[Call], bad: Option<String>, settings: &Settings) {
    let mut core: Core<U> = Core::start(words, settings.pc, settings.vector);
    let mut check = settings.check.then(|| Check {
        machine: Sequential::load(words, settings.pc, settings.vector, U::SERVES),
        longest_wait: (U::STAY + 3).max(2 * U::STAY + 1),
        waited: 0,
    });
    let mut page = Page { bytes: Vec::with_capacity(PAGE) };
    for call in calls {
        match *call {
            Call::Issue => page.tagged("issue", core.issue()),
            Call::Dispatch => page.tagged("dispatch", core.dispatch()),
            Call::Complete => match core.complete() {
                Some(tag) => page.tagged("complete", Ok(tag)),
                None => page.text("complete nothing"),
            },
            Call::Retire => {
                page.text("retire");
                match core.retire() {
                    Ok(record) => {
                        page.record(&record);
                        if let Some(check) = &mut check {
                            check.retired(&record);
                        }
                    }
                    Err(number) => page.tagged("", Err(number)),
                }
            }
            Call::Cycle => {
                page.text("cycle");
                let record = core.cycle();
                match &record {
                    Some(record) => page.record(record),
                    None => page.text(" nothing"),
                }
                if let Some(check) = &mut check {
                    check.cycled(record.as_ref());
                }
            }
            Call::Run(wanted, budget) => {
                let (cycles, retirements) = match &mut check {
                    Some(check) => check.run(&mut core, wanted, budget),
                    None => core.run(wanted, budget),
                };
                page.text("run ");
                page.decimal(cycles);
                page.text(" ");
                page.decimal(retirements);
            }
            Call::Raise | Call::Drop => {
                let up = matches!(call, Call::Raise);
                core.state.line = up;
                if let Some(check) = &mut check {
                    check.machine.state.line = up;
                }
                page.text(if up { "raise" } else { "drop" });
            }
        }
        page.line();
        if let Some(check) = &check {
            if check.machine.state != core.state {
                Check::differ(&format!("the core is {:x?}, the machine {:x?}", core.state, check.machine.state))
            }
        }
    }
    if let Some(line) = bad {
        // what was answered before it counts
        page.flush();
        fail(&line)
    }
    let state = &core.state;
    for (name, word) in [("pc ", state.pc), ("mepc ", state.mepc), ("mcause ", state.mcause)] {
        page.text(name);
        page.hex(word);
        page.line();
    }
    for (name, bit) in [("mie ", state.mie), ("mpie ", state.mpie), ("line ", state.line)] {
        page.text(name);
        page.decimal(bit.into());
        page.line();
    }
    for (register, &value) in state.registers.iter().enumerate() {
        if value != 0 {
            page.text("x");
            page.decimal(register as u64);
            page.text(" ");
            page.hex(value);
            page.line();
        }
    }
    page.flush();
}

fn main() {
    let settings = settings();
    let mut text = String::new();
    if io::stdin().lock().read_to_string(&mut text).is_err() {
        fail("standard input cannot be read");
    }
    let (words, calls, bad) = input(&text);
    if words.len() > 1024 {
        fail("load refused: 1 overlong");
    }
    if settings.pc % 4 != 0 || settings.vector % 4 != 0 {
        fail("load refused: 2 skew");
    }
    match settings.unit.as_str() {
        "plain" => replay::<Plain>(&words, &calls, bad, &settings),
        "multiplier" => replay::<Multiplier>(&words, &calls, bad, &settings),
        "divider" => replay::<Divider>(&words, &calls, bad, &settings),
        "all" => replay::<All>(&words, &calls, bad, &settings),
        "deep" => replay::<Deep>(&words, &calls, bad, &settings),
        other => fail(&format!("`--unit {other}`: unknown unit")),
    }
}
