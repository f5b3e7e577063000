"""What QEMU did on a program, as records of the machine."""
from dataclasses import dataclass, field

from .simulator import INTERRUPT, Simulator
from .words import destination, foreign, operation

PLAIN, TRAPPED, INTERRUPTED = 0, 1, 2


@dataclass
class Program:
    name: str
    words: list
    pc: int = 0
    # outside: a run that leaves the program ends there
    vector: int = 0x1000
    # (retirement, whether the line is up from it on)
    line: list = field(default_factory=list)
    limit: int = 400

    def line_at(self, number):
        """How the line stands when that retirement is made; they are counted from 0."""
        return ([False] + [up for after, up in self.line if after <= number])[-1]


@dataclass
class Record:
    pc: int
    word: int
    outcome: int
    destination: int
    value: int
    next: int

    def text(self):
        return (f"{self.pc:08x} {self.word:08x} {self.outcome} {self.destination} "
                f"{self.value:08x} {self.next:08x}")


@dataclass
class Run:
    program: Program
    records: list
    # after the last record
    registers: list
    mepc: int
    mcause: int
    mie: int
    mpie: int


def retirement(program, before, after, cause):
    """The record of a step that was no interrupt, from the registers on either side of it."""
    pc, following = before[32], after[32]
    inside = pc % 4 == 0 and pc // 4 < len(program.words)
    word = program.words[pc // 4] if inside else 0
    if cause is not None:
        assert after[:32] == before[:32], (program.name, hex(pc))
        return Record(pc, word, TRAPPED, 0, cause, following)
    assert inside, (program.name, hex(pc))
    rd = destination(word)
    changed = [n for n in range(32) if after[n] != before[n]]
    assert changed in ([], [rd]), (program.name, hex(pc), changed)
    return Record(pc, word, PLAIN, rd, after[rd] if rd else 0, following)


def stuck(records):
    """Whether it makes the same step again and again."""
    return len(records) >= 3 and records[-1] == records[-2] == records[-3]


def run(program):
    """Runs the program up to its limit, or until it is stuck with a line that moves no more."""
    assert not any(foreign(w) for w in program.words), program.name
    assert all(a[0] < b[0] for a, b in zip(program.line, program.line[1:])), program.name
    moves = max((after for after, _ in program.line), default=-1)
    records, mcause = [], 0
    with Simulator(program.words, program.pc, program.vector) as simulator:
        before, line = simulator.registers(), False
        while True:
            cause = simulator.step()
            after = simulator.registers()
            if cause == INTERRUPT:
                # QEMU takes an interrupt as a step of its own; for the machine it ends the retirement before it
                last = records[-1]
                assert last.outcome == PLAIN and after[:32] == before[:32] and last.next == before[32], program.name
                last.outcome, last.next = INTERRUPTED, after[32]
                end = after, *simulator.trap_state(), cause
            # one step more than the limit: only that shows whether an interrupt follows the last retirement
            elif len(records) == program.limit or stuck(records) and moves < len(records) - 1:
                break
            else:
                records.append(retirement(program, before, after, cause))
                if cause is None and operation(records[-1].word) == "mret":
                    simulator.stay_in_machine_mode()
                now = program.line_at(len(records) - 1)
                if now != line:
                    simulator.line(now)
                    line = now
                end = after, *simulator.trap_state(), mcause if cause is None else cause
            before, mcause = after, end[-1]
    registers, mepc, mie, mpie, mcause = end
    return Run(program, records, registers, mepc, mcause, mie, mpie)
